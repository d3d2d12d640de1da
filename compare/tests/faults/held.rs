//! What a faulty engine lets sessions hold.

use super::seen::{with_eased_conflicts, without_conflicts};
use super::Fault::{self, *};
use super::Faulty;
use helvemoik_compare::boundary::*;
use helvemoik_compare::engine::Engine;
use helvemoik_compare::plain::formula::with_juniors;
use helvemoik_compare::plain::Plain;

/// The calls that take a set.
#[derive(Clone, Copy, PartialEq, Eq)]
pub enum Move {
    Open,
    Add,
    Drop,
}

impl Faulty {
    /// Such a call as an engine with this fault answers it.
    pub fn taking(
        &self,
        which: Move,
        board: &Board,
        policy: &PolicyValue,
        user: u32,
        session: u32,
        set: u32,
    ) -> Step {
        let (takes_over, call): (_, fn(&_, &_, &_, _, _, _) -> _) = match which {
            Move::Open => (OpenTakesABoardOver, <Plain as Engine>::open),
            Move::Add => (AddTakesABoardOver, <Plain as Engine>::add),
            Move::Drop => (DropTakesABoardOver, <Plain as Engine>::drop),
        };
        let call = |policy: &PolicyValue| call(&Plain, board, policy, user, session, set);
        let due = self.on_board(takes_over, board, policy, call);
        let judged = match self.0 {
            Tests23Before19 => vec![DONE, 19, 23],
            Tests23Before16 => vec![DONE, 16, 23],
            _ => vec![DONE, 23],
        };
        if !judged.contains(&due.answer) {
            return due;
        }
        let before = match which {
            Move::Open => 0,
            _ => board.sessions[session as usize].held,
        };
        let free = call(&without_conflicts(policy));
        match self.refuses(which, board, policy, user, before, set) {
            true if self.0 == KeepsWhat23Refuses => Step {
                answer: 23,
                board: free.board,
            },
            true => Step {
                answer: 23,
                board: *board,
            },
            false => free,
        }
    }

    /// Whether the call of a user, on a session that holds a set before it, gets 23.
    fn refuses(
        &self,
        which: Move,
        board: &Board,
        policy: &PolicyValue,
        user: u32,
        before: u32,
        set: u32,
    ) -> bool {
        let conflicts = &policy.conflicts.entries[..policy.conflicts.count];
        let over = |held: u32| {
            conflicts
                .iter()
                .any(|conflict| counted(conflict, held) > conflict.most)
        };
        let any = |found: &dyn Fn(&Conflict) -> bool| conflicts.iter().any(found);
        let held = before | set;
        match (self.0, which) {
            (DropTests23, Move::Drop) => over(held),
            (OpensOverAConflict, Move::Open) | (AddsOverAConflict, Move::Add) | (_, Move::Drop) => {
                false
            }
            (RefusesTheMostAllowed, _) => any(&|c| counted(c, held) >= c.most.max(1)),
            (AllowsOneMore, _) => any(&|c| counted(c, held) > c.most + 1),
            (MissesAMostOfNone, _) => any(&|c| c.most > 0 && counted(c, held) > c.most),
            (ForbidsAllByNoValues, _) => over(held) || any(&|c| c.set | c.most == 0),
            (HeedsTheFirstConflict, _) => {
                conflicts.first().is_some_and(|c| counted(c, held) > c.most)
            }
            (HeedsTheLastConflict, _) => {
                conflicts.last().is_some_and(|c| counted(c, held) > c.most)
            }
            (CountsJuniors, _) => over(with_juniors(&policy.user, held)),
            (CountsOnlyWhatIsAdded, _) => over(set),
            (CountsWhatIsAddedTwice, _) => any(&|c| counted(c, before) + counted(c, set) > c.most),
            (CountsAllSessionsOfAUser, _) => over(held | held_by(board, user)),
            (CountsWhatIsAssigned, _) => over(held | assigned(policy, user)),
            _ => over(held),
        }
    }

    /// A call as an engine with this fault answers it that may be at fault in check 11 of
    /// boards; by the one named, this very call takes every board that is over a conflict.
    pub fn on_board(
        &self,
        takes_over: Fault,
        board: &Board,
        policy: &PolicyValue,
        call: impl Fn(&PolicyValue) -> Step,
    ) -> Step {
        let due = call(policy);
        let bad = Step {
            answer: 11,
            board: *board,
        };
        match self.0 {
            fault if fault == takes_over && due.answer == 11 => call(&without_conflicts(policy)),
            TakesABoardOverByOne if due.answer == 11 => call(&with_eased_conflicts(policy)),
            JudgesClosedEntries if over_somewhere(policy, board, |entry| entry.held) => bad,
            JudgesBoardsWithJuniors
                if over_somewhere(policy, board, |entry| match entry.is_open() {
                    true => with_juniors(&policy.user, entry.held),
                    false => 0,
                }) =>
            {
                bad
            }
            _ => due,
        }
    }
}

/// How many values of a conflict a set has.
fn counted(conflict: &Conflict, held: u32) -> u32 {
    (held & conflict.set).count_ones()
}

/// Whether an entry of a board is over a conflict of a valid policy, by what it is taken to hold.
fn over_somewhere(policy: &PolicyValue, board: &Board, held: impl Fn(&Session) -> u32) -> bool {
    let over = |conflict: &Conflict| {
        let mut entries = board.sessions.iter();
        entries.any(|entry| counted(conflict, held(entry)) > conflict.most)
    };
    Plain.valid(policy)
        && policy.conflicts.entries[..policy.conflicts.count]
            .iter()
            .any(over)
}

/// All that the open sessions of a user hold.
fn held_by(board: &Board, user: u32) -> u32 {
    let open = board.sessions.iter().filter(|entry| entry.is_open());
    open.filter(|entry| entry.user == user)
        .fold(0, |held, entry| held | entry.held)
}

fn assigned(policy: &PolicyValue, user: u32) -> u32 {
    let mut users = policy.users.entries[..policy.users.count].iter();
    users
        .find(|entry| entry.number == user)
        .map_or(0, |entry| entry.set)
}
