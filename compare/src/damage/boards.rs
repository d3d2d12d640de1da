//! Boards that are in order, and boards that are not.

use super::odd;
use crate::boundary::{Board, Session, SESSIONS};
use reference::cases::Rng;
use reference::formula::reach;
use reference::policy::Policy;

/// A number by which a session is open: the one that calls store, or another.
fn live(rng: &mut Rng) -> u32 {
    rng.pick(&[1, 1, 1, 2, 256, 1 << 31, u32::MAX])
}

/// A board of any sessions that are in order, open by any number, and numbers left in closed entries.
pub fn board(rng: &mut Rng, policy: &Policy) -> Board {
    let mut board = Board::default();
    let most = rng.pick(&[0, 1, 3, 8]);
    for entry in &mut board.sessions {
        if rng.chance(1, 4) {
            *entry = left(rng, policy);
        }
        if rng.below(8) < most && !policy.users.is_empty() {
            let (user, assigned) = rng.pick(&policy.users);
            let held = rng.below(policy.user_sets()) & reach(policy, assigned);
            *entry = Session {
                live: live(rng),
                user,
                held: within_conflicts(rng, policy, held),
            };
        }
    }
    board
}

/// A closed entry. What it holds counts for nothing, be it too many values of a conflict.
fn left(rng: &mut Rng, policy: &Policy) -> Session {
    let any = (odd(rng), odd(rng));
    let (user, held) = match over_a_conflict(rng, policy) {
        Some(over) if rng.chance(1, 2) => over,
        _ => any,
    };
    Session {
        live: 0,
        user,
        held,
    }
}

/// The set without some values, one after the other, until a session may hold it.
fn within_conflicts(rng: &mut Rng, policy: &Policy, mut held: u32) -> u32 {
    while !policy.may_hold(held) {
        held &= !any_value(rng, policy);
    }
    held
}

/// A user, and a set in reach that no session may hold, often by a single value.
fn over_a_conflict(rng: &mut Rng, policy: &Policy) -> Option<(u32, u32)> {
    let reaches = policy
        .users
        .iter()
        .map(|&(user, assigned)| (user, reach(policy, assigned)));
    let over: Vec<_> = reaches
        .filter(|&(_, reach)| !policy.may_hold(reach))
        .collect();
    if over.is_empty() {
        return None;
    }
    let (user, mut held) = rng.pick(&over);
    for _ in 0..rng.below(16) {
        let fewer = held & !any_value(rng, policy);
        if !policy.may_hold(fewer) {
            held = fewer;
        }
    }
    Some((user, held))
}

/// The set of one value.
fn any_value(rng: &mut Rng, policy: &Policy) -> u32 {
    1 << rng.below(policy.user_values())
}

/// The board with one session more that may be of nobody or hold what it must not.
pub fn damaged_board(rng: &mut Rng, policy: &Policy, board: &Board) -> Board {
    let mut damaged = *board;
    let any = any_session(rng, policy);
    let (user, held) = match over_a_conflict(rng, policy) {
        Some(over) if rng.chance(2, 3) => over,
        _ => any,
    };
    damaged.sessions[rng.index(SESSIONS)] = Session {
        live: live(rng),
        user,
        held,
    };
    damaged
}

/// A user who may be nobody, and a set that may be out of reach.
fn any_session(rng: &mut Rng, policy: &Policy) -> (u32, u32) {
    let users: Vec<u32> = policy.users.iter().map(|user| user.0).collect();
    let user = match rng.below(4) {
        0 => odd(rng),
        1 => rng.below(33),
        _ if users.is_empty() => rng.below(32),
        _ => rng.pick(&users),
    };
    let within = reach(policy, policy.assigned(user).unwrap_or(0));
    let held = match rng.below(5) {
        0 => odd(rng),
        1 => within | policy.user_sets(),
        2 => rng.below(policy.user_sets()),
        3 => within | 1 << rng.below(32),
        _ => within,
    };
    (user, held)
}
