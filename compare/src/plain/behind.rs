//! The plain calls with the header's types, so that they too can be compared.

use super::policy::{Policy, Refusal, Word};
use super::{board, by_64, checks, formula, labels, reader, tuples, writer};
use crate::boundary::*;
use crate::calls_over_widths;
use crate::engine::Engine;
use crate::widths::{Labels, Tuple, Widths};

/// Plain Rust behind the engine's calls.
pub struct Plain;

/// The same, but that it compiles and lists by 64 pairs of sets at once.
pub struct PlainBy64;

/// The word of each number; where it is no word's, one that no policy has.
const WORDS: [Word; 256] = {
    let mut words = [Word::User(u8::MAX); 256];
    words[0] = Word::True;
    words[1] = Word::False;
    words[2] = Word::Not;
    words[3] = Word::And;
    words[4] = Word::Or;
    let mut k = 0;
    while k < 100 {
        let (tens, ones) = (k as u8 / 10, k as u8 % 10);
        words[10 + ones as usize] = Word::User(ones);
        words[20 + ones as usize] = Word::Object(ones);
        words[50 + k] = Word::Within(tens, ones);
        words[150 + k] = Word::Same(tens, ones);
        k += 1;
    }
    words
};

fn number_of(word: Word) -> u8 {
    match word {
        Word::True => 0,
        Word::False => 1,
        Word::Not => 2,
        Word::And => 3,
        Word::Or => 4,
        Word::User(value) => 10 + value,
        Word::Object(value) => 20 + value,
        Word::Within(i, j) => 50 + 10 * i + j,
        Word::Same(i, j) => 150 + 10 * i + j,
    }
}

/// The policy with its own words for the numbers of a value.
pub fn policy_of(value: &PolicyValue) -> Policy {
    let mut policy = Policy {
        form: value.form,
        user: value.user,
        object: value.object,
        users: value.users,
        objects: value.objects,
        conflicts: value.conflicts,
        pairs: value.pairs,
        ..Policy::default()
    };
    policy.rules.count = value.rules.count;
    for (rule, from) in policy.rules.entries.iter_mut().zip(&value.rules.entries) {
        // Blank already, as most are.
        if *from == RuleValue::default() {
            continue;
        }
        rule.action = from.action;
        rule.count = from.count;
        rule.words = from.words.map(|number| WORDS[usize::from(number)]);
    }
    policy
}

fn value_of(policy: &Policy) -> PolicyValue {
    let mut value = PolicyValue {
        form: policy.form,
        user: policy.user,
        object: policy.object,
        users: policy.users,
        objects: policy.objects,
        conflicts: policy.conflicts,
        pairs: policy.pairs,
        ..PolicyValue::default()
    };
    value.rules.count = policy.rules.count;
    for (rule, from) in value.rules.entries.iter_mut().zip(policy.rules()) {
        rule.action = from.action;
        rule.count = from.count;
        for (number, &word) in rule.words.iter_mut().zip(from.words()) {
            *number = number_of(word);
        }
    }
    value
}

fn counted(answer: Result<usize, Refusal>) -> Counted {
    match answer {
        Ok(count) => Counted { refusal: 0, count },
        Err(refusal) => Counted {
            refusal: refusal as u32,
            count: 0,
        },
    }
}

fn decision(answer: Result<bool, Refusal>) -> u32 {
    match answer {
        Ok(true) => GRANTED,
        Ok(false) => DENIED,
        Err(refusal) => refusal as u32,
    }
}

/// A call that changes a board, on a copy of it.
fn step(board: &Board, call: impl FnOnce(&mut Board) -> Result<(), Refusal>) -> Step {
    let mut board = *board;
    let answer = match call(&mut board) {
        Ok(()) => DONE,
        Err(refusal) => refusal as u32,
    };
    Step { answer, board }
}

/// How plain Rust compiles and lists, with its own policy value by reference, and each of
/// its calls over widths behind the engine's boundary.
pub trait Peer {
    fn compile_by_reference<W: Widths>(
        policy: &Policy,
        users: &mut [W::Label],
        objects: &mut [W::Label],
        table: &mut [W::Entry],
    ) -> Result<labels::Counts, Refusal>;

    fn list_by_reference<T: Tuple>(
        policy: &Policy,
        action: u32,
        buffer: &mut [T],
    ) -> Result<usize, Refusal>;

    fn compile<W: Widths>(
        &self,
        policy: &PolicyValue,
        users: &mut [W::Label],
        objects: &mut [W::Label],
        table: &mut [W::Entry],
    ) -> Counts {
        match Self::compile_by_reference::<W>(&policy_of(policy), users, objects, table) {
            Ok(counts) => Counts {
                refusal: 0,
                users: counts.users as u32,
                objects: counts.objects as u32,
            },
            Err(refusal) => Counts {
                refusal: refusal as u32,
                ..Counts::default()
            },
        }
    }

    fn request<W: Widths>(
        &self,
        board: &Board,
        policy: &PolicyValue,
        labels: &Labels<W>,
        [session, action, object]: [u32; 3],
    ) -> Step {
        let policy = policy_of(policy);
        let answer = board::request(board, &policy, labels, session, action, object);
        Step {
            answer: decision(answer),
            board: *board,
        }
    }

    fn list<T: Tuple>(&self, policy: &PolicyValue, action: u32, buffer: &mut [T]) -> Counted {
        counted(Self::list_by_reference(&policy_of(policy), action, buffer))
    }

    fn decide_by_tuples<T: Tuple>(
        &self,
        policy: &PolicyValue,
        user: u32,
        object: u32,
        listing: &[T],
        count: usize,
    ) -> u32 {
        let policy = policy_of(policy);
        decision(tuples::decide_by_tuples(
            &policy, user, object, listing, count,
        ))
    }
}

impl Peer for Plain {
    fn compile_by_reference<W: Widths>(
        policy: &Policy,
        users: &mut [W::Label],
        objects: &mut [W::Label],
        table: &mut [W::Entry],
    ) -> Result<labels::Counts, Refusal> {
        labels::compile::<W>(policy, users, objects, table)
    }

    fn list_by_reference<T: Tuple>(
        policy: &Policy,
        action: u32,
        buffer: &mut [T],
    ) -> Result<usize, Refusal> {
        tuples::list(policy, action, buffer)
    }
}

impl Peer for PlainBy64 {
    fn compile_by_reference<W: Widths>(
        policy: &Policy,
        users: &mut [W::Label],
        objects: &mut [W::Label],
        table: &mut [W::Entry],
    ) -> Result<labels::Counts, Refusal> {
        by_64::compile::<W>(policy, users, objects, table)
    }

    fn list_by_reference<T: Tuple>(
        policy: &Policy,
        action: u32,
        buffer: &mut [T],
    ) -> Result<usize, Refusal> {
        by_64::list(policy, action, buffer)
    }
}

impl<P: Peer> Engine for P {
    calls_over_widths!();

    fn read(&self, text: &[u8]) -> Reading {
        match reader::read(text) {
            Ok(policy) => Reading {
                policy: value_of(&policy),
                ..Reading::default()
            },
            Err(refused) => Reading {
                refusal: refused.refusal as u32,
                line: refused.line,
                ..Reading::default()
            },
        }
    }

    fn write(&self, policy: &PolicyValue, buffer: &mut [u8]) -> Counted {
        counted(writer::write(&policy_of(policy), buffer))
    }

    fn valid(&self, policy: &PolicyValue) -> bool {
        checks::valid(&policy_of(policy))
    }

    fn decide(&self, policy: &PolicyValue, action: u32, user: u32, object: u32) -> u32 {
        decision(formula::decide(&policy_of(policy), action, user, object))
    }

    fn apart(&self, policy: &PolicyValue, one: u32, other: u32) -> Separation {
        match labels::apart(&policy_of(policy), one, other) {
            Ok(None) => Separation::default(),
            Ok(Some((action, object))) => Separation {
                answer: APART,
                action,
                object,
            },
            Err(refusal) => Separation {
                answer: refusal as u32,
                ..Separation::default()
            },
        }
    }

    fn fresh(&self) -> Board {
        Board::default()
    }

    fn open(&self, board: &Board, policy: &PolicyValue, user: u32, session: u32, set: u32) -> Step {
        let policy = policy_of(policy);
        step(board, |board| {
            board::open(board, &policy, user, session, set)
        })
    }

    fn add(&self, board: &Board, policy: &PolicyValue, user: u32, session: u32, set: u32) -> Step {
        let policy = policy_of(policy);
        step(board, |board| {
            board::add(board, &policy, user, session, set)
        })
    }

    fn drop(&self, board: &Board, policy: &PolicyValue, user: u32, session: u32, set: u32) -> Step {
        let policy = policy_of(policy);
        step(board, |board| {
            board::drop(board, &policy, user, session, set)
        })
    }

    fn close(&self, board: &Board, policy: &PolicyValue, user: u32, session: u32) -> Step {
        let policy = policy_of(policy);
        step(board, |board| board::close(board, &policy, user, session))
    }
}
