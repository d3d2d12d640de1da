//! Repeatable random policy texts, good and damaged, and lists of session calls.
//!
//! Texts are put together here by hand and not by the writer of this crate, so
//! that the reader and the writer are tried on something they did not make.

mod calls;
mod conflicts;
mod damage;
mod dominance;
mod forms;
mod kind;
mod pairs;
mod rng;
mod two_lists;
mod valid;

pub use calls::{action, calls, set};
pub use rng::Rng;
pub use two_lists::{two_lists, TwoLists};

use crate::form::Form;
use conflicts::CONFLICTS;
use damage::{damaged, DAMAGES};
use forms::{FORM_2, FORM_3};
use kind::{damaged_kind, Kind};
use pairs::PAIRS;
use valid::{valid, Draft, Size, LIMIT, MIDDLE, SMALL};

/// Behind the streams of all that is put into a text, one for each form but the first.
const FORM_2_STREAM: u64 = 3;
const FORM_3_STREAM: u64 = 4;

/// Puts something into a valid text.
type Addition = fn(&mut Rng, &mut Draft);

/// A form other than the first, and the stream by which a text gets it.
struct Forming<'a> {
    form: Form,
    stream: &'a mut Rng,
}

/// The text of a case: valid ones at even indexes, damaged ones at odd; one in four of
/// form 3, and of the others one in three of form 2. Forms, pairs, conflicts and dominance
/// have streams of their own, so that a text that gets none is as it is without them.
pub fn text(rng: &mut Rng, index: u64) -> Vec<u8> {
    let mut stream = rng.branch(FORM_3_STREAM);
    match stream.below(16) {
        0 => forms::renumbered(text_without_form_3(rng, index), FORM_3),
        1..=3 => text_of_form(FORM_3, stream, rng, index),
        _ => text_without_form_3(rng, index),
    }
}

/// The text of a case, of form 1 or 2 but for its faults.
pub fn text_without_form_3(rng: &mut Rng, index: u64) -> Vec<u8> {
    let mut stream = rng.branch(FORM_2_STREAM);
    match stream.below(12) {
        0 => forms::renumbered(text_without_forms(rng, index), FORM_2),
        1..=3 => text_of_form(FORM_2, stream, rng, index),
        _ => text_without_forms(rng, index),
    }
}

fn text_of_form(form: Form, mut stream: Rng, rng: &mut Rng, index: u64) -> Vec<u8> {
    let last = Some(dominance::add as Addition);
    let forming = Forming {
        form,
        stream: &mut stream,
    };
    text_with(&[PAIRS, CONFLICTS], last, Some(forming), rng, index)
}

/// The text of a case, of form 1 but for its faults.
pub fn text_without_forms(rng: &mut Rng, index: u64) -> Vec<u8> {
    text_with(&[PAIRS, CONFLICTS], Some(dominance::add), None, rng, index)
}

/// The text of a case, without what is put in for dominance too.
pub fn text_without_dominance(rng: &mut Rng, index: u64) -> Vec<u8> {
    text_with(&[PAIRS, CONFLICTS], None, None, rng, index)
}

/// The text of a case, without conflicts too.
pub fn text_without_conflicts(rng: &mut Rng, index: u64) -> Vec<u8> {
    text_with(&[PAIRS], None, None, rng, index)
}

/// The text of a case, without pairs too.
pub fn text_without_pairs(rng: &mut Rng, index: u64) -> Vec<u8> {
    text_with(&[], None, None, rng, index)
}

/// The text of a case with lines of these kinds, and damage to those of one. What
/// is put in last has the stream behind theirs. Of form 1 where it gets no other.
fn text_with(
    kinds: &[Kind],
    last: Option<Addition>,
    mut forming: Option<Forming>,
    rng: &mut Rng,
    index: u64,
) -> Vec<u8> {
    let numbered = (0..).zip(kinds);
    let mut streams: Vec<_> = numbered
        .map(|(stream, kind)| (kind, rng.branch(stream)))
        .collect();
    let mut last_stream = rng.branch(kinds.len() as u64);
    let (mut draft, damage) = undamaged(rng, index, &mut forming);
    if let Some(Forming { form, stream }) = &mut forming {
        forms::take(stream, *form, &mut draft);
    }
    for (kind, stream) in &mut streams {
        (kind.add)(stream, &mut draft);
    }
    if let Some(add) = last {
        add(&mut last_stream, &mut draft);
    }
    let Some(damage) = damage else {
        return draft.text();
    };
    if let Some(Forming { stream, .. }) = forming {
        if stream.chance(1, 4) {
            return forms::damaged(stream, draft);
        }
    }
    for (kind, mut stream) in streams {
        if stream.chance(1, 4) {
            return damaged_kind(kind, &mut stream, draft);
        }
    }
    damaged(rng, draft, damage)
}

/// A valid text with nothing put in, and the damage that is to come to it.
fn undamaged(rng: &mut Rng, index: u64, forming: &mut Option<Forming>) -> (Draft, Option<usize>) {
    let round = (index / 2) as usize;
    let mut size = |round| match forming {
        Some(Forming { form, stream }) if *form == FORM_3 => size_of_form_3(stream, round),
        _ => size(round),
    };
    if index.is_multiple_of(2) {
        return (valid(rng, size(round)), None);
    }
    // Shifted by one in each turn, so that each damage meets each size.
    let draft = valid(rng, size(round + round / DAMAGES));
    (draft, Some(round % DAMAGES))
}

/// One text in sixteen goes to the limits, and four may be of any size.
fn size(round: usize) -> Size {
    match round % 16 {
        0 => LIMIT,
        3 | 6 | 9 | 12 => MIDDLE,
        _ => SMALL,
    }
}

/// Three texts of form 3 in eight have more values than earlier forms have, most of these
/// on one side alone, and one in 32 goes to the limits.
fn size_of_form_3(stream: &mut Rng, round: usize) -> Size {
    let many = 8 + stream.below(2);
    let few = 1 + stream.below(3);
    match stream.below(64) {
        0..=1 => LIMIT.with_values([FORM_3.values; 2]),
        2..=5 => SMALL.with_values([many, many]),
        6..=14 => SMALL.with_values([many, few]),
        15..=23 => SMALL.with_values([few, many]),
        _ => size(round),
    }
}
