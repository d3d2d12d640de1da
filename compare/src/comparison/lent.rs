//! Buffers to lend, with all that surrounds them.

use super::{same, Outcome, What};
use crate::widths::Element;
use reference::cases::Rng;

/// So many places before and after the lent part must stay too.
const MARGIN: usize = 8;

/// A buffer filled with anything, and a copy of it from before the call.
pub struct Lent<T> {
    whole: Vec<T>,
    before: Vec<T>,
}

impl<T: Element> Lent<T> {
    pub fn filled(rng: &mut Rng, length: usize) -> Self {
        let first = rng.below(256);
        let step = 1 + 2 * rng.below(128);
        let byte = |place: usize| (first + step * place as u32 % 256) % 256;
        // The byte in each byte of a wider number.
        let whole: Vec<T> = (0..length + 2 * MARGIN)
            .map(|place| T::cut(byte(place) * 0x0101_0101))
            .collect();
        let before = whole.clone();
        Lent { whole, before }
    }

    /// The part to lend.
    pub fn part(&mut self) -> &mut [T] {
        let end = self.whole.len() - MARGIN;
        &mut self.whole[MARGIN..end]
    }

    /// The part after the call.
    pub fn after(&self) -> &[T] {
        &self.whole[MARGIN..self.whole.len() - MARGIN]
    }

    pub fn len(&self) -> usize {
        self.after().len()
    }

    /// The result stands at the start, and every other place is as before.
    pub fn starts_with(&self, what: What, result: &[T]) -> Outcome {
        let mut due = self.before.clone();
        due[MARGIN..MARGIN + result.len()].copy_from_slice(result);
        same(what, &self.whole, &due)
    }

    /// Every place is as before.
    pub fn unchanged(&self, what: What) -> Outcome {
        self.starts_with(what, &[])
    }
}

/// A length for a result that needs so many places: exact, longer or too short.
pub fn length_for(rng: &mut Rng, needed: usize) -> usize {
    match rng.below(8) {
        0 => needed.saturating_sub(1),
        1 => rng.index(needed + 1),
        2 => 0,
        3 | 4 => needed,
        5 => needed + 1,
        _ => needed + rng.index(40),
    }
}
