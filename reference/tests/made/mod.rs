//! The made cases of one seed.

use reference::cases::{text, Rng};
use reference::policy::Policy;
use reference::text::read;

pub const SEED: u64 = 20;

pub fn made(case: u64) -> (Rng, Vec<u8>) {
    let mut rng = Rng::new(SEED, case);
    let text = text(&mut rng, case);
    (rng, text)
}

/// The accepted ones among the first so many.
pub fn accepted(cases: u64) -> impl Iterator<Item = (Rng, Policy)> {
    (0..cases)
        .map(made)
        .filter_map(|(rng, text)| Some((rng, read(&text).ok()?)))
}
