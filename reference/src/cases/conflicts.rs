//! Conflict lines of valid texts.

use super::kind::Kind;
use super::rng::Rng;
use super::valid::{Draft, FIVES};
use crate::policy::Set;
use crate::text::{MOST_CONFLICTS, MOST_TOGETHER};
use std::collections::BTreeSet;

/// By set.
pub const CONFLICTS: Kind = Kind {
    word: "conflict",
    add,
    most: MOST_CONFLICTS,
    wide: FIVES,
    keys: Draft::user_sets,
    line: |rng, _, set| line(rng, set, MOST_CONFLICTS),
    high: |draft| format!("conflict,{},1", draft.user_sets() - 1),
    beyond,
    borders: |draft| [draft.user_sets() - 1, draft.user_sets()],
};

/// None, a few, any number, or as many as there may be.
fn add(rng: &mut Rng, draft: &mut Draft) {
    let count = match rng.below(8) {
        0..=3 => return,
        4..=5 => 1 + rng.index(3),
        6 => 1 + rng.index(MOST_CONFLICTS),
        _ => MOST_CONFLICTS,
    };
    let count = count.min(draft.user_sets() as usize);
    let mut sets = BTreeSet::new();
    while sets.len() < count {
        sets.insert(set(rng, draft));
    }
    let lines = sets.into_iter().map(|set| line(rng, set, count)).collect();
    CONFLICTS.put(draft, lines);
}

/// Any set, and often none, one or all of the values.
fn set(rng: &mut Rng, draft: &Draft) -> Set {
    match rng.below(6) {
        0 => 0,
        1 => 1 << rng.below(draft.user_values()),
        2 => draft.user_sets() - 1,
        _ => rng.below(draft.user_sets()),
    }
}

/// A line of a text with so many. To forbid all of a set's values is rarer where
/// there are more lines, or nothing could be held; one value less than the set
/// has is the most that refuses at all. More than a line may let hold is for none.
fn line(rng: &mut Rng, set: Set, count: usize) -> String {
    let most = match rng.below(6) {
        0 if rng.index(count) < 2 => 0,
        0..=1 => 1,
        2 => 2,
        3 => set.count_ones().saturating_sub(1),
        4 => set.count_ones(),
        _ => rng.below(MOST_TOGETHER + 1),
    };
    format!("conflict,{set},{}", most.min(MOST_TOGETHER))
}

fn beyond(draft: &Draft) -> Vec<String> {
    let sets = draft.user_sets();
    vec![
        format!("conflict,{sets},0"),
        format!("conflict,{sets},7"),
        format!("conflict,{sets},8"),
        format!("conflict,{},8", sets - 1),
        "conflict,0,8".to_string(),
        format!("conflict,{},1", 2 * draft.form.most_sets()),
        "conflict,65536,1".to_string(),
        format!("conflict,{},256", sets - 1),
    ]
}
