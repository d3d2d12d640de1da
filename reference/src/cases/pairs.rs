//! Pair lines of valid texts.

use super::kind::Kind;
use super::rng::Rng;
use super::valid::{rising, Draft, THREES};
use crate::text::MOST_PAIRS;

/// By action, user value and object value.
pub const PAIRS: Kind = Kind {
    word: "pair",
    add,
    most: MOST_PAIRS,
    wide: THREES,
    keys: |draft| draft.form.actions * draft.user_values() * draft.object_values(),
    line: |_, draft, key| line(draft, key),
    high: |draft| format!("pair,{},0,0", draft.form.last_action()),
    beyond,
    borders: |draft| [draft.user_values(), draft.object_values()],
};

/// None, a few, or as many as there may be.
fn add(rng: &mut Rng, draft: &mut Draft) {
    let count = match rng.below(8) {
        0..=1 => return,
        2 => MOST_PAIRS,
        _ => 1 + rng.index(6),
    };
    let ruled: Vec<u32> = draft
        .places("rule")
        .iter()
        .map(|&p| action(&draft.lines[p]))
        .collect();
    let all = |_| true;
    let wanted = match rng.below(4) {
        _ if count == MOST_PAIRS => lines_of(draft, all),
        0 => lines_of(draft, |action| ruled.contains(&action)),
        1 => lines_of(draft, |action| !ruled.contains(&action)),
        // Several pairs of one action, whether it has a rule or not.
        2 => {
            let one = rng.below(draft.form.actions);
            lines_of(draft, |action| action == one)
        }
        _ => lines_of(draft, all),
    };
    let places = rising(rng, wanted.len() as u32, count as u32);
    let lines = places.iter().map(|&place| wanted[place as usize].clone());
    PAIRS.put(draft, lines.collect());
}

/// The action of a rule.
fn action(rule: &str) -> u32 {
    let field = rule.split(',').nth(1).and_then(|field| field.parse().ok());
    field.expect("an action")
}

/// All pair lines of some actions that the text might have, rising.
fn lines_of(draft: &Draft, wanted: impl Fn(u32) -> bool) -> Vec<String> {
    let each = draft.user_values() * draft.object_values();
    let keys = (0..draft.form.actions * each).filter(|key| wanted(key / each));
    keys.map(|key| line(draft, key)).collect()
}

fn line(draft: &Draft, key: u32) -> String {
    let (users, objects) = (draft.user_values(), draft.object_values());
    let (action, user, object) = (key / objects / users, key / objects % users, key % objects);
    format!("pair,{action},{user},{object}")
}

fn beyond(draft: &Draft) -> Vec<String> {
    let (users, objects) = (draft.user_values(), draft.object_values());
    let last = draft.form.last_action();
    vec![
        format!("pair,{},0,0", last + 1),
        format!("pair,{last},{users},0"),
        format!("pair,{last},0,{objects}"),
        format!("pair,{last},{},{}", users - 1, objects),
        format!("pair,{last},{},{}", users, objects - 1),
        "pair,256,0,0".to_string(),
        format!("pair,{last},256,0"),
        format!("pair,{last},0,65536"),
    ]
}
