//! Comparisons that follow seniority, in valid texts.

use super::damage::behind;
use super::rng::Rng;
use super::valid::{rising, Draft};
use crate::policy::first_value;

/// Most often, where there are attributes of equal width and more than one value:
/// a rule gets a word `d` of two of them, for one of its words, and the user
/// attribute lines of seniority, if it has none.
pub fn add(rng: &mut Rng, draft: &mut Draft) {
    let attributes = comparable(draft);
    if attributes.is_empty() || draft.places("rule").is_empty() || rng.chance(1, 4) {
        return;
    }
    let (i, j) = rng.pick(&attributes);
    add_seniority(rng, draft, i);
    let rule = rng.pick(&draft.places("rule"));
    draft.lines[rule] = with_word(rng, &draft.lines[rule], &format!("d{i}{j}"));
}

/// User attributes with object attributes of their width, which is above 1.
fn comparable(draft: &Draft) -> Vec<(u32, u32)> {
    let mut attributes = Vec::new();
    for (i, &user_width) in (0..).zip(&draft.user_widths) {
        for (j, &object_width) in (0..).zip(&draft.object_widths) {
            if user_width > 1 && user_width == object_width {
                attributes.push((i, j));
            }
        }
    }
    attributes
}

/// One line or more in a user attribute that has none.
fn add_seniority(rng: &mut Rng, draft: &mut Draft, attribute: u32) {
    let first = first_value(&draft.user_widths, attribute);
    let seniors = first + 1..first_value(&draft.user_widths, attribute + 1);
    let all: Vec<String> = seniors
        .flat_map(|v| (first..v).map(move |w| format!("usen,{v},{w}")))
        .collect();
    if all.iter().any(|line| draft.lines.contains(line)) {
        return;
    }
    let count = 1 + rng.below(all.len() as u32);
    let chosen = rising(rng, all.len() as u32, count);
    let here = behind(draft, "usen");
    let lines = chosen.iter().map(|&line| all[line as usize].clone());
    draft.lines.splice(here..here, lines);
    // A value is one digit, so these lines rise as their bytes do.
    let places = draft.places("usen");
    draft.lines[places[0]..][..places.len()].sort();
}

/// A rule with another word for one that pushes a truth value.
fn with_word(rng: &mut Rng, rule: &str, word: &str) -> String {
    let mut fields: Vec<&str> = rule.split(',').collect();
    let pushing: Vec<usize> = (2..fields.len())
        .filter(|&field| !["n", "a", "r"].contains(&fields[field]))
        .collect();
    fields[rng.pick(&pushing)] = word;
    fields.join(",")
}
