//! Damage to valid texts, for each of the reader's refusals.

// All damages have one type, whether they change the length or not.
#![allow(clippy::ptr_arg)]

use super::rng::Rng;
use super::valid::{comparisons, Draft};
use crate::form::FORMS;
use crate::text::LONGEST_TEXT;

/// Damage by number, and sometimes a byte more, to see which refusal goes first.
pub fn damaged(rng: &mut Rng, mut draft: Draft, damage: usize) -> Vec<u8> {
    if let Some(change) = LINE_DAMAGES.get(damage) {
        change(rng, &mut draft);
    }
    let mut text = draft.text();
    if let Some(change) = damage.checked_sub(LINE_DAMAGES.len()) {
        BYTE_DAMAGES[change](rng, &mut text);
    }
    sometimes_a_byte_more(rng, &mut text);
    text
}

pub fn sometimes_a_byte_more(rng: &mut Rng, text: &mut Vec<u8>) {
    if rng.chance(1, 4) {
        rng.pick(&BYTE_DAMAGES[..5])(rng, text);
    }
}

/// How many sorts of damage there are.
pub const DAMAGES: usize = LINE_DAMAGES.len() + BYTE_DAMAGES.len();

type LineDamage = fn(&mut Rng, &mut Draft);
type ByteDamage = fn(&mut Rng, &mut Vec<u8>);

const LINE_DAMAGES: [LineDamage; 17] = [
    drop_line,
    double_line,
    swap_lines,
    swap_neighbours,
    nudge_digit,
    go_beyond,
    misshape_field,
    miscount_fields,
    miscount_words,
    unbalance,
    compare_unequal,
    pile_faults,
    pile_faults_in_a_rule,
    drop_end,
    go_on_after_end,
    mix_lines,
    be_brief,
];

/// The first five are small enough to come on top of another damage.
const BYTE_DAMAGES: [ByteDamage; 7] = [
    flip_bit,
    put_byte,
    insert_byte,
    delete_byte,
    cut,
    drop_last_feed,
    lengthen,
];

/// A number past those of forms.
const PAST_FORMS: u32 = 5;

fn drop_line(rng: &mut Rng, draft: &mut Draft) {
    draft.lines.remove(rng.index(draft.lines.len()));
}

fn double_line(rng: &mut Rng, draft: &mut Draft) {
    let line = rng.index(draft.lines.len());
    draft.lines.insert(line, draft.lines[line].clone());
}

fn swap_lines(rng: &mut Rng, draft: &mut Draft) {
    let count = draft.lines.len();
    draft.lines.swap(rng.index(count), rng.index(count));
}

fn swap_neighbours(rng: &mut Rng, draft: &mut Draft) {
    let line = rng.index(draft.lines.len() - 1);
    draft.lines.swap(line, line + 1);
}

/// One digit of the text goes up or down by one.
fn nudge_digit(rng: &mut Rng, draft: &mut Draft) {
    let line = rng.index(draft.lines.len());
    let digits: Vec<(usize, char)> = draft.lines[line]
        .char_indices()
        .filter(|(_, c)| c.is_ascii_digit())
        .collect();
    if digits.is_empty() {
        return;
    }
    let (place, digit) = rng.pick(&digits);
    let value = digit.to_digit(10).expect("a digit");
    let nudged = match rng.chance(1, 2) {
        // What follows the number of a form may be one too.
        true if line == 0 => PAST_FORMS,
        true => value + 1,
        false => value.saturating_sub(1),
    };
    draft.lines[line].replace_range(place..=place, &nudged.to_string());
}

/// A line with a number or a pair just out of its range, or with the number of another
/// form.
fn go_beyond(rng: &mut Rng, draft: &mut Draft) {
    let mut lines = beyond(draft);
    lines.extend(beyond_pairs("usen", &draft.user_widths));
    lines.extend(beyond_pairs("osen", &draft.object_widths));
    let line = rng.pick(&lines);
    place(rng, draft, line);
}

fn beyond(draft: &Draft) -> Vec<String> {
    let users: u32 = draft.user_widths.iter().sum();
    let objects: u32 = draft.object_widths.iter().sum();
    let (user_attributes, object_attributes) = (draft.user_widths.len(), draft.object_widths.len());
    let last = draft.form.last_action();
    let other = FORMS.iter().find(|form| **form != draft.form);
    let mut lines = vec![
        "policy,0".to_string(),
        format!("policy,{}", other.expect("another form").number),
    ];
    let past = draft.form.values + 1;
    lines.extend([
        "uattr,0".to_string(),
        format!("uattr,{past}"),
        "oattr,0".to_string(),
        format!("oattr,{past}"),
        "user,32,0".to_string(),
        format!("uattr,{}", past - users),
        format!("oattr,{}", past - objects),
        format!("user,31,{}", 1 << users),
        "object,64,0".to_string(),
        format!("object,63,{}", 1 << objects),
        format!("rule,{},t", last + 1),
        format!("rule,{last},u{users}"),
        format!("rule,{last},o{objects}"),
        format!("rule,{last},d{user_attributes}0"),
        format!("rule,{last},q0{object_attributes}"),
    ]);
    lines
}

fn beyond_pairs(kind: &str, widths: &[u32]) -> Vec<String> {
    let count: u32 = widths.iter().sum();
    let first = widths[0];
    let mut lines = vec![
        format!("{kind},0,0"),
        format!("{kind},{count},0"),
        format!("{kind},0,{count}"),
    ];
    if count > 1 {
        lines.push(format!("{kind},0,1"));
    }
    if first < count {
        // The values next to each other at the border of two attributes.
        lines.push(format!("{kind},{first},{}", first - 1));
    }
    lines
}

/// Puts a line after the last of its kind, or in place of one.
pub fn place(rng: &mut Rng, draft: &mut Draft, line: String) {
    let word = line.split(',').next().unwrap_or_default();
    let rank = rank(word);
    let same: Vec<usize> = (0..draft.lines.len())
        .filter(|&i| self::rank(&draft.lines[i]) == rank)
        .collect();
    if !same.is_empty() && rng.chance(1, 2) {
        let instead = rng.pick(&same);
        draft.lines[instead] = line;
        return;
    }
    draft.lines.insert(behind(draft, word), line);
}

/// The place behind all lines of a kind and of those before it.
pub fn behind(draft: &Draft, kind: &str) -> usize {
    let rank = rank(kind);
    let mut lines = draft.lines.iter();
    let last = lines.rposition(|earlier| self::rank(earlier) <= rank);
    last.map_or(0, |last| last + 1)
}

fn rank(line: &str) -> Option<usize> {
    let order = [
        "policy", "uattr", "oattr", "usen", "osen", "user", "object", "conflict", "rule", "pair",
        "end",
    ];
    let first = line.split(',').next();
    order.iter().position(|&word| Some(word) == first)
}

/// What is no number and no word, but for the last, which is a number too large.
pub const MISSHAPEN: [&str; 23] = [
    "", "00", "01", "007", "100000", "-1", "+1", " 1", "1 ", "1\r", "x", "u", "u00", "o", "d0",
    "d000", "q", "q0o", "tt", "T", "n0", "1a", "99999",
];

/// A field after the first that is no number and no word.
fn misshape_field(rng: &mut Rng, draft: &mut Draft) {
    let line = rng.index(draft.lines.len());
    let mut fields: Vec<&str> = draft.lines[line].split(',').collect();
    if fields.len() > 1 {
        let place = 1 + rng.index(fields.len() - 1);
        fields[place] = rng.pick(&MISSHAPEN);
    }
    draft.lines[line] = fields.join(",");
}

fn miscount_fields(rng: &mut Rng, draft: &mut Draft) {
    let line = rng.index(draft.lines.len());
    match draft.lines[line].rfind(',') {
        Some(comma) if rng.chance(1, 2) => draft.lines[line].truncate(comma),
        _ => draft.lines[line] += rng.pick(&[",", ",0", ",1", ",t", ",0,0"]),
    }
}

/// A rule of 0 or of 31 to 34 words; 31 and 32 are good.
fn miscount_words(rng: &mut Rng, draft: &mut Draft) {
    let count = rng.pick(&[0, 31, 32, 33, 34]);
    let mut line = format!("rule,{}", rng.below(draft.form.actions));
    for word in 0..count {
        line += if word == 0 { ",t" } else { ",n" };
    }
    place(rng, draft, line);
}

/// A word less, a word more or two words swapped in a rule.
fn unbalance(rng: &mut Rng, draft: &mut Draft) {
    let line = last_rule(draft);
    let mut fields: Vec<&str> = draft.lines[line].split(',').collect();
    let word = 2 + rng.index(fields.len() - 2);
    let other = 2 + rng.index(fields.len() - 2);
    match rng.below(3) {
        0 => fields.insert(word, rng.pick(&["t", "f", "n", "a", "r"])),
        1 => fields.swap(word, other),
        _ => drop(fields.remove(word)),
    }
    draft.lines[line] = fields.join(",");
}

/// The line of the last rule, made if there is none.
fn last_rule(draft: &mut Draft) -> usize {
    if let Some(&last) = draft.places("rule").last() {
        return last;
    }
    let behind = draft.lines.len() - 1 - draft.places("pair").len();
    let rule = format!("rule,{},t,f,r", draft.form.last_action());
    draft.lines.insert(behind, rule);
    behind
}

fn compare_unequal(rng: &mut Rng, draft: &mut Draft) {
    let unequal = comparisons(&draft.user_widths, &draft.object_widths, false);
    if unequal.is_empty() {
        return go_beyond(rng, draft);
    }
    let word = rng.pick(&unequal);
    let words = rng.pick(&["W", "W,n", "t,W,a", "W,a", "W,t", "u9,W,r", "t,W,x"]);
    let line = last_rule(draft);
    let action = draft.lines[line]
        .split(',')
        .nth(1)
        .expect("an action")
        .to_string();
    draft.lines[line] = format!("rule,{action},{}", words.replace('W', &word));
}

/// A line with up to a fault in each field, to see which refusal goes first.
fn pile_faults(rng: &mut Rng, draft: &mut Draft) {
    let kind = rng.pick(&[
        "uattr", "oattr", "usen", "osen", "user", "object", "objects",
    ]);
    let users: u32 = draft.user_widths.iter().sum();
    let limit = (1 << users).to_string();
    let past = (draft.form.values + 1).to_string();
    let numbers = [
        "0",
        "1",
        "2",
        past.as_str(),
        "31",
        "32",
        "63",
        "64",
        "00",
        "x",
        "",
        limit.as_str(),
    ];
    let mut line = format!("{kind},{}", rng.pick(&numbers));
    let more = if kind.ends_with("attr") { 0 } else { 1 };
    for _ in 0..more + u32::from(rng.chance(1, 5)) {
        line += &format!(",{}", rng.pick(&numbers));
    }
    place(rng, draft, line);
}

fn pile_faults_in_a_rule(rng: &mut Rng, draft: &mut Draft) {
    let mut words = comparisons(&draft.user_widths, &draft.object_widths, false);
    words.truncate(4);
    words.extend(["t", "t", "t", "u0", "o0", "n", "a", "r", "u9", "d99", "x"].map(String::from));
    let last = draft.form.last_action();
    let action = rng.pick(&["0", "L", "L", "L", "P", "0L"]);
    let action = action.replace('L', &last.to_string());
    let action = action.replace('P', &(last + 1).to_string());
    let mut line = format!("rule,{action}");
    for _ in 0..rng.pick(&[1, 2, 3, 3, 4, 5, 33]) {
        line += &format!(",{}", rng.pick(&words));
    }
    place(rng, draft, line);
}

fn drop_end(_: &mut Rng, draft: &mut Draft) {
    draft.lines.pop();
}

fn go_on_after_end(rng: &mut Rng, draft: &mut Draft) {
    let again = rng.pick(&draft.lines);
    draft.lines.push(rng.pick(&[
        "end".to_string(),
        String::new(),
        "policy,1".to_string(),
        again,
    ]));
}

/// The attributes, and then lines of any kind with any small numbers.
fn mix_lines(rng: &mut Rng, draft: &mut Draft) {
    draft
        .lines
        .truncate(1 + draft.user_widths.len() + draft.object_widths.len());
    for _ in 0..1 + rng.below(12) {
        let kind = rng.pick(&[
            "usen", "osen", "user", "user", "object", "object", "rule", "end",
        ]);
        let line = match kind {
            "end" => "end".to_string(),
            "rule" => format!(
                "rule,{},{}",
                rng.below(draft.form.actions + 1),
                rng.pick(&["t", "u0", "o0,n", "d00"])
            ),
            _ => {
                let first = rng.below(draft.form.values + 1);
                format!("{kind},{first},{}", rng.below(4))
            }
        };
        draft.lines.push(line);
    }
    if rng.chance(1, 2) {
        draft.lines.sort_by_key(|line| rank(line));
    }
}

/// Hardly a text at all.
fn be_brief(rng: &mut Rng, draft: &mut Draft) {
    let keep = rng.index(draft.lines.len().min(4));
    draft.lines.truncate(keep);
    if rng.chance(1, 2) {
        draft.lines.push(
            rng.pick(&["", "end", ",", "policy", "uattr,7", "oattr,7"])
                .to_string(),
        );
    }
}

fn flip_bit(rng: &mut Rng, text: &mut Vec<u8>) {
    if !text.is_empty() {
        let place = rng.index(text.len());
        text[place] ^= 1 << rng.below(8);
    }
}

/// The bytes that a text is made of, and some that it is not.
const TELLING: &[u8] = b"0123456789,,\n\n\r eujstfonardq\0\xff";

fn put_byte(rng: &mut Rng, text: &mut Vec<u8>) {
    if !text.is_empty() {
        let place = rng.index(text.len());
        text[place] = rng.pick(TELLING);
    }
}

fn insert_byte(rng: &mut Rng, text: &mut Vec<u8>) {
    let place = rng.index(text.len() + 1);
    text.insert(place, rng.pick(TELLING));
}

fn delete_byte(rng: &mut Rng, text: &mut Vec<u8>) {
    if !text.is_empty() {
        text.remove(rng.index(text.len()));
    }
}

fn cut(rng: &mut Rng, text: &mut Vec<u8>) {
    text.truncate(rng.index(text.len() + 1));
}

fn drop_last_feed(_: &mut Rng, text: &mut Vec<u8>) {
    text.pop();
}

/// To about the length that refusal 1 is about. No valid text is so long, so
/// another refusal goes where 1 does not.
fn lengthen(rng: &mut Rng, text: &mut Vec<u8>) {
    let length = LONGEST_TEXT - 1 + rng.index(4);
    let more: &[u8] = rng.pick(&[
        b"end\n".as_slice(),
        b"\n".as_slice(),
        b"x".as_slice(),
        b",t".as_slice(),
        b"rule,7,t\n".as_slice(),
    ]);
    if rng.chance(1, 2) {
        // The rest then belongs to the last line.
        text.pop();
    }
    if rng.chance(1, 6) {
        text.clear();
    }
    while text.len() < length {
        text.extend(more);
    }
    text.truncate(length);
}
