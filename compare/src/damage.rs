//! Policy values and boards with something wrong in them, and odd numbers.

mod boards;

pub use boards::{board, damaged_board};

use crate::boundary::*;
use crate::value::word_number;
use reference::cases::Rng;
use reference::form::FORMS;
use reference::policy::Word;

/// A number at or around the limits, or far past them.
pub fn odd(rng: &mut Rng) -> u32 {
    rng.pick(&[
        0,
        1,
        2,
        6,
        7,
        8,
        9,
        10,
        15,
        16,
        17,
        21,
        22,
        31,
        32,
        33,
        36,
        37,
        63,
        64,
        65,
        127,
        128,
        255,
        256,
        257,
        511,
        512,
        65_535,
        65_536,
        99_999,
        100_000,
        1 << 31,
        u32::MAX - 1,
        u32::MAX,
    ])
}

/// A count at or around the limits, or far past them.
pub fn odd_count(rng: &mut Rng) -> usize {
    let huge = [
        1 << 32,
        (1 << 32) + 1,
        1 << 63,
        usize::MAX / 8,
        usize::MAX - 1,
        usize::MAX,
    ];
    match rng.chance(1, 3) {
        true => rng.pick(&huge),
        false => odd(rng) as usize,
    }
}

/// A value with one or, seldom, two things changed; some changes leave it good.
pub fn damaged(rng: &mut Rng, value: &PolicyValue) -> PolicyValue {
    let mut damaged = *value;
    for _ in 0..1 + u32::from(rng.chance(1, 5)) {
        match rng.below(11) {
            0 => change_form(rng, &mut damaged),
            1 => change_count(rng, &mut damaged),
            2 => leave_over(rng, &mut damaged),
            3 => change_number(rng, &mut damaged),
            4 => change_word(rng, &mut damaged),
            5 => break_order(rng, &mut damaged),
            6 => widen(rng, &mut damaged),
            7 => change_last_action(rng, &mut damaged),
            8 => change_sum(rng, &mut damaged),
            9 => change_set(rng, &mut damaged),
            _ => flip_bit(rng, &mut damaged),
        }
    }
    damaged
}

/// Another form, good or not; one of those that there are may lack an action or a value.
fn change_form(rng: &mut Rng, value: &mut PolicyValue) {
    let mut forms = FORMS.map(|form| form.number).to_vec();
    forms.retain(|&form| form != value.form);
    let none = rng.pick(&[0, 4, 5, 257, 258, 259, 65_537, 65_538, u32::MAX]);
    value.form = match rng.chance(2, 3) {
        true => rng.pick(&forms),
        false => none,
    };
}

/// A side gets as many values as some form allows, or one more, by its last attribute.
fn change_sum(rng: &mut Rng, value: &mut PolicyValue) {
    let side = match rng.chance(1, 2) {
        true => &mut value.user,
        false => &mut value.object,
    };
    let sum = rng.pick(&[7, 8, 9, 9, 10]);
    let widths = side.widths.get_mut(..side.attributes);
    if let Some((last, others)) = widths.and_then(|widths| widths.split_last_mut()) {
        *last = others
            .iter()
            .fold(sum, |left, &width| left.saturating_sub(width));
    }
}

/// A registered set, or that of a conflict, becomes the greatest of its side or of a form,
/// or the number past it.
fn change_set(rng: &mut Rng, value: &mut PolicyValue) {
    let [users, objects] = [&value.user, &value.object].map(|side| side.values() % u32::BITS);
    let (values, set) = match rng.below(3) {
        0 => {
            let place = place(rng, value.users.count, ENTRY_PLACES);
            (users, &mut value.users.entries[place].set)
        }
        1 => {
            let place = place(rng, value.objects.count, ENTRY_PLACES);
            (objects, &mut value.objects.entries[place].set)
        }
        _ => {
            let place = place(rng, value.conflicts.count, CONFLICT_PLACES);
            (users, &mut value.conflicts.entries[place].set)
        }
    };
    let past = 1 << rng.pick(&[values, values, 7, 8, 9]);
    *set = past - u32::from(rng.chance(1, 2));
}

/// An action at the limits of the forms.
fn limit_action(rng: &mut Rng) -> u32 {
    rng.pick(&[6, 7, 8, 14, 15, 16])
}

/// One of the counts of a value.
fn count_of<'a>(rng: &mut Rng, value: &'a mut PolicyValue) -> &'a mut usize {
    let rule = rule_place(rng, value);
    match rng.below(10) {
        0 => &mut value.user.attributes,
        1 => &mut value.object.attributes,
        2 => &mut value.user.lines,
        3 => &mut value.object.lines,
        4 => &mut value.users.count,
        5 => &mut value.objects.count,
        6 => &mut value.conflicts.count,
        7 => &mut value.rules.count,
        8 => &mut value.pairs.count,
        _ => &mut value.rules.entries[rule].count,
    }
}

fn change_count(rng: &mut Rng, value: &mut PolicyValue) {
    let kind = rng.below(4);
    let odd = odd_count(rng);
    let count = count_of(rng, value);
    *count = match kind {
        0 => count.wrapping_add(1),
        1 => count.wrapping_sub(1),
        2 => 0,
        _ => odd,
    };
}

/// The place of a rule, mostly of one in use.
fn rule_place(rng: &mut Rng, value: &PolicyValue) -> usize {
    place(rng, value.rules.count, RULE_PLACES)
}

/// A place in an array, mostly of an entry in use.
fn place(rng: &mut Rng, count: usize, places: usize) -> usize {
    match (1..=places).contains(&count) && rng.chance(7, 8) {
        true => rng.index(count),
        false => rng.index(places),
    }
}

/// A place behind the last entry in use, if there is one.
fn place_behind(rng: &mut Rng, count: usize, places: usize) -> usize {
    if count >= places {
        return places - 1;
    }
    // The place next to the last entry, the last of all, or any.
    let any = count + rng.index(places - count);
    rng.pick(&[count, places - 1, any])
}

/// Something behind the last entry of a list.
fn leave_over(rng: &mut Rng, value: &mut PolicyValue) {
    let number = 1 + rng.below(9);
    let user = rng.chance(1, 2);
    let (side, register) = match user {
        true => (&mut value.user, &mut value.users),
        false => (&mut value.object, &mut value.objects),
    };
    match rng.below(8) {
        0 => side.widths[place_behind(rng, side.attributes, WIDTH_PLACES)] = number,
        1 => *line_number(rng, &mut side.seniority, side.lines, place_behind) = number,
        2 => *entry_number(rng, &mut register.entries, register.count, place_behind) = number,
        3 => *conflict_number(rng, &mut value.conflicts, place_behind) = number,
        4 => *pair_number(rng, &mut value.pairs, place_behind) = number,
        5 => {
            let rule = rule_place(rng, value);
            let rule = &mut value.rules.entries[rule];
            rule.words[place_behind(rng, rule.count, WORD_PLACES)] = number as u8;
        }
        _ => {
            let rule = place_behind(rng, value.rules.count, RULE_PLACES);
            let rule = &mut value.rules.entries[rule];
            match rng.below(3) {
                0 => rule.action = number,
                1 => rule.count = number as usize,
                _ => rule.words[rng.index(WORD_PLACES)] = number as u8,
            }
        }
    }
}

type Place = fn(&mut Rng, usize, usize) -> usize;

fn line_number<'a>(
    rng: &mut Rng,
    lines: &'a mut [Direct],
    count: usize,
    place: Place,
) -> &'a mut u32 {
    let line = &mut lines[place(rng, count, LINE_PLACES)];
    match rng.chance(1, 2) {
        true => &mut line.senior,
        false => &mut line.junior,
    }
}

fn entry_number<'a>(
    rng: &mut Rng,
    entries: &'a mut [Entry],
    count: usize,
    place: Place,
) -> &'a mut u32 {
    let entry = &mut entries[place(rng, count, ENTRY_PLACES)];
    match rng.chance(1, 2) {
        true => &mut entry.number,
        false => &mut entry.set,
    }
}

fn conflict_number<'a>(rng: &mut Rng, conflicts: &'a mut Conflicts, place: Place) -> &'a mut u32 {
    let conflict = &mut conflicts.entries[place(rng, conflicts.count, CONFLICT_PLACES)];
    match rng.chance(1, 2) {
        true => &mut conflict.set,
        false => &mut conflict.most,
    }
}

fn pair_number<'a>(rng: &mut Rng, pairs: &'a mut Pairs, place: Place) -> &'a mut u32 {
    let pair = &mut pairs.entries[place(rng, pairs.count, PAIR_PLACES)];
    match rng.below(3) {
        0 => &mut pair.action,
        1 => &mut pair.user,
        _ => &mut pair.object,
    }
}

/// A width, value, number, set or action becomes another, often out of range.
fn change_number(rng: &mut Rng, value: &mut PolicyValue) {
    let odd = odd(rng);
    let kind = rng.below(4);
    let number = number_of(rng, value);
    *number = match kind {
        0 => number.wrapping_add(1),
        1 => number.wrapping_sub(1),
        _ => odd,
    };
}

/// The action of the last rule or pair, above which no other must rise, goes to the
/// limit of a form.
fn change_last_action(rng: &mut Rng, value: &mut PolicyValue) {
    let action = limit_action(rng);
    let (rules, pairs) = (value.rules.count, value.pairs.count);
    match rng.chance(1, 2) {
        true if (1..=RULE_PLACES).contains(&rules) => {
            value.rules.entries[rules - 1].action = action
        }
        _ if (1..=PAIR_PLACES).contains(&pairs) => value.pairs.entries[pairs - 1].action = action,
        _ => {}
    }
}

fn number_of<'a>(rng: &mut Rng, value: &'a mut PolicyValue) -> &'a mut u32 {
    let rule = rule_place(rng, value);
    let (side, register) = match rng.chance(1, 2) {
        true => (&mut value.user, &mut value.users),
        false => (&mut value.object, &mut value.objects),
    };
    match rng.below(6) {
        0 => &mut side.widths[place(rng, side.attributes, WIDTH_PLACES)],
        1 => line_number(rng, &mut side.seniority, side.lines, place),
        2 => entry_number(rng, &mut register.entries, register.count, place),
        3 => conflict_number(rng, &mut value.conflicts, place),
        4 => pair_number(rng, &mut value.pairs, place),
        _ => &mut value.rules.entries[rule].action,
    }
}

/// A word becomes another, or a number that is no word's.
fn change_word(rng: &mut Rng, value: &mut PolicyValue) {
    let rule = rule_place(rng, value);
    let rule = &mut value.rules.entries[rule];
    let word = place(rng, rule.count, WORD_PLACES);
    let word = &mut rule.words[word];
    let (one, other) = (rng.below(10), rng.below(10));
    let words = [
        Word::True,
        Word::False,
        Word::Not,
        Word::And,
        Word::Or,
        Word::User(one),
        Word::Object(one),
        Word::Within(one, other),
        Word::Same(one, other),
    ];
    *word = match rng.below(5) {
        0 => rng.pick(&[5, 9, 30, 31, 39, 40, 49, 250, 255]),
        1 => *word ^ 1 << rng.below(u8::BITS),
        _ => word_number(&rng.pick(&words)),
    };
}

/// Two entries of a list change places, or one stands twice.
fn break_order(rng: &mut Rng, value: &mut PolicyValue) {
    let user = rng.chance(1, 2);
    let (side, register) = match user {
        true => (&mut value.user, &mut value.users),
        false => (&mut value.object, &mut value.objects),
    };
    match rng.below(6) {
        0 => disorder(rng, &mut side.widths, side.attributes),
        1 => disorder(rng, &mut side.seniority, side.lines),
        2 => disorder(rng, &mut register.entries, register.count),
        3 => disorder(rng, &mut value.conflicts.entries, value.conflicts.count),
        4 => disorder(rng, &mut value.pairs.entries, value.pairs.count),
        _ => disorder(rng, &mut value.rules.entries, value.rules.count),
    }
}

fn disorder<T: Copy>(rng: &mut Rng, entries: &mut [T], count: usize) {
    let one = place(rng, count, entries.len());
    let other = place(rng, count, entries.len());
    match rng.chance(2, 3) {
        true => entries.swap(one, other),
        false => entries[one] = entries[other],
    }
}

/// One more entry at the end of a list, small numbers in it.
fn widen(rng: &mut Rng, value: &mut PolicyValue) {
    let (one, other) = (rng.below(10), rng.below(10));
    let user = rng.chance(1, 2);
    let (side, register) = match user {
        true => (&mut value.user, &mut value.users),
        false => (&mut value.object, &mut value.objects),
    };
    match rng.below(6) {
        0 => append(&mut side.widths, &mut side.attributes, one),
        1 => {
            let line = Direct {
                senior: one,
                junior: other,
            };
            append(&mut side.seniority, &mut side.lines, line);
        }
        2 => {
            let entry = Entry {
                number: one + 24 + 32 * rng.below(2),
                set: other,
            };
            append(&mut register.entries, &mut register.count, entry);
        }
        3 => {
            let conflict = late_conflict(rng, &value.user);
            let Conflicts { count, entries } = &mut value.conflicts;
            append(entries, count, conflict);
        }
        4 => {
            let pair = Pair {
                action: limit_action(rng),
                user: one,
                object: other,
            };
            append(&mut value.pairs.entries, &mut value.pairs.count, pair);
        }
        _ => {
            let rule = late_rule(rng, one, other);
            append(&mut value.rules.entries, &mut value.rules.count, rule);
        }
    }
}

/// A rule of one word, for any action or one at the limits of the forms.
fn late_rule(rng: &mut Rng, action: u32, value: u32) -> RuleValue {
    let limit = limit_action(rng);
    let mut rule = RuleValue {
        action: rng.pick(&[action, action + 8, limit]),
        count: 1,
        ..RuleValue::default()
    };
    rule.words[0] = word_number(&Word::User(value));
    rule
}

/// A conflict of the greatest set that a side has, or of the number past it.
fn late_conflict(rng: &mut Rng, side: &SideValue) -> Conflict {
    let sets = 1u32 << (side.values() % u32::BITS);
    Conflict {
        set: sets - u32::from(rng.chance(2, 3)),
        most: rng.below(9),
    }
}

fn append<T>(entries: &mut [T], count: &mut usize, entry: T) {
    if let Some(place) = entries.get_mut(*count) {
        *place = entry;
        *count += 1;
    }
}

fn flip_bit(rng: &mut Rng, value: &mut PolicyValue) {
    match rng.chance(1, 4) {
        true => *count_of(rng, value) ^= 1 << rng.below(usize::BITS),
        false => *number_of(rng, value) ^= 1 << rng.below(u32::BITS),
    }
}
