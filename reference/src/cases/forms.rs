//! Texts of forms 2 and 3.

use super::damage::{place, sometimes_a_byte_more};
use super::rng::Rng;
use super::valid::{formula, rising, Draft};
use crate::form::{Form, FORMS};

pub const FORM_1: Form = FORMS[0];
pub const FORM_2: Form = FORMS[1];
pub const FORM_3: Form = FORMS[2];

/// Numbers that no text's form has.
const NO_FORMS: [&str; 7] = ["0", "5", "6", "10", "12", "256", "99999"];

/// Gives a form other than the first to a valid text without pairs: most often with more
/// rules, up to all that there may be, of any actions or of those that form 1 lacks.
pub fn take(rng: &mut Rng, form: Form, draft: &mut Draft) {
    draft.set_form(form);
    let mut formulas: Vec<String> = Vec::new();
    for place in draft.places("rule").into_iter().rev() {
        let rule = draft.lines.remove(place);
        formulas.push(rule.splitn(3, ',').last().expect("words").to_string());
    }
    let ruled = formulas.len();
    let more = match rng.below(3) {
        0 if ruled < FORM_1.actions as usize => 0,
        1 if ruled < FORM_1.actions as usize => rng.index(ruled + 1),
        _ => ruled,
    };
    for _ in 0..more {
        let words = rng.pick(&formulas[..ruled]).split(',').count();
        let (users, objects) = (&draft.user_widths, &draft.object_widths);
        let words = formula(rng, users, objects, words as u32);
        formulas.push(words.join(","));
    }
    let actions = actions(rng, form, formulas.len() as u32);
    let numbered = actions.iter().zip(&formulas);
    let rules = numbered.map(|(action, words)| format!("rule,{action},{words}"));
    let end = draft.lines.len() - 1;
    draft.lines.splice(end..end, rules);
}

/// So many actions, rising; one time in three none that form 1 has, if they are few.
fn actions(rng: &mut Rng, form: Form, count: u32) -> Vec<u32> {
    let new = form.actions - FORM_1.actions;
    if count > new || rng.chance(2, 3) {
        return rising(rng, form.actions, count);
    }
    let actions = rising(rng, new, count).into_iter();
    actions.map(|action| action + FORM_1.actions).collect()
}

/// A text of an earlier form, whatever its faults, that says it is of this one.
pub fn renumbered(text: Vec<u8>, form: Form) -> Vec<u8> {
    let earlier = FORMS.iter().filter(|earlier| earlier.number < form.number);
    for line in earlier.map(first_line) {
        if let Some(rest) = text.strip_prefix(line.as_bytes()) {
            return [first_line(&form).as_bytes(), rest].concat();
        }
    }
    text
}

fn first_line(form: &Form) -> String {
    format!("policy,{}\n", form.number)
}

/// Damage to a valid text of a form by what goes by the form: another number of the form,
/// an action at the limit of a form, or, in form 3, values at its limit.
pub fn damaged(rng: &mut Rng, mut draft: Draft) -> Vec<u8> {
    match draft.form {
        FORM_3 => match rng.below(6) {
            0 => no_form(rng, &mut draft),
            1..=2 => earlier_form(rng, &mut draft),
            3 => edge_action(rng, &mut draft),
            _ => edge_value(rng, &mut draft),
        },
        _ => match rng.below(4) {
            0 => no_form(rng, &mut draft),
            1 => draft.lines[0] = format!("policy,{}", FORM_1.number),
            _ => edge_action(rng, &mut draft),
        },
    }
    let mut text = draft.text();
    sometimes_a_byte_more(rng, &mut text);
    text
}

fn no_form(rng: &mut Rng, draft: &mut Draft) {
    draft.lines[0] = format!("policy,{}", rng.pick(&NO_FORMS));
}

/// The first line of a form that may lack values or actions of the text.
fn earlier_form(rng: &mut Rng, draft: &mut Draft) {
    let number = rng.pick(&[FORM_1, FORM_2, FORM_2]).number;
    draft.lines[0] = format!("policy,{number}");
}

/// An action at the limit of either number of actions, sometimes in form 1.
fn edge_action(rng: &mut Rng, draft: &mut Draft) {
    let action = rng.pick(&[7, 8, 15, 15, 16, 16, 16, 16, 17, 32, 256, 65_535]);
    let line = rng.pick(&["rule,A,t", "rule,A,a", "pair,A,0,0", "pair,A,0,9"]);
    place(rng, draft, line.replace('A', &action.to_string()));
    if rng.chance(1, 4) {
        draft.lines[0] = format!("policy,{}", FORM_1.number);
    }
}

/// A width, a sum of widths, a set or a value at the limit of form 3, sometimes in form 2.
fn edge_value(rng: &mut Rng, draft: &mut Draft) {
    let (sets, last) = (draft.form.most_sets(), draft.form.last_action());
    let left = draft.form.values - draft.user_values().max(draft.object_values());
    let kind = rng.pick(&["uattr", "oattr"]);
    let line = match rng.below(8) {
        0..=2 => format!("{kind},{}", rng.pick(&[8, 9, 10, 10, 11, 265])),
        3..=4 => format!("{kind},{}", left + 1),
        5 => format!("{kind},{}", left.max(1)),
        6 => {
            let line = rng.pick(&["user,31,S", "object,63,S", "conflict,S,7", "conflict,1,9"]);
            line.replace(
                'S',
                &rng.pick(&[sets - 1, sets, sets, 2 * sets]).to_string(),
            )
        }
        _ => {
            let line = rng.pick(&["rule,A,u9", "rule,A,o9", "rule,A,u8,o8,a", "pair,A,8,9"]);
            line.replace('A', &last.to_string())
        }
    };
    place(rng, draft, line);
    if rng.chance(1, 6) {
        draft.lines[0] = format!("policy,{}", FORM_2.number);
    }
}
