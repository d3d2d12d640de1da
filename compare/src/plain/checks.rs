//! Checks 6 to 9 on what a line says, and check 11 on a policy value.

use super::policy::{Form, Policy, Refusal, Rule, Rules, Word, OBJECTS, TOGETHER, USERS};
use crate::boundary::{Conflict, Conflicts, Direct, Entry, Pair, Pairs, Register, SideValue};

/// The sums and counts of one side that checks look at.
#[derive(Clone, Copy)]
pub struct Shape<'a> {
    pub widths: &'a [u32],
    pub values: u32,
}

impl<'a> Shape<'a> {
    /// Of a side whose count of attributes is good.
    pub fn of(side: &'a SideValue) -> Self {
        let widths = &side.widths[..side.attributes];
        Shape {
            widths,
            values: widths.iter().sum(),
        }
    }

    /// How many sets there are.
    pub fn sets(&self) -> u32 {
        1 << self.values
    }
}

/// What rules and pairs name: actions, and the values of both sides.
#[derive(Clone, Copy)]
pub struct Shapes<'a> {
    pub actions: u32,
    pub user: Shape<'a>,
    pub object: Shape<'a>,
}

impl<'a> Shapes<'a> {
    /// Of a policy whose form and whose counts of attributes are good.
    pub fn of(policy: &'a Policy) -> Self {
        Shapes {
            actions: policy.actions(),
            user: Shape::of(&policy.user),
            object: Shape::of(&policy.object),
        }
    }
}

/// A width is 1 to the most values of the form, and with it the sum is at most that.
pub fn width_fits(most: u32, sum: u32, width: u32) -> bool {
    (1..=most).contains(&width) && sum + width <= most
}

/// Both are values of one attribute, the senior above the junior.
pub fn line_fits(widths: &[u32], line: Direct) -> bool {
    let mut first = 0;
    for &width in widths {
        if line.senior < first + width {
            return first <= line.junior && line.junior < line.senior;
        }
        first += width;
    }
    false
}

fn word_in_range(Shapes { user, object, .. }: Shapes, word: Word) -> bool {
    match word {
        Word::User(value) => u32::from(value) < user.values,
        Word::Object(value) => u32::from(value) < object.values,
        Word::Within(i, j) | Word::Same(i, j) => {
            usize::from(i) < user.widths.len() && usize::from(j) < object.widths.len()
        }
        _ => true,
    }
}

fn widths_equal(Shapes { user, object, .. }: Shapes, word: Word) -> bool {
    match word {
        Word::Within(i, j) | Word::Same(i, j) => {
            user.widths[usize::from(i)] == object.widths[usize::from(j)]
        }
        _ => true,
    }
}

/// Every word finds its truth values, and exactly one remains.
fn balanced(words: &[Word]) -> bool {
    let mut depth = 0;
    for word in words {
        match word {
            Word::Not if depth < 1 => return false,
            Word::Not => {}
            Word::And | Word::Or if depth < 2 => return false,
            Word::And | Word::Or => depth -= 1,
            _ => depth += 1,
        }
    }
    depth == 1
}

/// Checks 6 to 9 of a rule, after the rule before it.
pub fn rule_fits(shapes: Shapes, before: Option<u32>, rule: &Rule) -> Result<(), Refusal> {
    let words = rule.words();
    if rule.action >= shapes.actions || !words.iter().all(|&word| word_in_range(shapes, word)) {
        return Err(Refusal::OutOfRange);
    }
    if before.is_some_and(|before| rule.action <= before) {
        return Err(Refusal::NotRising);
    }
    if !words.iter().all(|&word| widths_equal(shapes, word)) {
        return Err(Refusal::UnequalWidths);
    }
    if !balanced(words) {
        return Err(Refusal::UnbalancedFormula);
    }
    Ok(())
}

/// A user set that there is, and a number that a conflict may have.
pub fn conflict_fits(user: Shape, conflict: Conflict) -> bool {
    conflict.set < user.sets() && conflict.most <= TOGETHER
}

/// An action, a user value and an object value that there are.
pub fn pair_fits(shapes: Shapes, pair: Pair) -> bool {
    pair.action < shapes.actions
        && pair.user < shapes.user.values
        && pair.object < shapes.object.values
}

/// Check 11: whether reading some accepted text yields this value.
pub fn valid(policy: &Policy) -> bool {
    let Some(Form { values, .. }) = Form::numbered(policy.form) else {
        return false;
    };
    if !side_valid(values, &policy.user) || !side_valid(values, &policy.object) {
        return false;
    }
    let shapes = Shapes::of(policy);
    register_valid(&policy.users, USERS, shapes.user.sets())
        && register_valid(&policy.objects, OBJECTS, shapes.object.sets())
        && conflicts_valid(&policy.conflicts, shapes.user)
        && rules_valid(&policy.rules, shapes)
        && pairs_valid(&policy.pairs, shapes)
}

/// Of a form with so many values at most.
fn side_valid(most: u32, side: &SideValue) -> bool {
    let Some((widths, rest)) = side.widths.split_at_checked(side.attributes) else {
        return false;
    };
    let mut sum = 0;
    for &width in widths {
        if !width_fits(most, sum, width) {
            return false;
        }
        sum += width;
    }
    !widths.is_empty()
        && rest.iter().all(|&width| width == 0)
        && list_valid(&side.seniority, side.lines, above, |line| {
            line_fits(widths, line)
        })
}

/// Whether entries fit and each rises above the one before, with nothing behind them.
fn list_valid<T: Copy + Default + PartialEq>(
    places: &[T],
    count: usize,
    rises: impl Fn(T, T) -> bool,
    fits: impl Fn(T) -> bool,
) -> bool {
    let Some((entries, rest)) = places.split_at_checked(count) else {
        return false;
    };
    entries.iter().all(|&entry| fits(entry))
        && entries.windows(2).all(|two| rises(two[0], two[1]))
        && rest.iter().all(|&entry| entry == T::default())
}

/// Whether a line of seniority rises above the one before it.
pub fn above(before: Direct, line: Direct) -> bool {
    (before.senior, before.junior) < (line.senior, line.junior)
}

fn numbers_rise(before: Entry, entry: Entry) -> bool {
    before.number < entry.number
}

fn register_valid(register: &Register, numbers: u32, sets: u32) -> bool {
    list_valid(&register.entries, register.count, numbers_rise, |entry| {
        entry.number < numbers && entry.set < sets
    })
}

/// Whether a conflict rises above the one before it.
pub fn sets_rise(before: Conflict, conflict: Conflict) -> bool {
    before.set < conflict.set
}

fn conflicts_valid(conflicts: &Conflicts, user: Shape) -> bool {
    list_valid(&conflicts.entries, conflicts.count, sets_rise, |conflict| {
        conflict_fits(user, conflict)
    })
}

fn rules_valid(rules: &Rules, shapes: Shapes) -> bool {
    let Some((entries, rest)) = rules.entries.split_at_checked(rules.count) else {
        return false;
    };
    let mut before = None;
    for rule in entries {
        if !words_blank_behind(rule) || rule_fits(shapes, before, rule).is_err() {
            return false;
        }
        before = Some(rule.action);
    }
    rest.iter().all(is_blank)
}

fn is_blank(rule: &Rule) -> bool {
    rule.action == 0 && rule.count == 0 && all_blank(&rule.words)
}

/// Whether words are all the blank one. All are looked at, so that the compiler can take
/// several at once.
fn all_blank(words: &[Word]) -> bool {
    words
        .iter()
        .fold(true, |blank, &word| blank & (word == Word::True))
}

/// Whether a pair rises above the one before it.
pub fn pairs_rise(before: Pair, pair: Pair) -> bool {
    before < pair
}

fn pairs_valid(pairs: &Pairs, shapes: Shapes) -> bool {
    list_valid(&pairs.entries, pairs.count, pairs_rise, |pair| {
        pair_fits(shapes, pair)
    })
}

/// One to 32 words, and the blank word behind them.
fn words_blank_behind(rule: &Rule) -> bool {
    match rule.words.split_at_checked(rule.count) {
        Some((words, rest)) => !words.is_empty() && all_blank(rest),
        None => false,
    }
}
