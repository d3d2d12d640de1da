//! The truth of a formula at one pair of sets, and deciding by it and by pairs.

use super::checks::{valid, Shape};
use super::pairs::{meets, pairs_of};
use super::policy::{Policy, Refusal, Word};
use crate::boundary::{SideValue, WIDTH_PLACES, WORD_PLACES};

/// A set with all juniors of its values. Lines rise, so the last comes first.
pub fn with_juniors(side: &SideValue, set: u32) -> u32 {
    let lines = side.seniority[..side.lines].iter().rev();
    lines.fold(set, |set, line| {
        set | (set >> line.senior & 1) << line.junior
    })
}

/// A set with all seniors of its values.
pub fn with_seniors(side: &SideValue, set: u32) -> u32 {
    let lines = side.seniority[..side.lines].iter();
    lines.fold(set, |set, line| {
        set | (set >> line.junior & 1) << line.senior
    })
}

/// A set, and what its side's holdings look at: a user's with juniors, as dominance
/// does too, an object's with seniors.
#[derive(Clone, Copy, Default)]
pub struct Held {
    pub set: u32,
    pub closed: u32,
}

impl Held {
    pub fn by_user(policy: &Policy, set: u32) -> Self {
        let closed = with_juniors(&policy.user, set);
        Held { set, closed }
    }

    pub fn by_object(policy: &Policy, set: u32) -> Self {
        let closed = with_seniors(&policy.object, set);
        Held { set, closed }
    }
}

/// Where each attribute of a side starts, and its mask.
#[derive(Clone, Copy)]
struct Places([(u32, u32); WIDTH_PLACES]);

impl Places {
    fn of(side: &SideValue) -> Self {
        let mut places = [(0, 0); WIDTH_PLACES];
        let mut start = 0;
        for (place, &width) in places.iter_mut().zip(&side.widths) {
            *place = (start, (1 << width) - 1);
            start += width;
        }
        Places(places)
    }

    fn held(&self, attribute: u8, set: u32) -> u32 {
        let (start, mask) = self.0[usize::from(attribute)];
        set >> start & mask
    }
}

/// What evaluating formulas of a valid policy needs.
pub struct Evaluator {
    user: Places,
    object: Places,
}

impl Evaluator {
    pub fn of(policy: &Policy) -> Self {
        Evaluator {
            user: Places::of(&policy.user),
            object: Places::of(&policy.object),
        }
    }

    /// The truth of a balanced formula at a pair of sets.
    pub fn truth(&self, words: &[Word], user: Held, object: Held) -> bool {
        let mut stack = [false; WORD_PLACES + 1];
        let mut top = 0;
        for &word in words {
            match word {
                Word::Not => stack[top] = !stack[top],
                Word::And => {
                    top -= 1;
                    stack[top] &= stack[top + 1];
                }
                Word::Or => {
                    top -= 1;
                    stack[top] |= stack[top + 1];
                }
                _ => {
                    top += 1;
                    stack[top] = self.pushes(word, user, object);
                }
            }
        }
        stack[top]
    }

    fn pushes(&self, word: Word, user: Held, object: Held) -> bool {
        match word {
            Word::True => true,
            Word::User(value) => user.closed >> value & 1 == 1,
            Word::Object(value) => object.closed >> value & 1 == 1,
            Word::Within(i, j) => {
                self.object.held(j, object.set) & !self.user.held(i, user.closed) == 0
            }
            Word::Same(i, j) => self.object.held(j, object.set) == self.user.held(i, user.set),
            _ => false,
        }
    }
}

/// The words of an action; one without a rule is false.
pub fn formula(policy: &Policy, action: u32) -> &[Word] {
    match policy.rules().iter().find(|rule| rule.action == action) {
        Some(rule) => rule.words(),
        None => &[Word::False],
    }
}

/// Whether a pair holds a value that its side lacks.
pub fn lacking(policy: &Policy, user: u32, object: u32) -> bool {
    user >= Shape::of(&policy.user).sets() || object >= Shape::of(&policy.object).sets()
}

/// Decides by the formula and by pairs on two sets.
pub fn decide(policy: &Policy, action: u32, user: u32, object: u32) -> Result<bool, Refusal> {
    if !valid(policy) {
        return Err(Refusal::InvalidState);
    }
    if action >= policy.actions() {
        return Err(Refusal::UnknownAction);
    }
    if lacking(policy, user, object) {
        return Err(Refusal::SetOutOfReach);
    }
    let (user, object) = (Held::by_user(policy, user), Held::by_object(policy, object));
    let mut pairs = pairs_of(policy, action).iter();
    Ok(pairs.any(|pair| meets(pair, user, object))
        || Evaluator::of(policy).truth(formula(policy, action), user, object))
}
