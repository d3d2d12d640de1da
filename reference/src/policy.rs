//! A policy as plain vectors, in text order.

use crate::form::Form;

/// A set of values: the sum of 2^k over the values k in it.
pub type Set = u32;

/// The number of a refusal, 1 to 23.
pub type Refusal = u32;

/// A word of a formula.
#[derive(Debug, Clone, Copy, PartialEq, Eq)]
pub enum Word {
    True,
    False,
    /// The user set holds the value or a senior of it.
    User(u32),
    /// The object set holds the value or a junior of it.
    Object(u32),
    /// `dIJ`: each place held in object attribute J is held in user attribute I, or
    /// has a senior in I that is held.
    Within(u32, u32),
    /// `qIJ`: user attribute I and object attribute J hold the same places.
    Same(u32, u32),
    Not,
    And,
    Or,
}

/// The formula of one action.
#[derive(Debug, Clone, PartialEq, Eq)]
pub struct Rule {
    pub action: u32,
    pub words: Vec<Word>,
}

/// Of the values in a user set, a session may hold at most so many.
#[derive(Debug, Clone, Copy, PartialEq, Eq)]
pub struct Conflict {
    pub set: Set,
    pub most: u32,
}

/// Grants an action to a user value on an object value.
#[derive(Debug, Clone, Copy, PartialEq, Eq, PartialOrd, Ord)]
pub struct Pair {
    pub action: u32,
    pub user: u32,
    pub object: u32,
}

#[derive(Debug, Clone, Default, PartialEq, Eq)]
pub struct Policy {
    pub form: Form,
    pub user_widths: Vec<u32>,
    pub object_widths: Vec<u32>,
    /// Direct lines (senior, junior).
    pub user_seniority: Vec<(u32, u32)>,
    pub object_seniority: Vec<(u32, u32)>,
    /// Number and assigned set.
    pub users: Vec<(u32, Set)>,
    /// Number and set.
    pub objects: Vec<(u32, Set)>,
    pub conflicts: Vec<Conflict>,
    pub rules: Vec<Rule>,
    pub pairs: Vec<Pair>,
}

impl Policy {
    /// How many actions there are.
    pub fn actions(&self) -> u32 {
        self.form.actions
    }

    /// U: how many user values there are.
    pub fn user_values(&self) -> u32 {
        self.user_widths.iter().sum()
    }

    /// O: how many object values there are.
    pub fn object_values(&self) -> u32 {
        self.object_widths.iter().sum()
    }

    /// 2^U: how many user sets there are.
    pub fn user_sets(&self) -> u32 {
        1 << self.user_values()
    }

    /// 2^O: how many object sets there are.
    pub fn object_sets(&self) -> u32 {
        1 << self.object_values()
    }

    /// The set assigned to a user, if the user is registered.
    pub fn assigned(&self, user: u32) -> Option<Set> {
        find(&self.users, user)
    }

    /// The set of an object, if the object is registered.
    pub fn object_set(&self, object: u32) -> Option<Set> {
        find(&self.objects, object)
    }

    /// Whether a session may hold a set: not too many values of any conflict. The
    /// values held count, and not their juniors.
    pub fn may_hold(&self, held: Set) -> bool {
        self.conflicts
            .iter()
            .all(|conflict| (held & conflict.set).count_ones() <= conflict.most)
    }

    /// The formula of an action; that of one without a rule is false.
    pub fn formula(&self, action: u32) -> &[Word] {
        match self.rules.iter().find(|rule| rule.action == action) {
            Some(rule) => &rule.words,
            None => &[Word::False],
        }
    }

    /// Whether an action has a rule or a pair.
    pub fn names(&self, action: u32) -> bool {
        let ruled = self.rules.iter().any(|rule| rule.action == action);
        ruled || self.pairs.iter().any(|pair| pair.action == action)
    }
}

fn find(entries: &[(u32, Set)], number: u32) -> Option<Set> {
    entries
        .iter()
        .find(|entry| entry.0 == number)
        .map(|entry| entry.1)
}

/// The first value of an attribute: values run on through all attributes.
pub fn first_value(widths: &[u32], attribute: u32) -> u32 {
    widths.iter().take(attribute as usize).sum()
}

/// The attribute that a value belongs to, if there is such a value.
pub fn attribute_of(widths: &[u32], value: u32) -> Option<u32> {
    (0..widths.len() as u32).find(|&a| value < first_value(widths, a + 1))
}

#[cfg(test)]
mod tests {
    use super::*;

    #[test]
    fn values_run_on_through_the_attributes() {
        let widths = [2, 1, 3];
        assert_eq!(first_value(&widths, 0), 0);
        assert_eq!(first_value(&widths, 2), 3);
        let attributes: Vec<_> = (0..7).map(|v| attribute_of(&widths, v)).collect();
        let expected = [Some(0), Some(0), Some(1), Some(2), Some(2), Some(2), None];
        assert_eq!(attributes, expected);
    }

    #[test]
    fn every_conflict_counts_the_values_held() {
        let conflicts = [(0, 0), (0b00011, 1), (0b01110, 2), (0b10000, 0)]
            .map(|(set, most)| Conflict { set, most })
            .to_vec();
        let policy = Policy {
            conflicts,
            ..Policy::default()
        };
        for held in [0, 0b00001, 0b00110, 0b01101] {
            assert!(policy.may_hold(held), "{held}");
        }
        for held in [0b00011, 0b01110, 0b01111, 0b10000] {
            assert!(!policy.may_hold(held), "{held}");
        }
        assert!(Policy::default().may_hold(0b11111));
    }

    #[test]
    fn an_action_without_a_rule_is_false() {
        assert_eq!(Policy::default().formula(5), [Word::False]);
    }
}
