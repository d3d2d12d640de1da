//! A policy value, and what the second implementation knows of it.

use crate::boundary::{PolicyValue, MOST_ACTIONS};
use crate::value::yielded;
use reference::form::{Form, FORMS};
use reference::formula::{is_senior, Formulas};
use reference::labels::{apart, compile, Labelling};
use reference::policy::{first_value, Policy, Rule, Word};
use reference::spelled::spelled_out;
use reference::text::write;
use reference::tuples::{tuples, Stored};
use std::cell::OnceCell;

pub struct Known {
    pub value: PolicyValue,
    /// None where no text yields the value.
    pub policy: Option<Policy>,
    labelling: OnceCell<Labelling>,
    tuples: [OnceCell<Vec<Stored>>; MOST_ACTIONS],
    by_places: OnceCell<Policy>,
}

impl Known {
    /// Finds out by itself whether the value is one that reading yields.
    pub fn of(value: PolicyValue) -> Self {
        let policy = yielded(&value);
        Known {
            value,
            policy,
            labelling: OnceCell::new(),
            tuples: Default::default(),
            by_places: OnceCell::new(),
        }
    }

    /// The form of the policy; where there is none, any will do.
    pub fn form(&self) -> Form {
        self.policy.as_ref().map_or(FORMS[1], |policy| policy.form)
    }

    /// The text of the value, or the value where it has none.
    pub fn shown(&self) -> String {
        match &self.policy {
            Some(policy) => format!("{:?}", String::from_utf8_lossy(&write(policy))),
            None => format!("{:?}", self.value),
        }
    }

    /// The labelling of a policy, worked out once.
    pub fn labelling(&self, policy: &Policy) -> &Labelling {
        self.labelling.get_or_init(|| compile(policy))
    }

    /// Whether an action is decided at two sets otherwise by labels cut to a byte.
    pub fn by_wide_labels(&self, policy: &Policy, (action, user, object): (u32, u32, u32)) -> bool {
        let labelling = self.labelling(policy);
        let user = usize::from(labelling.user_labels[user as usize]);
        let object = usize::from(labelling.object_labels[object as usize]);
        let granted = |user: usize, object: usize| {
            let entry = labelling.table[user * labelling.object_count + object];
            entry >> action & 1 == 1
        };
        granted(user, object) != granted(user % 256, object % 256)
    }

    /// The stored tuples of an action that there is, worked out once.
    pub fn tuples(&self, policy: &Policy, action: u32) -> &[Stored] {
        self.tuples[action as usize]
            .get_or_init(|| tuples(policy, action).expect("an action that there is"))
    }

    /// The policy, and what it is with dominance by places alone; none where nobody is
    /// senior or nothing is dominated.
    fn with_by_places(&self) -> Option<(&Policy, &Policy)> {
        let policy = self.policy.as_ref()?;
        let dominates = |word: &Word| matches!(word, Word::Within(..));
        let mut words = policy.rules.iter().flat_map(|rule| &rule.words);
        if policy.user_seniority.is_empty() || !words.any(dominates) {
            return None;
        }
        Some((policy, self.by_places.get_or_init(|| spelled_out(policy))))
    }

    /// The actions that have a rule or a pair; one that has more stands as often.
    pub fn actions(&self) -> Vec<u32> {
        let policy = self.policy.iter();
        policy
            .flat_map(|policy| {
                let rules = policy.rules.iter().map(|rule| rule.action);
                rules.chain(policy.pairs.iter().map(|pair| pair.action))
            })
            .collect()
    }

    pub fn grants(&self, action: u32, user: u32, object: u32) -> bool {
        self.policy
            .as_ref()
            .is_some_and(|policy| Formulas::of(policy).grants(action, user, object))
    }

    /// Whether an action is granted at two sets by a pair and not by its formula.
    pub fn by_pair_alone(&self, action: u32, user: u32, object: u32) -> bool {
        self.policy.as_ref().is_some_and(|policy| {
            let formulas = Formulas::of(policy);
            formulas.grants(action, user, object) && !formulas.is_true(action, user, object)
        })
    }

    /// Whether some pair of these actions grants alone where nothing but its own two values is held.
    pub fn some_pair_alone(&self, among: impl Fn(u32) -> bool) -> bool {
        let pairs = self.policy.iter().flat_map(|policy| &policy.pairs);
        pairs
            .filter(|pair| among(pair.action))
            .any(|pair| self.by_pair_alone(pair.action, 1 << pair.user, 1 << pair.object))
    }

    /// Whether two user sets are alike by the formulas.
    pub fn alike_without_pairs(&self, one: u32, other: u32) -> bool {
        self.alike_when(one, other, |policy| policy.pairs.clear())
    }

    /// Whether two user sets are alike by the actions that form 1 has.
    pub fn alike_without_above_7(&self, one: u32, other: u32) -> bool {
        self.alike_when(one, other, |policy| {
            policy.rules.retain(|rule| !is_above_7(rule.action));
            policy.pairs.retain(|pair| !is_above_7(pair.action));
        })
    }

    /// Whether two user sets are alike when the policy is changed.
    fn alike_when(&self, one: u32, other: u32, change: impl Fn(&mut Policy)) -> bool {
        self.policy.clone().is_some_and(|mut policy| {
            change(&mut policy);
            apart(&policy, one, other) == Ok(None)
        })
    }

    /// Whether an action would be decided otherwise at two sets if dominance went by
    /// places alone.
    pub fn by_seniority(&self, action: u32, user: u32, object: u32) -> bool {
        self.with_by_places().is_some_and(|(policy, by_places)| {
            let grants = |policy| Formulas::of(policy).grants(action, user, object);
            grants(policy) != grants(by_places)
        })
    }

    /// Whether this is so for one of these actions where a senior alone is held, and the
    /// place of a junior alone.
    pub fn some_by_seniority(&self, among: impl Fn(u32) -> bool) -> bool {
        let mut dominances = self.dominances().into_iter();
        dominances
            .any(|(action, user, object)| among(action) && self.by_seniority(action, user, object))
    }

    /// For each word that asks for dominance, and each senior in its attribute with a
    /// junior: the action, the senior alone and the junior's place alone.
    pub fn dominances(&self) -> Vec<(u32, u32, u32)> {
        let Some((policy, _)) = self.with_by_places() else {
            return Vec::new();
        };
        let of_rule = |rule: &Rule| {
            let sets = rule.words.iter().flat_map(|&word| dominated(policy, word));
            let action = rule.action;
            sets.map(move |(user, object)| (action, user, object))
                .collect::<Vec<_>>()
        };
        policy.rules.iter().flat_map(of_rule).collect()
    }

    /// Whether two user sets would be alike, or apart, if dominance went by places alone,
    /// and are not.
    pub fn told_by_seniority(&self, one: u32, other: u32) -> bool {
        self.with_by_places().is_some_and(|(policy, by_places)| {
            let alike = |policy| apart(policy, one, other) == Ok(None);
            alike(policy) != alike(by_places)
        })
    }
}

/// Whether some side has more values than forms 1 and 2 have.
pub fn has_many_values(policy: &Policy) -> bool {
    policy.user_values().max(policy.object_values()) > FORMS[0].values
}

/// Whether form 1 lacks an action.
pub fn is_above_7(action: u32) -> bool {
    action >= FORMS[0].actions
}

/// The sets of each senior and junior in the user attribute of a word that asks for
/// dominance.
fn dominated(policy: &Policy, word: Word) -> Vec<(u32, u32)> {
    let Word::Within(i, j) = word else {
        return Vec::new();
    };
    let start = first_value(&policy.user_widths, i);
    let object_start = first_value(&policy.object_widths, j);
    let values = start..start + policy.user_widths[i as usize];
    let two = values
        .clone()
        .flat_map(|v| values.clone().map(move |w| (v, w)));
    two.filter(|&(v, w)| is_senior(&policy.user_seniority, v, w))
        .map(|(v, w)| (1 << v, 1 << (w - start + object_start)))
        .collect()
}
