//! Comparisons as a faulty engine judges them.

use super::seen::changed;
use super::Fault::*;
use super::Faulty;
use helvemoik_compare::boundary::{Counts, PolicyValue, SideValue};
use helvemoik_compare::engine::Engine;
use helvemoik_compare::plain::formula::{with_seniors, Evaluator, Held};
use helvemoik_compare::plain::policy::{Policy, Word};
use helvemoik_compare::plain::{policy_of, Plain};
use helvemoik_compare::value::word_number;
use helvemoik_compare::widths::{Element, Widths};
use reference::policy;

impl Faulty {
    /// A policy value with each comparison that an engine with this fault misjudges as the
    /// truth value that it takes it for at two sets.
    pub fn compared(&self, policy: &PolicyValue, user: u32, object: u32) -> PolicyValue {
        changed(policy, |policy| {
            let judged = policy_of(policy);
            let evaluator = Evaluator::of(&judged);
            let [user, object] = self.looked_at(&judged, user, object);
            for (rule, from) in policy.rules.entries.iter_mut().zip(judged.rules()) {
                for (number, &word) in rule.words.iter_mut().zip(from.words()) {
                    if self.misjudges(word) {
                        *number = word_number(match evaluator.truth(&[word], user, object) {
                            true => &policy::Word::True,
                            false => &policy::Word::False,
                        });
                    }
                }
            }
        })
    }

    /// Whether an engine with this fault misjudges something in a valid policy.
    pub fn misjudges_some(&self, policy: &PolicyValue) -> bool {
        let judged = policy_of(policy);
        let mut words = judged.rules().iter().flat_map(|rule| rule.words());
        words.any(|&word| self.misjudges(word))
    }

    /// Fills the table of a compiled policy as an engine with this fault judges the lowest
    /// sets of the labels.
    pub fn fill<W: Widths>(
        &self,
        policy: &PolicyValue,
        counts: Counts,
        users: &[W::Label],
        objects: &[W::Label],
        table: &mut [W::Entry],
    ) {
        let mut entries = table.iter_mut();
        for user in (0..counts.users).map(|label| lowest(users, label)) {
            let objects = (0..counts.objects).map(|label| lowest(objects, label));
            for (object, entry) in objects.zip(&mut entries) {
                let judged = self.compared(policy, user, object);
                let granted = |action| Plain.decide(&judged, action, user, object) << action;
                *entry = W::Entry::cut((0..W::Entry::BITS).map(granted).sum());
            }
        }
    }

    fn misjudges(&self, word: Word) -> bool {
        match self.0 {
            DominatesByJuniors | DominatesByOneLine | DominatesByObjectSeniority => {
                matches!(word, Word::Within(..))
            }
            SameBySeniority => matches!(word, Word::Same(..)),
            _ => false,
        }
    }

    /// Two sets as an engine with this fault looks at them where it compares.
    fn looked_at(&self, policy: &Policy, user: u32, object: u32) -> [Held; 2] {
        let mut user = Held::by_user(policy, user);
        let mut object = Held::by_object(policy, object);
        match self.0 {
            DominatesByJuniors => user.closed = with_seniors(&policy.user, user.set),
            DominatesByOneLine => user.closed = with_direct_juniors(&policy.user, user.set),
            DominatesByObjectSeniority => object.set = object.closed,
            SameBySeniority => user.set = user.closed,
            _ => {}
        }
        [user, object]
    }
}

/// The lowest set of a label that is in use.
fn lowest<L: Element>(labels: &[L], label: u32) -> u32 {
    let place = labels.iter().position(|&l| l == L::cut(label));
    place.expect("a label in use") as u32
}

fn with_direct_juniors(side: &SideValue, set: u32) -> u32 {
    let lines = side.seniority[..side.lines].iter();
    lines.fold(set, |held, line| {
        held | (set >> line.senior & 1) << line.junior
    })
}
