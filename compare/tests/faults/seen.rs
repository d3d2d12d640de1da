//! The policy value as a faulty engine sees it.

use super::Fault::*;
use super::Faulty;
use helvemoik_compare::boundary::*;
use helvemoik_compare::engine::Engine;
use helvemoik_compare::plain::policy::Form;
use helvemoik_compare::plain::Plain;
use helvemoik_compare::value::{value_of, yielded};
use reference::spelled::spelled_out;

impl Faulty {
    /// The policy value as an engine with this fault sees it.
    pub fn seen(&self, policy: &PolicyValue) -> PolicyValue {
        let mut seen = *policy;
        match self.0 {
            MissesALeftover => {
                let used = seen.objects.count.min(ENTRY_PLACES);
                seen.objects.entries[used..].fill(Entry::default());
            }
            MissesAHugeCount => seen.user.lines %= 1 << 32,
            TakesAnyForm => {
                if Form::numbered(seen.form).is_none() {
                    seen.form = 2;
                }
            }
            TakesAction8InForm1 if seen.form == 1 => clamp_actions(&mut seen, 8),
            TakesAction16InForm2 if seen.form == 2 => clamp_actions(&mut seen, 16),
            TakesNumbersOfNoWord => {
                for rule in &mut seen.rules.entries {
                    each(&mut rule.words, |number| {
                        if matches!(*number, 5..=9 | 30..=49 | 250..) {
                            *number = 0;
                        }
                    });
                }
            }
            _ => {
                self.see_sides(&mut seen);
                self.see_conflicts(&mut seen);
                self.see_pairs(&mut seen);
            }
        }
        seen
    }

    /// The same for faults in what values and lines of seniority the sides have.
    fn see_sides(&self, seen: &mut PolicyValue) {
        match self.0 {
            TakesEightValuesInForm2 if seen.form == 2 => seen.form = 3,
            TakesTenValuesInForm3 if seen.form == 3 => {
                for side in [&mut seen.user, &mut seen.object] {
                    if let (10, Some(width)) = (side.values(), side.widths.iter_mut().max()) {
                        *width -= 1;
                    }
                }
            }
            MissesALateWidth => {
                let late = seen.user.attributes.clamp(FORM_1_VALUES, WIDTH_PLACES);
                seen.user.widths[late..].fill(0);
            }
            MissesALateLine => {
                let last = LINE_PLACES - 1;
                if seen.user.lines <= last {
                    seen.user.seniority[last] = Direct::default();
                }
            }
            _ => {}
        }
    }

    /// The same for faults in what conflicts there are.
    fn see_conflicts(&self, seen: &mut PolicyValue) {
        let Conflicts { count, entries } = &mut seen.conflicts;
        let (conflicts, rest) = entries.split_at_mut((*count).min(CONFLICT_PLACES));
        let sets = 1u32 << (seen.user.values() % u32::BITS);
        match self.0 {
            MissesALeftoverConflict => rest.fill(Conflict::default()),
            MissesAHugeConflictCount => *count %= 1 << 32,
            TakesConflictsInAnyOrder => conflicts.sort_by_key(|conflict| conflict.set),
            TakesASetTwice => {
                let mut kept = conflicts.to_vec();
                kept.dedup_by_key(|conflict| conflict.set);
                *count = refill(entries, &kept);
            }
            TakesAnySetInAConflict => each(conflicts, |conflict| {
                conflict.set = conflict.set.min(sets - 1);
            }),
            TakesAnyMost => each(conflicts, |conflict| {
                conflict.most = conflict.most.min(MOST_TOGETHER as u32);
            }),
            _ => {}
        }
    }

    /// The same for faults in what pairs there are.
    fn see_pairs(&self, seen: &mut PolicyValue) {
        let Pairs { count, entries } = &mut seen.pairs;
        let (pairs, rest) = entries.split_at_mut((*count).min(PAIR_PLACES));
        let (users, objects) = (seen.user.values().max(1), seen.object.values().max(1));
        let last = Form::numbered(seen.form).map_or(0, |form| form.actions - 1);
        match self.0 {
            MissesALeftoverPair => rest.fill(Pair::default()),
            MissesAHugePairCount => *count %= 1 << 32,
            TakesPairsInAnyOrder => pairs.sort(),
            TakesAPairTwice => {
                let mut kept = pairs.to_vec();
                kept.dedup();
                *count = refill(entries, &kept);
            }
            TakesAnyPairAction => each(pairs, |pair| pair.action = pair.action.min(last)),
            TakesAnyUserValueInAPair => each(pairs, |pair| pair.user = pair.user.min(users - 1)),
            TakesAnyObjectValueInAPair => {
                each(pairs, |pair| pair.object = pair.object.min(objects - 1));
            }
            _ => {}
        }
    }
}

/// A value with the first action that its form lacks in the last rule or pair seen as the
/// last that it has.
fn clamp_actions(seen: &mut PolicyValue, lacked: u32) {
    let last = |action: &mut u32| {
        if *action == lacked {
            *action -= 1;
        }
    };
    each(&mut seen.rules.entries, |rule| last(&mut rule.action));
    each(&mut seen.pairs.entries, |pair| last(&mut pair.action));
}

fn each<T>(entries: &mut [T], change: impl FnMut(&mut T)) {
    entries.iter_mut().for_each(change);
}

/// The entries at the start of an array, and nothing behind them; how many they are.
fn refill<T: Copy + Default>(places: &mut [T], entries: &[T]) -> usize {
    places.fill(T::default());
    places[..entries.len()].copy_from_slice(entries);
    entries.len()
}

/// A valid policy with something changed that leaves it valid; another as it is.
pub fn changed(policy: &PolicyValue, change: impl Fn(&mut PolicyValue)) -> PolicyValue {
    let mut changed = *policy;
    if Plain.valid(policy) {
        change(&mut changed);
    }
    changed
}

pub fn without_pairs(policy: &PolicyValue) -> PolicyValue {
    changed(policy, |policy| policy.pairs = Pairs::default())
}

pub fn without_conflicts(policy: &PolicyValue) -> PolicyValue {
    changed(policy, |policy| policy.conflicts = Conflicts::default())
}

/// Of form 1, where that has the actions.
pub fn of_form_1(policy: &PolicyValue) -> PolicyValue {
    let seen = PolicyValue { form: 1, ..*policy };
    match Plain.valid(&seen) {
        true => seen,
        false => *policy,
    }
}

/// Without the rules and pairs of actions that form 1 lacks.
pub fn without_above_7(policy: &PolicyValue) -> PolicyValue {
    changed(policy, |policy| {
        let Pairs { count, entries } = &mut policy.pairs;
        let mut pairs = entries[..*count].to_vec();
        pairs.retain(|pair| pair.action < FORM_1_ACTIONS as u32);
        *count = refill(entries, &pairs);
        let RulesValue { count, entries } = &mut policy.rules;
        let mut rules = entries[..*count].to_vec();
        rules.retain(|rule| rule.action < FORM_1_ACTIONS as u32);
        *count = refill(entries, &rules);
    })
}

/// With a value more that each conflict allows.
pub fn with_eased_conflicts(policy: &PolicyValue) -> PolicyValue {
    changed(policy, |policy| {
        let used = policy.conflicts.count;
        each(&mut policy.conflicts.entries[..used], |conflict| {
            conflict.most = (conflict.most + 1).min(MOST_TOGETHER as u32);
        });
    })
}

/// With all pairs for one action.
pub fn all_of(policy: &PolicyValue, action: u32) -> PolicyValue {
    if Form::numbered(policy.form).is_none_or(|form| action >= form.actions) {
        return *policy;
    }
    changed(policy, |policy| {
        let Pairs { count, entries } = &mut policy.pairs;
        let mut pairs = entries[..*count].to_vec();
        each(&mut pairs, |pair| pair.action = action);
        pairs.sort();
        pairs.dedup();
        *count = refill(entries, &pairs);
    })
}

/// With dominance by places alone; as it is where the seniors that hold do not fit in.
pub fn by_places(policy: &PolicyValue) -> PolicyValue {
    let spelled = yielded(policy).map(|policy| {
        let mut spelled = spelled_out(&policy);
        spelled.pairs.sort();
        spelled.pairs.dedup();
        value_of(&spelled)
    });
    spelled
        .filter(|spelled| Plain.valid(spelled))
        .unwrap_or(*policy)
}
