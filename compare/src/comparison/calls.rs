//! Deciding, listing and telling apart.

use super::buffers::{cut, stored};
use super::coverage::Cause;
use super::known::{is_above_7, Known};
use super::lent::{length_for, Lent};
use super::{same, Outcome, Trial, What};
use crate::at_tuples;
use crate::boundary::*;
use crate::damage::{odd, odd_count};
use crate::widths::Tuple;
use reference::cases::{action, set};
use reference::formula::{decide, reach, Formulas};
use reference::labels::apart;
use reference::policy::{Policy, Refusal};
use reference::tuples::{decide_by_tuples_for as by_tuples, stored as tuple, Stored};

/// A decision as the header numbers it.
fn decision(answer: Result<bool, Refusal>) -> u32 {
    answer.map_or_else(|refusal| refusal, u32::from)
}

/// The tuples of an action by a call made for tuples of these bits, or its refusal.
fn due_listing(known: &Known, bits: u32, action: u32) -> Result<&[Stored], Refusal> {
    let policy = known.policy.as_ref().ok_or(11u32)?;
    policy.form.check_tuples(bits)?;
    match action < policy.actions() {
        true => Ok(known.tuples(policy, action)),
        false => Err(12),
    }
}

/// Whether 16 bits are too few for a tuple.
pub(super) fn is_wide(tuple: u32) -> bool {
    tuple > u16::MAX.into()
}

impl Trial<'_> {
    /// A user set and an object set, mostly of the policy's sides.
    fn sets(&mut self, known: &Known) -> (u32, u32) {
        let most = MOST_LABELS as u32;
        let sides = known.policy.as_ref().map_or((most, most), |policy| {
            (policy.user_sets(), policy.object_sets())
        });
        let rng = &mut self.rng;
        (set(rng, sides.0, u32::MAX), set(rng, sides.1, u32::MAX))
    }

    /// An action, mostly one that has a rule or a pair; now and then the first that the form
    /// lacks.
    fn some_action(&mut self, known: &Known) -> u32 {
        let actions = known.actions();
        match self.rng.below(16) {
            0 => known.form().actions,
            1..=12 if !actions.is_empty() => self.rng.pick(&actions),
            _ => action(&mut self.rng, known.form(), u32::MAX),
        }
    }

    /// An action and two sets; now and then those at which a senior alone may dominate.
    fn decision_on(&mut self, known: &Known) -> (u32, u32, u32) {
        let dominances = known.dominances();
        if !dominances.is_empty() && self.rng.chance(1, 4) {
            return self.rng.pick(&dominances);
        }
        let action = self.some_action(known);
        let (user, object) = self.sets(known);
        (action, user, object)
    }

    pub(super) fn deciding(&mut self, known: &Known) -> Outcome {
        let (action, user, object) = self.decision_on(known);
        let found = self.engine.decide(&known.value, action, user, object);
        self.count("decide", known, found);
        let due = match &known.policy {
            None => 11,
            Some(policy) => decision(decide(policy, action, user, object)),
        };
        if due == DENIED || due == GRANTED {
            self.count_decision("decide", known, (action, user, object));
        }
        let what = || format!("decide {action} {user} {object}: {}", known.shown());
        same(&what, &found, &due)
    }

    /// Counts a decision on an action and two sets that would be another without pairs,
    /// with dominance by places alone, or without the actions above 7.
    pub(super) fn count_decision(
        &mut self,
        kind: &'static str,
        known: &Known,
        (action, user, object): (u32, u32, u32),
    ) {
        if known.by_pair_alone(action, user, object) {
            self.coverage.count_cause(Cause::Pairs, kind);
        }
        if known.by_seniority(action, user, object) {
            self.coverage.count_cause(Cause::Seniority, kind);
        }
        if is_above_7(action) && known.grants(action, user, object) {
            self.coverage.count_cause(Cause::Above7, kind);
        }
    }

    /// Counts a result that has these actions, and would be another without their pairs, or
    /// with dominance by places alone.
    pub(super) fn count_result(
        &mut self,
        kind: &'static str,
        known: &Known,
        among: impl Fn(u32) -> bool,
    ) {
        if known.some_pair_alone(&among) {
            self.coverage.count_cause(Cause::Pairs, kind);
        }
        if known.some_by_seniority(&among) {
            self.coverage.count_cause(Cause::Seniority, kind);
        }
    }

    pub(super) fn listing(&mut self, known: &Known) -> Outcome {
        at_tuples!(self.some_tuple_bits(known), T => self.list_in::<T>(known))
    }

    fn list_in<T: Tuple>(&mut self, known: &Known) -> Outcome {
        let (action, ..) = self.decision_on(known);
        self.list_action_in::<T>(known, action)
    }

    /// Lists an action in tuples of a width, into a buffer of any length.
    pub(super) fn list_action_in<T: Tuple>(&mut self, known: &Known, action: u32) -> Outcome {
        let needed = match &known.policy {
            Some(policy) if action < policy.actions() => known.tuples(policy, action).len(),
            _ => 0,
        };
        let length = length_for(&mut self.rng, needed);
        let mut buffer = Lent::filled(&mut self.rng, length);
        let found = T::list(self.engine, &known.value, action, buffer.part());
        self.count(T::LIST, known, found.refusal);
        let (refusal, tuples): (_, Vec<T>) = match due_listing(known, T::BITS, action) {
            Err(refusal) => (refusal, Vec::new()),
            Ok(tuples) if tuples.len() > length => (20, Vec::new()),
            Ok(tuples) => (0, stored(tuples)),
        };
        self.count_other_tuples::<T>(T::LIST, known);
        if refusal == 0 {
            self.count_listed(known, action, &tuples);
        }
        let count = tuples.len();
        let what = || format!("{} {action} into {length}: {}", T::LIST, known.shown());
        same(&what, &found, &Counted { refusal, count })?;
        buffer.starts_with(&what, &tuples)
    }

    fn count_listed<T: Tuple>(&mut self, known: &Known, action: u32, tuples: &[T]) {
        self.count_result(T::LIST, known, |a| a == action);
        if is_above_7(action) && !tuples.is_empty() {
            self.coverage.count_cause(Cause::Above7, T::LIST);
        }
        if tuples.last().is_some_and(|&last| is_wide(last.into())) {
            self.coverage.count_cause(Cause::WideTuples, T::LIST);
        }
    }

    /// Counts a call that is made for other tuples than those of a good policy's form.
    fn count_other_tuples<T: Tuple>(&mut self, kind: &'static str, known: &Known) {
        let policy = known.policy.as_ref();
        if policy.is_some_and(|policy| policy.form.check_tuples(T::BITS).is_err()) {
            self.coverage.count_cause(Cause::Widths, kind);
        }
    }

    pub(super) fn deciding_by_tuples(&mut self, known: &Known) -> Outcome {
        at_tuples!(self.some_tuple_bits(known), T => self.decide_in::<T>(known))
    }

    fn decide_in<T: Tuple>(&mut self, known: &Known) -> Outcome {
        let sets = self.sets(known);
        let listing: Vec<T> = cut(&self.some_listing(known));
        let count = match self.rng.below(8) {
            0 => listing.len() + 1,
            1 => odd_count(&mut self.rng),
            2 => self.rng.index(listing.len() + 1),
            3 => 0,
            _ => listing.len(),
        };
        self.decide_on_in(known, sets, &listing, count)
    }

    /// Decides on two sets by so many of a listing in tuples of a width.
    pub(super) fn decide_on_in<T: Tuple>(
        &mut self,
        known: &Known,
        (user, object): (u32, u32),
        listing: &[T],
        count: usize,
    ) -> Outcome {
        let found = T::decide(self.engine, &known.value, user, object, listing, count);
        self.count(T::DECIDE, known, found);
        self.count_other_tuples::<T>(T::DECIDE, known);
        let due = match &known.policy {
            None => 11,
            Some(policy) => {
                let listing: Vec<Stored> = cut(listing);
                let due = by_tuples(policy, T::BITS, user, object, &listing, count);
                decision(due)
            }
        };
        if let (Some(policy), GRANTED) = (&known.policy, due) {
            if is_wide(tuple(policy, user, object)) {
                self.coverage.count_cause(Cause::WideTuples, T::DECIDE);
            }
        }
        let what = || {
            let (kind, policy) = (T::DECIDE, known.shown());
            format!("{kind} {user} {object}, {count} of {listing:?}: {policy}")
        };
        same(&what, &found, &due)
    }

    /// The listing of an action, or any numbers.
    fn some_listing(&mut self, known: &Known) -> Vec<Stored> {
        match &known.policy {
            Some(policy) if self.rng.chance(3, 4) => {
                let action = self.some_action(known) % policy.actions();
                known.tuples(policy, action).to_vec()
            }
            _ => {
                let most = self.rng.pick(&[1 << 16, MOST_TUPLES as u32]);
                let count = self.rng.below(20);
                (0..count).map(|_| self.rng.below(most)).collect()
            }
        }
    }

    /// Two user sets; now and then a senior alone and with its juniors, which only
    /// comparisons tell apart.
    fn two_user_sets(&mut self, known: &Known) -> (u32, u32) {
        let seniors: Vec<u32> = known.dominances().iter().map(|due| due.1).collect();
        match &known.policy {
            Some(policy) if !seniors.is_empty() && self.rng.chance(1, 4) => {
                let one = self.rng.pick(&seniors);
                (one, reach(policy, one))
            }
            _ => self.any_two_user_sets(known),
        }
    }

    fn any_two_user_sets(&mut self, known: &Known) -> (u32, u32) {
        let (one, _) = self.sets(known);
        let (mut other, _) = self.sets(known);
        if self.rng.chance(1, 4) {
            // Not far from the first, and so more often alike.
            other = one ^ 1;
        } else if self.rng.chance(1, 12) {
            other = odd(&mut self.rng);
        }
        (one, other)
    }

    /// Counts a telling apart that would be another without pairs, with dominance by places
    /// alone, or without the actions above 7.
    fn count_told(&mut self, known: &Known, one: u32, other: u32, apart: bool) {
        if apart && known.alike_without_pairs(one, other) {
            self.coverage.count_cause(Cause::Pairs, "apart");
        }
        if known.told_by_seniority(one, other) {
            self.coverage.count_cause(Cause::Seniority, "apart");
        }
        if apart && known.alike_without_above_7(one, other) {
            self.coverage.count_cause(Cause::Above7, "apart");
        }
    }

    pub(super) fn telling_apart(&mut self, known: &Known) -> Outcome {
        let (one, other) = self.two_user_sets(known);
        let found = self.engine.apart(&known.value, one, other);
        self.count("apart", known, found.answer);
        let what = || format!("apart {one} {other}: {}", known.shown());
        let due = match &known.policy {
            None => 11,
            Some(policy) => match apart(policy, one, other) {
                Err(refusal) => refusal,
                Ok(None) => ALIKE,
                Ok(Some(_)) => APART,
            },
        };
        if due == ALIKE || due == APART {
            self.count_told(known, one, other, due == APART);
        }
        same(&what, &found.answer, &due)?;
        match &known.policy {
            Some(policy) if due == APART => separates(policy, one, other, found, &what),
            _ => {
                let blank = Separation {
                    answer: due,
                    ..Separation::default()
                };
                same(&what, &found, &blank)
            }
        }
    }
}

/// The witness is free, but it must truly separate.
fn separates(policy: &Policy, one: u32, other: u32, found: Separation, what: What) -> Outcome {
    let Separation { action, object, .. } = found;
    let formulas = Formulas::of(policy);
    let true_witness = action < policy.actions()
        && object < policy.object_sets()
        && formulas.grants(action, one, object) != formulas.grants(action, other, object);
    match true_witness {
        true => Ok(()),
        false => Err(format!("{}\n  no witness: {found:?}", what())),
    }
}
