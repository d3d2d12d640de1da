//! Listing and deciding by tuples as a faulty engine makes them, for both widths.

use super::seen::{all_of, by_places, without_above_7, without_pairs};
use super::Fault::*;
use super::Faulty;
use helvemoik_compare::boundary::*;
use helvemoik_compare::engine::Engine;
use helvemoik_compare::plain::policy::Form;
use helvemoik_compare::plain::Plain;
use helvemoik_compare::widths::Tuple;

/// Whether a call is made for other tuples than those of the policy's form.
fn is_wrong<T: Tuple>(policy: &PolicyValue) -> bool {
    let form = Form::numbered(policy.form);
    Plain.valid(policy) && form.is_some_and(|form| form.tuple_bits != T::BITS)
}

/// A valid policy in a form that has these tuples, with the actions that all forms have.
fn in_form_of<T: Tuple>(policy: &PolicyValue) -> PolicyValue {
    PolicyValue {
        form: if T::BITS == 16 { 1 } else { 3 },
        ..without_above_7(policy)
    }
}

impl Faulty {
    pub fn list<T: Tuple>(&self, policy: &PolicyValue, action: u32, buffer: &mut [T]) -> Counted {
        if is_wrong::<T>(policy) {
            return self.list_wrong(policy, action, buffer);
        }
        let seen = match self.0 {
            ListsWithoutPairs => without_pairs(policy),
            ListsThePairsOfAll => all_of(policy, action),
            ListsByPlaces => by_places(policy),
            _ => *policy,
        };
        let listed = T::list(&Plain, &seen, action, buffer);
        match (self.0, listed.refusal) {
            (ListsThoughTooShort, 20) => buffer.fill(T::default()),
            (ListsAction8InForm1, 12) if (policy.form, action) == (1, 8) => {
                return Counted::default()
            }
            (CutsTuples, 0) => {
                for tuple in &mut buffer[..listed.count] {
                    *tuple = low_half(*tuple);
                }
            }
            _ => {}
        }
        listed
    }

    /// Lists with a policy of another form than those that have such tuples.
    fn list_wrong<T: Tuple>(&self, policy: &PolicyValue, action: u32, buffer: &mut [T]) -> Counted {
        let due = T::list(&Plain, policy, action, buffer);
        match self.0 {
            ListsForm3In16Bits if T::BITS == 16 => {
                T::list(&Plain, &in_form_of::<T>(policy), action, buffer)
            }
            ListsEarlierFormsIn32Bits if T::BITS == 32 => {
                T::list(&Plain, &in_form_of::<T>(policy), action, buffer)
            }
            Tests12BeforeTupleBits if action >= 16 => Counted { refusal: 12, ..due },
            WrongTupleBitsTouchTheBuffer => {
                buffer.fill(T::default());
                due
            }
            _ => due,
        }
    }

    pub fn decide_by_tuples<T: Tuple>(
        &self,
        policy: &PolicyValue,
        user: u32,
        object: u32,
        listing: &[T],
        count: usize,
    ) -> u32 {
        let decide = |policy: &_, count| T::decide(&Plain, policy, user, object, listing, count);
        match self.0 {
            TakesAnyCount => decide(policy, count.min(listing.len())),
            DecidesForm3By16Bits if T::BITS == 16 && is_wrong::<T>(policy) => {
                decide(&in_form_of::<T>(policy), count)
            }
            DecidesEarlierFormsBy32Bits if T::BITS == 32 && is_wrong::<T>(policy) => {
                decide(&in_form_of::<T>(policy), count)
            }
            DecidesByCutTuples if decide(policy, count) == DENIED => {
                let tuple = T::cut(user << policy.object.values() | object);
                let mut first = listing[..count].iter();
                first
                    .any(|&other| low_half(other) == low_half(tuple))
                    .into()
            }
            _ => decide(policy, count),
        }
    }
}

/// The low 16 bits of a tuple.
fn low_half<T: Tuple>(tuple: T) -> T {
    tuple & T::cut(u16::MAX.into())
}
