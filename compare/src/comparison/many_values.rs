//! Calls in which labels above 255 and tuples above 65,535 count, on policies that have
//! them. Few of those that are drawn anyhow are such.

use super::buffers::{stored, Buffers};
use super::calls::is_wide;
use super::coverage::Cause;
use super::known::{has_many_values, Known};
use super::{Outcome, Trial};
use crate::at_widths;
use crate::boundary::{Session, SESSIONS};
use crate::damage::board;
use crate::widths::{Tuple, Widths};
use reference::formula::reach;
use reference::machine::Call;
use reference::policy::Policy;

/// The stream of these calls: all else in a case is as it is without them.
const STREAM: u64 = 8;
/// How many requests are looked at for one in which such labels count.
const REQUESTS: u32 = 64;

impl Trial<'_> {
    /// Such calls, if the policy has many values.
    pub(super) fn by_many_values(&mut self, known: &Known) -> Outcome {
        match &known.policy {
            Some(policy) if has_many_values(policy) => {
                let mut trial = Trial {
                    engine: self.engine,
                    rng: self.rng.branch(STREAM),
                    coverage: self.coverage,
                };
                at_widths!(policy.form.widths, W => {
                    trial.by_wide_tuples::<<W as Widths>::Tuple>(known, policy)?;
                    trial.by_wide_labels::<W>(known, policy)
                })
            }
            _ => Ok(()),
        }
    }

    /// Lists an action with such tuples, and decides by its listing: on one of them, and
    /// on the pair of sets that has the same 16 low bits.
    fn by_wide_tuples<T: Tuple>(&mut self, known: &Known, policy: &Policy) -> Outcome {
        let mut actions = known.actions();
        actions.retain(|&action| {
            let last = known.tuples(policy, action).last();
            last.is_some_and(|&last| is_wide(last))
        });
        if actions.is_empty() {
            return Ok(());
        }
        let action = self.rng.pick(&actions);
        self.list_action_in::<T>(known, action)?;
        let tuples = known.tuples(policy, action);
        let wide = &tuples[tuples.partition_point(|&tuple| !is_wide(tuple))..];
        let tuple = self.rng.pick(wide);
        let listing: Vec<T> = stored(tuples);
        for tuple in [tuple, tuple % (1 << 16)] {
            let objects = policy.object_sets();
            let sets = (tuple / objects, tuple % objects);
            self.decide_on_in(known, sets, &listing, listing.len())?;
        }
        Ok(())
    }

    /// Requests that labels cut to a byte would answer otherwise.
    fn by_wide_labels<W: Widths>(&mut self, known: &Known, policy: &Policy) -> Outcome {
        let labelling = known.labelling(policy);
        let most = labelling.user_count.max(labelling.object_count);
        if most <= 1 << 8 || policy.users.is_empty() || policy.objects.is_empty() {
            return Ok(());
        }
        let buffers = Buffers::<W>::cut(labelling);
        let actions = known.actions();
        let session = self.rng.below(SESSIONS as u32);
        for _ in 0..REQUESTS {
            let rng = &mut self.rng;
            let (user, assigned) = rng.pick(&policy.users);
            let held = rng.below(policy.user_sets()) & reach(policy, assigned);
            let (object, set) = rng.pick(&policy.objects);
            let action = rng.pick(&actions);
            if !policy.may_hold(held) || !known.by_wide_labels(policy, (action, held, set)) {
                continue;
            }
            let mut board = board(rng, policy);
            board.sessions[session as usize] = Session::open(user, held);
            let call = Call::Request {
                session,
                action,
                object,
            };
            self.call_with(known, policy, &board, &buffers, call)?;
            self.coverage.count_cause(Cause::WideLabels, W::REQUEST);
        }
        Ok(())
    }
}
