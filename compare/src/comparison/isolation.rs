//! Isolation of sessions: an engine beside itself. In two lists of calls from a fresh
//! board in which those naming one session are the same, these get the same answers.

use super::buffers::{some_buffers, Buffers};
use super::coverage::{Isolation, With};
use super::known::Known;
use super::sessions::{by_engine, kind};
use super::{same, Outcome, Trial};
use crate::at_widths;
use crate::boundary::{DONE, SESSIONS};
use crate::damage::damaged;
use crate::widths::Widths;
use reference::cases::{two_lists, TwoLists};
use reference::isolation::{answers_naming, naming};
use reference::machine::Call;
use reference::policy::Policy;

/// The streams of whether a text gets such lists, and of the lists: with streams of their
/// own, all else in a case is as it is without them.
const WHETHER: u64 = 6;
const LISTS: u64 = 7;
/// Calls that the first of two lists is made from.
const CALLS: u32 = 16;

impl Trial<'_> {
    /// Whether a text gets such lists, which are long: one in three does.
    pub(super) fn has_two_lists(&self) -> bool {
        self.rng.branch(WHETHER).chance(1, 3)
    }

    /// Two lists with the policy value that a text yields and its compiled buffers; then
    /// two with other buffers, or with a value that no text yields.
    pub(super) fn isolation(&mut self, known: &Known) -> Outcome {
        let Some(policy) = &known.policy else {
            return Ok(());
        };
        let mut trial = Trial {
            engine: self.engine,
            rng: self.rng.branch(LISTS),
            coverage: self.coverage,
        };
        at_widths!(policy.form.widths, W => {
            let compiled = Buffers::<W>::compiled(trial.engine, &known.value);
            trial.lists_with(With::Compiled, known, policy, &compiled)?;
        });
        at_widths!(trial.some_widths(known), W => {
            let buffers = some_buffers::<W>(&mut trial.rng, known);
            if trial.rng.chance(1, 3) {
                return trial.lists_with_damage(known, policy, &buffers);
            }
            let with = match policy.form.check(W::bits()) {
                Ok(()) => With::Buffers,
                Err(_) => With::Widths,
            };
            trial.lists_with(with, known, policy, &buffers)
        })
    }

    /// Two lists with a value that something was changed in, if no text yields it.
    fn lists_with_damage<W: Widths>(
        &mut self,
        known: &Known,
        policy: &Policy,
        buffers: &Buffers<W>,
    ) -> Outcome {
        let damaged = Known::of(damaged(&mut self.rng, &known.value));
        match damaged.policy {
            None => self.lists_with(With::Value, &damaged, policy, buffers),
            Some(_) => Ok(()),
        }
    }

    /// Two lists with a policy value and buffers; their calls are made for a policy. The
    /// calls that name the session get in both the answers that they get alone.
    fn lists_with<W: Widths>(
        &mut self,
        with: With,
        known: &Known,
        policy: &Policy,
        buffers: &Buffers<W>,
    ) -> Outcome {
        let TwoLists {
            session,
            one,
            other,
        } = two_lists(&mut self.rng, policy, CALLS);
        let own = naming(session, &one);
        let alone = self.answers(known, buffers, &own);
        for list in [one, other] {
            let answers = self.answers(known, buffers, &list);
            let what = || {
                let policy = known.shown();
                format!("calls naming session {session} in {list:?}, due as alone: {policy}")
            };
            same(&what, &answers_naming(session, &list, &answers), &alone)?;
        }
        let kinds = own.iter().map(kind::<W>);
        kinds.for_each(|kind| self.coverage.count_isolated(kind));
        self.coverage.count_isolation(
            with,
            Isolation {
                lists: 1,
                answered: u64::from(alone.iter().any(|&answer| answer <= DONE)),
                above_31: u64::from(session as usize >= SESSIONS),
                calls: own.len() as u64,
            },
        );
        Ok(())
    }

    /// The engine's answers to a list of calls from a fresh board.
    fn answers<W: Widths>(&self, known: &Known, buffers: &Buffers<W>, calls: &[Call]) -> Vec<u32> {
        let labels = buffers.labels();
        let mut board = self.engine.fresh();
        let answer = |call| {
            let step = by_engine(self.engine, &board, known, &labels, call);
            board = step.board;
            step.answer
        };
        calls.iter().map(answer).collect()
    }
}
