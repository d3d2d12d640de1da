//! Compiling, by the calls for all widths.

use super::buffers::stored;
use super::coverage::Cause;
use super::known::Known;
use super::lent::{length_for, Lent};
use super::{same, Outcome, Trial, What};
use crate::at_widths;
use crate::boundary::Counts;
use crate::widths::Widths;
use reference::labels::Labelling;

impl Trial<'_> {
    pub(super) fn compiling(&mut self, known: &Known) -> Outcome {
        let needed = match &known.policy {
            Some(policy) => {
                let labelling = known.labelling(policy);
                [
                    labelling.user_labels.len(),
                    labelling.object_labels.len(),
                    labelling.table.len(),
                ]
            }
            None => [4, 4, 16],
        };
        // Mostly enough; else one or more of them may be short.
        let lengths = match self.rng.chance(1, 2) {
            true => needed.map(|needed| needed + self.rng.index(3)),
            false => needed.map(|needed| length_for(&mut self.rng, needed)),
        };
        at_widths!(self.some_widths(known), W => {
            self.compile_into::<W>(known, lengths)?;
        });
        Ok(())
    }

    /// Compiles for these widths into buffers of these lengths; the answer and the buffers
    /// after it.
    pub(super) fn compile_into<W: Widths>(
        &mut self,
        known: &Known,
        lengths: [usize; 3],
    ) -> Result<(Counts, Compiled<W>), String> {
        let [mut users, mut objects] =
            [0, 1].map(|side| Lent::filled(&mut self.rng, lengths[side]));
        let mut table = Lent::filled(&mut self.rng, lengths[2]);
        let (value, engine) = (&known.value, self.engine);
        let found = W::compile(engine, value, users.part(), objects.part(), table.part());
        self.count(W::COMPILE, known, found.refusal);
        let what = || format!("{} into {lengths:?}: {}", W::COMPILE, known.shown());
        let after = Compiled {
            users,
            objects,
            table,
        };
        let labelling = self.labelling_for::<W>(known);
        let due = match labelling {
            Some(labelling) if after.have_room_for(labelling) => Counts {
                refusal: 0,
                users: labelling.user_count as u32,
                objects: labelling.object_count as u32,
            },
            _ => Counts {
                refusal: if labelling.is_some() { 20 } else { 11 },
                ..Counts::default()
            },
        };
        same(&what, &found, &due)?;
        match labelling {
            Some(labelling) if due.refusal == 0 => {
                self.count_compiled(W::COMPILE, known, labelling);
                after.hold(&what, labelling)?;
            }
            _ => after.are_unchanged(&what)?,
        }
        Ok((found, after))
    }

    /// The labelling that a call made for these widths gives; none where check 11 refuses
    /// it. Counts the call where it does for the widths alone.
    fn labelling_for<'a, W: Widths>(&mut self, known: &'a Known) -> Option<&'a Labelling> {
        let policy = known.policy.as_ref()?;
        if policy.form.check(W::bits()).is_err() {
            self.coverage.count_cause(Cause::Widths, W::COMPILE);
            return None;
        }
        Some(known.labelling(policy))
    }

    fn count_compiled(&mut self, kind: &'static str, known: &Known, labelling: &Labelling) {
        self.count_result(kind, known, |_| true);
        if labelling.table.iter().any(|&entry| entry >> 8 != 0) {
            self.coverage.count_cause(Cause::Above7, kind);
        }
        if labelling.user_count.max(labelling.object_count) > 1 << 8 {
            self.coverage.count_cause(Cause::WideLabels, kind);
        }
    }
}

/// What a compile is lent: buffers for both sides' labels and for the table.
pub(super) struct Compiled<W: Widths> {
    pub users: Lent<W::Label>,
    pub objects: Lent<W::Label>,
    pub table: Lent<W::Entry>,
}

impl<W: Widths> Compiled<W> {
    fn have_room_for(&self, labelling: &Labelling) -> bool {
        self.users.len() >= labelling.user_labels.len()
            && self.objects.len() >= labelling.object_labels.len()
            && self.table.len() >= labelling.table.len()
    }

    /// The labelling stands at the start of each, and every other place is as before.
    fn hold(&self, what: What, labelling: &Labelling) -> Outcome {
        self.users
            .starts_with(what, &stored(&labelling.user_labels))?;
        self.objects
            .starts_with(what, &stored(&labelling.object_labels))?;
        self.table.starts_with(what, &stored(&labelling.table))
    }

    fn are_unchanged(&self, what: What) -> Outcome {
        self.users.unchanged(what)?;
        self.objects.unchanged(what)?;
        self.table.unchanged(what)
    }
}
