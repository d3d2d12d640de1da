//! Compile and request as a faulty engine makes them, for all widths.

use super::seen::{by_places, without_above_7, without_pairs};
use super::Fault::*;
use super::Faulty;
use helvemoik_compare::boundary::*;
use helvemoik_compare::engine::Engine;
use helvemoik_compare::plain::policy::Form;
use helvemoik_compare::plain::Plain;
use helvemoik_compare::widths::{Element, Labels, Widths};

/// Whether a call is made for other widths than those of the policy's form.
fn is_wrong<W: Widths>(policy: &PolicyValue) -> bool {
    let bits = (W::Label::BITS, W::Entry::BITS);
    Plain.valid(policy) && Form::numbered(policy.form).is_some_and(|form| form.bits != bits)
}

/// The form that is stored in these widths.
fn form_of<W: Widths>() -> u32 {
    match (W::Label::BITS, W::Entry::BITS) {
        (8, 8) => 1,
        (8, _) => 2,
        _ => 3,
    }
}

/// A valid policy in the form of these widths, with the actions that all forms have.
fn in_form_of<W: Widths>(policy: &PolicyValue) -> PolicyValue {
    PolicyValue {
        form: form_of::<W>(),
        ..without_above_7(policy)
    }
}

impl Faulty {
    /// Whether an engine with this fault compiles a policy of this form for these widths,
    /// though they are those of another.
    fn compiles_other<W: Widths>(&self, form: u32) -> bool {
        let answered = match self.0 {
            CompilesForm2InBytes => (2, 1),
            CompilesForm3InBytes => (3, 1),
            CompilesForm1InWideEntries => (1, 2),
            CompilesForm3InByteLabels => (3, 2),
            CompilesForm1InWideLabels => (1, 3),
            CompilesForm2InWideLabels => (2, 3),
            _ => return false,
        };
        answered == (form, form_of::<W>())
    }

    /// The same of requests.
    fn asks_other<W: Widths>(&self, form: u32) -> bool {
        let answered = match self.0 {
            AnswersForm2ByBytes => (2, 1),
            AnswersForm3ByBytes => (3, 1),
            AnswersForm1ByWideEntries => (1, 2),
            AnswersForm3ByByteLabels => (3, 2),
            AnswersForm1ByWideLabels => (1, 3),
            AnswersForm2ByWideLabels => (2, 3),
            _ => return false,
        };
        answered == (form, form_of::<W>())
    }

    pub fn compile<W: Widths>(
        &self,
        policy: &PolicyValue,
        users: &mut [W::Label],
        objects: &mut [W::Label],
        table: &mut [W::Entry],
    ) -> Counts {
        if is_wrong::<W>(policy) {
            return self.compile_wrong::<W>(policy, users, objects, table);
        }
        let before = table.to_vec();
        let seen = match self.0 {
            CompilesWithoutPairs => without_pairs(policy),
            CompilesByPlaces => by_places(policy),
            LabelsByEightActions => without_above_7(policy),
            _ => *policy,
        };
        let mut counts = W::compile(&Plain, &seen, users, objects, table);
        if counts.refusal != 0 {
            return counts;
        }
        let used = (counts.users * counts.objects) as usize;
        match self.0 {
            LabelPerSet => counts.users += 1,
            LeavesTheTable => table.copy_from_slice(&before),
            CutsEntries => change(&mut table[..used], |entry| entry & 255),
            SwapsTheBytesOfEntries if W::Entry::BITS == 16 => {
                change(&mut table[..used], |entry| entry >> 8 | (entry & 255) << 8);
            }
            LabelsByEightActions => self.fill::<W>(policy, counts, users, objects, table),
            CutsLabels | TakesLabel256For0 => {
                let (user, object) = (policy.user.values(), policy.object.values());
                change(&mut users[..1 << user], |label| self.stored(label));
                change(&mut objects[..1 << object], |label| self.stored(label));
            }
            _ if self.misjudges_some(policy) => {
                self.fill::<W>(policy, counts, users, objects, table);
            }
            _ => {}
        }
        counts
    }

    /// A label as an engine with this fault stores it.
    fn stored(&self, label: u32) -> u32 {
        match self.0 {
            TakesLabel256For0 if label != 256 => label,
            _ => label & 255,
        }
    }

    /// Compiles a policy of another form than that of these widths.
    fn compile_wrong<W: Widths>(
        &self,
        policy: &PolicyValue,
        users: &mut [W::Label],
        objects: &mut [W::Label],
        table: &mut [W::Entry],
    ) -> Counts {
        let due = W::compile(&Plain, policy, users, objects, table);
        match self.0 {
            WrongWidthTouchesABuffer => {
                change(users, |label| label ^ 1);
                due
            }
            Tests20BeforeWidths if users.is_empty() || objects.is_empty() => {
                Counts { refusal: 20, ..due }
            }
            _ if self.compiles_other::<W>(policy.form) => {
                W::compile(&Plain, &in_form_of::<W>(policy), users, objects, table)
            }
            _ => due,
        }
    }

    pub fn request<W: Widths>(
        &self,
        board: &Board,
        policy: &PolicyValue,
        labels: &Labels<W>,
        asked: [u32; 3],
    ) -> Step {
        let [session, action, object] = asked;
        let table = self.table_seen(labels);
        let [users, objects] = [labels.users, labels.objects].map(|side| self.labels_seen(side));
        let labels = &Labels {
            users: &users,
            objects: &objects,
            table: &table,
            ..*labels
        };
        let mut step = self.on_board(RequestTakesABoardOver, board, policy, |policy| {
            W::request(&Plain, board, policy, labels, session, action, object)
        });
        match self.0 {
            RequestHeedsNu if step.answer <= GRANTED && labels.nu == 0 => step.answer = 20,
            RequestSkipsCheck20 if step.answer == 20 => step.answer = DENIED,
            RequestTidiesTheBoard => tidy(&mut step.board),
            WrongWidthTidiesTheBoard if is_wrong::<W>(policy) => tidy(&mut step.board),
            Tests12BeforeWidths if is_wrong::<W>(policy) && action >= 16 => step.answer = 12,
            RequestsAction8InForm1 if step.answer == 12 && (policy.form, action) == (1, 8) => {
                step.answer = DENIED
            }
            RequestsBySession0 if step.answer <= GRANTED && board.sessions[0].is_open() => {
                return W::request(&Plain, board, policy, labels, 0, action, object);
            }
            _ if is_wrong::<W>(policy) && self.asks_other::<W>(policy.form) => {
                let seen = in_form_of::<W>(policy);
                return W::request(&Plain, board, &seen, labels, session, action, object);
            }
            _ => {}
        }
        step
    }

    /// The labels of a side as an engine with this fault looks at them.
    fn labels_seen<L: Element>(&self, labels: &[L]) -> Vec<L> {
        let mut seen = labels.to_vec();
        match self.0 {
            LooksUpCutLabels => change(&mut seen, |label| label & 255),
            LooksUpCutSets => {
                for set in 256..labels.len() {
                    seen[set] = labels[set & 255];
                }
            }
            _ => {}
        }
        seen
    }

    /// The table as an engine with this fault looks at it.
    fn table_seen<W: Widths>(&self, labels: &Labels<W>) -> Vec<W::Entry> {
        let table = labels.table;
        let wide = W::Entry::BITS == 16;
        match self.0 {
            LooksUpAtHalfThePlace if wide => (0..table.len()).map(|k| table[k / 2]).collect(),
            LooksAtALowByte => {
                let mut table = table.to_vec();
                change(&mut table, |entry| entry & 255);
                table
            }
            _ => table.to_vec(),
        }
    }
}

fn change<E: Element>(entries: &mut [E], change: impl Fn(u32) -> u32) {
    for entry in entries {
        *entry = E::cut(change((*entry).into()));
    }
}

/// Every open session is open by the number that calls store.
fn tidy(board: &mut Board) {
    for entry in &mut board.sessions {
        entry.live = u32::from(entry.is_open());
    }
}
