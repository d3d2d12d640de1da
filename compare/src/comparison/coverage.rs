//! What a comparison covered.

use super::known::has_many_values;
use reference::policy::Policy;
use std::collections::BTreeMap;
use std::fmt::{self, Display};

/// How often something came up in each kind of call.
type Kinds = BTreeMap<&'static str, u64>;

/// What decided a call alone: without it the answer would have been another.
#[derive(Debug, Clone, Copy, PartialEq, Eq, PartialOrd, Ord)]
pub enum Cause {
    /// What is granted is granted by pairs.
    Pairs,
    /// A board got 11 for a conflict.
    Conflicts,
    /// A senior in a dominance.
    Seniority,
    /// What is granted, or told apart, is an action that form 1 lacks.
    Above7,
    /// 11 for the widths that the call is made for.
    Widths,
    /// A label that a byte is too narrow for.
    WideLabels,
    /// A tuple that 16 bits are too narrow for.
    WideTuples,
}

const CAUSES: [(Cause, &str); 7] = [
    (Cause::Pairs, "granted by pairs"),
    (Cause::Conflicts, "11 by conflicts"),
    (Cause::Seniority, "d by seniority"),
    (Cause::Above7, "action above 7"),
    (Cause::Widths, "11 by widths"),
    (Cause::WideLabels, "label above 255"),
    (Cause::WideTuples, "tuple above 65535"),
];

/// With what two lists were made in which the calls naming one session are the same.
#[derive(Debug, Clone, Copy, PartialEq, Eq, PartialOrd, Ord)]
pub enum With {
    /// A text's policy value and its compiled buffers.
    Compiled,
    /// Other buffers.
    Buffers,
    /// Buffers of other widths than the form's.
    Widths,
    /// A value that no text yields.
    Value,
}

const WITH: [(With, &str); 4] = [
    (With::Compiled, "compiled buffers"),
    (With::Buffers, "other buffers"),
    (With::Widths, "other widths"),
    (With::Value, "no text's value"),
];

/// How many times two such lists were compared, how often some call naming the session
/// was not refused, how often the session's number was above 31, and how many such calls
/// there were.
#[derive(Debug, Default, Clone, Copy, PartialEq, Eq)]
pub struct Isolation {
    pub lists: u64,
    pub answered: u64,
    pub above_31: u64,
    pub calls: u64,
}

/// How often each answer was given, of reading and of each kind of call; how many of the
/// calls had a good policy of each form, and one with more values on a side than forms 1
/// and 2 have; and how often one cause decided alone. What was compared of isolation of
/// sessions is counted apart.
#[derive(Debug, Default, Clone, PartialEq, Eq)]
pub struct Coverage {
    texts: BTreeMap<u32, u64>,
    calls: BTreeMap<&'static str, BTreeMap<u32, u64>>,
    forms: BTreeMap<u32, Kinds>,
    many_values: Kinds,
    causes: BTreeMap<Cause, Kinds>,
    isolation: BTreeMap<With, Isolation>,
    isolated: Kinds,
}

impl Coverage {
    pub(super) fn count_text(&mut self, refusal: u32) {
        *self.texts.entry(refusal).or_default() += 1;
    }

    pub(super) fn count_call(&mut self, kind: &'static str, answer: u32) {
        let answers = self.calls.entry(kind).or_default();
        *answers.entry(answer).or_default() += 1;
    }

    /// Counts a call with a good policy, or a text that was accepted.
    pub(super) fn count_policy(&mut self, kind: &'static str, policy: &Policy) {
        let kinds = self.forms.entry(policy.form.number).or_default();
        *kinds.entry(kind).or_default() += 1;
        if has_many_values(policy) {
            *self.many_values.entry(kind).or_default() += 1;
        }
    }

    pub(super) fn count_cause(&mut self, cause: Cause, kind: &'static str) {
        let kinds = self.causes.entry(cause).or_default();
        *kinds.entry(kind).or_default() += 1;
    }

    /// Counts what was compared of two lists.
    pub(super) fn count_isolation(&mut self, with: With, compared: Isolation) {
        let sum = self.isolation.entry(with).or_default();
        sum.lists += compared.lists;
        sum.answered += compared.answered;
        sum.above_31 += compared.above_31;
        sum.calls += compared.calls;
    }

    /// Counts a call that names the session of two lists.
    pub(super) fn count_isolated(&mut self, kind: &'static str) {
        *self.isolated.entry(kind).or_default() += 1;
    }

    /// How many calls there were, readings not among them.
    pub fn calls(&self) -> u64 {
        self.calls.values().flat_map(BTreeMap::values).sum()
    }

    pub fn texts(&self) -> u64 {
        self.texts.values().sum()
    }

    /// The answers that reading gave: 0 for accepted, or the refusal.
    pub fn readings(&self) -> Vec<u32> {
        self.texts.keys().copied().collect()
    }

    /// The answers that a kind of call gave.
    pub fn answers(&self, kind: &str) -> Vec<u32> {
        self.calls
            .get(kind)
            .map_or(Vec::new(), |answers| answers.keys().copied().collect())
    }

    /// The kinds of calls that had a good policy of a form.
    pub fn on_form(&self, form: u32) -> Vec<&'static str> {
        kinds(self.forms.get(&form))
    }

    /// The kinds of calls that had a good policy with 8 or 9 values on a side.
    pub fn on_many_values(&self) -> Vec<&'static str> {
        kinds(Some(&self.many_values))
    }

    /// How many texts were accepted that have 8 or 9 values on a side.
    pub fn texts_of_many_values(&self) -> u64 {
        texts_and_calls(&self.many_values).0
    }

    /// The kinds of calls that a cause decided alone.
    pub fn by(&self, cause: Cause) -> Vec<&'static str> {
        kinds(self.causes.get(&cause))
    }

    /// What was compared of two lists made with something.
    pub fn isolation(&self, with: With) -> Isolation {
        self.isolation.get(&with).copied().unwrap_or_default()
    }

    /// The kinds of calls that named the session of two lists.
    pub fn isolated(&self) -> Vec<&'static str> {
        kinds(Some(&self.isolated))
    }

    fn write_isolation(&self, f: &mut fmt::Formatter<'_>) -> fmt::Result {
        writeln!(f, "two lists with the same calls naming a session")?;
        for (with, name) in WITH {
            let found = self.isolation(with);
            let counts = BTreeMap::from([
                ("calls naming it", found.calls),
                ("lists", found.lists),
                ("not all refused", found.answered),
                ("session above 31", found.above_31),
            ]);
            write_counts(f, name, &counts)?;
        }
        write_counts(f, "calls naming it", &self.isolated)
    }
}

/// How many readings these are, and how many calls.
fn texts_and_calls(kinds: &Kinds) -> (u64, u64) {
    let texts = kinds.get("read").copied().unwrap_or_default();
    (texts, kinds.values().sum::<u64>() - texts)
}

fn write_sums(f: &mut fmt::Formatter<'_>, of: &str, kinds: &Kinds) -> fmt::Result {
    let (texts, calls) = texts_and_calls(kinds);
    writeln!(f, "{of}: {texts} texts accepted, {calls} calls")
}

fn kinds(counts: Option<&Kinds>) -> Vec<&'static str> {
    counts.map_or(Vec::new(), |counts| counts.keys().copied().collect())
}

impl Display for Coverage {
    fn fmt(&self, f: &mut fmt::Formatter<'_>) -> fmt::Result {
        writeln!(f, "{} texts, by refusal (0 accepted)", self.texts())?;
        write_counts(f, "read", &self.texts)?;
        writeln!(
            f,
            "{} calls, by answer (11 and above refused)",
            self.calls()
        )?;
        for (kind, answers) in &self.calls {
            write_counts(f, kind, answers)?;
        }
        writeln!(f, "with a good policy")?;
        for (form, kinds) in &self.forms {
            write_counts(f, &format!("of form {form}"), kinds)?;
        }
        write_counts(f, "8 or 9 values", &self.many_values)?;
        for (form, kinds) in &self.forms {
            write_sums(f, &format!("of form {form}"), kinds)?;
        }
        write_sums(f, "with 8 or 9 values on a side", &self.many_values)?;
        writeln!(f, "by one thing alone")?;
        for (cause, name) in CAUSES {
            let none = Kinds::new();
            write_counts(f, name, self.causes.get(&cause).unwrap_or(&none))?;
        }
        self.write_isolation(f)
    }
}

fn write_counts<T: Display>(
    f: &mut fmt::Formatter<'_>,
    kind: &str,
    counts: &BTreeMap<T, u64>,
) -> fmt::Result {
    write!(f, "  {kind:19}")?;
    for (of, count) in counts {
        write!(f, "  {of}: {count}")?;
    }
    writeln!(f)
}
