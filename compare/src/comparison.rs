//! An engine beside the second implementation: made texts and calls, and every
//! answer, buffer and board compared.

mod buffers;
mod calls;
mod compiling;
mod coverage;
mod isolation;
mod known;
mod lent;
mod many_values;
mod sessions;
mod texts;

pub use coverage::{Cause, Coverage, Isolation, With};

use crate::damage::damaged;
use crate::engine::Engine;
use known::Known;
use reference::cases::{text, Rng};
use reference::form::{Widths, TUPLE_BITS, WIDTHS};
use std::fmt::Debug;
use std::fmt::{self, Display};

/// What is compared: equal plans make equal cases.
#[derive(Debug, Clone, Copy)]
pub struct Plan {
    pub seed: u64,
    pub texts: u64,
    /// At least so many calls besides reading.
    pub calls: u64,
}

/// The first case in which the two differ.
#[derive(Debug)]
pub struct Difference {
    pub plan: Plan,
    pub case: u64,
    pub what: String,
}

impl Display for Difference {
    fn fmt(&self, f: &mut fmt::Formatter<'_>) -> fmt::Result {
        let Plan { seed, texts, calls } = self.plan;
        writeln!(f, "seed {seed}, case {}: {}", self.case, self.what)?;
        let case = self.case;
        write!(f, "this case alone: compare {seed} {texts} {calls} {case}")
    }
}

/// Nothing, or what differs.
type Outcome = Result<(), String>;

/// A call in words; only made where it is shown.
type What<'a> = &'a dyn Fn() -> String;

/// An engine's answer beside the one that is due.
fn same<T: PartialEq + Debug>(what: What, found: &T, due: &T) -> Outcome {
    if found == due {
        return Ok(());
    }
    Err(format!("{}\n  found {found:?}\n  due   {due:?}", what()))
}

/// All cases of a plan.
pub fn compare(engine: &dyn Engine, plan: Plan) -> Result<Coverage, Difference> {
    let mut coverage = Coverage::default();
    for case in 0..plan.texts {
        compare_case(engine, plan, case, &mut coverage)?;
    }
    Ok(coverage)
}

/// Of the cases of a plan isolation of sessions alone. No answer is compared with the
/// second implementation's, only with the engine's own to other lists.
pub fn compare_isolation(engine: &dyn Engine, plan: Plan) -> Result<Coverage, Difference> {
    let mut coverage = Coverage::default();
    for case in 0..plan.texts {
        let mut trial = Trial {
            engine,
            rng: Rng::new(plan.seed, case),
            coverage: &mut coverage,
        };
        let text = text(&mut trial.rng, case);
        if !trial.has_two_lists() {
            continue;
        }
        let known = Known::of(engine.read(&text).policy);
        trial
            .isolation(&known)
            .map_err(|what| Difference { plan, case, what })?;
    }
    Ok(coverage)
}

/// One case of a plan: a text, and calls on its policy value.
pub fn compare_case(
    engine: &dyn Engine,
    plan: Plan,
    case: u64,
    coverage: &mut Coverage,
) -> Result<(), Difference> {
    let mut trial = Trial {
        engine,
        rng: Rng::new(plan.seed, case),
        coverage,
    };
    // Every second text is valid, so that calls on these alone are enough.
    let calls = (2 * plan.calls).div_ceil(plan.texts.max(1)).max(1);
    trial
        .run(case, calls as u32)
        .map_err(|what| Difference { plan, case, what })
}

/// A case on its way.
struct Trial<'a> {
    engine: &'a dyn Engine,
    rng: Rng,
    coverage: &'a mut Coverage,
}

impl Trial<'_> {
    /// At least so many calls where the text is accepted, and a few where it is not.
    fn run(&mut self, case: u64, calls: u32) -> Outcome {
        let text = text(&mut self.rng, case);
        let known = self.reading(&text)?;
        if known.policy.is_none() {
            return self.any_call(&known);
        }
        if self.has_two_lists() {
            self.isolation(&known)?;
        }
        let start = self.coverage.calls();
        self.writing_back(&known, &text)?;
        self.list_of_calls(&known, calls / 2)?;
        self.by_many_values(&known)?;
        while self.coverage.calls() < start + u64::from(calls) {
            if self.rng.chance(1, 3) {
                let damaged = Known::of(damaged(&mut self.rng, &known.value));
                self.validity(&damaged)?;
                self.any_call(&damaged)?;
            } else {
                self.any_call(&known)?;
            }
        }
        Ok(())
    }

    /// Counts a call on a policy value.
    fn count(&mut self, kind: &'static str, known: &Known, answer: u32) {
        self.coverage.count_call(kind, answer);
        if let Some(policy) = &known.policy {
            self.coverage.count_policy(kind, policy);
        }
    }

    /// The widths that a call is made for: mostly those of the policy's form.
    fn some_widths(&mut self, known: &Known) -> Widths {
        match &known.policy {
            Some(policy) if self.rng.chance(2, 3) => policy.form.widths,
            _ => self.rng.pick(&WIDTHS),
        }
    }

    /// The bits of a tuple that a call is made for: mostly those of the policy's form.
    fn some_tuple_bits(&mut self, known: &Known) -> u32 {
        match &known.policy {
            Some(policy) if self.rng.chance(3, 4) => policy.form.tuple_bits,
            _ => self.rng.pick(&TUPLE_BITS),
        }
    }

    /// A call of any kind with any arguments.
    fn any_call(&mut self, known: &Known) -> Outcome {
        match self.rng.below(16) {
            0 => self.validity(known),
            1 => self.writing(known),
            2..=3 => self.deciding(known),
            4 => self.listing(known),
            5..=6 => self.deciding_by_tuples(known),
            7 => self.compiling(known),
            8 => self.telling_apart(known),
            _ => self.session_call(known),
        }
    }
}
