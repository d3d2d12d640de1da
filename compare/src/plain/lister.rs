//! What the lister writes about a text.

use super::by_64::{counts, granted};
use super::checks::Shape;
use super::pairs::pairs_of;
use super::policy::Policy;
use super::reader::read;
use crate::boundary::MOST_LABELS;
use std::io::{self, Write};

/// How much is written at once.
const BUFFER: usize = 1 << 20;

/// Room for a number, and for a tuple's line up to its object set: each is copied whole,
/// and what lies past its end is written over by what follows.
const NUMBER: usize = 4;
const START: usize = 16;

/// Writes the report of a text: the numbers of its labels and the tuples of each action
/// with a rule or a pair, or the refusal.
pub fn report(text: &[u8], output: &mut impl Write) -> io::Result<()> {
    match read(text) {
        Ok(policy) => listing(&policy, output),
        Err(refused) => {
            let number = refused.refusal as u32;
            writeln!(output, "refused,{number},{}", refused.line)
        }
    }
}

fn listing(policy: &Policy, output: &mut impl Write) -> io::Result<()> {
    let counts = counts(policy);
    let mut lines = Lines::of(policy, output);
    lines.line(&format!("labels,{},{}\n", counts.users, counts.objects))?;
    for action in (0..policy.actions()).filter(|&action| is_named(policy, action)) {
        let granted = granted(policy, action);
        let count: u32 = granted.iter().map(|block| block.count_ones()).sum();
        lines.line(&format!("action,{action},{count}\n"))?;
        lines.tuples(action, &granted)?;
    }
    lines.flush()
}

/// Whether an action has a rule or a pair.
fn is_named(policy: &Policy, action: u32) -> bool {
    let mut rules = policy.rules().iter();
    rules.any(|rule| rule.action == action) || !pairs_of(policy, action).is_empty()
}

/// The end of a tuple's line: its object set, and how many bytes these are.
type End = ([u8; NUMBER], usize);

/// Lines on their way out.
struct Lines<'a, W> {
    output: &'a mut W,
    buffer: Vec<u8>,
    used: usize,
    /// For each object set.
    ends: Vec<End>,
    object_values: u32,
}

impl<'a, W: Write> Lines<'a, W> {
    fn of(policy: &Policy, output: &'a mut W) -> Self {
        let object = Shape::of(&policy.object);
        Lines {
            output,
            buffer: vec![0; BUFFER],
            used: 0,
            ends: (0..object.sets()).map(end).collect(),
            object_values: object.values,
        }
    }

    fn line(&mut self, line: &str) -> io::Result<()> {
        self.make_room(line.len())?;
        self.buffer[self.used..][..line.len()].copy_from_slice(line.as_bytes());
        self.used += line.len();
        Ok(())
    }

    /// A line for each tuple of an action.
    fn tuples(&mut self, action: u32, granted: &[u64]) -> io::Result<()> {
        let most_in_block = u64::BITS as usize * (START + NUMBER);
        let mut user_set = u32::MAX;
        let mut start = ([0; START], 0);
        for (first, &block) in (0..).step_by(u64::BITS as usize).zip(granted) {
            self.make_room(most_in_block)?;
            let mut left = block;
            while left != 0 {
                let tuple = first + left.trailing_zeros();
                left &= left - 1;
                if tuple >> self.object_values != user_set {
                    user_set = tuple >> self.object_values;
                    start = start_of(action, user_set);
                }
                self.tuple(start, tuple);
            }
        }
        Ok(())
    }

    fn tuple(&mut self, (start, length): ([u8; START], usize), tuple: u32) {
        let (end, end_length) = self.ends[tuple as usize & (self.ends.len() - 1)];
        let line = &mut self.buffer[self.used..][..START + NUMBER];
        line[..START].copy_from_slice(&start);
        line[length..][..NUMBER].copy_from_slice(&end);
        self.used += length + end_length;
    }

    /// Writes what there is if so many bytes more would not fit.
    fn make_room(&mut self, bytes: usize) -> io::Result<()> {
        if self.used + bytes > BUFFER {
            self.flush()?;
        }
        Ok(())
    }

    fn flush(&mut self) -> io::Result<()> {
        self.output.write_all(&self.buffer[..self.used])?;
        self.used = 0;
        self.output.flush()
    }
}

/// The start of the lines of an action and a user set, and how many bytes it is.
fn start_of(action: u32, user_set: u32) -> ([u8; START], usize) {
    let text = format!("tuple,{action},{user_set},");
    let mut start = [0; START];
    start[..text.len()].copy_from_slice(text.as_bytes());
    (start, text.len())
}

/// The end of a line with an object set.
fn end(set: u32) -> End {
    debug_assert!(set < MOST_LABELS as u32);
    let text = format!("{set}\n");
    let mut end = [0; NUMBER];
    end[..text.len()].copy_from_slice(text.as_bytes());
    (end, text.len())
}

#[cfg(test)]
mod tests {
    use super::*;
    use reference::cases::{text, Rng};
    use reference::lister::list;

    /// Of texts of all forms, good and damaged.
    #[test]
    fn the_report_is_that_of_the_second_implementation() {
        for case in 0..600 {
            let text = text(&mut Rng::new(7, case), case);
            let mut found = Vec::new();
            report(&text, &mut found).expect("written");
            assert!(found == list(&text).into_bytes(), "case {case}");
        }
    }
}
