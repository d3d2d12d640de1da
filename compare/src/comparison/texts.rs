//! Reading, writing and check 11.

use super::known::Known;
use super::lent::{length_for, Lent};
use super::{same, Outcome, Trial};
use crate::boundary::{Counted, Reading, TEXT_BYTES};
use crate::value::value_of;
use reference::text::{read, write};

impl Trial<'_> {
    /// The text's policy value, or the blank value that stands beside a refusal.
    pub(super) fn reading(&mut self, text: &[u8]) -> Result<Known, String> {
        let read = read(text);
        let due = match &read {
            Ok(policy) => Reading {
                policy: value_of(policy),
                ..Reading::default()
            },
            Err(refused) => Reading {
                refusal: refused.refusal,
                line: refused.line,
                ..Reading::default()
            },
        };
        let found = self.engine.read(text);
        self.coverage.count_text(found.refusal);
        if let Ok(policy) = &read {
            self.coverage.count_policy("read", policy);
        }
        let what = || format!("read {:?}", String::from_utf8_lossy(text));
        same(&what, &found, &due)?;
        Ok(Known::of(found.policy))
    }

    pub(super) fn validity(&mut self, known: &Known) -> Outcome {
        let found = self.engine.valid(&known.value);
        self.count("valid", known, u32::from(found));
        let what = || format!("valid {}", known.shown());
        same(&what, &found, &known.policy.is_some())
    }

    /// The value that reading yielded is valid and gives the text again.
    pub(super) fn writing_back(&mut self, known: &Known, text: &[u8]) -> Outcome {
        self.validity(known)?;
        let policy = known.policy.as_ref().expect("an accepted text");
        let what = || "the text again".to_string();
        same(&what, &write(policy).as_slice(), &text)?;
        self.write_into(known, text.len())?;
        self.write_into(known, text.len() - 1)
    }

    /// Writes any value into a buffer of any length.
    pub(super) fn writing(&mut self, known: &Known) -> Outcome {
        let needed = known.policy.as_ref().map_or(100, |p| write(p).len());
        let length = match self.rng.chance(1, 8) {
            true => TEXT_BYTES,
            false => length_for(&mut self.rng, needed),
        };
        self.write_into(known, length)
    }

    fn write_into(&mut self, known: &Known, length: usize) -> Outcome {
        let mut buffer = Lent::filled(&mut self.rng, length);
        let found = self.engine.write(&known.value, buffer.part());
        self.count("write", known, found.refusal);
        let (refusal, text) = match &known.policy {
            None => (11, Vec::new()),
            Some(policy) => match write(policy) {
                text if text.len() > length => (20, Vec::new()),
                text => (0, text),
            },
        };
        let count = text.len();
        let what = || format!("write into {length} bytes: {}", known.shown());
        same(&what, &found, &Counted { refusal, count })?;
        buffer.starts_with(&what, &text)
    }
}
