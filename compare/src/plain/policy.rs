//! The policy value with its words as an enum, and the refusals.

use crate::boundary::{
    self, Conflict, Conflicts, Pair, Pairs, Register, SideValue, RULE_PLACES, WORD_PLACES,
};
use crate::widths::{Element, Tuple, Widths};

/// The most bytes of a text.
pub const TEXT_BYTES: usize = boundary::TEXT_BYTES;
/// The most values of a side in any form.
pub const VALUES: usize = boundary::MOST_VALUES;
pub const USERS: u32 = 32;
pub const OBJECTS: u32 = boundary::OBJECT_NUMBERS as u32;
/// The most values that a conflict lets a session hold.
pub const TOGETHER: u32 = boundary::MOST_TOGETHER as u32;

/// What goes by a form: the most values of a side, its actions, the bits of a label and of
/// a table's entry, and those of a tuple.
#[derive(Clone, Copy)]
pub struct Form {
    pub values: u32,
    pub actions: u32,
    pub bits: (u32, u32),
    pub tuple_bits: u32,
}

impl Form {
    pub fn numbered(number: u32) -> Option<Self> {
        let form_1 = Form {
            values: boundary::FORM_1_VALUES as u32,
            actions: boundary::FORM_1_ACTIONS as u32,
            bits: (8, 8),
            tuple_bits: 16,
        };
        let form_2 = Form {
            actions: boundary::FORM_2_ACTIONS as u32,
            bits: (8, 16),
            ..form_1
        };
        let form_3 = Form {
            values: boundary::FORM_3_VALUES as u32,
            bits: (16, 16),
            tuple_bits: 32,
            ..form_2
        };
        match number {
            1 => Some(form_1),
            2 => Some(form_2),
            3 => Some(form_3),
            _ => None,
        }
    }
}

/// A table's entry that is wide enough for the actions of every form.
pub type WideEntry = u16;

#[derive(Debug, Clone, Copy, Default, PartialEq, Eq)]
pub enum Word {
    #[default]
    True,
    False,
    User(u8),
    Object(u8),
    Within(u8, u8),
    Same(u8, u8),
    Not,
    And,
    Or,
}

#[derive(Debug, Clone, Copy, Default, PartialEq, Eq)]
pub struct Rule {
    pub action: u32,
    pub count: usize,
    pub words: [Word; WORD_PLACES],
}

#[derive(Debug, Clone, Copy, Default, PartialEq, Eq)]
pub struct Rules {
    pub count: usize,
    pub entries: [Rule; RULE_PLACES],
}

#[derive(Debug, Clone, Copy, Default, PartialEq, Eq)]
pub struct Policy {
    pub form: u32,
    pub user: SideValue,
    pub object: SideValue,
    pub users: Register,
    pub objects: Register,
    pub conflicts: Conflicts,
    pub rules: Rules,
    pub pairs: Pairs,
}

impl Policy {
    /// How many actions there are.
    pub fn actions(&self) -> u32 {
        Form::numbered(self.form).map_or(0, |form| form.actions)
    }

    /// How many values a side may have.
    pub fn most_values(&self) -> u32 {
        Form::numbered(self.form).map_or(0, |form| form.values)
    }

    /// Whether the policy's form stores labels and entries in these widths.
    pub fn is_stored_in<W: Widths>(&self) -> bool {
        let bits = (W::Label::BITS, W::Entry::BITS);
        Form::numbered(self.form).is_some_and(|form| form.bits == bits)
    }

    /// Whether the policy's form stores tuples in this width.
    pub fn lists_in<T: Tuple>(&self) -> bool {
        Form::numbered(self.form).is_some_and(|form| form.tuple_bits == T::BITS)
    }

    /// The conflicts in use; only of a policy that check 11 accepts.
    pub fn conflicts(&self) -> &[Conflict] {
        &self.conflicts.entries[..self.conflicts.count]
    }

    /// The rules in use; only of a policy that check 11 accepts.
    pub fn rules(&self) -> &[Rule] {
        &self.rules.entries[..self.rules.count]
    }

    /// The pairs in use; only of a policy that check 11 accepts.
    pub fn pairs(&self) -> &[Pair] {
        &self.pairs.entries[..self.pairs.count]
    }
}

impl Rule {
    pub fn words(&self) -> &[Word] {
        &self.words[..self.count]
    }
}

#[derive(Debug, Clone, Copy, PartialEq, Eq)]
pub enum Refusal {
    TextTooLong = 1,
    LineFeedMissing,
    KindNotAllowed,
    WrongFieldCount,
    MalformedField,
    OutOfRange,
    NotRising,
    UnequalWidths,
    UnbalancedFormula,
    EndMissing,
    InvalidState,
    UnknownAction,
    UnknownSession,
    UnregisteredUser,
    UnregisteredObject,
    SessionOpen,
    SessionNotOpen,
    SessionOfAnother,
    SetOutOfReach,
    BufferTooShort,
    TooManyPairs,
    TooManyConflicts,
    TooManyHeld,
}
