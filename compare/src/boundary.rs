//! The types of the header `embedding/helvemoik.h`, which cross as they are.

/// The limits of documents 01 and 02.
pub const TEXT_BYTES: usize = 8192;
pub const FORM_1_VALUES: usize = 7;
pub const FORM_3_VALUES: usize = 9;
pub const FORM_1_ACTIONS: usize = 8;
pub const FORM_2_ACTIONS: usize = 16;
pub const MOST_WORDS: usize = 32;
pub const MOST_CONFLICTS: usize = 16;
pub const MOST_TOGETHER: usize = 7;
pub const MOST_PAIRS: usize = 64;
pub const OBJECT_NUMBERS: usize = 64;

/// The entries of a board.
pub const SESSIONS: usize = 32;

/// Values of a side, and actions, of any form.
pub const MOST_VALUES: usize = FORM_3_VALUES;
pub const MOST_ACTIONS: usize = FORM_2_ACTIONS;

/// The places of each array of a policy value.
pub const WIDTH_PLACES: usize = MOST_VALUES;
pub const LINE_PLACES: usize = MOST_VALUES * (MOST_VALUES - 1) / 2;
pub const ENTRY_PLACES: usize = OBJECT_NUMBERS;
pub const WORD_PLACES: usize = MOST_WORDS;
pub const RULE_PLACES: usize = MOST_ACTIONS;
pub const CONFLICT_PLACES: usize = MOST_CONFLICTS;
pub const PAIR_PLACES: usize = MOST_PAIRS;

/// Room for the labels of a side, the entries of a table and the tuples of an action, in
/// any form.
pub const MOST_LABELS: usize = 1 << MOST_VALUES;
pub const MOST_TABLE: usize = MOST_LABELS * MOST_LABELS;
pub const MOST_TUPLES: usize = MOST_LABELS * MOST_LABELS;

/// A direct line of seniority.
#[repr(C)]
#[derive(Debug, Clone, Copy, Default, PartialEq, Eq)]
pub struct Direct {
    pub senior: u32,
    pub junior: u32,
}

#[repr(C)]
#[derive(Debug, Clone, Copy, PartialEq, Eq)]
pub struct SideValue {
    pub attributes: usize,
    pub widths: [u32; WIDTH_PLACES],
    pub lines: usize,
    pub seniority: [Direct; LINE_PLACES],
}

impl Default for SideValue {
    fn default() -> Self {
        SideValue {
            attributes: 0,
            widths: [0; WIDTH_PLACES],
            lines: 0,
            seniority: [Direct::default(); LINE_PLACES],
        }
    }
}

impl SideValue {
    /// The sum of all widths, whatever they are.
    pub fn values(&self) -> u32 {
        let widths = self.widths.iter();
        widths.fold(0, |sum, &width| sum.wrapping_add(width))
    }
}

#[repr(C)]
#[derive(Debug, Clone, Copy, Default, PartialEq, Eq)]
pub struct Entry {
    pub number: u32,
    pub set: u32,
}

#[repr(C)]
#[derive(Debug, Clone, Copy, PartialEq, Eq)]
pub struct Register {
    pub count: usize,
    pub entries: [Entry; ENTRY_PLACES],
}

impl Default for Register {
    fn default() -> Self {
        Register {
            count: 0,
            entries: [Entry::default(); ENTRY_PLACES],
        }
    }
}

/// A conflict line: a user set, and how many of its values a session may hold at most.
#[repr(C)]
#[derive(Debug, Clone, Copy, Default, PartialEq, Eq)]
pub struct Conflict {
    pub set: u32,
    pub most: u32,
}

#[repr(C)]
#[derive(Debug, Clone, Copy, Default, PartialEq, Eq)]
pub struct Conflicts {
    pub count: usize,
    pub entries: [Conflict; CONFLICT_PLACES],
}

/// A rule; each word is its number.
#[repr(C)]
#[derive(Debug, Clone, Copy, Default, PartialEq, Eq)]
pub struct RuleValue {
    pub action: u32,
    pub count: usize,
    pub words: [u8; WORD_PLACES],
}

#[repr(C)]
#[derive(Debug, Clone, Copy, Default, PartialEq, Eq)]
pub struct RulesValue {
    pub count: usize,
    pub entries: [RuleValue; RULE_PLACES],
}

/// A pair line: an action, a user value and an object value.
#[repr(C)]
#[derive(Debug, Clone, Copy, Default, PartialEq, Eq, PartialOrd, Ord)]
pub struct Pair {
    pub action: u32,
    pub user: u32,
    pub object: u32,
}

#[repr(C)]
#[derive(Debug, Clone, Copy, PartialEq, Eq)]
pub struct Pairs {
    pub count: usize,
    pub entries: [Pair; PAIR_PLACES],
}

impl Default for Pairs {
    fn default() -> Self {
        Pairs {
            count: 0,
            entries: [Pair::default(); PAIR_PLACES],
        }
    }
}

/// A policy value; the default is the blank one.
#[repr(C)]
#[derive(Debug, Clone, Copy, Default, PartialEq, Eq)]
pub struct PolicyValue {
    pub form: u32,
    pub user: SideValue,
    pub object: SideValue,
    pub users: Register,
    pub objects: Register,
    pub conflicts: Conflicts,
    pub rules: RulesValue,
    pub pairs: Pairs,
}

/// The answer of reading; refusal 0 is accepted.
#[repr(C)]
#[derive(Debug, Clone, Copy, Default, PartialEq, Eq)]
pub struct Reading {
    pub refusal: u32,
    pub line: usize,
    pub policy: PolicyValue,
}

/// A count, or a refusal beside the count 0.
#[repr(C)]
#[derive(Debug, Clone, Copy, Default, PartialEq, Eq)]
pub struct Counted {
    pub refusal: u32,
    pub count: usize,
}

/// NU and NO, or a refusal beside 0 and 0.
#[repr(C)]
#[derive(Debug, Clone, Copy, Default, PartialEq, Eq)]
pub struct Counts {
    pub refusal: u32,
    pub users: u32,
    pub objects: u32,
}

/// Answer 0 is alike, 1 apart, else the refusal; action and object are 0 unless apart.
#[repr(C)]
#[derive(Debug, Clone, Copy, Default, PartialEq, Eq)]
pub struct Separation {
    pub answer: u32,
    pub action: u32,
    pub object: u32,
}

/// The entry of a session number: closed where `live` is 0, else open.
#[repr(C)]
#[derive(Debug, Clone, Copy, Default, PartialEq, Eq)]
pub struct Session {
    pub live: u32,
    pub user: u32,
    pub held: u32,
}

impl Session {
    /// An open session, as the calls store it.
    pub fn open(user: u32, held: u32) -> Self {
        Session {
            live: 1,
            user,
            held,
        }
    }

    pub fn is_open(&self) -> bool {
        self.live != 0
    }
}

#[repr(C)]
#[derive(Debug, Clone, Copy, Default, PartialEq, Eq)]
pub struct Board {
    pub sessions: [Session; SESSIONS],
}

/// The answer of a session call and the board after it.
#[repr(C)]
#[derive(Debug, Clone, Copy, Default, PartialEq, Eq)]
pub struct Step {
    pub answer: u32,
    pub board: Board,
}

/// What a decision or a session call answers, unless it is a refusal.
pub const DENIED: u32 = 0;
pub const GRANTED: u32 = 1;
pub const DONE: u32 = 2;

/// What Apart answers, unless it is a refusal.
pub const ALIKE: u32 = 0;
pub const APART: u32 = 1;
