//! The forms of a policy text, and what goes by them.

use crate::policy::Refusal;

/// The bits in which a call stores labels, and entries of the table.
#[derive(Debug, Clone, Copy, PartialEq, Eq, PartialOrd, Ord)]
pub struct Widths {
    pub label: u32,
    pub entry: u32,
}

/// Bytes for labels and table.
pub const WIDTHS_8_8: Widths = Widths { label: 8, entry: 8 };

/// Bytes for labels, and a table of 16-bit entries.
pub const WIDTHS_8_16: Widths = Widths {
    label: 8,
    entry: 16,
};

/// Labels of 16 bits, and a table of 16-bit entries.
pub const WIDTHS_16_16: Widths = Widths {
    label: 16,
    entry: 16,
};

/// The widths that compile and request are made for, each that of some form.
pub const WIDTHS: [Widths; 3] = [WIDTHS_8_8, WIDTHS_8_16, WIDTHS_16_16];

/// The bits of a tuple that listing and deciding by tuples are made for, each that of
/// some form.
pub const TUPLE_BITS: [u32; 2] = [16, 32];

#[derive(Debug, Clone, Copy, PartialEq, Eq)]
pub struct Form {
    /// What the first line of a text says.
    pub number: u32,
    /// The most values of a side, and so of an attribute.
    pub values: u32,
    /// How many actions there are, from 0 on; a table entry has a bit for each.
    pub actions: u32,
    /// What compile and request must be made for.
    pub widths: Widths,
    /// What listing and deciding by tuples must be made for: the bits of a tuple.
    pub tuple_bits: u32,
}

pub const FORMS: [Form; 3] = [
    Form {
        number: 1,
        values: 7,
        actions: 8,
        widths: WIDTHS_8_8,
        tuple_bits: 16,
    },
    Form {
        number: 2,
        values: 7,
        actions: 16,
        widths: WIDTHS_8_16,
        tuple_bits: 16,
    },
    Form {
        number: 3,
        values: 9,
        actions: 16,
        widths: WIDTHS_16_16,
        tuple_bits: 32,
    },
];

impl Form {
    /// The form of this number, if there is one.
    pub fn numbered(number: u32) -> Option<Form> {
        FORMS.into_iter().find(|form| form.number == number)
    }

    /// Check 11 of a compile or a request made for these widths.
    pub fn check(&self, widths: Widths) -> Result<(), Refusal> {
        own(widths == self.widths)
    }

    /// Check 11 of listing, and of deciding by tuples, made for tuples of these bits.
    pub fn check_tuples(&self, bits: u32) -> Result<(), Refusal> {
        own(bits == self.tuple_bits)
    }

    /// The highest action.
    pub fn last_action(&self) -> u32 {
        self.actions - 1
    }

    /// The most sets of a side.
    pub fn most_sets(&self) -> u32 {
        1 << self.values
    }
}

/// Check 11 of a call that is made for the form's own, or is not.
fn own(own: bool) -> Result<(), Refusal> {
    match own {
        true => Ok(()),
        false => Err(11),
    }
}

/// The first form, for a policy of which no line is read yet.
impl Default for Form {
    fn default() -> Self {
        FORMS[0]
    }
}

#[cfg(test)]
mod tests {
    use super::*;

    #[test]
    fn a_form_is_found_by_its_number_and_takes_only_calls_made_for_it() {
        for form in FORMS {
            assert_eq!(Form::numbered(form.number), Some(form));
            for widths in WIDTHS {
                assert_eq!(form.check(widths).is_ok(), widths == form.widths);
            }
            for bits in TUPLE_BITS {
                assert_eq!(form.check_tuples(bits).is_ok(), bits == form.tuple_bits);
            }
            let other = Widths { label: 9, entry: 9 };
            assert_eq!(
                (form.check(other), form.check_tuples(9)),
                (Err(11), Err(11))
            );
        }
        for number in [0, 4, 5, 6, 99_999] {
            assert_eq!(Form::numbered(number), None);
        }
    }

    /// An entry has a bit for each action, each set may have a label, and each two sets
    /// a tuple.
    #[test]
    fn what_a_form_has_fits_into_its_widths_and_no_less_would_do() {
        for form in FORMS {
            assert_eq!(form.widths.entry, form.actions);
            assert_eq!(form.widths.label, form.values.next_multiple_of(8));
            assert_eq!(form.tuple_bits, (2 * form.values).next_multiple_of(16));
        }
        for widths in WIDTHS {
            assert!(FORMS.iter().any(|form| form.widths == widths));
        }
        for bits in TUPLE_BITS {
            assert!(FORMS.iter().any(|form| form.tuple_bits == bits));
        }
    }
}
