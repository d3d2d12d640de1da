//! The stored widths that calls are made for. Of compile and request: the bits of a label,
//! then those of an entry of the table; of listing and deciding by tuples: those of a tuple.

use crate::boundary::{Board, Counted, Counts, PolicyValue, Step};
use crate::engine::Engine;
use reference::form;
use std::fmt::Debug;
use std::ops::{BitAnd, BitOr, BitOrAssign};

/// A number as a lent buffer stores it.
pub trait Element:
    Copy
    + Debug
    + Default
    + PartialEq
    + Into<u32>
    + BitAnd<Output = Self>
    + BitOr<Output = Self>
    + BitOrAssign
    + 'static
{
    const BITS: u32;
    /// All bits are set.
    const FULL: Self;

    /// The low bits of a number.
    fn cut(number: u32) -> Self;
}

macro_rules! elements {
    ($($number:ty)*) => {
        $(impl Element for $number {
            const BITS: u32 = <$number>::BITS;
            const FULL: Self = <$number>::MAX;

            #[inline]
            fn cut(number: u32) -> Self {
                number as $number
            }
        })*
    };
}

elements!(u8 u16 u32);

/// What a request is lent: NU, NO and the three buffers.
#[derive(Debug, Clone, Copy)]
pub struct Labels<'a, W: Widths> {
    pub nu: u32,
    pub no: u32,
    pub users: &'a [W::Label],
    pub objects: &'a [W::Label],
    pub table: &'a [W::Entry],
}

/// The stored widths of a form, and the two calls that are made for them.
pub trait Widths: Copy + Debug + PartialEq + 'static {
    type Label: Element;
    type Entry: Element;
    /// A tuple of the same form.
    type Tuple: Tuple;
    const COMPILE: &'static str;
    const REQUEST: &'static str;

    fn compile<E: Engine + ?Sized>(
        engine: &E,
        policy: &PolicyValue,
        users: &mut [Self::Label],
        objects: &mut [Self::Label],
        table: &mut [Self::Entry],
    ) -> Counts;

    fn request<E: Engine + ?Sized>(
        engine: &E,
        board: &Board,
        policy: &PolicyValue,
        labels: &Labels<Self>,
        session: u32,
        action: u32,
        object: u32,
    ) -> Step;

    /// The bits, as the second implementation has them.
    fn bits() -> form::Widths {
        form::Widths {
            label: Self::Label::BITS,
            entry: Self::Entry::BITS,
        }
    }
}

/// A tuple as it is stored, and the two calls that are made for its width.
pub trait Tuple: Element {
    const LIST: &'static str;
    const DECIDE: &'static str;

    fn list<E: Engine + ?Sized>(
        engine: &E,
        policy: &PolicyValue,
        action: u32,
        buffer: &mut [Self],
    ) -> Counted;

    fn decide<E: Engine + ?Sized>(
        engine: &E,
        policy: &PolicyValue,
        user: u32,
        object: u32,
        listing: &[Self],
        count: usize,
    ) -> u32;
}

macro_rules! widths {
    ($($(#[$doc:meta])* $name:ident: $label:ty, $entry:ty, $compile:ident, $request:ident, $tuple:ty;)*) => {
        $(
            $(#[$doc])*
            #[derive(Debug, Clone, Copy, PartialEq, Eq)]
            pub struct $name;

            impl Widths for $name {
                type Label = $label;
                type Entry = $entry;
                type Tuple = $tuple;
                const COMPILE: &'static str = stringify!($compile);
                const REQUEST: &'static str = stringify!($request);

                fn compile<E: Engine + ?Sized>(
                    engine: &E,
                    policy: &PolicyValue,
                    users: &mut [$label],
                    objects: &mut [$label],
                    table: &mut [$entry],
                ) -> Counts {
                    engine.$compile(policy, users, objects, table)
                }

                fn request<E: Engine + ?Sized>(
                    engine: &E,
                    board: &Board,
                    policy: &PolicyValue,
                    labels: &Labels<Self>,
                    session: u32,
                    action: u32,
                    object: u32,
                ) -> Step {
                    engine.$request(board, policy, labels, session, action, object)
                }
            }
        )*
    };
}

macro_rules! tuples {
    ($($tuple:ty: $list:ident, $decide:ident;)*) => {
        $(impl Tuple for $tuple {
            const LIST: &'static str = stringify!($list);
            const DECIDE: &'static str = stringify!($decide);

            fn list<E: Engine + ?Sized>(
                engine: &E,
                policy: &PolicyValue,
                action: u32,
                buffer: &mut [$tuple],
            ) -> Counted {
                engine.$list(policy, action, buffer)
            }

            fn decide<E: Engine + ?Sized>(
                engine: &E,
                policy: &PolicyValue,
                user: u32,
                object: u32,
                listing: &[$tuple],
                count: usize,
            ) -> u32 {
                engine.$decide(policy, user, object, listing, count)
            }
        })*
    };
}

widths! {
    /// Bytes for labels and table: form 1.
    Widths8x8: u8, u8, compile_8_8, request_8_8, u16;
    /// Bytes for labels, and a table of 16-bit entries: form 2.
    Widths8x16: u8, u16, compile_8_16, request_8_16, u16;
    /// Labels of 16 bits, and a table of 16-bit entries: form 3.
    Widths16x16: u16, u16, compile_16_16, request_16_16, u32;
}

tuples! {
    u16: list_16, decide_by_tuples_16;
    u32: list_32, decide_by_tuples_32;
}

/// What an expression gives with a name for the widths of these bits.
#[macro_export]
macro_rules! at_widths {
    ($bits:expr, $widths:ident => $given:expr) => {
        match $bits {
            reference::form::WIDTHS_8_8 => {
                type $widths = $crate::widths::Widths8x8;
                $given
            }
            reference::form::WIDTHS_8_16 => {
                type $widths = $crate::widths::Widths8x16;
                $given
            }
            reference::form::WIDTHS_16_16 => {
                type $widths = $crate::widths::Widths16x16;
                $given
            }
            bits => unreachable!("no call is made for {bits:?}"),
        }
    };
}

/// What an expression gives with a name for a tuple of so many bits.
#[macro_export]
macro_rules! at_tuples {
    ($bits:expr, $tuple:ident => $given:expr) => {
        match $bits {
            16 => {
                type $tuple = u16;
                $given
            }
            32 => {
                type $tuple = u32;
                $given
            }
            bits => unreachable!("no call is made for tuples of {bits} bits"),
        }
    };
}
