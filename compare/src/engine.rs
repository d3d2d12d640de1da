//! The exported calls, behind one trait, and the archive that has them.

use crate::boundary::*;
use crate::widths::{Labels, Tuple, Widths, Widths16x16, Widths8x16, Widths8x8};

/// The calls of the header. The comparison knows an engine by these alone.
pub trait Engine {
    fn read(&self, text: &[u8]) -> Reading;
    fn write(&self, policy: &PolicyValue, buffer: &mut [u8]) -> Counted;
    fn valid(&self, policy: &PolicyValue) -> bool;
    fn decide(&self, policy: &PolicyValue, action: u32, user: u32, object: u32) -> u32;
    fn list_16(&self, policy: &PolicyValue, action: u32, buffer: &mut [u16]) -> Counted;
    fn list_32(&self, policy: &PolicyValue, action: u32, buffer: &mut [u32]) -> Counted;
    fn decide_by_tuples_16(
        &self,
        policy: &PolicyValue,
        user: u32,
        object: u32,
        listing: &[u16],
        count: usize,
    ) -> u32;
    fn decide_by_tuples_32(
        &self,
        policy: &PolicyValue,
        user: u32,
        object: u32,
        listing: &[u32],
        count: usize,
    ) -> u32;
    fn compile_8_8(
        &self,
        policy: &PolicyValue,
        users: &mut [u8],
        objects: &mut [u8],
        table: &mut [u8],
    ) -> Counts;
    fn compile_8_16(
        &self,
        policy: &PolicyValue,
        users: &mut [u8],
        objects: &mut [u8],
        table: &mut [u16],
    ) -> Counts;
    fn compile_16_16(
        &self,
        policy: &PolicyValue,
        users: &mut [u16],
        objects: &mut [u16],
        table: &mut [u16],
    ) -> Counts;
    fn apart(&self, policy: &PolicyValue, one: u32, other: u32) -> Separation;
    fn fresh(&self) -> Board;
    fn open(&self, board: &Board, policy: &PolicyValue, user: u32, session: u32, set: u32) -> Step;
    fn add(&self, board: &Board, policy: &PolicyValue, user: u32, session: u32, set: u32) -> Step;
    fn drop(&self, board: &Board, policy: &PolicyValue, user: u32, session: u32, set: u32) -> Step;
    fn close(&self, board: &Board, policy: &PolicyValue, user: u32, session: u32) -> Step;
    fn request_8_8(
        &self,
        board: &Board,
        policy: &PolicyValue,
        labels: &Labels<Widths8x8>,
        session: u32,
        action: u32,
        object: u32,
    ) -> Step;
    fn request_8_16(
        &self,
        board: &Board,
        policy: &PolicyValue,
        labels: &Labels<Widths8x16>,
        session: u32,
        action: u32,
        object: u32,
    ) -> Step;
    fn request_16_16(
        &self,
        board: &Board,
        policy: &PolicyValue,
        labels: &Labels<Widths16x16>,
        session: u32,
        action: u32,
        object: u32,
    ) -> Step;
}

/// An engine's calls for all widths, each by the engine's own method over widths: `compile`,
/// `request`, `list` or `decide_by_tuples`.
#[macro_export]
macro_rules! calls_over_widths {
    () => {
        $crate::calls_over_widths! { @widths
            Widths8x8 compile_8_8 request_8_8,
            Widths8x16 compile_8_16 request_8_16,
            Widths16x16 compile_16_16 request_16_16,
        }
        $crate::calls_over_widths! { @tuples
            u16 list_16 decide_by_tuples_16,
            u32 list_32 decide_by_tuples_32,
        }
    };
    (@widths $($widths:ident $compile:ident $request:ident,)*) => {
        $(
            #[inline]
            fn $compile(
                &self,
                policy: &$crate::boundary::PolicyValue,
                users: &mut [<$crate::widths::$widths as $crate::widths::Widths>::Label],
                objects: &mut [<$crate::widths::$widths as $crate::widths::Widths>::Label],
                table: &mut [<$crate::widths::$widths as $crate::widths::Widths>::Entry],
            ) -> $crate::boundary::Counts {
                self.compile::<$crate::widths::$widths>(policy, users, objects, table)
            }

            #[inline]
            fn $request(
                &self,
                board: &$crate::boundary::Board,
                policy: &$crate::boundary::PolicyValue,
                labels: &$crate::widths::Labels<$crate::widths::$widths>,
                session: u32,
                action: u32,
                object: u32,
            ) -> $crate::boundary::Step {
                self.request(board, policy, labels, [session, action, object])
            }
        )*
    };
    (@tuples $($tuple:ident $list:ident $decide:ident,)*) => {
        $(
            #[inline]
            fn $list(
                &self,
                policy: &$crate::boundary::PolicyValue,
                action: u32,
                buffer: &mut [$tuple],
            ) -> $crate::boundary::Counted {
                self.list(policy, action, buffer)
            }

            #[inline]
            fn $decide(
                &self,
                policy: &$crate::boundary::PolicyValue,
                user: u32,
                object: u32,
                listing: &[$tuple],
                count: usize,
            ) -> u32 {
                self.decide_by_tuples(policy, user, object, listing, count)
            }
        )*
    };
}

/// The proved engine.
pub struct Archive;

extern "C" {
    fn helvemoik_read(text: *const u8, length: usize) -> Reading;
    fn helvemoik_write(policy: PolicyValue, buffer: *mut u8, length: usize) -> Counted;
    fn helvemoik_valid(policy: PolicyValue) -> bool;
    fn helvemoik_decide(policy: PolicyValue, action: u32, user: u32, object: u32) -> u32;
    fn helvemoik_apart(policy: PolicyValue, one: u32, other: u32) -> Separation;
    fn helvemoik_fresh() -> Board;
    fn helvemoik_open(board: Board, policy: PolicyValue, user: u32, session: u32, set: u32)
        -> Step;
    fn helvemoik_add(board: Board, policy: PolicyValue, user: u32, session: u32, set: u32) -> Step;
    fn helvemoik_drop(board: Board, policy: PolicyValue, user: u32, session: u32, set: u32)
        -> Step;
    fn helvemoik_close(board: Board, policy: PolicyValue, user: u32, session: u32) -> Step;
}

/// A compile of some widths.
type Compile<W> = unsafe extern "C" fn(
    PolicyValue,
    *mut <W as Widths>::Label,
    usize,
    *mut <W as Widths>::Label,
    usize,
    *mut <W as Widths>::Entry,
    usize,
) -> Counts;

/// A request of some widths.
type Request<W> = unsafe extern "C" fn(
    Board,
    PolicyValue,
    u32,
    u32,
    *const <W as Widths>::Label,
    usize,
    *const <W as Widths>::Label,
    usize,
    *const <W as Widths>::Entry,
    usize,
    u32,
    u32,
    u32,
) -> Step;

/// A listing in tuples of some width, and deciding by it.
type List<T> = unsafe extern "C" fn(PolicyValue, u32, *mut T, usize) -> Counted;
type Decide<T> = unsafe extern "C" fn(PolicyValue, u32, u32, *const T, usize, usize) -> u32;

/// Widths for which the archive has a compile and a request.
trait Exported: Widths {
    const COMPILE: Compile<Self>;
    const REQUEST: Request<Self>;
}

/// A tuple for which the archive has a listing and a deciding.
trait ExportedTuple: Tuple {
    const LIST: List<Self>;
    const DECIDE: Decide<Self>;
}

macro_rules! exported {
    ($($widths:ident: $compile:ident, $request:ident;)*) => {
        $(
            extern "C" {
                fn $compile(
                    policy: PolicyValue,
                    users: *mut <$widths as Widths>::Label,
                    users_length: usize,
                    objects: *mut <$widths as Widths>::Label,
                    objects_length: usize,
                    table: *mut <$widths as Widths>::Entry,
                    table_length: usize,
                ) -> Counts;
                fn $request(
                    board: Board,
                    policy: PolicyValue,
                    nu: u32,
                    no: u32,
                    users: *const <$widths as Widths>::Label,
                    users_length: usize,
                    objects: *const <$widths as Widths>::Label,
                    objects_length: usize,
                    table: *const <$widths as Widths>::Entry,
                    table_length: usize,
                    session: u32,
                    action: u32,
                    object: u32,
                ) -> Step;
            }

            impl Exported for $widths {
                const COMPILE: Compile<Self> = $compile;
                const REQUEST: Request<Self> = $request;
            }
        )*
    };
}

macro_rules! exported_tuples {
    ($($tuple:ty: $list:ident, $decide:ident;)*) => {
        $(
            extern "C" {
                fn $list(policy: PolicyValue, action: u32, buffer: *mut $tuple, length: usize) -> Counted;
                fn $decide(
                    policy: PolicyValue,
                    user: u32,
                    object: u32,
                    listing: *const $tuple,
                    length: usize,
                    count: usize,
                ) -> u32;
            }

            impl ExportedTuple for $tuple {
                const LIST: List<Self> = $list;
                const DECIDE: Decide<Self> = $decide;
            }
        )*
    };
}

exported! {
    Widths8x8: helvemoik_compile_8_8, helvemoik_request_8_8;
    Widths8x16: helvemoik_compile_8_16, helvemoik_request_8_16;
    Widths16x16: helvemoik_compile_16_16, helvemoik_request_16_16;
}

exported_tuples! {
    u16: helvemoik_list_16, helvemoik_decide_by_tuples_16;
    u32: helvemoik_list_32, helvemoik_decide_by_tuples_32;
}

// Each call is safe: the types are the header's, a slice gives a pointer that is good for its length, and no call keeps
// one.

/// The archive's calls over widths.
impl Archive {
    #[inline(always)]
    fn compile<W: Exported>(
        &self,
        policy: &PolicyValue,
        users: &mut [W::Label],
        objects: &mut [W::Label],
        table: &mut [W::Entry],
    ) -> Counts {
        unsafe {
            <W as Exported>::COMPILE(
                *policy,
                users.as_mut_ptr(),
                users.len(),
                objects.as_mut_ptr(),
                objects.len(),
                table.as_mut_ptr(),
                table.len(),
            )
        }
    }

    #[inline(always)]
    fn request<W: Exported>(
        &self,
        board: &Board,
        policy: &PolicyValue,
        labels: &Labels<W>,
        [session, action, object]: [u32; 3],
    ) -> Step {
        unsafe {
            <W as Exported>::REQUEST(
                *board,
                *policy,
                labels.nu,
                labels.no,
                labels.users.as_ptr(),
                labels.users.len(),
                labels.objects.as_ptr(),
                labels.objects.len(),
                labels.table.as_ptr(),
                labels.table.len(),
                session,
                action,
                object,
            )
        }
    }

    #[inline(always)]
    fn list<T: ExportedTuple>(
        &self,
        policy: &PolicyValue,
        action: u32,
        buffer: &mut [T],
    ) -> Counted {
        let (start, length) = (buffer.as_mut_ptr(), buffer.len());
        unsafe { <T as ExportedTuple>::LIST(*policy, action, start, length) }
    }

    #[inline(always)]
    fn decide_by_tuples<T: ExportedTuple>(
        &self,
        policy: &PolicyValue,
        user: u32,
        object: u32,
        listing: &[T],
        count: usize,
    ) -> u32 {
        let (start, length) = (listing.as_ptr(), listing.len());
        unsafe { <T as ExportedTuple>::DECIDE(*policy, user, object, start, length, count) }
    }
}

impl Engine for Archive {
    calls_over_widths!();

    fn read(&self, text: &[u8]) -> Reading {
        unsafe { helvemoik_read(text.as_ptr(), text.len()) }
    }

    fn write(&self, policy: &PolicyValue, buffer: &mut [u8]) -> Counted {
        unsafe { helvemoik_write(*policy, buffer.as_mut_ptr(), buffer.len()) }
    }

    fn valid(&self, policy: &PolicyValue) -> bool {
        unsafe { helvemoik_valid(*policy) }
    }

    fn decide(&self, policy: &PolicyValue, action: u32, user: u32, object: u32) -> u32 {
        unsafe { helvemoik_decide(*policy, action, user, object) }
    }

    fn apart(&self, policy: &PolicyValue, one: u32, other: u32) -> Separation {
        unsafe { helvemoik_apart(*policy, one, other) }
    }

    fn fresh(&self) -> Board {
        unsafe { helvemoik_fresh() }
    }

    fn open(&self, board: &Board, policy: &PolicyValue, user: u32, session: u32, set: u32) -> Step {
        unsafe { helvemoik_open(*board, *policy, user, session, set) }
    }

    fn add(&self, board: &Board, policy: &PolicyValue, user: u32, session: u32, set: u32) -> Step {
        unsafe { helvemoik_add(*board, *policy, user, session, set) }
    }

    fn drop(&self, board: &Board, policy: &PolicyValue, user: u32, session: u32, set: u32) -> Step {
        unsafe { helvemoik_drop(*board, *policy, user, session, set) }
    }

    fn close(&self, board: &Board, policy: &PolicyValue, user: u32, session: u32) -> Step {
        unsafe { helvemoik_close(*board, *policy, user, session) }
    }
}
