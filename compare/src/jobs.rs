//! The jobs that are measured: one call each, on one sample, or a list of calls.

use crate::boundary::{
    Board, PolicyValue, DONE, MOST_LABELS, MOST_TABLE, MOST_TUPLES, SESSIONS, TEXT_BYTES,
};
use crate::engine::Engine;
use crate::plain;
use crate::plain::policy::Policy;
use crate::sample::Sample;
use crate::timing::{job, Job};
use crate::widths::{Labels, Tuple, Widths};
use reference::machine::Call;
use std::hint::black_box;

/// The names of the jobs, in the order in which both lists below have them.
pub const NAMES: [&str; 18] = [
    "read",
    "read, refused by 5 in line 0",
    "read, refused by 6 in line 0",
    "read, refused at its end",
    "read, too long",
    "check 11",
    "write",
    "compile",
    "list",
    "decide",
    "apart",
    "open",
    "request",
    "add, 32 open",
    "drop, 32 open",
    "close and open, 32 open",
    "request, 32 open",
    "a thousand calls",
];

/// The jobs that plain Rust does by 64 pairs of sets at once too.
pub const NAMES_BY_64: [&str; 2] = ["compile", "list"];

/// What jobs write into.
#[derive(PartialEq)]
struct Buffers<W: Widths> {
    text: Vec<u8>,
    tuples: Vec<W::Tuple>,
    users: Vec<W::Label>,
    objects: Vec<W::Label>,
    table: Vec<W::Entry>,
}

impl<W: Widths> Buffers<W> {
    /// Long enough for all results.
    fn new() -> Self {
        Buffers {
            text: vec![0; TEXT_BYTES],
            tuples: vec![W::Tuple::default(); MOST_TUPLES],
            users: vec![W::Label::default(); MOST_LABELS],
            objects: vec![W::Label::default(); MOST_LABELS],
            table: vec![W::Entry::default(); MOST_TABLE],
        }
    }
}

/// The jobs of an engine behind the boundary.
pub fn of_engine<'a, E: Engine, W: Widths>(
    engine: &'a E,
    sample: &'a Sample<W>,
) -> [Job<'a>; NAMES.len()] {
    all(
        on_policy_by_engine(engine, sample),
        on_board_by_engine(engine, sample),
    )
}

/// The same jobs of plain Rust, with its own policy value by reference.
pub fn by_reference<W: Widths>(sample: &Sample<W>) -> [Job<'_>; NAMES.len()] {
    all(
        on_policy_by_reference(sample),
        on_board_by_reference(sample),
    )
}

/// How many of the jobs are on a policy; those behind them are on a board.
const ON_POLICY: usize = 11;
const ON_BOARD: usize = NAMES.len() - ON_POLICY;

fn all<'a>(
    on_policy: [Job<'a>; ON_POLICY],
    on_board: [Job<'a>; ON_BOARD],
) -> [Job<'a>; NAMES.len()] {
    let mut jobs = on_policy.into_iter().chain(on_board);
    std::array::from_fn(|_| jobs.next().expect("a job for each name"))
}

fn on_policy_by_engine<'a, E: Engine, W: Widths>(
    engine: &'a E,
    sample: &'a Sample<W>,
) -> [Job<'a>; ON_POLICY] {
    let (value, set) = (&sample.value, sample.all_values());
    let Buffers {
        mut text,
        mut tuples,
        mut users,
        mut objects,
        mut table,
    } = Buffers::<W>::new();
    [
        job(move || engine.read(black_box(&sample.text))),
        job(move || engine.read(black_box(&sample.misspelt))),
        job(move || engine.read(black_box(&sample.no_form))),
        job(move || engine.read(black_box(&sample.endless))),
        job(move || engine.read(black_box(&sample.too_long))),
        job(move || engine.valid(black_box(value))),
        job(move || engine.write(black_box(value), &mut text)),
        job(move || {
            let value = black_box(value);
            W::compile(engine, value, &mut users, &mut objects, &mut table)
        }),
        job(move || W::Tuple::list(engine, black_box(value), 0, &mut tuples)),
        job(move || engine.decide(black_box(value), 0, set, set)),
        // Alike, so that every object set is looked at.
        job(move || engine.apart(black_box(value), set, set)),
    ]
}

fn on_board_by_engine<'a, E: Engine, W: Widths>(
    engine: &'a E,
    sample: &'a Sample<W>,
) -> [Job<'a>; ON_BOARD] {
    let (value, board, labels) = (&sample.value, &sample.board, sample.labels());
    let on_full = |k: usize| {
        let calls = &sample.on_full[k];
        job(move || {
            let board = *black_box(&sample.full);
            list_by_engine(engine, board, black_box(value), &labels, calls)
        })
    };
    [
        job(move || engine.open(black_box(board), black_box(value), 0, LAST, 0)),
        job(move || {
            let (board, value) = (black_box(board), black_box(value));
            W::request(engine, board, value, &labels, 0, 0, 0)
        }),
        on_full(0),
        on_full(1),
        on_full(2),
        on_full(3),
        job(move || {
            let board = engine.fresh();
            list_by_engine(engine, board, black_box(value), &labels, &sample.calls)
        }),
    ]
}

fn on_policy_by_reference<W: Widths>(sample: &Sample<W>) -> [Job<'_>; ON_POLICY] {
    let (policy, set) = (&sample.policy, sample.all_values());
    let Buffers {
        mut text,
        mut tuples,
        mut users,
        mut objects,
        mut table,
    } = Buffers::<W>::new();
    [
        job(move || plain::reader::read(black_box(&sample.text))),
        job(move || plain::reader::read(black_box(&sample.misspelt))),
        job(move || plain::reader::read(black_box(&sample.no_form))),
        job(move || plain::reader::read(black_box(&sample.endless))),
        job(move || plain::reader::read(black_box(&sample.too_long))),
        job(move || plain::checks::valid(black_box(policy))),
        job(move || plain::writer::write(black_box(policy), &mut text)),
        job(move || {
            let policy = black_box(policy);
            plain::labels::compile::<W>(policy, &mut users, &mut objects, &mut table)
        }),
        job(move || plain::tuples::list(black_box(policy), 0, &mut tuples)),
        job(move || plain::formula::decide(black_box(policy), 0, set, set)),
        job(move || plain::labels::apart(black_box(policy), set, set)),
    ]
}

fn on_board_by_reference<W: Widths>(sample: &Sample<W>) -> [Job<'_>; ON_BOARD] {
    let (policy, board, labels) = (&sample.policy, &sample.board, sample.labels());
    let on_full = |k: usize| {
        let calls = &sample.on_full[k];
        job(move || {
            let board = *black_box(&sample.full);
            list_by_reference(board, black_box(policy), &labels, calls)
        })
    };
    [
        job(move || {
            let mut board = *black_box(board);
            let answer = plain::board::open(&mut board, black_box(policy), 0, LAST, 0);
            (answer, board)
        }),
        job(move || plain::board::request(black_box(board), black_box(policy), &labels, 0, 0, 0)),
        on_full(0),
        on_full(1),
        on_full(2),
        on_full(3),
        job(move || list_by_reference(Board::default(), black_box(policy), &labels, &sample.calls)),
    ]
}

/// Compile and list by 64 pairs of sets at once, of plain Rust by reference.
pub fn by_64<W: Widths>(sample: &Sample<W>) -> [Job<'_>; NAMES_BY_64.len()] {
    use plain::by_64::{compile, list};
    let policy = &sample.policy;
    let Buffers {
        mut tuples,
        mut users,
        mut objects,
        mut table,
        ..
    } = Buffers::<W>::new();
    [
        job(move || compile::<W>(black_box(policy), &mut users, &mut objects, &mut table)),
        job(move || list(black_box(policy), 0, &mut tuples)),
    ]
}

/// The session of a sample's board that is not open.
const LAST: u32 = SESSIONS as u32 - 1;

/// The sum of the answers of a list of calls from a board on, and the board after it.
fn list_by_engine<E: Engine, W: Widths>(
    engine: &E,
    mut board: Board,
    policy: &PolicyValue,
    labels: &Labels<W>,
    calls: &[Call],
) -> (u32, Board) {
    let mut sum = 0;
    for call in calls {
        let step = match *call {
            Call::Open { user, session, set } => engine.open(&board, policy, user, session, set),
            Call::Add { user, session, set } => engine.add(&board, policy, user, session, set),
            Call::Drop { user, session, set } => engine.drop(&board, policy, user, session, set),
            Call::Close { user, session } => engine.close(&board, policy, user, session),
            Call::Request {
                session,
                action,
                object,
            } => W::request(engine, &board, policy, labels, session, action, object),
        };
        sum += step.answer;
        board = step.board;
    }
    (sum, board)
}

fn list_by_reference<W: Widths>(
    mut board: Board,
    policy: &Policy,
    labels: &Labels<W>,
    calls: &[Call],
) -> (u32, Board) {
    use plain::board::{add, close, drop, open, request};
    let mut sum = 0;
    for call in calls {
        let b = &mut board;
        let answer = match *call {
            Call::Open { user, session, set } => open(b, policy, user, session, set).map(|()| DONE),
            Call::Add { user, session, set } => add(b, policy, user, session, set).map(|()| DONE),
            Call::Drop { user, session, set } => drop(b, policy, user, session, set).map(|()| DONE),
            Call::Close { user, session } => close(b, policy, user, session).map(|()| DONE),
            Call::Request {
                session,
                action,
                object,
            } => request(b, policy, labels, session, action, object).map(u32::from),
        };
        sum += answer.unwrap_or_else(|refusal| refusal as u32);
    }
    (sum, board)
}

#[cfg(test)]
mod tests {
    use super::*;
    use crate::engine::Archive;
    use crate::for_all_sizes;
    use crate::plain::{Peer, Plain, PlainBy64};
    use crate::sample::Size;

    impl<W: Widths> Buffers<W> {
        /// What writing, listing and compiling leave.
        fn by_engine(engine: &dyn Engine, policy: &PolicyValue) -> Self {
            let mut left = Self::new();
            let (users, objects) = (&mut left.users, &mut left.objects);
            assert_eq!(engine.write(policy, &mut left.text).refusal, 0);
            assert_eq!(
                W::Tuple::list(engine, policy, 0, &mut left.tuples).refusal,
                0
            );
            let counts = W::compile(engine, policy, users, objects, &mut left.table);
            assert_eq!(counts.refusal, 0);
            left
        }

        fn by_reference<P: Peer>(policy: &Policy) -> Self {
            let mut left = Self::new();
            let (users, objects) = (&mut left.users, &mut left.objects);
            assert!(plain::writer::write(policy, &mut left.text).is_ok());
            assert!(P::list_by_reference(policy, 0, &mut left.tuples).is_ok());
            let table = &mut left.table;
            assert!(P::compile_by_reference::<W>(policy, users, objects, table).is_ok());
            left
        }
    }

    fn leave_the_same<W: Widths>(size: Size) {
        let sample = Sample::<W>::of(size);
        let due = Buffers::<W>::by_reference::<Plain>(&sample.policy);
        assert!(Buffers::by_reference::<PlainBy64>(&sample.policy) == due);
        assert!(Buffers::by_engine(&Archive, &sample.value) == due);
        assert!(Buffers::by_engine(&Plain, &sample.value) == due);
    }

    #[test]
    fn all_sides_leave_the_same_in_buffers() {
        for_all_sizes!(leave_the_same);
    }

    /// All sides answer a list of calls from a board on alike.
    fn answered_alike<W: Widths>(sample: &Sample<W>, board: Board, calls: &[Call]) {
        let (value, labels) = (&sample.value, &sample.labels());
        let due = list_by_reference(board, &sample.policy, labels, calls);
        assert_eq!(list_by_engine(&Archive, board, value, labels, calls), due);
        assert_eq!(list_by_engine(&Plain, board, value, labels, calls), due);
    }

    fn lists_answered_alike<W: Widths>(size: Size) {
        let sample = Sample::<W>::of(size);
        answered_alike(&sample, Board::default(), &sample.calls);
        for calls in &sample.on_full {
            answered_alike(&sample, sample.full, calls);
        }
    }

    #[test]
    fn all_sides_answer_every_list_alike() {
        for_all_sizes!(lists_answered_alike);
    }

    fn refused_as_called<W: Widths>(size: Size) {
        let sample = Sample::<W>::of(size);
        let lines = sample.endless.iter().filter(|&&byte| byte == 10).count();
        for (text, refusal, line) in [
            (&sample.misspelt, 5, 0),
            (&sample.no_form, 6, 0),
            (&sample.endless, 10, lines),
            (&sample.too_long, 1, 0),
        ] {
            let reading = Archive.read(text);
            assert_eq!((reading.refusal, reading.line), (refusal, line));
            assert_eq!(Plain.read(text), reading);
        }
    }

    #[test]
    fn refused_texts_are_refused_as_they_are_called() {
        for_all_sizes!(refused_as_called);
    }
}
