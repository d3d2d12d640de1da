//! The engine gives the answers that are due, and every answer comes up.

use helvemoik_compare::comparison::{compare, compare_isolation, Cause, Coverage, Plan, With};
use helvemoik_compare::engine::{Archive, Engine};
use helvemoik_compare::plain::{Plain, PlainBy64};

/// The answers of reading, refusals 1 to 10, 21 and 22 among them.
const READINGS: [u32; 13] = [0, 1, 2, 3, 4, 5, 6, 7, 8, 9, 10, 21, 22];

/// The kinds of calls with a policy, reading among them.
const ON_A_POLICY: [&str; 19] = [
    "add",
    "apart",
    "close",
    "compile_16_16",
    "compile_8_16",
    "compile_8_8",
    "decide",
    "decide_by_tuples_16",
    "decide_by_tuples_32",
    "drop",
    "list_16",
    "list_32",
    "open",
    "read",
    "request_16_16",
    "request_8_16",
    "request_8_8",
    "valid",
    "write",
];

/// The kinds of calls that go by what is granted, and so by pairs and by seniority too.
const BY_GRANTS: [&str; 10] = [
    "apart",
    "compile_16_16",
    "compile_8_16",
    "compile_8_8",
    "decide",
    "list_16",
    "list_32",
    "request_16_16",
    "request_8_16",
    "request_8_8",
];

/// Those that an action which form 1 lacks may decide.
const BY_ACTIONS_ABOVE_7: [&str; 8] = [
    "apart",
    "compile_16_16",
    "compile_8_16",
    "decide",
    "list_16",
    "list_32",
    "request_16_16",
    "request_8_16",
];

/// The kinds of calls on a board. Each names a session, and check 11 may refuse it for a
/// conflict alone.
const ON_A_BOARD: [&str; 7] = [
    "add",
    "close",
    "drop",
    "open",
    "request_16_16",
    "request_8_16",
    "request_8_8",
];

/// The kinds of calls that are made for stored widths, which check 11 may refuse alone.
const BY_WIDTHS: [&str; 10] = [
    "compile_16_16",
    "compile_8_16",
    "compile_8_8",
    "decide_by_tuples_16",
    "decide_by_tuples_32",
    "list_16",
    "list_32",
    "request_16_16",
    "request_8_16",
    "request_8_8",
];

/// Those in which labels above 255 count, and those in which tuples above 65,535 do.
const BY_WIDE_LABELS: [&str; 2] = ["compile_16_16", "request_16_16"];
const BY_WIDE_TUPLES: [&str; 2] = ["decide_by_tuples_32", "list_32"];

/// The answers of each kind of call: 0 and above as the header has them, 11 and above refused.
const ANSWERS: [(&str, &[u32]); 19] = [
    ("valid", &[0, 1]),
    ("write", &[0, 11, 20]),
    ("decide", &[0, 1, 11, 12, 19]),
    ("list_16", &[0, 11, 12, 20]),
    ("list_32", &[0, 11, 12, 20]),
    ("decide_by_tuples_16", &[0, 1, 11, 19, 20]),
    ("decide_by_tuples_32", &[0, 1, 11, 19, 20]),
    ("compile_8_8", &[0, 11, 20]),
    ("compile_8_16", &[0, 11, 20]),
    ("compile_16_16", &[0, 11, 20]),
    ("apart", &[0, 1, 11, 19]),
    ("fresh", &[0]),
    ("open", &[2, 11, 13, 14, 16, 19, 23]),
    ("add", &[2, 11, 13, 14, 17, 18, 19, 23]),
    ("drop", &[2, 11, 13, 14, 17, 18, 19]),
    ("close", &[2, 11, 13, 14, 17, 18]),
    ("request_8_8", &[0, 1, 11, 12, 13, 15, 17, 20]),
    ("request_8_16", &[0, 1, 11, 12, 13, 15, 17, 20]),
    ("request_16_16", &[0, 1, 11, 12, 13, 15, 17, 20]),
];

fn covered(engine: &dyn Engine, plan: Plan) -> Coverage {
    let coverage = compare(engine, plan).unwrap_or_else(|difference| panic!("{difference}"));
    println!("{coverage}");
    assert!(coverage.texts() >= plan.texts && coverage.calls() >= plan.calls);
    assert_eq!(coverage.readings(), READINGS);
    for form in [1, 2, 3] {
        assert_eq!(coverage.on_form(form), ON_A_POLICY);
    }
    assert_eq!(coverage.on_many_values(), ON_A_POLICY);
    assert!(coverage.texts_of_many_values() >= plan.texts / 100);
    assert_eq!(coverage.by(Cause::Pairs), BY_GRANTS);
    assert_eq!(coverage.by(Cause::Conflicts), ON_A_BOARD);
    assert_eq!(coverage.by(Cause::Seniority), BY_GRANTS);
    assert_eq!(coverage.by(Cause::Above7), BY_ACTIONS_ABOVE_7);
    assert_eq!(coverage.by(Cause::Widths), BY_WIDTHS);
    assert_eq!(coverage.by(Cause::WideLabels), BY_WIDE_LABELS);
    assert_eq!(coverage.by(Cause::WideTuples), BY_WIDE_TUPLES);
    for (kind, answers) in ANSWERS {
        assert_eq!(coverage.answers(kind), answers, "{kind}");
    }
    isolated(&coverage);
    coverage
}

/// Every kind of call that names a session was compared in two lists, made with whatever
/// they may be made with, and in many of them not every such call was refused.
fn isolated(coverage: &Coverage) {
    assert_eq!(coverage.isolated(), ON_A_BOARD);
    for with in [With::Compiled, With::Buffers, With::Widths, With::Value] {
        let found = coverage.isolation(with);
        assert!(found.lists > 0 && found.calls > 3 * found.lists, "{with:?}");
        // Every call with a value that no text yields gets 11.
        let answered = 3 * found.answered > found.lists;
        assert_eq!(answered, with != With::Value, "{with:?}");
    }
    assert!(coverage.isolation(With::Compiled).above_31 > 0);
}

#[test]
fn the_engine_answers_as_is_due() {
    let plan = Plan {
        seed: 1,
        texts: 2_000,
        calls: 30_000,
    };
    covered(&Archive, plan);
}

/// Another session's calls change no answer of the engine's.
#[test]
fn the_engine_keeps_sessions_apart() {
    let plan = Plan {
        seed: 4,
        texts: 3_000,
        calls: 0,
    };
    let coverage =
        compare_isolation(&Archive, plan).unwrap_or_else(|difference| panic!("{difference}"));
    println!("{coverage}");
    isolated(&coverage);
    assert!(coverage.isolation(With::Compiled).calls > plan.texts);
}

/// What is measured beside the engine does the same job.
#[test]
fn plain_rust_answers_as_is_due() {
    let plan = Plan {
        seed: 2,
        texts: 2_000,
        calls: 30_000,
    };
    covered(&Plain, plan);
}

#[test]
fn plain_rust_by_64_pairs_of_sets_answers_as_is_due() {
    let plan = Plan {
        seed: 6,
        texts: 2_000,
        calls: 30_000,
    };
    covered(&PlainBy64, plan);
}

#[test]
fn equal_plans_make_equal_cases() {
    let plan = Plan {
        seed: 3,
        texts: 100,
        calls: 1_000,
    };
    assert_eq!(
        compare(&Plain, plan).expect("no difference"),
        compare(&Plain, plan).expect("no difference")
    );
}
