//! The examples of the requirement, in its order.

use reference::form::{WIDTHS_16_16, WIDTHS_8_16, WIDTHS_8_8};
use reference::formula::{decide, is_senior};
use reference::labels::{compile, compile_for};
use reference::lister::list;
use reference::machine::{run, run_for, Answer, Call, Sessions};
use reference::policy::{Policy, Set};
use reference::text::{read, write};
use reference::tuples::{decide_by_tuples, decide_by_tuples_for, tuples, tuples_for};

const TEXT: &str = "policy,1
uattr,2
oattr,1
usen,1,0
user,0,2
object,0,1
rule,0,u0,o0,a
rule,3,u1,n
end
";

const LISTING: &str = "labels,3,2
action,0,3
tuple,0,1,1
tuple,0,2,1
tuple,0,3,1
action,3,4
tuple,3,0,0
tuple,3,0,1
tuple,3,1,0
tuple,3,1,1
";

fn policy(text: &str) -> Policy {
    read(text.as_bytes()).expect("accepted")
}

/// Refusal and line, or 0 and 0 for an accepted text.
fn answer(text: &str) -> (u32, usize) {
    read(text.as_bytes()).map_or_else(|refused| (refused.refusal, refused.line), |_| (0, 0))
}

fn answers(calls: &[Call]) -> Vec<Answer> {
    run(&policy(TEXT), calls).0
}

fn open(set: Set) -> Call {
    Call::Open {
        user: 0,
        session: 0,
        set,
    }
}

fn add(set: Set) -> Call {
    Call::Add {
        user: 0,
        session: 0,
        set,
    }
}

fn drop_values(set: Set) -> Call {
    Call::Drop {
        user: 0,
        session: 0,
        set,
    }
}

fn request(action: u32) -> Call {
    Call::Request {
        session: 0,
        action,
        object: 0,
    }
}

// One text through the lister.

#[test]
fn the_lister_writes_the_listing() {
    assert_eq!(list(TEXT.as_bytes()), LISTING);
}

#[test]
fn the_lister_writes_only_the_refusal() {
    assert_eq!(list(b""), "refused,10,0\n");
    assert_eq!(list(b"policy,1\nuattr,0\n"), "refused,6,1\n");
    assert_eq!(list(&[b'\n'; 8193]), "refused,1,0\n");
}

#[test]
fn the_text_is_written_again() {
    assert_eq!(write(&policy(TEXT)), TEXT.as_bytes());
}

#[test]
fn labels_and_table() {
    let labelling = compile(&policy(TEXT));
    assert_eq!(labelling.user_labels, [0, 1, 2, 2]);
    assert_eq!(labelling.object_labels, [0, 1]);
    assert_eq!(labelling.table, [8, 8, 8, 9, 0, 1]);
    assert_eq!((labelling.user_count, labelling.object_count), (3, 2));
}

#[test]
fn the_two_tuple_lists() {
    // Stored as user set × 2 + object set.
    assert_eq!(tuples(&policy(TEXT), 0), Ok(vec![3, 5, 7]));
    assert_eq!(tuples(&policy(TEXT), 3), Ok(vec![0, 1, 2, 3]));
}

#[test]
fn user_0_opens_with_1_and_with_3() {
    assert_eq!(answers(&[open(1)]), [Answer::Done]);
    assert_eq!(answers(&[open(3)]), [Answer::Done]);
}

#[test]
fn set_4_gets_19() {
    assert_eq!(answers(&[open(4)]), [Answer::Refused(19)]);
    assert_eq!(decide(&policy(TEXT), 0, 4, 0), Err(19));
}

#[test]
fn in_a_session_a_drop_of_4_gets_19() {
    for set in [1, 3] {
        let (answers, sessions) = run(&policy(TEXT), &[open(set), drop_values(4)]);
        assert_eq!(answers, [Answer::Done, Answer::Refused(19)]);
        assert_eq!(sessions, Sessions::from([(0, (0, set))]));
    }
}

#[test]
fn in_a_session_action_1_is_denied_and_8_gets_12() {
    for set in [1, 3] {
        let last = [Answer::Denied, Answer::Refused(12)];
        assert_eq!(answers(&[open(set), request(1), request(8)])[1..], last);
    }
}

#[test]
fn with_no_rule_lines_there_is_one_label_each() {
    let text: String = TEXT
        .split_inclusive('\n')
        .filter(|l| !l.starts_with("rule"))
        .collect();
    let labelling = compile(&policy(&text));
    assert_eq!((labelling.user_count, labelling.object_count), (1, 1));
    assert_eq!(labelling.table, [0]);
    assert_eq!(list(text.as_bytes()), "labels,1,1\n");
}

// Edges.

#[test]
fn widths_3_and_4_read_and_4_and_4_get_6() {
    assert_eq!(answer("policy,1\nuattr,3\nuattr,4\noattr,1\nend\n"), (0, 0));
    assert_eq!(answer("policy,1\nuattr,4\nuattr,4\noattr,1\nend\n"), (6, 2));
    assert_eq!(answer("policy,1\nuattr,1\noattr,3\noattr,4\nend\n"), (0, 0));
    assert_eq!(answer("policy,1\nuattr,1\noattr,4\noattr,4\nend\n"), (6, 3));
}

#[test]
fn user_31_reads_and_32_gets_6() {
    assert_eq!(
        answer("policy,1\nuattr,1\noattr,1\nuser,31,0\nend\n"),
        (0, 0)
    );
    assert_eq!(
        answer("policy,1\nuattr,1\noattr,1\nuser,32,0\nend\n"),
        (6, 3)
    );
}

#[test]
fn words_32_read_and_33_get_4() {
    let head = "policy,1\nuattr,1\noattr,1\nrule,0,t";
    assert_eq!(answer(&format!("{head}{}\nend\n", ",n".repeat(31))), (0, 0));
    assert_eq!(answer(&format!("{head}{}\nend\n", ",n".repeat(32))), (4, 3));
}

#[test]
fn an_empty_text_gets_10_at_line_0() {
    assert_eq!(answer(""), (10, 0));
}

#[test]
fn a_line_after_end_gets_3() {
    assert_eq!(answer(&format!("{TEXT}end\n")), (3, 9));
    assert_eq!(answer(&format!("{TEXT}\n")), (3, 9));
}

#[test]
fn a_value_is_not_senior_to_itself() {
    assert_eq!(
        answer("policy,1\nuattr,2\noattr,1\nusen,0,0\nend\n"),
        (6, 3)
    );
}

#[test]
fn a_needless_zero_gets_5() {
    assert_eq!(answer("policy,01\nuattr,2\noattr,1\nend\n"), (5, 0));
    assert_eq!(answer("policy,1\nuattr,01\noattr,1\nend\n"), (5, 1));
}

// Plausible and false.

#[test]
fn tuples_are_not_tried_by_subset() {
    let policy = policy(TEXT);
    let listing = tuples(&policy, 3).expect("listed");
    for object_set in 0..2 {
        let count = listing.len();
        assert_eq!(
            decide_by_tuples(&policy, 1, object_set, &listing, count),
            Ok(true)
        );
        assert_eq!(
            decide_by_tuples(&policy, 3, object_set, &listing, count),
            Ok(false)
        );
    }
}

#[test]
fn object_seniority_runs_the_other_way() {
    let text = "policy,1\nuattr,1\noattr,2\nosen,1,0\nrule,0,o0\nrule,1,o1\nend\n";
    let policy = policy(text);
    assert!(is_senior(&policy.object_seniority, 1, 0));
    // Value 0 is junior to 1: it stands for 1, and 1 does not stand for 0.
    assert_eq!(decide(&policy, 1, 0, 0b01), Ok(true));
    assert_eq!(decide(&policy, 0, 0, 0b10), Ok(false));
}

#[test]
fn what_is_dropped_may_be_added_again() {
    let calls = [open(3), drop_values(3), add(1), add(2), request(0)];
    let done = Answer::Done;
    assert_eq!(answers(&calls), [done, done, done, done, Answer::Granted]);
}

#[test]
fn object_sets_without_an_object_tell_sets_apart() {
    for object in ["", "object,0,0\n"] {
        let text = format!("policy,1\nuattr,1\noattr,1\n{object}rule,0,u0,o0,a\nend\n");
        let labelling = compile(&policy(&text));
        assert_eq!(labelling.user_labels, [0, 1]);
        assert_eq!(labelling.object_labels, [0, 1]);
    }
}

// More than eight things to do with a comment.

/// The text of the requirement in form 2.
fn form_2() -> String {
    TEXT.replace("policy,1", "policy,2")
}

#[test]
fn form_2_has_actions_0_to_15() {
    let text = |action: u32| form_2().replace("rule,3,", &format!("rule,{action},"));
    assert!((1..16).all(|action| answer(&text(action)) == (0, 0)));
    assert_eq!(answer(&text(16)), (6, 7));
    let form_1 = TEXT.replace("rule,3,", "rule,8,");
    assert_eq!(answer(&form_1), (6, 7));
    assert_eq!(answer("policy,0\n"), (6, 0));
}

#[test]
fn check_12_applies_above_the_last_action_of_the_form() {
    for (text, last) in [(TEXT.to_string(), 7), (form_2(), 15)] {
        let policy = policy(&text);
        assert_eq!(decide(&policy, last, 0, 0), Ok(false));
        assert_eq!(decide(&policy, last + 1, 0, 0), Err(12));
        let (answers, _) = run(&policy, &[open(1), request(last), request(last + 1)]);
        assert_eq!(answers[1..], [Answer::Denied, Answer::Refused(12)]);
    }
}

#[test]
fn form_2_has_16_bit_entries_and_form_1_keeps_bytes() {
    let high = form_2().replace("rule,3,", "rule,15,");
    let labelling = compile(&policy(&high));
    assert_eq!(labelling.table, [32768, 32768, 32768, 32769, 0, 1]);
    assert_eq!(labelling.widths, WIDTHS_8_16);
    assert_eq!(compile(&policy(TEXT)).widths, WIDTHS_8_8);
}

#[test]
fn the_text_is_labelled_and_listed_the_same_in_form_2() {
    assert_eq!(list(form_2().as_bytes()), LISTING);
    let labelling = compile(&policy(&form_2()));
    assert_eq!(labelling.user_labels, [0, 1, 2, 2]);
    assert_eq!(labelling.object_labels, [0, 1]);
    assert_eq!(labelling.table, [8, 8, 8, 9, 0, 1]);
    assert_eq!(write(&policy(&form_2())), form_2().as_bytes());
}

#[test]
fn a_call_made_for_other_widths_gets_11() {
    let forms = [
        (TEXT.to_string(), WIDTHS_8_16),
        (form_2(), WIDTHS_8_8),
        (form_3(), WIDTHS_8_16),
        (form_3(), WIDTHS_8_8),
    ];
    for (text, other) in forms {
        let policy = policy(&text);
        assert_eq!(compile_for(&policy, other), Err(11));
        let (answers, sessions) = run_for(&policy, other, &[open(1), request(3), request(99)]);
        let refused = Answer::Refused(11);
        assert_eq!(answers, [Answer::Done, refused, refused]);
        assert_eq!(sessions, Sessions::from([(0, (0, 1))]));
    }
}

// Nine values a side.

/// The text of the requirement in form 3.
fn form_3() -> String {
    TEXT.replace("policy,1", "policy,3")
}

#[test]
fn form_3_has_widths_and_sums_from_1_to_9_and_actions_as_form_2() {
    let text = |users: &str, objects: &str| format!("policy,3\n{users}{objects}end\n");
    for width in 1..=9 {
        let (users, objects) = (format!("uattr,{width}\n"), format!("oattr,{width}\n"));
        assert_eq!(answer(&text(&users, &objects)), (0, 0));
        let rest = 10 - width;
        let (past_users, past_objects) = (format!("uattr,{rest}\n"), format!("oattr,{rest}\n"));
        assert_eq!(
            answer(&text(&(users.clone() + &past_users), &objects)),
            (6, 2)
        );
        assert_eq!(answer(&text(&users, &(objects + &past_objects))), (6, 3));
    }
    for width in [0, 10] {
        assert_eq!(
            answer(&text(&format!("uattr,{width}\n"), "oattr,1\n")),
            (6, 1)
        );
        assert_eq!(
            answer(&text("uattr,1\n", &format!("oattr,{width}\n"))),
            (6, 2)
        );
    }
    for form in [1, 2] {
        assert_eq!(answer(&format!("policy,{form}\nuattr,8\n")), (6, 1));
    }
    let action = |action: u32| form_3().replace("rule,3,", &format!("rule,{action},"));
    assert_eq!((answer(&action(15)), answer(&action(16))), ((0, 0), (6, 7)));
    assert_eq!(decide(&policy(&form_3()), 16, 0, 0), Err(12));
}

#[test]
fn form_3_has_labels_of_16_bits_of_which_there_may_be_512() {
    assert_eq!(compile(&policy(&form_3())).widths, WIDTHS_16_16);
    let rules: String = (0..9).map(|v| format!("rule,{v},u{v}\n")).collect();
    let text = format!("policy,3\nuattr,9\noattr,1\n{rules}end\n");
    let labelling = compile(&policy(&text));
    assert_eq!((labelling.user_count, labelling.object_count), (512, 1));
    assert!(labelling.user_labels.iter().copied().eq(0..512));
    assert!(labelling.table.iter().copied().eq(0..512));
}

#[test]
fn form_3_has_tuples_of_32_bits() {
    let text = "policy,3\nuattr,9\noattr,9\nrule,0,u8,o8,a,d00,n,a,u0,n,a,u1,n,a,o0,n,a\nend\n";
    let policy = policy(text);
    let listing = tuples(&policy, 0).expect("listed");
    // Set 256 of users, and of objects one with value 8 and another.
    assert_eq!(listing.first(), Some(&(256 * 512 + 256 + 2)));
    assert_eq!(listing.last(), Some(&(508 * 512 + 510)));
    let count = listing.len();
    assert_eq!(tuples_for(&policy, 32, 0), Ok(listing.clone()));
    assert_eq!(tuples_for(&policy, 16, 0), Err(11));
    let decided = |bits| decide_by_tuples_for(&policy, bits, 256, 258, &listing, count);
    assert_eq!((decided(32), decided(16)), (Ok(true), Err(11)));
}

#[test]
fn forms_1_and_2_keep_their_stored_widths() {
    for text in [TEXT.to_string(), form_2()] {
        let policy = policy(&text);
        assert_eq!(tuples_for(&policy, 16, 0), Ok(vec![3, 5, 7]));
        assert_eq!(tuples_for(&policy, 32, 0), Err(11));
        assert_eq!(compile_for(&policy, WIDTHS_16_16), Err(11));
        let decided = |bits| decide_by_tuples_for(&policy, bits, 1, 1, &[3, 5, 7], 3);
        assert_eq!((decided(16), decided(32)), (Ok(true), Err(11)));
    }
}

#[test]
fn the_text_is_labelled_and_listed_the_same_in_form_3() {
    assert_eq!(list(form_3().as_bytes()), LISTING);
    let labelling = compile(&policy(&form_3()));
    assert_eq!(labelling.user_labels, [0, 1, 2, 2]);
    assert_eq!(labelling.object_labels, [0, 1]);
    assert_eq!(labelling.table, [8, 8, 8, 9, 0, 1]);
    assert_eq!(write(&policy(&form_3())), form_3().as_bytes());
}

/// Nine values may all be held unless a conflict says otherwise; the most that one allows
/// stays 7.
#[test]
fn the_other_limits_stay() {
    let head = "policy,3\nuattr,9\noattr,9\n";
    for line in ["user,32,0", "object,64,0", "conflict,511,8", "rule,16,t"] {
        assert_eq!(answer(&format!("{head}{line}\nend\n")), (6, 3), "{line}");
    }
    assert_eq!(answer(&format!("{head}conflict,511,7\nend\n")), (0, 0));
    let held = policy(&format!("{head}user,0,511\nend\n"));
    assert_eq!(run(&held, &[open(511)]).0, [Answer::Done]);
}
