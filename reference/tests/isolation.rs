//! Isolation of sessions: where the calls that name a session are the same in two lists,
//! they get the same answers, refusals included, and those that they get alone.

mod made;

use made::accepted;
use reference::cases::{two_lists, TwoLists};
use reference::form::WIDTHS;
use reference::isolation::{answers_naming, naming};
use reference::machine::short::{add, close, drop, open, request};
use reference::machine::{run, run_for, Answer, Call};
use reference::policy::Policy;
use reference::text::read;
use std::collections::BTreeSet;

const CASES: u64 = 400;
/// Calls that the first of two lists is made from.
const CALLS: u32 = 24;

/// The accepted ones among the made cases, each with two lists.
fn made_lists() -> impl Iterator<Item = (Policy, TwoLists)> {
    accepted(CASES).map(|(mut rng, policy)| {
        let lists = two_lists(&mut rng, &policy, CALLS);
        (policy, lists)
    })
}

/// The answers that the calls naming a session get in a list on a fresh machine.
fn answers(policy: &Policy, session: u32, calls: &[Call]) -> Vec<Answer> {
    answers_naming(session, calls, &run(policy, calls).0)
}

fn is_refused(answer: &Answer) -> bool {
    matches!(answer, Answer::Refused(_))
}

#[test]
fn the_calls_naming_a_session_get_the_same_answers_in_both_lists_and_alone() {
    for (policy, lists) in made_lists() {
        let TwoLists {
            session,
            one,
            other,
        } = lists;
        let own = naming(session, &one);
        assert_eq!(naming(session, &other), own);
        for widths in WIDTHS {
            let (alone, map) = run_for(&policy, widths, &own);
            for list in [&one, &other] {
                let (answers, after) = run_for(&policy, widths, list);
                assert_eq!(answers_naming(session, list, &answers), alone, "{list:?}");
                assert_eq!(after.get(&session), map.get(&session), "{list:?}");
            }
        }
    }
}

/// Most lists have calls of the session that are not refused, in which other sessions
/// change too; and some a session above 31, whose calls are all refused.
#[test]
fn the_made_lists_have_much_to_tell() {
    let (mut lists, mut calls, mut answered, mut changed, mut above) = (0, 0, 0, 0, 0);
    for (policy, two) in made_lists() {
        let found = answers(&policy, two.session, &two.one);
        lists += 1;
        calls += found.len();
        above += usize::from(two.session > 31);
        if found.iter().all(is_refused) {
            continue;
        }
        assert!(two.session <= 31);
        answered += 1;
        let (others, _) = run(&policy, &two.other);
        let others = two.other.iter().zip(others);
        let mut done = others
            .filter(|(call, answer)| call.session() != two.session && *answer == Answer::Done);
        changed += usize::from(done.next().is_some());
    }
    assert!(lists > 200 && calls > 5 * lists, "{lists} {calls}");
    assert!(
        2 * answered > lists && 4 * changed > 3 * answered,
        "{answered} {changed}"
    );
    assert!(10 * above > lists && 5 * above < lists, "{above}");
}

/// Every kind of call is done in the session before, in the one behind, in the first and
/// in the last, by users of the session.
#[test]
fn neighbours_do_everything_with_the_same_users() {
    let mut found = BTreeSet::new();
    for (policy, two) in made_lists() {
        let own = naming(two.session, &two.one);
        let users: BTreeSet<u32> = own.iter().filter_map(Call::user).collect();
        let (answers, _) = run(&policy, &two.other);
        for (call, answer) in two.other.iter().zip(answers) {
            let of_another = call.user().is_some_and(|user| !users.contains(&user));
            if call.session() == two.session || of_another || is_refused(&answer) {
                continue;
            }
            let kind = match call {
                Call::Open { .. } => "open",
                Call::Add { .. } => "add",
                Call::Drop { .. } => "drop",
                Call::Close { .. } => "close",
                Call::Request { .. } => "request",
            };
            let places = [
                ("before", two.session.wrapping_sub(1)),
                ("behind", two.session.wrapping_add(1)),
                ("first", 0),
                ("last", 31),
            ];
            let places = places.iter().filter(|place| place.1 == call.session());
            found.extend(places.map(|place| (kind, place.0)));
        }
    }
    assert_eq!(found.len(), 5 * 4, "{found:?}");
}

/// Value 1 is senior to 0 and a session holds one of them; user 1 has 0 alone. Action 0 is
/// for value 1.
const TEXT: &[u8] = b"policy,1\nuattr,2\noattr,1\nusen,1,0\nuser,0,2\nuser,1,1\nobject,0,1\n\
    conflict,3,1\nrule,0,u1,o0,a\nend\n";

/// A day in a session, and the answers by hand.
fn day(session: u32) -> [(Call, Answer); 11] {
    let (done, refused) = (Answer::Done, Answer::Refused);
    [
        (request(session, 0, 0), refused(17)),
        (open(0, session, 1), done),
        (request(session, 0, 0), Answer::Denied),
        (request(session, 8, 0), refused(12)),
        (add(0, session, 2), refused(23)),
        (drop(0, session, 1), done),
        (add(0, session, 2), done),
        (request(session, 0, 0), Answer::Granted),
        (close(1, session), refused(18)),
        (open(0, session, 4), refused(16)),
        (close(0, session), done),
    ]
}

/// What others may do in a session, of the same user and of another.
fn others(session: u32) -> Vec<Vec<Call>> {
    vec![
        vec![open(0, session, 2)],
        vec![open(0, session, 1), request(session, 0, 0)],
        vec![open(1, session, 1), add(1, session, 2)],
        vec![open(0, session, 2), drop(0, session, 2), add(0, session, 1)],
        vec![open(0, session, 2), close(0, session)],
        vec![close(0, session), close(1, session), close(2, session)],
    ]
}

/// At whatever place of the day others make their calls, and in whatever other session.
#[test]
fn what_others_do_at_any_time_changes_no_answer() {
    let policy = read(TEXT).expect("accepted");
    for session in [0, 1, 16, 30, 31] {
        let (calls, due): (Vec<Call>, Vec<Answer>) = day(session).into_iter().unzip();
        let neighbours = (0..34).chain([session + 32, session + 256, u32::MAX]);
        for others in neighbours.filter(|&n| n != session).flat_map(others) {
            for place in 0..=calls.len() {
                let list = [&calls[..place], &others, &calls[place..]].concat();
                assert_eq!(answers(&policy, session, &list), due, "{list:?}");
            }
        }
    }
}

#[test]
fn a_session_above_31_is_refused_whatever_others_do() {
    let policy = read(TEXT).expect("accepted");
    for session in [32, 33, 63, 40_000, u32::MAX] {
        let mut list = Vec::new();
        let mut due = Vec::new();
        for (call, answer) in day(session) {
            list.extend(others(session % 32).concat());
            list.push(call);
            due.push(match answer {
                Answer::Refused(12) => answer,
                _ => Answer::Refused(13),
            });
        }
        assert_eq!(answers(&policy, session, &list), due);
        assert_eq!(answers(&policy, session, &naming(session, &list)), due);
    }
}

/// A call that names the session is one of its calls, whoever makes it.
#[test]
fn who_closes_a_session_and_opens_it_again_is_one_that_names_it() {
    let policy = read(TEXT).expect("accepted");
    let own = [open(0, 3, 2), request(3, 0, 0)];
    let taken = [own[0], close(0, 3), open(1, 3, 1), own[1]];
    assert_eq!(answers(&policy, 3, &own)[1], Answer::Granted);
    assert_eq!(answers(&policy, 3, &taken)[3], Answer::Denied);
    assert_eq!(naming(3, &taken), taken);
}

#[test]
fn the_calls_naming_a_session_stand_in_their_order_with_their_answers() {
    let list = [
        open(3, 1, 0),
        close(1, 3),
        request(1, 3, 3),
        add(1, 2, 1),
        open(0, 1, 0),
    ];
    assert_eq!(naming(1, &list), [list[0], list[2], list[4]]);
    assert_eq!(naming(3, &list), [list[1]]);
    assert_eq!(naming(0, &list), []);
    assert_eq!(
        answers_naming(1, &list, &["a", "b", "c", "d", "e"]),
        ["a", "c", "e"]
    );
}
