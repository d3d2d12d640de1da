//! Isolation of sessions: for each text lists of calls in which those naming one session
//! are the same, among others, and last these calls alone. Those by hand come first.

use super::forms::of_form_2;
use super::lists::{add, close, drop, list_for, open, request, NumberedCall};
use super::lists::{DENIED, DONE, GRANTED};
use super::{read_as, SEED};
use crate::case_file::{answered_list, case_of};
use crate::cases::{self, two_lists, Rng};
use crate::isolation::{answers_naming, naming};
use crate::labels::compile;
use crate::machine::{run, Answer, Call};
use crate::policy::Policy;
use crate::text::read;

/// A call with its answer.
type Answered = (NumberedCall, u32);

/// Two moderators of one screen. User value 1 is senior to 0, a session holds one of
/// them, and user 1 has the junior one alone. Action 0 is for value 1 on object 0, action
/// 1 for both values on anything.
const TEXT: &str = "policy,1
uattr,2
oattr,1
usen,1,0
user,0,2
user,1,1
object,0,1
object,1,0
conflict,3,1
rule,0,u1,o0,a
rule,1,u0
end
";
/// NU and NO of this text, and the lengths of buffers just long enough.
const LENT: [u32; 5] = [3, 2, 4, 2, 6];
/// The same with a table that ends before what value 1 and object 0 need.
const SHORT: [u32; 5] = [3, 2, 4, 2, 5];

/// A session, and the neighbours whose calls stand between its own in two lists.
const NEIGHBOURS: [[u32; 3]; 10] = [
    [0, 1, 31],
    [1, 2, 0],
    [7, 8, 6],
    [5, 37, 261],
    [30, 31, 29],
    [31, 0, 32],
    [32, 0, 31],
    [33, 1, 32],
    [40_000, 0, 39_999],
    [u32::MAX, 31, 0],
];

/// The last session.
const LAST: u32 = 31;

/// The calls of the first moderator in a session; then it is closed, and another's.
fn first(session: u32, past: u32) -> Vec<Answered> {
    let calls = vec![
        (open(0, session, 4), 19),
        (open(0, session, 1), DONE),
        (request(session, 0, 0), DENIED),
        (request(session, 1, 0), GRANTED),
        (request(session, 1, 2), 15),
        (add(0, session, 2), 23),
        (drop(0, session, 1), DONE),
        (add(0, session, 2), DONE),
        (request(session, 0, 0), GRANTED),
        (request(session, past, 0), 12),
        (open(1, session, 1), 16),
        (close(1, session), 18),
        (close(2, session), 14),
        (close(0, session), DONE),
        (request(session, 1, 0), 17),
        (open(1, session, 1), DONE),
    ];
    on_a_board(session, calls)
}

/// The calls of the second moderator in a session, some of them as the same user.
fn second(session: u32) -> Vec<Answered> {
    let calls = vec![
        (open(0, session, 2), DONE),
        (request(session, 0, 0), GRANTED),
        (drop(0, session, 2), DONE),
        (request(session, 1, 0), DENIED),
        (add(0, session, 1), DONE),
        (request(session, 1, 1), GRANTED),
        (close(0, session), DONE),
        (open(1, session, 1), DONE),
        (add(1, session, 2), 19),
        (request(session, 0, 0), DENIED),
    ];
    on_a_board(session, calls)
}

/// The same calls; where there is no such session they get 13, but for 12, which goes first.
fn on_a_board(session: u32, calls: Vec<Answered>) -> Vec<Answered> {
    let refused = |(call, answer)| match answer {
        12 => (call, 12),
        _ => (call, 13),
    };
    match session > LAST {
        true => calls.into_iter().map(refused).collect(),
        false => calls,
    }
}

/// What the calls of either moderator leave in a session.
fn left(session: u32) -> Vec<[u32; 3]> {
    match session > LAST {
        true => Vec::new(),
        false => vec![[session, 1, 1]],
    }
}

/// The calls of two by turns; behind them what is left of the longer list.
fn by_turns(one: &[Answered], other: &[Answered]) -> Vec<Answered> {
    let most = one.len().max(other.len());
    let turns = (0..most).flat_map(|turn| [one.get(turn), other.get(turn)]);
    turns.flatten().copied().collect()
}

/// The line of a list; what is open after it need not be in order.
fn line(tag: char, lent: [u32; 5], calls: &[Answered], mut held: Vec<[u32; 3]>) -> String {
    held.sort();
    list_for(tag, lent, calls, &held)
}

/// Texts, each with the answers' lines, of which the first is the reading's.
pub fn example_cases() -> Vec<(String, String)> {
    let forms = [1, 2].into_iter().cycle();
    let mut cases: Vec<_> = NEIGHBOURS
        .into_iter()
        .zip(forms)
        .map(|(sessions, form)| two_moderators(sessions, form))
        .collect();
    cases.extend([full_board(), short_table(), other_widths(), no_policy()]);
    cases
}

/// The first moderator beside the second, before the second in another neighbour, and
/// alone.
fn two_moderators([session, one, other]: [u32; 3], form: u32) -> (String, String) {
    let (text, tag, past) = match form {
        1 => (TEXT.to_string(), 'S', 8),
        _ => (of_form_2(TEXT), 'Z', 16),
    };
    let own = first(session, past);
    let beside = by_turns(&own, &second(one));
    let before = by_turns(&second(other), &own);
    let mut answers = read_as("Y");
    answers += &line(tag, LENT, &beside, [left(session), left(one)].concat());
    answers += &line(tag, LENT, &before, [left(session), left(other)].concat());
    answers += &line(tag, LENT, &own, left(session));
    (text, answers)
}

/// Every other session is open before the first call, or is opened and closed meanwhile.
fn full_board() -> (String, String) {
    let session = 16;
    let own = first(session, 8);
    let others = || (0..=LAST).filter(|&other| other != session);
    let opened: Vec<Answered> = others().map(|n| (open(1, n, 1), DONE)).collect();
    let some: Vec<Answered> = others()
        .step_by(2)
        .flat_map(|n| [(open(0, n, 2), DONE), (close(0, n), DONE)])
        .collect();
    let full = [opened, own.clone()].concat();
    let mut answers = read_as("Y");
    answers += &line('S', LENT, &full, (0..=LAST).flat_map(left).collect());
    answers += &line('S', LENT, &by_turns(&some, &own), left(session));
    answers += &line('S', LENT, &own, left(session));
    (TEXT.to_string(), answers)
}

/// Requests past the end of a table, of both sessions and of one.
fn short_table() -> (String, String) {
    let own = [
        (open(0, 2, 2), DONE),
        (request(2, 0, 0), 20),
        (request(2, 1, 1), GRANTED),
        (drop(0, 2, 2), DONE),
        (request(2, 0, 0), DENIED),
        (add(0, 2, 1), DONE),
        (request(2, 1, 0), GRANTED),
    ];
    let beside = [
        (open(1, 3, 1), DONE),
        (request(3, 1, 0), GRANTED),
        (close(1, 3), DONE),
        (open(0, 3, 2), DONE),
        (request(3, 1, 0), 20),
    ];
    let mut answers = read_as("Y");
    let both = vec![[2, 0, 1], [3, 0, 2]];
    answers += &line('S', SHORT, &by_turns(&own, &beside), both.clone());
    answers += &line('S', SHORT, &by_turns(&beside, &own), both);
    answers += &line('S', SHORT, &own, vec![[2, 0, 1]]);
    (TEXT.to_string(), answers)
}

/// Requests made for a table of bytes on a text of form 2.
fn other_widths() -> (String, String) {
    let refused = |calls: Vec<Answered>| -> Vec<Answered> {
        let calls = calls.into_iter();
        calls
            .map(|(call, answer)| (call, if call[0] == 4 { 11 } else { answer }))
            .collect()
    };
    let (own, beside) = (refused(first(9, 16)), refused(second(10)));
    let both = [left(9), left(10)].concat();
    let mut answers = read_as("Y");
    answers += &line('S', LENT, &by_turns(&own, &beside), both.clone());
    answers += &line('S', LENT, &by_turns(&beside, &own), both);
    answers += &line('S', LENT, &own, left(9));
    (of_form_2(TEXT), answers)
}

/// Every call is refused on what a refused text yields, of whatever session.
fn no_policy() -> (String, String) {
    let refused = |calls: Vec<Answered>| -> Vec<Answered> {
        calls.into_iter().map(|(call, _)| (call, 11)).collect()
    };
    let (own, beside) = (refused(first(9, 8)), refused(second(10)));
    let mut answers = read_as("R,10,11");
    answers += &line('S', LENT, &by_turns(&own, &beside), Vec::new());
    answers += &line('S', LENT, &by_turns(&beside, &own), Vec::new());
    answers += &line('S', LENT, &own, Vec::new());
    (TEXT.replace("end\n", ""), answers)
}

/// Made cases of each form.
const MADE: usize = 3;
/// Calls that the first list of one is made from.
const CALLS: u32 = 14;
/// The most bytes of one.
const SMALL: usize = 1_200;

/// The first small cases of each form in which the calls naming the session are granted,
/// denied, done and refused, and other sessions change.
pub fn made_cases() -> Vec<u8> {
    let mut file = Vec::new();
    for form in [1, 2] {
        let made = (0..).step_by(2).filter_map(|case| made_case(case, form));
        file.extend(made.take(MADE).flatten());
    }
    file
}

/// A valid text of a form with two lists and the calls of the session alone, if wanted.
fn made_case(case: u64, form: u32) -> Option<Vec<u8>> {
    let mut rng = Rng::new(SEED, case);
    let text = cases::text_without_form_3(&mut rng, case);
    let policy = read(&text)
        .ok()
        .filter(|policy| policy.form.number == form)?;
    let lists = two_lists(&mut rng, &policy, CALLS);
    let own = naming(lists.session, &lists.one);
    if !much_between(&policy, lists.session, &lists.other) {
        return None;
    }
    let mut lines = read_as("Y");
    let labelling = compile(&policy);
    for list in [lists.one, lists.other, own] {
        answered_list(&mut lines, &policy, &labelling, &list);
    }
    let made = case_of(case, &text, &lines);
    (made.len() <= SMALL).then_some(made)
}

/// Whether calls naming a session get every sort of answer, and others are done.
fn much_between(policy: &Policy, session: u32, calls: &[Call]) -> bool {
    let (answers, _) = run(policy, calls);
    let own = answers_naming(session, calls, &answers);
    let mut refused = own.iter().filter(|a| matches!(a, Answer::Refused(_)));
    let done = |answers: &[Answer]| answers.iter().filter(|a| **a == Answer::Done).count();
    own.contains(&Answer::Granted)
        && own.contains(&Answer::Denied)
        && refused.next().is_some()
        && done(&own) > 1
        && done(&answers) > done(&own) + 2
}
