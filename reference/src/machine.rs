//! The plain machine of sessions, with refusals 12 to 19 and 23, and 11 for a request
//! made for other widths than those of the policy's form.

pub mod short;

use crate::form::Widths;
use crate::formula::{reach, Formulas};
use crate::policy::{Policy, Refusal, Set};
use std::collections::BTreeMap;

/// The machine's state: session number to user and held set.
pub type Sessions = BTreeMap<u32, (u32, Set)>;

#[derive(Debug, Clone, Copy, PartialEq, Eq)]
pub enum Call {
    Open {
        user: u32,
        session: u32,
        set: Set,
    },
    Add {
        user: u32,
        session: u32,
        set: Set,
    },
    Drop {
        user: u32,
        session: u32,
        set: Set,
    },
    Close {
        user: u32,
        session: u32,
    },
    Request {
        session: u32,
        action: u32,
        object: u32,
    },
}

#[derive(Debug, Clone, Copy, PartialEq, Eq)]
pub enum Answer {
    Done,
    Granted,
    Denied,
    Refused(Refusal),
}

impl Call {
    /// The session that the call names, be there one of that number or not.
    pub fn session(&self) -> u32 {
        match *self {
            Call::Open { session, .. }
            | Call::Add { session, .. }
            | Call::Drop { session, .. }
            | Call::Close { session, .. }
            | Call::Request { session, .. } => session,
        }
    }

    /// The user that the call names; a request names none.
    pub fn user(&self) -> Option<u32> {
        match *self {
            Call::Open { user, .. }
            | Call::Add { user, .. }
            | Call::Drop { user, .. }
            | Call::Close { user, .. } => Some(user),
            Call::Request { .. } => None,
        }
    }

    fn set(&self) -> Option<Set> {
        match *self {
            Call::Open { set, .. } | Call::Add { set, .. } | Call::Drop { set, .. } => Some(set),
            Call::Close { .. } | Call::Request { .. } => None,
        }
    }

    /// What the session would hold after a call that gives it values.
    fn would_hold(&self, held: Set) -> Option<Set> {
        match *self {
            Call::Open { set, .. } => Some(set),
            Call::Add { set, .. } => Some(held | set),
            _ => None,
        }
    }

    fn is_open(&self) -> bool {
        matches!(self, Call::Open { .. })
    }
}

/// Every refusal that applies to a call.
fn refusals(policy: &Policy, sessions: &Sessions, call: &Call) -> Vec<Refusal> {
    let entry = sessions.get(&call.session());
    let (action, object) = match *call {
        Call::Request { action, object, .. } => (Some(action), Some(object)),
        _ => (None, None),
    };
    let assigned = call.user().and_then(|user| policy.assigned(user));
    let another = entry.is_some_and(|entry| call.user().is_some_and(|user| user != entry.0));
    // Reach lies among the user values, so a value the side lacks is out of it.
    let within = reach(policy, assigned.unwrap_or(0));
    let would_hold = call.would_hold(entry.map_or(0, |entry| entry.1));
    let conditions = [
        (12, action.is_some_and(|action| action >= policy.actions())),
        (13, call.session() > 31),
        (14, call.user().is_some() && assigned.is_none()),
        (
            15,
            object.is_some_and(|object| policy.object_set(object).is_none()),
        ),
        (16, call.is_open() && entry.is_some()),
        (17, !call.is_open() && entry.is_none()),
        (18, !call.is_open() && another),
        (19, call.set().is_some_and(|set| set & !within != 0)),
        (23, would_hold.is_some_and(|set| !policy.may_hold(set))),
    ];
    conditions
        .iter()
        .filter(|condition| condition.1)
        .map(|condition| condition.0)
        .collect()
}

/// One call: the map after it and the answer. A refused call keeps the map.
pub fn step(policy: &Policy, sessions: &Sessions, call: &Call) -> (Sessions, Answer) {
    let mut after = sessions.clone();
    if let Some(&lowest) = refusals(policy, sessions, call).iter().min() {
        return (after, Answer::Refused(lowest));
    }
    let held = sessions.get(&call.session()).map_or(0, |entry| entry.1);
    match *call {
        Call::Open { user, session, set } => {
            after.insert(session, (user, set));
        }
        Call::Add { user, session, set } => {
            after.insert(session, (user, held | set));
        }
        Call::Drop { user, session, set } => {
            after.insert(session, (user, held & !set));
        }
        Call::Close { session, .. } => {
            after.remove(&session);
        }
        Call::Request { action, object, .. } => {
            return (after, decision(policy, held, action, object));
        }
    }
    (after, Answer::Done)
}

fn decision(policy: &Policy, held: Set, action: u32, object: u32) -> Answer {
    let object_set = policy.object_set(object).expect("a registered object");
    match Formulas::of(policy).grants(action, held, object_set) {
        true => Answer::Granted,
        false => Answer::Denied,
    }
}

/// One call, which a request makes for these widths.
pub fn step_for(
    policy: &Policy,
    widths: Widths,
    sessions: &Sessions,
    call: &Call,
) -> (Sessions, Answer) {
    match (call, policy.form.check(widths)) {
        (Call::Request { .. }, Err(refusal)) => (sessions.clone(), Answer::Refused(refusal)),
        _ => step(policy, sessions, call),
    }
}

/// A list of calls on a fresh machine, made for the policy's form: their answers and
/// the map after them.
pub fn run(policy: &Policy, calls: &[Call]) -> (Vec<Answer>, Sessions) {
    run_for(policy, policy.form.widths, calls)
}

/// The same, with each request made for these widths.
pub fn run_for(policy: &Policy, widths: Widths, calls: &[Call]) -> (Vec<Answer>, Sessions) {
    let mut sessions = Sessions::new();
    let mut answers = Vec::new();
    for call in calls {
        let (after, answer) = step_for(policy, widths, &sessions, call);
        sessions = after;
        answers.push(answer);
    }
    (answers, sessions)
}

#[cfg(test)]
mod tests {
    use super::short::{add, open, request};
    use super::*;
    use crate::form::WIDTHS;
    use crate::text::read;

    const TEXT: &[u8] = b"policy,1\nuattr,2\nuattr,1\noattr,1\nusen,1,0\nuser,0,2\nuser,5,4\n\
        object,3,1\nrule,0,u0,o0,a\nend\n";

    fn last(calls: &[Call]) -> Answer {
        last_on(TEXT, calls)
    }

    fn last_on(text: &[u8], calls: &[Call]) -> Answer {
        let (answers, _) = run(&read(text).expect("accepted"), calls);
        *answers.last().expect("an answer")
    }

    #[test]
    fn the_five_calls_do_what_they_say() {
        let policy = read(TEXT).expect("accepted");
        let calls = [
            open(0, 31, 0),
            request(31, 0, 3),
            add(0, 31, 3),
            request(31, 0, 3),
            Call::Drop {
                user: 0,
                session: 31,
                set: 1,
            },
            open(5, 0, 4),
            open(0, 1, 1),
            Call::Close {
                user: 0,
                session: 1,
            },
        ];
        let (answers, sessions) = run(&policy, &calls);
        let done = Answer::Done;
        let first = [
            done,
            Answer::Denied,
            done,
            Answer::Granted,
            done,
            done,
            done,
            done,
        ];
        assert_eq!(answers, first);
        assert_eq!(sessions, Sessions::from([(31, (0, 2)), (0, (5, 4))]));
    }

    #[test]
    fn a_closed_number_may_be_opened_again() {
        let close = Call::Close {
            user: 0,
            session: 4,
        };
        assert_eq!(last(&[open(0, 4, 1), close, open(5, 4, 4)]), Answer::Done);
    }

    #[test]
    fn refusals_of_requests() {
        assert_eq!(last(&[request(32, 8, 9)]), Answer::Refused(12));
        assert_eq!(last(&[request(32, 7, 9)]), Answer::Refused(13));
        assert_eq!(last(&[request(31, 7, 9)]), Answer::Refused(15));
        assert_eq!(last(&[request(31, 7, 3)]), Answer::Refused(17));
    }

    /// The text in a form.
    fn of_form(number: u32) -> String {
        let text = String::from_utf8(TEXT.to_vec()).expect("a text");
        text.replace("policy,1", &format!("policy,{number}"))
    }

    #[test]
    fn forms_2_and_3_decide_actions_up_to_15() {
        for form in [2, 3] {
            let text = of_form(form).replace("end", "rule,15,o0\nend");
            let asked =
                |action| last_on(text.as_bytes(), &[open(0, 31, 0), request(31, action, 3)]);
            assert_eq!(asked(8), Answer::Denied);
            assert_eq!(asked(15), Answer::Granted);
            assert_eq!(asked(16), Answer::Refused(12));
        }
    }

    #[test]
    fn sessions_hold_up_to_nine_values() {
        let text = b"policy,3\nuattr,9\noattr,9\nusen,8,7\nuser,0,511\nuser,1,256\n\
            object,0,511\nconflict,511,7\nrule,0,u7,o8,a\nend\n";
        let last = |calls: &[Call]| last_on(text, calls);
        let seven = 0b1_0011_1111;
        assert_eq!(last(&[open(0, 0, 511)]), Answer::Refused(23));
        assert_eq!(
            last(&[open(0, 0, seven), request(0, 0, 0)]),
            Answer::Granted
        );
        assert_eq!(
            last(&[open(0, 0, seven), add(0, 0, 64)]),
            Answer::Refused(23)
        );
        assert_eq!(last(&[open(0, 0, 512)]), Answer::Refused(19));
        assert_eq!(last(&[open(1, 0, 384), request(0, 0, 0)]), Answer::Granted);
        assert_eq!(last(&[open(1, 0, 64)]), Answer::Refused(19));
    }

    #[test]
    fn a_request_made_for_other_widths_gets_11_before_all_and_the_rest_goes_on() {
        let calls = [
            open(0, 31, 1),
            request(31, 0, 3),
            request(99, 99, 99),
            add(0, 31, 2),
        ];
        let (done, refused) = (Answer::Done, Answer::Refused(11));
        for number in 1..=3 {
            let policy = read(of_form(number).as_bytes()).expect("accepted");
            assert_eq!(run(&policy, &calls).0[1], Answer::Granted);
            for widths in WIDTHS {
                let found = run_for(&policy, widths, &calls);
                assert_eq!(found.1, Sessions::from([(31, (0, 3))]));
                match widths == policy.form.widths {
                    true => assert_eq!(found, run(&policy, &calls)),
                    false => assert_eq!(found.0, [done, refused, refused, done]),
                }
            }
        }
    }

    #[test]
    fn refusals_of_open() {
        assert_eq!(last(&[open(1, 32, 8)]), Answer::Refused(13));
        assert_eq!(last(&[open(1, 31, 8)]), Answer::Refused(14));
        assert_eq!(last(&[open(0, 7, 0), open(5, 7, 8)]), Answer::Refused(16));
        assert_eq!(last(&[open(0, 7, 4)]), Answer::Refused(19));
        assert_eq!(last(&[open(5, 7, 8)]), Answer::Refused(19));
    }

    #[test]
    fn refusals_of_add_drop_and_close() {
        let opened = open(0, 2, 2);
        let calls: [fn(u32, u32, Set) -> Call; 3] = [
            add,
            |user, session, set| Call::Drop { user, session, set },
            |user, session, _| Call::Close { user, session },
        ];
        for call in calls {
            assert_eq!(last(&[opened, call(1, 32, 8)]), Answer::Refused(13));
            assert_eq!(last(&[opened, call(1, 2, 8)]), Answer::Refused(14));
            assert_eq!(last(&[opened, call(0, 3, 8)]), Answer::Refused(17));
            assert_eq!(last(&[opened, call(5, 2, 8)]), Answer::Refused(18));
        }
        for call in &calls[..2] {
            assert_eq!(last(&[opened, call(0, 2, 4)]), Answer::Refused(19));
            assert_eq!(last(&[opened, call(0, 2, 8)]), Answer::Refused(19));
            assert_eq!(last(&[opened, call(0, 2, 1)]), Answer::Done);
        }
    }

    /// User value 2 is senior to 1 and 1 to 0; at most one of 0 and 1, none of 3.
    const CONFLICTS: &[u8] = b"policy,1\nuattr,3\nuattr,2\noattr,1\nusen,1,0\nusen,2,1\n\
        user,0,12\nuser,1,3\nobject,0,0\nconflict,3,1\nconflict,8,0\nend\n";

    #[test]
    fn open_refuses_by_23_after_19() {
        let refused = |user, set| last_on(CONFLICTS, &[open(user, 0, set)]);
        // Too much of the first conflict, of the second, and out of reach too.
        assert_eq!(refused(0, 3), Answer::Refused(23));
        assert_eq!(refused(0, 8), Answer::Refused(23));
        assert_eq!(refused(0, 19), Answer::Refused(19));
        assert_eq!(refused(1, 12), Answer::Refused(19));
        // The juniors of 2 are not held with it.
        assert_eq!(refused(0, 4), Answer::Done);
        assert_eq!(refused(0, 6), Answer::Done);
    }

    #[test]
    fn add_counts_what_is_held_after_it_and_drop_never_refuses() {
        let drop = |set| Call::Drop {
            user: 0,
            session: 0,
            set,
        };
        let opened = open(0, 0, 1);
        let after = |calls: &[Call]| last_on(CONFLICTS, &[&[opened], calls].concat());
        assert_eq!(after(&[add(0, 0, 2)]), Answer::Refused(23));
        assert_eq!(after(&[add(0, 0, 1)]), Answer::Done);
        assert_eq!(after(&[add(0, 0, 4), drop(11)]), Answer::Done);
        assert_eq!(after(&[drop(1), add(0, 0, 2)]), Answer::Done);
        assert_eq!(after(&[open(0, 1, 2)]), Answer::Done);
        assert_eq!(after(&[add(1, 0, 2)]), Answer::Refused(18));
        assert_eq!(after(&[add(1, 1, 3)]), Answer::Refused(17));
        assert_eq!(after(&[add(0, 0, 18)]), Answer::Refused(19));
        assert_eq!(after(&[open(0, 0, 3)]), Answer::Refused(16));
    }

    #[test]
    fn a_refused_call_keeps_the_map() {
        let policy = read(TEXT).expect("accepted");
        let (before, _) = step(&policy, &Sessions::new(), &open(0, 2, 2));
        let (after, answer) = step(&policy, &before, &add(5, 2, 4));
        assert_eq!((after, answer), (before, Answer::Refused(18)));
    }
}
