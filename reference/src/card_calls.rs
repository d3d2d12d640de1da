//! A file of calls on a card, each with the answer that is due.
//!
//! Its first line is `card,PATH`, a policy text by its path from the top of the
//! repository. Each other line is a call, its answer and a few words on it,
//! parted by blanks. The calls, by number:
//!
//! ```text
//! decide,action,user set,object set
//! open,user,session,set      add and drop likewise
//! close,user,session
//! request,session,action,object
//! list,action,room           into a buffer of room entries
//! list_16, list_32           with the same fields, made for these bits of a tuple,
//!                            whatever the card's
//! write,room                 into a buffer of room bytes
//! compile,room,room,room     user labels, object labels and table
//! compile_8_8, request_8_8   with the same fields, made for these bits of a label
//! compile_8_16, request_8_16 and of an entry of the table, whatever the card's
//! compile_16_16, request_16_16
//! board,session,user,set     no call: the board is handed in with this session
//! ```
//!
//! An answer is `done`, `granted`, `denied` or `refused,N`. The first call gets
//! a fresh board, each later one the board after the call before it.

use crate::form::{Widths, TUPLE_BITS, WIDTHS};
use crate::formula::{decide, reach};
use crate::labels::compile_for;
use crate::machine::{step_for, Answer, Call, Sessions};
use crate::policy::{Policy, Refusal, Set};
use crate::text::{read, write};
use crate::tuples::tuples_for;

#[derive(Debug, Clone, Copy, PartialEq, Eq)]
pub enum CardCall {
    Decide {
        action: u32,
        user_set: Set,
        object_set: Set,
    },
    /// A session call; a request is made for the card's own widths.
    Session(Call),
    /// A request made for these widths.
    RequestFor {
        widths: Widths,
        request: Call,
    },
    /// The bits of a tuple that it is made for: the card's own if not given.
    List {
        bits: Option<u32>,
        action: u32,
        room: usize,
    },
    Write {
        room: usize,
    },
    /// The lengths of the buffers for user labels, object labels and table, and what it
    /// is made for: the card's own widths if not given.
    Compile {
        widths: Option<Widths>,
        rooms: [usize; 3],
    },
    Board {
        session: u32,
        user: u32,
        held: Set,
    },
}

#[derive(Debug, Clone, PartialEq, Eq)]
pub struct CallFile {
    /// The policy text, by its path from the top of the repository.
    pub card: String,
    pub calls: Vec<(CardCall, Answer)>,
}

/// None where a line is in no such form.
pub fn call_file(text: &str) -> Option<CallFile> {
    let mut lines = text.lines();
    let card = lines.next()?.strip_prefix("card,")?.to_string();
    let calls = lines.map(line).collect::<Option<_>>()?;
    Some(CallFile { card, calls })
}

fn line(line: &str) -> Option<(CardCall, Answer)> {
    let mut parts = line.split_whitespace();
    Some((call(parts.next()?)?, answer(parts.next()?)?))
}

fn answer(field: &str) -> Option<Answer> {
    match field {
        "done" => Some(Answer::Done),
        "granted" => Some(Answer::Granted),
        "denied" => Some(Answer::Denied),
        _ => {
            let number = field.strip_prefix("refused,")?;
            Some(Answer::Refused(number.parse().ok()?))
        }
    }
}

/// What a call's name says that it is made for.
#[derive(Clone, Copy)]
enum MadeFor {
    /// What the card's form has.
    Own,
    Widths(Widths),
    TupleBits(u32),
}

/// A kind of call, and what its name says that it is made for.
fn kind_and_made_for(name: &str) -> (&str, MadeFor) {
    let widths = WIDTHS.map(|w| (format!("_{}_{}", w.label, w.entry), MadeFor::Widths(w)));
    let tuples = TUPLE_BITS.map(|bits| (format!("_{bits}"), MadeFor::TupleBits(bits)));
    for (ending, made_for) in widths.into_iter().chain(tuples) {
        if let Some(kind) = name.strip_suffix(&ending) {
            return (kind, made_for);
        }
    }
    (name, MadeFor::Own)
}

fn call(field: &str) -> Option<CardCall> {
    let (name, numbers) = field.split_once(',')?;
    let numbers: Vec<u32> = numbers
        .split(',')
        .map(|number| number.parse().ok())
        .collect::<Option<_>>()?;
    match kind_and_made_for(name) {
        (kind, MadeFor::Own) => own_call(kind, &numbers),
        ("list", MadeFor::TupleBits(bits)) => listing(Some(bits), &numbers),
        ("compile", MadeFor::Widths(widths)) => compiling(Some(widths), &numbers),
        ("request", MadeFor::Widths(widths)) => Some(CardCall::RequestFor {
            widths,
            request: session_call("request", &numbers)?,
        }),
        _ => None,
    }
}

/// A call that is made for the card's own form.
fn own_call(kind: &str, numbers: &[u32]) -> Option<CardCall> {
    match (kind, numbers) {
        ("decide", &[action, user_set, object_set]) => Some(CardCall::Decide {
            action,
            user_set,
            object_set,
        }),
        ("list", numbers) => listing(None, numbers),
        ("write", &[room]) => Some(CardCall::Write {
            room: room as usize,
        }),
        ("compile", numbers) => compiling(None, numbers),
        ("board", &[session, user, held]) => Some(CardCall::Board {
            session,
            user,
            held,
        }),
        (kind, numbers) => Some(CardCall::Session(session_call(kind, numbers)?)),
    }
}

fn listing(bits: Option<u32>, numbers: &[u32]) -> Option<CardCall> {
    match *numbers {
        [action, room] => Some(CardCall::List {
            bits,
            action,
            room: room as usize,
        }),
        _ => None,
    }
}

fn compiling(widths: Option<Widths>, numbers: &[u32]) -> Option<CardCall> {
    match *numbers {
        [users, objects, table] => Some(CardCall::Compile {
            widths,
            rooms: [users, objects, table].map(|room| room as usize),
        }),
        _ => None,
    }
}

fn session_call(kind: &str, numbers: &[u32]) -> Option<Call> {
    match (kind, numbers) {
        ("open", &[user, session, set]) => Some(Call::Open { user, session, set }),
        ("add", &[user, session, set]) => Some(Call::Add { user, session, set }),
        ("drop", &[user, session, set]) => Some(Call::Drop { user, session, set }),
        ("close", &[user, session]) => Some(Call::Close { user, session }),
        ("request", &[session, action, object]) => Some(Call::Request {
            session,
            action,
            object,
        }),
        _ => None,
    }
}

/// The second implementation with a card and a board.
pub struct Player {
    /// None where the card is refused.
    policy: Option<Policy>,
    sessions: Sessions,
}

impl Player {
    pub fn new(card: &[u8]) -> Self {
        Player {
            policy: read(card).ok(),
            sessions: Sessions::new(),
        }
    }

    pub fn answer(&mut self, call: CardCall) -> Answer {
        match (call, &self.policy) {
            (
                CardCall::Board {
                    session,
                    user,
                    held,
                },
                _,
            ) => {
                self.sessions.insert(session, (user, held));
                Answer::Done
            }
            (_, None) => Answer::Refused(11),
            (
                CardCall::Decide {
                    action,
                    user_set,
                    object_set,
                },
                Some(policy),
            ) => match decide(policy, action, user_set, object_set) {
                Ok(true) => Answer::Granted,
                Ok(false) => Answer::Denied,
                Err(refusal) => Answer::Refused(refusal),
            },
            (CardCall::List { bits, action, room }, Some(policy)) => {
                let listing = tuples_for(policy, bits.unwrap_or(policy.form.tuple_bits), action);
                done(listing.and_then(|listing| fits(listing.len(), room)))
            }
            (CardCall::Write { room }, Some(policy)) => done(fits(write(policy).len(), room)),
            (CardCall::Compile { widths, rooms }, Some(policy)) => {
                let widths = widths.unwrap_or(policy.form.widths);
                done(compile_into(policy, widths, rooms))
            }
            (CardCall::Session(call), Some(policy)) => self.step(policy.form.widths, call),
            (CardCall::RequestFor { widths, request }, Some(_)) => self.step(widths, request),
        }
    }

    /// A session call on a card that is accepted; a request is made for these widths.
    fn step(&mut self, widths: Widths, call: Call) -> Answer {
        let policy = self.policy.as_ref().expect("a policy");
        if !sound(policy, &self.sessions) {
            return Answer::Refused(11);
        }
        let (after, answer) = step_for(policy, widths, &self.sessions, &call);
        self.sessions = after;
        answer
    }
}

/// Whether a call made for these widths is refused, with buffers of these lengths for
/// user labels, object labels and table.
fn compile_into(policy: &Policy, widths: Widths, rooms: [usize; 3]) -> Result<(), Refusal> {
    let labelling = compile_for(policy, widths)?;
    let needed = [
        labelling.user_labels.len(),
        labelling.object_labels.len(),
        labelling.table.len(),
    ];
    let mut pairs = needed.into_iter().zip(rooms);
    pairs.try_for_each(|(needed, room)| fits(needed, room))
}

fn fits(needed: usize, room: usize) -> Result<(), Refusal> {
    match needed <= room {
        true => Ok(()),
        false => Err(20),
    }
}

fn done(result: Result<(), Refusal>) -> Answer {
    result.map_or_else(Answer::Refused, |()| Answer::Done)
}

/// Check 11 of a board: each session's user is registered, and its set in reach
/// and within every conflict.
fn sound(policy: &Policy, sessions: &Sessions) -> bool {
    sessions.values().all(|&(user, held)| {
        policy
            .assigned(user)
            .is_some_and(|assigned| held & !reach(policy, assigned) == 0)
            && policy.may_hold(held)
    })
}

#[cfg(test)]
mod tests {
    use super::*;
    use crate::form::FORMS;

    #[test]
    fn a_line_is_a_call_its_answer_and_words() {
        let file = call_file("card,a.txt\nclose,1,2  refused,17  not open\nwrite,9 done\n");
        let close = CardCall::Session(Call::Close {
            user: 1,
            session: 2,
        });
        let calls = vec![
            (close, Answer::Refused(17)),
            (CardCall::Write { room: 9 }, Answer::Done),
        ];
        let card = "a.txt".to_string();
        assert_eq!(file, Some(CallFile { card, calls }));
    }

    #[test]
    fn a_board_over_a_conflict_gets_11_until_it_is_another() {
        let card = b"policy,1\nuattr,2\noattr,1\nuser,0,3\nconflict,3,1\nend\n";
        let board = |held| CardCall::Board {
            session: 4,
            user: 0,
            held,
        };
        let open = CardCall::Session(Call::Open {
            user: 0,
            session: 0,
            set: 1,
        });
        let mut player = Player::new(card);
        let answers = [board(3), open, board(2), open].map(|call| player.answer(call));
        let done = Answer::Done;
        assert_eq!(answers, [done, Answer::Refused(11), done, done]);
    }

    /// The answers due to a kind of call: one for the card's own, one for others.
    fn made_for(call: &str, own: bool, due: &str) -> String {
        match own {
            true => format!("{call} {due}\n"),
            false => format!("{call} refused,11\n"),
        }
    }

    #[test]
    fn compile_request_and_list_may_be_made_for_other_forms() {
        for form in FORMS {
            let number = form.number;
            let card = format!("policy,{number}\nuattr,1\noattr,1\nuser,0,1\nobject,0,1\n");
            let mut player = Player::new(format!("{card}rule,0,u0\nend\n").as_bytes());
            let mut lines = "open,0,0,1 done\ncompile,2,2,2 done\n".to_string();
            lines += "request,0,0,0 granted\nlist,0,2 done\nlist,0,1 refused,20\n";
            for widths in WIDTHS {
                let name = format!("{}_{}", widths.label, widths.entry);
                let own = widths == form.widths;
                lines += &made_for(&format!("compile_{name},2,2,2"), own, "done");
                lines += &made_for(&format!("compile_{name},2,2,1"), own, "refused,20");
                lines += &made_for(&format!("request_{name},0,0,0"), own, "granted");
                lines += &made_for(&format!("request_{name},9,99,9"), own, "refused,12");
            }
            for bits in TUPLE_BITS {
                let own = bits == form.tuple_bits;
                lines += &made_for(&format!("list_{bits},0,2"), own, "done");
                lines += &made_for(&format!("list_{bits},0,1"), own, "refused,20");
                lines += &made_for(&format!("list_{bits},99,1"), own, "refused,12");
            }
            let file = call_file(&format!("card,a.txt\n{lines}close,0,0 done\n"));
            for (call, answer) in file.expect("calls").calls {
                assert_eq!(player.answer(call), answer, "{number}: {call:?}");
            }
        }
    }

    #[test]
    fn what_is_no_call_or_no_answer_is_no_file() {
        for line in [
            "open_8_8,0,0,1 done",
            "open_16,0,0,1 done",
            "list_8_16,0,1 done",
            "list_8,0,1 done",
            "list_32,0 done",
            "compile_16,1,1,1 done",
            "request_32,0,0,0 done",
            "decide_16,0,0,0 denied",
            "compile_8,1,1,1 done",
            "compile_16_8,1,1,1 done",
            "request_8_8,0,0 done",
            "close,1 done",
            "open,1,2 done",
            "shut,1,2 done",
            "write,9 yes",
            "write,9",
            "",
        ] {
            assert_eq!(call_file(&format!("card,a.txt\n{line}\n")), None, "{line}");
        }
        assert_eq!(call_file("write,9 done\n"), None);
    }
}
