//! The calls of `examples/` with their answers, on the engine.

use helvemoik_compare::boundary::*;
use helvemoik_compare::engine::{Archive, Engine};
use helvemoik_compare::widths::{Labels, Tuple, Widths};
use helvemoik_compare::{at_tuples, at_widths};
use reference::card_calls::{call_file, CardCall};
use reference::form::{self, Form};
use reference::machine::{Answer, Call};
use std::fs;
use std::path::{Path, PathBuf};

fn top() -> PathBuf {
    Path::new(env!("CARGO_MANIFEST_DIR")).join("..")
}

/// Labels and table of a card, as a compile of some widths fills them, or refuses to.
struct Compiled<W: Widths> {
    counts: Counts,
    users: Vec<W::Label>,
    objects: Vec<W::Label>,
    table: Vec<W::Entry>,
}

impl<W: Widths> Compiled<W> {
    /// In buffers of these lengths.
    fn into_rooms(policy: &PolicyValue, rooms: [usize; 3]) -> Self {
        let [mut users, mut objects] = [0, 1].map(|side| vec![W::Label::default(); rooms[side]]);
        let mut table = vec![W::Entry::default(); rooms[2]];
        let counts = W::compile(&Archive, policy, &mut users, &mut objects, &mut table);
        Compiled {
            counts,
            users,
            objects,
            table,
        }
    }

    fn of(policy: &PolicyValue) -> Self {
        Self::into_rooms(policy, [MOST_LABELS, MOST_LABELS, MOST_TABLE])
    }

    /// The answer by the labels of two sets; none where compiling was refused.
    fn decide(&self, action: u32, user_set: u32, object_set: u32) -> Option<u32> {
        if self.counts.refusal != 0 {
            return None;
        }
        let user: u32 = self.users[user_set as usize].into();
        let object: u32 = self.objects[object_set as usize].into();
        let entry: u32 = self.table[(user * self.counts.objects + object) as usize].into();
        Some(entry >> action & 1)
    }

    fn request(&self, board: &Board, policy: &PolicyValue, asked: [u32; 3]) -> Step {
        let labels = Labels::<W> {
            nu: self.counts.users,
            no: self.counts.objects,
            users: &self.users,
            objects: &self.objects,
            table: &self.table,
        };
        let [session, action, object] = asked;
        W::request(&Archive, board, policy, &labels, session, action, object)
    }
}

/// The answer by the tuples of an action.
fn by_tuples<T: Tuple>(policy: &PolicyValue, action: u32, user_set: u32, object_set: u32) -> u32 {
    let mut listing = vec![T::default(); MOST_TUPLES];
    let count = T::list(&Archive, policy, action, &mut listing).count;
    T::decide(&Archive, policy, user_set, object_set, &listing, count)
}

/// The refusal of listing into a buffer of this length.
fn list<T: Tuple>(policy: &PolicyValue, action: u32, room: usize) -> u32 {
    T::list(&Archive, policy, action, &mut vec![T::default(); room]).refusal
}

/// The engine with a card and a board.
struct Screen {
    policy: PolicyValue,
    board: Board,
}

impl Screen {
    fn new(card: &[u8]) -> Self {
        Screen {
            policy: Archive.read(card).policy,
            board: Archive.fresh(),
        }
    }

    /// The card's form; of a card that is refused, any.
    fn form(&self) -> Form {
        Form::numbered(self.policy.form).unwrap_or_default()
    }

    fn answer(&mut self, call: CardCall) -> u32 {
        let (policy, form) = (&self.policy, self.form());
        match call {
            CardCall::Decide {
                action,
                user_set,
                object_set,
            } => self.decide(action, user_set, object_set),
            CardCall::Session(call) => self.session(form.widths, call),
            CardCall::RequestFor { widths, request } => self.session(widths, request),
            CardCall::List { bits, action, room } => {
                let bits = bits.unwrap_or(form.tuple_bits);
                done(at_tuples!(bits, T => list::<T>(policy, action, room)))
            }
            CardCall::Write { room } => done(Archive.write(policy, &mut vec![0; room]).refusal),
            CardCall::Compile { widths, rooms } => {
                done(at_widths!(widths.unwrap_or(form.widths), W => {
                    Compiled::<W>::into_rooms(policy, rooms).counts.refusal
                }))
            }
            CardCall::Board {
                session,
                user,
                held,
            } => {
                self.board.sessions[session as usize] = Session::open(user, held);
                DONE
            }
        }
    }

    /// By formula and pairs; where it decides, tuples and labels must say the same.
    fn decide(&self, action: u32, user_set: u32, object_set: u32) -> u32 {
        let (policy, form) = (&self.policy, self.form());
        let answer = Archive.decide(policy, action, user_set, object_set);
        if answer <= GRANTED {
            let by_tuples = at_tuples!(form.tuple_bits, T => {
                by_tuples::<T>(policy, action, user_set, object_set)
            });
            assert_eq!(by_tuples, answer, "by tuples");
            let by_labels = at_widths!(form.widths, W => {
                Compiled::<W>::of(policy).decide(action, user_set, object_set)
            });
            assert_eq!(by_labels, Some(answer), "by labels");
        }
        answer
    }

    /// A session call; a request is made for these widths.
    fn session(&mut self, widths: form::Widths, call: Call) -> u32 {
        let (board, policy) = (&self.board, &self.policy);
        let step = match call {
            Call::Open { user, session, set } => Archive.open(board, policy, user, session, set),
            Call::Add { user, session, set } => Archive.add(board, policy, user, session, set),
            Call::Drop { user, session, set } => Archive.drop(board, policy, user, session, set),
            Call::Close { user, session } => Archive.close(board, policy, user, session),
            Call::Request {
                session,
                action,
                object,
            } => at_widths!(widths, W => {
                Compiled::<W>::of(policy).request(board, policy, [session, action, object])
            }),
        };
        self.board = step.board;
        step.answer
    }
}

fn done(refusal: u32) -> u32 {
    match refusal {
        0 => DONE,
        _ => refusal,
    }
}

fn due(answer: Answer) -> u32 {
    match answer {
        Answer::Denied => DENIED,
        Answer::Granted => GRANTED,
        Answer::Done => DONE,
        Answer::Refused(refusal) => refusal,
    }
}

#[test]
fn the_calls_get_the_answers_beside_them() {
    let mut files = 0;
    for folder in ["examples", "examples/refused"] {
        for entry in fs::read_dir(top().join(folder)).expect("a folder") {
            let path = entry.expect("a file").path();
            if path.extension().is_some_and(|ending| ending == "calls") {
                played(&path);
                files += 1;
            }
        }
    }
    assert!(files > 0);
}

fn played(path: &Path) {
    let text = fs::read_to_string(path).expect("a file of calls");
    let file = call_file(&text).unwrap_or_else(|| panic!("{path:?}: no file of calls"));
    let mut screen = Screen::new(&fs::read(top().join(&file.card)).expect("a card"));
    for (line, (call, answer)) in (2..).zip(file.calls) {
        assert_eq!(screen.answer(call), due(answer), "{path:?}, line {line}");
    }
}
