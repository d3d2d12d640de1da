//! Session calls: in lists from a fresh board, and one by one on any board.

use super::buffers::{some_buffers, Buffers};
use super::coverage::Cause;
use super::known::Known;
use super::{same, Outcome, Trial};
use crate::at_widths;
use crate::boundary::{Board, Session, Step, DENIED, DONE, GRANTED, OBJECT_NUMBERS, SESSIONS};
use crate::damage::{board, damaged_board, odd};
use crate::engine::Engine;
use crate::value::sessions;
use crate::widths::{Labels, Widths};
use reference::cases::{calls, Rng};
use reference::form::{self, WIDTHS};
use reference::formula::reach;
use reference::machine::{step, Answer, Call, Sessions};
use reference::policy::Policy;

/// A list of calls on its way: the board, and the machine's map beside it.
struct Course {
    board: Board,
    map: Sessions,
}

pub(super) fn kind<W: Widths>(call: &Call) -> &'static str {
    match call {
        Call::Open { .. } => "open",
        Call::Add { .. } => "add",
        Call::Drop { .. } => "drop",
        Call::Close { .. } => "close",
        Call::Request { .. } => W::REQUEST,
    }
}

/// A call as the engine answers it; a request is made for the widths of what it is lent.
pub(super) fn by_engine<W: Widths>(
    engine: &dyn Engine,
    board: &Board,
    known: &Known,
    labels: &Labels<W>,
    call: &Call,
) -> Step {
    let policy = &known.value;
    match *call {
        Call::Open { user, session, set } => engine.open(board, policy, user, session, set),
        Call::Add { user, session, set } => engine.add(board, policy, user, session, set),
        Call::Drop { user, session, set } => engine.drop(board, policy, user, session, set),
        Call::Close { user, session } => engine.close(board, policy, user, session),
        Call::Request {
            session,
            action,
            object,
        } => W::request(engine, board, policy, labels, session, action, object),
    }
}

/// An answer of the machine as the header numbers it.
fn number(answer: Answer) -> u32 {
    match answer {
        Answer::Denied => DENIED,
        Answer::Granted => GRANTED,
        Answer::Done => DONE,
        Answer::Refused(refusal) => refusal,
    }
}

/// The widths that a policy's form has not.
fn others(policy: &Policy) -> impl Iterator<Item = form::Widths> {
    let own = policy.form.widths;
    WIDTHS.into_iter().filter(move |&bits| bits != own)
}

impl Trial<'_> {
    /// A list of calls from a fresh board, with the compiled buffers, beside the plain machine.
    pub(super) fn list_of_calls(&mut self, known: &Known, count: u32) -> Outcome {
        let policy = known.policy.as_ref().expect("an accepted text");
        // A long list now and then.
        let count = if self.rng.chance(1, 32) {
            8 * count
        } else {
            count
        };
        at_widths!(policy.form.widths, W => self.list_for::<W>(known, policy, count))
    }

    /// A list of calls, made for these widths, which are those of the policy's form.
    fn list_for<W: Widths>(&mut self, known: &Known, policy: &Policy, count: u32) -> Outcome {
        let buffers = self.compiled::<W>(known, policy)?;
        let (labels, before) = (buffers.labels(), buffers.clone());
        let board = self.engine.fresh();
        self.coverage.count_call("fresh", 0);
        same(&|| "a fresh board".to_string(), &board, &Board::default())?;
        let map = Sessions::new();
        let mut course = Course { board, map };
        for call in calls(&mut self.rng, policy, count, u32::MAX) {
            self.next_call(known, policy, &labels, &mut course, call)?;
        }
        for call in self.requests_by_dominance(known, policy, &course.map) {
            self.next_call(known, policy, &labels, &mut course, call)?;
        }
        let what = || format!("the buffers after a list: {}", known.shown());
        same(&what, &buffers, &before)
    }

    /// The next call of a list, beside the plain machine. A request is now and then made
    /// for other widths too.
    fn next_call<W: Widths>(
        &mut self,
        known: &Known,
        policy: &Policy,
        labels: &Labels<W>,
        course: &mut Course,
        call: Call,
    ) -> Outcome {
        let Course { board, map } = course;
        if matches!(call, Call::Request { .. }) && self.rng.chance(1, 8) {
            self.request_for_others(known, policy, board, &call)?;
        }
        let found = by_engine(self.engine, board, known, labels, &call);
        self.count(kind::<W>(&call), known, found.answer);
        let (after, answer) = step(policy, map, &call);
        let what = || format!("{call:?} on {map:?}: {}", known.shown());
        same(&what, &found.answer, &number(answer))?;
        if let Some(decided) = decided_on(policy, map, &call, answer) {
            self.count_decision(W::REQUEST, known, decided);
            if known.by_wide_labels(policy, decided) {
                self.coverage.count_cause(Cause::WideLabels, W::REQUEST);
            }
        }
        same(&what, &sessions(&found.board), &after)?;
        same(
            &what,
            &found.board,
            &board_after(board, &call, found.answer, &after),
        )?;
        *board = found.board;
        *map = after;
        Ok(())
    }

    /// A request on a good board, made for each of the widths that the policy's form has not:
    /// it gets 11, whatever else is wrong with it, and leaves the board.
    fn request_for_others(
        &mut self,
        known: &Known,
        policy: &Policy,
        board: &Board,
        call: &Call,
    ) -> Outcome {
        for bits in others(policy) {
            at_widths!(bits, W => {
                let buffers = Buffers::<W>::cut(known.labelling(policy));
                let before = buffers.clone();
                let found = by_engine(self.engine, board, known, &buffers.labels(), call);
                self.count(W::REQUEST, known, found.answer);
                self.coverage.count_cause(Cause::Widths, W::REQUEST);
                let what = || format!("{call:?} made for {bits:?}: {}", known.shown());
                same(&what, &found, &Step { answer: 11, board: *board })?;
                same(&what, &buffers, &before)?;
            });
        }
        Ok(())
    }

    /// Requests of open sessions for actions in which a senior may dominate. Few of the
    /// requests in a list are, and most of those of sessions that are not open.
    fn requests_by_dominance(
        &mut self,
        known: &Known,
        policy: &Policy,
        map: &Sessions,
    ) -> Vec<Call> {
        let open: Vec<u32> = map.keys().copied().collect();
        let actions: Vec<u32> = known.dominances().iter().map(|due| due.0).collect();
        let objects: Vec<u32> = policy.objects.iter().map(|object| object.0).collect();
        if open.is_empty() || actions.is_empty() || objects.is_empty() {
            return Vec::new();
        }
        let rng = &mut self.rng;
        let request = |_| Call::Request {
            session: rng.pick(&open),
            action: rng.pick(&actions),
            object: rng.pick(&objects),
        };
        let mut requests: Vec<Call> = (0..16).map(request).collect();
        // Those first that a senior does decide.
        requests.sort_by_key(|call| {
            let asked = decided_on(policy, map, call, Answer::Denied);
            !asked.is_some_and(|(action, held, object)| known.by_seniority(action, held, object))
        });
        requests.truncate(4);
        requests
    }

    /// The buffers that compiling fills, longer than they need to be. Now and then the calls
    /// for other widths are tried too.
    fn compiled<W: Widths>(
        &mut self,
        known: &Known,
        policy: &Policy,
    ) -> Result<Buffers<W>, String> {
        let labelling = known.labelling(policy);
        let lengths = [
            labelling.user_labels.len(),
            labelling.object_labels.len(),
            labelling.table.len(),
        ];
        let lengths = lengths.map(|length| length + self.rng.index(3));
        if self.rng.chance(1, 4) {
            for bits in others(policy) {
                at_widths!(bits, V => { self.compile_into::<V>(known, lengths)?; });
            }
        }
        let (counts, compiled) = self.compile_into::<W>(known, lengths)?;
        Ok(Buffers {
            nu: counts.users,
            no: counts.objects,
            users: compiled.users.after().to_vec(),
            objects: compiled.objects.after().to_vec(),
            table: compiled.table.after().to_vec(),
        })
    }

    /// One call on any board with any buffers.
    pub(super) fn session_call(&mut self, known: &Known) -> Outcome {
        at_widths!(self.some_widths(known), W => self.session_call_for::<W>(known))
    }

    fn session_call_for<W: Widths>(&mut self, known: &Known) -> Outcome {
        let none = Policy::default();
        let policy = known.policy.as_ref().unwrap_or(&none);
        let mut board = board(&mut self.rng, policy);
        if self.rng.chance(1, 4) {
            board = damaged_board(&mut self.rng, policy, &board);
        }
        let buffers = some_buffers::<W>(&mut self.rng, known);
        let call = call_on(&mut self.rng, known, policy, &board);
        self.call_with(known, policy, &board, &buffers, call)
    }

    /// One call on a board, with buffers that a request is lent.
    pub(super) fn call_with<W: Widths>(
        &mut self,
        known: &Known,
        policy: &Policy,
        board: &Board,
        buffers: &Buffers<W>,
        call: Call,
    ) -> Outcome {
        let before = buffers.clone();
        let found = by_engine(self.engine, board, known, &buffers.labels(), &call);
        self.count(kind::<W>(&call), known, found.answer);
        let map = sessions(board);
        let what = || {
            let (kind, policy) = (kind::<W>(&call), known.shown());
            format!("{kind}: {call:?} on {map:?}: {policy}")
        };
        same(&what, buffers, &before)?;
        if !self.sound::<W>(known, &map, &call) {
            let board = *board;
            return same(&what, &found, &Step { answer: 11, board });
        }
        let (after, answer) = step(policy, &map, &call);
        let due = by_buffers(policy, &map, buffers, &call, answer);
        same(&what, &found.answer, &due)?;
        same(&what, &sessions(&found.board), &after)?;
        same(
            &what,
            &found.board,
            &board_after(board, &call, found.answer, &after),
        )
    }

    /// Check 11, on a value, on the sessions of a board and on the widths that a request is
    /// made for.
    fn sound<W: Widths>(&mut self, known: &Known, map: &Sessions, call: &Call) -> bool {
        let Some(policy) = &known.policy else {
            return false;
        };
        let in_reach = map.values().all(|&(user, held)| {
            let assigned = policy.assigned(user);
            assigned.is_some_and(|assigned| held & !reach(policy, assigned) == 0)
        });
        let may_be_held = map.values().all(|&(_, held)| policy.may_hold(held));
        let is_request = matches!(call, Call::Request { .. });
        let own_widths = !is_request || policy.form.check(W::bits()).is_ok();
        if in_reach && !may_be_held && own_widths {
            self.coverage.count_cause(Cause::Conflicts, kind::<W>(call));
        }
        if in_reach && may_be_held && !own_widths {
            self.coverage.count_cause(Cause::Widths, kind::<W>(call));
        }
        in_reach && may_be_held && own_widths
    }
}

/// The action, the held set and the object's set that a request was decided on; none where
/// it was refused, or the call is another.
fn decided_on(
    policy: &Policy,
    map: &Sessions,
    call: &Call,
    answer: Answer,
) -> Option<(u32, u32, u32)> {
    match *call {
        Call::Request {
            session,
            action,
            object,
        } if !matches!(answer, Answer::Refused(_)) => {
            let object_set = policy.object_set(object).expect("a registered object");
            Some((action, map[&session].1, object_set))
        }
        _ => None,
    }
}

/// The machine's answer, but a request that is not refused goes by the buffers that it is lent.
fn by_buffers<W: Widths>(
    policy: &Policy,
    map: &Sessions,
    buffers: &Buffers<W>,
    call: &Call,
    answer: Answer,
) -> u32 {
    match decided_on(policy, map, call, answer) {
        Some((action, held, object)) => buffers.looked_up(held, object, action),
        None => number(answer),
    }
}

/// The board due: a refusal or a request leaves it as handed in, another call all but its session's entry.
fn board_after(before: &Board, call: &Call, answer: u32, after: &Sessions) -> Board {
    let mut due = *before;
    let session = match *call {
        Call::Open { session, .. }
        | Call::Add { session, .. }
        | Call::Drop { session, .. }
        | Call::Close { session, .. } => session,
        Call::Request { .. } => return due,
    };
    if answer == DONE {
        let entry = after.get(&session);
        due.sessions[session as usize] =
            entry.map_or_else(Session::default, |&(user, held)| Session::open(user, held));
    }
    due
}

/// A call that mostly names a session of the board and its user.
fn call_on(rng: &mut Rng, known: &Known, policy: &Policy, board: &Board) -> Call {
    let open = sessions(board);
    let numbers: Vec<u32> = open.keys().copied().collect();
    let session = match rng.below(10) {
        0 => odd(rng),
        1..=3 => rng.below(SESSIONS as u32),
        _ if numbers.is_empty() => rng.below(SESSIONS as u32),
        _ => rng.pick(&numbers),
    };
    let users: Vec<u32> = policy.users.iter().map(|user| user.0).collect();
    let user = match rng.below(10) {
        0 => odd(rng),
        1 => rng.below(33),
        2..=3 if !users.is_empty() => rng.pick(&users),
        _ => match open.get(&session) {
            Some(entry) => entry.0,
            None if users.is_empty() => rng.below(32),
            None => rng.pick(&users),
        },
    };
    let within = reach(policy, policy.assigned(user).unwrap_or(0));
    let set = match rng.below(8) {
        0 => odd(rng),
        1 => within | policy.user_sets(),
        2 => rng.below(policy.user_sets()),
        _ => rng.below(policy.user_sets()) & within,
    };
    match rng.below(10) {
        0..=1 => Call::Open { user, session, set },
        2..=3 => Call::Add { user, session, set },
        4 => Call::Drop { user, session, set },
        5 => Call::Close { user, session },
        _ => request_on(rng, known, policy, session),
    }
}

fn request_on(rng: &mut Rng, known: &Known, policy: &Policy, session: u32) -> Call {
    let objects: Vec<u32> = policy.objects.iter().map(|object| object.0).collect();
    let object = match rng.below(10) {
        0 => odd(rng),
        1 => rng.below(OBJECT_NUMBERS as u32 + 1),
        _ if objects.is_empty() => rng.below(OBJECT_NUMBERS as u32),
        _ => rng.pick(&objects),
    };
    let actions = known.actions();
    let action = match rng.below(12) {
        0 if rng.chance(1, 2) => policy.actions(),
        0 => odd(rng),
        1..=3 => rng.below(policy.actions()),
        _ if actions.is_empty() => rng.below(policy.actions()),
        _ => rng.pick(&actions),
    };
    Call::Request {
        session,
        action,
        object,
    }
}
