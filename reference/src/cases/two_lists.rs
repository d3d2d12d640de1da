//! Two lists of calls in which those that name one session are the same.

use super::calls::{calls, calls_among};
use super::rng::Rng;
use crate::isolation::naming;
use crate::machine::Call;
use crate::policy::Policy;

/// Numbers past the last session, the first ones and those far off.
const ABOVE_31: [u32; 7] = [32, 33, 63, 256, 40_000, 65_536, u32::MAX];

/// Requests of the session that are put into the first list.
const TELLING: u32 = 4;

/// The calls that name the session are the same in both lists, in the same order.
#[derive(Debug, Clone, PartialEq, Eq)]
pub struct TwoLists {
    pub session: u32,
    pub one: Vec<Call>,
    pub other: Vec<Call>,
}

/// A list of calls with a session that some of them name, now and then one above 31; and a
/// list in which other calls stand between those. The first is made from so many calls, at
/// least two.
pub fn two_lists(rng: &mut Rng, policy: &Policy, count: u32) -> TwoLists {
    let mut one = calls(rng, policy, count, u32::MAX);
    // The first two open something, so that theirs are the sessions with most to tell.
    let among = if rng.chance(2, 3) { 2 } else { one.len() };
    let mut session = rng.pick(&one[..among]).session();
    if rng.chance(1, 8) {
        let above = rng.pick(&ABOVE_31);
        let own = one.iter_mut().filter(|call| call.session() == session);
        own.for_each(|call| *call = in_session(*call, above));
        session = above;
    }
    let requests = telling(rng, policy, session);
    let one = merged(rng, &one, &requests);
    let other = beside(rng, policy, session, &one);
    TwoLists {
        session,
        one,
        other,
    }
}

/// Requests of a session for actions with a rule or a pair: by these it is told what the
/// session holds.
fn telling(rng: &mut Rng, policy: &Policy, session: u32) -> Vec<Call> {
    let rules = policy.rules.iter().map(|rule| rule.action);
    let pairs = policy.pairs.iter().map(|pair| pair.action);
    let actions: Vec<u32> = rules.chain(pairs).collect();
    if actions.is_empty() || policy.objects.is_empty() {
        return Vec::new();
    }
    let request = |_| Call::Request {
        session,
        action: rng.pick(&actions),
        object: rng.pick(&policy.objects).0,
    };
    (0..TELLING).map(request).collect()
}

/// The calls of a list that name a session, and between them others: some that the list
/// has, the session's own in a neighbour, and fresh ones of the same users in it and
/// another.
fn beside(rng: &mut Rng, policy: &Policy, session: u32, list: &[Call]) -> Vec<Call> {
    let own = naming(session, list);
    let near = neighbours(session);
    let near = [rng.pick(&near), rng.pick(&near)];
    let mut kept = list.to_vec();
    kept.retain(|call| call.session() != session && rng.chance(1, 2));
    let mut shared: Vec<Call> = own.iter().map(|&call| in_session(call, near[0])).collect();
    shared.retain(|_| rng.chance(7, 8));
    let mut users: Vec<u32> = own.iter().filter_map(Call::user).collect();
    users.retain(|&user| policy.assigned(user).is_some());
    let count = rng.below(2 * list.len() as u32);
    let mut fresh = calls_among(rng, policy, &users, &near, count, u32::MAX);
    fresh.retain(|call| call.session() != session);
    let others = [kept, shared, fresh].into_iter();
    others.fold(own, |list, others| merged(rng, &list, &others))
}

/// Sessions that a wrong place may be taken for: before and behind, most often; the first
/// and the last, and those with the same low bits.
fn neighbours(session: u32) -> Vec<u32> {
    let (before, behind) = (session.wrapping_sub(1), session.wrapping_add(1));
    let low = [0, 31, session % 32, session.wrapping_add(32)];
    let mut neighbours = [[before, behind, before, behind], low].concat();
    neighbours.retain(|&neighbour| neighbour != session);
    neighbours
}

/// The same call in another session.
fn in_session(call: Call, session: u32) -> Call {
    match call {
        Call::Open { user, set, .. } => Call::Open { user, session, set },
        Call::Add { user, set, .. } => Call::Add { user, session, set },
        Call::Drop { user, set, .. } => Call::Drop { user, session, set },
        Call::Close { user, .. } => Call::Close { user, session },
        Call::Request { action, object, .. } => Call::Request {
            session,
            action,
            object,
        },
    }
}

/// The calls of two lists, those of each in their order.
fn merged(rng: &mut Rng, one: &[Call], other: &[Call]) -> Vec<Call> {
    let (mut one, mut other) = (one.iter(), other.iter());
    let mut both = Vec::new();
    while one.len() + other.len() > 0 {
        let first = rng.index(one.len() + other.len()) < one.len();
        both.extend(if first { one.next() } else { other.next() });
    }
    both
}
