//! Lists of session calls, and single arguments.

use super::rng::Rng;
use crate::form::Form;
use crate::formula::reach;
use crate::machine::Call;
use crate::policy::{Policy, Set};

/// Numbers at and around the limits of the calls, and far past them.
const ODD: [u32; 14] = [
    0,
    7,
    8,
    31,
    32,
    63,
    64,
    127,
    128,
    255,
    256,
    65_535,
    65_536,
    u32::MAX,
];

/// A list of calls by few users on few sessions, so that they meet. No number
/// is above `largest`.
pub fn calls(rng: &mut Rng, policy: &Policy, count: u32, largest: u32) -> Vec<Call> {
    let (people, sessions) = few(rng, policy);
    calls_among(rng, policy, &people, &sessions, count, largest)
}

/// The same, mostly by these users on these sessions.
pub(super) fn calls_among(
    rng: &mut Rng,
    policy: &Policy,
    people: &[u32],
    sessions: &[u32],
    count: u32,
    largest: u32,
) -> Vec<Call> {
    let objects: Vec<u32> = policy.objects.iter().map(|object| object.0).collect();
    (0..count)
        .map(|call| {
            let user = number(rng, people, 33, largest);
            let session = number(rng, sessions, 33, largest);
            let set = user_set(rng, policy, user, largest);
            // Open first, for the others to find something open.
            match if call < 2 { 0 } else { rng.below(12) } {
                0..=1 => Call::Open { user, session, set },
                2..=3 => Call::Add { user, session, set },
                4..=5 => Call::Drop { user, session, set },
                6 => Call::Close { user, session },
                _ => {
                    let actions: Vec<u32> = (0..policy.actions()).collect();
                    let action = number(rng, &actions, policy.actions() + 1, largest);
                    let object = number(rng, &objects, 65, largest);
                    Call::Request {
                        session,
                        action,
                        object,
                    }
                }
            }
        })
        .collect()
}

/// A few users and sessions. Where there is a user who could hold too many values
/// of a conflict, such a one and one session are the most frequent.
fn few(rng: &mut Rng, policy: &Policy) -> (Vec<u32>, Vec<u32>) {
    let users: Vec<u32> = policy.users.iter().map(|user| user.0).collect();
    let mut people = vec![rng.below(32)];
    if !users.is_empty() {
        people = vec![rng.pick(&users), rng.pick(&users)];
    }
    let mut sessions = vec![rng.below(32), rng.below(32), rng.pick(&[0, 31])];
    let mut over = policy.users.clone();
    over.retain(|&(_, assigned)| !policy.may_hold(reach(policy, assigned)));
    if !over.is_empty() {
        people.extend([rng.pick(&over).0; 3]);
        sessions.extend([sessions[0]; 3]);
    }
    (people, sessions)
}

/// Mostly a good number, else one below `limit` or an odd one.
fn number(rng: &mut Rng, good: &[u32], limit: u32, largest: u32) -> u32 {
    let number = match rng.below(20) {
        0 => rng.pick(&ODD),
        1..=2 => rng.below(limit),
        _ if good.is_empty() => rng.below(limit),
        _ => rng.pick(good),
    };
    number.min(largest)
}

/// Mostly a set in the user's reach.
fn user_set(rng: &mut Rng, policy: &Policy, user: u32, largest: u32) -> Set {
    let within = reach(policy, policy.assigned(user).unwrap_or(0));
    let any = rng.below(policy.user_sets());
    let set = match rng.below(10) {
        0 => any,
        1 => any | policy.user_sets(),
        2 => rng.pick(&ODD),
        3 => within,
        _ => any & within,
    };
    set.min(largest)
}

/// A set of a side that has `sets` of them; one time in ten out of range.
pub fn set(rng: &mut Rng, sets: u32, largest: u32) -> Set {
    let set = match rng.below(20) {
        0 => rng.pick(&ODD),
        1 => sets,
        _ => rng.below(sets),
    };
    set.min(largest)
}

/// An action of a form; one time in ten out of range.
pub fn action(rng: &mut Rng, form: Form, largest: u32) -> u32 {
    let actions: Vec<u32> = (0..form.actions).collect();
    number(rng, &actions, form.actions + 2, largest)
}
