//! Isolation of sessions: of a list of calls those that name a session, and of the
//! answers those to them. Where these calls are the same in two lists, so must be these
//! answers.

use crate::machine::Call;

/// The calls of a list that name a session, in their order.
pub fn naming(session: u32, calls: &[Call]) -> Vec<Call> {
    let own = calls.iter().filter(|call| call.session() == session);
    own.copied().collect()
}

/// Of the answers to a list of calls, those to the calls that name a session.
pub fn answers_naming<A: Copy>(session: u32, calls: &[Call], answers: &[A]) -> Vec<A> {
    let answered = calls.iter().zip(answers);
    answered
        .filter(|(call, _)| call.session() == session)
        .map(|(_, &answer)| answer)
        .collect()
}
