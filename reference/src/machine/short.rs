//! Calls in short, for lists by hand.

use super::Call;
use crate::policy::Set;

pub fn open(user: u32, session: u32, set: Set) -> Call {
    Call::Open { user, session, set }
}

pub fn add(user: u32, session: u32, set: Set) -> Call {
    Call::Add { user, session, set }
}

pub fn drop(user: u32, session: u32, set: Set) -> Call {
    Call::Drop { user, session, set }
}

pub fn close(user: u32, session: u32) -> Call {
    Call::Close { user, session }
}

pub fn request(session: u32, action: u32, object: u32) -> Call {
    Call::Request {
        session,
        action,
        object,
    }
}
