//! The five session calls on a board that is changed in place.

use super::checks::valid;
use super::formula::with_juniors;
use super::policy::{Policy, Refusal};
use crate::boundary::{Board, Register, Session, SESSIONS};
use crate::widths::{Labels, Widths};

fn set_of(register: &Register, number: u32) -> Option<u32> {
    let entries = &register.entries[..register.count];
    let entry = entries.iter().find(|entry| entry.number == number)?;
    Some(entry.set)
}

/// The reach of a user, if the user is registered.
fn reach(policy: &Policy, user: u32) -> Option<u32> {
    set_of(&policy.users, user).map(|assigned| with_juniors(&policy.user, assigned))
}

/// Whether a session that holds the set keeps to every conflict. All are looked at, so
/// that the compiler can count for several at once.
fn within_conflicts(policy: &Policy, held: u32) -> bool {
    let conflicts = policy.conflicts().iter();
    conflicts.fold(true, |within, conflict| {
        within & ((held & conflict.set).count_ones() <= conflict.most)
    })
}

/// Check 11 on policy and board.
fn fits(policy: &Policy, board: &Board) -> Result<(), Refusal> {
    let entry_fits = |entry: &Session| {
        !entry.is_open()
            || reach(policy, entry.user).is_some_and(|reach| entry.held & !reach == 0)
                && within_conflicts(policy, entry.held)
    };
    if valid(policy) && board.sessions.iter().all(entry_fits) {
        Ok(())
    } else {
        Err(Refusal::InvalidState)
    }
}

pub fn open(
    board: &mut Board,
    policy: &Policy,
    user: u32,
    session: u32,
    set: u32,
) -> Result<(), Refusal> {
    fits(policy, board)?;
    let entry = entry_mut(board, session)?;
    let reach = reach(policy, user).ok_or(Refusal::UnregisteredUser)?;
    if entry.is_open() {
        return Err(Refusal::SessionOpen);
    }
    if set & !reach != 0 {
        return Err(Refusal::SetOutOfReach);
    }
    if !within_conflicts(policy, set) {
        return Err(Refusal::TooManyHeld);
    }
    *entry = Session::open(user, set);
    Ok(())
}

pub fn add(
    board: &mut Board,
    policy: &Policy,
    user: u32,
    session: u32,
    set: u32,
) -> Result<(), Refusal> {
    let entry = changed(board, policy, user, session, set)?;
    let held = entry.held | set;
    if !within_conflicts(policy, held) {
        return Err(Refusal::TooManyHeld);
    }
    *entry = Session::open(user, held);
    Ok(())
}

pub fn drop(
    board: &mut Board,
    policy: &Policy,
    user: u32,
    session: u32,
    set: u32,
) -> Result<(), Refusal> {
    let entry = changed(board, policy, user, session, set)?;
    *entry = Session::open(user, entry.held & !set);
    Ok(())
}

pub fn close(board: &mut Board, policy: &Policy, user: u32, session: u32) -> Result<(), Refusal> {
    fits(policy, board)?;
    let entry = entry_mut(board, session)?;
    if set_of(&policy.users, user).is_none() {
        return Err(Refusal::UnregisteredUser);
    }
    belongs(entry, user)?;
    *entry = Session::default();
    Ok(())
}

/// The entry that add and drop change, after the checks that both have.
fn changed<'a>(
    board: &'a mut Board,
    policy: &Policy,
    user: u32,
    session: u32,
    set: u32,
) -> Result<&'a mut Session, Refusal> {
    fits(policy, board)?;
    let entry = entry_mut(board, session)?;
    let reach = reach(policy, user).ok_or(Refusal::UnregisteredUser)?;
    belongs(entry, user)?;
    if set & !reach != 0 {
        return Err(Refusal::SetOutOfReach);
    }
    Ok(entry)
}

fn entry_mut(board: &mut Board, session: u32) -> Result<&mut Session, Refusal> {
    board
        .sessions
        .get_mut(session as usize)
        .ok_or(Refusal::UnknownSession)
}

/// Whether the session is open and the user's.
fn belongs(entry: &Session, user: u32) -> Result<(), Refusal> {
    if !entry.is_open() {
        return Err(Refusal::SessionNotOpen);
    }
    if entry.user != user {
        return Err(Refusal::SessionOfAnother);
    }
    Ok(())
}

/// Whether the labels of the held set and the object's set grant the action.
pub fn request<W: Widths>(
    board: &Board,
    policy: &Policy,
    labels: &Labels<W>,
    session: u32,
    action: u32,
    object: u32,
) -> Result<bool, Refusal> {
    fits(policy, board)?;
    if !policy.is_stored_in::<W>() {
        return Err(Refusal::InvalidState);
    }
    if action >= policy.actions() {
        return Err(Refusal::UnknownAction);
    }
    if session as usize >= SESSIONS {
        return Err(Refusal::UnknownSession);
    }
    let object = set_of(&policy.objects, object).ok_or(Refusal::UnregisteredObject)?;
    let entry = &board.sessions[session as usize];
    if !entry.is_open() {
        return Err(Refusal::SessionNotOpen);
    }
    let entry = looked_up(labels, entry.held, object).ok_or(Refusal::BufferTooShort)?;
    Ok(entry >> action & 1 == 1)
}

/// The table's entry at the labels of two sets, where all three places are there.
fn looked_up<W: Widths>(labels: &Labels<W>, held: u32, object: u32) -> Option<u32> {
    let user_label: u32 = (*labels.users.get(held as usize)?).into();
    let object_label: u32 = (*labels.objects.get(object as usize)?).into();
    let place = user_label as usize * labels.no as usize + object_label as usize;
    labels.table.get(place).map(|&entry| entry.into())
}
