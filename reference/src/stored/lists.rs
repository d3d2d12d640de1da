//! Lines of lists of calls, and of writing, with the answers by hand.

pub type NumberedCall = [u32; 4];

pub const fn open(user: u32, session: u32, set: u32) -> NumberedCall {
    [0, user, session, set]
}

pub const fn add(user: u32, session: u32, set: u32) -> NumberedCall {
    [1, user, session, set]
}

pub const fn drop(user: u32, session: u32, set: u32) -> NumberedCall {
    [2, user, session, set]
}

pub const fn close(user: u32, session: u32) -> NumberedCall {
    [3, user, session, 0]
}

pub const fn request(session: u32, action: u32, object: u32) -> NumberedCall {
    [4, session, action, object]
}

pub const DENIED: u32 = 0;
pub const GRANTED: u32 = 1;
pub const DONE: u32 = 2;

/// The line of a list of calls: NU, NO and the lengths of the buffers, the calls
/// with their answers, and what is open after them: session, user and held set.
pub fn list(lent: [u32; 5], calls: &[(NumberedCall, u32)], held: &[[u32; 3]]) -> String {
    list_for('S', lent, calls, held)
}

/// The same with the tag of the widths that requests are made for.
pub fn list_for(
    tag: char,
    lent: [u32; 5],
    calls: &[(NumberedCall, u32)],
    held: &[[u32; 3]],
) -> String {
    let count = calls.len() as u32;
    let mut numbers = vec![0, count];
    numbers.extend(lent);
    numbers.push(count);
    numbers.extend(calls.iter().flat_map(|call| call.0));
    numbers.extend(calls.iter().map(|call| call.1));
    numbers.extend(held.iter().flatten());
    let fields: String = numbers.iter().map(|number| format!(",{number}")).collect();
    format!("{tag}{fields}\n")
}

/// Writing gives the text again.
pub fn written(text: &str) -> String {
    let length = text.len();
    format!("W,0,{length},{length},{length}\n")
}
