//! A case as lines of a case file: a text, calls and the answers due to them.
//!
//! # The file
//!
//! Lines, each ended by byte 10: a one-letter tag and fields, each after a
//! comma; fields are decimal numbers below 2^32. Behind a line `C` stand the
//! bytes of a text as they are, and a line feed. Each line after it can be
//! compared by itself, with nothing but that text. Its first two numbers are an
//! answer and a count that stands beside the answer, or 0. A line with a `!`
//! behind its tag is wrong on purpose, and must be found different.
//!
//! ```text
//! C,case,length               a case begins, with a text of so many bytes
//! R,refusal,line              the text is refused so, or
//! Y                           it is accepted
//! V,answer                    check 11 on what reading yields
//! W,answer,length,room,bytes  writing into a buffer of room bytes: so many
//!                             bytes of the text stand there afterwards
//! u,answer,NU,users,objects,table,label,..
//! o,answer,NO,users,objects,table,label,..
//! g,answer,NO,users,objects,table,entry,..
//!                             compiling for a table of bytes into buffers of
//!                             these lengths: the user labels, the object
//!                             labels or the table
//! U, O, G                     the same for a table of 16-bit entries
//! v, p, h                     the same for labels of 16 bits and such a table
//! T,answer,count,action,room,first,last,..
//!                             listing tuples of 16 bits into a buffer of room
//!                             entries: the count of tuples, and the tuples as
//!                             runs of numbers
//! t                           the same for tuples of 32 bits
//! F,answer,0,action,us,os     deciding by formula and pairs
//! B,answer,0,action,us,os,count
//!                             deciding by tuples of 16 bits; the listing handed
//!                             in is the action's, in a buffer of 16384 entries
//! b,answer,0,action,us,os,count,room
//!                             the same for tuples of 32 bits, in a buffer of
//!                             room entries
//! P,answer,0,us,us            apart, for two user sets
//! D,answer,0,us,us,action,os  whether this action and object set tell two user
//!                             sets apart, as what apart names must
//! S,0,count,NU,NO,users,objects,table,calls,call,..,answer,..,session,user,set,..
//!                             a list of calls on a fresh board, each request
//!                             made for a table of bytes, with this NU and NO
//!                             and so many entries of the compiler's buffers;
//!                             how many are answered; the answers; and all
//!                             sessions that are open afterwards, rising
//! Z                           the same for a table of 16-bit entries
//! X                           the same for labels of 16 bits and such a table
//! ```
//!
//! An answer is 0 done, 1 granted, 2 denied, 3 alike, 4 told apart, or the
//! refusal, 11 to 20. A call in a list is four numbers: 0 open, 1 add or 2 drop
//! with user, session and set; 3 close with user, session and 0; 4 request with
//! session, action and object. There an answer is 0 denied, 1 granted, 2 done,
//! or the refusal, 11 to 20 or 23. Buffers are blank before a call: byte 170,
//! 16 bits 65535, 32 bits 4294967295. A refused call leaves its buffers as they were,
//! and one that is done leaves what lies past its result. Where a call is refused, its
//! count is 0. Compiling and listing for widths that are not the form's are refused, so
//! the buffers of a list of calls made for them, and the listing of a decision, are
//! blank.
//!
//! Buffers are as long as the numbers of a line say. Those of labels have at most 128
//! bytes or 512 labels of 16 bits, and others at most 16384 entries, but where a result
//! needs more.

use crate::cases::{self, Rng};
use crate::form::{Widths, TUPLE_BITS, WIDTHS_16_16, WIDTHS_8_16, WIDTHS_8_8};
use crate::formula::decide;
use crate::labels::{apart, compile, Entry, Labelling};
use crate::machine::{run, run_for, step, Answer, Call, Sessions};
use crate::policy::{Policy, Refusal, Set};
use crate::text::{read, write};
use crate::tuples::{decide_by_tuples, decide_by_tuples_for, tuples, tuples_for, Stored};

/// Decisions of each sort in an accepted case.
const DECISIONS: u32 = 6;
const MOST_CALLS: u32 = 40;
/// Requests with short buffers in an accepted case.
const SHORT_REQUESTS: u32 = 3;
/// Calls in a list made for other widths than the form's.
const MOST_OTHER_CALLS: u32 = 8;
/// A buffer that is long enough for any text.
const MOST_TEXT: usize = 8192;
/// Buffers that are long enough for the tuples and tables of most policies.
const MOST_ENTRIES: usize = 16384;
/// Refused by check 11, on what a refused text yields.
pub(crate) const WITHOUT_POLICY: [&str; 9] = [
    "W,11,0,8192,0",
    "u,11,0,128,128,16384",
    "o,11,0,128,128,16384",
    "g,11,0,128,128,16384",
    "T,11,0,0,16384",
    "F,11,0,0,0,0",
    "B,11,0,0,0,0,0",
    "P,11,0,0,0",
    "S,0,2,0,0,128,128,16384,2,0,0,0,0,4,0,0,0,11,11",
];
/// The same by calls made for a table of 16-bit entries.
pub(crate) const WITHOUT_POLICY_16: [&str; 4] = [
    "U,11,0,128,128,16384",
    "O,11,0,128,128,16384",
    "G,11,0,128,128,16384",
    "Z,0,2,0,0,128,128,16384,2,0,0,0,0,4,0,0,0,11,11",
];

/// The same by calls made for labels of 16 bits, and tuples of 32.
pub(crate) const WITHOUT_POLICY_WIDE: [&str; 6] = [
    "v,11,0,512,512,16384",
    "p,11,0,512,512,16384",
    "h,11,0,512,512,16384",
    "t,11,0,0,16384",
    "b,11,0,0,0,0,0,16384",
    "X,0,2,0,0,512,512,16384,2,0,0,0,0,4,0,0,0,11,11",
];

/// The tags of user labels, object labels, table and list, made for these widths.
pub(crate) fn tags(widths: Widths) -> [char; 4] {
    match widths {
        WIDTHS_8_8 => ['u', 'o', 'g', 'S'],
        WIDTHS_8_16 => ['U', 'O', 'G', 'Z'],
        _ => ['v', 'p', 'h', 'X'],
    }
}

/// The tags of listing and of deciding by tuples, made for tuples of these bits.
pub(crate) fn tuple_tags(bits: u32) -> [char; 2] {
    match bits {
        16 => ['T', 'B'],
        _ => ['t', 'b'],
    }
}

/// Label buffers that are long enough for any policy with labels of these widths.
fn most_sets(widths: Widths) -> usize {
    match widths.label {
        8 => 128,
        _ => 512,
    }
}

/// What stands in a table before it is compiled.
fn blank(widths: Widths) -> Entry {
    match widths.entry {
        8 => 170,
        _ => 65_535,
    }
}

/// What stands in a listing's buffer before a call.
fn blank_tuple(bits: u32) -> Stored {
    match bits {
        16 => 65_535,
        _ => Stored::MAX,
    }
}

/// A made case. No number handed to a call is above `largest`.
pub fn made(seed: u64, case: u64, largest: u32) -> Vec<u8> {
    let mut rng = Rng::new(seed, case);
    let text = cases::text(&mut rng, case);
    answered_for_all_widths(&mut rng, case, &text, largest)
}

/// Puts in lines of calls made for other widths than the form's.
type OtherLines = fn(&mut String, &mut Rng, &[u8], u32);

/// A case of a text, with what is due to it and to calls on it, made for the widths
/// of its form.
pub fn answered(rng: &mut Rng, case: u64, text: &[u8], largest: u32) -> Vec<u8> {
    answered_with(&[], rng, case, text, largest)
}

/// The same, and now and then calls made for other widths with labels in bytes.
pub fn answered_for_byte_labels(rng: &mut Rng, case: u64, text: &[u8], largest: u32) -> Vec<u8> {
    answered_with(&[other_lines], rng, case, text, largest)
}

/// The same, and now and then calls made for other widths, whatever they are.
pub fn answered_for_all_widths(rng: &mut Rng, case: u64, text: &[u8], largest: u32) -> Vec<u8> {
    answered_with(&[other_lines, other_wide_lines], rng, case, text, largest)
}

/// Lines made for other widths have streams of their own and stand behind all others.
fn answered_with(
    others: &[OtherLines],
    rng: &mut Rng,
    case: u64,
    text: &[u8],
    largest: u32,
) -> Vec<u8> {
    let numbered = (0..).zip(others);
    let streams: Vec<_> = numbered
        .map(|(stream, put)| (put, rng.branch(stream)))
        .collect();
    let mut out = lines_of(rng, text, largest);
    for (put, mut stream) in streams {
        put(&mut out, &mut stream, text, largest);
    }
    case_of(case, text, &out)
}

fn lines_of(rng: &mut Rng, text: &[u8], largest: u32) -> String {
    let mut out = String::new();
    match read(text) {
        Err(refused) => {
            line(&mut out, format!("R,{},{}", refused.refusal, refused.line));
            line(&mut out, "V,11".to_string());
            line(&mut out, rng.pick(&WITHOUT_POLICY).to_string());
        }
        Ok(policy) => {
            line(&mut out, "Y".to_string());
            line(&mut out, "V,0".to_string());
            accepted(&mut out, rng, &policy, largest);
        }
    }
    out
}

fn line(out: &mut String, line: String) {
    *out += &line;
    out.push('\n');
}

/// A case: its number, its text and its lines.
pub fn case_of(case: u64, text: &[u8], lines: &str) -> Vec<u8> {
    let head = format!("C,{case},{}\n", text.len());
    [head.as_bytes(), text, b"\n", lines.as_bytes()].concat()
}

/// The lines of a case file that follow its texts.
pub fn lines(file: &[u8]) -> Vec<String> {
    let cases = texts_with_lines(file).into_iter();
    cases.flat_map(|(_, lines)| lines).collect()
}

/// The texts of a case file, each with the lines that follow it.
pub fn texts_with_lines(file: &[u8]) -> Vec<(Vec<u8>, Vec<String>)> {
    let mut cases: Vec<(Vec<u8>, Vec<String>)> = Vec::new();
    let mut rest = file;
    while let Some(end) = rest.iter().position(|&byte| byte == b'\n') {
        let line = String::from_utf8_lossy(&rest[..end]).into_owned();
        rest = &rest[end + 1..];
        if let Some((_, length)) = line
            .strip_prefix("C,")
            .and_then(|begun| begun.split_once(','))
        {
            let (text, behind) = rest.split_at(length.parse().expect("a length"));
            cases.push((text.to_vec(), Vec::new()));
            rest = &behind[1..];
        } else {
            cases.last_mut().expect("a case").1.push(line);
        }
    }
    cases
}

/// Numbers as fields.
fn fields<T: std::fmt::Display>(numbers: impl IntoIterator<Item = T>) -> String {
    numbers.into_iter().map(|n| format!(",{n}")).collect()
}

/// What follows an accepted text.
pub fn accepted(out: &mut String, rng: &mut Rng, policy: &Policy, largest: u32) {
    write_lines(out, rng, policy);
    let labelling = compile(policy);
    label_lines(out, rng, policy, &labelling);
    let listings = tuple_lines(out, rng, policy);
    decision_lines(out, rng, policy, &listings, largest);
    let sessions = call_line(out, rng, policy, &labelling, largest);
    request_lines(out, rng, policy, &labelling, &sessions);
}

/// Writing into a buffer that is too short, and into one that is not.
fn write_lines(out: &mut String, rng: &mut Rng, policy: &Policy) {
    let length = write(policy).len();
    line(out, format!("W,20,0,{},0", short(rng, length)));
    let room = enough(rng, length, MOST_TEXT);
    line(out, format!("W,0,{length},{room},{length}"));
}

/// A length that is too short, most often by one.
fn short(rng: &mut Rng, length: usize) -> usize {
    match rng.below(4) {
        0 => rng.index(length),
        _ => length - 1,
    }
}

/// A length that is enough, most often just so.
fn enough(rng: &mut Rng, length: usize, most: usize) -> usize {
    let most = most.max(length);
    match rng.below(4) {
        0 => most,
        1 => length + rng.index(most - length + 1),
        _ => length,
    }
}

fn label_lines(out: &mut String, rng: &mut Rng, policy: &Policy, labelling: &Labelling) {
    let users = policy.user_sets() as usize;
    let objects = policy.object_sets() as usize;
    let places = labelling.table.len();
    let most_sets = most_sets(labelling.widths);
    let rooms = |rng: &mut Rng| {
        [
            enough(rng, users, most_sets),
            enough(rng, objects, most_sets),
            enough(rng, places, MOST_ENTRIES),
        ]
    };
    let [mut u, mut o, mut t] = rooms(rng);
    match rng.below(3) {
        0 => u = short(rng, users),
        1 => o = short(rng, objects),
        _ => t = short(rng, places),
    }
    let refused = refused_compile(labelling.widths, 20, [u, o, t]);
    refused.into_iter().for_each(|refused| line(out, refused));
    let rooms = fields(rooms(rng));
    let tags = tags(labelling.widths);
    for (tag, count, entries) in [
        (
            tags[0],
            labelling.user_count,
            fields(&labelling.user_labels),
        ),
        (
            tags[1],
            labelling.object_count,
            fields(&labelling.object_labels),
        ),
        (tags[2], labelling.object_count, fields(&labelling.table)),
    ] {
        line(out, format!("{tag},0,{count}{rooms}{entries}"));
    }
}

/// The lines of a compile that is refused: nothing is stored in any of the three.
fn refused_compile(widths: Widths, refusal: Refusal, rooms: [usize; 3]) -> [String; 3] {
    let [users, objects, table, _] = tags(widths);
    [users, objects, table].map(|tag| format!("{tag},{refusal},0{}", fields(rooms)))
}

fn tuple_lines(out: &mut String, rng: &mut Rng, policy: &Policy) -> Vec<Vec<Stored>> {
    let [tag, _] = tuple_tags(policy.form.tuple_bits);
    let past = policy.actions() + rng.below(3);
    line(out, format!("{tag},12,0,{past},{MOST_ENTRIES}"));
    let mut listings = Vec::new();
    for action in 0..policy.actions() {
        let listing = tuples(policy, action).expect("an action");
        let count = listing.len();
        if count > 0 && rng.chance(1, 4) {
            line(out, format!("{tag},20,0,{action},{}", short(rng, count)));
        }
        let room = enough(rng, count, MOST_ENTRIES);
        line(
            out,
            format!("{tag},0,{count},{action},{room}{}", runs(&listing)),
        );
        listings.push(listing);
    }
    listings
}

/// Rising numbers as runs, each by its first and its last.
fn runs(numbers: &[Stored]) -> String {
    let mut runs: Vec<(Stored, Stored)> = Vec::new();
    for &number in numbers {
        match runs.last_mut() {
            Some(run) if run.1 + 1 == number => run.1 = number,
            _ => runs.push((number, number)),
        }
    }
    let fields = runs.iter().map(|(first, last)| format!(",{first},{last}"));
    fields.collect()
}

fn decision_lines(
    out: &mut String,
    rng: &mut Rng,
    policy: &Policy,
    listings: &[Vec<Stored>],
    largest: u32,
) {
    for _ in 0..DECISIONS {
        let action = cases::action(rng, policy.form, largest);
        let (us, os) = sets(rng, policy, largest);
        let answer = decision(decide(policy, action, us, os));
        line(out, format!("F,{answer},0,{action},{us},{os}"));
    }
    for _ in 0..DECISIONS {
        let action = rng.index(listings.len());
        tuple_decision_line(out, rng, policy, action as u32, &listings[action], largest);
    }
    for _ in 0..DECISIONS {
        let one = cases::set(rng, policy.user_sets(), largest);
        let other = cases::set(rng, policy.user_sets(), largest);
        let answer = separation(policy, one, other);
        line(out, format!("P,{answer},0,{one},{other}"));
    }
}

/// Deciding by the tuples of an action.
fn tuple_decision_line(
    out: &mut String,
    rng: &mut Rng,
    policy: &Policy,
    action: u32,
    listing: &[Stored],
    largest: u32,
) {
    let bits = policy.form.tuple_bits;
    let [_, tag] = tuple_tags(bits);
    let (us, os) = sets(rng, policy, largest);
    let (room, room_field) = match bits {
        16 => (MOST_ENTRIES, String::new()),
        _ => {
            let room = enough(rng, listing.len(), MOST_ENTRIES);
            (room, fields([room]))
        }
    };
    let count = listing_count(rng, listing.len() as u32, room as u32, largest);
    let mut buffer = listing.to_vec();
    buffer.resize(room, blank_tuple(bits));
    let answer = decision(decide_by_tuples(policy, us, os, &buffer, count as usize));
    let asked = format!("{action},{us},{os},{count}{room_field}");
    line(out, format!("{tag},{answer},0,{asked}"));
}

/// A user set and an object set, mostly in range.
fn sets(rng: &mut Rng, policy: &Policy, largest: u32) -> (Set, Set) {
    let user_set = cases::set(rng, policy.user_sets(), largest);
    let object_set = cases::set(rng, policy.object_sets(), largest);
    (user_set, object_set)
}

/// Mostly the length of the listing, else half of it or more, up to more than its buffer's.
fn listing_count(rng: &mut Rng, length: u32, room: u32, largest: u32) -> u32 {
    let count = match rng.below(10) {
        0 => length / 2,
        1 => length + 1,
        2 => room + 1,
        3 => largest,
        _ => length,
    };
    count.min(largest)
}

fn separation(policy: &Policy, one: Set, other: Set) -> u32 {
    match apart(policy, one, other) {
        Ok(None) => 3,
        Ok(Some(_)) => 4,
        Err(refusal) => refusal,
    }
}

fn decision(answer: Result<bool, Refusal>) -> u32 {
    match answer {
        Ok(true) => 1,
        Ok(false) => 2,
        Err(refusal) => refusal,
    }
}

fn answer_number(answer: Answer) -> u32 {
    match answer {
        Answer::Denied => 0,
        Answer::Granted => 1,
        Answer::Done => 2,
        Answer::Refused(refusal) => refusal,
    }
}

/// What each request is made for and handed: widths, NU and NO, and how many entries
/// of the user labels, the object labels and the table.
struct Lent {
    widths: Widths,
    counts: [usize; 2],
    rooms: [usize; 3],
}

impl Lent {
    /// All that the compiler gives.
    fn all(labelling: &Labelling) -> Self {
        Lent {
            widths: labelling.widths,
            counts: [labelling.user_count, labelling.object_count],
            rooms: lengths(labelling.widths, labelling.table.len()),
        }
    }
}

/// The lengths of long buffers for user labels, object labels and table, in these widths.
fn lengths(widths: Widths, table: usize) -> [usize; 3] {
    let sets = most_sets(widths);
    [sets, sets, MOST_ENTRIES.max(table)]
}

/// A list of calls with their answers and the sessions that are open afterwards.
fn list_line(out: &mut String, lent: &Lent, calls: &[Call], answers: &[u32], held: &Sessions) {
    let entries = held.iter().flat_map(|(&s, &(user, set))| [s, user, set]);
    let [.., tag] = tags(lent.widths);
    line(
        out,
        format!(
            "{tag},0,{}{}{},{}{}{}{}",
            answers.len(),
            fields(lent.counts),
            fields(lent.rooms),
            calls.len(),
            fields(calls.iter().flat_map(call_numbers)),
            fields(answers),
            fields(entries)
        ),
    );
}

fn call_numbers(call: &Call) -> [u32; 4] {
    match *call {
        Call::Open { user, session, set } => [0, user, session, set],
        Call::Add { user, session, set } => [1, user, session, set],
        Call::Drop { user, session, set } => [2, user, session, set],
        Call::Close { user, session } => [3, user, session, 0],
        Call::Request {
            session,
            action,
            object,
        } => [4, session, action, object],
    }
}

/// A list of calls with what the compiler gives; the sessions that are open
/// afterwards.
fn call_line(
    out: &mut String,
    rng: &mut Rng,
    policy: &Policy,
    labelling: &Labelling,
    largest: u32,
) -> Sessions {
    let count = rng.below(MOST_CALLS + 1);
    let calls = cases::calls(rng, policy, count, largest);
    answered_list(out, policy, labelling, &calls)
}

/// These calls with what the compiler gives; the sessions that are open afterwards.
pub(crate) fn answered_list(
    out: &mut String,
    policy: &Policy,
    labelling: &Labelling,
    calls: &[Call],
) -> Sessions {
    let (answers, sessions) = run(policy, calls);
    let answers: Vec<u32> = answers.into_iter().map(answer_number).collect();
    list_line(out, &Lent::all(labelling), calls, &answers, &sessions);
    sessions
}

/// A session opened, then a request of it with buffers that end at the places
/// read or just before one of them, and sometimes with another NO.
fn request_lines(
    out: &mut String,
    rng: &mut Rng,
    policy: &Policy,
    labelling: &Labelling,
    sessions: &Sessions,
) {
    let open: Vec<(u32, (u32, Set))> = sessions.iter().map(|(&s, &e)| (s, e)).collect();
    if open.is_empty() || policy.objects.is_empty() {
        return;
    }
    for _ in 0..SHORT_REQUESTS {
        let (session, (user, set)) = rng.pick(&open);
        let (object, object_set) = rng.pick(&policy.objects);
        let action = rng.below(policy.actions() + 1);
        let calls = [
            Call::Open { user, session, set },
            Call::Request {
                session,
                action,
                object,
            },
        ];
        let mut lent = Lent::all(labelling);
        if rng.chance(1, 3) {
            lent.counts = [rng.index(130), rng.index(130)];
        }
        let places = places(labelling, &lent, set, object_set);
        for (room, place) in lent.rooms.iter_mut().zip(places) {
            *room = (place + 1).min(*room);
        }
        if let Some(room) = lent.rooms.get_mut(rng.index(5)) {
            *room -= 1;
        }
        let (opened, _) = step(policy, &Sessions::new(), &calls[0]);
        let answer = match step(policy, &opened, &calls[1]).1 {
            Answer::Refused(refusal) => refusal,
            _ => looked_up(labelling, &lent, places, action),
        };
        list_line(out, &lent, &calls, &[2, answer], &opened);
    }
}

/// The places that a request reads in its three buffers.
fn places(labelling: &Labelling, lent: &Lent, set: Set, object_set: Set) -> [usize; 3] {
    let ul = usize::from(labelling.user_labels[set as usize]);
    let ol = usize::from(labelling.object_labels[object_set as usize]);
    [set as usize, object_set as usize, ul * lent.counts[1] + ol]
}

/// What a request that is not refused by 11 to 19 finds at these places.
fn looked_up(labelling: &Labelling, lent: &Lent, places: [usize; 3], action: u32) -> u32 {
    if places
        .iter()
        .zip(lent.rooms)
        .any(|(&place, room)| place >= room)
    {
        return 20;
    }
    let blank = blank(labelling.widths);
    let entry = labelling.table.get(places[2]).unwrap_or(&blank);
    u32::from(entry >> action & 1)
}

/// Now and then: calls made for other widths than the form's, with labels in bytes, and
/// actions at the limits of all forms.
fn other_lines(out: &mut String, rng: &mut Rng, text: &[u8], largest: u32) {
    let Ok(policy) = read(text) else {
        if rng.chance(1, 3) {
            line(out, rng.pick(&WITHOUT_POLICY_16).to_string());
        }
        return;
    };
    other_widths(out, rng, &policy, &[WIDTHS_8_8, WIDTHS_8_16], largest);
    if rng.chance(1, 3) {
        let action = rng.pick(&[7, 8, 15, 16]).min(largest);
        let (us, os) = sets(rng, &policy, largest);
        let answer = decision(decide(&policy, action, us, os));
        line(out, format!("F,{answer},0,{action},{us},{os}"));
    }
}

/// Now and then: calls made for labels of 16 bits, and for tuples of other bits than the
/// form's.
fn other_wide_lines(out: &mut String, rng: &mut Rng, text: &[u8], largest: u32) {
    let Ok(policy) = read(text) else {
        if rng.chance(1, 3) {
            line(out, rng.pick(&WITHOUT_POLICY_WIDE).to_string());
        }
        return;
    };
    other_widths(out, rng, &policy, &[WIDTHS_16_16], largest);
    let other = |bits: &u32| *bits != policy.form.tuple_bits;
    for bits in TUPLE_BITS.into_iter().filter(other) {
        if rng.chance(1, 3) {
            other_tuple_lines(out, rng, &policy, bits, largest);
        }
    }
}

/// Now and then calls made for those of some widths that are not the form's.
fn other_widths(out: &mut String, rng: &mut Rng, policy: &Policy, widths: &[Widths], largest: u32) {
    let others = widths.iter().filter(|other| **other != policy.form.widths);
    for &widths in others {
        if rng.chance(1, 3) {
            other_width_lines(out, rng, policy, widths, largest);
        }
    }
}

/// Listing, and deciding by tuples, for tuples of bits that are not the form's: with any
/// action, sets, count and room.
fn other_tuple_lines(out: &mut String, rng: &mut Rng, policy: &Policy, bits: u32, largest: u32) {
    let [list, decide] = tuple_tags(bits);
    let room = rng.pick(&[0, 4, MOST_ENTRIES]);
    let action = cases::action(rng, policy.form, largest);
    let listed = tuples_for(policy, bits, action).expect_err("refused");
    line(out, format!("{list},{listed},0,{action},{room}"));
    let (us, os) = sets(rng, policy, largest);
    let room = if bits == 16 { MOST_ENTRIES } else { room };
    let count = listing_count(rng, 0, room as u32, largest);
    let buffer = vec![blank_tuple(bits); room];
    let decided = decide_by_tuples_for(policy, bits, us, os, &buffer, count as usize);
    let room = if bits == 16 { Vec::new() } else { vec![room] };
    let asked = format!("{action},{us},{os},{count}{}", fields(room));
    line(out, format!("{decide},{},0,{asked}", decision(decided)));
}

/// Compiling for widths that are not the form's, into buffers of any lengths, and a
/// list of calls with requests made for them.
fn other_width_lines(
    out: &mut String,
    rng: &mut Rng,
    policy: &Policy,
    widths: Widths,
    largest: u32,
) {
    let rooms = lengths(widths, 0).map(|most| match rng.below(3) {
        0 => rng.index(4),
        _ => most,
    });
    let refused = refused_compile(widths, 11, rooms);
    refused.into_iter().for_each(|refused| line(out, refused));
    let count = 3 + rng.below(MOST_OTHER_CALLS - 2);
    let calls = cases::calls(rng, policy, count, largest);
    let (answers, sessions) = run_for(policy, widths, &calls);
    let answers: Vec<u32> = answers.into_iter().map(answer_number).collect();
    let lent = Lent {
        widths,
        counts: [0, 1].map(|side| 1 + rng.index(lengths(widths, 0)[side])),
        rooms,
    };
    list_line(out, &lent, &calls, &answers, &sessions);
}

#[cfg(test)]
mod tests {
    use super::*;
    use crate::form::WIDTHS;
    use crate::labels::compile_for;
    use crate::machine::step_for;
    use crate::stored::all_example_cases;

    /// The answers that stand in the examples by hand are those given here.
    #[test]
    fn the_examples_are_answered_so() {
        let mut compared = 0;
        for (text, answers) in all_example_cases() {
            let Ok(policy) = read(text.as_bytes()) else {
                continue;
            };
            for line in answers.lines().filter(|line| line.len() > 3) {
                let fields = line.split(',').skip(1);
                let numbers: Vec<u32> = fields.map(|n| n.parse().expect("a number")).collect();
                assert_eq!(due(&policy, &line[..1], &numbers), line, "{text}");
                compared += 1;
            }
        }
        assert!(compared > 40, "{compared}");
    }

    /// The line that is due where a line has this tag and asks by these numbers.
    fn due(policy: &Policy, tag: &str, numbers: &[u32]) -> String {
        match (tag, &numbers[2..]) {
            ("W", _) => format!("W,0{}", fields([write(policy).len(); 3])),
            ("u" | "o" | "g" | "U" | "O" | "G" | "v" | "p" | "h", rooms) => {
                compiled(policy, tag, &rooms[..3])
            }
            ("T" | "t", &[action, room, ..]) => listed(policy, tag, action, room),
            ("S" | "Z" | "X", asked) => played(policy, tag, asked),
            (_, asked) => format!("{tag},{},0{}", decided(policy, tag, asked), fields(asked)),
        }
    }

    /// The widths that a line with this tag is made for.
    fn made_for(tag: &str) -> Widths {
        let mut all = WIDTHS.into_iter();
        let found = all.find(|&widths| tags(widths).iter().any(|&t| tag.starts_with(t)));
        found.expect("widths")
    }

    /// The bits of a tuple that a line with this tag is made for.
    fn bits_of(tag: &str) -> u32 {
        let mut all = TUPLE_BITS.into_iter();
        let found = all.find(|&bits| tuple_tags(bits).iter().any(|&t| tag.starts_with(t)));
        found.expect("bits")
    }

    fn listed(policy: &Policy, tag: &str, action: u32, room: u32) -> String {
        let listing = tuples_for(policy, bits_of(tag), action);
        let listing = listing.and_then(|listing| match listing.len() > room as usize {
            true => Err(20),
            false => Ok(listing),
        });
        match listing {
            Ok(listing) => format!(
                "{tag},0,{},{action},{room}{}",
                listing.len(),
                runs(&listing)
            ),
            Err(refusal) => format!("{tag},{refusal},0,{action},{room}"),
        }
    }

    /// By the action's tuples in a buffer, which is blank where listing is refused.
    fn by_tuples(policy: &Policy, tag: &str, asked: &[u32], room: usize) -> u32 {
        let bits = bits_of(tag);
        let mut buffer = tuples_for(policy, bits, asked[0]).unwrap_or_default();
        buffer.resize(room, blank_tuple(bits));
        let count = asked[3] as usize;
        decision(decide_by_tuples_for(
            policy, bits, asked[1], asked[2], &buffer, count,
        ))
    }

    fn compiled(policy: &Policy, tag: &str, rooms: &[u32]) -> String {
        let labelling = match compile_for(policy, made_for(tag)) {
            Ok(labelling) => labelling,
            Err(refusal) => return format!("{tag},{refusal},0{}", fields(rooms)),
        };
        let needed = [
            labelling.user_labels.len(),
            labelling.object_labels.len(),
            labelling.table.len(),
        ];
        let mut pairs = needed.into_iter().zip(rooms);
        if pairs.any(|(needed, &room)| needed > room as usize) {
            return format!("{tag},20,0{}", fields(rooms));
        }
        let (count, entries) = match tag {
            "u" | "U" | "v" => (labelling.user_count, fields(labelling.user_labels)),
            "o" | "O" | "p" => (labelling.object_count, fields(labelling.object_labels)),
            _ => (labelling.object_count, fields(labelling.table)),
        };
        format!("{tag},0,{count}{}{entries}", fields(rooms))
    }

    fn decided(policy: &Policy, tag: &str, asked: &[u32]) -> u32 {
        match (tag, asked) {
            ("F", &[action, us, os]) => decision(decide(policy, action, us, os)),
            ("B", asked) => by_tuples(policy, tag, asked, MOST_ENTRIES),
            ("b", &[.., room]) => by_tuples(policy, tag, asked, room as usize),
            ("P", &[one, other]) => separation(policy, one, other),
            ("D", &[one, other, action, os]) => {
                let granted = |us| decide(policy, action, us, os).expect("decided");
                if granted(one) == granted(other) {
                    3
                } else {
                    4
                }
            }
            _ => panic!("{tag} {asked:?}"),
        }
    }

    fn played(policy: &Policy, tag: &str, asked: &[u32]) -> String {
        let sizes: Vec<usize> = asked[..5].iter().map(|&n| n as usize).collect();
        let lent = Lent {
            widths: made_for(tag),
            counts: [sizes[0], sizes[1]],
            rooms: [sizes[2], sizes[3], sizes[4]],
        };
        let calls = asked[6..].chunks(4).take(asked[5] as usize);
        let calls: Vec<Call> = calls.map(call).collect();
        let mut sessions = Sessions::new();
        let mut answers = Vec::new();
        for call in &calls {
            let (after, answer) = step_for(policy, lent.widths, &sessions, call);
            answers.push(by_buffers(policy, &lent, &sessions, call, answer));
            sessions = after;
        }
        let mut line = String::new();
        list_line(&mut line, &lent, &calls, &answers, &sessions);
        line.trim_end().to_string()
    }

    /// The machine's answer, but that of a request which is not refused by what it is lent.
    fn by_buffers(
        policy: &Policy,
        lent: &Lent,
        sessions: &Sessions,
        call: &Call,
        answer: Answer,
    ) -> u32 {
        match (*call, answer) {
            (
                Call::Request {
                    session,
                    action,
                    object,
                },
                Answer::Granted | Answer::Denied,
            ) => {
                let labelling = compile(policy);
                let object_set = policy.object_set(object).expect("a registered object");
                let places = places(&labelling, lent, sessions[&session].1, object_set);
                looked_up(&labelling, lent, places, action)
            }
            _ => answer_number(answer),
        }
    }

    fn call(numbers: &[u32]) -> Call {
        match *numbers {
            [0, user, session, set] => Call::Open { user, session, set },
            [1, user, session, set] => Call::Add { user, session, set },
            [2, user, session, set] => Call::Drop { user, session, set },
            [3, user, session, _] => Call::Close { user, session },
            [4, session, action, object] => Call::Request {
                session,
                action,
                object,
            },
            _ => panic!("{numbers:?}"),
        }
    }
}
