//! Examples of forms 1 and 2, with the answers by hand.

use super::lists::{add, close, drop, list_for, open, request, written, NumberedCall};
use super::lists::{DENIED, DONE, GRANTED};
use super::{read_as, TEXT};

/// What is due to the requirement's text where it is of form 2: the same labels, table
/// and tuples, and twice as many actions.
const SAMPLE: &str = "W,0,85,85,85
U,0,3,4,2,6,0,1,2,2
O,0,2,4,2,6,0,1
G,0,2,4,2,6,8,8,8,9,0,1
U,20,0,3,2,6
O,20,0,4,1,6
G,20,0,4,2,5
T,0,3,0,3,3,3,5,5,7,7
T,0,4,3,4,0,3
T,0,0,8,0
T,0,0,15,0
T,12,0,16,16384
F,1,0,0,3,1
F,2,0,3,3,0
F,2,0,8,3,1
F,2,0,15,0,0
F,12,0,16,0,0
F,12,0,16,4,0
F,19,0,15,4,0
";

/// What is due to it in form 1, at the actions that only form 2 has.
const SAMPLE_OF_FORM_1: &str = "T,12,0,8,16384
T,12,0,15,16384
F,12,0,8,3,1
F,12,0,15,0,0
F,12,0,16,0,0
F,12,0,8,4,0
F,19,0,7,4,0
";

/// The requirement's text with actions 8 and 15 for 0 and 3: all that tells sets apart
/// is above action 7.
const ABOVE_7: [(&str, &str); 3] = [
    ("policy,1", "policy,2"),
    ("rule,0,", "rule,8,"),
    ("rule,3,", "rule,15,"),
];
const ABOVE_7_ANSWERS: &str = "W,0,86,86,86
U,0,3,4,2,6,0,1,2,2
O,0,2,4,2,6,0,1
G,0,2,4,2,6,32768,32768,32768,33024,0,256
T,0,3,8,3,3,3,5,5,7,7
T,0,4,15,4,0,3
T,0,0,0,0
T,0,0,3,0
T,0,0,7,0
F,1,0,8,3,1
F,2,0,8,3,0
F,1,0,15,1,0
F,2,0,15,3,0
F,2,0,0,3,1
F,2,0,7,0,0
B,1,0,8,3,1,3
B,2,0,8,3,1,2
B,1,0,15,1,0,4
B,2,0,15,3,0,4
P,3,0,2,3
P,4,0,0,1
P,4,0,1,2
D,4,0,0,1,8,1
D,4,0,1,2,15,0
";

/// The same text with an action more, below 8: bits of both bytes of an entry. Action
/// 2 is granted to user value 1 on anything, by a rule, and action 9 by a pair.
const BOTH_BYTES: [(&str, &str); 4] = [
    ABOVE_7[0],
    ("rule,0,", "rule,2,u1\nrule,8,"),
    ABOVE_7[2],
    ("end\n", "pair,9,1,0\nend\n"),
];
const BOTH_BYTES_ANSWERS: &str = "W,0,107,107,107
U,0,3,4,2,6,0,1,2,2
O,0,2,4,2,6,0,1
G,0,2,4,2,6,32768,32768,32768,33024,4,772
T,0,4,2,4,4,7
T,0,2,9,2,5,5,7,7
F,1,0,9,2,1
F,2,0,9,2,0
F,2,0,9,1,1
";

/// NU and NO of these texts, and the lengths of buffers just long enough.
const LENT: [u32; 5] = [3, 2, 4, 2, 6];

/// On the requirement's text in form 2.
const SAMPLE_CALLS: [(NumberedCall, u32); 12] = [
    (open(0, 0, 1), DONE),
    (open(0, 1, 3), DONE),
    (open(0, 2, 4), 19),
    (request(0, 1, 0), DENIED),
    (request(0, 3, 0), GRANTED),
    (request(0, 7, 0), DENIED),
    (request(0, 8, 0), DENIED),
    (request(0, 15, 0), DENIED),
    (request(0, 16, 0), 12),
    (request(1, 0, 0), GRANTED),
    (request(9, 15, 0), 17),
    (request(9, 16, 0), 12),
];

/// On that text in form 1.
const SAMPLE_CALLS_OF_FORM_1: [(NumberedCall, u32); 6] = [
    (open(0, 0, 1), DONE),
    (request(0, 3, 0), GRANTED),
    (request(0, 7, 0), DENIED),
    (request(0, 8, 0), 12),
    (request(0, 15, 0), 12),
    (request(0, 16, 0), 12),
];

/// On the text with actions 8 and 15.
const ABOVE_7_CALLS: [(NumberedCall, u32); 12] = [
    (open(0, 0, 1), DONE),
    (request(0, 8, 0), GRANTED),
    (request(0, 15, 0), GRANTED),
    (request(0, 0, 0), DENIED),
    (request(0, 3, 0), DENIED),
    (request(0, 7, 0), DENIED),
    (add(0, 0, 2), DONE),
    (request(0, 8, 0), GRANTED),
    (request(0, 15, 0), DENIED),
    (drop(0, 0, 3), DONE),
    (request(0, 8, 0), DENIED),
    (request(0, 15, 0), GRANTED),
];

/// Each request made for other widths than the form's, on any of these texts: refused
/// before all else, and the other calls go on.
pub(crate) const OTHER_CALLS: [(NumberedCall, u32); 10] = [
    (request(0, 0, 0), 11),
    (open(0, 0, 1), DONE),
    (request(0, 3, 0), 11),
    (request(0, 99, 0), 11),
    (request(32, 0, 0), 11),
    (request(0, 0, 9), 11),
    (add(0, 0, 2), DONE),
    (open(0, 1, 4), 19),
    (open(0, 1, 2), DONE),
    (close(0, 1), DONE),
];
pub(crate) const OTHER_HELD: [[u32; 3]; 1] = [[0, 0, 3]];

/// What stands for the lines `rule,3,u1,n` and `end` of the requirement's text, and
/// what reading answers in form 1 and in form 2.
const EDGES: [(&str, &str, &str); 22] = [
    ("rule,7,t\nend\n", "Y", "Y"),
    ("rule,8,t\nend\n", "R,6,7", "Y"),
    ("rule,15,t\nend\n", "R,6,7", "Y"),
    ("rule,16,t\nend\n", "R,6,7", "R,6,7"),
    ("rule,256,t\nend\n", "R,6,7", "R,6,7"),
    ("rule,65536,t\nend\n", "R,6,7", "R,6,7"),
    ("rule,08,t\nend\n", "R,5,7", "R,5,7"),
    ("rule,16,x\nend\n", "R,5,7", "R,5,7"),
    ("rule,8,a\nend\n", "R,6,7", "R,9,7"),
    ("rule,8,d00\nend\n", "R,6,7", "R,8,7"),
    ("rule,16,d00\nend\n", "R,6,7", "R,6,7"),
    ("rule,9,t\nrule,10,t\nend\n", "R,6,7", "Y"),
    ("rule,10,t\nrule,9,t\nend\n", "R,6,7", "R,7,8"),
    ("rule,10,t\nrule,10,t\nend\n", "R,6,7", "R,7,8"),
    ("pair,7,0,0\nend\n", "Y", "Y"),
    ("pair,8,0,0\nend\n", "R,6,7", "Y"),
    ("pair,15,1,0\nend\n", "R,6,7", "Y"),
    ("pair,16,0,0\nend\n", "R,6,7", "R,6,7"),
    ("pair,15,2,0\nend\n", "R,6,7", "R,6,7"),
    ("pair,9,0,0\npair,10,0,0\nend\n", "R,6,7", "Y"),
    ("pair,10,0,0\npair,9,1,0\nend\n", "R,6,7", "R,7,8"),
    ("rule,15,t\npair,8,0,0\nend\n", "R,6,7", "Y"),
];

/// What stands for the first line of the requirement's text, and what reading answers.
const FIRST_LINES: [(&str, &str); 11] = [
    ("policy,1\n", "Y"),
    ("policy,2\n", "Y"),
    ("policy,0\n", "R,6,0"),
    ("policy,5\n", "R,6,0"),
    ("policy,12\n", "R,6,0"),
    ("policy,258\n", "R,6,0"),
    ("policy,65538\n", "R,6,0"),
    ("policy,02\n", "R,5,0"),
    ("policy,2,2\n", "R,4,0"),
    ("policy,1\npolicy,2\n", "R,3,1"),
    ("policy,2\npolicy,1\n", "R,3,1"),
];

/// What follows 64 pair lines of a text of form 2, and what reading answers.
const BEHIND_64: [(&str, &str); 5] = [
    ("end\n", "Y"),
    ("pair,15,2,2\nend\n", "R,21,67"),
    ("pair,15,0,0\nend\n", "R,7,67"),
    ("pair,16,0,0\nend\n", "R,6,67"),
    ("rule,15,t\nend\n", "R,3,67"),
];

/// Texts of both forms, each with the answers' lines, of which the first is the
/// reading's.
pub fn example_cases() -> Vec<(String, String)> {
    let mut cases = vec![sample_of_form_1(), sample(), above_7(), both_bytes()];
    cases.extend([1, 2].map(all_actions));
    cases.extend((0..8).map(|action| one_action(1, action)));
    cases.extend((0..16).map(|action| one_action(2, action)));
    cases.push(pairs_of_all_actions());
    for (lines, first, second) in EDGES {
        let text = TEXT.replace("rule,3,u1,n\nend\n", lines);
        cases.push((of_form_2(&text), read_as(second)));
        cases.push((text, read_as(first)));
    }
    for (line, answer) in FIRST_LINES {
        cases.push((TEXT.replace("policy,1\n", line), read_as(answer)));
    }
    for (behind, answer) in BEHIND_64 {
        cases.push((format!("{}{behind}", with_64()), read_as(answer)));
    }
    cases.extend(values());
    cases
}

pub fn of_form_2(text: &str) -> String {
    text.replacen("policy,1\n", "policy,2\n", 1)
}

fn changed(changes: &[(&str, &str)]) -> String {
    let text = TEXT.to_string();
    changes
        .iter()
        .fold(text, |text, (old, new)| text.replace(old, new))
}

/// Compiling for other widths: with just enough room, and with none, which goes after.
fn refused_compile(tags: [char; 3]) -> String {
    let lines = tags.map(|tag| format!("{tag},11,0,4,2,6\n{tag},11,0,0,0,0\n"));
    lines.concat()
}

/// What is due to calls on a text of form 2 that are made for a table of bytes.
pub fn for_bytes() -> String {
    refused_compile(['u', 'o', 'g']) + &list_for('S', LENT, &OTHER_CALLS, &OTHER_HELD)
}

/// What is due to calls on a text of form 1 that are made for 16-bit entries.
pub fn for_16_bits() -> String {
    refused_compile(['U', 'O', 'G']) + &list_for('Z', LENT, &OTHER_CALLS, &OTHER_HELD)
}

/// What is due to calls on a text of form 1 or 2 that are made for labels of 16 bits, and
/// for tuples of 32.
pub fn for_wide_labels() -> String {
    let list = list_for('X', LENT, &OTHER_CALLS, &OTHER_HELD);
    let tuples = "t,11,0,0,16384\nt,11,0,99,0\nb,11,0,0,3,1,0,16384\nb,11,0,0,4,0,1,0\n";
    refused_compile(['v', 'p', 'h']) + &list + tuples
}

/// What is due to calls on a text of form 3 that are made for tuples of 16 bits.
pub fn for_tuples_of_16_bits() -> String {
    "T,11,0,0,16384\nT,11,0,99,0\nB,11,0,0,3,1,0\nB,11,0,0,4,0,16385\n".to_string()
}

fn sample_of_form_1() -> (String, String) {
    let list = list_for('S', LENT, &SAMPLE_CALLS_OF_FORM_1, &[[0, 0, 1]]);
    let answers = format!("{}{SAMPLE_OF_FORM_1}{list}{}", read_as("Y"), for_16_bits());
    (TEXT.to_string(), answers)
}

fn sample() -> (String, String) {
    let list = list_for('Z', LENT, &SAMPLE_CALLS, &[[0, 0, 1], [1, 0, 3]]);
    let answers = format!("{}{SAMPLE}{list}{}", read_as("Y"), for_bytes());
    (of_form_2(TEXT), answers)
}

pub fn above_7() -> (String, String) {
    let list = list_for('Z', LENT, &ABOVE_7_CALLS, &[[0, 0, 0]]);
    let answers = format!("{}{ABOVE_7_ANSWERS}{list}{}", read_as("Y"), for_bytes());
    (changed(&ABOVE_7), answers)
}

fn both_bytes() -> (String, String) {
    let answers = format!("{}{BOTH_BYTES_ANSWERS}", read_as("Y"));
    (changed(&BOTH_BYTES), answers)
}

/// The tags of user labels, object labels and table in a form, and of a list.
fn tags(form: u32) -> [char; 4] {
    match form {
        1 => ['u', 'o', 'g', 'S'],
        _ => ['U', 'O', 'G', 'Z'],
    }
}

/// A rule for each action of the form, always true: an entry of all bits, and a request
/// for each of them.
fn all_actions(form: u32) -> (String, String) {
    let [u, o, g, list] = tags(form);
    let count = 8 * form;
    let rules: String = (0..count).map(|a| format!("rule,{a},t\n")).collect();
    let head = format!("policy,{form}\nuattr,1\noattr,1\nuser,31,1\nobject,63,0\n");
    let text = format!("{head}{rules}end\n");
    let all = 2u32.pow(count) - 1;
    let mut answers = read_as("Y") + &written(&text);
    answers += &format!("{u},0,1,2,2,1,0,0\n{o},0,1,2,2,1,0,0\n{g},0,1,2,2,1,{all}\n");
    let mut calls = vec![(open(31, 31, 1), DONE)];
    calls.extend((0..count).map(|action| (request(31, action, 63), GRANTED)));
    calls.push((request(31, count, 63), 12));
    answers += &list_for(list, [1, 1, 2, 2, 1], &calls, &[[31, 31, 1]]);
    (text, answers)
}

/// One action of the form, for user value 0: one bit of an entry, and no other.
fn one_action(form: u32, action: u32) -> (String, String) {
    let [u, o, g, list] = tags(form);
    let head = format!("policy,{form}\nuattr,1\noattr,1\nuser,0,1\nobject,0,0\n");
    let text = format!("{head}rule,{action},u0\nend\n");
    let bit = 2u32.pow(action);
    let mut answers = read_as("Y") + &written(&text);
    answers += &format!("{u},0,2,2,2,2,0,1\n{o},0,1,2,2,2,0,0\n{g},0,1,2,2,2,0,{bit}\n");
    answers += &format!("T,0,2,{action},2,2,3\nF,1,0,{action},1,0\nP,4,0,0,1\n");
    answers += &format!("D,4,0,0,1,{action},0\n");
    let mut calls = vec![(open(0, 0, 1), DONE)];
    calls.extend((0..8 * form).map(|asked| (request(0, asked, 0), u32::from(asked == action))));
    answers += &list_for(list, [2, 1, 2, 2, 2], &calls, &[[0, 0, 1]]);
    (text, answers)
}

/// A pair of each action of form 2, and no rule.
fn pairs_of_all_actions() -> (String, String) {
    let pairs: String = (0..16).map(|a| format!("pair,{a},0,0\n")).collect();
    let text = format!("policy,2\nuattr,1\noattr,1\n{pairs}end\n");
    let mut answers = read_as("Y") + &written(&text);
    answers += "U,0,2,2,2,4,0,1\nO,0,2,2,2,4,0,1\nG,0,2,2,2,4,0,0,0,65535\n";
    answers += "T,0,1,8,1,3,3\nT,0,1,15,1,3,3\nF,1,0,15,1,1\nF,2,0,15,1,0\nF,2,0,8,0,1\n";
    (text, answers)
}

/// Three lines and 64 pair lines, the last of action 15 on the lowest values.
fn with_64() -> String {
    let pairs = (0..63).map(|i| format!("pair,{},{},{}\n", 2 * (i / 9), i / 3 % 3, i % 3));
    let pairs: String = pairs.collect();
    format!("policy,2\nuattr,3\noattr,3\n{pairs}pair,15,0,0\n")
}

/// A form with more actions has no more values: seven read, and eight get 6.
fn values() -> Vec<(String, String)> {
    let text = |users, objects| format!("policy,2\nuattr,{users}\noattr,{objects}\nend\n");
    [(7, 7, "Y"), (8, 7, "R,6,1"), (7, 8, "R,6,2")]
        .map(|(users, objects, answer)| (text(users, objects), read_as(answer)))
        .to_vec()
}
