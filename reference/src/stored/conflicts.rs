//! Examples of conflicts, with the answers by hand.

use super::lists::{self, add, close, drop, list, open, written, NumberedCall};
use super::lists::{DENIED, DONE, GRANTED};
use super::{read_as, TEXT};

/// Four user values, 1 senior to 0. User 0 reaches all of them, user 1 the values
/// 0 and 1 by its senior, and user 2 is assigned both of these. Conflict lines
/// come behind the object.
const HEAD: &str = "policy,1
uattr,4
oattr,1
usen,1,0
user,0,15
user,1,2
user,2,3
object,0,1
";
const TAIL: &str = "rule,0,u0,o0,a\nend\n";

/// The same labels whatever the conflicts: a user set tells by value 0 or 1.
const LABELS: &str = "u,0,2,16,2,4,0,1,1,1,0,1,1,1,0,1,1,1,0,1,1,1
o,0,2,16,2,4,0,1
g,0,2,16,2,4,0,0,0,1
T,0,12,0,12,3,3,5,5,7,7,11,11,13,13,15,15,19,19,21,21,23,23,27,27,29,29,31,31
";

/// Of a list on a text with these labels: NU and NO, and the lengths of buffers.
const LENT: [u32; 5] = [2, 2, 16, 2, 4];

/// For action 0 on object 0.
const fn request(session: u32) -> NumberedCall {
    lists::request(session, 0, 0)
}

/// Conflict lines, calls with their answers, and what is open after them: session,
/// user and held set.
type Example = (
    &'static str,
    &'static [(NumberedCall, u32)],
    &'static [[u32; 3]],
);

const EXAMPLES: [Example; 14] = [
    // At most one of two: what is held after add counts, drop makes room again.
    (
        "conflict,3,1\n",
        &[
            (open(0, 0, 3), 23),
            (open(0, 0, 1), DONE),
            (add(0, 0, 1), DONE),
            (add(0, 0, 2), 23),
            (add(0, 0, 3), 23),
            (add(0, 0, 12), DONE),
            (request(0), GRANTED),
            (add(0, 0, 14), 23),
            (drop(0, 0, 1), DONE),
            (request(0), DENIED),
            (add(0, 0, 2), DONE),
            (drop(0, 0, 3), DONE),
            (add(0, 0, 1), DONE),
            (close(0, 0), DONE),
            (open(0, 0, 15), 23),
            (open(0, 0, 14), DONE),
        ],
        &[[0, 0, 14]],
    ),
    // Two sessions of one user are judged apart. An assigned set is not judged.
    (
        "conflict,3,1\n",
        &[
            (open(0, 0, 1), DONE),
            (open(0, 1, 2), DONE),
            (add(0, 0, 2), 23),
            (add(0, 1, 1), 23),
            (open(2, 2, 3), 23),
            (open(2, 2, 1), DONE),
            (open(2, 3, 2), DONE),
        ],
        &[[0, 0, 1], [1, 0, 2], [2, 2, 1], [3, 2, 2]],
    ),
    // A senior held alone is one value; its junior, which it works as, is not held.
    (
        "conflict,1,0\nconflict,3,1\n",
        &[
            (open(0, 0, 2), DONE),
            (request(0), GRANTED),
            (add(0, 0, 1), 23),
            (open(0, 1, 1), 23),
            (open(0, 1, 14), DONE),
        ],
        &[[0, 0, 2], [1, 0, 14]],
    ),
    // The senior in conflict, and the junior free.
    (
        "conflict,2,0\n",
        &[
            (open(1, 0, 2), 23),
            (open(1, 0, 1), DONE),
            (add(1, 0, 3), 23),
        ],
        &[[0, 1, 1]],
    ),
    // None of any value: a session holds nothing.
    (
        "conflict,15,0\n",
        &[
            (open(0, 0, 1), 23),
            (open(0, 0, 15), 23),
            (open(0, 0, 0), DONE),
            (add(0, 0, 0), DONE),
            (add(0, 0, 8), 23),
            (drop(0, 0, 15), DONE),
            (request(0), DENIED),
        ],
        &[[0, 0, 0]],
    ),
    // One value, never or as one pleases.
    (
        "conflict,4,0\n",
        &[
            (open(0, 0, 4), 23),
            (open(0, 0, 11), DONE),
            (add(0, 0, 4), 23),
        ],
        &[[0, 0, 11]],
    ),
    (
        "conflict,4,1\n",
        &[(open(0, 0, 15), DONE), (add(0, 0, 4), DONE)],
        &[[0, 0, 15]],
    ),
    // No value, and as many as there are or more: nothing is forbidden.
    (
        "conflict,0,0\n",
        &[(open(0, 0, 0), DONE), (add(0, 0, 15), DONE)],
        &[[0, 0, 15]],
    ),
    (
        "conflict,7,7\nconflict,15,4\n",
        &[(open(0, 0, 3), DONE), (add(0, 0, 12), DONE)],
        &[[0, 0, 15]],
    ),
    (
        "conflict,15,3\n",
        &[
            (open(0, 0, 15), 23),
            (open(0, 0, 13), DONE),
            (add(0, 0, 2), 23),
        ],
        &[[0, 0, 13]],
    ),
    // Each of several conflicts, by the first, the second and the third of them.
    (
        "conflict,3,1\nconflict,5,1\nconflict,8,0\n",
        &[
            (open(0, 0, 6), DONE),
            (add(0, 0, 1), 23),
            (open(0, 1, 3), 23),
            (open(0, 1, 5), 23),
            (open(0, 1, 8), 23),
            (open(0, 1, 1), DONE),
        ],
        &[[0, 0, 6], [1, 0, 1]],
    ),
    // What is tested before 23.
    (
        "conflict,3,1\n",
        &[
            (open(1, 0, 7), 19),
            (open(1, 0, 19), 19),
            (open(1, 0, 1), DONE),
            (add(1, 0, 6), 19),
            (add(1, 0, 18), 19),
            (add(1, 0, 2), 23),
            (add(0, 0, 2), 18),
            (add(0, 5, 3), 17),
            (open(0, 0, 3), 16),
            (open(9, 1, 3), 14),
            (add(9, 0, 3), 14),
            (open(0, 32, 3), 13),
            (add(0, 32, 3), 13),
        ],
        &[[0, 1, 1]],
    ),
    // Drop and close never get it; a drop may name what is not held.
    (
        "conflict,3,0\nconflict,12,1\n",
        &[
            (open(0, 0, 4), DONE),
            (drop(0, 0, 11), DONE),
            (drop(0, 0, 7), DONE),
            (add(0, 0, 8), DONE),
            (drop(0, 0, 3), DONE),
            (close(0, 0), DONE),
            (close(0, 0), 17),
            (open(0, 0, 12), 23),
        ],
        &[],
    ),
    // A refused call changes nothing, and the other sessions stay.
    (
        "conflict,14,2\n",
        &[
            (open(0, 31, 6), DONE),
            (open(2, 30, 3), DONE),
            (add(0, 31, 9), 23),
            (request(31), GRANTED),
            (add(0, 31, 1), DONE),
            (add(2, 30, 4), 19),
        ],
        &[[30, 2, 3], [31, 0, 7]],
    ),
];

/// What stands before the rules of the requirement's text, and what reading
/// answers.
const EDGES: [(&str, &str); 14] = [
    (
        "conflict,0,0\nconflict,1,1\nconflict,2,7\nconflict,3,2\n",
        "Y",
    ),
    ("conflict,3,0\n", "Y"),
    ("conflict,4,0\n", "R,6,6"),
    ("conflict,3,8\n", "R,6,6"),
    ("conflict,99999,0\n", "R,6,6"),
    ("conflict,3\n", "R,4,6"),
    ("conflict,3,1,0\n", "R,4,6"),
    ("conflict,3,01\n", "R,5,6"),
    ("conflict,03,1\n", "R,5,6"),
    ("conflict,3,\n", "R,5,6"),
    ("conflicts,3,1\n", "R,3,6"),
    ("conflict,1,0\nconflict,1,1\n", "R,7,7"),
    ("conflict,2,0\nconflict,1,7\n", "R,7,7"),
    ("conflict,2,0\nobject,1,1\n", "R,3,7"),
];

/// What stands for a part of the requirement's text, and what reading answers.
const ORDER: [(&str, &str, &str); 10] = [
    ("user,0,2\n", "conflict,3,1\nuser,0,2\n", "R,3,5"),
    ("object,0,1\n", "conflict,3,1\nobject,0,1\n", "R,3,6"),
    ("rule,3,u1,n\n", "conflict,3,1\nrule,3,u1,n\n", "R,3,7"),
    ("end\n", "pair,0,0,0\nconflict,3,1\nend\n", "R,3,9"),
    ("usen,1,0\nuser,0,2\nobject,0,1\n", "conflict,3,1\n", "Y"),
    ("user,0,2\nobject,0,1\n", "conflict,3,1\n", "Y"),
    (
        "oattr,1\nusen,1,0\nuser,0,2\nobject,0,1\n",
        "oattr,2\nosen,1,0\nconflict,3,1\n",
        "Y",
    ),
    ("object,0,1\n", "conflict,3,1\n", "Y"),
    (
        "rule,0,u0,o0,a\nrule,3,u1,n\n",
        "conflict,3,1\npair,0,0,0\n",
        "Y",
    ),
    ("rule,0,u0,o0,a\nrule,3,u1,n\n", "conflict,3,1\n", "Y"),
];

/// What follows 16 conflict lines, and what reading answers.
const BEHIND_16: [(&str, &str); 9] = [
    ("end\n", "Y"),
    ("rule,0,t\npair,0,0,0\nend\n", "Y"),
    ("conflict,31,1\nend\n", "R,22,19"),
    ("conflict,30,1\nend\n", "R,7,19"),
    ("conflict,0,0\nend\n", "R,7,19"),
    ("conflict,32,1\nend\n", "R,6,19"),
    ("conflict,31,8\nend\n", "R,6,19"),
    ("conflict,31\nend\n", "R,4,19"),
    ("object,0,0\nend\n", "R,3,19"),
];

/// Texts with conflicts, each with the answers' lines, of which the first is the
/// reading's.
pub fn example_cases() -> Vec<(String, String)> {
    let mut cases: Vec<_> = EXAMPLES.into_iter().map(example).collect();
    cases.extend([all_but_one(), all_limits()]);
    for (lines, answer) in EDGES {
        let rules = "rule,0,u0,o0,a\n";
        let text = TEXT.replace(rules, &format!("{lines}{rules}"));
        cases.push((text, read_as(answer)));
    }
    for (old, new, answer) in ORDER {
        cases.push((TEXT.replace(old, new), read_as(answer)));
    }
    for (behind, answer) in BEHIND_16 {
        cases.push((format!("{}{behind}", with_16()), read_as(answer)));
    }
    cases
}

/// The first example's text and list.
pub fn first_list() -> (String, String) {
    let (lines, calls, held) = EXAMPLES[0];
    (text(lines), list(LENT, calls, held))
}

fn text(lines: &str) -> String {
    format!("{HEAD}{lines}{TAIL}")
}

fn example((lines, calls, held): Example) -> (String, String) {
    let text = text(lines);
    let list = list(LENT, calls, held);
    let answers = format!("{}{}{LABELS}{list}", read_as("Y"), written(&text));
    (text, answers)
}

/// All but one of seven values.
fn all_but_one() -> (String, String) {
    let text = "policy,1\nuattr,7\noattr,1\nuser,0,127\nconflict,127,6\nend\n";
    let calls = [
        (open(0, 0, 127), 23),
        (open(0, 0, 126), DONE),
        (add(0, 0, 126), DONE),
        (add(0, 0, 1), 23),
        (drop(0, 0, 64), DONE),
        (add(0, 0, 1), DONE),
    ];
    let list = list([1, 1, 128, 2, 1], &calls, &[[0, 0, 63]]);
    let answers = format!("{}{}{list}", read_as("Y"), written(text));
    (text.to_string(), answers)
}

/// The greatest numbers: the 16 highest sets, of 112 to 127, each for all seven
/// values; nothing is forbidden.
fn all_limits() -> (String, String) {
    let lines: String = (112..128)
        .map(|set| format!("conflict,{set},7\n"))
        .collect();
    let text = format!("policy,1\nuattr,7\noattr,1\nuser,31,127\n{lines}end\n");
    let list = list(
        [1, 1, 128, 2, 1],
        &[(open(31, 31, 127), DONE)],
        &[[31, 31, 127]],
    );
    let answers = format!("{}{}{list}", read_as("Y"), written(&text));
    (text, answers)
}

/// Three lines and 16 conflict lines.
pub fn with_16() -> String {
    let conflicts = (0..16).map(|i| format!("conflict,{},{}\n", 2 * i, i % 8));
    let conflicts: String = conflicts.collect();
    format!("policy,1\nuattr,5\noattr,1\n{conflicts}")
}
