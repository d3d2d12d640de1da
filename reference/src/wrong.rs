//! Lines that are wrong on purpose: each is a right line with one value changed,
//! or with one entry less or more. Who compares must find each of them different.
//! A line that is not shows what is not compared.
//!
//! Such a line has a mark behind its tag and stands after the line that it is
//! made from.

use crate::case_file::{case_of, WITHOUT_POLICY, WITHOUT_POLICY_16, WITHOUT_POLICY_WIDE};
use crate::stored::{conflicts, forms, nine_values, ANSWERS, TEXT};

/// Behind the tag of a line that is wrong on purpose.
pub const MARK: char = '!';

/// A bit of a label or an entry that a byte lacks.
const HIGH_BIT: u32 = 256;
/// A bit of a tuple that 16 bits lack.
const HIGH_TUPLE_BIT: u32 = 65_536;

/// Of more entries than these only the first and the last are changed.
const FEW: usize = 16;

/// Right lines for the requirement's text, beside those of the requirement.
const MORE: &str = "W,20,0,84,0
u,20,0,3,2,6
o,20,0,4,1,6
g,20,0,4,2,5
T,12,0,8,16384
T,20,0,0,2
F,1,0,0,3,1
F,12,0,8,0,0
F,19,0,0,4,0
B,1,0,0,3,1,3
B,2,0,0,3,1,2
B,19,0,0,4,0,3
B,20,0,0,0,0,16385
P,3,0,2,3
P,4,0,0,1
P,19,0,0,4
D,4,0,0,1,0,1
D,4,0,1,2,3,0
S,0,1,3,2,4,2,6,1,0,0,31,1,2,31,0,1
";

/// The most sets and pairs: results that fill their buffers.
const WIDE: &str = "policy,1\nuattr,7\noattr,7\nrule,0,t\nend\n";

/// Right lines for the example of form 2 with actions above 7, beside its own.
const MORE_ABOVE_7: &str = "U,20,0,3,2,6
O,20,0,4,1,6
G,20,0,4,2,5
T,12,0,16,16384
T,20,0,15,3
F,12,0,16,0,0
";

/// Right lines for the same example in form 3, beside its own.
const MORE_OF_FORM_3: &str = "b,19,0,8,4,0,3,16384
b,20,0,8,3,1,4,3
";

/// The most sets of form 3.
const WIDE_OF_FORM_3: &str = "policy,3\nuattr,9\noattr,9\nrule,0,f\nend\n";

/// Form 1: right lines, each with the wrong ones made from it.
pub fn file() -> Vec<u8> {
    with_wrong_lines(right_cases())
}

/// The same of form 2, and of calls made for other widths than the form's.
pub fn file_of_forms() -> Vec<u8> {
    with_wrong_lines(right_cases_of_forms())
}

/// The same of form 3, and of calls made for its widths.
pub fn file_of_form_3() -> Vec<u8> {
    with_wrong_lines(right_cases_of_form_3())
}

fn with_wrong_lines<const N: usize>(cases: [(String, String); N]) -> Vec<u8> {
    let numbered = (0..).zip(cases);
    numbered
        .flat_map(|(case, (text, right))| {
            let lines: String = right.lines().map(with_wrong).collect();
            case_of(case, text.as_bytes(), &lines)
        })
        .collect()
}

/// Texts, each with right lines.
fn right_cases() -> [(String, String); 6] {
    let without_policy = WITHOUT_POLICY.join("\n");
    let labels = ",0".repeat(128);
    let (in_conflict, list) = conflicts::first_list();
    [
        (TEXT.to_string(), format!("{ANSWERS}{MORE}")),
        (String::new(), "R,10,0\n".to_string()),
        (
            TEXT.replace("end\n", "end\nend\n"),
            format!("R,3,9\nV,11\n{without_policy}\n"),
        ),
        (
            WIDE.to_string(),
            format!(
                "Y\nu,0,1,128,128,1{labels}\no,0,1,128,128,1{labels}\nT,0,16384,0,16384,0,16383\n"
            ),
        ),
        (in_conflict, format!("Y\n{list}")),
        (
            format!("{}conflict,31,0\nend\n", conflicts::with_16()),
            "R,22,19\nV,11\n".to_string(),
        ),
    ]
}

/// Texts of both forms, each with right lines.
fn right_cases_of_forms() -> [(String, String); 4] {
    let without_policy = WITHOUT_POLICY_16.join("\n");
    let labels = ",0".repeat(128);
    let (above_7, answers) = forms::above_7();
    [
        (above_7, format!("{answers}{MORE_ABOVE_7}")),
        (TEXT.to_string(), format!("Y\n{}", forms::for_16_bits())),
        (
            forms::of_form_2(TEXT).replace("rule,3,", "rule,16,"),
            format!("R,6,7\nV,11\n{without_policy}\n"),
        ),
        (
            forms::of_form_2(WIDE),
            format!("Y\nU,0,1,128,128,1{labels}\nO,0,1,128,128,1{labels}\nG,0,1,128,128,1,1\n"),
        ),
    ]
}

/// Texts of form 3 and one of form 1, each with right lines.
fn right_cases_of_form_3() -> [(String, String); 4] {
    let without_policy = WITHOUT_POLICY_WIDE.join("\n");
    let labels = ",0".repeat(512);
    let (text, answers) = forms::above_7();
    let (text, answers) = nine_values::in_form_3((text, answers + MORE_ABOVE_7));
    let for_16_bits = forms::for_tuples_of_16_bits();
    [
        (text, format!("{answers}{MORE_OF_FORM_3}{for_16_bits}")),
        (TEXT.to_string(), format!("Y\n{}", forms::for_wide_labels())),
        (
            "policy,3\nuattr,10\n".to_string(),
            format!("R,6,1\nV,11\n{without_policy}\n"),
        ),
        (
            WIDE_OF_FORM_3.to_string(),
            format!("Y\nv,0,1,512,512,1{labels}\np,0,1,512,512,1{labels}\nh,0,1,512,512,1,0\n"),
        ),
    ]
}

/// A right line, and the wrong ones made from it.
fn with_wrong(right: &str) -> String {
    let (tag, fields) = right.split_at(1);
    let numbers: Vec<u32> = fields
        .split(',')
        .skip(1)
        .map(|field| field.parse().expect("a number"))
        .collect();
    let mut lines = format!("{right}\n");
    for wrong in wrong_numbers(tag, numbers) {
        let fields: String = wrong.iter().map(|n| format!(",{n}")).collect();
        lines += &format!("{tag}{MARK}{fields}\n");
    }
    lines
}

/// The numbers of the wrong lines. A line without an answer or a count has 0.
fn wrong_numbers(tag: &str, mut right: Vec<u32>) -> Vec<Vec<u32>> {
    right.resize(right.len().max(2), 0);
    let mut wrong = vec![changed(&right, 0, right[0] + 1)];
    wrong.push(changed(&right, 1, right[1] + 1));
    match tag {
        // A byte of the text less, or one where there is none.
        "W" => wrong.push(changed(&right, 3, right[3].checked_sub(1).unwrap_or(1))),
        // No set is told apart from itself.
        "D" => wrong.push(changed(&right, 3, right[2])),
        "u" | "o" | "g" | "U" | "O" => wrong.extend(wrong_entries(&right, 5, 1)),
        "G" => {
            wrong.extend(wrong_entries(&right, 5, 1));
            wrong.extend((5..right.len()).map(|i| changed(&right, i, right[i] ^ HIGH_BIT)));
        }
        "v" | "p" | "h" => {
            wrong.extend(wrong_entries(&right, 5, 1));
            let places = changed_places(&right, 5);
            wrong.extend(places.map(|i| changed(&right, i, right[i] ^ HIGH_BIT)));
        }
        "T" => wrong.extend(wrong_entries(&right, 4, 2)),
        "t" => {
            wrong.extend(wrong_entries(&right, 4, 2));
            let places = changed_places(&right, 4);
            wrong.extend(places.map(|i| changed(&right, i, right[i] ^ HIGH_TUPLE_BIT)));
        }
        "S" | "Z" | "X" => {
            let calls = right[7] as usize;
            let (answers, sessions) = (8 + 4 * calls, 8 + 5 * calls);
            wrong.extend((answers..sessions).map(|i| changed(&right, i, right[i] + 1)));
            wrong.extend(wrong_entries(&right, sessions, 3));
        }
        _ => {}
    }
    wrong
}

fn changed(right: &[u32], place: usize, value: u32) -> Vec<u32> {
    let mut wrong = right.to_vec();
    wrong[place] = value;
    wrong
}

/// Wrong in the entries from a place on, each of so many numbers: one number
/// changed, the last entry left out, or one entry more.
fn wrong_entries(right: &[u32], from: usize, each: usize) -> Vec<Vec<u32>> {
    let places = changed_places(right, from);
    let mut wrong: Vec<_> = places.map(|i| changed(right, i, right[i] + 1)).collect();
    if right.len() > from {
        wrong.push(right[..right.len() - each].to_vec());
    }
    wrong.push([right, &vec![0; each]].concat());
    wrong
}

/// The places from one on that are changed: all if they are few, else the first and the
/// last.
fn changed_places(right: &[u32], from: usize) -> impl Iterator<Item = usize> {
    let end = right.len();
    let few = end - from <= FEW;
    (from..end).filter(move |&i| few || i == from || i + 1 == end)
}
