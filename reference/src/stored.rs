//! The case files that are stored with the product: the requirement's examples
//! with the requirement's answers, made cases from one seed without pairs and
//! conflicts and with them, lines that are wrong on purpose, made cases about
//! dominance, the like about forms, lists of calls in which those naming one session are
//! the same, and all this in form 3.

pub(crate) mod conflicts;
mod dominance;
pub(crate) mod forms;
mod isolation;
mod lists;
pub(crate) mod nine_values;
mod pairs;

use crate::case_file::{answered, answered_for_all_widths, answered_for_byte_labels};
use crate::case_file::{case_of, lines};
use crate::cases::{self, Rng};
use crate::form::FORMS;
use crate::formula::reach;
use crate::labels::{compile, grants};
use crate::policy::Policy;
use crate::spelled::a_senior_decides;
use crate::text::{read, MOST_CONFLICTS, MOST_PAIRS};
use crate::tuples::tuples;
use crate::wrong;

const SEED: u64 = 3;
const CASES: u64 = 700;
/// The most bytes of a file; a case larger than that is left out.
const FILE: usize = 65_536;
/// A case of at most so many bytes is always taken, and larger ones up to a sum.
const SMALL: usize = 2_400;
const LARGE_SUM: usize = 350_000;
/// A large case that is always taken: sets of it share labels only because `d`
/// follows seniority.
const ALIKE_BY_SENIORITY: u64 = 690;
/// Another, past the rest: every set of both sides has its own label.
const LABEL_PER_SET: u64 = 1810;
/// A large case of form 2, with a file of its own.
const LARGE_OF_FORM_2: u64 = 672;
/// The most bytes of a case of form 3 with more values than other forms have, the most
/// entries of its table and tuples of an action.
const WIDE: usize = 12_000;
const WIDE_ENTRIES: usize = 4_096;
/// The most bytes of a file of small cases about form 3.
const SMALL_FILE: usize = 34_000;

/// The text of the requirement.
pub(crate) const TEXT: &str = "policy,1
uattr,2
oattr,1
usen,1,0
user,0,2
object,0,1
rule,0,u0,o0,a
rule,3,u1,n
end
";

/// What the requirement says of its text: labels, table, tuples, and calls.
pub(crate) const ANSWERS: &str = "Y
V,0
W,0,85,85,85
u,0,3,4,2,6,0,1,2,2
o,0,2,4,2,6,0,1
g,0,2,4,2,6,8,8,8,9,0,1
T,0,3,0,3,3,3,5,5,7,7
T,0,4,3,4,0,3
F,2,0,3,3,0
S,0,10,3,2,4,2,6,10,\
0,0,0,1,0,0,1,3,0,0,2,4,2,0,0,4,\
4,0,1,0,4,0,8,0,4,0,3,0,4,1,3,0,\
2,0,1,2,1,0,1,2,\
2,2,19,19,0,12,1,0,2,2,\
0,0,1,1,0,3
";

/// The requirement's edges: what stands for a line of the text, or after its
/// end, and what reading answers.
const EDGES: [(&str, &str, &str); 16] = [
    ("uattr,2\n", "uattr,3\nuattr,4\n", "Y"),
    ("uattr,2\n", "uattr,4\nuattr,4\n", "R,6,2"),
    ("oattr,1\n", "oattr,3\noattr,4\n", "Y"),
    ("oattr,1\n", "oattr,4\noattr,4\n", "R,6,3"),
    ("user,0,2\n", "user,31,2\n", "Y"),
    ("user,0,2\n", "user,32,2\n", "R,6,4"),
    ("object,0,1\n", "object,63,1\n", "Y"),
    ("object,0,1\n", "object,64,1\n", "R,6,5"),
    ("rule,3,u1,n\n", "rule,7,u1,n\n", "Y"),
    ("rule,3,u1,n\n", "rule,8,u1,n\n", "R,6,7"),
    ("usen,1,0\n", "usen,0,0\n", "R,6,3"),
    ("user,0,2\n", "user,01,2\n", "R,5,4"),
    ("user,0,2\n", "user,0,01\n", "R,5,4"),
    ("end\n", "end\nend\n", "R,3,9"),
    ("end\n", "end\n\n", "R,3,9"),
    ("end\n", "", "R,10,8"),
];

/// The files by their numbers: the examples, the made cases without pairs, those
/// about pairs, the lines that are wrong on purpose, then the made cases about
/// conflicts and those about dominance. What is about forms 1 and 2 stands behind all
/// these, then what is about isolation of sessions, and last what is about form 3.
pub fn files() -> Vec<Vec<u8>> {
    let mut files = vec![numbered(example_cases())];
    files.extend(without_pairs());
    files.push(about(
        of_form_1(cases::text_without_conflicts),
        |text, _| much_of("pair", text, much_by_pairs),
    ));
    files.push(wrong::file());
    files.push(about(
        of_form_1(cases::text_without_dominance),
        |text, _| much_of("conflict", text, much_by_conflicts),
    ));
    files.push(about(of_form_1(cases::text_without_forms), |text, _| {
        read(text).is_ok_and(|policy| a_senior_decides(&policy))
    }));
    files.extend(about_forms_1_and_2());
    files.push(
        [
            numbered(isolation::example_cases()),
            isolation::made_cases(),
        ]
        .concat(),
    );
    files.extend(about_form_3());
    files
}

fn about_forms_1_and_2() -> [Vec<u8>; 5] {
    let by_form_2 = |text: &[u8], _: &[u8]| read(text).is_ok_and(|p| much_by_form_2(&p));
    [
        numbered(forms::example_cases()),
        wrong::file_of_forms(),
        about(of_both_forms, by_form_2),
        about(of_both_forms, much_between_forms),
        of_both_forms(LARGE_OF_FORM_2).1,
    ]
}

/// Examples with few values and with many, lines that are wrong on purpose, cases with few
/// values, what is between the forms, and cases with many values.
fn about_form_3() -> [Vec<u8>; 6] {
    let few = |text: &[u8], _: &[u8]| {
        read(text).is_ok_and(|policy| policy.form == FORMS[2] && !policy.rules.is_empty())
    };
    let many = |text: &[u8], _: &[u8]| read(text).is_ok_and(|p| much_by_nine_values(&p));
    [
        numbered(nine_values::example_cases_with_few_values()),
        numbered(nine_values::example_cases_with_many_values()),
        wrong::file_of_form_3(),
        about_in([SMALL, SMALL_FILE], of_all_forms, few),
        about_in([SMALL, SMALL_FILE], of_all_forms, much_between_form_3),
        about_in([WIDE, FILE], of_all_forms, many),
    ]
}

/// The text of a case.
type Making = fn(&mut Rng, u64) -> Vec<u8>;

/// The text of a case of form 1 and all its lines.
fn of_form_1(text: Making) -> impl Fn(u64) -> (Vec<u8>, Vec<u8>) {
    move |case| {
        let mut rng = Rng::new(SEED, case);
        let text = text(&mut rng, case);
        let lines = answered(&mut rng, case, &text, u32::MAX);
        (text, lines)
    }
}

/// The text of a case of form 1 or 2 and all its lines, for the widths of both.
fn of_both_forms(case: u64) -> (Vec<u8>, Vec<u8>) {
    let mut rng = Rng::new(SEED, case);
    let text = cases::text_without_form_3(&mut rng, case);
    let lines = answered_for_byte_labels(&mut rng, case, &text, u32::MAX);
    (text, lines)
}

/// The text of a case of any form and all its lines, for all widths.
fn of_all_forms(case: u64) -> (Vec<u8>, Vec<u8>) {
    let mut rng = Rng::new(SEED, case);
    let text = cases::text(&mut rng, case);
    let lines = answered_for_all_widths(&mut rng, case, &text, u32::MAX);
    (text, lines)
}

fn without_pairs() -> Vec<Vec<u8>> {
    let mut files = vec![Vec::new()];
    let mut large = 0;
    for case in (0..CASES).chain([LABEL_PER_SET]) {
        let (_, lines) = of_form_1(cases::text_without_pairs)(case);
        let always = case == ALIKE_BY_SENIORITY || case == LABEL_PER_SET;
        if lines.len() > SMALL && !always {
            if lines.len() > FILE || large + lines.len() > LARGE_SUM {
                continue;
            }
            large += lines.len();
        }
        match files.last_mut() {
            Some(file) if file.len() + lines.len() <= FILE => file.extend(lines),
            _ => files.push(lines),
        }
    }
    files
}

/// The first small cases that are wanted by their text and lines, as many as fit into a
/// file.
fn about(
    made: impl Fn(u64) -> (Vec<u8>, Vec<u8>),
    wanted: impl Fn(&[u8], &[u8]) -> bool,
) -> Vec<u8> {
    about_in([SMALL, FILE], made, wanted)
}

/// The same with the most bytes of a case and of the file.
fn about_in(
    [small, most]: [usize; 2],
    made: impl Fn(u64) -> (Vec<u8>, Vec<u8>),
    wanted: impl Fn(&[u8], &[u8]) -> bool,
) -> Vec<u8> {
    let mut file = Vec::new();
    for case in 0..CASES {
        let (text, lines) = made(case);
        if lines.len() <= small && file.len() + lines.len() <= most && wanted(&text, &lines) {
            file.extend(lines);
        }
    }
    file
}

/// Whether a text says much of a kind of line: refused at such a line, or accepted
/// with much by it.
fn much_of(kind: &str, text: &[u8], much: fn(&Policy) -> bool) -> bool {
    match read(text) {
        Err(refused) => {
            let mut lines = text.split(|&byte| byte == b'\n');
            let line = lines.nth(refused.line).unwrap_or_default();
            refused.refusal > 1 && line.starts_with(kind.as_bytes())
        }
        Ok(policy) => much(&policy),
    }
}

/// With pairs and no rules, with as many pairs as there may be, or with pairs and
/// seniority on both sides.
fn much_by_pairs(policy: &Policy) -> bool {
    let both_sides = !policy.user_seniority.is_empty() && !policy.object_seniority.is_empty();
    let most = policy.pairs.len() == MOST_PAIRS;
    !policy.pairs.is_empty() && (policy.rules.is_empty() || most || both_sides)
}

/// With as many conflicts as there may be, or with a user who could hold too many
/// values of one.
fn much_by_conflicts(policy: &Policy) -> bool {
    let too_many = |assigned| !policy.may_hold(reach(policy, assigned));
    policy.conflicts.len() == MOST_CONFLICTS || policy.users.iter().any(|user| too_many(user.1))
}

/// Of form 2, with an action granted somewhere that form 1 lacks.
fn much_by_form_2(policy: &Policy) -> bool {
    let rows = grants(policy);
    policy.form.number == 2 && rows.iter().flatten().any(|entry| entry >> 8 != 0)
}

/// Refused though it says it is of form 2, or for the form that it says; or of form 1
/// with calls made for the widths of form 2.
fn much_between_forms(text: &[u8], case: &[u8]) -> bool {
    match read(text) {
        Err(refused) => {
            let first = refused.refusal == 6 && refused.line == 0;
            first || text.starts_with(b"policy,2\n")
        }
        Ok(policy) => {
            let compiled = |line: &String| line.starts_with("U,11,");
            policy.form.number == 1 && lines(case).iter().any(compiled)
        }
    }
}

/// Of form 3, with more values on a side than other forms have, and few labels and tuples.
fn much_by_nine_values(policy: &Policy) -> bool {
    let most = policy.user_values().max(policy.object_values());
    let listed = |action| tuples(policy, action).expect("an action").len();
    most > FORMS[0].values
        && compile(policy).table.len() <= WIDE_ENTRIES
        && (0..policy.actions()).all(|action| listed(action) <= WIDE_ENTRIES)
}

/// Refused though it says it is of form 3, or for its values by an earlier form; or of an
/// earlier form with calls made for the widths of form 3.
fn much_between_form_3(text: &[u8], case: &[u8]) -> bool {
    match read(text) {
        Err(refused) => {
            let mut lines = text.split(|&byte| byte == b'\n');
            let line = lines.nth(refused.line).unwrap_or_default();
            let attribute = line.starts_with(b"uattr,") || line.starts_with(b"oattr,");
            text.starts_with(b"policy,3\n") || refused.refusal == 6 && attribute
        }
        Ok(policy) => {
            let wide = |line: &String| line.starts_with("v,11,") || line.starts_with("t,11,");
            policy.form != FORMS[2] && lines(case).iter().any(wide)
        }
    }
}

/// A file of these cases.
fn numbered(cases: Vec<(String, String)>) -> Vec<u8> {
    let numbered = (0..).zip(cases);
    numbered
        .flat_map(|(case, (text, answers))| case_of(case, text.as_bytes(), &answers))
        .collect()
}

/// Texts, each with the answers' lines, of which the first is the reading's.
pub(crate) fn example_cases() -> Vec<(String, String)> {
    let no_rules = TEXT.replace("rule,0,u0,o0,a\nrule,3,u1,n\n", "");
    let all_alike = "Y\nV,0\nu,0,1,4,2,1,0,0,0,0\no,0,1,4,2,1,0,0\ng,0,1,4,2,1,0\n";
    let mut cases = vec![
        (TEXT.to_string(), ANSWERS.to_string()),
        (no_rules, all_alike.to_string()),
        (String::new(), read_as("R,10,0")),
    ];
    for (old, new, answer) in EDGES {
        cases.push((TEXT.replace(old, new), read_as(answer)));
    }
    for (words, answer) in [(32, "Y"), (33, "R,4,6")] {
        let rule = format!("rule,0,t{}\n", ",n".repeat(words - 1));
        let text = TEXT.replace("rule,0,u0,o0,a\n", &rule);
        cases.push((text, read_as(answer)));
    }
    cases.extend(pairs::example_cases());
    cases.extend(greatest_sets());
    cases.extend(conflicts::example_cases());
    cases.extend(dominance::example_cases());
    cases
}

/// The cases with answers by hand, of all files.
#[cfg(test)]
pub(crate) fn all_example_cases() -> Vec<(String, String)> {
    let mut cases = example_cases();
    cases.extend(forms::example_cases());
    cases.extend(isolation::example_cases());
    cases.extend(nine_values::example_cases_with_few_values());
    cases.extend(nine_values::example_cases_with_many_values());
    cases
}

/// For each number of values, the same on both sides: the greatest sets there
/// are, and one too great on either side.
fn greatest_sets() -> Vec<(String, String)> {
    let mut cases = Vec::new();
    for values in 1..=7 {
        let mask = 2u32.pow(values) - 1;
        for (user, object, answer) in [
            (mask, mask, "Y"),
            (mask + 1, mask, "R,6,3"),
            (mask, mask + 1, "R,6,4"),
        ] {
            let sides = format!("uattr,{values}\noattr,{values}\n");
            let text = format!("policy,1\n{sides}user,0,{user}\nobject,0,{object}\nend\n");
            cases.push((text, read_as(answer)));
        }
    }
    cases
}

/// What reading answers; check 11 passes what an accepted text yields, and
/// nothing else.
fn read_as(answer: &str) -> String {
    let check = if answer == "Y" { "V,0" } else { "V,11" };
    format!("{answer}\n{check}\n")
}

#[cfg(test)]
mod tests {
    use super::*;

    #[test]
    fn the_examples_are_read_as_the_requirement_says() {
        for (text, answers) in all_example_cases() {
            let reading = match read(text.as_bytes()) {
                Ok(_) => "Y".to_string(),
                Err(refused) => format!("R,{},{}", refused.refusal, refused.line),
            };
            assert_eq!(answers.lines().next(), Some(reading.as_str()), "{text}");
        }
    }

    #[test]
    fn every_edge_changes_the_text() {
        assert!(EDGES
            .iter()
            .all(|(old, new, _)| TEXT.replace(old, new) != TEXT));
    }
}
