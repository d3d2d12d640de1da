//! Examples of pairs, with the answers by hand.

use super::{read_as, TEXT};

/// Pairs alone, with a seniority on each side: value 1 is senior to value 0.
const BOTH_DIRECTIONS: &str = "policy,1
uattr,2
oattr,2
usen,1,0
osen,1,0
user,0,2
user,1,1
object,0,1
object,1,2
pair,0,0,1
pair,1,1,0
end
";

/// Action 0 takes either value of each side: the user's 0 or its senior, the
/// object's 1 or its junior. Action 1 takes just the values named, as user value
/// 1 has no senior and object value 0 no junior. Action 2 has no pair.
const BOTH_DIRECTIONS_ANSWERS: &str = "Y
V,0
W,0,109,109,109
u,0,3,4,4,9,0,1,2,2
o,0,3,4,4,9,0,1,2,1
g,0,3,4,4,9,0,0,0,0,1,1,0,3,1
T,0,9,0,9,5,7,9,11,13,15
T,0,4,1,4,9,9,11,11,13,13,15,15
T,0,0,2,0
F,1,0,0,1,2
F,1,0,0,2,1
F,2,0,0,0,3
F,2,0,0,3,0
F,1,0,1,2,1
F,2,0,1,1,1
F,2,0,1,2,2
F,2,0,2,3,3
B,1,0,1,2,1,4
B,2,0,1,2,2,4
P,3,0,2,3
P,4,0,1,2
D,4,0,1,2,1,1
S,0,11,3,3,4,4,9,11,\
0,0,0,2,0,1,1,1,4,0,0,0,4,0,1,0,4,0,1,1,4,1,0,1,4,1,1,0,4,1,2,0,2,0,0,2,1,0,0,1,4,0,1,0,\
2,2,1,1,0,1,0,0,2,2,0,\
0,0,1,1,1,1
";

/// What the requirement's text grants with two pairs more. Action 3, which its
/// formula denies to user value 1, is granted to it by a pair on object value 0.
/// Action 5 has no rule.
const BESIDE_RULES: &str = "pair,3,1,0\npair,5,0,0\n";
const BESIDE_RULES_ANSWERS: &str = "Y
V,0
W,0,107,107,107
u,0,3,4,2,6,0,1,2,2
o,0,2,4,2,6,0,1
g,0,2,4,2,6,8,8,8,41,0,41
T,0,3,0,3,3,3,5,5,7,7
T,0,0,1,0
T,0,6,3,6,0,3,5,5,7,7
T,0,3,5,3,3,3,5,5,7,7
F,1,0,3,3,1
F,2,0,3,3,0
F,1,0,5,2,1
F,2,0,5,0,1
";

/// What stands for a line of the requirement's text, and what reading answers.
const EDGES: [(&str, &str, &str); 12] = [
    ("end\n", "pair,7,1,0\nend\n", "Y"),
    ("end\n", "pair,8,0,0\nend\n", "R,6,8"),
    ("end\n", "pair,0,2,0\nend\n", "R,6,8"),
    ("end\n", "pair,0,0,1\nend\n", "R,6,8"),
    ("end\n", "pair,0,0\nend\n", "R,4,8"),
    ("end\n", "pair,0,0,0,0\nend\n", "R,4,8"),
    ("end\n", "pair,0,0,00\nend\n", "R,5,8"),
    ("end\n", "pair,0,0,0\npair,0,1,0\npair,1,0,0\nend\n", "Y"),
    ("end\n", "pair,0,0,0\npair,0,0,0\nend\n", "R,7,9"),
    ("end\n", "pair,0,1,0\npair,0,0,0\nend\n", "R,7,9"),
    ("end\n", "pair,1,0,0\npair,0,1,0\nend\n", "R,7,9"),
    ("rule,0,u0,o0,a\n", "pair,0,0,0\n", "R,3,7"),
];

/// What follows 64 pair lines, and what reading answers.
const BEHIND_64: [(&str, &str); 6] = [
    ("end\n", "Y"),
    ("pair,7,0,1\nend\n", "R,21,67"),
    ("pair,7,0,0\nend\n", "R,7,67"),
    ("pair,6,2,2\nend\n", "R,7,67"),
    ("pair,7,0,3\nend\n", "R,6,67"),
    ("rule,7,t\nend\n", "R,3,67"),
];

/// Texts with pairs, each with the answers' lines, of which the first is the
/// reading's.
pub fn example_cases() -> Vec<(String, String)> {
    let beside_rules = TEXT.replace("end\n", &format!("{BESIDE_RULES}end\n"));
    let mut cases = vec![
        (
            BOTH_DIRECTIONS.to_string(),
            BOTH_DIRECTIONS_ANSWERS.to_string(),
        ),
        (beside_rules, BESIDE_RULES_ANSWERS.to_string()),
        label_per_set(),
    ];
    for (old, new, answer) in EDGES {
        cases.push((TEXT.replace(old, new), read_as(answer)));
    }
    for (behind, answer) in BEHIND_64 {
        cases.push((format!("{}{behind}", with_64()), read_as(answer)));
    }
    cases
}

/// Pairs of each value with the same value grant where two sets meet, so no two
/// sets of a side are alike.
fn label_per_set() -> (String, String) {
    let pairs: String = (0..7).map(|v| format!("pair,0,{v},{v}\n")).collect();
    let labels: String = (0..128).map(|label| format!(",{label}")).collect();
    let text = format!("policy,1\nuattr,7\noattr,7\n{pairs}end\n");
    let mut answers = "Y\nV,0\n".to_string();
    for tag in ["u", "o"] {
        answers += &format!("{tag},0,128,128,128,16384{labels}\n");
    }
    answers += "F,1,0,0,5,4\nF,2,0,0,5,122\nF,1,0,0,64,127\nF,2,0,0,0,127\n";
    (text, answers)
}

/// Three lines and 64 pair lines.
fn with_64() -> String {
    let pairs = (0..64).map(|i| format!("pair,{},{},{}\n", i / 9, i / 3 % 3, i % 3));
    format!("policy,1\nuattr,3\noattr,3\n{}", pairs.collect::<String>())
}
