//! Examples of dominance that follows seniority, with the answers by hand.

use super::lists::{add, drop, list, open, request, written, NumberedCall};
use super::lists::{DENIED, DONE, GRANTED};
use super::read_as;

/// A text, the lines of its answers behind those of reading and writing, a list of
/// calls with the answers, NU, NO and the lengths of buffers that it is lent, and
/// what is open after it: session, user and held set.
struct Example {
    text: &'static str,
    answers: &'static str,
    lent: [u32; 5],
    calls: &'static [(NumberedCall, u32)],
    held: &'static [[u32; 3]],
}

/// Three levels, each senior to the one below: a user set counts by its highest
/// level, and so does an object set. User 0 has the highest clearance alone.
const LEVELS: Example = Example {
    text: "policy,1
uattr,3
oattr,3
usen,1,0
usen,2,1
user,0,4
user,1,2
user,2,1
object,0,1
object,1,2
object,2,4
object,3,7
rule,0,d00
end
",
    answers: "u,0,4,8,8,16,0,1,2,2,3,3,3,3
o,0,4,8,8,16,0,1,2,2,3,3,3,3
g,0,4,8,8,16,1,0,0,0,1,1,0,0,1,1,1,0,1,1,1,1
T,0,43,0,43,0,0,8,9,16,19,24,27,32,63
T,0,0,1,0
F,1,0,0,0,0
F,2,0,0,0,1
F,2,0,0,1,2
F,1,0,0,2,1
F,1,0,0,2,3
F,2,0,0,2,5
F,2,0,0,3,4
F,1,0,0,4,1
F,1,0,0,4,7
B,1,0,0,4,1,43
B,1,0,0,4,1,13
B,2,0,0,4,1,12
B,2,0,0,3,4,43
P,3,0,2,3
P,3,0,4,7
P,4,0,0,1
P,4,0,1,2
P,4,0,3,4
D,4,0,1,2,0,2
D,4,0,3,4,0,4
",
    lent: [4, 4, 8, 8, 16],
    calls: &[
        (open(0, 0, 4), DONE),
        (request(0, 0, 0), GRANTED),
        (request(0, 0, 1), GRANTED),
        (request(0, 0, 2), GRANTED),
        (request(0, 0, 3), GRANTED),
        (drop(0, 0, 4), DONE),
        (request(0, 0, 0), DENIED),
        (add(0, 0, 2), DONE),
        (request(0, 0, 0), GRANTED),
        (request(0, 0, 1), GRANTED),
        (request(0, 0, 2), DENIED),
        (request(0, 0, 3), DENIED),
        (open(1, 1, 2), DONE),
        (request(1, 0, 0), GRANTED),
        (request(1, 0, 1), GRANTED),
        (request(1, 0, 2), DENIED),
        (add(1, 1, 4), 19),
        (open(2, 2, 1), DONE),
        (request(2, 0, 0), GRANTED),
        (request(2, 0, 1), DENIED),
    ],
    held: &[[0, 0, 2], [1, 1, 2], [2, 2, 1]],
};

/// Seniority on both sides: action 0 goes by `d`, 1 by `q`, 2 by not `d`. What the
/// two user sets with the senior are to `d` alike, `q` tells apart.
const BOTH_SIDES: Example = Example {
    text: "policy,1
uattr,2
oattr,2
usen,1,0
osen,1,0
user,0,2
object,0,1
object,1,2
object,2,3
rule,0,d00
rule,1,q00
rule,2,d00,n
end
",
    answers: "u,0,4,4,4,16,0,1,2,3
o,0,4,4,4,16,0,1,2,3
g,0,4,4,4,16,3,4,4,4,1,3,4,4,1,1,3,1,1,1,1,3
T,0,11,0,11,0,0,4,5,8,15
T,0,4,1,4,0,0,5,5,10,10,15,15
T,0,5,2,5,1,3,6,7
F,1,0,0,2,1
F,1,0,0,2,3
F,2,0,0,1,2
F,2,0,1,2,1
F,1,0,1,2,2
F,2,0,1,2,3
F,2,0,1,3,2
F,1,0,1,3,3
F,2,0,2,2,1
F,1,0,2,1,2
B,1,0,0,2,1,11
B,2,0,1,2,1,4
P,4,0,2,3
D,4,0,2,3,1,2
D,4,0,2,3,1,3
",
    lent: [4, 4, 4, 4, 16],
    calls: &[
        (open(0, 0, 2), DONE),
        (request(0, 0, 0), GRANTED),
        (request(0, 0, 1), GRANTED),
        (request(0, 0, 2), GRANTED),
        (request(0, 1, 0), DENIED),
        (request(0, 1, 1), GRANTED),
        (request(0, 1, 2), DENIED),
        (request(0, 2, 0), DENIED),
        (add(0, 0, 1), DONE),
        (request(0, 0, 0), GRANTED),
        (request(0, 1, 1), DENIED),
        (request(0, 1, 2), GRANTED),
        (drop(0, 0, 2), DONE),
        (request(0, 0, 0), GRANTED),
        (request(0, 0, 1), DENIED),
        (request(0, 1, 0), GRANTED),
        (request(0, 2, 1), GRANTED),
    ],
    held: &[[0, 0, 1]],
};

/// Seniority of objects alone: it plays no part.
const OBJECTS_ALONE: Example = Example {
    text: "policy,1
uattr,2
oattr,2
osen,1,0
user,0,3
object,0,1
object,1,2
rule,0,d00
rule,1,q00
end
",
    answers: "u,0,4,4,4,16,0,1,2,3
o,0,4,4,4,16,0,1,2,3
g,0,4,4,4,16,3,0,0,0,1,3,0,0,1,0,3,0,1,1,1,3
T,0,9,0,9,0,0,4,5,8,8,10,10,12,15
T,0,4,1,4,0,0,5,5,10,10,15,15
F,1,0,0,1,1
F,2,0,0,1,2
F,2,0,0,1,3
F,2,0,0,2,1
F,1,0,0,2,2
F,2,0,0,2,3
P,4,0,2,3
D,4,0,2,3,0,1
",
    lent: [4, 4, 4, 4, 16],
    calls: &[
        (open(0, 0, 2), DONE),
        (request(0, 0, 0), DENIED),
        (request(0, 0, 1), GRANTED),
        (add(0, 0, 1), DONE),
        (request(0, 0, 0), GRANTED),
    ],
    held: &[[0, 0, 3]],
};

/// Attributes that begin at other values on the two sides: user attribute 1 has
/// values 1 and 2, object attribute 0 has 0 and 1. User value 0 and object value 2
/// are attributes of their own, which action 1 compares.
const OTHER_PLACES: Example = Example {
    text: "policy,1
uattr,1
uattr,2
oattr,2
oattr,1
usen,2,1
user,0,4
user,1,5
object,0,1
object,1,5
rule,0,d10
rule,1,d01
end
",
    answers: "u,0,6,8,8,36,0,1,2,3,4,5,4,5
o,0,6,8,8,36,0,1,2,2,3,4,5,5
g,0,6,8,8,36,\
3,2,2,1,0,0,\
3,2,2,3,2,2,\
3,3,2,1,1,0,\
3,3,2,3,3,2,\
3,3,3,1,1,1,\
3,3,3,3,3,3
T,0,44,0,44,0,0,4,4,8,8,12,12,16,17,20,21,24,25,28,29,32,63
T,0,48,1,48,0,3,8,19,24,35,40,51,56,63
F,2,0,0,1,1
F,1,0,0,2,1
F,2,0,0,2,2
F,1,0,0,4,1
F,1,0,0,4,3
F,2,0,1,4,4
F,2,0,1,6,4
F,1,0,1,1,4
P,3,0,4,6
P,4,0,2,4
D,4,0,2,4,0,2
",
    lent: [6, 6, 8, 8, 36],
    calls: &[
        (open(0, 0, 4), DONE),
        (request(0, 0, 0), GRANTED),
        (request(0, 1, 0), GRANTED),
        (request(0, 0, 1), GRANTED),
        (request(0, 1, 1), DENIED),
        (add(0, 0, 1), 19),
        (open(1, 1, 1), DONE),
        (request(1, 0, 0), DENIED),
        (request(1, 1, 1), GRANTED),
        (add(1, 1, 4), DONE),
        (request(1, 0, 1), GRANTED),
    ],
    held: &[[0, 0, 4], [1, 1, 5]],
};

/// The highest value is senior to the lowest, and the middle one stands aside.
const ASIDE: Example = Example {
    text: "policy,1
uattr,3
oattr,3
usen,2,0
user,0,4
user,1,6
object,0,1
object,1,2
object,2,5
object,3,7
rule,0,d00
end
",
    answers: "u,0,6,8,8,36,0,1,2,3,4,4,5,5
o,0,6,8,8,36,0,1,2,3,4,4,5,5
g,0,6,8,8,36,\
1,0,0,0,0,0,\
1,1,0,0,0,0,\
1,0,1,0,0,0,\
1,1,1,1,0,0,\
1,1,0,0,1,0,\
1,1,1,1,1,1
T,0,33,0,33,0,0,8,9,16,16,18,18,24,27,32,33,36,37,40,41,44,45,48,63
F,2,0,0,2,1
F,1,0,0,4,1
F,2,0,0,4,2
F,1,0,0,4,5
F,2,0,0,4,7
F,1,0,0,6,7
P,3,0,4,5
P,3,0,6,7
P,4,0,4,6
D,4,0,4,6,0,2
",
    lent: [6, 6, 8, 8, 36],
    calls: &[
        (open(0, 0, 4), DONE),
        (request(0, 0, 0), GRANTED),
        (request(0, 0, 1), DENIED),
        (request(0, 0, 2), GRANTED),
        (request(0, 0, 3), DENIED),
        (open(1, 1, 6), DONE),
        (request(1, 0, 3), GRANTED),
        (drop(1, 1, 4), DONE),
        (request(1, 0, 0), DENIED),
        (request(1, 0, 1), GRANTED),
    ],
    held: &[[0, 0, 4], [1, 1, 2]],
};

/// Texts in which seniority has a part in comparisons, or might be thought to, each
/// with the answers' lines, of which the first is the reading's.
pub fn example_cases() -> Vec<(String, String)> {
    let examples = [LEVELS, BOTH_SIDES, OBJECTS_ALONE, OTHER_PLACES, ASIDE];
    let mut cases: Vec<_> = examples.iter().map(example).collect();
    cases.push(longest_chain());
    cases
}

fn example(example: &Example) -> (String, String) {
    let list = list(example.lent, example.calls, example.held);
    let answers = example.answers;
    let head = read_as("Y") + &written(example.text);
    (example.text.to_string(), format!("{head}{answers}{list}"))
}

/// Seven values, each directly senior to the one below alone: a set counts by its
/// highest value.
fn longest_chain() -> (String, String) {
    let lines: String = (1..7).map(|v| format!("usen,{v},{}\n", v - 1)).collect();
    let text = format!("policy,1\nuattr,7\noattr,7\n{lines}rule,0,d00\nend\n");
    let mut labels = ",0".to_string();
    let mut table = String::new();
    let mut tuples = ",0,0".to_string();
    for label in 1..8 {
        labels += &format!(",{label}").repeat(1 << (label - 1));
    }
    for label in 0..8 {
        table += &",1".repeat(label + 1);
        table += &",0".repeat(7 - label);
    }
    for highest in 0..6 {
        for set in 1 << highest..2 << highest {
            tuples += &format!(",{},{}", set * 128, set * 128 + (2 << highest) - 1);
        }
    }
    let mut answers = read_as("Y") + &written(&text);
    answers += &format!("u,0,8,128,128,64{labels}\no,0,8,128,128,64{labels}\n");
    answers += &format!("g,0,8,128,128,64{table}\n");
    // 1 for no value, and for the highest value h as many as 2^h times 2^(h+1).
    answers += &format!("T,0,10923,0,10923{tuples},8192,16383\n");
    answers += "F,1,0,0,64,1\nF,1,0,0,64,127\nF,1,0,0,32,63\nF,2,0,0,63,64\n";
    (text, answers)
}

#[cfg(test)]
mod tests {
    use super::*;
    use crate::formula::{holds, is_senior, Formulas};
    use crate::policy::{first_value, Policy, Set, Word};
    use crate::spelled::spelled_out;
    use crate::text::read;
    use crate::tuples::{stored, tuples, Stored};

    /// What a comparison might be taken for: the sets that it is asked of, where it
    /// looks at places alone.
    type Meaning = fn(&Policy, Set, Set) -> (Set, Set);

    /// A set, and what has a value of it to stand for it.
    fn grown(set: Set, stands: impl Fn(u32, u32) -> bool) -> Set {
        let gained = |value| (0..7).any(|held| holds(set, held) && stands(held, value));
        let values = (0..7).filter(|&value| holds(set, value) || gained(value));
        values.map(|value| 1 << value).sum()
    }

    fn with_juniors(lines: &[(u32, u32)], set: Set) -> Set {
        grown(set, |held, value| is_senior(lines, held, value))
    }

    fn with_seniors(lines: &[(u32, u32)], set: Set) -> Set {
        grown(set, |held, value| is_senior(lines, value, held))
    }

    const D: Meaning = |p, us, os| (with_juniors(&p.user_seniority, us), os);
    const Q: Meaning = |_, us, os| (us, os);

    const WRONG_D: [(&str, Meaning); 10] = [
        ("places alone", Q),
        ("a junior for its senior", |p, us, os| {
            (with_seniors(&p.user_seniority, us), os)
        }),
        ("direct lines alone", |p, us, os| {
            let direct = |held, value| p.user_seniority.contains(&(held, value));
            (grown(us, direct), os)
        }),
        ("any higher value", |_, us, os| {
            (grown(us, |held, value| held > value), os)
        }),
        ("lines by the last attribute's places", |p, us, os| {
            let first = first_value(&p.user_widths, p.user_widths.len() as u32 - 1);
            let lines = p.user_seniority.iter().map(|l| (l.0 + first, l.1 + first));
            let lines: Vec<_> = lines.collect();
            (with_juniors(&lines, us), os)
        }),
        ("the objects' seniority", |p, us, os| {
            (with_juniors(&p.object_seniority, us), os)
        }),
        ("the seniority of both", |p, us, os| {
            let both = [&p.user_seniority[..], &p.object_seniority].concat();
            (with_juniors(&both, us), os)
        }),
        ("an object's juniors due", |p, us, os| {
            (D(p, us, os).0, with_juniors(&p.object_seniority, os))
        }),
        ("an object's seniors due", |p, us, os| {
            (D(p, us, os).0, with_seniors(&p.object_seniority, os))
        }),
        ("a junior beside its senior not due", |p, us, os| {
            let below = |value| {
                (0..7).any(|held| holds(os, held) && is_senior(&p.object_seniority, held, value))
            };
            let due = (0..7).filter(|&value| holds(os, value) && !below(value));
            (D(p, us, os).0, due.map(|value| 1 << value).sum())
        }),
    ];

    const WRONG_Q: [(&str, Meaning); 3] = [
        ("by the users' seniority", D),
        ("by the objects' seniority", |p, us, os| {
            (us, with_juniors(&p.object_seniority, os))
        }),
        ("by the seniority of both", |p, us, os| {
            (D(p, us, os).0, with_juniors(&p.object_seniority, os))
        }),
    ];

    /// The rules of the examples that are one comparison of a sort.
    fn comparisons(sort: fn(&Word) -> bool) -> Vec<(Policy, u32)> {
        let mut found = Vec::new();
        for (text, _) in example_cases() {
            let policy = read(text.as_bytes()).expect("accepted");
            let rules = policy.rules.iter();
            let wanted = rules.filter(|rule| rule.words.len() == 1 && sort(&rule.words[0]));
            found.extend(wanted.map(|rule| (policy.clone(), rule.action)));
        }
        found
    }

    /// The tuples of a rule that is one comparison, by a meaning of it.
    fn listing(policy: &Policy, action: u32, meaning: Meaning) -> Vec<Stored> {
        let plain = spelled_out(policy);
        let formulas = Formulas::of(&plain);
        let mut listing = Vec::new();
        for us in 0..policy.user_sets() {
            for os in 0..policy.object_sets() {
                let (user_set, object_set) = meaning(policy, us, os);
                if formulas.is_true(action, user_set, object_set) {
                    listing.push(stored(policy, us, os));
                }
            }
        }
        listing
    }

    /// How many of the examples' comparisons of a sort a meaning lists otherwise.
    fn unlike(sort: fn(&Word) -> bool, meaning: Meaning) -> usize {
        let rules = comparisons(sort).into_iter();
        rules
            .filter(|(policy, action)| {
                tuples(policy, *action) != Ok(listing(policy, *action, meaning))
            })
            .count()
    }

    #[test]
    fn every_wrong_meaning_lists_other_tuples() {
        let d: fn(&Word) -> bool = |word| matches!(word, Word::Within(..));
        let q: fn(&Word) -> bool = |word| matches!(word, Word::Same(..));
        assert_eq!((comparisons(d).len(), comparisons(q).len()), (7, 2));
        assert_eq!((unlike(d, D), unlike(q, Q)), (0, 0));
        for (name, meaning) in WRONG_D {
            assert!(unlike(d, meaning) > 0, "{name}");
        }
        for (name, meaning) in WRONG_Q {
            assert!(unlike(q, meaning) > 0, "{name}");
        }
    }
}
