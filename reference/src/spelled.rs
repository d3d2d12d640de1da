//! A policy without lines of seniority that has the same holdings and pairs, as
//! the values that stand for another are spelled out. Comparisons stay as they
//! are and look at places alone there, so the two policies grant alike but for
//! what `d` has by seniority.
//!
//! A formula may get longer than in any text, and reach is without juniors.

use crate::formula::is_senior;
use crate::labels::grants;
use crate::policy::{Pair, Policy, Rule, Word};

pub fn spelled_out(policy: &Policy) -> Policy {
    let rules = policy.rules.iter().map(|rule| {
        let words = rule.words.iter();
        Rule {
            action: rule.action,
            words: words.flat_map(|&word| spelled(policy, word)).collect(),
        }
    });
    Policy {
        user_seniority: Vec::new(),
        object_seniority: Vec::new(),
        rules: rules.collect(),
        pairs: policy.pairs.iter().flat_map(|p| pairs(policy, p)).collect(),
        ..policy.clone()
    }
}

/// Whether an action is granted or denied somewhere only because a senior covers
/// its juniors in `d`.
pub fn a_senior_decides(policy: &Policy) -> bool {
    grants(policy) != grants(&spelled_out(policy))
}

/// A user value and its seniors.
pub fn or_seniors(policy: &Policy, value: u32) -> Vec<u32> {
    let stands = |v: &u32| *v == value || is_senior(&policy.user_seniority, *v, value);
    (0..policy.user_values()).filter(stands).collect()
}

/// An object value and its juniors.
fn or_juniors(policy: &Policy, value: u32) -> Vec<u32> {
    let stands = |w: &u32| *w == value || is_senior(&policy.object_seniority, value, *w);
    (0..policy.object_values()).filter(stands).collect()
}

fn spelled(policy: &Policy, word: Word) -> Vec<Word> {
    match word {
        Word::User(value) => any_of(or_seniors(policy, value), Word::User),
        Word::Object(value) => any_of(or_juniors(policy, value), Word::Object),
        _ => vec![word],
    }
}

/// Words that push whether one of the values is held; there is at least one.
pub fn any_of(values: Vec<u32>, holding: fn(u32) -> Word) -> Vec<Word> {
    let mut words: Vec<Word> = values.iter().map(|&value| holding(value)).collect();
    words.extend(vec![Word::Or; values.len() - 1]);
    words
}

fn pairs(policy: &Policy, pair: &Pair) -> Vec<Pair> {
    let users = or_seniors(policy, pair.user).into_iter();
    users
        .flat_map(|user| {
            let objects = or_juniors(policy, pair.object).into_iter();
            objects.map(move |object| Pair {
                user,
                object,
                ..*pair
            })
        })
        .collect()
}

#[cfg(test)]
mod tests {
    use super::*;
    use crate::text::read;

    #[test]
    fn seniors_of_users_and_juniors_of_objects_are_spelled_out() {
        let text = b"policy,1\nuattr,3\noattr,2\nusen,1,0\nusen,2,1\nosen,1,0\n\
            rule,3,u0,o1,a,u2,r\npair,0,1,1\nend\n";
        let plain = spelled_out(&read(text).expect("accepted"));
        assert!(plain.user_seniority.is_empty() && plain.object_seniority.is_empty());
        let (u, o, or) = (Word::User, Word::Object, Word::Or);
        let users = [u(0), u(1), u(2), or, or];
        let rest = [o(0), o(1), or, Word::And, u(2), or];
        assert_eq!(plain.formula(3), [&users[..], &rest[..]].concat());
        let pairs: Vec<_> = plain.pairs.iter().map(|p| (p.user, p.object)).collect();
        assert_eq!(pairs, [(1, 0), (1, 1), (2, 0), (2, 1)]);
    }

    #[test]
    fn a_senior_decides_where_a_comparison_follows_seniority() {
        let decides = |lines: &str| {
            let text = format!("policy,1\nuattr,2\noattr,2\n{lines}end\n");
            a_senior_decides(&read(text.as_bytes()).expect("accepted"))
        };
        assert!(decides("usen,1,0\nrule,0,d00\n") && decides("usen,1,0\nrule,0,u0,d00,n,a\n"));
        assert!(!decides("rule,0,d00\n") && !decides("osen,1,0\nrule,0,d00\n"));
        assert!(!decides(
            "usen,1,0\nosen,1,0\nrule,0,q00\nrule,1,u0,o1,a\npair,2,0,1\n"
        ));
        assert!(!decides("usen,1,0\nrule,0,d00,t,r\n"));
    }
}
