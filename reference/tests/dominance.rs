//! Dominance that follows seniority: laws that every made case obeys, and how often
//! it decides in them.

mod made;

use made::{accepted, SEED};
use reference::cases::{text_without_dominance, text_without_forms, Rng};
use reference::labels::grants;
use reference::policy::{attribute_of, first_value, Policy, Rule, Word};
use reference::spelled::{a_senior_decides, any_of, or_seniors, spelled_out};

const CASES: u64 = 400;
const THOUSAND: u64 = 1000;

/// The policy with other words for each `d`.
fn with_words(policy: &Policy, words: impl Fn(u32, u32) -> Vec<Word>) -> Policy {
    let other = |word: &Word| match *word {
        Word::Within(i, j) => words(i, j),
        _ => vec![*word],
    };
    let rules = policy.rules.iter().map(|rule| Rule {
        action: rule.action,
        words: rule.words.iter().flat_map(other).collect(),
    });
    Policy {
        rules: rules.collect(),
        ..policy.clone()
    }
}

/// For each place: the object set does not hold it, or the user set holds it or a
/// senior of it. The words are for a policy without lines of seniority.
fn place_by_place(policy: &Policy, i: u32, j: u32) -> Vec<Word> {
    let mut words = vec![Word::True];
    for place in 0..policy.user_widths[i as usize] {
        let user = first_value(&policy.user_widths, i) + place;
        let object = first_value(&policy.object_widths, j) + place;
        words.extend([Word::Object(object), Word::Not]);
        words.extend(any_of(or_seniors(policy, user), Word::User));
        words.extend([Word::Or, Word::And]);
    }
    words
}

#[test]
fn dominance_is_a_holding_for_each_place() {
    let mut decided = 0;
    for (_, policy) in accepted(CASES) {
        let spelled = with_words(&spelled_out(&policy), |i, j| place_by_place(&policy, i, j));
        assert_eq!(grants(&policy), grants(&spelled));
        decided += u32::from(a_senior_decides(&policy));
    }
    assert!(decided > 20, "{decided}");
}

#[test]
fn without_seniority_of_users_dominance_looks_at_places_alone() {
    let plain = accepted(CASES).filter(|(_, policy)| policy.user_seniority.is_empty());
    let mut by_objects = 0;
    for (_, policy) in plain {
        assert!(!a_senior_decides(&policy));
        by_objects += u32::from(!policy.object_seniority.is_empty());
    }
    assert!(by_objects > 20, "{by_objects}");
}

#[test]
fn no_senior_decides_in_q() {
    for (_, policy) in accepted(CASES) {
        let same = with_words(&policy, |i, j| vec![Word::Same(i, j)]);
        assert!(!a_senior_decides(&same));
    }
}

/// Whether a `d` of the policy names a user attribute with a line of seniority.
fn follows_a_line(policy: &Policy) -> bool {
    let lines = policy.user_seniority.iter();
    let senior: Vec<_> = lines
        .map(|line| attribute_of(&policy.user_widths, line.0))
        .collect();
    let mut words = policy.rules.iter().flat_map(|rule| &rule.words);
    words.any(|word| matches!(word, Word::Within(i, _) if senior.contains(&Some(*i))))
}

#[test]
fn dominance_by_seniority_comes_up_in_the_made_cases() {
    let (mut all, mut follows, mut decided) = (0, 0, 0);
    let (mut more, mut less) = (0, 0);
    for (_, policy) in accepted(THOUSAND) {
        all += 1;
        follows += u32::from(follows_a_line(&policy));
        if !a_senior_decides(&policy) {
            continue;
        }
        assert!(follows_a_line(&policy));
        decided += 1;
        let (rows, plain) = (grants(&policy), grants(&spelled_out(&policy)));
        let bytes = || rows.concat().into_iter().zip(plain.concat());
        more += u32::from(bytes().any(|(byte, plain)| byte & !plain != 0));
        less += u32::from(bytes().any(|(byte, plain)| plain & !byte != 0));
    }
    assert!(
        follows * 5 > all && decided * 10 > all,
        "{follows} {decided}"
    );
    // Granted by a senior, and denied by one where it is asked not to cover.
    assert!(more > 30 && less > 10, "{more} {less}");
}

/// What is put in is lines of seniority of users, and another word in a rule.
#[test]
fn a_text_that_gets_no_dominance_is_as_it_is_without_it() {
    let lines = |text: Vec<u8>| -> Vec<String> {
        let text = String::from_utf8(text).expect("a text");
        let others = text.lines().filter(|line| !line.starts_with("usen"));
        others.map(String::from).collect()
    };
    let mut changed = 0;
    for case in (0..CASES).step_by(2) {
        let with = lines(text_without_forms(&mut Rng::new(SEED, case), case));
        let without = lines(text_without_dominance(&mut Rng::new(SEED, case), case));
        assert_eq!(with.len(), without.len());
        let unlike: Vec<_> = with.iter().zip(&without).filter(|(a, b)| a != b).collect();
        assert!(unlike.len() <= 1);
        changed += unlike.len();
        for (with, without) in unlike {
            let words = with.split(',').zip(without.split(','));
            let other: Vec<_> = words.filter(|(a, b)| a != b).collect();
            assert!(other.len() == 1 && other[0].0.starts_with('d'), "{case}");
        }
    }
    assert!((30..100).contains(&changed), "{changed}");
}
