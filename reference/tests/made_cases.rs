//! What the made cases cover, and what must hold of every one of them.

mod made;

use made::{accepted, made, SEED};
use reference::cases::{calls, Rng};
use reference::cases::{text_without_conflicts, text_without_dominance, text_without_pairs};
use reference::form::FORMS;
use reference::formula::{decide, holds, is_senior, Formulas};
use reference::labels::{apart, compile, grants, grants_alike, Entry};
use reference::machine::{run, step, Answer, Call, Sessions};
use reference::policy::{Conflict, Pair, Policy, Set};
use reference::text::{read, write, MOST_CONFLICTS, MOST_PAIRS, MOST_TOGETHER};
use reference::tuples::{stored, tuples};
use std::collections::BTreeSet;

const CASES: u64 = 2000;
/// Each refusal comes up among the first so many.
const THOUSAND: u64 = 1000;

#[test]
fn equal_seeds_make_equal_cases() {
    for case in 0..50 {
        assert_eq!(made(case).1, made(case).1);
    }
    assert_ne!(made(0).1, made(16).1);
}

#[test]
fn even_cases_are_accepted() {
    for case in (0..CASES).step_by(2) {
        let text = made(case).1;
        assert!(
            read(&text).is_ok(),
            "{case}: {}",
            String::from_utf8_lossy(&text)
        );
    }
}

#[test]
fn accepted_texts_are_written_again() {
    for case in 0..CASES {
        let text = made(case).1;
        if let Ok(policy) = read(&text) {
            assert_eq!(write(&policy), text, "{case}");
        }
    }
}

#[test]
fn every_refusal_of_the_reader_comes_up() {
    let refusals: BTreeSet<u32> = (0..THOUSAND)
        .filter_map(|case| read(&made(case).1).err())
        .map(|r| r.refusal)
        .collect();
    assert!(
        refusals.iter().copied().eq((1..=10).chain([21, 22])),
        "{refusals:?}"
    );
}

/// The line that a text is refused at, with the refusal and how many lines of a
/// kind stand before it.
fn refused_at(text: &[u8], kind: &str) -> Option<(u32, String, usize)> {
    let refused = read(text).err()?;
    let text = String::from_utf8_lossy(text);
    let mut lines = text.split('\n');
    let before = lines.by_ref().take(refused.line);
    let count = before.filter(|line| begins(line, kind)).count();
    Some((refused.refusal, lines.next()?.to_string(), count))
}

fn begins(line: &str, kind: &str) -> bool {
    line.split(',').next() == Some(kind)
}

/// Of each kind with a limit: before it and past it, and another kind behind it.
#[test]
fn every_refusal_of_a_line_past_a_limit_comes_up() {
    for (kind, most, past_it, earlier) in [
        ("pair", MOST_PAIRS, 21, "rule"),
        ("conflict", MOST_CONFLICTS, 22, "object"),
    ] {
        let found: Vec<_> = (0..4 * CASES)
            .filter_map(|case| refused_at(&made(case).1, kind))
            .collect();
        let comes = |refusal, past| {
            found.iter().any(|(found, line, count)| {
                *found == refusal && line.starts_with(kind) && (*count == most) == past
            })
        };
        for refusal in 3..=7 {
            assert!(
                comes(refusal, false) && comes(refusal, true),
                "{kind} {refusal}"
            );
        }
        assert!(comes(past_it, true) && !comes(past_it, false));
        assert!(found
            .iter()
            .any(|(refusal, line, count)| *refusal == 3 && begins(line, earlier) && *count > 0));
    }
}

#[test]
fn a_text_that_gets_no_conflicts_or_pairs_is_as_it_is_without_them() {
    let without_kind = |text: &str, kind| {
        let lines = text.split_inclusive('\n');
        lines.filter(|line| !begins(line, kind)).collect::<String>()
    };
    let mut same = [0, 0];
    for case in (0..200).step_by(2) {
        let rng = || Rng::new(SEED, case);
        let with = text_without_dominance(&mut rng(), case);
        let with = String::from_utf8(with).expect("a text");
        let one = without_kind(&with, "conflict");
        let none = without_kind(&one, "pair");
        assert_eq!(
            one.as_bytes(),
            text_without_conflicts(&mut rng(), case),
            "{case}"
        );
        assert_eq!(
            none.as_bytes(),
            text_without_pairs(&mut rng(), case),
            "{case}"
        );
        same[0] += u32::from(with == one);
        same[1] += u32::from(one == none);
    }
    assert!((30..70).contains(&same[0]), "{same:?}");
    assert!((10..50).contains(&same[1]), "{same:?}");
}

#[test]
fn lengths_around_the_longest_come_up() {
    let lengths: BTreeSet<usize> = (0..CASES).map(|case| made(case).1.len()).collect();
    assert!((8191..=8193).all(|length| lengths.contains(&length)));
}

#[test]
fn texts_at_every_limit_come_up() {
    let full = |policy: &Policy| {
        let values = policy.form.values;
        (policy.user_values(), policy.object_values()) == (values, values)
            && (policy.users.len(), policy.objects.len()) == (32, 64)
            && policy.rules.len() == policy.actions() as usize
            && policy.rules.iter().all(|rule| rule.words.len() == 32)
    };
    let found = (0..8 * CASES).step_by(2);
    let found: Vec<Policy> = found
        .filter_map(|case| read(&made(case).1).ok().filter(full))
        .collect();
    for form in FORMS {
        let count = found.iter().filter(|policy| policy.form == form).count();
        assert!(count > 10, "{form:?} {count}");
    }
    let all = |policy: &Policy| {
        (policy.pairs.len(), policy.conflicts.len()) == (MOST_PAIRS, MOST_CONFLICTS)
    };
    assert!(found.iter().any(all));
}

#[test]
fn a_label_for_every_set_comes_up() {
    let most = (0..CASES).step_by(32).any(|case| {
        let labelling = compile(&read(&made(case).1).expect("accepted"));
        (labelling.user_count, labelling.object_count) == (128, 128)
    });
    assert!(most);
}

#[test]
fn every_answer_of_the_machine_comes_up() {
    let mut refusals = BTreeSet::new();
    let mut plain = [false; 3];
    for (mut rng, policy) in accepted(THOUSAND) {
        let calls = calls(&mut rng, &policy, 40, u32::MAX);
        for answer in run(&policy, &calls).0 {
            match answer {
                Answer::Done => plain[0] = true,
                Answer::Granted => plain[1] = true,
                Answer::Denied => plain[2] = true,
                Answer::Refused(refusal) => drop(refusals.insert(refusal)),
            }
        }
    }
    let all = (12..=19).chain([23]);
    assert!(refusals.iter().copied().eq(all), "{refusals:?}");
    assert_eq!(plain, [true; 3]);
}

#[test]
fn no_number_of_a_call_is_above_the_largest() {
    for (mut rng, policy) in accepted(100) {
        for call in calls(&mut rng, &policy, 40, 200) {
            let numbers: Vec<u64> = format!("{call:?}")
                .split(|c: char| !c.is_ascii_digit())
                .filter_map(|number| number.parse().ok())
                .collect();
            assert!(
                !numbers.is_empty() && numbers.iter().all(|&n| n <= 200),
                "{call:?}"
            );
        }
    }
}

#[test]
fn labellings_grant_alike_and_merge_all_they_can() {
    for (_, policy) in accepted(200) {
        let labelling = compile(&policy);
        assert!(grants_alike(&policy, &labelling));
        let rows: BTreeSet<Vec<Entry>> = grants(&policy).into_iter().collect();
        assert_eq!(rows.len(), labelling.user_count);
        let highest = labelling
            .user_labels
            .iter()
            .max()
            .map(|&label| label as usize + 1);
        assert_eq!(highest, Some(labelling.user_count));
        assert_eq!(
            labelling.table.len(),
            labelling.user_count * labelling.object_count
        );
    }
}

#[test]
fn apart_agrees_with_the_labels_and_its_witness_separates() {
    for (mut rng, policy) in accepted(400) {
        let labels = compile(&policy).user_labels;
        for _ in 0..8 {
            let (one, other) = (rng.below(policy.user_sets()), rng.below(policy.user_sets()));
            let answer = apart(&policy, one, other).expect("two user sets");
            assert_eq!(
                answer.is_none(),
                labels[one as usize] == labels[other as usize]
            );
            if let Some((action, object_set)) = answer {
                let granted = |us| decide(&policy, action, us, object_set).expect("decided");
                assert_ne!(granted(one), granted(other));
            }
        }
    }
}

#[test]
fn tuples_are_the_pairs_granted() {
    for (mut rng, policy) in accepted(400) {
        let action = rng.below(policy.actions());
        let listing = tuples(&policy, action).expect("listed");
        assert!(listing.windows(2).all(|pair| pair[0] < pair[1]));
        let end = policy.user_sets() * policy.object_sets();
        assert!(listing.iter().all(|&tuple| tuple < end));
        for _ in 0..8 {
            let (us, os) = (
                rng.below(policy.user_sets()),
                rng.below(policy.object_sets()),
            );
            let listed = listing.contains(&stored(&policy, us, os));
            assert_eq!(decide(&policy, action, us, os), Ok(listed));
        }
    }
}

/// Whether a pair grants, by asking the chains of seniority each time.
fn meets(policy: &Policy, pair: &Pair, us: u32, os: u32) -> bool {
    let user = (0..policy.user_values()).any(|v| {
        holds(us, v) && (v == pair.user || is_senior(&policy.user_seniority, v, pair.user))
    });
    let object = (0..policy.object_values()).any(|w| {
        holds(os, w) && (w == pair.object || is_senior(&policy.object_seniority, pair.object, w))
    });
    user && object
}

#[test]
fn granted_is_by_the_formula_or_by_a_pair_of_the_action() {
    // Granted by the formula alone, by pairs alone and by both, with a rule or not.
    let mut ways = BTreeSet::new();
    for (_, policy) in accepted(THOUSAND).filter(|(_, policy)| policy.user_values() < 5) {
        let plain = Policy {
            pairs: Vec::new(),
            ..policy.clone()
        };
        let (rows, plain_rows) = (grants(&policy), grants(&plain));
        for (us, os) in sets(&policy) {
            for action in 0..policy.actions() {
                let bit = |rows: &[Vec<Entry>]| rows[us as usize][os as usize] >> action & 1 == 1;
                let mut pairs = policy.pairs.iter().filter(|pair| pair.action == action);
                let by_pair = pairs.any(|pair| meets(&policy, pair, us, os));
                let by_formula = bit(&plain_rows);
                assert_eq!(bit(&rows), by_formula || by_pair);
                let ruled = policy.rules.iter().any(|rule| rule.action == action);
                ways.insert((ruled, by_formula, by_pair));
            }
        }
    }
    let all = [
        (0, 0, 0),
        (0, 0, 1),
        (1, 0, 0),
        (1, 0, 1),
        (1, 1, 0),
        (1, 1, 1),
    ];
    assert!(ways
        .into_iter()
        .eq(all.map(|(r, f, p)| (r == 1, f == 1, p == 1))));
}

fn sets(policy: &Policy) -> Vec<(u32, u32)> {
    let users = 0..policy.user_sets();
    users
        .flat_map(|us| (0..policy.object_sets()).map(move |os| (us, os)))
        .collect()
}

/// A pair says no more than `uV,oW,a` does, joined to its action's formula.
#[test]
fn pairs_grant_what_formulas_of_them_would() {
    let mut tried = 0;
    for (_, policy) in accepted(400).filter(|(_, policy)| !policy.pairs.is_empty()) {
        let text = String::from_utf8(write(&policy)).expect("a text");
        let head = text
            .lines()
            .filter(|l| !l.starts_with("rule") && !l.starts_with("pair"));
        let mut lines: Vec<String> = head.map(String::from).collect();
        let end = lines.pop().expect("an end");
        for action in 0..policy.actions() {
            let prefix = format!("rule,{action},");
            let rule = text.lines().find(|line| line.starts_with(&prefix));
            let mut line = rule.map_or(format!("{prefix}f"), String::from);
            for pair in policy.pairs.iter().filter(|pair| pair.action == action) {
                line += &format!(",u{},o{},a,r", pair.user, pair.object);
            }
            lines.push(line);
        }
        lines.push(end + "\n");
        // Refused where a formula has more than 32 words.
        if let Ok(formulas) = read(lines.join("\n").as_bytes()) {
            assert_eq!(compile(&policy), compile(&formulas));
            tried += 1;
        }
    }
    assert!(tried > 60, "{tried}");
}

/// A senior of a pair's user value is granted and a junior may be denied; of its
/// object value it is the other way round.
#[test]
fn both_directions_of_seniority_come_up() {
    let (mut users, mut objects) = (0, 0);
    for (_, policy) in accepted(THOUSAND) {
        for pair in &policy.pairs {
            let granted = |user: u32, object: u32| {
                decide(&policy, pair.action, 1 << user, 1 << object) == Ok(true)
            };
            for &(senior, junior) in &policy.user_seniority {
                assert!(junior != pair.user || granted(senior, pair.object));
                users += u32::from(senior == pair.user && !granted(junior, pair.object));
            }
            for &(senior, junior) in &policy.object_seniority {
                assert!(senior != pair.object || granted(pair.user, junior));
                objects += u32::from(junior == pair.object && !granted(pair.user, senior));
            }
        }
    }
    assert!(users > 100 && objects > 100, "{users} {objects}");
}

#[test]
fn texts_with_pairs_of_every_number_come_up() {
    let counts: BTreeSet<usize> = accepted(THOUSAND)
        .map(|(_, policy)| policy.pairs.len())
        .collect();
    assert!([0, 1, 2, 3, 4, 5, 6, MOST_PAIRS]
        .iter()
        .all(|count| counts.contains(count)));
    assert!(
        accepted(THOUSAND).any(|(_, policy)| policy.rules.is_empty() && !policy.pairs.is_empty())
    );
}

/// A policy with conflicts and a list of calls on it.
fn with_conflicts() -> impl Iterator<Item = (Policy, Vec<Call>)> {
    let found = accepted(THOUSAND).filter(|(_, policy)| !policy.conflicts.is_empty());
    found.map(|(mut rng, policy)| {
        let calls = calls(&mut rng, &policy, 40, u32::MAX);
        (policy, calls)
    })
}

/// The same policy with other conflicts.
fn changed(policy: &Policy, conflicts: Vec<Conflict>) -> Policy {
    Policy {
        conflicts,
        ..policy.clone()
    }
}

/// Whether a set has more values of some conflict than that lets a session hold,
/// by looking at each value.
fn over(policy: &Policy, set: Set) -> bool {
    policy.conflicts.iter().any(|conflict| {
        let values = 0..policy.user_values();
        let held = values.filter(|&v| holds(set, v) && holds(conflict.set, v));
        held.count() > conflict.most as usize
    })
}

#[test]
fn an_open_session_keeps_to_every_conflict_and_only_open_and_add_get_23() {
    let mut found = [0; 4];
    for (policy, calls) in with_conflicts() {
        let mut sessions = Sessions::new();
        for call in &calls {
            let (after, answer) = step(&policy, &sessions, call);
            let asked = match *call {
                Call::Open { set, .. } => Some((0, set)),
                Call::Add { session, set, .. } => {
                    Some((2, set | sessions.get(&session).map_or(0, |entry| entry.1)))
                }
                _ => None,
            };
            let refused = answer == Answer::Refused(23);
            if let Some((place, held)) = asked.filter(|_| refused || answer == Answer::Done) {
                assert_eq!(refused, over(&policy, held), "{call:?}");
                found[place + usize::from(refused)] += 1;
            }
            assert!(asked.is_some() || !refused, "{call:?}");
            assert!(after.values().all(|entry| !over(&policy, entry.1)));
            sessions = after;
        }
    }
    // Opened, refused, added, refused: each of them often.
    assert!(found.iter().all(|&count| count > 40), "{found:?}");
}

#[test]
fn without_conflicts_calls_are_answered_alike_up_to_the_first_23() {
    let (mut refused, mut alike) = (0, 0);
    for (policy, calls) in with_conflicts() {
        let plain = changed(&policy, Vec::new());
        let (answers, plain_answers) = (run(&policy, &calls).0, run(&plain, &calls).0);
        assert!(!plain_answers.contains(&Answer::Refused(23)));
        match answers.iter().position(|&a| a == Answer::Refused(23)) {
            Some(first) => {
                assert_eq!(answers[..first], plain_answers[..first]);
                refused += 1;
            }
            None => {
                assert_eq!(answers, plain_answers);
                alike += 1;
            }
        }
    }
    assert!(refused > 50 && alike > 50, "{refused} {alike}");
}

/// A conflict of no values, or one that allows all of its values, says nothing.
#[test]
fn conflicts_that_forbid_nothing_refuse_nothing() {
    for (policy, calls) in with_conflicts() {
        let plain = run(&changed(&policy, Vec::new()), &calls);
        let sets = policy.conflicts.iter().map(|conflict| conflict.set);
        // Of more values than a line may let hold, some are always forbidden.
        let sets = sets.filter(|set| set.count_ones() <= MOST_TOGETHER);
        let all = sets.clone().map(|set| Conflict {
            set,
            most: MOST_TOGETHER,
        });
        let just = sets.map(|set| Conflict {
            set,
            most: set.count_ones(),
        });
        let none = vec![Conflict { set: 0, most: 0 }];
        for conflicts in [all.collect(), just.collect(), none] {
            assert_eq!(run(&changed(&policy, conflicts), &calls), plain);
        }
    }
}

#[test]
fn conflicts_grant_and_deny_nothing() {
    for (policy, _) in with_conflicts().take(100) {
        let plain = changed(&policy, Vec::new());
        assert_eq!(compile(&policy), compile(&plain));
    }
}

#[test]
fn conflicts_of_every_number_and_size_come_up() {
    let all: Vec<Policy> = accepted(CASES).map(|(_, policy)| policy).collect();
    let counts: BTreeSet<usize> = all.iter().map(|policy| policy.conflicts.len()).collect();
    let some = [0, 1, 2, 3, 4, 8, MOST_CONFLICTS];
    assert!(some.iter().all(|count| counts.contains(count)));
    let conflicts: Vec<&Conflict> = all.iter().flat_map(|policy| &policy.conflicts).collect();
    for most in 0..=MOST_TOGETHER {
        let count = conflicts.iter().filter(|c| c.most == most).count();
        assert!(count > if most < 3 { 200 } else { 20 }, "{most}: {count}");
    }
    for size in 0..=9 {
        let count = conflicts.iter().filter(|c| c.set.count_ones() == size);
        assert!(count.count() > if size < 8 { 10 } else { 3 }, "{size}");
    }
}

fn first_line(policy: &Policy) -> String {
    format!("policy,{}\n", policy.form.number)
}

/// Holdings follow chains once and for all; this asks the chains each time.
#[test]
fn holdings_are_by_chains() {
    for (mut rng, policy) in accepted(400) {
        let value = rng.below(policy.user_values());
        let text = String::from_utf8(write(&policy)).expect("a text");
        let head: String = text
            .lines()
            .filter(|l| l.contains("attr") || l.contains("sen"))
            .fold(first_line(&policy), |head, line| head + line + "\n");
        let one = read(format!("{head}rule,0,u{value}\nend\n").as_bytes()).expect("accepted");
        for us in 0..one.user_sets() {
            let due = (0..one.user_values())
                .any(|v| holds(us, v) && (v == value || is_senior(&one.user_seniority, v, value)));
            assert_eq!(Formulas::of(&one).grants(0, us, 0), due);
        }
    }
}
