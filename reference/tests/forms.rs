//! The forms: laws that every made case obeys, and what comes up in them.

mod made;

use made::{accepted, made, SEED};
use reference::case_file::{self, answered, answered_for_all_widths, answered_for_byte_labels};
use reference::cases::{calls, text_without_form_3, text_without_forms, Rng};
use reference::form::{Form, FORMS, TUPLE_BITS, WIDTHS};
use reference::formula::decide;
use reference::labels::{apart, compile, compile_for, grants, Labelling};
use reference::lister::list;
use reference::machine::{run, run_for, Answer, Call};
use reference::policy::{Policy, Word};
use reference::text::{read, write, MOST_PAIRS};
use reference::tuples::{decide_by_tuples, decide_by_tuples_for, tuples, tuples_for};
use std::collections::BTreeSet;

const CASES: u64 = 400;
const THOUSAND: u64 = 1000;
const FIRST: Form = FORMS[0];
const THIRD: Form = FORMS[2];

/// The accepted ones of a form.
fn of_form(form: Form, cases: u64) -> impl Iterator<Item = (Rng, Policy)> {
    accepted(cases).filter(move |(_, policy)| policy.form == form)
}

/// The forms that have all that a form has.
fn later(form: Form) -> impl Iterator<Item = Form> {
    FORMS.into_iter().filter(move |l| l.number > form.number)
}

/// What the first line of a form's texts is.
fn first_line(form: Form) -> String {
    format!("policy,{}\n", form.number)
}

/// The text of a policy with the first line of another form.
fn renumbered(policy: &Policy, form: Form) -> Policy {
    let text = String::from_utf8(write(policy)).expect("a text");
    let text = text.replacen(&first_line(policy.form), &first_line(form), 1);
    read(text.as_bytes()).expect("accepted")
}

#[test]
fn a_text_grants_the_same_in_each_later_form() {
    let mut tried = [0, 0];
    for (_, policy) in accepted(CASES) {
        for later in later(policy.form) {
            let other = renumbered(&policy, later);
            let form = policy.form;
            let same = other.clone();
            assert_eq!(Policy { form, ..same }, policy);
            assert_eq!(grants(&other), grants(&policy));
            assert_eq!(list(&write(&other)), list(&write(&policy)));
            let (labelling, compiled) = (compile(&policy), compile(&other));
            assert_eq!(compiled.widths, later.widths);
            let widths = labelling.widths;
            assert_eq!(Labelling { widths, ..compiled }, labelling);
            for action in 0..later.actions {
                match action < form.actions {
                    true => assert_eq!(tuples(&other, action), tuples(&policy, action)),
                    false => {
                        assert_eq!(tuples(&policy, action), Err(12));
                        assert_eq!(tuples(&other, action), Ok(vec![]));
                    }
                }
            }
            tried[form.number as usize - 1] += 1;
        }
    }
    assert!(tried[0] > 150 && tried[1] > 40, "{tried:?}");
}

/// Every answer to calls on a text is the same in each later form, but for a request for an
/// action that only the later one has.
#[test]
fn calls_are_answered_the_same_but_for_the_new_actions() {
    let mut new = 0;
    for (mut rng, policy) in accepted(THOUSAND) {
        let calls = calls(&mut rng, &policy, 40, u32::MAX);
        let (answers, sessions) = run(&policy, &calls);
        for later in later(policy.form) {
            let other = renumbered(&policy, later);
            let (others, other_sessions) = run(&other, &calls);
            assert_eq!(sessions, other_sessions);
            for ((call, answer), other) in calls.iter().zip(&answers).zip(others) {
                match call {
                    Call::Request { action, .. }
                        if (policy.actions()..later.actions).contains(action) =>
                    {
                        assert_eq!(*answer, Answer::Refused(12));
                        assert_ne!(other, Answer::Granted);
                        new += u32::from(other == Answer::Denied);
                    }
                    _ => assert_eq!(*answer, other, "{call:?}"),
                }
            }
        }
    }
    assert!(new > 10, "{new}");
}

#[test]
fn compile_and_request_for_other_widths_get_11_and_change_nothing() {
    for (mut rng, policy) in accepted(CASES) {
        let calls = calls(&mut rng, &policy, 20, u32::MAX);
        let (answers, sessions) = run(&policy, &calls);
        for widths in WIDTHS {
            let own = widths == policy.form.widths;
            let due = if own { Ok(compile(&policy)) } else { Err(11) };
            assert_eq!(compile_for(&policy, widths), due);
            let (found, held) = run_for(&policy, widths, &calls);
            assert_eq!(held, sessions);
            for ((call, answer), found) in calls.iter().zip(&answers).zip(found) {
                let refused = !own && matches!(call, Call::Request { .. });
                let due = if refused {
                    Answer::Refused(11)
                } else {
                    *answer
                };
                assert_eq!(found, due, "{call:?}");
            }
        }
    }
}

/// Listing, and deciding by the listing, whatever else is wrong with the call.
#[test]
fn calls_for_tuples_of_other_bits_get_11() {
    for (mut rng, policy) in accepted(CASES) {
        let action = rng.below(policy.actions() + 2);
        let (us, os) = (
            rng.below(2 * policy.user_sets()),
            rng.below(policy.object_sets()),
        );
        let listed = tuples(&policy, action);
        let listing = listed.clone().unwrap_or_default();
        let count = rng.index(listing.len() + 2);
        for bits in TUPLE_BITS {
            let found = decide_by_tuples_for(&policy, bits, us, os, &listing, count);
            if bits == policy.form.tuple_bits {
                assert_eq!(tuples_for(&policy, bits, action), listed);
                assert_eq!(found, decide_by_tuples(&policy, us, os, &listing, count));
            } else {
                assert_eq!(tuples_for(&policy, bits, action), Err(11));
                assert_eq!(found, Err(11));
            }
        }
    }
}

#[test]
fn an_action_is_refused_from_the_number_of_actions_on() {
    let limits = [7, 8, 9, 15, 16, 17, 255, 256, u32::MAX];
    for (_, policy) in accepted(CASES) {
        let actions = policy.actions();
        for action in limits {
            let refused = action >= actions;
            assert_eq!(decide(&policy, action, 0, 0) == Err(12), refused);
            assert_eq!(
                decide(&policy, action, u32::MAX, 0),
                Err(if refused { 12 } else { 19 })
            );
            assert_eq!(tuples(&policy, action) == Err(12), refused);
        }
    }
}

/// One text in two says it is of form 1, and one in four of each other.
#[test]
fn all_forms_come_up() {
    let (even, odd): (Vec<u64>, Vec<u64>) = (0..THOUSAND).partition(|case| case % 2 == 0);
    for cases in [even, odd] {
        for (form, least) in FORMS.into_iter().zip([200, 90, 90]) {
            let says = |case: &&u64| made(**case).1.starts_with(first_line(form).as_bytes());
            let count = cases.iter().filter(says).count();
            assert!((least..least + 80).contains(&count), "{form:?} {count}");
        }
    }
}

#[test]
fn every_refusal_comes_up_in_each_form() {
    for form in FORMS.map(first_line) {
        let texts = (0..4 * THOUSAND).map(|case| made(case).1);
        let of_form = texts.filter(|text| text.starts_with(form.as_bytes()));
        let refused: BTreeSet<u32> = of_form
            .filter_map(|text| Some(read(&text).err()?.refusal))
            .collect();
        let all = (1..=10).chain([21, 22]);
        assert!(refused.iter().copied().eq(all), "{form}: {refused:?}");
    }
}

/// The fields of the line that a text is refused at by 6, if it is whole.
fn out_of_range(text: &[u8]) -> Option<Vec<String>> {
    let refused = read(text).err().filter(|refused| refused.refusal == 6)?;
    let line = text.split(|&byte| byte == b'\n').nth(refused.line)?;
    let line = String::from_utf8_lossy(line);
    Some(line.split(',').map(String::from).collect())
}

/// The first digit of what a text says it is, with the kind and the first number of the
/// line that is out of range.
fn all_out_of_range(cases: u64) -> BTreeSet<(char, String, String)> {
    let mut found = BTreeSet::new();
    for case in 0..cases {
        let text = made(case).1;
        if let Some(fields) = out_of_range(&text) {
            let form = text.get(7).copied().unwrap_or_default();
            found.insert((char::from(form), fields[0].clone(), fields[1].clone()));
        }
    }
    found
}

/// Forms that there are not, and in each form the first action and the first width that it
/// lacks.
#[test]
fn forms_actions_and_widths_just_out_of_range_come_up() {
    let found = all_out_of_range(8 * THOUSAND);
    let comes = |form: char, kind: &str, number: u32| {
        found.contains(&(form, kind.to_string(), number.to_string()))
    };
    assert!(comes('0', "policy", 0) && comes('5', "policy", 5) && comes('9', "policy", 99_999));
    for form in FORMS {
        let digit = char::from_digit(form.number, 10).expect("a digit");
        for kind in ["rule", "pair"] {
            assert!(comes(digit, kind, form.actions), "{form:?} {kind}");
        }
        for kind in ["uattr", "oattr"] {
            // A width past the last, and one that makes the sum so.
            assert!(comes(digit, kind, form.values + 1), "{form:?} {kind}");
            assert!(
                (1..form.values).any(|width| comes(digit, kind, width)),
                "{form:?} {kind}"
            );
        }
    }
    // What later forms have and an earlier one has not.
    let new = (9..16).filter(|&action| comes('1', "rule", action) || comes('1', "pair", action));
    assert!(new.count() > 3);
    for kind in ["uattr", "oattr"] {
        assert!(comes('1', kind, 9) || comes('2', kind, 9), "{kind}");
    }
}

/// Texts that are as they are without a form, and those that are but for their first line.
fn same_without(form: Form, without: fn(&mut Rng, u64) -> Vec<u8>) -> [u32; 2] {
    let (mut same, mut but_first) = (0, 0);
    for case in 0..CASES {
        let text = made(case).1;
        let without = without(&mut Rng::new(SEED, case), case);
        same += u32::from(text == without);
        if let Some(rest) = text.strip_prefix(first_line(form).as_bytes()) {
            but_first += u32::from(text != without && without.ends_with(rest));
        }
    }
    [same, but_first]
}

#[test]
fn a_text_that_stays_in_an_earlier_form_is_as_it_is_without_later_ones() {
    let [same, but_first] = same_without(THIRD, text_without_form_3);
    assert!((260..340).contains(&same), "{same}");
    assert!((10..40).contains(&but_first), "{but_first}");
    let [same, but_first] = same_without(FORMS[1], text_without_forms);
    assert!((160..240).contains(&same), "{same}");
    assert!((10..50).contains(&but_first), "{but_first}");
}

/// The policies of a form among the first so many cases.
fn policies(form: Form, cases: u64) -> Vec<Policy> {
    of_form(form, cases).map(|(_, policy)| policy).collect()
}

#[test]
fn actions_above_7_have_rules_and_pairs_and_grant() {
    for form in later(FIRST) {
        let all = policies(form, THOUSAND);
        let rules = || all.iter().flat_map(|policy| &policy.rules);
        let pairs = || all.iter().flat_map(|policy| &policy.pairs);
        for action in 0..form.actions {
            let ruled = rules().filter(|rule| rule.action == action).count();
            let paired = pairs().filter(|pair| pair.action == action).count();
            assert!(ruled > 15 && paired > 15, "{action}: {ruled} {paired}");
        }
        let counts: BTreeSet<usize> = all.iter().map(|policy| policy.rules.len()).collect();
        let some = [0, 1, 2, 3, 4, 6, 16];
        assert!(
            some.iter().all(|count| counts.contains(count)),
            "{counts:?}"
        );
        let bits = |policy: &Policy| {
            let entries = grants(policy).concat();
            entries.iter().fold(0, |all, bits| all | bits)
        };
        let bits: Vec<u16> = all.iter().map(bits).collect();
        let of_bits = |wanted: fn(u16) -> bool| bits.iter().filter(|bits| wanted(**bits)).count();
        // Granted by actions above 7 alone, by those below alone, and by both.
        assert!(of_bits(|bits| bits > 255 && bits & 255 == 0) > 7);
        assert!(of_bits(|bits| bits < 256 && bits > 0) > 7);
        assert!(of_bits(|bits| bits > 255 && bits & 255 != 0) > 40);
    }
}

/// What the policy would be without the actions that form 1 lacks.
fn without_new_actions(policy: &Policy) -> Policy {
    let mut less = policy.clone();
    less.rules.retain(|rule| rule.action < FIRST.actions);
    less.pairs.retain(|pair| pair.action < FIRST.actions);
    less
}

/// Sets that only an action above 7 tells apart.
#[test]
fn labels_are_parted_by_actions_above_7() {
    for form in later(FIRST) {
        let (mut more, mut told) = (0, 0);
        for (mut rng, policy) in of_form(form, THOUSAND) {
            let less = without_new_actions(&policy);
            let (all, few) = (compile(&policy), compile(&less));
            assert!(all.user_count >= few.user_count && all.object_count >= few.object_count);
            more += u32::from(all.user_count > few.user_count);
            for _ in 0..8 {
                let (one, other) = (rng.below(policy.user_sets()), rng.below(policy.user_sets()));
                if apart(&less, one, other) == Ok(None) {
                    if let Ok(Some((action, _))) = apart(&policy, one, other) {
                        assert!(action >= FIRST.actions);
                        told += 1;
                    }
                }
            }
        }
        assert!(more > 20 && told > 50, "{form:?} {more} {told}");
    }
}

/// Texts of form 3 with more values than other forms have: of users, of objects, of both.
#[test]
fn eight_and_nine_values_come_up_and_most_texts_are_small() {
    let all = policies(THIRD, 2 * THOUSAND);
    let count = |wanted: &dyn Fn(u32, u32) -> bool| {
        let found = all
            .iter()
            .filter(|p| wanted(p.user_values(), p.object_values()));
        found.count()
    };
    for many in [8, 9] {
        assert!(count(&|users, objects| users == many && objects < 4) > 10);
        assert!(count(&|users, objects| users < 4 && objects == many) > 10);
        assert!(count(&|users, objects| users == many && objects == many) > 0);
    }
    assert!(count(&|users, objects| users + objects > 12) < all.len() / 6);
    for width in [8, 9] {
        assert!(all.iter().any(|p| p.user_widths == [width]));
        assert!(all.iter().any(|p| p.object_widths == [width]));
    }
    assert!(all.iter().any(|p| p.user_seniority.len() == 36));
    assert!(all.iter().any(|p| p.object_seniority.len() == 36));
}

/// Words, pairs and sets with the two highest values.
#[test]
fn the_values_above_7_come_up_in_every_line() {
    let all = policies(THIRD, 2 * THOUSAND);
    let rules = all.iter().flat_map(|p| &p.rules);
    let words: Vec<&Word> = rules.flat_map(|rule| &rule.words).collect();
    let pairs: Vec<_> = all.iter().flat_map(|p| &p.pairs).collect();
    for value in [7, 8] {
        for word in [Word::User(value), Word::Object(value)] {
            let count = words.iter().filter(|found| ***found == word).count();
            assert!(count > 10, "{word:?} {count}");
        }
        assert!(pairs.iter().any(|pair| pair.user == value));
        assert!(pairs.iter().any(|pair| pair.object == value));
    }
    let mut users = all.iter().flat_map(|p| &p.users);
    assert!(users.any(|user| user.1 > 255));
    let mut objects = all.iter().flat_map(|p| &p.objects);
    assert!(objects.any(|object| object.1 > 255));
    let mut conflicts = all.iter().flat_map(|p| &p.conflicts);
    assert!(conflicts.any(|conflict| conflict.set > 255));
}

/// Whether a policy compares attributes of more values than other forms have.
fn compares_wide(policy: &Policy) -> bool {
    let wide = |word: &Word| match *word {
        Word::Within(i, _) | Word::Same(i, _) => policy.user_widths[i as usize] > 7,
        _ => false,
    };
    let mut rules = policy.rules.iter();
    rules.any(|rule| rule.words.iter().any(wide))
}

/// More labels than a byte tells, and tuples above 16 bits.
#[test]
fn the_values_above_7_decide() {
    let mut all = policies(THIRD, 2 * THOUSAND);
    assert!(all.iter().filter(|p| compares_wide(p)).count() > 2);
    all.retain(|p| p.user_values() + p.object_values() > 9);
    let (mut labels, mut tuple) = ([0, 0], 0);
    for policy in all {
        let labelling = compile(&policy);
        labels[0] = labels[0].max(labelling.user_count);
        labels[1] = labels[1].max(labelling.object_count);
        let last = |action| tuples(&policy, action).ok()?.last().copied();
        tuple = (0..policy.actions()).filter_map(last).fold(tuple, u32::max);
    }
    assert!(labels.iter().all(|&count| count > 256), "{labels:?}");
    assert!(tuple > 65_535, "{tuple}");
}

#[test]
fn pairs_of_the_last_action_come_up_at_their_limit() {
    for form in later(FIRST) {
        let last = form.last_action();
        let up_to_last = |policy: &Policy| {
            let highest = policy.pairs.last().map(|pair| pair.action);
            policy.pairs.len() == MOST_PAIRS && highest == Some(last)
        };
        assert!(policies(form, THOUSAND).iter().any(up_to_last), "{form:?}");
    }
}

#[test]
fn requests_for_every_action_are_granted_and_denied() {
    let mut found = BTreeSet::new();
    for (mut rng, policy) in accepted(2 * THOUSAND) {
        let form = policy.form.number;
        let calls = calls(&mut rng, &policy, 40, u32::MAX);
        for (call, answer) in calls.iter().zip(run(&policy, &calls).0) {
            if let Call::Request { action, .. } = *call {
                found.insert((form, action, format!("{answer:?}")));
            }
        }
    }
    let comes = |form, action, answer: &str| found.contains(&(form, action, answer.to_string()));
    for form in FORMS {
        for action in 0..form.actions {
            assert!(comes(form.number, action, "Granted"), "{form:?} {action}");
            assert!(comes(form.number, action, "Denied"), "{form:?} {action}");
        }
        assert!(comes(form.number, form.actions, "Refused(12)"), "{form:?}");
    }
}

/// The lines for the form's own widths go first, and are those there are without others;
/// behind them those for labels in bytes, and then all others.
#[test]
fn lines_for_other_widths_stand_behind_the_form_s_own() {
    // By form, and last for refused texts.
    let mut more = [[0; 4], [0; 4]];
    for case in 0..CASES {
        let text = made(case).1;
        let [own, bytes, all] = [answered, answered_for_byte_labels, answered_for_all_widths]
            .map(|answered| answered(&mut made(case).0, case, &text, u32::MAX));
        assert!(all.starts_with(&bytes) && bytes.starts_with(&own));
        let lines = case_file::lines(&all);
        let ends = [&own, &bytes, &all].map(|lines| case_file::lines(lines).len());
        let place = read(&text).map_or(3, |policy| policy.form.number as usize - 1);
        let begins = |lines: &[String], tags: &str| {
            let found = lines
                .iter()
                .any(|line| line.starts_with(|c| tags.contains(c)));
            u32::from(found)
        };
        more[0][place] += begins(&lines[ends[0]..ends[1]], "uUoOgGSZ");
        more[1][place] += begins(&lines[ends[1]..ends[2]], "vphXtbTB");
    }
    assert!(more.iter().flatten().all(|&count| count > 7), "{more:?}");
}
