//! Policy values and boards, between the header's arrays and the second
//! implementation's lists.

use crate::boundary::*;
use reference::form::Form;
use reference::machine::Sessions;
use reference::policy::{self, Policy, Rule, Word};
use reference::text::{read, write};

/// The value that reading yields for a policy.
pub fn value_of(policy: &Policy) -> PolicyValue {
    PolicyValue {
        form: policy.form.number,
        user: side(&policy.user_widths, &policy.user_seniority),
        object: side(&policy.object_widths, &policy.object_seniority),
        users: register(&policy.users),
        objects: register(&policy.objects),
        conflicts: conflicts(&policy.conflicts),
        rules: rules(&policy.rules),
        pairs: pairs(&policy.pairs),
    }
}

fn side(widths: &[u32], lines: &[(u32, u32)]) -> SideValue {
    let mut side = SideValue {
        attributes: widths.len(),
        lines: lines.len(),
        ..SideValue::default()
    };
    side.widths[..widths.len()].copy_from_slice(widths);
    for (direct, &(senior, junior)) in side.seniority.iter_mut().zip(lines) {
        *direct = Direct { senior, junior };
    }
    side
}

/// Fills an array from its start; how many places that takes.
fn stored<T>(places: &mut [T], entries: impl ExactSizeIterator<Item = T>) -> usize {
    let count = entries.len();
    for (place, entry) in places.iter_mut().zip(entries) {
        *place = entry;
    }
    count
}

fn register(entries: &[(u32, u32)]) -> Register {
    let mut value = Register::default();
    let entries = entries.iter().map(|&(number, set)| Entry { number, set });
    value.count = stored(&mut value.entries, entries);
    value
}

fn conflicts(conflicts: &[policy::Conflict]) -> Conflicts {
    let mut value = Conflicts::default();
    let entries = conflicts
        .iter()
        .map(|&policy::Conflict { set, most }| Conflict { set, most });
    value.count = stored(&mut value.entries, entries);
    value
}

fn rules(rules: &[Rule]) -> RulesValue {
    let mut value = RulesValue {
        count: rules.len(),
        ..RulesValue::default()
    };
    for (entry, rule) in value.entries.iter_mut().zip(rules) {
        entry.action = rule.action;
        entry.count = rule.words.len();
        for (word, from) in entry.words.iter_mut().zip(&rule.words) {
            *word = word_number(from);
        }
    }
    value
}

fn pairs(pairs: &[policy::Pair]) -> Pairs {
    let mut value = Pairs::default();
    let entries = pairs.iter().map(|from| Pair {
        action: from.action,
        user: from.user,
        object: from.object,
    });
    value.count = stored(&mut value.entries, entries);
    value
}

/// The number of a word.
pub fn word_number(word: &Word) -> u8 {
    let number = match *word {
        Word::True => 0,
        Word::False => 1,
        Word::Not => 2,
        Word::And => 3,
        Word::Or => 4,
        Word::User(value) => 10 + value,
        Word::Object(value) => 20 + value,
        Word::Within(i, j) => 50 + 10 * i + j,
        Word::Same(i, j) => 150 + 10 * i + j,
    };
    u8::try_from(number).expect("a word of digits")
}

/// The word of a number, if it is one's.
fn word(number: u8) -> Option<Word> {
    let digits = |from: u32| {
        (
            (u32::from(number) - from) / 10,
            (u32::from(number) - from) % 10,
        )
    };
    let word = match number {
        0 => Word::True,
        1 => Word::False,
        2 => Word::Not,
        3 => Word::And,
        4 => Word::Or,
        10..=19 => Word::User(digits(10).1),
        20..=29 => Word::Object(digits(20).1),
        50..=149 => Word::Within(digits(50).0, digits(50).1),
        150..=249 => Word::Same(digits(150).0, digits(150).1),
        _ => return None,
    };
    Some(word)
}

/// The policy that a value is yielded for, if reading some text yields it:
/// the text can only be the one that the value's own lists are written as.
pub fn yielded(value: &PolicyValue) -> Option<Policy> {
    let policy = read(&write(&lists(value)?)).ok()?;
    (value_of(&policy) == *value).then_some(policy)
}

/// The lists up to the counts; none where there is no such form, a count is past its
/// array or a number is no word's.
fn lists(value: &PolicyValue) -> Option<Policy> {
    let conflicts = value.conflicts.entries.get(..value.conflicts.count)?;
    let rules = value.rules.entries.get(..value.rules.count)?;
    let pairs = value.pairs.entries.get(..value.pairs.count)?;
    Some(Policy {
        form: Form::numbered(value.form)?,
        user_widths: value.user.widths.get(..value.user.attributes)?.to_vec(),
        object_widths: value.object.widths.get(..value.object.attributes)?.to_vec(),
        user_seniority: lines(&value.user)?,
        object_seniority: lines(&value.object)?,
        users: entries(&value.users)?,
        objects: entries(&value.objects)?,
        conflicts: conflicts.iter().map(conflict).collect(),
        rules: rules.iter().map(rule).collect::<Option<_>>()?,
        pairs: pairs.iter().map(pair).collect(),
    })
}

fn lines(side: &SideValue) -> Option<Vec<(u32, u32)>> {
    let lines = side.seniority.get(..side.lines)?;
    Some(
        lines
            .iter()
            .map(|line| (line.senior, line.junior))
            .collect(),
    )
}

fn entries(register: &Register) -> Option<Vec<(u32, u32)>> {
    let entries = register.entries.get(..register.count)?;
    Some(
        entries
            .iter()
            .map(|entry| (entry.number, entry.set))
            .collect(),
    )
}

fn conflict(&Conflict { set, most }: &Conflict) -> policy::Conflict {
    policy::Conflict { set, most }
}

fn rule(rule: &RuleValue) -> Option<Rule> {
    let words = rule.words.get(..rule.count)?;
    Some(Rule {
        action: rule.action,
        words: words
            .iter()
            .map(|&number| word(number))
            .collect::<Option<_>>()?,
    })
}

fn pair(pair: &Pair) -> policy::Pair {
    policy::Pair {
        action: pair.action,
        user: pair.user,
        object: pair.object,
    }
}

/// The sessions that a board holds.
pub fn sessions(board: &Board) -> Sessions {
    (0..)
        .zip(&board.sessions)
        .filter(|(_, entry)| entry.is_open())
        .map(|(number, entry)| (number, (entry.user, entry.held)))
        .collect()
}

#[cfg(test)]
mod tests {
    use super::*;

    fn value(text: &str) -> PolicyValue {
        value_of(&read(text.as_bytes()).expect("accepted"))
    }

    const TEXT: &str = "policy,1\nuattr,2\noattr,1\nusen,1,0\nuser,0,2\nobject,0,1\n\
        conflict,2,0\nconflict,3,1\nrule,0,u0,o0,a\nrule,3,u1,n\npair,0,1,0\npair,5,0,0\nend\n";

    #[test]
    fn a_read_value_is_yielded() {
        let value = value(TEXT);
        assert_eq!(value.form, 1);
        assert_eq!(value.rules.entries[0].words[..4], [10, 20, 3, 0]);
        let second = Pair {
            action: 5,
            user: 0,
            object: 0,
        };
        assert_eq!(value.pairs.entries[1..3], [second, Pair::default()]);
        let second = Conflict { set: 3, most: 1 };
        let after = Conflict::default();
        assert_eq!(value.conflicts.entries[1..3], [second, after]);
        assert_eq!(yielded(&value), read(TEXT.as_bytes()).ok());
    }

    #[test]
    fn the_blank_value_and_leftovers_are_not() {
        assert_eq!(yielded(&PolicyValue::default()), None);
        let mut leftover = value(TEXT);
        leftover.rules.entries[1].words[2] = 1;
        assert_eq!(yielded(&leftover), None);
        let mut leftover = value(TEXT);
        leftover.pairs.entries[PAIR_PLACES - 1].object = 1;
        assert_eq!(yielded(&leftover), None);
        let mut leftover = value(TEXT);
        leftover.conflicts.entries[CONFLICT_PLACES - 1].most = 1;
        assert_eq!(yielded(&leftover), None);
        let mut count = value(TEXT);
        count.users.count = usize::MAX;
        assert_eq!(yielded(&count), None);
        let mut count = value(TEXT);
        count.pairs.count = PAIR_PLACES + 1;
        assert_eq!(yielded(&count), None);
        let mut count = value(TEXT);
        count.conflicts.count = CONFLICT_PLACES + 1;
        assert_eq!(yielded(&count), None);
    }

    #[test]
    fn the_form_is_the_values_own() {
        let text = TEXT.replace("policy,1", "policy,2");
        let mut value = value(&text);
        assert_eq!(
            (value.form, yielded(&value)),
            (2, read(text.as_bytes()).ok())
        );
        value.form = 1;
        assert_eq!(yielded(&value), read(TEXT.as_bytes()).ok());
        value.rules.entries[1].action = 8;
        assert_eq!(yielded(&value), None);
        value.form = 2;
        assert!(yielded(&value).is_some());
        value.rules.entries[1].action = 16;
        assert_eq!(yielded(&value), None);
        value.form = 0;
        assert_eq!(yielded(&value), None);
    }

    /// A text with all values of form 3, in these user widths, and each two of them senior
    /// where they may be.
    fn all_values(widths: &[u32]) -> String {
        let attributes: String = widths.iter().map(|w| format!("uattr,{w}\n")).collect();
        let lines: String = match widths {
            [_] => (1..9)
                .flat_map(|v| (0..v).map(move |j| format!("usen,{v},{j}\n")))
                .collect(),
            _ => String::new(),
        };
        format!("policy,3\n{attributes}oattr,9\n{lines}user,0,511\nobject,0,511\nend\n")
    }

    #[test]
    fn form_3_fills_every_place_of_a_side() {
        let one = all_values(&[9]);
        let value_of_one = value(&one);
        let last = Direct {
            senior: 8,
            junior: 7,
        };
        assert_eq!(value_of_one.user.lines, LINE_PLACES);
        assert_eq!(value_of_one.user.seniority[LINE_PLACES - 1], last);
        let nine = all_values(&[1; 9]);
        let value_of_nine = value(&nine);
        assert_eq!(value_of_nine.user.attributes, WIDTH_PLACES);
        assert_eq!(value_of_nine.user.widths, [1; WIDTH_PLACES]);
        for (text, value) in [(one, value_of_one), (nine, value_of_nine)] {
            assert_eq!(yielded(&value), read(text.as_bytes()).ok());
            let form_2 = PolicyValue { form: 2, ..value };
            assert_eq!(yielded(&form_2), None);
            let mut past = value;
            past.objects.entries[0].set = 512;
            assert_eq!(yielded(&past), None);
            let mut tenth = value;
            tenth.user.widths[0] += 1;
            assert_eq!(yielded(&tenth), None);
        }
    }

    #[test]
    fn a_number_is_one_words_or_none() {
        let words = (0..=u8::MAX).filter_map(|number| Some((number, word(number)?)));
        let words: Vec<(u8, Word)> = words.collect();
        assert_eq!(words.len(), 5 + 2 * 10 + 2 * 100);
        assert!(words
            .iter()
            .all(|(number, word)| word_number(word) == *number));
        assert_eq!(word(13), Some(Word::User(3)));
        assert_eq!(word(20), Some(Word::Object(0)));
        assert_eq!(word(71), Some(Word::Within(2, 1)));
        assert_eq!(word(249), Some(Word::Same(9, 9)));
        assert_eq!([5, 9, 30, 49, 250, 255].map(word), [const { None }; 6]);
    }
}
