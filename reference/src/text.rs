//! Reading a policy text, with refusals 1 to 10, 21 and 22 and their lines, and
//! writing.
//!
//! The checks of one line stand in the order of testing, which is that of their
//! numbers but for 21 and 22, between 7 and 8. The first one met decides.

use crate::form::Form;
use crate::policy::{attribute_of, Conflict, Pair, Policy, Refusal, Rule, Word};

/// A longer text gets refusal 1.
pub const LONGEST_TEXT: usize = 8192;

/// A pair line more gets refusal 21.
pub const MOST_PAIRS: usize = 64;

/// A conflict line more gets refusal 22.
pub const MOST_CONFLICTS: usize = 16;

/// The greatest number of values that a conflict may let a session hold.
pub const MOST_TOGETHER: u32 = 7;

/// The reader's refusal, with the line it is about.
#[derive(Debug, Clone, Copy, PartialEq, Eq)]
pub struct Refused {
    pub refusal: Refusal,
    pub line: usize,
}

/// The kinds of line, in the order in which a text has them.
#[derive(Debug, Clone, Copy, PartialEq, Eq, PartialOrd, Ord)]
enum Kind {
    Policy,
    UserAttribute,
    ObjectAttribute,
    UserSeniority,
    ObjectSeniority,
    User,
    Object,
    Conflict,
    Rule,
    Pair,
    End,
}

const KINDS: [(&str, Kind); 11] = [
    ("policy", Kind::Policy),
    ("uattr", Kind::UserAttribute),
    ("oattr", Kind::ObjectAttribute),
    ("usen", Kind::UserSeniority),
    ("osen", Kind::ObjectSeniority),
    ("user", Kind::User),
    ("object", Kind::Object),
    ("conflict", Kind::Conflict),
    ("rule", Kind::Rule),
    ("pair", Kind::Pair),
    ("end", Kind::End),
];

/// A line in the right form, before its numbers are looked at.
struct Entry {
    kind: Kind,
    numbers: Vec<u32>,
    words: Vec<Word>,
}

/// The policy of a text that breaks none of 1 to 10, 21 and 22.
pub fn read(text: &[u8]) -> Result<Policy, Refused> {
    if text.len() > LONGEST_TEXT {
        return Err(Refused {
            refusal: 1,
            line: 0,
        });
    }
    let mut policy = Policy::default();
    let mut before = None;
    let mut count = 0;
    for line in text.split_inclusive(|&byte| byte == b'\n') {
        let refused = |refusal| Refused {
            refusal,
            line: count,
        };
        let entry = read_line(&policy, before, line).map_err(refused)?;
        before = Some(entry.kind);
        policy = with(policy, entry);
        count += 1;
    }
    if before != Some(Kind::End) {
        return Err(Refused {
            refusal: 10,
            line: count,
        });
    }
    Ok(policy)
}

/// Checks 2 to 9, 21 and 22 of one line, given the lines before it.
fn read_line(policy: &Policy, before: Option<Kind>, line: &[u8]) -> Result<Entry, Refusal> {
    let line = line.strip_suffix(b"\n").ok_or(2u32)?;
    let fields: Vec<&[u8]> = line.split(|&byte| byte == b',').collect();
    let kind = kind(fields[0])
        .filter(|&kind| may_follow(before, kind))
        .ok_or(3u32)?;
    if !count_fits(kind, fields.len()) {
        return Err(4);
    }
    let entry = entry(kind, &fields[1..]).ok_or(5u32)?;
    if !in_range(policy, &entry) {
        return Err(6);
    }
    if !rises(policy, &entry) {
        return Err(7);
    }
    if let Some(refusal) = too_many(policy, kind) {
        return Err(refusal);
    }
    if !entry.words.iter().all(|word| widths_equal(policy, word)) {
        return Err(8);
    }
    if kind == Kind::Rule && !leaves_one(&entry.words) {
        return Err(9);
    }
    Ok(entry)
}

fn kind(field: &[u8]) -> Option<Kind> {
    KINDS
        .iter()
        .find(|(word, _)| word.as_bytes() == field)
        .map(|&(_, kind)| kind)
}

fn may_follow(before: Option<Kind>, kind: Kind) -> bool {
    match before {
        None => kind == Kind::Policy,
        Some(Kind::Policy) => kind == Kind::UserAttribute,
        Some(Kind::UserAttribute) => kind == Kind::UserAttribute || kind == Kind::ObjectAttribute,
        Some(Kind::End) => false,
        Some(before) => kind >= before,
    }
}

/// The count includes the first field; a rule has 1 to 32 words after its action.
fn count_fits(kind: Kind, count: usize) -> bool {
    match kind {
        Kind::End => count == 1,
        Kind::Policy | Kind::UserAttribute | Kind::ObjectAttribute => count == 2,
        Kind::UserSeniority
        | Kind::ObjectSeniority
        | Kind::User
        | Kind::Object
        | Kind::Conflict => count == 3,
        Kind::Rule => (3..=34).contains(&count),
        Kind::Pair => count == 4,
    }
}

fn entry(kind: Kind, fields: &[&[u8]]) -> Option<Entry> {
    let numbers_end = if kind == Kind::Rule { 1 } else { fields.len() };
    let (numbers, words) = fields.split_at(numbers_end);
    Some(Entry {
        kind,
        numbers: numbers
            .iter()
            .map(|field| number(field))
            .collect::<Option<_>>()?,
        words: words
            .iter()
            .map(|field| word(field))
            .collect::<Option<_>>()?,
    })
}

/// One to five digits with no needless leading zero.
fn number(field: &[u8]) -> Option<u32> {
    let short = (1..=5).contains(&field.len());
    let needless_zero = field.len() > 1 && field[0] == b'0';
    if !short || needless_zero {
        return None;
    }
    field
        .iter()
        .try_fold(0, |value, &byte| Some(value * 10 + digit(byte)?))
}

fn digit(byte: u8) -> Option<u32> {
    byte.is_ascii_digit().then(|| u32::from(byte - b'0'))
}

fn word(field: &[u8]) -> Option<Word> {
    match *field {
        [b't'] => Some(Word::True),
        [b'f'] => Some(Word::False),
        [b'n'] => Some(Word::Not),
        [b'a'] => Some(Word::And),
        [b'r'] => Some(Word::Or),
        [b'u', v] => Some(Word::User(digit(v)?)),
        [b'o', v] => Some(Word::Object(digit(v)?)),
        [b'd', i, j] => Some(Word::Within(digit(i)?, digit(j)?)),
        [b'q', i, j] => Some(Word::Same(digit(i)?, digit(j)?)),
        _ => None,
    }
}

fn in_range(policy: &Policy, entry: &Entry) -> bool {
    let numbers = &entry.numbers;
    match entry.kind {
        Kind::Policy => Form::numbered(numbers[0]).is_some(),
        Kind::UserAttribute => width_fits(policy.form, &policy.user_widths, numbers[0]),
        Kind::ObjectAttribute => width_fits(policy.form, &policy.object_widths, numbers[0]),
        Kind::UserSeniority => senior_stands(&policy.user_widths, numbers[0], numbers[1]),
        Kind::ObjectSeniority => senior_stands(&policy.object_widths, numbers[0], numbers[1]),
        Kind::User => numbers[0] <= 31 && numbers[1] < policy.user_sets(),
        Kind::Object => numbers[0] <= 63 && numbers[1] < policy.object_sets(),
        Kind::Conflict => numbers[0] < policy.user_sets() && numbers[1] <= MOST_TOGETHER,
        Kind::Rule => {
            numbers[0] < policy.actions()
                && entry.words.iter().all(|word| word_in_range(policy, word))
        }
        Kind::Pair => {
            numbers[0] < policy.actions()
                && numbers[1] < policy.user_values()
                && numbers[2] < policy.object_values()
        }
        Kind::End => true,
    }
}

/// A width is 1 to the form's most values, and so is the sum of all of its side.
fn width_fits(form: Form, widths: &[u32], width: u32) -> bool {
    let fits = |values| (1..=form.values).contains(&values);
    fits(width) && fits(widths.iter().sum::<u32>() + width)
}

/// Both are values, of the same attribute, and the senior is the higher one.
fn senior_stands(widths: &[u32], senior: u32, junior: u32) -> bool {
    let attribute = attribute_of(widths, senior);
    attribute.is_some() && attribute == attribute_of(widths, junior) && senior > junior
}

fn word_in_range(policy: &Policy, word: &Word) -> bool {
    match *word {
        Word::User(value) => value < policy.user_values(),
        Word::Object(value) => value < policy.object_values(),
        Word::Within(i, j) | Word::Same(i, j) => {
            (i as usize) < policy.user_widths.len() && (j as usize) < policy.object_widths.len()
        }
        _ => true,
    }
}

/// Lines of one kind stand together, so the last of the kind is the last kept.
fn rises(policy: &Policy, entry: &Entry) -> bool {
    let numbers = &entry.numbers;
    match entry.kind {
        Kind::UserSeniority => above(policy.user_seniority.last(), (numbers[0], numbers[1])),
        Kind::ObjectSeniority => above(policy.object_seniority.last(), (numbers[0], numbers[1])),
        Kind::User => above(policy.users.last().map(|user| &user.0), numbers[0]),
        Kind::Object => above(policy.objects.last().map(|object| &object.0), numbers[0]),
        Kind::Conflict => above(policy.conflicts.last().map(|last| &last.set), numbers[0]),
        Kind::Rule => above(policy.rules.last().map(|rule| &rule.action), numbers[0]),
        Kind::Pair => above(policy.pairs.last(), pair(numbers)),
        _ => true,
    }
}

/// Pairs compare by action, then user value, then object value.
fn pair(numbers: &[u32]) -> Pair {
    Pair {
        action: numbers[0],
        user: numbers[1],
        object: numbers[2],
    }
}

fn above<T: Ord>(last: Option<&T>, next: T) -> bool {
    last.is_none_or(|last| next > *last)
}

/// The refusal of a line where there are as many of its kind as there may be.
fn too_many(policy: &Policy, kind: Kind) -> Option<Refusal> {
    match kind {
        Kind::Conflict if policy.conflicts.len() >= MOST_CONFLICTS => Some(22),
        Kind::Pair if policy.pairs.len() >= MOST_PAIRS => Some(21),
        _ => None,
    }
}

fn widths_equal(policy: &Policy, word: &Word) -> bool {
    match *word {
        Word::Within(i, j) | Word::Same(i, j) => {
            policy.user_widths[i as usize] == policy.object_widths[j as usize]
        }
        _ => true,
    }
}

/// Every word finds its truth values, and exactly one remains.
fn leaves_one(words: &[Word]) -> bool {
    let mut depth = 0;
    for word in words {
        let (takes, gives) = match word {
            Word::Not => (1, 1),
            Word::And | Word::Or => (2, 1),
            _ => (0, 1),
        };
        if depth < takes {
            return false;
        }
        depth = depth - takes + gives;
    }
    depth == 1
}

fn with(mut policy: Policy, entry: Entry) -> Policy {
    let numbers = entry.numbers;
    match entry.kind {
        Kind::Policy => policy.form = Form::numbered(numbers[0]).expect("a form"),
        Kind::End => {}
        Kind::UserAttribute => policy.user_widths.push(numbers[0]),
        Kind::ObjectAttribute => policy.object_widths.push(numbers[0]),
        Kind::UserSeniority => policy.user_seniority.push((numbers[0], numbers[1])),
        Kind::ObjectSeniority => policy.object_seniority.push((numbers[0], numbers[1])),
        Kind::User => policy.users.push((numbers[0], numbers[1])),
        Kind::Object => policy.objects.push((numbers[0], numbers[1])),
        Kind::Conflict => policy.conflicts.push(Conflict {
            set: numbers[0],
            most: numbers[1],
        }),
        Kind::Rule => policy.rules.push(Rule {
            action: numbers[0],
            words: entry.words,
        }),
        Kind::Pair => policy.pairs.push(pair(&numbers)),
    }
    policy
}

/// The text of a policy.
pub fn write(policy: &Policy) -> Vec<u8> {
    let mut lines = vec![format!("policy,{}", policy.form.number)];
    lines.extend(
        policy
            .user_widths
            .iter()
            .map(|width| format!("uattr,{width}")),
    );
    lines.extend(
        policy
            .object_widths
            .iter()
            .map(|width| format!("oattr,{width}")),
    );
    lines.extend(two_numbers("usen", &policy.user_seniority));
    lines.extend(two_numbers("osen", &policy.object_seniority));
    lines.extend(two_numbers("user", &policy.users));
    lines.extend(two_numbers("object", &policy.objects));
    lines.extend(policy.conflicts.iter().map(conflict_line));
    lines.extend(policy.rules.iter().map(rule_line));
    lines.extend(policy.pairs.iter().map(pair_line));
    lines.push("end".to_string());
    lines
        .iter()
        .flat_map(|line| format!("{line}\n").into_bytes())
        .collect()
}

fn two_numbers<'a>(kind: &'a str, lines: &'a [(u32, u32)]) -> impl Iterator<Item = String> + 'a {
    lines
        .iter()
        .map(move |(first, second)| format!("{kind},{first},{second}"))
}

fn conflict_line(conflict: &Conflict) -> String {
    format!("conflict,{},{}", conflict.set, conflict.most)
}

fn rule_line(rule: &Rule) -> String {
    let words: Vec<String> = rule.words.iter().map(word_text).collect();
    format!("rule,{},{}", rule.action, words.join(","))
}

fn pair_line(pair: &Pair) -> String {
    format!("pair,{},{},{}", pair.action, pair.user, pair.object)
}

fn word_text(word: &Word) -> String {
    match word {
        Word::True => "t".to_string(),
        Word::False => "f".to_string(),
        Word::User(value) => format!("u{value}"),
        Word::Object(value) => format!("o{value}"),
        Word::Within(i, j) => format!("d{i}{j}"),
        Word::Same(i, j) => format!("q{i}{j}"),
        Word::Not => "n".to_string(),
        Word::And => "a".to_string(),
        Word::Or => "r".to_string(),
    }
}

#[cfg(test)]
mod tests {
    use super::*;
    use crate::form::FORMS;

    const HEAD: &str = "policy,1\nuattr,2\nuattr,1\noattr,2\noattr,1\n";

    fn refused(text: &str) -> (Refusal, usize) {
        let refused = read(text.as_bytes()).expect_err("refused");
        (refused.refusal, refused.line)
    }

    /// The refusal of one line after a head of five.
    fn line(line: &str) -> Option<Refusal> {
        let answer = read(format!("{HEAD}{line}\nend\n").as_bytes());
        answer.err().map(|refused| {
            assert_eq!(refused.line, 5);
            refused.refusal
        })
    }

    #[test]
    fn refusal_1_goes_before_all() {
        let text = "x".repeat(LONGEST_TEXT);
        assert_eq!(refused(&text), (2, 0));
        assert_eq!(refused(&(text + "\n")), (1, 0));
    }

    #[test]
    fn refusal_2_goes_before_3() {
        assert_eq!(refused("policy,1"), (2, 0));
        assert_eq!(refused("policy,1\nnone"), (2, 1));
        assert_eq!(refused(&format!("{HEAD}end")), (2, 5));
        assert_eq!(refused(&format!("{HEAD}end\nend")), (2, 6));
    }

    #[test]
    fn refusal_3_by_every_pair_of_kinds() {
        let followers = [
            ("policy", "uattr"),
            ("uattr", "uattr oattr"),
            (
                "oattr",
                "oattr usen osen user object conflict rule pair end",
            ),
            ("usen", "usen osen user object conflict rule pair end"),
            ("osen", "osen user object conflict rule pair end"),
            ("user", "user object conflict rule pair end"),
            ("object", "object conflict rule pair end"),
            ("conflict", "conflict rule pair end"),
            ("rule", "rule pair end"),
            ("pair", "pair end"),
            ("end", ""),
        ];
        for (before, allowed) in followers {
            let before = kind(before.as_bytes());
            for (next, next_kind) in KINDS {
                let expected = allowed.split(' ').any(|word| word == next);
                assert_eq!(may_follow(before, next_kind), expected, "{before:?} {next}");
            }
        }
        for (word, first) in KINDS {
            assert_eq!(may_follow(None, first), word == "policy");
        }
    }

    #[test]
    fn refusal_3_for_what_is_no_word() {
        assert_eq!(refused("\n"), (3, 0));
        assert_eq!(refused("policy,1\n\n"), (3, 1));
        for word in ["", "users,0,0", "User,0,0", " user,0,0", "use,0,0", "0,0"] {
            assert_eq!(line(word), Some(3), "{word}");
        }
    }

    #[test]
    fn refusal_4_by_the_count_of_fields() {
        assert_eq!(refused("policy\n"), (4, 0));
        assert_eq!(refused("policy,1,1\n"), (4, 0));
        for text in [
            "usen,1",
            "usen,1,0,0",
            "user,0",
            "object,0",
            "conflict,0",
            "conflict,0,0,0",
            "rule",
            "rule,0",
            "pair,0,0",
            "pair,0,0,0,0",
            "end,",
        ] {
            assert_eq!(line(text), Some(4), "{text}");
        }
    }

    #[test]
    fn refusal_5_by_the_form() {
        for field in ["", "01", "00", "123456", "-1", "+1", "a", " 1", "1 ", "1\r"] {
            assert_eq!(line(&format!("user,{field},0")), Some(5), "{field}");
            assert_eq!(line(&format!("user,0,{field}")), Some(5), "{field}");
            assert_eq!(line(&format!("conflict,{field},0")), Some(5), "{field}");
            assert_eq!(line(&format!("conflict,0,{field}")), Some(5), "{field}");
            assert_eq!(line(&format!("rule,{field},t")), Some(5), "{field}");
            assert_eq!(line(&format!("pair,{field},0,0")), Some(5), "{field}");
            assert_eq!(line(&format!("pair,0,{field},0")), Some(5), "{field}");
            assert_eq!(line(&format!("pair,0,0,{field}")), Some(5), "{field}");
        }
        for word in [
            "", "x", "u", "u00", "ua", "o", "d0", "d000", "q0", "q0a", "tt", "T",
        ] {
            assert_eq!(line(&format!("rule,0,{word}")), Some(5), "{word}");
        }
        assert_eq!(line("rule,9,x"), Some(5));
    }

    #[test]
    fn refusal_6_by_the_range() {
        for text in ["policy,0\n", "policy,4\n", "policy,5\n", "policy,99999\n"] {
            assert_eq!(refused(text), (6, 0));
        }
        for text in ["usen,0,1", "usen,2,1", "usen,3,2", "osen,1,1", "osen,3,0"] {
            assert_eq!(line(text), Some(6), "{text}");
        }
        for text in [
            "user,32,0",
            "user,0,8",
            "object,64,0",
            "object,0,8",
            "conflict,8,0",
            "conflict,0,8",
            "rule,8,t",
            "pair,8,0,0",
            "pair,0,3,0",
            "pair,0,0,3",
        ] {
            assert_eq!(line(text), Some(6), "{text}");
        }
        for word in ["u3", "o3", "d20", "d02", "q20", "q02"] {
            assert_eq!(line(&format!("rule,0,{word}")), Some(6), "{word}");
        }
    }

    #[test]
    fn refusal_6_by_the_values_of_the_form() {
        for (form, most) in [(1, 7), (2, 7), (3, 9)] {
            let head = format!("policy,{form}\n");
            for width in [0, most + 1, 255, 256, 65_536, 99_999] {
                assert_eq!(refused(&format!("{head}uattr,{width}\n")), (6, 1));
                assert_eq!(refused(&format!("{head}uattr,1\noattr,{width}\n")), (6, 2));
            }
            for width in 1..=most {
                let attributes = format!("uattr,{width}\noattr,{width}\n");
                let set = (1 << width) - 1;
                let lines = format!("user,0,{set}\nobject,0,{set}\nconflict,{set},7\n");
                assert!(read(format!("{head}{attributes}{lines}end\n").as_bytes()).is_ok());
                let rest = most + 1 - width;
                let past = format!("{head}uattr,{width}\nuattr,{rest}\n");
                assert_eq!(refused(&past), (6, 2));
                let past = format!("{head}{attributes}oattr,{rest}\n");
                assert_eq!(refused(&past), (6, 3));
                for line in ["user,0,S", "object,0,S", "conflict,S,0"] {
                    let line = line.replace('S', &(set + 1).to_string());
                    assert_eq!(refused(&format!("{head}{attributes}{line}\n")), (6, 3));
                }
            }
        }
    }

    /// The highest values are words, pairs and seniors of a form that has them.
    #[test]
    fn the_highest_values_are_read() {
        let lines = "usen,8,0\nosen,8,7\nrule,0,u8,o8,a,u7,r,o7,r\npair,0,8,8\n";
        let text =
            |form, values| format!("policy,{form}\nuattr,{values}\noattr,{values}\n{lines}end\n");
        let policy = read(text(3, 9).as_bytes()).expect("accepted");
        assert_eq!(write(&policy), text(3, 9).as_bytes());
        assert_eq!(refused(&text(3, 8)), (6, 3));
        assert_eq!(refused(&text(2, 9)), (6, 1));
    }

    /// Of the greatest set a session may be let hold 7 values, and not all 9.
    #[test]
    fn a_conflict_lets_hold_at_most_7_in_every_form() {
        for form in FORMS {
            let head = format!("policy,{}\nuattr,{}\noattr,1\n", form.number, form.values);
            let last = form.most_sets() - 1;
            assert!(read(format!("{head}conflict,{last},7\nend\n").as_bytes()).is_ok());
            for most in [8, 9, 10] {
                assert_eq!(refused(&format!("{head}conflict,{last},{most}\n")), (6, 3));
            }
        }
    }

    #[test]
    fn refusal_6_by_the_actions_of_the_form() {
        for (form, actions) in [(1, 8), (2, 16), (3, 16)] {
            let head = HEAD.replace("policy,1", &format!("policy,{form}"));
            for line in ["rule,A,t", "pair,A,0,0"] {
                let answer = |action: u32| {
                    let line = line.replace('A', &action.to_string());
                    let answer = read(format!("{head}{line}\nend\n").as_bytes());
                    answer.map_err(|refused| (refused.refusal, refused.line))
                };
                assert!((0..actions).all(|action| answer(action).is_ok()), "{form}");
                for action in [actions, 17, 255, 256, 65_536, 99_999] {
                    assert_eq!(answer(action), Err((6, 5)), "{form}: {action}");
                }
            }
        }
    }

    #[test]
    fn as_many_rules_as_actions_are_read() {
        for (form, actions) in [(1, 8), (2, 16), (3, 16)] {
            let rules: String = (0..actions).map(|a| format!("rule,{a},t\n")).collect();
            let text = format!("policy,{form}\nuattr,1\noattr,1\n{rules}end\n");
            let policy = read(text.as_bytes()).expect("accepted");
            assert_eq!(policy.rules.len(), actions);
            assert_eq!(write(&policy), text.as_bytes());
        }
    }

    #[test]
    fn refusal_7_after_6_and_before_8() {
        assert_eq!(refused(&format!("{HEAD}usen,1,0\nusen,1,0\n")), (7, 6));
        assert_eq!(refused(&format!("{HEAD}osen,1,0\nosen,1,0\n")), (7, 6));
        assert_eq!(refused(&format!("{HEAD}user,2,0\nuser,1,0\n")), (7, 6));
        assert_eq!(refused(&format!("{HEAD}user,2,0\nuser,1,8\n")), (6, 6));
        assert_eq!(refused(&format!("{HEAD}object,2,0\nobject,2,1\n")), (7, 6));
        assert_eq!(refused(&format!("{HEAD}rule,2,t\nrule,2,d01\n")), (7, 6));
        for next in ["2,0", "2,1", "1,7", "0,2"] {
            let text = format!("{HEAD}conflict,2,1\nconflict,{next}\n");
            assert_eq!(refused(&text), (7, 6), "{next}");
        }
        for next in ["1,1,1", "1,1,0", "1,0,2", "0,2,2"] {
            let text = format!("{HEAD}pair,1,1,1\npair,{next}\n");
            assert_eq!(refused(&text), (7, 6), "{next}");
        }
        for next in ["1,1,2", "1,2,0", "2,0,0"] {
            let text = format!("{HEAD}pair,1,1,1\npair,{next}\nend\n");
            assert!(read(text.as_bytes()).is_ok(), "{next}");
        }
    }

    /// A text with so many pair lines, all values below 7.
    fn with_pairs(count: u32) -> String {
        let pairs = (0..count).map(|i| format!("pair,{},{},{}\n", i / 49, i / 7 % 7, i % 7));
        format!("policy,1\nuattr,7\noattr,7\n{}", pairs.collect::<String>())
    }

    #[test]
    fn refusal_21_past_the_64th_pair_after_7() {
        let text = with_pairs(64);
        assert!(read(format!("{text}end\n").as_bytes()).is_ok());
        assert_eq!(refused(&with_pairs(65)), (21, 67));
        assert_eq!(refused(&format!("{text}pair,7,6,6")), (2, 67));
        assert_eq!(refused(&format!("{text}rule,7,t\n")), (3, 67));
        assert_eq!(refused(&format!("{text}pair,7,6\n")), (4, 67));
        assert_eq!(refused(&format!("{text}pair,7,6,06\n")), (5, 67));
        assert_eq!(refused(&format!("{text}pair,7,6,7\n")), (6, 67));
        assert_eq!(refused(&format!("{text}pair,1,2,0\n")), (7, 67));
        assert_eq!(refused(&format!("{text}pair,7,6,6\n")), (21, 67));
    }

    /// A text with so many conflict lines.
    fn with_conflicts(count: u32) -> String {
        let conflicts = (0..count).map(|i| format!("conflict,{},{}\n", 2 * i, i % 8));
        format!(
            "policy,1\nuattr,7\noattr,7\n{}",
            conflicts.collect::<String>()
        )
    }

    #[test]
    fn refusal_22_past_the_16th_conflict_after_7() {
        let text = with_conflicts(16);
        assert!(read(format!("{text}end\n").as_bytes()).is_ok());
        assert_eq!(refused(&with_conflicts(17)), (22, 19));
        assert_eq!(refused(&format!("{text}conflict,31,0")), (2, 19));
        assert_eq!(refused(&format!("{text}object,0,0\n")), (3, 19));
        assert_eq!(refused(&format!("{text}conflict,31\n")), (4, 19));
        assert_eq!(refused(&format!("{text}conflict,31,00\n")), (5, 19));
        assert_eq!(refused(&format!("{text}conflict,31,8\n")), (6, 19));
        assert_eq!(refused(&format!("{text}conflict,128,7\n")), (6, 19));
        assert_eq!(refused(&format!("{text}conflict,30,7\n")), (7, 19));
        assert_eq!(refused(&format!("{text}conflict,31,7\n")), (22, 19));
        assert_eq!(refused(&format!("{text}rule,0,t\npair,0,0\n")), (4, 20));
    }

    #[test]
    fn seniority_rises_by_the_senior_first() {
        let head = "policy,1\nuattr,3\noattr,1\n";
        assert!(read(format!("{head}usen,1,0\nusen,2,0\nusen,2,1\nend\n").as_bytes()).is_ok());
        assert_eq!(refused(&format!("{head}usen,2,1\nusen,2,0\n")), (7, 4));
        assert_eq!(refused(&format!("{head}usen,2,0\nusen,1,0\n")), (7, 4));
    }

    #[test]
    fn refusals_8_and_9_by_the_words() {
        assert_eq!(line("rule,0,d01"), Some(8));
        assert_eq!(line("rule,0,q10,a"), Some(8));
        assert_eq!(line("rule,0,q01,u3"), Some(6));
        for words in ["n", "a", "t,a", "t,t", "t,r,t", "n,t", "t,f,u0,a"] {
            assert_eq!(line(&format!("rule,0,{words}")), Some(9), "{words}");
        }
        for words in ["t", "t,n", "d00,q11,a", "u2,o2,f,r,a,n"] {
            assert_eq!(line(&format!("rule,0,{words}")), None, "{words}");
        }
    }

    #[test]
    fn refusal_10_at_the_count_of_lines() {
        assert_eq!(refused("policy,1\n"), (10, 1));
        assert_eq!(refused(HEAD), (10, 5));
    }

    #[test]
    fn an_accepted_text_is_written_again() {
        let text = format!(
            "{HEAD}usen,1,0\nosen,1,0\nuser,0,7\nuser,31,0\nobject,63,5\n\
             conflict,0,0\nconflict,5,7\nconflict,7,1\nrule,0,t,f,u0,o2,d00,q11,n,a,r,a,r,a\n\
             rule,7,f\npair,0,0,2\npair,7,2,0\nend\n"
        );
        for form in ["policy,1", "policy,2", "policy,3"] {
            let text = text.replace("policy,1", form);
            let policy = read(text.as_bytes()).expect("accepted");
            assert_eq!(write(&policy), text.as_bytes());
        }
    }
}
