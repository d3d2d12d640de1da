//! Reading a policy text.

use super::checks::{
    above, conflict_fits, line_fits, pair_fits, pairs_rise, rule_fits, sets_rise, width_fits,
    Shape, Shapes,
};
use super::policy::{Form, Policy, Refusal, Rule, Word, OBJECTS, TEXT_BYTES, USERS};
use crate::boundary::{
    Conflict, Conflicts, Direct, Entry, Pair, Pairs, Register, SideValue, WORD_PLACES,
};

/// The reader's refusal and its line.
#[derive(Debug, Clone, Copy, PartialEq, Eq)]
pub struct Refused {
    pub refusal: Refusal,
    pub line: usize,
}

#[derive(Debug, Clone, Copy, PartialEq, Eq, PartialOrd, Ord)]
enum Kind {
    Policy,
    Uattr,
    Oattr,
    Usen,
    Osen,
    User,
    Object,
    Conflict,
    Rule,
    Pair,
    End,
}

/// The policy value of a text.
pub fn read(text: &[u8]) -> Result<Policy, Refused> {
    if text.len() > TEXT_BYTES {
        return Err(Refused {
            refusal: Refusal::TextTooLong,
            line: 0,
        });
    }
    let mut policy = Policy::default();
    let mut before = None;
    let mut rest = text;
    let mut line = 0;
    while !rest.is_empty() {
        match read_line(&mut policy, before, &mut rest) {
            Ok(kind) => before = Some(kind),
            Err(refusal) => return Err(Refused { refusal, line }),
        }
        line += 1;
    }
    if before != Some(Kind::End) {
        return Err(Refused {
            refusal: Refusal::EndMissing,
            line,
        });
    }
    Ok(policy)
}

/// Takes a line off the text and adds it to the policy.
fn read_line(policy: &mut Policy, before: Option<Kind>, rest: &mut &[u8]) -> Result<Kind, Refusal> {
    let end = rest
        .iter()
        .position(|&byte| byte == b'\n')
        .ok_or(Refusal::LineFeedMissing)?;
    let mut fields = rest[..end].split(|&byte| byte == b',');
    *rest = &rest[end + 1..];
    let kind = kind_of(fields.next().unwrap_or_default())
        .filter(|&kind| may_follow(before, kind))
        .ok_or(Refusal::KindNotAllowed)?;
    match kind {
        Kind::Policy => {
            let [form] = numbers(fields)?;
            Form::numbered(form).ok_or(Refusal::OutOfRange)?;
            policy.form = form;
        }
        Kind::Uattr => add_width(policy.most_values(), &mut policy.user, numbers(fields)?)?,
        Kind::Oattr => add_width(policy.most_values(), &mut policy.object, numbers(fields)?)?,
        Kind::Usen => add_line(&mut policy.user, numbers(fields)?)?,
        Kind::Osen => add_line(&mut policy.object, numbers(fields)?)?,
        Kind::User => {
            let sets = Shape::of(&policy.user).sets();
            add_entry(&mut policy.users, USERS, sets, numbers(fields)?)?;
        }
        Kind::Object => {
            let sets = Shape::of(&policy.object).sets();
            add_entry(&mut policy.objects, OBJECTS, sets, numbers(fields)?)?;
        }
        Kind::Conflict => add_conflict(policy, numbers(fields)?)?,
        Kind::Rule => add_rule(policy, fields)?,
        Kind::Pair => add_pair(policy, numbers(fields)?)?,
        Kind::End => {
            let [] = numbers(fields)?;
        }
    }
    Ok(kind)
}

fn kind_of(field: &[u8]) -> Option<Kind> {
    match field {
        b"policy" => Some(Kind::Policy),
        b"uattr" => Some(Kind::Uattr),
        b"oattr" => Some(Kind::Oattr),
        b"usen" => Some(Kind::Usen),
        b"osen" => Some(Kind::Osen),
        b"user" => Some(Kind::User),
        b"object" => Some(Kind::Object),
        b"conflict" => Some(Kind::Conflict),
        b"rule" => Some(Kind::Rule),
        b"pair" => Some(Kind::Pair),
        b"end" => Some(Kind::End),
        _ => None,
    }
}

fn may_follow(before: Option<Kind>, kind: Kind) -> bool {
    match before {
        None => kind == Kind::Policy,
        Some(Kind::Policy) => kind == Kind::Uattr,
        Some(Kind::Uattr) => kind == Kind::Uattr || kind == Kind::Oattr,
        Some(Kind::End) => false,
        Some(before) => before <= kind,
    }
}

/// Exactly N fields, each a number.
fn numbers<'a, const N: usize>(
    mut fields: impl Iterator<Item = &'a [u8]> + Clone,
) -> Result<[u32; N], Refusal> {
    if fields.clone().count() != N {
        return Err(Refusal::WrongFieldCount);
    }
    let mut numbers = [0; N];
    for number in &mut numbers {
        *number = fields
            .next()
            .and_then(number_of)
            .ok_or(Refusal::MalformedField)?;
    }
    Ok(numbers)
}

/// One to five digits with no needless leading zero.
fn number_of(field: &[u8]) -> Option<u32> {
    if field.is_empty() || field.len() > 5 || (field.len() > 1 && field[0] == b'0') {
        return None;
    }
    let mut number = 0;
    for &byte in field {
        number = number * 10 + u32::from(digit(byte)?);
    }
    Some(number)
}

fn digit(byte: u8) -> Option<u8> {
    byte.is_ascii_digit().then(|| byte - b'0')
}

fn word_of(field: &[u8]) -> Option<Word> {
    match *field {
        [b't'] => Some(Word::True),
        [b'f'] => Some(Word::False),
        [b'n'] => Some(Word::Not),
        [b'a'] => Some(Word::And),
        [b'r'] => Some(Word::Or),
        [b'u', value] => Some(Word::User(digit(value)?)),
        [b'o', value] => Some(Word::Object(digit(value)?)),
        [b'd', i, j] => Some(Word::Within(digit(i)?, digit(j)?)),
        [b'q', i, j] => Some(Word::Same(digit(i)?, digit(j)?)),
        _ => None,
    }
}

fn add_width(most: u32, side: &mut SideValue, [width]: [u32; 1]) -> Result<(), Refusal> {
    if !width_fits(most, Shape::of(side).values, width) {
        return Err(Refusal::OutOfRange);
    }
    side.widths[side.attributes] = width;
    side.attributes += 1;
    Ok(())
}

fn add_line(side: &mut SideValue, [senior, junior]: [u32; 2]) -> Result<(), Refusal> {
    let line = Direct { senior, junior };
    if !line_fits(Shape::of(side).widths, line) {
        return Err(Refusal::OutOfRange);
    }
    if side.lines > 0 && !above(side.seniority[side.lines - 1], line) {
        return Err(Refusal::NotRising);
    }
    side.seniority[side.lines] = line;
    side.lines += 1;
    Ok(())
}

fn add_entry(
    register: &mut Register,
    numbers: u32,
    sets: u32,
    [number, set]: [u32; 2],
) -> Result<(), Refusal> {
    if number >= numbers || set >= sets {
        return Err(Refusal::OutOfRange);
    }
    if register.count > 0 && number <= register.entries[register.count - 1].number {
        return Err(Refusal::NotRising);
    }
    register.entries[register.count] = Entry { number, set };
    register.count += 1;
    Ok(())
}

fn add_conflict(policy: &mut Policy, [set, most]: [u32; 2]) -> Result<(), Refusal> {
    let conflict = Conflict { set, most };
    if !conflict_fits(Shape::of(&policy.user), conflict) {
        return Err(Refusal::OutOfRange);
    }
    let Conflicts { count, entries } = &mut policy.conflicts;
    append(
        entries,
        count,
        conflict,
        sets_rise,
        Refusal::TooManyConflicts,
    )
}

/// Adds an entry to a list if it rises and there is room.
fn append<T: Copy>(
    places: &mut [T],
    count: &mut usize,
    entry: T,
    rises: impl Fn(T, T) -> bool,
    too_many: Refusal,
) -> Result<(), Refusal> {
    if *count > 0 && !rises(places[*count - 1], entry) {
        return Err(Refusal::NotRising);
    }
    *places.get_mut(*count).ok_or(too_many)? = entry;
    *count += 1;
    Ok(())
}

fn add_rule<'a>(
    policy: &mut Policy,
    mut fields: impl Iterator<Item = &'a [u8]> + Clone,
) -> Result<(), Refusal> {
    let count = fields.clone().count();
    if !(2..=WORD_PLACES + 1).contains(&count) {
        return Err(Refusal::WrongFieldCount);
    }
    let malformed = Refusal::MalformedField;
    let mut rule = Rule {
        action: fields.next().and_then(number_of).ok_or(malformed)?,
        count: count - 1,
        ..Rule::default()
    };
    for (word, field) in rule.words.iter_mut().zip(fields) {
        *word = word_of(field).ok_or(malformed)?;
    }
    let before = policy.rules().last().map(|rule| rule.action);
    rule_fits(Shapes::of(policy), before, &rule)?;
    policy.rules.entries[policy.rules.count] = rule;
    policy.rules.count += 1;
    Ok(())
}

fn add_pair(policy: &mut Policy, [action, user, object]: [u32; 3]) -> Result<(), Refusal> {
    let pair = Pair {
        action,
        user,
        object,
    };
    if !pair_fits(Shapes::of(policy), pair) {
        return Err(Refusal::OutOfRange);
    }
    let Pairs { count, entries } = &mut policy.pairs;
    append(entries, count, pair, pairs_rise, Refusal::TooManyPairs)
}
