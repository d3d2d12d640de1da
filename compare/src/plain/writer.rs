//! Writing the text of a policy value.

use super::checks::valid;
use super::policy::{Policy, Refusal, Rule, Word, TEXT_BYTES};
use crate::boundary::{Register, SideValue};

/// The text at the start of the buffer, and its length.
pub fn write(policy: &Policy, buffer: &mut [u8]) -> Result<usize, Refusal> {
    if !valid(policy) {
        return Err(Refusal::InvalidState);
    }
    let text = text_of(policy);
    let start = buffer
        .get_mut(..text.len())
        .ok_or(Refusal::BufferTooShort)?;
    start.copy_from_slice(&text);
    Ok(text.len())
}

fn text_of(policy: &Policy) -> Vec<u8> {
    let mut text = Vec::with_capacity(TEXT_BYTES);
    line(&mut text, b"policy", &[policy.form]);
    widths(&mut text, b"uattr", &policy.user);
    widths(&mut text, b"oattr", &policy.object);
    seniority(&mut text, b"usen", &policy.user);
    seniority(&mut text, b"osen", &policy.object);
    register(&mut text, b"user", &policy.users);
    register(&mut text, b"object", &policy.objects);
    for conflict in policy.conflicts() {
        line(&mut text, b"conflict", &[conflict.set, conflict.most]);
    }
    for rule in policy.rules() {
        rule_line(&mut text, rule);
    }
    for pair in policy.pairs() {
        line(&mut text, b"pair", &[pair.action, pair.user, pair.object]);
    }
    line(&mut text, b"end", &[]);
    text
}

fn line(text: &mut Vec<u8>, kind: &[u8], numbers: &[u32]) {
    text.extend_from_slice(kind);
    for &number in numbers {
        text.push(b',');
        put_number(text, number);
    }
    text.push(b'\n');
}

/// A number of at most five digits.
fn put_number(text: &mut Vec<u8>, number: u32) {
    let mut digits = [0; 5];
    let mut first = digits.len();
    let mut left = number;
    loop {
        first -= 1;
        digits[first] = b'0' + (left % 10) as u8;
        left /= 10;
        if left == 0 {
            break;
        }
    }
    text.extend_from_slice(&digits[first..]);
}

fn widths(text: &mut Vec<u8>, kind: &[u8], side: &SideValue) {
    for &width in &side.widths[..side.attributes] {
        line(text, kind, &[width]);
    }
}

fn seniority(text: &mut Vec<u8>, kind: &[u8], side: &SideValue) {
    for direct in &side.seniority[..side.lines] {
        line(text, kind, &[direct.senior, direct.junior]);
    }
}

fn register(text: &mut Vec<u8>, kind: &[u8], register: &Register) {
    for entry in &register.entries[..register.count] {
        line(text, kind, &[entry.number, entry.set]);
    }
}

fn rule_line(text: &mut Vec<u8>, rule: &Rule) {
    text.extend_from_slice(b"rule,");
    put_number(text, rule.action);
    for &word in rule.words() {
        text.push(b',');
        put_word(text, word);
    }
    text.push(b'\n');
}

fn put_word(text: &mut Vec<u8>, word: Word) {
    match word {
        Word::True => text.push(b't'),
        Word::False => text.push(b'f'),
        Word::Not => text.push(b'n'),
        Word::And => text.push(b'a'),
        Word::Or => text.push(b'r'),
        Word::User(value) => text.extend_from_slice(&[b'u', b'0' + value]),
        Word::Object(value) => text.extend_from_slice(&[b'o', b'0' + value]),
        Word::Within(i, j) => text.extend_from_slice(&[b'd', b'0' + i, b'0' + j]),
        Word::Same(i, j) => text.extend_from_slice(&[b'q', b'0' + i, b'0' + j]),
    }
}
