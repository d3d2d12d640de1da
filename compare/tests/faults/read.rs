//! A text as a faulty engine reads it.

use super::Fault::*;
use super::Faulty;
use helvemoik_compare::boundary::*;
use helvemoik_compare::engine::Engine;
use helvemoik_compare::plain::Plain;

impl Faulty {
    pub fn reading(&self, text: &[u8]) -> Reading {
        let mut reading = Plain.read(text);
        let full =
            |kind, most| reading.refusal == 7 && lines_before(text, kind, reading.line) == most;
        match self.0 {
            LineOffByOne if reading.refusal == 8 => reading.line += 1,
            PolicyBesideARefusal if reading.refusal == 10 => reading.policy.form = 1,
            Tests21Before7 if full(b"pair,", MOST_PAIRS) => reading.refusal = 21,
            Tests22Before7 if full(b"conflict,", MOST_CONFLICTS) => reading.refusal = 22,
            ReadsAction8InForm1 if reading.refusal == 6 => return with_action(text, 1, 8),
            ReadsAction16InForm2 if reading.refusal == 6 => return with_action(text, 2, 16),
            ReadsForm2AsForm1 if reading.refusal == 0 => reading.policy.form = 1,
            ReadsForm3AsForm2 if reading.policy.form == 3 => reading.policy.form = 2,
            ReadsEightValuesInForm2 if reading.refusal == 6 => return in_form_2(text),
            ReadsTenValuesInForm3 if reading.refusal == 6 => return with_ten_values(text, reading),
            _ => {}
        }
        reading
    }
}

/// The reading of a text of form 2 as one of form 3; where that is refused too, as it is.
fn in_form_2(text: &[u8]) -> Reading {
    let form_3 = text.strip_prefix(b"policy,2\n");
    let reading = form_3.map(|rest| Plain.read(&[b"policy,3\n", rest].concat()));
    match reading {
        Some(mut reading) if reading.refusal == 0 => {
            reading.policy.form = 2;
            reading
        }
        _ => Plain.read(text),
    }
}

/// The reading of a text of form 3 that is refused for an attribute with one value too
/// many: it is read with one value less, and the value put back. The text stays refused
/// where that is not enough.
fn with_ten_values(text: &[u8], refused: Reading) -> Reading {
    let lines = String::from_utf8_lossy(text);
    let at_fault = lines.lines().nth(refused.line).unwrap_or_default();
    let width = at_fault
        .split_once("attr,")
        .map(|(side, width)| (side, width.parse()));
    let Some((side, Ok(width @ 2..=10u32))) = width.filter(|_| lines.starts_with("policy,3\n"))
    else {
        return refused;
    };
    let lowered = format!("{side}attr,{}", width - 1);
    let mut lines: Vec<&str> = lines.lines().collect();
    lines[refused.line] = &lowered;
    let mut reading = Plain.read((lines.join("\n") + "\n").as_bytes());
    if reading.refusal != 0 {
        return refused;
    }
    let (first, policy) = (format!("{side}attr,"), &mut reading.policy);
    let attribute = lines_before(text, first.as_bytes(), refused.line);
    match side {
        "u" => policy.user.widths[attribute] = width,
        _ => policy.object.widths[attribute] = width,
    }
    reading
}

/// How many lines of a kind stand before a line.
fn lines_before(text: &[u8], kind: &[u8], line: usize) -> usize {
    let lines = text.split(|&byte| byte == b'\n').take(line);
    lines.filter(|line| line.starts_with(kind)).count()
}

/// The reading of a text of a form, with one action more in it. The action is read as
/// one that the form has, and put back; the text stays refused where that is not enough.
fn with_action(text: &[u8], form: u32, action: u32) -> Reading {
    let refused = Plain.read(text);
    let first = format!("policy,{form}\n");
    let Some(lines) = std::str::from_utf8(text)
        .ok()
        .filter(|text| text.starts_with(&first))
    else {
        return refused;
    };
    let last = action - 1;
    let mut lowered = lines.to_string();
    for kind in ["rule", "pair"] {
        lowered = lowered.replace(&format!("{kind},{action},"), &format!("{kind},{last},"));
    }
    let mut reading = Plain.read(lowered.as_bytes());
    if reading.refusal != 0 {
        return refused;
    }
    let policy = &mut reading.policy;
    for rule in &mut policy.rules.entries[..policy.rules.count] {
        if rule.action == last && lines.contains(&format!("rule,{action},")) {
            rule.action = action;
        }
    }
    for pair in &mut policy.pairs.entries[..policy.pairs.count] {
        if pair.action == last && lines.contains(&format!("pair,{action},")) {
            pair.action = action;
        }
    }
    reading
}
