//! Kinds of line that are drawn from a stream of their own, and damage to them.

use super::damage::{behind, place, sometimes_a_byte_more, MISSHAPEN};
use super::rng::Rng;
use super::valid::{rising, valid, Draft, Size};

/// A kind of line. The lines that a text might have go by keys from 0 on, and
/// rise with them.
pub struct Kind {
    pub word: &'static str,
    /// Puts lines into a valid text that has none yet.
    pub add: fn(&mut Rng, &mut Draft),
    /// The most lines that a text may have.
    pub most: usize,
    /// The size of a text that might have more.
    pub wide: Size,
    /// How many keys there are.
    pub keys: fn(&Draft) -> u32,
    /// The line of a key, or one of those that it has.
    pub line: fn(&mut Rng, &Draft, u32) -> String,
    /// A line that rises above most others.
    pub high: fn(&Draft) -> String,
    /// Lines with a number just out of its range.
    pub beyond: fn(&Draft) -> Vec<String>,
    /// Numbers at the borders of ranges.
    pub borders: fn(&Draft) -> [u32; 2],
}

impl Kind {
    fn lines(&self, rng: &mut Rng, draft: &Draft, keys: &[u32]) -> Vec<String> {
        let line = |&key| (self.line)(rng, draft, key);
        keys.iter().map(line).collect()
    }

    fn any_line(&self, rng: &mut Rng, draft: &Draft) -> String {
        let key = rng.below((self.keys)(draft));
        (self.line)(rng, draft, key)
    }

    /// Puts lines behind those of the kind, or where they would stand.
    pub fn put(&self, draft: &mut Draft, lines: Vec<String>) {
        let here = behind(draft, self.word);
        draft.lines.splice(here..here, lines);
    }

    fn take_away(&self, draft: &mut Draft) {
        draft.lines.retain(|line| !line.starts_with(self.word));
    }
}

type KindDamage = fn(&Kind, &mut Rng, &mut Draft);

const KIND_DAMAGES: [KindDamage; 8] = [
    go_past_the_most,
    go_past_the_most_with_faults,
    go_beyond,
    stop_rising,
    stand_elsewhere,
    miscount_fields,
    misshape_field,
    pile_faults,
];

/// Damage to a valid text by its lines of a kind.
pub fn damaged_kind(kind: &Kind, rng: &mut Rng, mut draft: Draft) -> Vec<u8> {
    rng.pick(&KIND_DAMAGES)(kind, rng, &mut draft);
    let mut text = draft.text();
    sometimes_a_byte_more(rng, &mut text);
    text
}

/// One or two lines past the most that there may be.
fn go_past_the_most(kind: &Kind, rng: &mut Rng, draft: &mut Draft) {
    if (kind.keys)(draft) as usize <= kind.most {
        let form = draft.form;
        *draft = valid(rng, kind.wide);
        draft.set_form(form);
    }
    kind.take_away(draft);
    let count = kind.most + 1 + rng.index(2);
    let keys = rising(rng, (kind.keys)(draft), count as u32);
    let lines = kind.lines(rng, draft, &keys);
    kind.put(draft, lines);
}

/// The first line past the most has another fault too, or is of another kind.
fn go_past_the_most_with_faults(kind: &Kind, rng: &mut Rng, draft: &mut Draft) {
    go_past_the_most(kind, rng, draft);
    let places = draft.places(kind.word);
    let past = places[kind.most];
    let high = (kind.high)(draft);
    let last_action = draft.form.last_action();
    draft.lines[past] = match rng.below(6) {
        0 => draft.lines[past - 1].clone(),
        1 => draft.lines[rng.pick(&places[..kind.most])].clone(),
        2 => rng.pick(&(kind.beyond)(draft)),
        3 => with_field(&high, 2, rng.pick(&MISSHAPEN)),
        4 => rng.pick(&[
            high[..high.rfind(',').unwrap_or(0)].to_string(),
            format!("{high},0"),
            kind.word.to_string(),
            with_field(&high, 0, &format!("{}s", kind.word)),
            String::new(),
        ]),
        _ => rng
            .pick(&["rule,A,t", "end", "object,63,0", "rule,A,a"])
            .replace('A', &last_action.to_string()),
    };
}

fn with_field(line: &str, place: usize, field: &str) -> String {
    let mut fields: Vec<&str> = line.split(',').collect();
    fields[place] = field;
    fields.join(",")
}

/// A line with a number just out of its range.
fn go_beyond(kind: &Kind, rng: &mut Rng, draft: &mut Draft) {
    let line = rng.pick(&(kind.beyond)(draft));
    place(rng, draft, line);
}

/// A line and, behind it, one of the same key or a lower one.
fn stop_rising(kind: &Kind, rng: &mut Rng, draft: &mut Draft) {
    let high = rng.below((kind.keys)(draft));
    let low = rng.below(high + 1);
    kind.take_away(draft);
    let mut keys = rising(rng, low, 2);
    keys.extend([high, low]);
    let mut lines = kind.lines(rng, draft, &keys);
    if rng.chance(1, 2) {
        lines.push((kind.high)(draft));
    }
    kind.put(draft, lines);
}

/// A line anywhere: at most places it stands too early or too late.
fn stand_elsewhere(kind: &Kind, rng: &mut Rng, draft: &mut Draft) {
    let line = kind.any_line(rng, draft);
    let before = rng.index(draft.lines.len());
    draft.lines.insert(before, line);
}

/// The place of some line of the kind, made if there is none.
fn some_place(kind: &Kind, rng: &mut Rng, draft: &mut Draft) -> usize {
    if draft.places(kind.word).is_empty() {
        let line = kind.any_line(rng, draft);
        kind.put(draft, vec![line]);
    }
    rng.pick(&draft.places(kind.word))
}

/// A line with few fields or with one too many.
fn miscount_fields(kind: &Kind, rng: &mut Rng, draft: &mut Draft) {
    let line = some_place(kind, rng, draft);
    match rng.below(3) {
        0 => draft.lines[line] = kind.word.to_string() + rng.pick(&["", ",", ",0", ",0,0"]),
        _ => draft.lines[line] += rng.pick(&[",", ",0", ",1", ",t", ",0,0"]),
    }
}

fn misshape_field(kind: &Kind, rng: &mut Rng, draft: &mut Draft) {
    let line = some_place(kind, rng, draft);
    let field = rng.pick(&MISSHAPEN);
    let place = rng.index(draft.lines[line].split(',').count());
    draft.lines[line] = with_field(&draft.lines[line], place, field);
}

/// Lines with up to a fault in each field, to see which refusal goes first.
fn pile_faults(kind: &Kind, rng: &mut Rng, draft: &mut Draft) {
    let borders = (kind.borders)(draft).map(|number| number.to_string());
    let actions = [draft.form.last_action(), draft.form.actions].map(|number| number.to_string());
    let numbers = [
        "0",
        "0",
        "1",
        "2",
        &actions[0],
        &actions[1],
        "07",
        "x",
        "",
        &borders[0],
        &borders[1],
    ];
    let fields = (kind.high)(draft).split(',').count() - 1;
    let capital = kind.word[..1].to_uppercase() + &kind.word[1..];
    let plural = format!("{}s", kind.word);
    for _ in 0..1 + rng.below(3) {
        let word = kind.word;
        let word = rng.pick(&[word, word, word, word, &plural, &capital]);
        let count = rng.pick(&[fields, fields, fields, fields, fields - 1, fields + 1]);
        let fields = (0..count).map(|_| format!(",{}", rng.pick(&numbers)));
        let line = format!("{word}{}", fields.collect::<String>());
        place(rng, draft, line);
    }
}
