//! Valid texts, of all sizes up to the limits.

use super::rng::Rng;
use crate::form::Form;

/// The largest numbers a valid text may have of each thing.
#[derive(Debug, Clone, Copy)]
pub struct Size {
    /// Of users and of objects.
    values: [u32; 2],
    /// Whether to go to these values instead of any up to them.
    full_values: bool,
    users: u32,
    objects: u32,
    rules: u32,
    words: u32,
    /// The same for all other numbers.
    full: bool,
}

pub const SMALL: Size = Size {
    values: [3, 3],
    full_values: false,
    users: 4,
    objects: 4,
    rules: 3,
    words: 8,
    full: false,
};
/// Three values on each side, so that there are more pairs than a text may have.
pub const THREES: Size = Size {
    full_values: true,
    full: true,
    ..SMALL
};
/// Five values on each side, so that there are more user sets than conflicts.
pub const FIVES: Size = Size {
    values: [5, 5],
    ..THREES
};
pub const MIDDLE: Size = Size {
    values: [7, 7],
    full_values: false,
    users: 32,
    objects: 64,
    rules: 8,
    words: 32,
    full: false,
};
pub const LIMIT: Size = Size {
    full_values: true,
    full: true,
    ..MIDDLE
};

impl Size {
    /// The same with just so many values of users and of objects.
    pub fn with_values(self, values: [u32; 2]) -> Self {
        Size {
            values,
            full_values: true,
            ..self
        }
    }

    /// 1 to `most`.
    fn some(&self, rng: &mut Rng, most: u32) -> u32 {
        if self.full {
            return most;
        }
        1 + rng.below(most)
    }

    /// 0 to `most`, and 0 seldom: little can be seen without users or rules.
    fn some_or_none(&self, rng: &mut Rng, most: u32) -> u32 {
        if !self.full && rng.chance(1, 12) {
            return 0;
        }
        self.some(rng, most)
    }
}

/// A text in the making, with what its lines depend on.
pub struct Draft {
    pub form: Form,
    pub user_widths: Vec<u32>,
    pub object_widths: Vec<u32>,
    pub lines: Vec<String>,
}

impl Draft {
    pub fn text(&self) -> Vec<u8> {
        self.lines
            .iter()
            .flat_map(|line| format!("{line}\n").into_bytes())
            .collect()
    }

    /// Gives the text a form, by its first line.
    pub fn set_form(&mut self, form: Form) {
        self.form = form;
        self.lines[0] = format!("policy,{}", form.number);
    }

    pub fn user_values(&self) -> u32 {
        self.user_widths.iter().sum()
    }

    pub fn object_values(&self) -> u32 {
        self.object_widths.iter().sum()
    }

    pub fn user_sets(&self) -> u32 {
        1 << self.user_values()
    }

    /// The places of the lines of a kind.
    pub fn places(&self, kind: &str) -> Vec<usize> {
        let of_kind = |line: &str| line.split(',').next() == Some(kind);
        (0..self.lines.len())
            .filter(|&place| of_kind(&self.lines[place]))
            .collect()
    }
}

/// A valid text of the first form, without conflicts and pairs.
pub fn valid(rng: &mut Rng, size: Size) -> Draft {
    let user_widths = widths(rng, size.values[0], size.full_values);
    let mut object_widths = widths(rng, size.values[1], size.full_values);
    if size.values[0] == size.values[1] && rng.chance(1, 4) {
        // Comparisons tell most apart where both sides have the same widths.
        object_widths.clone_from(&user_widths);
    }
    let form = Form::default();
    let mut lines = vec![format!("policy,{}", form.number)];
    lines.extend(user_widths.iter().map(|width| format!("uattr,{width}")));
    lines.extend(object_widths.iter().map(|width| format!("oattr,{width}")));
    lines.extend(seniority(rng, "usen", &user_widths));
    lines.extend(seniority(rng, "osen", &object_widths));
    let user_sets = 1 << user_widths.iter().sum::<u32>();
    let object_sets = 1 << object_widths.iter().sum::<u32>();
    let users = size.some_or_none(rng, size.users);
    let objects = size.some_or_none(rng, size.objects);
    let rules = size.some_or_none(rng, size.rules);
    for user in rising(rng, 32, users) {
        lines.push(format!("user,{user},{}", rng.below(user_sets)));
    }
    for object in rising(rng, 64, objects) {
        lines.push(format!("object,{object},{}", rng.below(object_sets)));
    }
    for action in rising(rng, form.actions, rules) {
        let count = size.some(rng, size.words);
        let words = formula(rng, &user_widths, &object_widths, count);
        lines.push(format!("rule,{action},{}", words.join(",")));
    }
    lines.push("end".to_string());
    Draft {
        form,
        user_widths,
        object_widths,
        lines,
    }
}

/// Widths whose sum is at most so many values, or just so many.
fn widths(rng: &mut Rng, values: u32, full: bool) -> Vec<u32> {
    let mut left = if full { values } else { 1 + rng.below(values) };
    let mut widths = Vec::new();
    while left > 0 {
        // From one wide attribute to many narrow ones.
        let width = match rng.below(4) {
            0 => left,
            1 => 1 + rng.below(left),
            _ => 1 + rng.below(left.min(2)),
        };
        widths.push(width);
        left -= width;
    }
    widths
}

/// The attribute of each value.
fn owners(widths: &[u32]) -> Vec<usize> {
    widths
        .iter()
        .enumerate()
        .flat_map(|(a, &width)| vec![a; width as usize])
        .collect()
}

/// Lines of seniority, from none to every pair of each attribute.
fn seniority(rng: &mut Rng, kind: &str, widths: &[u32]) -> Vec<String> {
    let owners = owners(widths);
    let density = rng.below(4);
    let mut lines = Vec::new();
    for senior in 0..owners.len() {
        for junior in 0..senior {
            if owners[senior] == owners[junior] && rng.chance(density, 3) {
                lines.push(format!("{kind},{senior},{junior}"));
            }
        }
    }
    lines
}

/// Different numbers below `limit`, rising.
pub fn rising(rng: &mut Rng, limit: u32, count: u32) -> Vec<u32> {
    let mut numbers: Vec<u32> = (0..limit).collect();
    while numbers.len() > count as usize {
        numbers.remove(rng.index(numbers.len()));
    }
    numbers
}

/// A formula of exactly `count` words.
pub fn formula(rng: &mut Rng, users: &[u32], objects: &[u32], count: u32) -> Vec<String> {
    let mut words = Vec::new();
    let mut depth = 0;
    for left in (0..count).rev() {
        // The words left can take away one truth value each, and one must stay.
        let mut choices = Vec::new();
        if depth <= left {
            choices.extend(["push"; 3]);
        }
        if depth >= 1 && depth <= left + 1 {
            choices.push("n");
        }
        if depth >= 2 {
            choices.extend(["a", "r"]);
        }
        let choice = rng.pick(&choices);
        match choice {
            "push" => {
                words.push(pushing_word(rng, users, objects));
                depth += 1;
            }
            "n" => words.push("n".to_string()),
            _ => {
                words.push(choice.to_string());
                depth -= 1;
            }
        }
    }
    words
}

fn pushing_word(rng: &mut Rng, users: &[u32], objects: &[u32]) -> String {
    let equal = comparisons(users, objects, true);
    match rng.below(12) {
        0 => rng.pick(&["t", "f"]).to_string(),
        1..=3 if !equal.is_empty() => rng.pick(&equal),
        4..=7 => format!("u{}", rng.below(users.iter().sum())),
        _ => format!("o{}", rng.below(objects.iter().sum())),
    }
}

/// All comparisons of attributes of equal, or of unequal, width.
pub fn comparisons(users: &[u32], objects: &[u32], equal: bool) -> Vec<String> {
    let mut words = Vec::new();
    for (i, user_width) in users.iter().enumerate() {
        for (j, object_width) in objects.iter().enumerate() {
            if (user_width == object_width) == equal {
                words.extend([format!("d{i}{j}"), format!("q{i}{j}")]);
            }
        }
    }
    words
}
