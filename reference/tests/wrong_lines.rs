//! The lines that are wrong on purpose: each is wrong in one thing, and every
//! kind of line has one for each thing that it compares.

use reference::case_file::lines;
use reference::wrong::{file, file_of_form_3, file_of_forms, MARK};
use std::collections::BTreeSet;

/// What the lines of each tag compare: an answer and a count; of entries also
/// that the first and the last are as stored, and that none is missing or left; of labels
/// and entries of 16 bits each byte, and of tuples of 32 bits each half.
const COMPARED: [(char, &[&str]); 23] = [
    ('R', &["answer", "count"]),
    ('Y', &["answer", "count"]),
    ('V', &["answer", "count"]),
    ('W', &["answer", "bytes", "count"]),
    ('u', &["answer", "count", "label", "less", "more"]),
    ('o', &["answer", "count", "label", "less", "more"]),
    ('g', &["answer", "byte", "count", "less", "more"]),
    ('U', &["answer", "count", "label", "less", "more"]),
    ('O', &["answer", "count", "label", "less", "more"]),
    ('G', &["answer", "byte", "count", "high", "less", "more"]),
    ('v', &["answer", "count", "high", "label", "less", "more"]),
    ('p', &["answer", "count", "high", "label", "less", "more"]),
    ('h', &["answer", "byte", "count", "high", "less", "more"]),
    ('T', &["answer", "count", "first", "last", "less", "more"]),
    (
        't',
        &["answer", "count", "first", "high", "last", "less", "more"],
    ),
    ('F', &["answer", "count"]),
    ('B', &["answer", "count"]),
    ('b', &["answer", "count"]),
    ('P', &["answer", "count"]),
    ('D', &["answer", "count", "set"]),
    ('S', &LISTS),
    ('Z', &LISTS),
    ('X', &LISTS),
];

const LISTS: [&str; 8] = [
    "answer", "count", "held", "less", "more", "reply", "session", "user",
];

/// What stands at a place of a line, and is changed by these bits.
fn name(tag: char, right: &[u32], place: usize, bits: u32) -> &'static str {
    match (tag, place) {
        (_, 0) => "answer",
        (_, 1) => "count",
        ('W', 3) => "bytes",
        ('D', 3) => "set",
        ('G' | 'v' | 'p' | 'h', 5..) if bits > 255 => "high",
        ('u' | 'o' | 'U' | 'O' | 'v' | 'p', 5..) => "label",
        ('g' | 'G' | 'h', 5..) => "byte",
        ('t', 4..) if bits > 65_535 => "high",
        ('T' | 't', 4..) => ["first", "last"][place % 2],
        ('S' | 'Z' | 'X', 8..) => {
            let calls = right[7] as usize;
            match place.checked_sub(8 + 5 * calls) {
                Some(past) => ["session", "user", "held"][past % 3],
                None if place >= 8 + 4 * calls => "reply",
                None => "a call",
            }
        }
        _ => "not compared",
    }
}

/// The tag of a line, whether it is wrong on purpose, and its numbers with an
/// answer and a count.
fn parsed(line: &str) -> (char, bool, Vec<u32>) {
    let (tag, rest) = line.split_at(1);
    let fields = rest.split(',').skip(1);
    let mut numbers: Vec<u32> = fields
        .map(|field| field.parse().expect("a number"))
        .collect();
    numbers.resize(numbers.len().max(2), 0);
    (
        tag.chars().next().expect("a tag"),
        rest.starts_with(MARK),
        numbers,
    )
}

/// The one thing in which a wrong line is not the right one.
fn difference(tag: char, right: &[u32], wrong: &[u32]) -> &'static str {
    let entry = match tag {
        'T' | 't' => 2,
        'S' | 'Z' | 'X' => 3,
        _ => 1,
    };
    if wrong.len() + entry == right.len() && right.starts_with(wrong) {
        return "less";
    }
    if wrong.len() == right.len() + entry && wrong.starts_with(right) {
        return "more";
    }
    assert_eq!(wrong.len(), right.len());
    let places: Vec<usize> = (0..right.len()).filter(|&i| right[i] != wrong[i]).collect();
    assert_eq!(places.len(), 1, "{tag}: {right:?} and {wrong:?}");
    let place = places[0];
    name(tag, right, place, right[place] ^ wrong[place])
}

/// Each wrong line as its tag and the answer of the right line that it stands
/// after, with the thing in which it is wrong.
fn differences() -> Vec<(char, u32, &'static str)> {
    let mut right = ('C', Vec::new());
    let mut all = Vec::new();
    let files = [file(), file_of_forms(), file_of_form_3()].concat();
    for (tag, wrong, numbers) in lines(&files).iter().map(|line| parsed(line)) {
        if !wrong {
            right = (tag, numbers);
            continue;
        }
        assert_eq!(tag, right.0);
        all.push((tag, right.1[0], difference(tag, &right.1, &numbers)));
    }
    all
}

#[test]
fn every_kind_of_line_has_one_for_each_thing_compared() {
    let differences = differences();
    let tags: BTreeSet<char> = differences.iter().map(|d| d.0).collect();
    assert_eq!(tags, COMPARED.iter().map(|c| c.0).collect());
    for (tag, names) in COMPARED {
        let of_tag = differences.iter().filter(|d| d.0 == tag);
        let found: BTreeSet<&str> = of_tag.map(|d| d.2).collect();
        assert!(found.iter().eq(names), "{tag}: {found:?}");
    }
}

#[test]
fn refused_calls_have_one_that_stores_something() {
    let differences = differences();
    for (tag, what) in [
        ('u', "more"),
        ('o', "more"),
        ('g', "more"),
        ('U', "more"),
        ('O', "more"),
        ('G', "more"),
        ('v', "more"),
        ('p', "more"),
        ('h', "more"),
        ('T', "more"),
        ('t', "more"),
        ('W', "bytes"),
    ] {
        for refusal in [11, 20] {
            assert!(differences.contains(&(tag, refusal, what)), "{tag}");
        }
    }
}

#[test]
fn no_other_kind_is_stored() {
    let stored = reference::stored::files();
    let lines = stored.iter().flat_map(|file| lines(file));
    let tags: BTreeSet<char> = lines.filter_map(|line| line.chars().next()).collect();
    assert_eq!(tags, COMPARED.iter().map(|c| c.0).collect());
}
