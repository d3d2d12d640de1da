//! The cards of `examples/`: what the lister writes for each, and the calls
//! that are stored with their answers.

use reference::card_calls::{call_file, CallFile, CardCall, Player};
use reference::lister::list;
use reference::machine::Answer;
use reference::text::read;
use std::fs;
use std::path::{Path, PathBuf};

fn top() -> PathBuf {
    Path::new(env!("CARGO_MANIFEST_DIR")).join("..")
}

/// The files with this ending of `examples/` and its folder of refusals.
fn files(ending: &str) -> Vec<PathBuf> {
    let mut files = Vec::new();
    for folder in ["examples", "examples/refused"] {
        for entry in fs::read_dir(top().join(folder)).expect("a folder") {
            let path = entry.expect("a file").path();
            if path.extension().is_some_and(|found| found == ending) {
                files.push(path);
            }
        }
    }
    files.sort();
    files
}

/// The refusal that the name of a file of `examples/refused/` begins with.
fn number(path: &Path) -> Option<u32> {
    let name = path.file_name()?.to_str()?;
    name.split_once('-')?.0.parse().ok()
}

fn refused(path: &Path) -> bool {
    path.parent()
        .is_some_and(|folder| folder.ends_with("refused"))
}

#[test]
fn the_lister_writes_what_stands_beside_each_card() {
    for path in files("txt") {
        let output = fs::read_to_string(path.with_extension("out")).expect("an output");
        assert_eq!(list(&fs::read(&path).expect("a card")), output, "{path:?}");
    }
}

#[test]
fn the_calls_get_the_answers_beside_them() {
    for path in files("calls") {
        let text = fs::read_to_string(&path).expect("a file of calls");
        let file = call_file(&text).unwrap_or_else(|| panic!("{path:?}: no file of calls"));
        let mut player = Player::new(&fs::read(top().join(&file.card)).expect("a card"));
        for (line, (call, answer)) in (2..).zip(file.calls) {
            assert_eq!(player.answer(call), answer, "{path:?}, line {line}");
        }
    }
}

/// The session that a call of a card names.
fn session(call: &CardCall) -> Option<u32> {
    match call {
        CardCall::Session(call) => Some(call.session()),
        _ => None,
    }
}

/// Two moderators at one screen: the calls of the first one's session are the same beside
/// the other's and alone, and have the same answers, with one of each sort among them.
#[test]
fn a_moderator_is_answered_the_same_beside_another_and_alone() {
    let [both, alone] = ["two-moderators", "one-moderator"].map(|name| -> CallFile {
        let path = top().join(format!("examples/{name}.calls"));
        call_file(&fs::read_to_string(path).expect("a file of calls")).expect("calls")
    });
    assert_eq!(both.card, alone.card);
    let first = session(&alone.calls[0].0).expect("a session");
    let (own, others): (Vec<_>, Vec<_>) = both
        .calls
        .into_iter()
        .partition(|(call, _)| session(call) == Some(first));
    assert_eq!(own, alone.calls);
    assert!(others
        .iter()
        .any(|(call, _)| session(call) == Some(first + 1)));
    let found = |wanted: fn(&Answer) -> bool| own.iter().any(|(_, answer)| wanted(answer));
    assert!(found(|answer| *answer == Answer::Granted));
    assert!(found(|answer| *answer == Answer::Denied));
    assert!(found(|answer| matches!(answer, Answer::Refused(_))));
}

#[test]
fn every_card_outside_refused_is_accepted_and_has_calls() {
    for path in files("txt").iter().filter(|path| !refused(path)) {
        assert!(read(&fs::read(path).expect("a card")).is_ok(), "{path:?}");
        assert!(path.with_extension("calls").exists(), "{path:?}");
    }
}

/// Refusals 1 to 10, 21 and 22 by texts, 11 to 20 and 23 by calls; each file gets the number in its name.
#[test]
fn every_refusal_has_a_file() {
    let mut found: Vec<u32> = Vec::new();
    for path in files("txt").iter().filter(|path| refused(path)) {
        let refusal = read(&fs::read(path).expect("a card"))
            .expect_err("refused")
            .refusal;
        assert_eq!(Some(refusal), number(path), "{path:?}");
        found.push(refusal);
    }
    for path in files("calls").iter().filter(|path| refused(path)) {
        let file = call_file(&fs::read_to_string(path).expect("calls")).expect("calls");
        let last = file.calls.last().expect("a call").1;
        let number = number(path).expect("a number");
        assert_eq!(last, Answer::Refused(number), "{path:?}");
        found.push(number);
    }
    found.sort();
    found.dedup();
    assert!(found.into_iter().eq(1..=23));
}

/// The shortest text of each refusal gets it no more when any stretch is cut out.
#[test]
fn the_smallest_texts_cannot_be_cut() {
    for refusal in (1..=10).chain([21, 22]) {
        let smallest = files("txt")
            .into_iter()
            .filter(|path| refused(path) && number(path) == Some(refusal))
            .map(|path| fs::read(path).expect("a card"))
            .min_by_key(Vec::len)
            .expect("a text");
        let length = smallest.len();
        // Of one byte again and again only cuts at the start.
        let same = smallest.windows(2).all(|two| two[0] == two[1]);
        let starts = if same { length.min(1) } else { length };
        for start in 0..starts {
            for end in start + 1..=length {
                let cut = [&smallest[..start], &smallest[end..]].concat();
                let left = read(&cut).err().map(|refused| refused.refusal);
                assert_ne!(left, Some(refusal), "{refusal}: bytes {start} to {end}");
            }
        }
    }
}
