//! What the stored case files cover, and that they are the ones made here.

use reference::case_file::texts_with_lines;
use reference::policy::Policy;
use reference::spelled::a_senior_decides;
use reference::text::read;
use reference::wrong::MARK;
use std::collections::BTreeSet;
use std::path::Path;
use std::sync::OnceLock;

/// The files, made once for all tests.
fn files() -> &'static [Vec<u8>] {
    static FILES: OnceLock<Vec<Vec<u8>>> = OnceLock::new();
    FILES.get_or_init(reference::stored::files)
}

/// The file about dominance; those before it are of form 1 alone.
const DOMINANCE: usize = 19;
/// The examples of forms, the lines about them that are wrong on purpose, cases of form
/// 2, what is between forms, and a large case of form 2.
const FORMS: [usize; 5] = [20, 21, 22, 23, 24];
/// The file about isolation of sessions.
const ISOLATION: usize = 25;
/// Form 3: examples with few values and with many, the lines about it that are wrong on
/// purpose, cases with few values, what is between forms, and cases with many values.
const FORM_3: [usize; 6] = [26, 27, 28, 29, 30, 31];

/// What `vectors` counts, by the tags of lines, in the order of its output.
const COUNTED: [(&str, &str); 10] = [
    ("texts refused alike", "R"),
    ("texts accepted alike", "Y"),
    ("checks of what was read alike", "V"),
    ("writings alike", "W"),
    ("label buffers and tables alike", "uogUOGvph"),
    ("listings alike", "Tt"),
    ("decisions by policy alike", "F"),
    ("decisions by tuples alike", "Bb"),
    ("answers of Apart alike", "PD"),
    ("lists of calls alike", "SZX"),
];

#[test]
fn the_output_of_vectors_is_what_is_due() {
    let path = Path::new(env!("CARGO_MANIFEST_DIR")).join("../crates/vectors/stdout");
    let stored = std::fs::read_to_string(path).expect("a file");
    let lines = case_lines();
    let (wrong, right): (Vec<&String>, _) =
        lines.iter().partition(|line| line[1..].starts_with(MARK));
    let mut due = String::new();
    for (name, tags) in COUNTED {
        let count = right
            .iter()
            .filter(|line| line.starts_with(|c| tags.contains(c)));
        due += &format!("{name}: {}\n", count.count());
    }
    let lists = right.iter().filter_map(|line| list_numbers(line));
    let calls: u32 = lists.map(|list| list[7]).sum();
    due += &format!("calls in these lists: {calls}\n");
    due += &format!("lines wrong on purpose found different: {}\n", wrong.len());
    assert_eq!(stored, due);
}

/// All lines; texts stand among them.
fn lines() -> Vec<String> {
    let all = files().concat();
    let lines = all.split(|&byte| byte == b'\n');
    lines
        .map(|line| String::from_utf8_lossy(line).into_owned())
        .collect()
}

/// The lines that follow texts.
fn case_lines() -> Vec<String> {
    let all = files().iter();
    all.flat_map(|file| reference::case_file::lines(file))
        .collect()
}

/// The numbers of a line with this tag.
fn numbers(line: &str, tag: char) -> Option<Vec<u32>> {
    let fields = line.strip_prefix(tag)?.strip_prefix(',')?.split(',');
    fields.map(|field| field.parse().ok()).collect()
}

/// The numbers of a list of calls, whatever widths it is made for.
fn list_numbers(line: &str) -> Option<Vec<u32>> {
    ['S', 'Z', 'X'].iter().find_map(|&tag| numbers(line, tag))
}

/// The answers of the lines with one of these tags.
fn answers(tags: &str) -> BTreeSet<u32> {
    let lines = lines();
    let found = tags
        .chars()
        .flat_map(|tag| lines.iter().filter_map(move |line| numbers(line, tag)));
    found.map(|numbers| numbers[0]).collect()
}

/// The answers of the calls in lists with this tag.
fn call_answers(tag: char) -> BTreeSet<u32> {
    let lists = lines();
    let lists = lists.iter().filter_map(|line| numbers(line, tag));
    lists
        .flat_map(|list| {
            let calls = list[7] as usize;
            list[8 + 4 * calls..8 + 5 * calls].to_vec()
        })
        .collect()
}

#[test]
fn the_stored_files_are_these() {
    let folder = Path::new(env!("CARGO_MANIFEST_DIR")).join("../crates/vectors/data");
    let files = files();
    let stored = std::fs::read_dir(&folder).expect("a folder").count();
    assert_eq!(stored, files.len());
    for (number, file) in files.iter().enumerate() {
        let stored = std::fs::read(folder.join(format!("cases-{number:02}")));
        assert!(stored.expect("a file") == *file, "{number}");
    }
}

#[test]
fn a_buffer_of_64_kib_holds_each_file_and_all_are_small_together() {
    let files = files();
    assert!(files.iter().all(|file| file.len() <= 65_536));
    assert!(files.iter().map(Vec::len).sum::<usize>() < 1_600_000);
}

#[test]
fn every_refusal_comes_up() {
    let refused = answers("R");
    assert!(
        refused.iter().copied().eq((1..=10).chain([21, 22])),
        "{refused:?}"
    );
    for tag in ['S', 'Z', 'X'] {
        let calls = call_answers(tag);
        let all = [0, 1, 2].into_iter().chain(11..=20).chain([23]);
        assert!(calls.iter().copied().eq(all), "{tag}: {calls:?}");
    }
    assert_eq!(answers("V"), BTreeSet::from([0, 11]));
    for tag in ["u", "o", "g", "U", "O", "G", "v", "p", "h", "W"] {
        assert_eq!(answers(tag), BTreeSet::from([0, 11, 20]), "{tag}");
    }
    for (list, decide) in [("T", "B"), ("t", "b")] {
        assert_eq!(answers(list), BTreeSet::from([0, 11, 12, 20]));
        assert_eq!(answers(decide), BTreeSet::from([1, 2, 11, 19, 20]));
    }
    assert_eq!(answers("F"), BTreeSet::from([1, 2, 11, 12, 19]));
    assert_eq!(answers("P"), BTreeSet::from([3, 4, 11, 19]));
}

#[test]
fn the_limits_come_up() {
    let lines = lines();
    let begins = |start: &str| lines.iter().any(|line| line.starts_with(start));
    for start in ["u,0,128,", "o,0,128,", "v,0,512,", "p,0,512,"] {
        assert!(begins(start), "{start}");
    }
    for start in ["user,31,", "object,63,"] {
        assert!(begins(start), "{start}");
    }
    let words = |line: &String| line.starts_with("rule,7,") && line.split(',').count() == 34;
    assert!(lines.iter().any(words));
}

/// The first field of each line.
fn kinds() -> Vec<String> {
    let first = |line: &String| line.split(',').next().unwrap_or_default().to_string();
    lines().iter().map(first).collect()
}

#[test]
fn conflicts_come_up() {
    let behind = kinds();
    let most = [vec!["conflict"; 16], vec!["end", "", "Y"]].concat();
    assert!(behind.windows(most.len()).any(|found| found == most));
    let two = |kinds: [&str; 2]| behind.windows(2).filter(|found| *found == kinds).count();
    for kind in ["oattr", "usen", "osen", "user", "object", "conflict"] {
        assert!(two([kind, "conflict"]) > 0, "{kind}");
    }
    for kind in ["rule", "pair", "end"] {
        assert!(two(["conflict", kind]) > 0, "{kind}");
    }
    let lists = lines();
    let lists = lists.iter().filter_map(|line| list_numbers(line));
    let mut refused = [0; 5];
    for list in lists {
        let calls = list[7] as usize;
        let kinds = list[8..].chunks(4).take(calls).map(|call| call[0]);
        let answers = &list[8 + 4 * calls..8 + 5 * calls];
        for (kind, answer) in kinds.zip(answers) {
            refused[kind as usize] += u32::from(*answer == 23);
        }
    }
    assert!(refused[0] > 40 && refused[1] > 20, "{refused:?}");
    assert_eq!(refused[2..], [0; 3]);
}

#[test]
fn pairs_come_up() {
    let behind = kinds();
    let most = [vec!["pair"; 64], vec!["end", "", "Y"]].concat();
    assert!(behind.windows(most.len()).any(|found| found == most));
    let alone = ["object", "pair", "end", "", "Y"];
    assert!(behind.windows(alone.len()).any(|found| found == alone));
    let accepted_behind = |kind| {
        behind
            .windows(4)
            .filter(|found| *found == [kind, "end", "", "Y"])
            .count()
    };
    assert!(accepted_behind("pair") > 20 && accepted_behind("rule") > 300);
}

/// The policies of a file's accepted texts.
fn policies(file: &[u8]) -> Vec<Policy> {
    let cases = texts_with_lines(file).into_iter();
    cases.filter_map(|(text, _)| read(&text).ok()).collect()
}

#[test]
fn dominance_by_seniority_comes_up() {
    let all = files()[..=DOMINANCE].iter().map(|file| policies(file));
    let found: Vec<usize> = all
        .map(|policies| policies.iter().filter(|p| a_senior_decides(p)).count())
        .collect();
    let (last, others) = found.split_last().expect("files");
    assert_eq!(*last, policies(&files()[DOMINANCE]).len());
    assert!(*last > 30, "{found:?}");
    // The examples, the made cases without pairs, those about pairs and conflicts.
    assert_eq!(others[0], 5);
    assert!(others[1..].iter().sum::<usize>() > 20, "{found:?}");
}

#[test]
fn a_file_has_dominance_beside_all_else() {
    let policies = policies(&files()[DOMINANCE]);
    let count = |wanted: fn(&Policy) -> bool| policies.iter().filter(|p| wanted(p)).count();
    assert!(count(|p| !p.pairs.is_empty()) > 10 && count(|p| p.pairs.is_empty()) > 5);
    assert!(count(|p| !p.conflicts.is_empty()) > 10);
    assert!(count(|p| !p.object_seniority.is_empty()) > 10);
    assert!(count(|p| p.user_widths.len() > 1 && p.object_widths.len() > 1) > 5);
}

/// How many of a file's accepted texts are of a form, and how many there are.
fn of_form(number: u32, file: usize) -> (usize, usize) {
    let policies = policies(&files()[file]);
    let count = policies.iter().filter(|p| p.form.number == number).count();
    (count, policies.len())
}

#[test]
fn texts_of_each_form_stand_behind_all_of_earlier_forms() {
    assert!((0..=DOMINANCE).all(|file| of_form(2, file).0 == 0));
    assert!((0..=ISOLATION).all(|file| of_form(3, file).0 == 0));
    assert_eq!(files().len(), FORM_3[5] + 1);
    let found = FORMS.map(|file| of_form(2, file));
    // By hand and wrong on purpose both forms; then form 2, form 1, form 2.
    assert!(found[0].0 > 25 && found[0].1 > found[0].0 + 10, "{found:?}");
    assert_eq!(found[1], (2, 3));
    assert!(found[2].0 == found[2].1 && found[2].0 > 30, "{found:?}");
    assert!(found[3].0 == 0 && found[3].1 > 15, "{found:?}");
    assert_eq!(found[4], (1, 1));
    let found = FORM_3.map(|file| of_form(3, file));
    // Some by hand, and those between the forms, are of forms 1 and 2.
    assert!(found[0].0 > 30 && found[1].0 > 25, "{found:?}");
    assert_eq!(found[2], (2, 3));
    assert!(found[3].0 == found[3].1 && found[3].0 > 10, "{found:?}");
    assert!(found[4].0 == 0 && found[4].1 > 5, "{found:?}");
    assert!(found[5].0 == found[5].1 && found[5].0 > 5, "{found:?}");
}

/// The files about a form, the number of which the texts say.
const ABOUT: [(u32, &[usize]); 2] = [(2, &FORMS), (3, &FORM_3)];

/// The texts that say they are of a form, with their lines, of the files about it.
fn cases_about(number: u32, files_about: &[usize]) -> Vec<(Vec<u8>, Vec<String>)> {
    let first = format!("policy,{number}\n");
    let cases = files_about
        .iter()
        .flat_map(|&file| texts_with_lines(&files()[file]));
    cases
        .filter(|(text, _)| text.starts_with(first.as_bytes()))
        .collect()
}

#[test]
fn a_refused_text_of_a_later_form_has_every_refusal_but_that_of_length() {
    for (number, files_about) in ABOUT {
        let cases = cases_about(number, files_about);
        let refused = cases.iter().filter_map(|(text, _)| read(text).err());
        let found: BTreeSet<u32> = refused.map(|refused| refused.refusal).collect();
        let all = (2..=10).chain([21, 22]);
        assert!(found.iter().copied().eq(all), "{number}: {found:?}");
    }
}

/// Each action of a form is granted and denied by tuples, tables and requests, and past the
/// last each call is refused.
#[test]
fn each_action_of_a_later_form_decides() {
    for ((number, files_about), [t, g, z]) in
        ABOUT.into_iter().zip([['T', 'G', 'Z'], ['t', 'h', 'X']])
    {
        let cases = cases_about(number, files_about);
        let mut found = BTreeSet::new();
        let mut bits = 0;
        for line in cases.iter().flat_map(|(_, lines)| lines) {
            if let Some(f) = numbers(line, 'F') {
                found.insert(('F', f[0], f[2]));
            } else if let Some(listing) = numbers(line, t) {
                let granted = u32::from(listing[1] > 0);
                found.insert((t, listing[0].max(granted), listing[2]));
            } else if let Some(table) = numbers(line, g) {
                bits |= table[5..].iter().fold(0, |bits, entry| bits | entry);
            } else if let Some(list) = numbers(line, z) {
                let asked = answered(&list).into_iter().filter(|(call, _)| call[0] == 4);
                found.extend(asked.map(|(call, answer)| (z, answer, call[2])));
            }
        }
        assert_eq!(bits, 65_535);
        for action in 0..16 {
            for due in [('F', 1), ('F', 2), (t, 0), (t, 1), (z, 0), (z, 1)] {
                assert!(found.contains(&(due.0, due.1, action)), "{due:?} {action}");
            }
        }
        let mut refused = found.iter().filter(|f| f.1 == 12);
        assert!(refused.all(|f| f.2 >= 16));
        assert!(['F', t, z]
            .iter()
            .all(|&tag| found.contains(&(tag, 12, 16))));
    }
}

/// The tags of compiling and of lists of calls, and of listing and deciding by tuples, by
/// the widths they are made for, in the order of the forms.
const WIDTH_TAGS: [(&str, char); 3] = [("uog", 'S'), ("UOG", 'Z'), ("vph", 'X')];
const TUPLE_TAGS: [(&str, u32); 2] = [("TB", 16), ("tb", 32)];

/// In each form, by compiling, by requests of lists in which other calls are done, and by
/// tuples.
#[test]
fn calls_made_for_other_widths_get_11() {
    let (mut compiled, mut asked, mut listed) = ([0; 3], [0; 3], [0; 3]);
    let files_about = FORMS.iter().chain(&FORM_3);
    for (text, lines) in files_about.flat_map(|&file| texts_with_lines(&files()[file])) {
        let Ok(policy) = read(&text) else { continue };
        let form = policy.form.number as usize - 1;
        let right = |line: &&String| !line[1..].starts_with(MARK);
        for line in lines.iter().filter(right) {
            let begins = |tags: &str| line.starts_with(|c| tags.contains(c));
            for (_, (tags, list)) in (0..).zip(WIDTH_TAGS).filter(|(other, _)| *other != form) {
                if begins(tags) {
                    assert!(line[2..].starts_with("11,0,"), "{line}");
                    compiled[form] += 1;
                } else if let Some(list) = numbers(line, list) {
                    for (call, answer) in answered(&list) {
                        assert_eq!(call[0] == 4, answer == 11, "{line}");
                        asked[form] += u32::from(call[0] == 4);
                    }
                }
            }
            let other = |(_, bits): &&(&str, u32)| *bits != policy.form.tuple_bits;
            for (tags, _) in TUPLE_TAGS.iter().filter(other) {
                if begins(tags) {
                    assert!(line[2..].starts_with("11,0,"), "{line}");
                    listed[form] += 1;
                }
            }
        }
    }
    assert!(compiled.iter().chain(&asked).all(|&count| count > 20));
    assert!(listed.iter().all(|&count| count > 10), "{listed:?}");
}

/// Attributes as wide as there may be and several, all lines of seniority, and sets that
/// other forms have no room for.
#[test]
fn policies_that_only_form_3_has_come_up() {
    let all = FORM_3.iter().flat_map(|&file| policies(&files()[file]));
    let all: Vec<Policy> = all.collect();
    let some = |wanted: &dyn Fn(&Policy) -> bool| all.iter().any(wanted);
    assert!(some(&|p| p.user_widths == [9] && p.object_widths == [9]));
    let nines = |p: &Policy| (p.user_values(), p.object_values()) == (9, 9);
    assert!(some(&|p| nines(p)
        && p.user_widths.len() > 2
        && p.object_widths.len() > 2));
    let lines = |p: &Policy| [p.user_seniority.len(), p.object_seniority.len()];
    assert!(some(&|p| lines(p) == [36, 36]));
    let high = |entry: &(u32, u32)| (256..512).contains(&entry.1);
    assert!(some(&|p| p.users.iter().any(high)));
    assert!(some(&|p| p.objects.iter().any(high)));
}

/// Labels and tuples that other forms have no room for, and requests by them.
#[test]
fn answers_that_only_form_3_has_come_up() {
    let lines = case_lines();
    let last = |tag| {
        let found = lines.iter().filter_map(|line| numbers(line, tag));
        let done = found.filter(|numbers| numbers[0] == 0);
        done.filter_map(|numbers| numbers.last().copied()).max()
    };
    assert_eq!(['v', 'p', 't'].map(last), [511, 511, 262_143].map(Some));
    let lists = lines.iter().filter_map(|line| numbers(line, 'X'));
    let high = |(call, answer): &(&[u32], u32)| call[0] == 0 && call[3] > 255 && *answer == 2;
    let granted = |(call, answer): &(&[u32], u32)| call[0] == 4 && *answer == 1;
    let both = lists.filter(|list| {
        let calls = answered(list);
        calls.iter().any(high) && calls.iter().any(granted)
    });
    assert!(both.count() > 3);
}

/// Texts that only a later form would read, and forms that there are not.
#[test]
fn texts_out_of_a_form_s_range_come_up() {
    let refused = |text: &str| {
        let all = files().iter().flat_map(|file| texts_with_lines(file));
        let mut begins = all.filter(|(found, _)| found.starts_with(text.as_bytes()));
        begins.any(|(found, _)| read(&found).is_err_and(|refused| refused.refusal == 6))
    };
    for text in [
        "policy,2\nuattr,8\n",
        "policy,2\nuattr,4\nuattr,4\n",
        "policy,4\n",
    ] {
        assert!(refused(text), "{text}");
    }
    for text in ["policy,3\nuattr,10\n", "policy,3\nuattr,5\nuattr,5\n"] {
        assert!(refused(text), "{text}");
    }
}

/// In form 3, so that a reader of the files needs no longer buffers.
#[test]
fn tables_and_tuples_of_form_3_are_few() {
    for line in case_lines() {
        if let Some(table) = numbers(&line, 'h') {
            assert!(table.len() <= 5 + 4096 && table[2..5].iter().all(|&room| room <= 16_384));
            assert!(table[2].max(table[3]) <= 512);
        } else if let Some(listing) = numbers(&line, 't') {
            assert!(listing[1] <= 4096 && listing[3] <= 16_384);
        } else if let Some(decision) = numbers(&line, 'b') {
            assert!(decision[6] <= 16_384);
        } else if let Some(list) = numbers(&line, 'X') {
            assert!(list[4].max(list[5]) <= 512 && list[6] <= 16_384 && list[7] < 64);
        }
    }
}

/// The session that a call in a list names.
fn session(call: &[u32]) -> u32 {
    match call[0] {
        4 => call[1],
        _ => call[2],
    }
}

/// The calls in a list, each with its answer.
fn answered(list: &[u32]) -> Vec<(&[u32], u32)> {
    let calls = list[7] as usize;
    let answers = &list[8 + 4 * calls..8 + 5 * calls];
    let answered = list[8..].chunks(4).zip(answers);
    answered.map(|(call, &answer)| (call, answer)).collect()
}

/// What a session holds after a list, if it is open: its user and set.
fn held(list: &[u32], session: u32) -> Option<&[u32]> {
    let entries = list[8 + 5 * list[7] as usize..].chunks(3);
    let mut own = entries.filter(|entry| entry[0] == session);
    own.next().map(|entry| &entry[1..])
}

/// The last list of a text has the calls naming one session alone. In each other list of
/// the text these calls are the same, among others, and so are their answers.
#[test]
fn the_calls_naming_a_session_get_the_same_answers_in_all_lists_of_a_text() {
    let (mut sessions, mut found) = (BTreeSet::new(), BTreeSet::new());
    let cases = texts_with_lines(&files()[ISOLATION]);
    assert!((10..=20).contains(&cases.len()));
    for (_, lines) in cases {
        let lists: Vec<_> = lines.iter().filter_map(|line| list_numbers(line)).collect();
        let (last, others) = lists.split_last().expect("lists");
        let alone = answered(last);
        let number = session(alone[0].0);
        assert!(alone.iter().all(|(call, _)| session(call) == number));
        assert!(others.len() > 1 && others[0] != others[1]);
        for list in others {
            let mut own = answered(list);
            own.retain(|(call, _)| session(call) == number);
            assert_eq!(own, alone);
            // Fewer than a reader of the files has room for.
            let calls = answered(list).len();
            assert!(own.len() < calls && calls < 64);
            assert_eq!(held(list, number), held(last, number));
        }
        sessions.insert(number);
        found.extend(alone.iter().map(|(_, answer)| *answer));
    }
    assert!([0, 31, 32, 33, 40_000].iter().all(|s| sessions.contains(s)));
    let all = [0, 1, 2].into_iter().chain(11..=20).chain([23]);
    assert!(found.iter().copied().eq(all), "{found:?}");
}

/// As long as the longest that were there before, which a reader of the files has room for.
#[test]
fn no_line_has_more_numbers_than_16_384_entries_need() {
    let most = lines().iter().map(|line| line.split(',').count()).max();
    assert_eq!(most, Some(16_390));
}
