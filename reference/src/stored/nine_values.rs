//! Examples of form 3, with the answers by hand: up to nine values a side, labels of 16
//! bits and tuples of 32.

use super::forms;
use super::isolation;
use super::lists::{add, close, list_for, open, request, written, NumberedCall};
use super::lists::{DENIED, DONE, GRANTED};
use super::{read_as, TEXT};

/// What stands for the first line of the requirement's text, and what reading answers.
const FIRST_LINES: [(&str, &str); 8] = [
    ("policy,3\n", "Y"),
    ("policy,4\n", "R,6,0"),
    ("policy,30\n", "R,6,0"),
    ("policy,259\n", "R,6,0"),
    ("policy,65539\n", "R,6,0"),
    ("policy,03\n", "R,5,0"),
    ("policy,3,3\n", "R,4,0"),
    ("policy,3\npolicy,2\n", "R,3,1"),
];

/// The attributes of a text, and what reading answers in form 2 and in form 3.
const ATTRIBUTES: [(&str, &str, &str); 14] = [
    ("uattr,7\noattr,7\n", "Y", "Y"),
    ("uattr,8\noattr,7\n", "R,6,1", "Y"),
    ("uattr,7\noattr,8\n", "R,6,2", "Y"),
    ("uattr,9\noattr,9\n", "R,6,1", "Y"),
    ("uattr,4\nuattr,4\noattr,1\n", "R,6,2", "Y"),
    ("uattr,4\nuattr,5\noattr,6\noattr,3\n", "R,6,2", "Y"),
    ("uattr,7\noattr,7\noattr,1\n", "R,6,3", "Y"),
    ("uattr,7\noattr,7\noattr,2\n", "R,6,3", "Y"),
    ("uattr,10\noattr,1\n", "R,6,1", "R,6,1"),
    ("uattr,1\noattr,10\n", "R,6,2", "R,6,2"),
    ("uattr,9\nuattr,1\noattr,1\n", "R,6,1", "R,6,2"),
    ("uattr,5\nuattr,5\noattr,1\n", "R,6,2", "R,6,2"),
    ("uattr,1\noattr,8\noattr,2\n", "R,6,2", "R,6,3"),
    ("uattr,265\noattr,1\n", "R,6,1", "R,6,1"),
];

/// A line behind attributes of five and four values a side, which are at lines 1 to 4, and
/// what reading answers.
const LINES: [(&str, &str); 33] = [
    ("usen,8,5", "Y"),
    ("usen,5,4", "R,6,5"),
    ("usen,8,4", "R,6,5"),
    ("usen,9,8", "R,6,5"),
    ("usen,8,8", "R,6,5"),
    ("osen,8,7", "Y"),
    ("osen,9,8", "R,6,5"),
    ("osen,7,8", "R,6,5"),
    ("user,31,511", "Y"),
    ("user,31,512", "R,6,5"),
    ("object,63,511", "Y"),
    ("object,63,512", "R,6,5"),
    ("conflict,511,7", "Y"),
    ("conflict,511,8", "R,6,5"),
    ("conflict,511,9", "R,6,5"),
    ("conflict,512,0", "R,6,5"),
    ("conflict,256,0", "Y"),
    ("rule,15,u8", "Y"),
    ("rule,15,u9", "R,6,5"),
    ("rule,15,o8", "Y"),
    ("rule,15,o9", "R,6,5"),
    ("rule,15,u10", "R,5,5"),
    ("rule,16,u8", "R,6,5"),
    ("rule,15,d00", "Y"),
    ("rule,15,q11", "Y"),
    ("rule,15,d01", "R,8,5"),
    ("rule,15,q20", "R,6,5"),
    ("pair,15,8,8", "Y"),
    ("pair,15,9,8", "R,6,5"),
    ("pair,15,8,9", "R,6,5"),
    ("pair,16,8,8", "R,6,5"),
    ("usen,8,7\nusen,8,6", "R,7,6"),
    ("user,31,511\nuser,31,510", "R,7,6"),
];

/// Texts with as few values as other forms may have, each with the answers' lines, of which
/// the first is the reading's: what is due in form 2, by the tags of form 3's widths, and
/// calls on texts of other forms made for these.
pub fn example_cases_with_few_values() -> Vec<(String, String)> {
    let mut cases = of_form_2();
    for text in [TEXT.to_string(), forms::of_form_2(TEXT)] {
        cases.push((text, read_as("Y") + &forms::for_wide_labels()));
    }
    for (line, answer) in FIRST_LINES {
        cases.push((TEXT.replace("policy,1\n", line), read_as(answer)));
    }
    let without_end = TEXT
        .replace("policy,1\n", "policy,3\n")
        .replace("end\n", "");
    cases.push((without_end, read_as("R,10,8")));
    cases
}

/// Texts with up to nine values a side and just past it, each with the answers' lines.
pub fn example_cases_with_many_values() -> Vec<(String, String)> {
    let mut cases = Vec::new();
    for (attributes, second, third) in ATTRIBUTES {
        cases.push((format!("policy,2\n{attributes}end\n"), read_as(second)));
        cases.push((format!("policy,3\n{attributes}end\n"), read_as(third)));
    }
    for (line, answer) in LINES {
        let head = "policy,3\nuattr,5\nuattr,4\noattr,5\noattr,4\n";
        cases.push((format!("{head}{line}\nend\n"), read_as(answer)));
    }
    cases.extend(greatest_sets());
    cases.extend([
        ones(9),
        ones(10),
        all_seniority(),
        several_attributes(),
        a_label_per_user_set(),
        a_label_per_object_set(),
        the_same_places(),
    ]);
    cases
}

/// A case of form 2 as it is in form 3: the same answers by the tags of its widths.
pub fn in_form_3((text, answers): (String, String)) -> (String, String) {
    let lines = answers.lines().map(|line| match line.split_at(1) {
        ("U", rest) => format!("v{rest}\n"),
        ("O", rest) => format!("p{rest}\n"),
        ("G", rest) => format!("h{rest}\n"),
        ("Z", rest) => format!("X{rest}\n"),
        ("T", rest) => format!("t{rest}\n"),
        ("B", rest) => format!("b{rest},16384\n"),
        _ => format!("{line}\n"),
    });
    let lines = lines.collect();
    (text.replacen("policy,2\n", "policy,3\n", 1), lines)
}

/// The examples of form 2 in form 3, but for those about the number of values. Where calls
/// are made for bytes, others are made for the widths of form 2.
fn of_form_2() -> Vec<(String, String)> {
    let mut cases = [forms::example_cases(), isolation::example_cases()].concat();
    let about_values = |text: &str| text.contains("attr,8") || text.contains("attr,7");
    cases.retain(|(text, _)| text.starts_with("policy,2\n") && !about_values(text));
    let for_forms_1_and_2 = forms::for_16_bits() + &forms::for_tuples_of_16_bits();
    let with_both = |(text, mut answers): (String, String)| {
        if answers.contains("\nu,11,") {
            answers += &for_forms_1_and_2;
        }
        (text, answers)
    };
    cases.into_iter().map(in_form_3).map(with_both).collect()
}

/// For each number of values, the same on both sides: the greatest sets there are, and one
/// too great on either side.
fn greatest_sets() -> Vec<(String, String)> {
    let mut cases = Vec::new();
    for values in [1, 7, 8, 9] {
        let last = 2u32.pow(values) - 1;
        for (sets, answer) in [
            ([last, last, last], "Y"),
            ([last + 1, last, last], "R,6,3"),
            ([last, last + 1, last], "R,6,4"),
            ([last, last, last + 1], "R,6,5"),
        ] {
            let [user, object, conflict] = sets;
            let sides = format!("policy,3\nuattr,{values}\noattr,{values}\n");
            let lines = format!("user,0,{user}\nobject,0,{object}\nconflict,{conflict},7\n");
            cases.push((format!("{sides}{lines}end\n"), read_as(answer)));
        }
    }
    cases
}

/// So many user attributes of one value each, and nine of objects, compared by the last.
fn ones(attributes: usize) -> (String, String) {
    let (users, objects) = ("uattr,1\n".repeat(attributes), "oattr,1\n".repeat(9));
    let text = format!("policy,3\n{users}{objects}rule,0,d88,u8,a,q80,a,o8,n,a\nend\n");
    (text, read_as(if attributes > 9 { "R,6,10" } else { "Y" }))
}

/// The lines of user labels, object labels and table in buffers just long enough.
fn compiled(counts: [usize; 2], labels: [&[u32]; 2], table: &[u32]) -> String {
    let rooms = fields(&[labels[0].len(), labels[1].len(), table.len()].map(|n| n as u32));
    let [users, objects] = labels.map(fields);
    let [nu, no] = counts;
    let table = fields(table);
    format!("v,0,{nu}{rooms}{users}\np,0,{no}{rooms}{objects}\nh,0,{no}{rooms}{table}\n")
}

/// The line of a listing of tuples none of which follow each other, with just enough room.
fn listed(action: u32, tuples: &[u32]) -> String {
    let count = tuples.len();
    let runs: String = tuples.iter().map(|t| format!(",{t},{t}")).collect();
    format!("t,0,{count},{action},{count}{runs}\n")
}

fn fields(numbers: &[u32]) -> String {
    numbers.iter().map(|number| format!(",{number}")).collect()
}

/// All 36 lines of seniority of an attribute of nine values.
fn seniority(kind: &str) -> String {
    let lines = (0..9).flat_map(|senior| (0..senior).map(move |junior| (senior, junior)));
    lines.map(|(v, j)| format!("{kind},{v},{j}\n")).collect()
}

/// Where each value is senior to all below it, a user set holds what its highest value has,
/// and an object set what its lowest has.
const BY_SENIORITY: &str = "user,0,256
user,1,1
user,31,511
object,0,0
object,1,1
object,2,256
object,63,511
conflict,511,7
rule,0,u8,o8,n,a
rule,3,u0,n,o0,a
rule,15,d00,u0,a,u1,n,a
end
";
/// Action 0 is for sets from 256 on, on no value at all; action 3 for no value at all, on
/// odd sets; action 15 for value 0 alone, on it or on no value.
const BY_SENIORITY_ANSWERS: &str = "t,0,2,15,2,512,513
t,0,0,8,0
t,20,0,0,255
F,1,0,0,256,0
F,1,0,0,511,0
F,2,0,0,255,0
F,2,0,0,256,256
F,1,0,3,0,511
F,2,0,3,0,510
F,2,0,3,256,511
F,1,0,15,1,1
F,2,0,15,1,256
F,2,0,15,257,1
F,19,0,15,512,0
F,19,0,0,0,512
F,12,0,16,512,512
b,1,0,0,256,0,256,256
b,2,0,0,256,0,0,16384
b,1,0,0,511,0,256,16384
b,2,0,0,511,0,255,16384
b,2,0,0,255,0,256,16384
b,1,0,0,511,0,256,300
b,20,0,0,511,0,301,300
b,19,0,0,512,0,256,16384
b,19,0,0,0,512,16385,16384
P,3,0,256,511
P,3,0,2,255
P,4,0,255,256
P,4,0,1,257
P,19,0,512,0
P,19,0,0,512
D,4,0,255,256,0,0
D,4,0,0,256,3,511
";
const BY_SENIORITY_CALLS: [(NumberedCall, u32); 17] = [
    (open(0, 0, 256), DONE),
    (request(0, 0, 0), GRANTED),
    (request(0, 0, 63), DENIED),
    (request(0, 15, 0), DENIED),
    (open(0, 1, 1), DONE),
    (request(1, 15, 1), GRANTED),
    (request(1, 15, 2), DENIED),
    (add(0, 1, 256), DONE),
    (request(1, 0, 0), GRANTED),
    (request(1, 15, 1), DENIED),
    (open(1, 2, 256), 19),
    (open(31, 2, 511), 23),
    (open(31, 2, 319), DONE),
    (add(31, 2, 64), 23),
    (request(2, 0, 0), GRANTED),
    (open(31, 3, 512), 19),
    (close(0, 1), DONE),
];

/// One attribute of nine values a side, with every line of seniority there may be.
fn all_seniority() -> (String, String) {
    let head = "policy,3\nuattr,9\noattr,9\n";
    let text = format!(
        "{head}{}{}{BY_SENIORITY}",
        seniority("usen"),
        seniority("osen")
    );
    let user = |set| match set {
        0 | 1 => set,
        _ => 2 + u32::from(set > 255),
    };
    let object = |set| match set {
        0 | 1 => set,
        _ => 2 + set % 2,
    };
    let (users, objects): (Vec<u32>, Vec<u32>) = (0..512).map(|s| (user(s), object(s))).unzip();
    let table = [0, 8, 0, 8, 32768, 32768, 0, 0, 0, 0, 0, 0, 1, 0, 0, 0];
    let mut answers = read_as("Y") + &written(&text);
    answers += &compiled([4, 4], [&users, &objects], &table);
    answers += "v,20,0,511,512,16\np,20,0,512,511,16\nh,20,0,512,512,15\n";
    let high: Vec<u32> = (256..512).map(|set| 512 * set).collect();
    let odd: Vec<u32> = (0..256).map(|half| 2 * half + 1).collect();
    answers += &listed(0, &high);
    answers += &listed(3, &odd);
    answers += BY_SENIORITY_ANSWERS;
    let held = [[0, 0, 256], [2, 31, 319]];
    answers += &list_for('X', [4, 4, 512, 512, 16], &BY_SENIORITY_CALLS, &held);
    (text, answers)
}

/// Several attributes a side. Actions 14 and 15 are for all user values but perhaps the
/// last: by the same places, and by places that are covered.
const SEVERAL: &str = "policy,3
uattr,2
uattr,3
uattr,4
oattr,4
oattr,3
oattr,2
rule,0,u0,u1,a,u2,a,u3,a,u4,a,u5,a,u6,a,u7,a,u8,a
rule,1,o0,o1,a,o2,a,o3,a,o4,a,o5,a,o6,a,o7,a,o8,a
rule,14,q20,q11,a,q02,a,u0,a,u1,a,u2,a,u3,a,u4,a,u5,a,u6,a,u7,a
rule,15,d20,d11,a,d02,a,u0,a,u1,a,u2,a,u3,a,u4,a,u5,a,u6,a,u7,a,u8,n,a
end
";
const SEVERAL_ANSWERS: &str = "t,0,512,0,512,261632,262143
t,0,2,14,2,131063,131063,262143,262143
F,1,0,14,255,503
F,1,0,14,511,511
F,2,0,14,255,511
F,2,0,14,511,503
F,1,0,15,255,503
F,2,0,15,255,8
F,2,0,15,511,0
F,1,0,1,0,511
F,2,0,1,511,510
b,1,0,14,511,511,2,2
b,2,0,14,511,511,1,2
b,1,0,0,511,0,512,512
P,4,0,255,511
P,3,0,254,510
D,4,0,255,511,14,503
";

/// Sets 255 and 511 of users are told from all others. Of object sets those with value 3
/// are, and sets 503 and 511.
fn several_attributes() -> (String, String) {
    let user = |set| match set {
        255 => 1,
        511 => 2,
        _ => 0,
    };
    let object = |set| match set {
        503 => 2,
        511 => 3,
        _ => set >> 3 & 1,
    };
    let (users, objects): (Vec<u32>, Vec<u32>) = (0..512).map(|s| (user(s), object(s))).unzip();
    let table = [0, 0, 0, 2, 32768, 0, 49152, 2, 1, 1, 1, 16387];
    let mut answers = read_as("Y") + &written(SEVERAL);
    answers += &compiled([3, 4], [&users, &objects], &table);
    let last: Vec<u32> = (0..512).map(|set| 512 * set + 511).collect();
    answers += &listed(1, &last);
    answers += SEVERAL_ANSWERS;
    (SEVERAL.to_string(), answers)
}

/// Requests by labels from 256 on, of which the last bit alone decides action 8.
const BY_USER_LABELS: [(NumberedCall, u32); 14] = [
    (open(0, 0, 256), DONE),
    (request(0, 8, 0), GRANTED),
    (request(0, 0, 0), DENIED),
    (request(0, 8, 1), DENIED),
    (open(0, 1, 255), DONE),
    (request(1, 8, 0), DENIED),
    (request(1, 7, 0), GRANTED),
    (add(0, 1, 256), DONE),
    (request(1, 8, 0), GRANTED),
    (request(1, 0, 0), GRANTED),
    (request(1, 9, 0), DENIED),
    (open(0, 31, 257), DONE),
    (request(31, 0, 0), GRANTED),
    (request(31, 1, 0), DENIED),
];
/// A session with set 255 and one with 256, whose requests have these answers.
const fn at_256(lower: u32, upper: u32) -> [(NumberedCall, u32); 4] {
    [
        (open(0, 0, 255), DONE),
        (request(0, 7, 0), lower),
        (open(0, 1, 256), DONE),
        (request(1, 8, 0), upper),
    ]
}
const AT_256: [[u32; 3]; 2] = [[0, 0, 255], [1, 0, 256]];

/// Action k is for user value k, on the only object value: every user set has its own label.
fn a_label_per_user_set() -> (String, String) {
    let rules: String = (0..9).map(|k| format!("rule,{k},u{k},o0,a\n")).collect();
    let head = "policy,3\nuattr,9\noattr,1\nuser,0,511\nobject,0,1\nobject,1,0\n";
    let text = format!("{head}{rules}end\n");
    let labels: Vec<u32> = (0..512).collect();
    let table: Vec<u32> = (0..512).flat_map(|set| [0, set]).collect();
    let mut answers = read_as("Y") + &written(&text);
    answers += &compiled([512, 2], [&labels, &[0, 1]], &table);
    answers += "v,20,0,511,2,1024\nh,20,0,512,2,1023\n";
    for action in [0, 8] {
        let holds = (0..512).filter(|set| set >> action & 1 == 1);
        let tuples: Vec<u32> = holds.map(|set| 2 * set + 1).collect();
        answers += &listed(action, &tuples);
    }
    answers += "P,4,0,0,256\nP,4,0,255,511\nP,3,0,300,300\nD,4,0,255,511,8,1\n";
    let held = [[0, 0, 256], [1, 0, 511], [31, 0, 257]];
    let lent = |users, table| [512, 2, users, 2, table];
    answers += &list_for('X', lent(512, 1024), &BY_USER_LABELS, &held);
    // The label of set 256 or its entry, at place 513, lies past the end, and then not.
    for (users, table, upper) in [(256, 1024, 20), (257, 513, 20), (257, 514, GRANTED)] {
        let calls = at_256(GRANTED, upper);
        answers += &list_for('X', lent(users, table), &calls, &AT_256);
    }
    (text, answers)
}

/// Action k is on object value k, for the only user value: every object set has its own
/// label.
fn a_label_per_object_set() -> (String, String) {
    let rules: String = (0..9).map(|k| format!("rule,{k},o{k},u0,a\n")).collect();
    let objects = "object,0,256\nobject,1,255\nobject,2,511\nobject,3,0\n";
    let text = format!("policy,3\nuattr,1\noattr,9\nuser,0,1\n{objects}{rules}end\n");
    let labels: Vec<u32> = (0..512).collect();
    let table: Vec<u32> = [vec![0; 512], labels.clone()].concat();
    let mut answers = read_as("Y") + &written(&text);
    answers += &compiled([2, 512], [&[0, 1], &labels], &table);
    answers += "p,20,0,2,511,1024\n";
    let odd: Vec<u32> = (256..512).map(|half| 2 * half + 1).collect();
    answers += &listed(0, &odd);
    answers += "t,0,256,8,16384,768,1023\nP,4,0,0,1\nD,4,0,0,1,8,256\n";
    let calls = |upper| {
        [
            (open(0, 0, 1), DONE),
            (request(0, 8, 0), upper),
            (request(0, 8, 1), DENIED),
            (request(0, 7, 1), GRANTED),
            (request(0, 0, 3), DENIED),
        ]
    };
    // The last with the table's end just behind the entry of set 256.
    for (objects, table, upper) in [
        (512, 1024, GRANTED),
        (256, 1024, 20),
        (257, 768, 20),
        (257, 769, GRANTED),
    ] {
        let lent = [2, 512, 2, objects, table];
        answers += &list_for('X', lent, &calls(upper), &[[0, 0, 1]]);
    }
    (text, answers)
}

/// The same places of nine: each set has its own label on both sides, and the table is too
/// long for the buffers here.
fn the_same_places() -> (String, String) {
    let text = "policy,3\nuattr,9\noattr,9\nrule,15,q00\nend\n";
    let same: Vec<u32> = (0..512).map(|set| 513 * set).collect();
    let mut answers = read_as("Y") + &written(text) + &listed(15, &same);
    for tag in ['v', 'p', 'h'] {
        answers += &format!("{tag},20,0,512,512,16384\n");
    }
    answers += "t,20,0,15,511\nF,1,0,15,511,511\nF,2,0,15,511,255\nF,2,0,15,255,511\n";
    answers += "b,1,0,15,511,511,512,512\nb,2,0,15,511,511,511,512\nb,1,0,15,256,256,257,512\n";
    answers += "P,4,0,255,511\nP,4,0,510,511\nP,3,0,511,511\nD,4,0,255,511,15,511\n";
    (text.to_string(), answers)
}
