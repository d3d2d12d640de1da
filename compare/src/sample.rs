//! The policies, boards and calls that are measured.

use crate::boundary::{
    Board, Counts, PolicyValue, Session, FORM_1_ACTIONS, FORM_2_ACTIONS, FORM_3_VALUES,
    MOST_LABELS, MOST_TABLE, SESSIONS, TEXT_BYTES,
};
use crate::engine::{Archive, Engine};
use crate::plain::policy::Policy;
use crate::plain::{self, policy_of};
use crate::widths::{Labels, Widths};
use reference::cases::Rng;
use reference::machine::Call;
use std::fmt::{self, Display};

/// How many of each thing a policy has.
#[derive(Clone, Copy)]
pub struct Size {
    pub form: u32,
    /// Of each side, all of one attribute, so that each pair of them may be a line of seniority.
    pub values: u32,
    pub users: u32,
    pub objects: u32,
    /// Not more than there are user sets.
    pub conflicts: u32,
    pub rules: u32,
    /// Of each rule; an even number.
    pub words: u32,
    /// Equally many of each action, and not more of one than there are pairs of values.
    pub pairs: u32,
    /// Whether each set has a label of its own, and rows that are not alike begin alike:
    /// every rule is true where `q00` is, and the last action has no pairs.
    pub all_apart: bool,
}

const SMALL: Size = Size {
    form: 1,
    values: 2,
    users: 2,
    objects: 4,
    conflicts: 0,
    rules: 2,
    words: 4,
    pairs: 0,
    all_apart: false,
};

const MIDDLE: Size = Size {
    values: 4,
    users: 8,
    objects: 16,
    rules: 4,
    words: 16,
    ..SMALL
};

const LARGE: Size = Size {
    values: 7,
    users: 32,
    objects: 64,
    rules: 8,
    words: 32,
    ..SMALL
};

/// Of form 1: from a small policy to one at every limit but those of pairs and
/// conflicts; then each once more with as many pairs as there can be, and with as many
/// conflicts.
pub const FORM_1_SIZES: [Size; 9] = [
    SMALL,
    MIDDLE,
    LARGE,
    Size { pairs: 32, ..SMALL },
    Size {
        pairs: 64,
        ..MIDDLE
    },
    Size { pairs: 64, ..LARGE },
    Size {
        conflicts: 4,
        ..SMALL
    },
    Size {
        conflicts: 16,
        ..MIDDLE
    },
    Size {
        conflicts: 16,
        ..LARGE
    },
];

const LARGE_2: Size = Size {
    form: 2,
    rules: FORM_2_ACTIONS as u32,
    ..LARGE
};

/// Of form 2, at the limits: with a rule for each action, and with pairs too.
pub const FORM_2_SIZES: [Size; 2] = [
    LARGE_2,
    Size {
        pairs: 64,
        ..LARGE_2
    },
];

const LARGE_3: Size = Size {
    form: 3,
    values: FORM_3_VALUES as u32,
    ..LARGE_2
};

/// Of form 3, at the limits: as those of form 2, and both once more with as many labels as
/// there can be.
pub const FORM_3_SIZES: [Size; 4] = [
    LARGE_3,
    Size {
        pairs: 64,
        ..LARGE_3
    },
    Size {
        all_apart: true,
        ..LARGE_3
    },
    Size {
        pairs: 64,
        all_apart: true,
        ..LARGE_3
    },
];

/// Of form 3, from few values to the most, and alike otherwise.
pub fn growing() -> impl Iterator<Item = Size> {
    (2..=LARGE_3.values).map(|values| Size { values, ..LARGE_3 })
}

/// Calls a function over widths with each of the sizes of all forms.
#[macro_export]
macro_rules! for_all_sizes {
    ($call:ident) => {
        $crate::sample::FORM_1_SIZES
            .into_iter()
            .for_each($call::<$crate::widths::Widths8x8>);
        $crate::sample::FORM_2_SIZES
            .into_iter()
            .for_each($call::<$crate::widths::Widths8x16>);
        $crate::sample::FORM_3_SIZES
            .into_iter()
            .for_each($call::<$crate::widths::Widths16x16>);
    };
}

impl Size {
    /// How many pairs of sets there are.
    pub fn pairs_of_sets(&self) -> u64 {
        1 << (2 * self.values)
    }

    fn actions(&self) -> u32 {
        match self.form {
            1 => FORM_1_ACTIONS as u32,
            _ => FORM_2_ACTIONS as u32,
        }
    }
}

impl Display for Size {
    fn fmt(&self, f: &mut fmt::Formatter<'_>) -> fmt::Result {
        write!(f, "{0} + {0}", self.values)?;
        if self.form != 1 {
            write!(f, ", form {}, {} rules", self.form, self.rules)?;
        }
        let labels = u32::from(self.all_apart) << self.values;
        for (count, kind) in [
            (self.pairs, "pairs"),
            (self.conflicts, "conflicts"),
            (labels, "labels"),
        ] {
            if count > 0 {
                write!(f, ", {count} {kind}")?;
            }
        }
        Ok(())
    }
}

/// What one size is measured on, with the stored widths of its form.
pub struct Sample<W: Widths> {
    pub size: Size,
    pub text: Vec<u8>,
    /// The text with a word for its form, and with a form that there is none of: refused in line 0.
    pub misspelt: Vec<u8>,
    pub no_form: Vec<u8>,
    /// The text without its end line, which is refused for that.
    pub endless: Vec<u8>,
    /// A text of one byte more than any may have.
    pub too_long: Vec<u8>,
    pub value: PolicyValue,
    pub policy: Policy,
    /// All sessions are open but the last.
    pub board: Board,
    /// All sessions are open.
    pub full: Board,
    /// A call or two on that board, none of them refused.
    pub on_full: [Vec<Call>; 4],
    /// A thousand calls from a fresh board, none of them refused.
    pub calls: Vec<Call>,
    compiled: Compiled<W>,
}

/// What compiling gave, in buffers that are always long enough.
struct Compiled<W: Widths> {
    counts: Counts,
    users: Vec<W::Label>,
    objects: Vec<W::Label>,
    table: Vec<W::Entry>,
}

impl<W: Widths> Compiled<W> {
    fn of(policy: &PolicyValue) -> Self {
        let mut users = vec![W::Label::default(); MOST_LABELS];
        let mut objects = vec![W::Label::default(); MOST_LABELS];
        let mut table = vec![W::Entry::default(); MOST_TABLE];
        let counts = W::compile(&Archive, policy, &mut users, &mut objects, &mut table);
        assert_eq!(counts.refusal, 0, "a sample of other widths");
        Compiled {
            counts,
            users,
            objects,
            table,
        }
    }
}

impl<W: Widths> Sample<W> {
    pub fn of(size: Size) -> Self {
        let text = text(size).into_bytes();
        let value = Archive.read(&text).policy;
        let policy = policy_of(&value);
        assert!(Archive.valid(&value), "a sample text is refused");
        assert_eq!(plain::reader::read(&text), Ok(policy));
        Sample {
            size,
            misspelt: in_place_of_form(&text, b"one"),
            no_form: in_place_of_form(&text, b"0"),
            endless: text[..text.len() - "end\n".len()].to_vec(),
            too_long: vec![b'\n'; TEXT_BYTES + 1],
            text,
            value,
            policy,
            board: board(size, &policy, SESSIONS - 1),
            full: board(size, &policy, SESSIONS),
            on_full: on_full(size, &policy),
            calls: calls(size, &policy),
            compiled: Compiled::of(&value),
        }
    }

    /// The set of all values of a side.
    pub fn all_values(&self) -> u32 {
        (1 << self.size.values) - 1
    }

    /// What a request is lent.
    pub fn labels(&self) -> Labels<'_, W> {
        let compiled = &self.compiled;
        Labels {
            nu: compiled.counts.users,
            no: compiled.counts.objects,
            users: &compiled.users,
            objects: &compiled.objects,
            table: &compiled.table,
        }
    }
}

/// A text with something else for its form's number.
fn in_place_of_form(text: &[u8], form: &[u8]) -> Vec<u8> {
    let (before, after) = ("policy,".len(), "policy,1".len());
    [&text[..before], form, &text[after..]].concat()
}

fn text(size: Size) -> String {
    let values = size.values;
    let mut text = format!("policy,{}\nuattr,{values}\noattr,{values}\n", size.form);
    for kind in ["usen", "osen"] {
        for senior in 1..values {
            for junior in 0..senior {
                text += &format!("{kind},{senior},{junior}\n");
            }
        }
    }
    for user in 0..size.users {
        text += &format!("user,{user},{}\n", assigned(size, user));
    }
    for object in 0..size.objects {
        text += &format!("object,{object},{}\n", (29 * object + 3) % (1 << values));
    }
    text += &conflicts(size);
    for rule in 0..size.rules {
        text += &format!("rule,{rule},{}\n", words(size, rule));
    }
    text + &pairs(size) + "end\n"
}

/// The set that a user is assigned.
fn assigned(size: Size, user: u32) -> u32 {
    (37 * user + 5) % (1 << size.values)
}

/// The conflict lines, in even steps up to the set of all values. Each allows as much
/// as some user is assigned, so that nothing is refused and less would be too little.
fn conflicts(size: Size) -> String {
    let step = (1 << size.values) / size.conflicts.max(1);
    let sets = (1..=size.conflicts).map(|k| k * step - 1);
    sets.map(|set| {
        let held = |user| (assigned(size, user) & set).count_ones();
        let most = (0..size.users).map(held).max().unwrap_or(0);
        format!("conflict,{set},{most}\n")
    })
    .collect()
}

/// The pair lines, equally many of each action. Their user values are senior and
/// their object values junior, which the fewest sets hold: much is left to formulas.
fn pairs(size: Size) -> String {
    let actions = size.actions() - u32::from(size.all_apart);
    let values = size.values;
    let pair = |k| {
        let action = k % actions;
        let place = (action + k / actions) % (values * values);
        (action, values - 1 - place % values, place / values)
    };
    let mut pairs: Vec<_> = (0..size.pairs).map(pair).collect();
    pairs.sort();
    let lines = pairs.iter();
    lines
        .map(|(action, user, object)| format!("pair,{action},{user},{object}\n"))
        .collect()
}

/// The words of a rule; where all sets are to be apart they end in `q00`, whatever it says.
fn words(size: Size, rule: u32) -> String {
    match size.all_apart {
        true => formula(size, rule, size.words - 4) + ",f,a,q00,r",
        false => formula(size, rule, size.words),
    }
}

/// Leaves two by two, each two joined; then all of these joined, and `n`.
fn formula(size: Size, rule: u32, count: u32) -> String {
    let leaf = |k: u32| match (rule + k) % 8 {
        0 | 3 | 6 => format!("u{}", (rule + k / 2) % size.values),
        1 | 4 | 7 => format!("o{}", (rule + k / 3) % size.values),
        2 => "d00".to_string(),
        _ => "q00".to_string(),
    };
    let join = |k: u32| ["a", "r"][(rule + k) as usize % 2].to_string();
    let leaves = count / 2;
    let mut words = Vec::new();
    for k in 0..leaves {
        words.push(leaf(k));
        if k % 2 == 1 {
            words.push(join(k / 2));
        }
    }
    // A last leaf without another stands by itself.
    words.extend((1..leaves.div_ceil(2)).map(|k| join(k + 1)));
    words.push("n".to_string());
    words.join(",")
}

/// A text of nine values on each side that grants each of sixteen actions at every pair of
/// sets.
pub fn granting_all() -> Vec<u8> {
    listed(|_| "t".to_string())
}

/// One that grants each at half of the pairs of sets: where just one of a user value and an
/// object value is held.
pub fn granting_half() -> Vec<u8> {
    listed(|action| {
        let (user, object) = (action % LARGE_3.values, (action / 2 + 3) % LARGE_3.values);
        format!("u{user},o{object},n,a,u{user},n,o{object},a,r")
    })
}

/// A text of the most values of form 3, with a rule for each action.
fn listed(words: impl Fn(u32) -> String) -> Vec<u8> {
    let values = LARGE_3.values;
    let mut text = format!("policy,3\nuattr,{values}\noattr,{values}\n");
    for action in 0..LARGE_3.actions() {
        text += &format!("rule,{action},{}\n", words(action));
    }
    (text + "end\n").into_bytes()
}

/// The user that a session is opened for, and the user's assigned set.
fn owner(size: Size, policy: &Policy, session: u32) -> (u32, u32) {
    let user = session % size.users;
    (user, policy.users.entries[user as usize].set)
}

/// A board on which so many sessions are open.
fn board(size: Size, policy: &Policy, open: usize) -> Board {
    let mut board = Board::default();
    for session in 0..open {
        let (user, held) = owner(size, policy, session as u32);
        board.sessions[session] = Session::open(user, held);
    }
    board
}

/// Adding, dropping, closing and opening again, and a request, all of session 0 with
/// its user's assigned set.
fn on_full(size: Size, policy: &Policy) -> [Vec<Call>; 4] {
    let session = 0;
    let (user, set) = owner(size, policy, session);
    let request = Call::Request {
        session,
        action: 0,
        object: 0,
    };
    [
        vec![Call::Add { user, session, set }],
        vec![Call::Drop { user, session, set }],
        vec![
            Call::Close { user, session },
            Call::Open { user, session, set },
        ],
        vec![request],
    ]
}

/// All sessions are opened and then used, nearly half of the calls requests;
/// each is closed and opened again now and then.
fn calls(size: Size, policy: &Policy) -> Vec<Call> {
    let open = |session: u32| {
        let (user, set) = owner(size, policy, session);
        Call::Open { user, session, set }
    };
    let mut rng = Rng::new(1, 0);
    let mut calls: Vec<Call> = (0..SESSIONS as u32).map(open).collect();
    while calls.len() < 1000 {
        let session = rng.below(SESSIONS as u32);
        let (user, assigned) = owner(size, policy, session);
        let set = assigned & rng.below(1 << size.values);
        match rng.below(10) {
            0 => calls.extend([Call::Close { user, session }, open(session)]),
            1 | 2 => calls.push(Call::Add { user, session, set }),
            3 | 4 => calls.push(Call::Drop { user, session, set }),
            _ => calls.push(Call::Request {
                session,
                action: rng.below(size.rules),
                object: rng.below(size.objects),
            }),
        }
    }
    calls.truncate(1000);
    calls
}

#[cfg(test)]
mod tests {
    use super::*;
    use crate::value::sessions;
    use reference::machine::{run, step, Answer};
    use reference::text::read;

    fn has_its_lines<W: Widths>(size: Size) {
        let policy = Sample::<W>::of(size).policy;
        assert_eq!(policy.form, size.form);
        assert_eq!(policy.rules().len(), size.rules as usize);
        let mut rules = policy.rules().iter();
        assert!(rules.all(|rule| rule.count == size.words as usize));
        assert_eq!(policy.pairs().len(), size.pairs as usize);
        assert_eq!(policy.conflicts().len(), size.conflicts as usize);
    }

    #[test]
    fn samples_have_the_lines_of_their_size() {
        for_all_sizes!(has_its_lines);
    }

    fn has_its_labels<W: Widths>(size: Size) {
        let Labels { nu, no, .. } = Sample::<W>::of(size).labels();
        let most = 1 << size.values;
        assert!(!size.all_apart || (nu, no) == (most, most), "{size}");
    }

    #[test]
    fn samples_have_as_many_labels_as_sets_where_they_should() {
        for_all_sizes!(has_its_labels);
    }

    /// All sixteen actions at every pair of sets, or at half of them.
    #[test]
    fn what_is_listed_has_its_tuples() {
        for (text, count) in [(granting_all(), 1 << 18), (granting_half(), 1 << 17)] {
            let policy = plain::reader::read(&text).expect("accepted");
            let mut tuples = vec![0u32; 1 << 18];
            for action in 0..16 {
                assert_eq!(plain::by_64::list(&policy, action, &mut tuples), Ok(count));
            }
        }
    }

    fn none_refused_on_full<W: Widths>(size: Size) {
        let sample = Sample::<W>::of(size);
        let policy = read(&sample.text).expect("accepted");
        for calls in &sample.on_full {
            let mut map = sessions(&sample.full);
            assert_eq!(map.len(), SESSIONS);
            for call in calls {
                let (after, answer) = step(&policy, &map, call);
                assert!(!matches!(answer, Answer::Refused(_)), "{call:?}");
                map = after;
            }
        }
    }

    #[test]
    fn no_call_on_the_full_board_is_refused() {
        for_all_sizes!(none_refused_on_full);
    }

    fn none_refused<W: Widths>(size: Size) {
        let sample = Sample::<W>::of(size);
        let policy = read(&sample.text).expect("accepted");
        let (answers, _) = run(&policy, &sample.calls);
        let refused = answers
            .iter()
            .any(|answer| matches!(answer, Answer::Refused(_)));
        assert!(!refused && answers.len() == 1000);
    }

    #[test]
    fn no_call_of_a_sample_is_refused() {
        for_all_sizes!(none_refused);
    }
}
