//! What words, formulas and pairs mean on a user set and an object set.

use crate::policy::{first_value, Policy, Refusal, Set, Word};
use std::ops::Range;

/// Whether a set holds a value.
pub fn holds(set: Set, value: u32) -> bool {
    set >> value & 1 == 1
}

/// Whether a chain of one or more direct lines leads from `senior` to `junior`.
/// A direct line always leads to a lower value, so every chain ends.
pub fn is_senior(lines: &[(u32, u32)], senior: u32, junior: u32) -> bool {
    lines
        .iter()
        .filter(|line| line.0 == senior)
        .any(|line| line.1 == junior || is_senior(lines, line.1, junior))
}

/// A set and all juniors of its values. A line leads to a lower value, so that with the
/// highest seniors first every chain is followed to its end.
fn with_juniors(lines: &[(u32, u32)], set: Set) -> Set {
    let mut falling = lines.to_vec();
    falling.sort_by_key(|line| std::cmp::Reverse(line.0));
    let below = |all, &(senior, junior): &(u32, u32)| all | u32::from(holds(all, senior)) << junior;
    falling.iter().fold(set, below)
}

/// A set and all seniors of its values, with the lowest juniors first.
fn with_seniors(lines: &[(u32, u32)], set: Set) -> Set {
    let mut rising = lines.to_vec();
    rising.sort_by_key(|line| line.1);
    let above = |all, &(senior, junior): &(u32, u32)| all | u32::from(holds(all, junior)) << senior;
    rising.iter().fold(set, above)
}

/// The assigned values and all juniors of them.
pub fn reach(policy: &Policy, assigned: Set) -> Set {
    with_juniors(&policy.user_seniority, assigned) % policy.user_sets()
}

/// For each set of so many values the union of what each of its values gives.
fn unions(values: u32, given: impl Fn(Set) -> Set) -> Vec<Set> {
    let mut unions = vec![0];
    for value in 0..values {
        let one = given(1 << value);
        let with_it: Vec<Set> = unions.iter().map(|without| without | one).collect();
        unions.extend(with_it);
    }
    unions
}

/// The formulas and pairs of a policy, with the chains of seniority followed once.
pub struct Formulas<'a> {
    policy: &'a Policy,
    /// For each user set, it and the juniors of its values: `uV` is true where V is among
    /// them, and `d` where all places due are, by what is held in its attribute.
    user_reach: Vec<Set>,
    /// For each object set, it and the seniors of its values: `oV` is true where V is
    /// among them.
    object_reach: Vec<Set>,
}

impl<'a> Formulas<'a> {
    pub fn of(policy: &'a Policy) -> Self {
        let (users, objects) = (&policy.user_seniority, &policy.object_seniority);
        Formulas {
            policy,
            user_reach: unions(policy.user_values(), |set| with_juniors(users, set)),
            object_reach: unions(policy.object_values(), |set| with_seniors(objects, set)),
        }
    }

    /// Whether the action is granted on the two sets: by its formula or by a pair.
    pub fn grants(&self, action: u32, user_set: Set, object_set: Set) -> bool {
        self.row(action, user_set, object_set..object_set + 1)[0]
    }

    /// Whether the action's formula is true on the two sets.
    pub fn is_true(&self, action: u32, user_set: Set, object_set: Set) -> bool {
        self.truths(action, user_set, object_set..object_set + 1)[0]
    }

    /// Whether the action is granted to a user set, on each of these object sets.
    pub fn row(&self, action: u32, user_set: Set, object_sets: Range<Set>) -> Vec<bool> {
        let mut row = self.truths(action, user_set, object_sets.clone());
        let pairs = self.policy.pairs.iter();
        for pair in pairs.filter(|pair| pair.action == action) {
            if holds(self.user_reach[user_set as usize], pair.user) {
                let objects = self.pushes(&Word::Object(pair.object), user_set, &object_sets);
                row = joined(row, objects, |granted, by_pair| granted | by_pair);
            }
        }
        row
    }

    /// Whether the action's formula is true on a user set and each of these object sets.
    fn truths(&self, action: u32, user_set: Set, object_sets: Range<Set>) -> Vec<bool> {
        let mut stack = Vec::new();
        for word in self.policy.formula(action) {
            let truths = match *word {
                Word::Not => pop(&mut stack).into_iter().map(|truth| !truth).collect(),
                Word::And => joined(pop(&mut stack), pop(&mut stack), |top, next| top & next),
                Word::Or => joined(pop(&mut stack), pop(&mut stack), |top, next| top | next),
                _ => self.pushes(word, user_set, &object_sets),
            };
            stack.push(truths);
        }
        pop(&mut stack)
    }

    /// The truth values that a word other than a connective pushes.
    fn pushes(&self, word: &Word, user_set: Set, object_sets: &Range<Set>) -> Vec<bool> {
        let reach = self.user_reach[user_set as usize];
        let on_all = |truth| vec![truth; object_sets.len()];
        match *word {
            Word::True => on_all(true),
            Word::User(value) => on_all(holds(reach, value)),
            Word::Object(value) => {
                let (start, end) = (object_sets.start as usize, object_sets.end as usize);
                let reaches = self.object_reach[start..end].iter();
                reaches.map(|&reach| holds(reach, value)).collect()
            }
            Word::Within(i, j) if self.equal_width(i, j) => {
                let (own, due) = self.places_compared(i, j);
                // Only seniors in I count, so what is held elsewhere is left out.
                let held = user_set & own.all();
                let covered = own.of(self.user_reach[held as usize]);
                let sets = object_sets.clone();
                sets.map(|set| due.of(set) & !covered == 0).collect()
            }
            Word::Same(i, j) if self.equal_width(i, j) => {
                let (own, due) = self.places_compared(i, j);
                let held = own.of(user_set);
                let sets = object_sets.clone();
                sets.map(|set| due.of(set) == held).collect()
            }
            _ => on_all(false),
        }
    }

    /// The places of user attribute I and those of object attribute J.
    fn places_compared(&self, i: u32, j: u32) -> (Places, Places) {
        let users = places(&self.policy.user_widths, i);
        (users, places(&self.policy.object_widths, j))
    }

    fn equal_width(&self, i: u32, j: u32) -> bool {
        self.policy.user_widths[i as usize] == self.policy.object_widths[j as usize]
    }
}

/// The reader saw to it that no word finds the stack too short.
fn pop(stack: &mut Vec<Vec<bool>>) -> Vec<bool> {
    stack.pop().expect("truth values")
}

/// Truth values joined one by one.
fn joined(one: Vec<bool>, other: Vec<bool>, join: fn(bool, bool) -> bool) -> Vec<bool> {
    let both = one.into_iter().zip(other);
    both.map(|(one, other)| join(one, other)).collect()
}

/// The places of an attribute among the values of its side.
struct Places {
    first: u32,
    width: u32,
}

fn places(widths: &[u32], attribute: u32) -> Places {
    Places {
        first: first_value(widths, attribute),
        width: widths[attribute as usize],
    }
}

impl Places {
    /// All values of the attribute.
    fn all(&self) -> Set {
        ((1 << self.width) - 1) << self.first
    }

    /// Those that a set holds, counted from the attribute's first value.
    fn of(&self, set: Set) -> Set {
        (set >> self.first) % (1 << self.width)
    }
}

/// Decide by formula and pairs on two given sets; refusals 12 and 19.
pub fn decide(
    policy: &Policy,
    action: u32,
    user_set: Set,
    object_set: Set,
) -> Result<bool, Refusal> {
    if action >= policy.actions() {
        return Err(12);
    }
    if user_set >= policy.user_sets() || object_set >= policy.object_sets() {
        return Err(19);
    }
    Ok(Formulas::of(policy).grants(action, user_set, object_set))
}

#[cfg(test)]
mod tests {
    use super::*;
    use crate::text::read;

    fn policy(lines: &str) -> Policy {
        let text = format!("policy,1\nuattr,3\nuattr,2\noattr,2\noattr,3\n{lines}end\n");
        read(text.as_bytes()).expect("accepted")
    }

    fn granted(words: &str, user_set: Set, object_set: Set) -> bool {
        let lines = format!("usen,1,0\nusen,2,1\nosen,3,2\nosen,4,3\nrule,0,{words}\n");
        decide(&policy(&lines), 0, user_set, object_set).expect("decided")
    }

    #[test]
    fn seniority_is_by_chains() {
        let lines = [(1, 0), (2, 1), (4, 3)];
        assert!(is_senior(&lines, 1, 0) && is_senior(&lines, 2, 0) && is_senior(&lines, 4, 3));
        assert!(!is_senior(&lines, 0, 0) && !is_senior(&lines, 0, 2) && !is_senior(&lines, 4, 0));
    }

    /// Of each set of seven values with some lines, by each chain.
    #[test]
    fn juniors_and_seniors_of_a_set_are_by_chains() {
        let all = (0..7).flat_map(|senior| (0..senior).map(move |junior| (senior, junior)));
        let all: Vec<(u32, u32)> = all.collect();
        for step in 1..8 {
            let lines: Vec<_> = all.iter().copied().step_by(step).collect();
            for set in 0..128 {
                for value in 0..7 {
                    let by_chain = |leads: &dyn Fn(u32) -> bool| {
                        holds(set, value) || (0..7).any(|held| holds(set, held) && leads(held))
                    };
                    let junior = by_chain(&|held| is_senior(&lines, held, value));
                    assert_eq!(holds(with_juniors(&lines, set), value), junior);
                    let senior = by_chain(&|held| is_senior(&lines, value, held));
                    assert_eq!(holds(with_seniors(&lines, set), value), senior);
                }
            }
        }
    }

    #[test]
    fn user_holdings_look_up_and_object_holdings_down() {
        assert!(granted("u0", 0b00001, 0) && granted("u0", 0b00100, 0));
        assert!(!granted("u2", 0b00011, 0) && !granted("u0", 0b11000, 0));
        assert!(granted("o4", 0, 0b10000) && granted("o4", 0, 0b00100));
        assert!(!granted("o2", 0, 0b11000) && !granted("o4", 0, 0b00011));
    }

    #[test]
    fn comparisons_look_at_places() {
        // User attribute 1 has values 3 and 4, object attribute 0 has 0 and 1.
        assert!(granted("d10", 0b11000, 0b00001) && granted("d10", 0b01000, 0b00001));
        assert!(granted("d10", 0b00111, 0b11100) && !granted("d10", 0b10000, 0b00001));
        assert!(granted("q10", 0b01000, 0b00001) && !granted("q10", 0b11000, 0b00001));
        assert!(granted("d01", 0b00001, 0b00100) && granted("q01", 0b00001, 0b00100));
    }

    #[test]
    fn a_senior_covers_its_juniors_in_d() {
        // Next to it, by a chain, and each of several places.
        assert!(granted("d01", 0b00010, 0b00100) && granted("d01", 0b00100, 0b00100));
        assert!(granted("d01", 0b00100, 0b11100) && granted("d01", 0b00010, 0b01100));
        // A junior does not cover its senior, beside a place that is covered either.
        assert!(!granted("d01", 0b00001, 0b01000) && !granted("d01", 0b00011, 0b10000));
        assert!(!granted("d01", 0b00010, 0b10100));
    }

    #[test]
    fn values_side_by_side_do_not_cover_each_other() {
        let policy = policy("usen,2,0\nrule,0,d01\n");
        let granted = |us, os| decide(&policy, 0, us, os).expect("decided");
        assert!(granted(0b00100, 0b10100) && granted(0b00110, 0b11100));
        assert!(!granted(0b00100, 0b01000) && !granted(0b00010, 0b00100));
        // Of three places due, one is not covered.
        assert!(!granted(0b00100, 0b11100) && !granted(0b00011, 0b11100));
    }

    #[test]
    fn object_seniority_plays_no_part_in_d() {
        let policy = policy("osen,1,0\nosen,3,2\nosen,4,3\nrule,0,d01\nrule,1,d10\n");
        for us in 0..32 {
            for os in 0..32 {
                let wide = (os >> 2) & !(us & 0b111) == 0;
                let narrow = os & 0b11 & !(us >> 3) == 0;
                assert_eq!(decide(&policy, 0, us, os), Ok(wide), "{us} {os}");
                assert_eq!(decide(&policy, 1, us, os), Ok(narrow), "{us} {os}");
            }
        }
    }

    #[test]
    fn a_senior_helps_in_its_own_attribute_alone() {
        // Value 4 is senior to 3; values 0 to 2 are of the other attribute.
        let mut policy = policy("usen,4,3\nrule,0,d10\nrule,1,d01\n");
        let granted = |policy: &Policy, a, us, os| decide(policy, a, us, os).expect("decided");
        assert!(granted(&policy, 0, 0b10000, 0b00001) && !granted(&policy, 0, 0b00111, 0b00001));
        assert!(!granted(&policy, 1, 0b11000, 0b00100));
        // No text has such lines: a senior outside I is of no help.
        policy.user_seniority = vec![(3, 0), (3, 2), (4, 0)];
        assert!(!granted(&policy, 1, 0b11000, 0b00100) && !granted(&policy, 1, 0b11011, 0b10000));
        assert!(granted(&policy, 1, 0b11100, 0b10000));
    }

    #[test]
    fn q_is_the_same_places_whatever_the_seniority() {
        let none = policy("rule,0,q01\n");
        let both = policy("usen,1,0\nusen,2,1\nosen,3,2\nosen,4,3\nrule,0,q01\n");
        for us in 0..32 {
            for os in 0..32 {
                let same = Ok(us & 0b111 == os >> 2);
                assert_eq!(decide(&none, 0, us, os), same, "{us} {os}");
                assert_eq!(decide(&both, 0, us, os), same, "{us} {os}");
            }
        }
    }

    #[test]
    fn connectives_take_from_the_top() {
        assert!(granted("t,f,r", 0, 0) && !granted("t,f,a", 0, 0));
        assert!(granted("t,f,n,a", 0, 0) && granted("f,t,f,a,n,r", 0, 0));
        assert!(granted("t,f,f,a,r", 0, 0) && !granted("t,f,r,f,a", 0, 0));
    }

    #[test]
    fn pairs_look_up_for_users_and_down_for_objects() {
        let lines = "usen,1,0\nusen,2,1\nosen,3,2\nosen,4,3\npair,5,1,3\n";
        let policy = policy(lines);
        let granted = |us, os| decide(&policy, 5, us, os).expect("decided");
        assert!(granted(0b00010, 0b01000) && granted(0b00100, 0b00100));
        assert!(!granted(0b00001, 0b01000) && !granted(0b00010, 0b10000));
        assert!(!granted(0b00010, 0) && !granted(0, 0b01000) && !granted(0b11000, 0b00011));
        assert_eq!(decide(&policy, 4, 31, 31), Ok(false));
    }

    #[test]
    fn an_action_is_granted_by_its_formula_or_by_a_pair() {
        let policy = policy("rule,1,u4\nrule,2,f\npair,1,0,0\npair,1,3,4\npair,2,1,1\n");
        let grants = |action, us, os| Formulas::of(&policy).grants(action, us, os);
        assert!(grants(1, 0b10000, 0) && grants(1, 1, 1) && grants(1, 0b01000, 0b10000));
        // Both values of one pair, and not one of each.
        assert!(!grants(1, 1, 0b10000) && !grants(1, 0b01000, 1));
        assert!(grants(2, 2, 2) && !grants(2, 1, 1));
        assert!(!Formulas::of(&policy).is_true(2, 2, 2));
    }

    #[test]
    fn reach_is_the_assigned_and_all_juniors() {
        let policy = policy("usen,1,0\nusen,2,1\n");
        assert_eq!(reach(&policy, 0b00100), 0b00111);
        assert_eq!(reach(&policy, 0b01001), 0b01001);
        assert_eq!(reach(&policy, 0), 0);
    }

    #[test]
    fn deciding_refuses_by_12_then_19() {
        let policy = policy("rule,7,t\n");
        assert_eq!(decide(&policy, 8, 32, 0), Err(12));
        assert_eq!(decide(&policy, 7, 32, 0), Err(19));
        assert_eq!(decide(&policy, 7, 0, 32), Err(19));
        assert_eq!(decide(&policy, 7, 31, 31), Ok(true));
        assert_eq!(decide(&policy, 6, 31, 31), Ok(false));
    }

    #[test]
    fn forms_2_and_3_have_actions_up_to_15() {
        for form in [2, 3] {
            let lines = "uattr,1\noattr,1\nrule,8,u0\nrule,15,t\npair,12,0,0\nend\n";
            let policy = read(format!("policy,{form}\n{lines}").as_bytes()).expect("accepted");
            assert_eq!(decide(&policy, 8, 1, 0), Ok(true));
            assert_eq!(decide(&policy, 8, 0, 0), Ok(false));
            assert_eq!(decide(&policy, 12, 1, 1), Ok(true));
            assert_eq!(decide(&policy, 12, 1, 0), Ok(false));
            assert_eq!(decide(&policy, 15, 0, 0), Ok(true));
            assert_eq!(decide(&policy, 15, 2, 0), Err(19));
            assert_eq!(decide(&policy, 16, 2, 0), Err(12));
        }
    }

    /// By the highest of nine values: held, by seniority, in comparisons and in a pair.
    #[test]
    fn the_highest_values_of_form_3_decide() {
        let head = "policy,3\nuattr,1\nuattr,8\noattr,8\noattr,1\nusen,8,1\nosen,7,0\n";
        let rules = "rule,0,u1\nrule,1,o7\nrule,2,d10\nrule,3,q10\npair,4,8,8\n";
        let policy = read(format!("{head}{rules}end\n").as_bytes()).expect("accepted");
        let granted = |action, us, os| decide(&policy, action, us, os).expect("decided");
        assert!(granted(0, 256, 0) && granted(0, 2, 0) && !granted(0, 253, 0));
        assert!(granted(1, 0, 1) && granted(1, 0, 128) && !granted(1, 0, 382));
        // Value 8 covers value 1, which is place 0 of its attribute.
        assert!(granted(2, 256, 129) && granted(2, 511, 255) && !granted(2, 255, 128));
        assert!(granted(3, 258, 385) && !granted(3, 256, 129) && granted(3, 1, 256));
        assert!(granted(4, 256, 256) && !granted(4, 255, 511) && !granted(4, 511, 255));
        assert_eq!(decide(&policy, 4, 512, 0), Err(19));
        assert_eq!(decide(&policy, 4, 0, 512), Err(19));
    }
}
