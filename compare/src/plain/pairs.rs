//! What pairs grant: at one pair of sets, and to one user set at all object sets at once.

use super::checks::Shape;
use super::formula::Held;
use super::policy::{Policy, VALUES};
use crate::boundary::Pair;
use crate::widths::Element;

/// The pairs of an action. Pairs rise by their action first, so these stand together.
pub fn pairs_of(policy: &Policy, action: u32) -> &[Pair] {
    let pairs = policy.pairs();
    let start = pairs.partition_point(|pair| pair.action < action);
    let count = pairs[start..].partition_point(|pair| pair.action == action);
    &pairs[start..start + count]
}

/// Whether the sets hold both values of a pair, seniors and juniors taken in.
pub fn meets(pair: &Pair, user: Held, object: Held) -> bool {
    user.closed >> pair.user & object.closed >> pair.object & 1 == 1
}

/// Pairs, and for each object value the object sets that hold it or a junior of it.
pub struct Rows<'a, E> {
    pairs: &'a [Pair],
    /// All bits of an entry are set where the object set does. None where there is no pair.
    holders: Vec<Vec<E>>,
}

impl<'a, E: Element> Rows<'a, E> {
    /// Of some pairs of a valid policy and of all its object sets.
    pub fn of(policy: &Policy, pairs: &'a [Pair], objects: &[Held]) -> Self {
        let mut holders = Vec::new();
        if !pairs.is_empty() {
            let values = Shape::of(&policy.object).values;
            holders.extend((0..values).map(|value| holding(value, objects)));
        }
        Rows { pairs, holders }
    }

    /// The actions that pairs grant to a user set, into a row with an entry for each object
    /// set, bit a for action a.
    pub fn grant(&self, user: Held, row: &mut [E]) {
        let mut actions = [E::default(); VALUES];
        for pair in self.pairs {
            let held = user.closed >> pair.user & 1;
            actions[pair.object as usize] |= E::cut(held << pair.action);
        }
        row.fill(E::default());
        for (holder, actions) in self.holders.iter().zip(actions) {
            for (entry, &holds) in row.iter_mut().zip(holder) {
                *entry |= holds & actions;
            }
        }
    }
}

fn holding<E: Element>(value: u32, objects: &[Held]) -> Vec<E> {
    let holds = |object: &Held| match object.closed >> value & 1 {
        0 => E::default(),
        _ => E::FULL,
    };
    objects.iter().map(holds).collect()
}
