//! Labels of both sides and their table, and telling two user sets apart.

use super::checks::{valid, Shape};
use super::formula::{Evaluator, Held};
use super::pairs::Rows;
use super::policy::{Policy, Refusal, WideEntry};
use super::tuples::object_sets;
use crate::widths::{Element, Widths};

/// An entry for each user set and object set, bit a for action a.
struct Grid<E> {
    entries: Vec<E>,
    columns: usize,
}

/// NU and NO.
#[derive(Debug, Clone, Copy, PartialEq, Eq)]
pub struct Counts {
    pub users: usize,
    pub objects: usize,
}

/// The label of each row, and each label's lowest row.
struct Classes<L> {
    labels: Vec<L>,
    leaders: Vec<usize>,
}

/// Fills the three buffers.
pub fn compile<W: Widths>(
    policy: &Policy,
    users: &mut [W::Label],
    objects: &mut [W::Label],
    table: &mut [W::Entry],
) -> Result<Counts, Refusal> {
    if !valid(policy) || !policy.is_stored_in::<W>() {
        return Err(Refusal::InvalidState);
    }
    let grid = Grid::<W::Entry>::of(policy);
    let user = grid.classes();
    let object = grid.turned().classes();
    let counts = Counts {
        users: user.leaders.len(),
        objects: object.leaders.len(),
    };
    let (users, objects, table) = (
        users.get_mut(..user.labels.len()),
        objects.get_mut(..object.labels.len()),
        table.get_mut(..counts.users * counts.objects),
    );
    let (Some(users), Some(objects), Some(table)) = (users, objects, table) else {
        return Err(Refusal::BufferTooShort);
    };
    users.copy_from_slice(&user.labels);
    objects.copy_from_slice(&object.labels);
    for (entries, &leader) in table.chunks_exact_mut(counts.objects).zip(&user.leaders) {
        let row = grid.row(leader);
        for (entry, &leader) in entries.iter_mut().zip(&object.leaders) {
            *entry = row[leader];
        }
    }
    Ok(counts)
}

impl<E: Element> Grid<E> {
    fn of(policy: &Policy) -> Self {
        let evaluator = Evaluator::of(policy);
        let objects = object_sets(policy);
        let rows = Rows::<E>::of(policy, policy.pairs(), &objects);
        let users = Shape::of(&policy.user).sets();
        let mut entries = vec![E::default(); users as usize * objects.len()];
        for (set, row) in (0..users).zip(entries.chunks_exact_mut(objects.len())) {
            let user = Held::by_user(policy, set);
            rows.grant(user, row);
            for (entry, &object) in row.iter_mut().zip(&objects) {
                *entry |= E::cut(entry_of(policy, &evaluator, user, object));
            }
        }
        Grid {
            entries,
            columns: objects.len(),
        }
    }

    fn row(&self, row: usize) -> &[E] {
        &self.entries[row * self.columns..][..self.columns]
    }

    fn turned(&self) -> Self {
        let rows = self.entries.len() / self.columns;
        let mut entries = Vec::with_capacity(self.entries.len());
        for column in 0..self.columns {
            entries.extend((0..rows).map(|row| self.entries[row * self.columns + column]));
        }
        Grid {
            entries,
            columns: rows,
        }
    }

    /// Equal rows share a label; labels count in order of their lowest row.
    fn classes<L: Element>(&self) -> Classes<L> {
        let mut classes = Classes {
            labels: Vec::new(),
            leaders: Vec::new(),
        };
        for (i, row) in self.entries.chunks_exact(self.columns).enumerate() {
            let mut leaders = classes.leaders.iter();
            let earlier = leaders.position(|&leader| self.row(leader) == row);
            let label = earlier.unwrap_or_else(|| {
                classes.leaders.push(i);
                classes.leaders.len() - 1
            });
            classes.labels.push(L::cut(label as u32));
        }
        classes
    }
}

/// Bit a is set exactly when the formula of action a is true.
fn entry_of(policy: &Policy, evaluator: &Evaluator, user: Held, object: Held) -> u32 {
    let mut entry = 0;
    for rule in policy.rules() {
        if evaluator.truth(rule.words(), user, object) {
            entry |= 1 << rule.action;
        }
    }
    entry
}

/// An action and an object set that tell two user sets apart, if there are any.
pub fn apart(policy: &Policy, one: u32, other: u32) -> Result<Option<(u32, u32)>, Refusal> {
    if !valid(policy) {
        return Err(Refusal::InvalidState);
    }
    let sets = Shape::of(&policy.user).sets();
    if one >= sets || other >= sets {
        return Err(Refusal::SetOutOfReach);
    }
    let evaluator = Evaluator::of(policy);
    let objects = object_sets(policy);
    let rows = Rows::<WideEntry>::of(policy, policy.pairs(), &objects);
    let users = [one, other].map(|set| Held::by_user(policy, set));
    let granted = users.map(|user| {
        let mut row = vec![WideEntry::default(); objects.len()];
        rows.grant(user, &mut row);
        row
    });
    for (k, &object) in objects.iter().enumerate() {
        let [one, other] = [0, 1].map(|i| {
            granted[i][k] | WideEntry::cut(entry_of(policy, &evaluator, users[i], object))
        });
        let unlike = one ^ other;
        if unlike != 0 {
            return Ok(Some((unlike.trailing_zeros(), object.set)));
        }
    }
    Ok(None)
}
