//! Labels of both sides and their table, by a grid of entries on the heap.

use super::blocks::{Block, Blocks, BLOCK};
use crate::boundary::MOST_ACTIONS;
use crate::plain::checks::{valid, Shape};
use crate::plain::labels::Counts;
use crate::plain::policy::{Policy, Refusal, WideEntry};
use crate::widths::{Element, Widths};

/// Rows of entries.
struct Grid {
    entries: Vec<WideEntry>,
    columns: usize,
}

/// The label of each row, and each label's lowest row.
struct Classes {
    labels: Vec<u32>,
    leaders: Vec<usize>,
}

/// The classes of both sides, and the rows of the user labels.
struct Labelling {
    users: Classes,
    objects: Classes,
    rows: Grid,
}

/// Fills the three buffers.
pub fn compile<W: Widths>(
    policy: &Policy,
    users: &mut [W::Label],
    objects: &mut [W::Label],
    table: &mut [W::Entry],
) -> Result<Counts, Refusal> {
    if !valid(policy) || !policy.is_stored_in::<W>() {
        return Err(Refusal::InvalidState);
    }
    let labelling = Labelling::of(policy);
    let counts = labelling.counts();
    let (user, object) = (&labelling.users, &labelling.objects);
    let short = Refusal::BufferTooShort;
    let users = users.get_mut(..user.labels.len()).ok_or(short)?;
    let objects = objects.get_mut(..object.labels.len()).ok_or(short)?;
    let table = table
        .get_mut(..counts.users * counts.objects)
        .ok_or(short)?;
    store(users, &user.labels);
    store(objects, &object.labels);
    let rows = labelling.rows.rows();
    for (stored, row) in table.chunks_exact_mut(counts.objects).zip(rows) {
        for (entry, &leader) in stored.iter_mut().zip(&object.leaders) {
            *entry = W::Entry::cut(row[leader].into());
        }
    }
    Ok(counts)
}

/// NU and NO of a valid policy.
pub fn counts(policy: &Policy) -> Counts {
    Labelling::of(policy).counts()
}

fn store<L: Element>(buffer: &mut [L], labels: &[u32]) {
    for (place, &label) in buffer.iter_mut().zip(labels) {
        *place = L::cut(label);
    }
}

impl Labelling {
    fn of(policy: &Policy) -> Self {
        let grid = Grid::of(policy);
        let users = grid.classes();
        // Rows that are alike tell no columns apart.
        let rows = grid.only(&users.leaders);
        let objects = rows.turned().classes();
        Labelling {
            users,
            objects,
            rows,
        }
    }

    fn counts(&self) -> Counts {
        Counts {
            users: self.users.leaders.len(),
            objects: self.objects.leaders.len(),
        }
    }
}

impl Grid {
    /// An entry for each user set and object set, bit a for action a.
    fn of(policy: &Policy) -> Self {
        let columns = Shape::of(&policy.object).sets() as usize;
        let rows = Shape::of(&policy.user).sets() as usize;
        let blocks = Blocks::of(policy);
        let mut entries = vec![0; blocks.count() * BLOCK];
        let mut places = entries.chunks_exact_mut(BLOCK);
        blocks.for_each(|block| {
            let granted = granted(policy, &blocks, block);
            if let Some(places) = places.next() {
                turn(&granted, places);
            }
        });
        // Fewer where a single block is not full.
        entries.truncate(rows * columns);
        Grid { entries, columns }
    }

    fn rows(&self) -> impl Iterator<Item = &[WideEntry]> {
        self.entries.chunks_exact(self.columns)
    }

    fn row(&self, row: usize) -> &[WideEntry] {
        &self.entries[row * self.columns..][..self.columns]
    }

    /// These rows alone.
    fn only(&self, rows: &[usize]) -> Self {
        let mut entries = Vec::with_capacity(rows.len() * self.columns);
        for &row in rows {
            entries.extend_from_slice(self.row(row));
        }
        Grid { entries, ..*self }
    }

    /// Rows for columns. Some columns at a time are turned, so that what is read and
    /// written stays at hand.
    fn turned(&self) -> Self {
        const AT_A_TIME: usize = 16;
        let rows = self.entries.len() / self.columns;
        let mut entries = vec![0; self.entries.len()];
        let parts = entries.chunks_mut(AT_A_TIME * rows);
        for (first, part) in (0..).step_by(AT_A_TIME).zip(parts) {
            for (place, row) in self.rows().enumerate() {
                let columns = part.chunks_exact_mut(rows).zip(&row[first..]);
                columns.for_each(|(column, &entry)| column[place] = entry);
            }
        }
        Grid {
            entries,
            columns: rows,
        }
    }

    /// Equal rows share a label; labels count in order of their lowest row. A row is
    /// compared with those of earlier labels, each up to the first difference.
    fn classes(&self) -> Classes {
        let mut labels = Vec::new();
        let mut leaders = Vec::new();
        for (place, row) in self.rows().enumerate() {
            let alike = leaders.iter().position(|&leader| self.row(leader) == row);
            let label = alike.unwrap_or_else(|| {
                leaders.push(place);
                leaders.len() - 1
            });
            labels.push(label as u32);
        }
        Classes { labels, leaders }
    }
}

/// For each action, where in a block it is granted.
fn granted(policy: &Policy, blocks: &Blocks, block: Block) -> [u64; MOST_ACTIONS] {
    let mut granted = [0; MOST_ACTIONS];
    for rule in policy.rules() {
        granted[rule.action as usize] = blocks.truth(rule.words(), block);
    }
    for pair in policy.pairs() {
        granted[pair.action as usize] |= block.met(pair);
    }
    granted
}

/// The entries of a block: bit a of entry p is bit p of what action a has.
fn turn(granted: &[u64; MOST_ACTIONS], entries: &mut [WideEntry]) {
    let bytes = granted.map(u64::to_le_bytes);
    for (k, entries) in entries.chunks_exact_mut(8).enumerate() {
        let [low, high] = [0, 8].map(|first| {
            let eight = std::array::from_fn(|action| bytes[first + action][k]);
            turned(u64::from_le_bytes(eight)).to_le_bytes()
        });
        for (i, entry) in entries.iter_mut().enumerate() {
            *entry = WideEntry::from_le_bytes([low[i], high[i]]);
        }
    }
}

/// A square of eight by eight bits, a byte for each row, with rows for columns: the squares
/// of one, two and four bits right of the diagonal change places with those left of it.
fn turned(mut square: u64) -> u64 {
    for (by, mask) in [
        (7, 0x00aa_00aa_00aa_00aa),
        (14, 0x0000_cccc_0000_cccc),
        (28, 0x0000_0000_f0f0_f0f0),
    ] {
        let unlike = (square ^ square >> by) & mask;
        square ^= unlike ^ unlike << by;
    }
    square
}

#[cfg(test)]
mod tests {
    use super::*;

    #[test]
    fn a_square_has_rows_for_columns() {
        for (row, column) in (0..8).flat_map(|row| (0..8).map(move |column| (row, column))) {
            let bit = |row: u32, column: u32| 1u64 << (8 * row + column);
            assert_eq!(turned(bit(row, column)), bit(column, row));
        }
    }

    #[test]
    fn entries_have_a_bit_for_each_action() {
        for action in 0..MOST_ACTIONS {
            for pair in 0..BLOCK {
                let mut granted = [0; MOST_ACTIONS];
                granted[action] = 1 << pair;
                let mut entries = [0; BLOCK];
                turn(&granted, &mut entries);
                let mut due = [0; BLOCK];
                due[pair] = 1 << action;
                assert_eq!(entries, due);
            }
        }
    }
}
