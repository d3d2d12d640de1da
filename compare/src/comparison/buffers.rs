//! What a request is lent, compiled and otherwise.

use super::known::Known;
use crate::boundary::{PolicyValue, MOST_LABELS, MOST_TABLE};
use crate::damage::odd;
use crate::engine::Engine;
use crate::widths::{Element, Labels, Widths};
use reference::cases::Rng;
use reference::labels::Labelling;

/// What a request is lent.
#[derive(Debug, Clone, PartialEq)]
pub struct Buffers<W: Widths> {
    pub nu: u32,
    pub no: u32,
    pub users: Vec<W::Label>,
    pub objects: Vec<W::Label>,
    pub table: Vec<W::Entry>,
}

impl<W: Widths> Buffers<W> {
    /// A labelling, whatever bits it loses in these widths.
    pub fn cut(labelling: &Labelling) -> Self {
        Buffers {
            nu: labelling.user_count as u32,
            no: labelling.object_count as u32,
            users: cut(&labelling.user_labels),
            objects: cut(&labelling.object_labels),
            table: cut(&labelling.table),
        }
    }

    /// Where there is no labelling.
    fn blank() -> Self {
        Buffers {
            nu: 1,
            no: 1,
            users: vec![W::Label::default(); MOST_LABELS],
            objects: vec![W::Label::default(); MOST_LABELS],
            table: vec![W::Entry::default(); 1],
        }
    }

    /// As an engine compiles a policy value, with room enough.
    pub fn compiled(engine: &dyn Engine, policy: &PolicyValue) -> Self {
        let mut buffers = Buffers {
            table: vec![W::Entry::default(); MOST_TABLE],
            ..Self::blank()
        };
        let (users, objects) = (&mut buffers.users, &mut buffers.objects);
        let counts = W::compile(engine, policy, users, objects, &mut buffers.table);
        (buffers.nu, buffers.no) = (counts.users, counts.objects);
        buffers
    }

    pub fn labels(&self) -> Labels<'_, W> {
        Labels {
            nu: self.nu,
            no: self.no,
            users: &self.users,
            objects: &self.objects,
            table: &self.table,
        }
    }

    /// Document 01's sentence on request: one number of each buffer, 20 where any of the
    /// three places is past its end.
    pub fn looked_up(&self, held: u32, object: u32, action: u32) -> u32 {
        let looked = || {
            let user_label = at(&self.users, held.into())?;
            let place = user_label * u64::from(self.no) + at(&self.objects, object.into())?;
            at(&self.table, place)
        };
        match looked() {
            None => 20,
            Some(entry) => (entry >> action & 1) as u32,
        }
    }
}

/// Numbers as a buffer stores them, whatever bits they lose.
pub fn cut<T: Element>(numbers: &[impl Copy + Into<u32>]) -> Vec<T> {
    numbers
        .iter()
        .map(|&number| T::cut(number.into()))
        .collect()
}

/// Numbers as a buffer stores them that has bits enough.
pub fn stored<T: Element>(numbers: &[impl Copy + Into<u32>]) -> Vec<T> {
    let stored = |&number: &_| {
        let number: u32 = Into::into(number);
        let stored = T::cut(number);
        assert_eq!(Into::<u32>::into(stored), number, "bits enough");
        stored
    };
    numbers.iter().map(stored).collect()
}

/// The number at a place of a buffer.
fn at<T: Element>(buffer: &[T], place: u64) -> Option<u64> {
    let number: u32 = (*buffer.get(place as usize)?).into();
    Some(number.into())
}

/// Compiled buffers, mostly with something wrong about them.
pub fn some_buffers<W: Widths>(rng: &mut Rng, known: &Known) -> Buffers<W> {
    let mut buffers = match &known.policy {
        Some(policy) => Buffers::cut(known.labelling(policy)),
        None => Buffers::blank(),
    };
    for _ in 0..rng.below(3) {
        match rng.below(4) {
            0 => buffers.nu = other_count(rng, buffers.nu),
            1 => buffers.no = other_count(rng, buffers.no),
            2 => shorten(rng, &mut buffers),
            _ => overwrite(rng, &mut buffers),
        }
    }
    buffers
}

/// Another NU or NO: near the right one or far off.
fn other_count(rng: &mut Rng, count: u32) -> u32 {
    match rng.below(6) {
        0 => count + 1,
        1 => count.saturating_sub(1),
        2 => 0,
        3 => u32::MAX,
        _ => odd(rng),
    }
}

/// One buffer gets short.
fn shorten<W: Widths>(rng: &mut Rng, buffers: &mut Buffers<W>) {
    match rng.below(3) {
        0 => cut_off(rng, &mut buffers.users),
        1 => cut_off(rng, &mut buffers.objects),
        _ => cut_off(rng, &mut buffers.table),
    }
}

/// A buffer gets short by one, empty or of any length below its own.
fn cut_off<T>(rng: &mut Rng, buffer: &mut Vec<T>) {
    let length = match rng.below(3) {
        0 => buffer.len().saturating_sub(1),
        1 => 0,
        _ => rng.index(buffer.len() + 1),
    };
    buffer.truncate(length);
}

/// One buffer gets other numbers, as many as it has or another.
fn overwrite<W: Widths>(rng: &mut Rng, buffers: &mut Buffers<W>) {
    let length = rng.pick(&[
        buffers.users.len(),
        buffers.objects.len(),
        buffers.table.len(),
    ]);
    match rng.below(3) {
        0 => buffers.users = any_numbers(rng, length),
        1 => buffers.objects = any_numbers(rng, length),
        _ => buffers.table = any_numbers(rng, length),
    }
}

fn any_numbers<T: Element>(rng: &mut Rng, length: usize) -> Vec<T> {
    let most = rng.pick(&[2, 256, 512, 1 << 16]);
    let number = |_| T::cut(rng.below(most));
    (0..length).map(number).collect()
}
