//! Columns and buffers that stand between guard words, so that a write outside is seen.

use std::fmt::Debug;

const GUARDS: usize = 8;

/// What lies around the lent part.
pub trait Guard: Copy + PartialEq + Debug {
    const WORD: Self;
}

impl Guard for u32 {
    const WORD: u32 = 0xA55A_C33C;
}

impl Guard for u8 {
    const WORD: u8 = 0xA5;
}

#[derive(Clone)]
pub struct Guarded<T> {
    all: Vec<T>,
}

impl<T: Guard> Guarded<T> {
    pub fn new(part: &[T]) -> Guarded<T> {
        let mut all = vec![T::WORD; GUARDS];
        all.extend_from_slice(part);
        all.extend([T::WORD; GUARDS]);
        Guarded { all }
    }

    pub fn len(&self) -> usize {
        self.all.len() - 2 * GUARDS
    }

    pub fn part(&self) -> &[T] {
        &self.all[GUARDS..self.all.len() - GUARDS]
    }

    pub fn part_mut(&mut self) -> &mut [T] {
        let end = self.all.len() - GUARDS;
        &mut self.all[GUARDS..end]
    }

    /// The same part cut, or made longer with a word.
    pub fn resize(&mut self, length: usize, with: T) {
        let mut part = self.part().to_vec();
        part.resize(length, with);
        *self = Guarded::new(&part);
    }

    /// Compares everything, guard words too.
    #[track_caller]
    pub fn assert_is(&self, other: &Guarded<T>, what: &str) {
        if self.all == other.all {
            return;
        }
        assert_eq!(self.len(), other.len(), "{what}: lengths");
        let at = (0..self.all.len()).find(|&at| self.all[at] != other.all[at]).unwrap();
        let place = at as isize - GUARDS as isize;
        panic!("{what}: place {place} of {} has {:?}, not {:?}", self.len(), self.all[at], other.all[at]);
    }
}

/// Four lent columns.
#[derive(Clone)]
pub struct Lent {
    pub id: Guarded<u32>,
    pub l: Guarded<u32>,
    pub r: Guarded<u32>,
    pub q: Guarded<u32>,
}

impl Lent {
    pub fn new(id: &[u32], l: &[u32], r: &[u32], q: &[u32]) -> Lent {
        Lent { id: Guarded::new(id), l: Guarded::new(l), r: Guarded::new(r), q: Guarded::new(q) }
    }

    pub fn parts(&self) -> [&[u32]; 4] {
        [self.id.part(), self.l.part(), self.r.part(), self.q.part()]
    }

    pub fn parts_mut(&mut self) -> [&mut [u32]; 4] {
        [self.id.part_mut(), self.l.part_mut(), self.r.part_mut(), self.q.part_mut()]
    }

    /// A column by its position: id, l, r, q.
    pub fn column(&mut self, which: usize) -> &mut Guarded<u32> {
        match which {
            0 => &mut self.id,
            1 => &mut self.l,
            2 => &mut self.r,
            _ => &mut self.q,
        }
    }

    #[track_caller]
    pub fn assert_is(&self, other: &Lent, what: &str) {
        self.id.assert_is(&other.id, &format!("{what}: id column"));
        self.l.assert_is(&other.l, &format!("{what}: l column"));
        self.r.assert_is(&other.r, &format!("{what}: r column"));
        self.q.assert_is(&other.q, &format!("{what}: q column"));
    }
}
