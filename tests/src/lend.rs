//! Lists that are lent to the library. Each is the middle part of a larger vector whose two sides hold marks that no
//! call may touch, so a write before the first entry or after the last is seen.
use crate::chance::Chance;
use crate::face;
use crate::oracle::plan::Lists;
use std::fmt::Debug;

/// How many marks stand on each side.
const SIDE: usize = 5;

/// What a list may hold: numbers made from any 64 bits.
pub trait Entry: Copy + PartialEq + Debug {
    fn cut(bits: u64) -> Self;
}

impl Entry for u8 {
    fn cut(bits: u64) -> u8 {
        (bits >> 13) as u8
    }
}

impl Entry for u16 {
    fn cut(bits: u64) -> u16 {
        (bits >> 13) as u16
    }
}

impl Entry for u32 {
    fn cut(bits: u64) -> u32 {
        (bits >> 13) as u32
    }
}

impl Entry for u64 {
    fn cut(bits: u64) -> u64 {
        bits
    }
}

/// A list of arbitrary entries: what a call leaves alone must be told from what it writes.
pub fn rubbish<T: Entry>(chance: &mut Chance, len: usize) -> Vec<T> {
    (0..len).map(|_| T::cut(chance.word())).collect()
}

/// A lent list.
pub struct Lent<T> {
    all: Vec<T>,
    sides: Vec<T>,
}

impl<T: Entry> Lent<T> {
    pub fn new(values: &[T]) -> Lent<T> {
        let sides = rubbish(&mut Chance::new(values.len() as u64), 2 * SIDE);
        let mut all = sides[..SIDE].to_vec();
        all.extend_from_slice(values);
        all.extend_from_slice(&sides[SIDE..]);
        Lent { all, sides }
    }

    pub fn part(&mut self) -> &mut [T] {
        let end = self.all.len() - SIDE;
        &mut self.all[SIDE..end]
    }

    pub fn read(&self) -> &[T] {
        &self.all[SIDE..self.all.len() - SIDE]
    }

    /// The entries after the call; fails where a mark was touched.
    pub fn back(&self) -> &[T] {
        assert_eq!(&self.all[..SIDE], &self.sides[..SIDE], "written before the list");
        assert_eq!(&self.all[self.all.len() - SIDE..], &self.sides[SIDE..], "written after the list");
        self.read()
    }
}

/// The four lists of a plan, lent.
pub struct LentPlan {
    clearances: Lent<u8>,
    corners: Lent<u16>,
    starts: Lent<u16>,
    neighbours: Lent<u16>,
}

impl LentPlan {
    pub fn new(lists: &Lists) -> LentPlan {
        LentPlan {
            clearances: Lent::new(&lists.clearances),
            corners: Lent::new(&lists.corners),
            starts: Lent::new(&lists.starts),
            neighbours: Lent::new(&lists.neighbours),
        }
    }

    pub fn room(&mut self) -> face::PlanRoom<'_> {
        face::PlanRoom {
            clearances: self.clearances.part(),
            corners: self.corners.part(),
            starts: self.starts.part(),
            neighbours: self.neighbours.part(),
        }
    }

    pub fn read(&self) -> face::Plan<'_> {
        face::Plan {
            clearances: self.clearances.read(),
            corners: self.corners.read(),
            starts: self.starts.read(),
            neighbours: self.neighbours.read(),
        }
    }

    /// Fails unless the lists hold exactly these entries and every mark stands.
    pub fn expect(&self, lists: &Lists) {
        assert_eq!(self.clearances.back(), &lists.clearances[..], "clearances");
        assert_eq!(self.corners.back(), &lists.corners[..], "corners");
        assert_eq!(self.starts.back(), &lists.starts[..], "starts");
        assert_eq!(self.neighbours.back(), &lists.neighbours[..], "neighbours");
    }
}
