//! Searches over the cells themselves: nearest first, and toward the goal.
use super::{length_of, octile, Found, DIAGONAL, STRAIGHT};
use crate::rivals::grid::{Grid, OFFSETS};
use std::cmp::Reverse;
use std::collections::BinaryHeap;

/// A search over cells with its memory, which is kept from one query to the next.
pub struct CellSearch {
    w: usize,
    grid: Grid,
    /// The legal steps of every cell, for a search that looks them up; a plain one tests them on the floor.
    steps: Option<Vec<u8>>,
    /// How far a step in each direction goes among the numbers of cells.
    jumps: [isize; 8],
    label: Vec<u32>,
    /// The direction of the last step to a cell.
    came: Vec<u8>,
    settled: Vec<bool>,
    waiting: BinaryHeap<Reverse<u64>>,
    pub route: Vec<u16>,
}

impl CellSearch {
    /// A plain search: it has the floor and nothing else.
    pub fn of(grid: &Grid) -> CellSearch {
        let cells = grid.w * grid.h;
        CellSearch {
            w: grid.w,
            grid: grid.clone(),
            steps: None,
            jumps: OFFSETS.map(|(dx, dy)| dy * grid.w as isize + dx),
            label: vec![0; cells],
            came: vec![0; cells],
            settled: vec![false; cells],
            waiting: BinaryHeap::new(),
            route: Vec::new(),
        }
    }

    /// A search that has all legal steps of the floor in a table, made before any query.
    pub fn tabled(grid: &Grid) -> CellSearch {
        CellSearch { steps: Some(grid.steps()), ..CellSearch::of(grid) }
    }

    fn legal(&self, cell: usize) -> u8 {
        match &self.steps {
            Some(steps) => steps[cell],
            None => self.grid.legal(self.grid.at(cell % self.w, cell / self.w)),
        }
    }

    /// Dijkstra's search: by length from the start and then by the cell's number, until the goal is settled.
    pub fn nearest_first(&mut self, start: usize, goal: usize) -> Found {
        self.run(start, goal, |_| 0)
    }

    /// A*: by length from the start and octile distance to the goal, then by the cell's number.
    pub fn toward_goal(&mut self, start: usize, goal: usize) -> Found {
        let w = self.w;
        let (gx, gy) = (goal % w, goal / w);
        self.run(start, goal, |cell| octile((cell % w).abs_diff(gx) as u32, (cell / w).abs_diff(gy) as u32))
    }

    fn run(&mut self, start: usize, goal: usize, estimate: impl Fn(usize) -> u32) -> Found {
        let key = |weight: u32, cell: usize| Reverse(u64::from(weight) << 14 | cell as u64);
        self.label.fill(u32::MAX);
        self.settled.fill(false);
        self.waiting.clear();
        self.label[start] = 0;
        self.waiting.push(key(estimate(start), start));
        let mut settled = 0;
        while let Some(Reverse(first)) = self.waiting.pop() {
            let cell = (first & 0x3FFF) as usize;
            if self.settled[cell] {
                continue;
            }
            self.settled[cell] = true;
            settled += 1;
            if cell == goal {
                self.walk_back(start, goal);
                return Found { length: Some(length_of(self.w, &self.route)), settled };
            }
            let label = self.label[cell];
            let mut left = self.legal(cell);
            while left != 0 {
                let dir = left.trailing_zeros() as usize;
                left &= left - 1;
                let next = (cell as isize + self.jumps[dir]) as usize;
                let new = label + if dir < 4 { STRAIGHT } else { DIAGONAL };
                if new < self.label[next] {
                    self.label[next] = new;
                    self.came[next] = dir as u8;
                    self.waiting.push(key(new + estimate(next), next));
                }
            }
        }
        self.route.clear();
        Found { length: None, settled }
    }

    fn walk_back(&mut self, start: usize, goal: usize) {
        self.route.clear();
        let mut cell = goal;
        self.route.push(cell as u16);
        while cell != start {
            cell = (cell as isize - self.jumps[usize::from(self.came[cell])]) as usize;
            self.route.push(cell as u16);
        }
        self.route.reverse();
    }
}
