//! A search over turning points and their links (000, Algorithm 2), nearest first: what the query does, written
//! independently of it, with whatever tables make it fast.
use super::grid::OFFSETS;
use super::survey::Surveyor;
use super::{length_of, octile, Found};
use std::cmp::Reverse;
use std::collections::BinaryHeap;

/// Places are the turning points by index, then a start and a goal that are none themselves.
pub struct LinkSearch {
    surveyor: Surveyor,
    steps: Vec<u8>,
    /// The index of each cell's turning point, or NOWHERE.
    index: Vec<u16>,
    /// By turning point: where its links begin, and which places they lead to.
    starts: Vec<usize>,
    links: Vec<u16>,
    /// By place: its cell, column and row, its label, and whether it is settled or linked to start or goal.
    cell: Vec<u16>,
    spot: Vec<(u32, u32)>,
    label: Vec<u32>,
    settled: Vec<bool>,
    by_start: Vec<bool>,
    by_goal: Vec<bool>,
    start_links: Vec<u16>,
    goal_links: Vec<u16>,
    waiting: BinaryHeap<Reverse<u64>>,
    chain: Vec<usize>,
    pub route: Vec<u16>,
}

const NOWHERE: u16 = u16::MAX;

/// The direction of a step by its offsets.
fn direction(dx: isize, dy: isize) -> usize {
    const BY_OFFSET: [usize; 9] = [7, 0, 4, 3, 8, 1, 6, 2, 5];
    BY_OFFSET[((dy + 1) * 3 + dx + 1) as usize]
}

impl LinkSearch {
    /// From a surveyor that has surveyed the floor. All tables are made before any query.
    pub fn of(surveyor: Surveyor) -> LinkSearch {
        let grid = &surveyor.grid;
        let k = surveyor.corners.len();
        let mut index = vec![NOWHERE; grid.w * grid.h];
        for (i, &cell) in surveyor.corners.iter().enumerate() {
            index[usize::from(cell)] = i as u16;
        }
        let mut cell = surveyor.corners.clone();
        cell.resize(k + 2, 0);
        let spot = cell.iter().map(|&c| spot_of(grid.w, usize::from(c))).collect();
        LinkSearch {
            steps: grid.steps(),
            starts: surveyor.starts.iter().map(|&s| usize::from(s)).collect(),
            links: surveyor.neighbours.iter().map(|&c| index[usize::from(c)]).collect(),
            index,
            cell,
            spot,
            label: vec![0; k + 2],
            settled: vec![false; k + 2],
            by_start: vec![false; k],
            by_goal: vec![false; k],
            start_links: Vec::new(),
            goal_links: Vec::new(),
            waiting: BinaryHeap::new(),
            chain: Vec::new(),
            route: Vec::new(),
            surveyor,
        }
    }

    /// The shortest walk with its route, and how many places were settled; none where the direct line is legal.
    pub fn query(&mut self, start: usize, goal: usize) -> Found {
        self.route.clear();
        self.route.push(start as u16);
        let (s, g) = (spot_of(self.surveyor.grid.w, start), spot_of(self.surveyor.grid.w, goal));
        if self.line(s, g) {
            return Found { length: Some(self.length()), settled: 0 };
        }
        let k = self.index_count();
        let from = self.connect(start, k, true);
        let to = self.connect(goal, k + 1, false);
        let settled = self.search(from, to);
        let length = self.settled[to].then(|| {
            self.retrace(from, to);
            self.length()
        });
        for &i in &self.start_links {
            self.by_start[usize::from(i)] = false;
        }
        for &i in &self.goal_links {
            self.by_goal[usize::from(i)] = false;
        }
        Found { length, settled }
    }

    fn index_count(&self) -> usize {
        self.cell.len() - 2
    }

    fn length(&self) -> (u32, u32) {
        length_of(self.surveyor.grid.w, &self.route)
    }

    /// Appends the cells of the direct line after its first, if every step is legal; else it leaves the route as it was.
    fn line(&mut self, s: (u32, u32), g: (u32, u32)) -> bool {
        let w = self.surveyor.grid.w as isize;
        let (gx, gy) = (g.0 as isize, g.1 as isize);
        let (mut x, mut y) = (s.0 as isize, s.1 as isize);
        let before = self.route.len();
        while (x, y) != (gx, gy) {
            let dir = direction((gx - x).signum(), (gy - y).signum());
            if self.steps[(y * w + x) as usize] >> dir & 1 == 0 {
                self.route.truncate(before);
                return false;
            }
            x += OFFSETS[dir].0;
            y += OFFSETS[dir].1;
            self.route.push((y * w + x) as u16);
        }
        true
    }

    /// The place of start or goal: its turning point's, or its own, which is then linked.
    fn connect(&mut self, cell: usize, own: usize, is_start: bool) -> usize {
        let links = if is_start { &mut self.start_links } else { &mut self.goal_links };
        links.clear();
        if self.index[cell] != NOWHERE {
            return usize::from(self.index[cell]);
        }
        let w = self.surveyor.grid.w;
        let at = self.surveyor.grid.at(cell % w, cell / w);
        let flags = if is_start { &mut self.by_start } else { &mut self.by_goal };
        for &found in self.surveyor.reach(at) {
            let i = self.index[usize::from(found)];
            flags[usize::from(i)] = true;
            links.push(i);
        }
        self.cell[own] = cell as u16;
        self.spot[own] = spot_of(w, cell);
        own
    }

    fn search(&mut self, from: usize, to: usize) -> u32 {
        let k = self.index_count();
        self.label.fill(u32::MAX);
        self.settled.fill(false);
        self.waiting.clear();
        self.offer(from, 0);
        let mut settled = 0;
        while let Some(Reverse(first)) = self.waiting.pop() {
            let u = (first & 0xFFF) as usize;
            if self.settled[u] {
                continue;
            }
            self.settled[u] = true;
            settled += 1;
            if u == to {
                break;
            }
            if u < k {
                for at in self.starts[u]..self.starts[u + 1] {
                    self.pass(u, usize::from(self.links[at]));
                }
                if self.by_goal[u] {
                    self.pass(u, k + 1);
                }
            } else {
                for at in 0..self.start_links.len() {
                    self.pass(u, usize::from(self.start_links[at]));
                }
            }
        }
        settled
    }

    fn leg(&self, u: usize, v: usize) -> u32 {
        let ((ux, uy), (vx, vy)) = (self.spot[u], self.spot[v]);
        octile(ux.abs_diff(vx), uy.abs_diff(vy))
    }

    fn pass(&mut self, u: usize, v: usize) {
        let new = self.label[u] + self.leg(u, v);
        if new < self.label[v] {
            self.offer(v, new);
        }
    }

    /// Waiting places are ordered by label, then by cell number; the last 12 bits say which place it is.
    fn offer(&mut self, v: usize, label: u32) {
        self.label[v] = label;
        let key = u64::from(label) << 26 | u64::from(self.cell[v]) << 12 | v as u64;
        self.waiting.push(Reverse(key));
    }

    /// The route along the chain back from the goal, each place before the least cell number that leads to it.
    fn retrace(&mut self, from: usize, to: usize) {
        self.chain.clear();
        let mut v = to;
        while v != from {
            self.chain.push(v);
            v = self.before(v, from);
        }
        let mut u = from;
        for at in (0..self.chain.len()).rev() {
            let v = self.chain[at];
            let legal = self.line(self.spot[u], self.spot[v]);
            debug_assert!(legal, "a link's direct line is legal");
            u = v;
        }
    }

    fn before(&self, v: usize, from: usize) -> usize {
        let k = self.index_count();
        let leads = |&u: &usize| self.settled[u] && self.label[u] + self.leg(u, v) == self.label[v];
        let links =
            if v < k { &self.links[self.starts[v]..self.starts[v + 1]] } else { &self.goal_links[..] };
        let places = links.iter().map(|&u| usize::from(u)).filter(leads);
        let start = (v < k && from == k && self.by_start[v]).then_some(k).filter(leads);
        places.chain(start).min_by_key(|&u| self.cell[u]).expect("a settled place was reached")
    }
}

fn spot_of(w: usize, cell: usize) -> (u32, u32) {
    ((cell % w) as u32, (cell / w) as u32)
}
