//! A survey by Algorithm 3 of document 000: clearances first, then round each turning point the lines in eight
//! directions and the eight areas between them. Corrected is the slip that a turning point with a clearance of 0 becomes
//! its own neighbour. Every vector is kept from one survey to the next, so that none is allocated again.
use super::grid::Grid;

#[derive(Default)]
pub struct Surveyor {
    pub grid: Grid,
    /// By place, north, east, south and west.
    pub clear: Vec<[u8; 4]>,
    /// The plan as the library lends it.
    pub clearances: Vec<u8>,
    pub corners: Vec<u16>,
    pub starts: Vec<u16>,
    pub neighbours: Vec<u16>,
    found: Vec<u16>,
}

/// The two straight directions beside each diagonal one.
const BESIDE: [[usize; 2]; 4] = [[0, 1], [2, 1], [2, 3], [0, 3]];

impl Surveyor {
    pub fn survey(&mut self, w: usize, h: usize, words: &[u64]) {
        self.grid.read(w, h, words);
        self.measure();
        self.corners.clear();
        self.starts.clear();
        self.neighbours.clear();
        self.starts.push(0);
        for y in 0..h {
            for x in 0..w {
                let at = self.grid.at(x, y);
                if self.grid.corner[at] {
                    self.corners.push((y * w + x) as u16);
                    self.reach(at);
                    self.found.sort_unstable();
                    self.neighbours.extend_from_slice(&self.found);
                    self.starts.push(self.neighbours.len() as u16);
                }
            }
        }
    }

    /// The clearances of all cells, each from that of the next cell.
    fn measure(&mut self) {
        let Grid { w, h, stride, .. } = self.grid;
        self.clear.clear();
        self.clear.resize(self.grid.free.len(), [0; 4]);
        for y in 0..h {
            for at in self.grid.at(0, y)..self.grid.at(w, y) {
                self.measure_one(at, at - stride, 0);
                self.measure_one(at, at - 1, 3);
            }
        }
        for y in (0..h).rev() {
            for at in (self.grid.at(0, y)..self.grid.at(w, y)).rev() {
                self.measure_one(at, at + 1, 1);
                self.measure_one(at, at + stride, 2);
            }
        }
        self.clearances.clear();
        for y in 0..h {
            for four in &self.clear[self.grid.at(0, y)..self.grid.at(w, y)] {
                self.clearances.extend_from_slice(four);
            }
        }
    }

    fn measure_one(&mut self, at: usize, next: usize, dir: usize) {
        if self.grid.free[at] && self.grid.free[next] {
            self.clear[at][dir] = if self.grid.corner[next] { 1 } else { 1 + self.clear[next][dir] };
        }
    }

    /// Finds the turning points that are direct from a place (000, GetDirectHReachable), in any order.
    pub fn reach(&mut self, at: usize) -> &[u16] {
        self.found.clear();
        let mut open = [0; 4];
        for (dir, open) in open.iter_mut().enumerate() {
            let steps = usize::from(self.clear[at][dir]);
            let end = self.ahead(at, dir, steps);
            *open = steps;
            if steps > 0 && self.grid.corner[end] {
                self.found.push(self.grid.number(end) as u16);
                *open -= 1;
            }
        }
        for (area, beside) in BESIDE.iter().enumerate() {
            let (steps, on_corner) = self.slant(at, 4 + area);
            for &dir in beside {
                self.sweep(at, 4 + area, steps - usize::from(on_corner), dir, open[dir]);
            }
            if on_corner {
                let end = self.ahead(at, 4 + area, steps);
                self.found.push(self.grid.number(end) as u16);
            }
        }
        &self.found
    }

    fn ahead(&self, at: usize, dir: usize, steps: usize) -> usize {
        let one = self.grid.go(at, dir) as isize - at as isize;
        (at as isize + one * steps as isize) as usize
    }

    /// The clearance in a diagonal direction, and whether it ends on a turning point.
    fn slant(&self, at: usize, dir: usize) -> (usize, bool) {
        let mut here = at;
        let mut steps = 0;
        while self.grid.diagonal(here, dir) {
            here = self.grid.go(here, dir);
            steps += 1;
            if self.grid.corner[here] {
                return (steps, true);
            }
        }
        (steps, false)
    }

    /// One area: from each of so many cells on the diagonal, straight on as far as every line before was open.
    fn sweep(&mut self, at: usize, diagonal: usize, lines: usize, dir: usize, open: usize) {
        let down = self.grid.go(at, diagonal) as isize - at as isize;
        let along = self.grid.go(at, dir) as isize - at as isize;
        let mut open = open as isize;
        let mut here = at as isize;
        for _ in 0..lines {
            here += down;
            let mut steps = self.clear[here as usize][dir] as isize;
            if steps <= open {
                let end = (here + steps * along) as usize;
                if self.grid.corner[end] {
                    self.found.push(self.grid.number(end) as u16);
                    steps -= 1;
                }
                open = steps;
            }
        }
    }
}
