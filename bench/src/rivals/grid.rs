//! A floor as one entry a cell with a blocked rim round it, so that no neighbour needs a test of bounds.

/// N, E, S, W, NE, SE, SW, NW as offsets to the east and to the south.
pub const OFFSETS: [(isize, isize); 8] =
    [(0, -1), (1, 0), (0, 1), (-1, 0), (1, -1), (1, 1), (-1, 1), (-1, -1)];

#[derive(Clone, Default)]
pub struct Grid {
    pub w: usize,
    pub h: usize,
    /// How far a row is from the next.
    pub stride: usize,
    pub free: Vec<bool>,
    pub corner: Vec<bool>,
}

impl Grid {
    /// Takes over a floor as it is lent.
    pub fn read(&mut self, w: usize, h: usize, words: &[u64]) {
        (self.w, self.h, self.stride) = (w, h, w + 2);
        self.free.clear();
        self.free.resize((w + 2) * (h + 2), false);
        let row_words = (w + 63) / 64;
        for y in 0..h {
            let first = self.at(0, y);
            let row = &words[y * row_words..][..row_words];
            for (x, free) in self.free[first..][..w].iter_mut().enumerate() {
                *free = row[x / 64] >> (x % 64) & 1 == 0;
            }
        }
        self.corner.clear();
        self.corner.resize(self.free.len(), false);
        for y in 0..h {
            for at in self.at(0, y)..self.at(w, y) {
                self.corner[at] = self.free[at] && self.turns(at);
            }
        }
    }

    /// The place of a cell among the entries.
    pub fn at(&self, x: usize, y: usize) -> usize {
        (y + 1) * self.stride + x + 1
    }

    /// The number of the cell at a place.
    pub fn number(&self, at: usize) -> usize {
        (at / self.stride - 1) * self.w + at % self.stride - 1
    }

    /// The place one step further.
    pub fn go(&self, at: usize, dir: usize) -> usize {
        let (dx, dy) = OFFSETS[dir];
        (at as isize + dy * self.stride as isize + dx) as usize
    }

    fn turns(&self, at: usize) -> bool {
        let (n, e, s, w) = (at - self.stride, at + 1, at + self.stride, at - 1);
        let free = |place: usize| self.free[place];
        free(n) && (free(e) && !free(n + 1) || free(w) && !free(n - 1))
            || free(s) && (free(e) && !free(s + 1) || free(w) && !free(s - 1))
    }

    /// Whether a diagonal step from a free place is legal: its target and both cells beside it are free.
    pub fn diagonal(&self, at: usize, dir: usize) -> bool {
        let (dx, dy) = OFFSETS[dir];
        let (across, down) = ((at as isize + dx) as usize, at as isize + dy * self.stride as isize);
        self.free[across] && self.free[down as usize] && self.free[(down + dx) as usize]
    }

    /// The legal steps from a free place, one bit a direction.
    pub fn legal(&self, at: usize) -> u8 {
        let free = |dir: usize| self.free[self.go(at, dir)] && (dir < 4 || self.diagonal(at, dir));
        (0..8).filter(|&dir| free(dir)).fold(0, |mask, dir| mask | 1 << dir)
    }

    /// The legal steps of every cell by its number.
    pub fn steps(&self) -> Vec<u8> {
        let mut all = Vec::with_capacity(self.w * self.h);
        for y in 0..self.h {
            for at in self.at(0, y)..self.at(self.w, y) {
                all.push(if self.free[at] { self.legal(at) } else { 0 });
            }
        }
        all
    }
}
