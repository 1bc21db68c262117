//! A floor as cells that are blocked or not, and as the words in which it is lent.

#[derive(Clone, PartialEq, Eq, Debug)]
pub struct Floor {
    pub w: usize,
    pub h: usize,
    pub blocked: Vec<bool>,
}

impl Floor {
    /// A floor with every cell blocked, or none.
    pub fn filled(w: usize, h: usize, blocked: bool) -> Floor {
        Floor { w, h, blocked: vec![blocked; w * h] }
    }

    /// A floor drawn by rows of `.` and `#`.
    pub fn drawn(rows: &[&str]) -> Floor {
        let blocked = rows.iter().flat_map(|row| row.bytes().map(|b| b == b'#')).collect();
        let floor = Floor { w: rows[0].len(), h: rows.len(), blocked };
        assert_eq!(floor.blocked.len(), floor.w * floor.h);
        floor
    }

    /// Whether a cell is inside and free; every cell outside is blocked.
    pub fn free(&self, x: isize, y: isize) -> bool {
        let inside = 0 <= x && x < self.w as isize && 0 <= y && y < self.h as isize;
        inside && !self.blocked[y as usize * self.w + x as usize]
    }

    pub fn set(&mut self, x: usize, y: usize, blocked: bool) {
        let at = y * self.w + x;
        self.blocked[at] = blocked;
    }

    /// Sets every cell, row by row.
    pub fn paint(&mut self, mut blocked: impl FnMut(usize, usize) -> bool) {
        for at in 0..self.blocked.len() {
            self.blocked[at] = blocked(at % self.w, at / self.w);
        }
    }

    pub fn free_cells(&self) -> Vec<usize> {
        (0..self.blocked.len()).filter(|&c| !self.blocked[c]).collect()
    }

    /// The words, row by row; the bits that no cell uses are 1.
    pub fn words(&self) -> Vec<u64> {
        let mut words = Vec::new();
        for row in self.blocked.chunks(self.w) {
            for cells in row.chunks(64) {
                let bit = |i: usize| u64::from(*cells.get(i).unwrap_or(&true)) << i;
                words.push((0..64).map(bit).sum());
            }
        }
        words
    }

    /// The floor of well-formed words.
    pub fn of_words(w: usize, h: usize, words: &[u64]) -> Floor {
        let row = (w + 63) / 64;
        let bit = |c: usize| words[c / w * row + c % w / 64] >> (c % w % 64) & 1 == 1;
        Floor { w, h, blocked: (0..w * h).map(bit).collect() }
    }

    /// The rows as the program reads them.
    pub fn text(&self) -> String {
        let mut text = String::new();
        for row in self.blocked.chunks(self.w) {
            text.extend(row.iter().map(|&b| if b { '#' } else { '.' }));
            text.push('\n');
        }
        text
    }
}

/// Whether W or H is 0, or W, H or W × H is above its limit.
pub fn sizes_refused(w: usize, h: usize) -> bool {
    w == 0 || h == 0 || w > 255 || h > 255 || w * h > 16_384
}

/// 0, or the first of the refusals 1 to 3 that applies.
pub fn floor_refusal(w: usize, h: usize, words: &[u64]) -> u32 {
    if sizes_refused(w, h) {
        return 1;
    }
    if words.len() != (w + 63) / 64 * h {
        return 2;
    }
    // Only the right words read as a floor and written again come back as they were.
    if Floor::of_words(w, h, words).words() != words {
        return 3;
    }
    0
}

#[cfg(test)]
mod tests {
    use super::*;

    #[test]
    fn words_of_the_document() {
        let floor = Floor::drawn(&[".....", "..#..", "....."]);
        assert_eq!(floor.words()[1], 18_446_744_073_709_551_588);
        assert_eq!(Floor::of_words(5, 3, &floor.words()), floor);
    }

    #[test]
    fn refusals_of_words() {
        let words = Floor::filled(65, 2, false).words();
        assert_eq!(words.len(), 4);
        assert_eq!(floor_refusal(65, 2, &words), 0);
        assert_eq!(floor_refusal(65, 2, &words[1..]), 2);
        let mut bad = words;
        bad[3] -= 1 << 63;
        assert_eq!(floor_refusal(65, 2, &bad), 3);
        assert_eq!(floor_refusal(0, 2, &bad), 1);
        assert_eq!(floor_refusal(usize::MAX, usize::MAX, &bad), 1);
    }
}
