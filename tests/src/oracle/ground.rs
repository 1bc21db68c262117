//! Steps, turning points, clearances and direct pairs, each by its definition.
use super::floor::Floor;
use super::lengths::{octile, Length};

/// N, E, S, W, NE, SE, SW, NW as offsets to the east and to the south.
pub const OFFSETS: [(isize, isize); 8] =
    [(0, -1), (1, 0), (0, 1), (-1, 0), (1, -1), (1, 1), (-1, 1), (-1, -1)];

/// A floor with the legal steps of every cell and its turning points.
#[derive(Clone)]
pub struct Ground {
    pub floor: Floor,
    pub corner: Vec<bool>,
    legal: Vec<[bool; 8]>,
}

/// How a cell is reached by walks of octile length: by none, by such that meet no turning point on their way, or by
/// one at least that does.
#[derive(Clone, Copy, PartialEq, Eq, PartialOrd, Ord)]
enum Reach {
    None,
    Clear,
    Met,
}

/// The two directions of octile walks between two cells, and how many steps of each they have.
struct Frame {
    diagonal: usize,
    straight: usize,
    n: usize,
    k: usize,
}

fn legal(floor: &Floor, cell: usize, dir: usize) -> bool {
    let (x, y) = ((cell % floor.w) as isize, (cell / floor.w) as isize);
    let (dx, dy) = OFFSETS[dir];
    // For a straight step the two cells beside it are the cell itself and the target.
    floor.free(x, y) && floor.free(x + dx, y + dy) && floor.free(x + dx, y) && floor.free(x, y + dy)
}

fn corner(floor: &Floor, cell: usize) -> bool {
    let (x, y) = ((cell % floor.w) as isize, (cell / floor.w) as isize);
    let turns = |&(dx, dy): &(isize, isize)| {
        !floor.free(x + dx, y + dy) && floor.free(x + dx, y) && floor.free(x, y + dy)
    };
    floor.free(x, y) && OFFSETS[4..].iter().any(turns)
}

fn direction(dx: isize, dy: isize) -> usize {
    OFFSETS.iter().position(|&o| o == (dx, dy)).expect("one of the eight")
}

impl Ground {
    pub fn of(floor: Floor) -> Ground {
        let cells = 0..floor.blocked.len();
        let steps = |c: usize| {
            let mut dirs = [false; 8];
            (0..8).for_each(|d| dirs[d] = legal(&floor, c, d));
            dirs
        };
        let legal = cells.clone().map(steps).collect();
        let corner = cells.map(|c| corner(&floor, c)).collect();
        Ground { floor, corner, legal }
    }

    pub fn corners(&self) -> Vec<usize> {
        (0..self.corner.len()).filter(|&c| self.corner[c]).collect()
    }

    /// Where a step leads, if it is legal.
    pub fn step(&self, cell: usize, dir: usize) -> Option<usize> {
        let (dx, dy) = OFFSETS[dir];
        let target = cell as isize + dy * self.floor.w as isize + dx;
        self.legal[cell][dir].then_some(target as usize)
    }

    /// Steps in a straight direction until a turning point is stood on, or no further step is legal.
    pub fn clearance(&self, cell: usize, dir: usize) -> usize {
        let mut at = cell;
        let mut steps = 0;
        while let Some(next) = self.step(at, dir) {
            at = next;
            steps += 1;
            if self.corner[at] {
                break;
            }
        }
        steps
    }

    fn offset(&self, s: usize, t: usize) -> (isize, isize) {
        let w = self.floor.w;
        ((t % w) as isize - (s % w) as isize, (t / w) as isize - (s / w) as isize)
    }

    pub fn octile(&self, s: usize, t: usize) -> Length {
        let (dx, dy) = self.offset(s, t);
        octile(dx.unsigned_abs(), dy.unsigned_abs())
    }

    /// The cells of the direct line, diagonal steps first, if every step is legal.
    pub fn line(&self, s: usize, t: usize) -> Option<Vec<usize>> {
        let mut cells = vec![s];
        let mut at = s;
        while at != t {
            let (dx, dy) = self.offset(at, t);
            at = self.step(at, direction(dx.signum(), dy.signum()))?;
            cells.push(at);
        }
        Some(cells)
    }

    /// The frame of two different cells. Where they lie on one line, the direction not needed is any that fits.
    fn frame(&self, s: usize, t: usize) -> Frame {
        let (dx, dy) = self.offset(s, t);
        let (ax, ay) = (dx.abs(), dy.abs());
        let toward = |d: isize| if d < 0 { -1 } else { 1 };
        let straight = if ax > ay { direction(toward(dx), 0) } else { direction(0, toward(dy)) };
        let diagonal = direction(toward(dx), toward(dy));
        Frame { diagonal, straight, n: ax.min(ay) as usize, k: (ax - ay).unsigned_abs() }
    }

    /// Direct (Definition 2) of two different cells: t is reached by a walk of octile length, and of all the cells
    /// on such walks (reached from s forwards and from t backwards) none but s and t is a turning point.
    pub fn direct(&self, s: usize, t: usize) -> bool {
        let f = self.frame(s, t);
        let back = Frame { diagonal: turned(f.diagonal), straight: turned(f.straight), ..f };
        let ahead = self.reached(s, &f);
        let behind = self.reached(t, &back);
        let last = f.n * (f.k + 1) + f.k;
        let between = (1..last).filter_map(|i| behind[last - i].and(ahead[i]));
        ahead[last].is_some() && !between.into_iter().any(|cell| self.corner[cell])
    }

    /// The cells that walks in a frame reach: entry i(k + 1) + j after i diagonal and j straight steps in any order.
    fn reached(&self, s: usize, f: &Frame) -> Vec<Option<usize>> {
        let mut cells: Vec<Option<usize>> = vec![None; (f.n + 1) * (f.k + 1)];
        cells[0] = Some(s);
        for at in 0..cells.len() {
            if let Some(cell) = cells[at] {
                if at % (f.k + 1) < f.k {
                    cells[at + 1] = cells[at + 1].or_else(|| self.step(cell, f.straight));
                }
                if at / (f.k + 1) < f.n {
                    let below = at + f.k + 1;
                    cells[below] = cells[below].or_else(|| self.step(cell, f.diagonal));
                }
            }
        }
        cells
    }

    /// The same relation from s to every cell at once: the eight octants round s are swept, and each cell learns
    /// whether some walk of octile length reaches it, and whether one of those meets a turning point on the way.
    pub fn direct_from(&self, s: usize) -> Vec<bool> {
        let mut direct = vec![false; self.corner.len()];
        for (diagonal, &(dx, dy)) in OFFSETS.iter().enumerate().skip(4) {
            for straight in [direction(dx, 0), direction(0, dy)] {
                self.sweep_octant(s, diagonal, straight, &mut direct);
            }
        }
        direct[s] = false;
        direct
    }

    fn sweep_octant(&self, s: usize, diagonal: usize, straight: usize, direct: &mut [bool]) {
        let w = self.floor.w as isize;
        let number = |(dx, dy): (isize, isize)| dy * w + dx;
        let (down, along) = (number(OFFSETS[diagonal]), number(OFFSETS[straight]));
        // The cell after i diagonal and j straight steps; asked only where it is reached, so inside.
        let cell = |i: usize, j: usize| (s as isize + i as isize * down + j as isize * along) as usize;
        let mut above: Vec<Reach> = Vec::new();
        for i in 0.. {
            let mut row: Vec<Reach> = Vec::new();
            loop {
                let j = row.len();
                let fallen =
                    above.get(j).map_or(Reach::None, |&r| self.through(s, || cell(i - 1, j), r, diagonal));
                let stepped =
                    row.last().map_or(Reach::None, |&r| self.through(s, || cell(i, j - 1), r, straight));
                let here = if i + j == 0 { Reach::Clear } else { fallen.max(stepped) };
                if here == Reach::None && above.len() <= j {
                    break;
                }
                if here == Reach::Clear {
                    direct[cell(i, j)] = true;
                }
                row.push(here);
            }
            if row.iter().all(|&r| r == Reach::None) {
                return;
            }
            above = row;
        }
    }

    /// How the next cell in a direction is reached by way of a cell: having passed a turning point other than s, a
    /// walk has met it.
    fn through(&self, s: usize, cell: impl Fn() -> usize, reach: Reach, dir: usize) -> Reach {
        if reach == Reach::None {
            return Reach::None;
        }
        let cell = cell();
        if !self.legal[cell][dir] {
            return Reach::None;
        }
        if cell != s && self.corner[cell] {
            Reach::Met
        } else {
            reach
        }
    }
}

fn turned(dir: usize) -> usize {
    let (dx, dy) = OFFSETS[dir];
    direction(-dx, -dy)
}

#[cfg(test)]
mod tests {
    use super::*;
    use crate::chance::Chance;
    use crate::floors;

    /// Every legal walk of exactly this length from a cell to t, whatever its directions, with the cells it enters.
    fn walks(g: &Ground, path: &mut Vec<usize>, t: usize, left: Length, found: &mut Vec<Vec<usize>>) {
        let at = path[path.len() - 1];
        if left.straight + left.diagonal == 0 {
            if at == t {
                found.push(path.clone());
            }
            return;
        }
        for dir in 0..8 {
            let rest = if dir < 4 {
                left.straight.checked_sub(1).map(|straight| Length { straight, ..left })
            } else {
                left.diagonal.checked_sub(1).map(|diagonal| Length { diagonal, ..left })
            };
            if let (Some(rest), Some(next)) = (rest, g.step(at, dir)) {
                path.push(next);
                walks(g, path, t, rest, found);
                path.pop();
            }
        }
    }

    fn direct_by_listing(g: &Ground, s: usize, t: usize) -> bool {
        let mut found = Vec::new();
        walks(g, &mut vec![s], t, g.octile(s, t), &mut found);
        let third = |cell: &usize| g.corner[*cell] && *cell != s && *cell != t;
        !found.is_empty() && !found.iter().flatten().any(third)
    }

    /// The sweep, the parallelogram and the listing of all walks say the same of every two cells.
    #[test]
    fn direct_in_three_ways() {
        let mut chance = Chance::new(1);
        let mut seen = [0, 0];
        for round in 0..400 {
            let most = if round < 200 { 4 } else { 9 };
            let g = Ground::of(floors::some(&mut chance, most));
            for s in g.floor.free_cells() {
                let from = g.direct_from(s);
                for t in g.floor.free_cells().into_iter().filter(|&t| t != s) {
                    assert_eq!(from[t], g.direct(s, t), "{:?} {s} {t}", g.floor);
                    if most == 4 {
                        assert_eq!(from[t], direct_by_listing(&g, s, t), "{:?} {s} {t}", g.floor);
                    }
                    seen[usize::from(from[t])] += 1;
                }
            }
        }
        assert!(seen[0] > 1000 && seen[1] > 1000, "{seen:?}");
    }

    #[test]
    fn sums_of_the_document() {
        let g = Ground::of(Floor::drawn(&[".....", "..#..", "....."]));
        assert_eq!(g.corners(), [1, 3, 11, 13]);
        assert_eq!((g.clearance(0, 1), g.clearance(0, 2)), (1, 2));
        assert_eq!((g.clearance(1, 0), g.clearance(1, 1)), (0, 2));
        assert!(!g.direct(1, 13) && g.direct(1, 11));
        assert_eq!(g.line(0, 11), Some(vec![0, 6, 11]));
        assert_eq!(g.line(0, 14), None);
    }
}
