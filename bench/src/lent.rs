//! A floor with its plan as the library has them lent.
use crate::face::{self, Ends, Plan, PlanRoom, Words};
use crate::floor::Floor;

const MOST_CORNERS: usize = 2_048;
const MOST_ARCS: usize = 32_768;
const MOST_CELLS: usize = 16_384;

/// Lists of the largest sizes that a plan may need.
pub struct Room {
    clearances: Vec<u8>,
    corners: Vec<u16>,
    starts: Vec<u16>,
    neighbours: Vec<u16>,
}

impl Room {
    pub fn new() -> Room {
        Room {
            clearances: vec![0; 4 * MOST_CELLS],
            corners: vec![0; MOST_CORNERS],
            starts: vec![0; MOST_CORNERS + 1],
            neighbours: vec![0; MOST_ARCS],
        }
    }

    /// Code, free cells, K, M.
    pub fn survey(&mut self, floor: Words) -> [u32; 4] {
        let room = PlanRoom {
            clearances: &mut self.clearances,
            corners: &mut self.corners,
            starts: &mut self.starts,
            neighbours: &mut self.neighbours,
        };
        face::survey(floor, room)
    }
}

/// A surveyed floor, and the lists that a query writes.
pub struct Lent {
    pub w: usize,
    pub h: usize,
    pub words: Vec<u64>,
    pub clearances: Vec<u8>,
    pub corners: Vec<u16>,
    pub starts: Vec<u16>,
    pub neighbours: Vec<u16>,
    pub route: Vec<u16>,
    work: Vec<u32>,
}

impl Lent {
    /// None where the survey refuses the floor.
    pub fn of(floor: &Floor) -> Option<Lent> {
        let mut room = Room::new();
        let words = floor.words();
        let [code, _, k, m] = room.survey(Words { w: floor.w, h: floor.h, words: &words });
        let (k, m) = (k as usize, m as usize);
        (code == 0).then(|| Lent {
            w: floor.w,
            h: floor.h,
            words,
            clearances: room.clearances[..4 * floor.w * floor.h].to_vec(),
            corners: room.corners[..k].to_vec(),
            starts: room.starts[..k + 1].to_vec(),
            neighbours: room.neighbours[..m].to_vec(),
            route: vec![0; MOST_CELLS],
            work: vec![0; 6 * (k + 2)],
        })
    }

    pub fn floor(&self) -> Words<'_> {
        Words { w: self.w, h: self.h, words: &self.words }
    }

    pub fn matches(&self) -> bool {
        let plan = Plan {
            clearances: &self.clearances,
            corners: &self.corners,
            starts: &self.starts,
            neighbours: &self.neighbours,
        };
        face::matches(self.floor(), plan)
    }

    /// Code, straight steps, diagonal steps, cells, effort.
    pub fn query(&mut self, start: usize, goal: usize) -> [u32; 5] {
        self.query_with(start, goal, self.work.len())
    }

    /// The same call with one work entry too few: it makes all the checks of a query, and is refused by the last one.
    pub fn checks(&mut self, start: usize, goal: usize) -> [u32; 5] {
        self.query_with(start, goal, self.work.len() - 1)
    }

    fn query_with(&mut self, start: usize, goal: usize, work: usize) -> [u32; 5] {
        let w = self.w;
        let ends = Ends { sx: start % w, sy: start / w, gx: goal % w, gy: goal / w };
        let floor = Words { w, h: self.h, words: &self.words };
        let plan = Plan {
            clearances: &self.clearances,
            corners: &self.corners,
            starts: &self.starts,
            neighbours: &self.neighbours,
        };
        face::query(floor, plan, ends, &mut self.route, &mut self.work[..work])
    }
}
