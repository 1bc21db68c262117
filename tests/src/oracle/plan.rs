//! The plan of a floor, and what a survey returns and leaves in the lists lent to it.
use super::floor::{floor_refusal, Floor};
use super::ground::Ground;

pub const MOST_CORNERS: usize = 2_048;
pub const MOST_ARCS: usize = 32_768;

/// The four lists as they are lent.
#[derive(Clone, PartialEq, Eq, Debug)]
pub struct Lists {
    pub clearances: Vec<u8>,
    pub corners: Vec<u16>,
    pub starts: Vec<u16>,
    pub neighbours: Vec<u16>,
}

/// A plan, whatever its size.
#[derive(Clone)]
pub struct Plan {
    pub clearances: Vec<usize>,
    pub corners: Vec<usize>,
    pub starts: Vec<usize>,
    pub neighbours: Vec<usize>,
}

impl Plan {
    pub fn of(ground: &Ground) -> Plan {
        let corners = ground.corners();
        let cells = 0..ground.corner.len();
        let clearances =
            cells.flat_map(|c| (0..4).map(move |dir| (c, dir))).map(|(c, dir)| ground.clearance(c, dir));
        let mut plan =
            Plan { clearances: clearances.collect(), corners, starts: vec![0], neighbours: Vec::new() };
        for &s in &plan.corners {
            let direct = ground.direct_from(s);
            plan.neighbours.extend(plan.corners.iter().filter(|&&t| direct[t]));
            plan.starts.push(plan.neighbours.len());
        }
        plan
    }

    pub fn of_floor(floor: &Floor) -> Plan {
        Plan::of(&Ground::of(floor.clone()))
    }

    pub fn within_limits(&self) -> bool {
        self.corners.len() <= MOST_CORNERS && self.neighbours.len() <= MOST_ARCS
    }

    /// The lists of exactly this plan. A plan somewhat beyond the limits has them too; beyond 16 bits it has none.
    pub fn lists(&self) -> Lists {
        let narrow = |list: &[usize]| list.iter().map(|&n| u16::try_from(n).expect("16 bits")).collect();
        Lists {
            clearances: self.clearances.iter().map(|&n| u8::try_from(n).expect("a byte")).collect(),
            corners: narrow(&self.corners),
            starts: narrow(&self.starts),
            neighbours: narrow(&self.neighbours),
        }
    }
}

fn overwrite<T: Copy>(list: &mut [T], first: &[T]) {
    list[..first.len()].copy_from_slice(first);
}

/// The refusals 4 to 6 of a well-formed floor, or 0.
fn room_refusal(ground: &Ground, lists: &Lists) -> u32 {
    let k = ground.corners().len();
    if lists.clearances.len() < 4 * ground.corner.len() {
        4
    } else if k > MOST_CORNERS || lists.corners.len() < k {
        5
    } else if lists.starts.len() < k + 1 {
        6
    } else {
        0
    }
}

/// What a survey returns (code, free cells, K, M) and what it leaves in the lists.
pub fn survey(w: usize, h: usize, words: &[u64], lists: &mut Lists) -> [u32; 4] {
    let code = floor_refusal(w, h, words);
    if code != 0 {
        return [code, 0, 0, 0];
    }
    let ground = Ground::of(Floor::of_words(w, h, words));
    let code = room_refusal(&ground, lists);
    if code != 0 {
        return [code, 0, 0, 0];
    }
    let plan = Plan::of(&ground);
    let arcs = plan.neighbours.len();
    if arcs > MOST_ARCS || lists.neighbours.len() < arcs {
        lists.clearances.fill(0);
        lists.corners.fill(0);
        lists.starts.fill(0);
        lists.neighbours.fill(0);
        return [7, 0, 0, 0];
    }
    let made = plan.lists();
    overwrite(&mut lists.clearances, &made.clearances);
    overwrite(&mut lists.corners, &made.corners);
    overwrite(&mut lists.starts, &made.starts);
    overwrite(&mut lists.neighbours, &made.neighbours);
    [0, ground.floor.free_cells().len() as u32, plan.corners.len() as u32, arcs as u32]
}

#[cfg(test)]
mod tests {
    use super::*;
    use crate::floors;

    #[test]
    fn plan_of_the_document() {
        let plan = Plan::of_floor(&Floor::drawn(&[".....", "..#..", "....."]));
        assert_eq!(plan.corners, [1, 3, 11, 13]);
        assert_eq!(plan.starts, [0, 2, 4, 6, 8]);
        assert_eq!(plan.neighbours, [3, 11, 1, 13, 1, 13, 3, 11]);
    }

    /// The floors whose plans come to the limits.
    #[test]
    fn plans_at_the_limits() {
        let sizes = |floor: Floor| {
            let plan = Plan::of_floor(&floor);
            (plan.corners.len(), plan.neighbours.len(), plan.within_limits())
        };
        assert_eq!(sizes(floors::pillar_columns()), (1_870, 32_334, true));
        assert_eq!(sizes(floors::pillars_at_the_limit(true)), (1_924, MOST_ARCS, true));
        assert_eq!(sizes(floors::pillars_at_the_limit(false)), (1_925, MOST_ARCS + 2, false));
        let (k, _, within) = sizes(floors::stairs(MOST_CORNERS));
        assert_eq!((k, within), (MOST_CORNERS, true));
        let (k, _, within) = sizes(floors::stairs(MOST_CORNERS + 1));
        assert_eq!((k, within), (MOST_CORNERS + 1, false));
    }
}
