//! What a query returns and leaves: distances by a plain search over the cells, effort and route by their rules.
use super::floor::{floor_refusal, Floor};
use super::ground::Ground;
use super::lengths::{step, Length, NOTHING};
use super::plan::{Lists, Plan};
use crate::face::Ends;
use std::cmp::Reverse;
use std::collections::BinaryHeap;

/// The lengths of the shortest walks from a start to every cell, where there is one.
pub struct Distances {
    pub start: usize,
    pub to: Vec<Option<Length>>,
}

impl Distances {
    /// Dijkstra's search over the cells and their legal steps.
    pub fn of(ground: &Ground, start: usize) -> Distances {
        let mut to: Vec<Option<Length>> = vec![None; ground.corner.len()];
        let mut waiting = BinaryHeap::from([Reverse((NOTHING, start))]);
        while let Some(Reverse((length, cell))) = waiting.pop() {
            if to[cell].is_some() {
                continue;
            }
            to[cell] = Some(length);
            for dir in 0..8 {
                if let Some(next) = ground.step(cell, dir) {
                    if to[next].is_none() {
                        waiting.push(Reverse((length.plus(step(dir)), next)));
                    }
                }
            }
        }
        Distances { start, to }
    }
}

/// What a query comes to where it has all the room it needs.
#[derive(Clone, PartialEq, Eq, Debug)]
pub struct Way {
    pub length: Option<Length>,
    pub route: Vec<usize>,
    pub effort: usize,
}

impl Way {
    pub fn of(ground: &Ground, from: &Distances, goal: usize) -> Way {
        if let Some(route) = ground.line(from.start, goal) {
            return Way { length: Some(ground.octile(from.start, goal)), route, effort: 0 };
        }
        let place = |c: usize| ground.corner[c] || c == from.start || c == goal;
        let places: Vec<usize> = (0..ground.corner.len()).filter(|&c| place(c)).collect();
        let last = from.to[goal].map(|length| (length, goal));
        // With no walk to the goal, every place that can be reached counts.
        let counts = |c: usize| from.to[c].map_or(false, |l| last.map_or(true, |g| (l, c) <= g));
        let effort = places.iter().filter(|&&c| counts(c)).count();
        let route = last.map_or(Vec::new(), |_| route(ground, from, &places, goal));
        Way { length: from.to[goal], route, effort }
    }
}

/// The route backwards by the rule of the least cell number, each leg by its own direct line.
fn route(ground: &Ground, from: &Distances, places: &[usize], goal: usize) -> Vec<usize> {
    let mut legs = Vec::new();
    let mut at = goal;
    while at != from.start {
        let direct = ground.direct_from(at);
        let leads = |&u: &usize| {
            // Start and goal are linked to turning points only.
            let linked = direct[u] && (ground.corner[u] || ground.corner[at]);
            linked && from.to[u].map(|l| l.plus(ground.octile(u, at))) == from.to[at]
        };
        let before = places.iter().copied().find(leads).expect("a shortest walk splits into links");
        legs.push(ground.line(before, at).expect("a link's direct line is legal"));
        at = before;
    }
    let mut cells = vec![from.start];
    for leg in legs.iter().rev() {
        cells.extend(&leg[1..]);
    }
    cells
}

/// What a query must return and leave: the answer, the first entries of the route list where it is written, and how
/// many work entries are 0 after it. Everything else lent is unchanged.
#[derive(Clone, PartialEq, Eq, Debug)]
pub struct Expected {
    pub answer: [u32; 5],
    pub route: Vec<u16>,
    pub zeroed: usize,
}

/// What is known of a floor before a query. A floor with a plan beyond the limits has no plan to match.
pub struct Known {
    pub ground: Ground,
    pub lists: Option<Lists>,
}

impl Known {
    pub fn of(floor: &Floor) -> Known {
        let ground = Ground::of(floor.clone());
        let plan = Plan::of(&ground);
        let lists = if plan.within_limits() { Some(plan.lists()) } else { None };
        Known { ground, lists }
    }

    /// What a query is to do that nothing up to 11 refuses, where this many route cells are lent.
    pub fn expect(&self, way: &Way, room: usize) -> Expected {
        let corners = self.lists.as_ref().map_or(0, |l| l.corners.len());
        let zeroed = 6 * (corners + 2);
        let effort = way.effort as u32;
        let cells = way.route.len() as u32;
        match way.length {
            None => Expected { answer: [12, 0, 0, 0, effort], route: Vec::new(), zeroed },
            Some(l) => {
                assert_eq!(l.straight + l.diagonal + 1, cells, "a route of another length");
                let fits = way.route.len() <= room;
                let route = way.route.iter().filter(|_| fits).map(|&c| c as u16).collect();
                let code = if fits { 0 } else { 13 };
                Expected { answer: [code, l.straight, l.diagonal, cells, effort], route, zeroed }
            }
        }
    }

    /// The refusals 8 to 11, or 0.
    fn refusal(&self, lists: &Lists, ends: Ends, work: usize) -> u32 {
        let outside = |x: usize, y: usize| {
            x >= self.ground.floor.w
                || y >= self.ground.floor.h
                || !self.ground.floor.free(x as isize, y as isize)
        };
        if self.lists.as_ref() != Some(lists) {
            8
        } else if outside(ends.sx, ends.sy) {
            9
        } else if outside(ends.gx, ends.gy) {
            10
        } else if work < 6 * (lists.corners.len() + 2) {
            11
        } else {
            0
        }
    }

    /// What a query on this floor is to do, whatever else it is given; room and work: the entries lent.
    pub fn expect_any(&self, lists: &Lists, ends: Ends, room: usize, work: usize) -> Expected {
        let code = self.refusal(lists, ends, work);
        if code != 0 {
            return refused(code);
        }
        let w = self.ground.floor.w;
        let from = Distances::of(&self.ground, ends.sy * w + ends.sx);
        self.expect(&Way::of(&self.ground, &from, ends.gy * w + ends.gx), room)
    }
}

pub fn refused(code: u32) -> Expected {
    Expected { answer: [code, 0, 0, 0, 0], route: Vec::new(), zeroed: 0 }
}

/// The floor of lent words, or the refusal 1 to 3 that a query on them gets.
pub fn known_of_words(w: usize, h: usize, words: &[u64]) -> Result<Known, Expected> {
    match floor_refusal(w, h, words) {
        0 => Ok(Known::of(&Floor::of_words(w, h, words))),
        code => Err(refused(code)),
    }
}

#[cfg(test)]
mod tests {
    use super::*;
    use crate::chance::Chance;
    use crate::floors;

    /// Distances certify themselves: the start has none, no step shortens one, and each but the start's is that of a
    /// neighbour and the step from it.
    #[test]
    fn distances_are_shortest() {
        let mut chance = Chance::new(2);
        for _ in 0..300 {
            let g = Ground::of(floors::some(&mut chance, 12));
            let free = g.floor.free_cells();
            if free.is_empty() {
                continue;
            }
            let from = Distances::of(&g, chance.pick(&free));
            let mut tight = vec![false; g.corner.len()];
            tight[from.start] = from.to[from.start] == Some(NOTHING);
            for &c in &free {
                for dir in 0..8 {
                    if let (Some(l), Some(next)) = (from.to[c], g.step(c, dir)) {
                        let there = from.to[next].expect("a step from a reached cell reaches");
                        assert!(there <= l.plus(step(dir)));
                        tight[next] |= there == l.plus(step(dir));
                    }
                }
            }
            assert!(free.iter().all(|&c| tight[c] == from.to[c].is_some()));
        }
    }

    #[test]
    fn efforts_of_the_document() {
        let way = |rows: &[&str], s: usize, t: usize| {
            let g = Ground::of(Floor::drawn(rows));
            Way::of(&g, &Distances::of(&g, s), t)
        };
        let two = |straight: u32| Some(Length { straight, diagonal: 0 });
        assert_eq!(way(&[".#", ".."], 0, 3), Way { length: two(2), route: vec![0, 2, 3], effort: 3 });
        assert_eq!(way(&[".#", "#."], 0, 3), Way { length: None, route: vec![], effort: 1 });
        assert_eq!(way(&[".#."], 0, 2), Way { length: None, route: vec![], effort: 1 });
    }
}
