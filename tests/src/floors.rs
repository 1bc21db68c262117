//! Floors of every kind that matters: each kind stresses another part of the rules.
use crate::chance::Chance;
use crate::oracle::floor::{sizes_refused, Floor};

#[derive(Clone, Copy, PartialEq, Eq, Debug)]
pub enum Kind {
    /// No cell blocked.
    Open,
    /// This many percent of the cells blocked, each by itself.
    Dense(usize),
    /// Walls at this distance, with a door in each piece of wall.
    Rooms(usize),
    /// Corridors one cell wide, some walls broken through.
    Maze,
    /// Walls along diagonals, with gaps.
    Diagonals,
    /// Rows of shelves with aisles between them.
    Shelves,
    /// Single blocked cells, none next to another, on this many percent of the cells.
    Pillars(usize),
    /// One blocked cell.
    OneBlocked,
    /// One free cell.
    OneFree,
}

pub const KINDS: [Kind; 16] = [
    Kind::Open,
    Kind::Dense(10),
    Kind::Dense(20),
    Kind::Dense(30),
    Kind::Dense(40),
    Kind::Dense(60),
    Kind::Rooms(3),
    Kind::Rooms(7),
    Kind::Rooms(16),
    Kind::Maze,
    Kind::Diagonals,
    Kind::Shelves,
    Kind::Pillars(3),
    Kind::Pillars(15),
    Kind::OneBlocked,
    Kind::OneFree,
];

pub fn make(kind: Kind, w: usize, h: usize, chance: &mut Chance) -> Floor {
    let mut floor = Floor::filled(w, h, matches!(kind, Kind::Maze | Kind::OneFree));
    match kind {
        Kind::Open => {}
        Kind::Dense(percent) => floor.paint(|_, _| chance.percent(percent)),
        Kind::Rooms(side) => build_rooms(&mut floor, side, chance),
        Kind::Maze => dig_maze(&mut floor, chance),
        Kind::Diagonals => build_diagonals(&mut floor, chance),
        Kind::Shelves => build_shelves(&mut floor, chance),
        Kind::Pillars(percent) => set_pillars(&mut floor, percent, chance),
        Kind::OneBlocked | Kind::OneFree => {
            let (x, y) = (chance.below(w), chance.below(h));
            floor.set(x, y, kind == Kind::OneBlocked);
        }
    }
    floor
}

/// A floor of any kind with sides up to a number, one in eight of them a single row or column.
pub fn some(chance: &mut Chance, most: usize) -> Floor {
    let mut w = chance.between(1, most);
    let mut h = chance.between(1, most);
    match chance.below(16) {
        0 => w = 1,
        1 => h = 1,
        _ => {}
    }
    while sizes_refused(w, h) {
        h -= 1;
    }
    let kind = chance.pick(&KINDS);
    make(kind, w, h, chance)
}

fn build_rooms(floor: &mut Floor, side: usize, chance: &mut Chance) {
    let on_wall = |a: usize| a % (side + 1) == side;
    floor.paint(|x, y| on_wall(x) || on_wall(y));
    // A door in each piece of wall, left out now and then.
    for top in (0..floor.h).step_by(side + 1) {
        for left in (0..floor.w).step_by(side + 1) {
            let (x, y) = (left + chance.below(side), top + chance.below(side));
            if top + side < floor.h && x < floor.w && chance.percent(90) {
                floor.set(x, top + side, false);
            }
            if left + side < floor.w && y < floor.h && chance.percent(90) {
                floor.set(left + side, y, false);
            }
        }
    }
}

/// Digs from cell to cell two apart, depth first, then breaks some walls.
fn dig_maze(floor: &mut Floor, chance: &mut Chance) {
    let mut trail = vec![(0, 0)];
    floor.set(0, 0, false);
    while let Some(&(x, y)) = trail.last() {
        let ahead: Vec<(isize, isize)> = [(0, -1), (1, 0), (0, 1), (-1, 0)]
            .into_iter()
            .filter(|&(dx, dy)| blocked_inside(floor, x + 2 * dx, y + 2 * dy))
            .collect();
        if ahead.is_empty() {
            trail.pop();
            continue;
        }
        let (dx, dy) = chance.pick(&ahead);
        for i in 1..3 {
            floor.set((x + i * dx) as usize, (y + i * dy) as usize, false);
        }
        trail.push((x + 2 * dx, y + 2 * dy));
    }
    for at in 0..floor.blocked.len() {
        if chance.percent(3) {
            floor.blocked[at] = false;
        }
    }
}

/// Whether a cell is one of the floor, and blocked.
fn blocked_inside(floor: &Floor, x: isize, y: isize) -> bool {
    let inside = 0 <= x && x < floor.w as isize && 0 <= y && y < floor.h as isize;
    inside && !floor.free(x, y)
}

fn build_diagonals(floor: &mut Floor, chance: &mut Chance) {
    let every = chance.between(3, 9);
    let (h, crossed) = (floor.h, chance.percent(50));
    floor.paint(|x, y| {
        let falling = (x + h - y) % every == 0;
        let rising = (x + y) % (2 * every) == every;
        (falling || crossed && rising) && !chance.percent(12)
    });
}

fn build_shelves(floor: &mut Floor, chance: &mut Chance) {
    let (deep, long) = (chance.between(1, 2), chance.between(2, 8));
    let aisle = chance.between(1, 3);
    floor.paint(|x, y| {
        let on_shelf = y % (deep + aisle) >= aisle && x % (long + aisle) >= aisle;
        on_shelf && !chance.percent(2)
    });
}

fn set_pillars(floor: &mut Floor, percent: usize, chance: &mut Chance) {
    for at in 0..floor.blocked.len() {
        let (x, y) = ((at % floor.w) as isize, (at / floor.w) as isize);
        let clash = |i: isize| blocked_inside(floor, x + i % 3 - 1, y + i / 3 - 1);
        if chance.percent(percent) && !(0..9).any(clash) {
            floor.blocked[at] = true;
        }
    }
}

/// Where the columns of single pillars stand: evenly spread, the outer ones on the rim.
fn column(i: usize) -> usize {
    (i * 127 + 5) / 11
}

/// A floor of 128 × 128 with 12 columns of single pillars, three rows apart: few turning points for the links they
/// have, so it comes near the limit of the neighbours before that of the turning points.
pub fn pillar_columns() -> Floor {
    let mut floor = Floor::filled(128, 128, false);
    for x in (0..12).map(column) {
        (1..128).step_by(3).for_each(|y| floor.set(x, y, true));
    }
    floor
}

/// The same floor with 29 pillars more on the upper and lower rim, which make 32,770 neighbours; with the cell (0, 0)
/// blocked as well it has 32,768, exactly as many as a plan may have.
pub fn pillars_at_the_limit(within: bool) -> Floor {
    let mut floor = pillar_columns();
    let beside = |x: usize| (0..12).map(column).any(|c| c.abs_diff(x) < 2);
    let rim = (2..128).step_by(3).filter(|&x| !beside(x)).flat_map(|x| [(x, 0), (x, 127)]);
    rim.take(29).for_each(|(x, y)| floor.set(x, y, true));
    floor.set(0, 0, within);
    floor
}

/// A floor of 128 × 128 with exactly this many turning points, 2 to about 4,000: corridors like stairs, in which every
/// cell but the first and the last is one.
pub fn stairs(corners: usize) -> Floor {
    let mut floor = Floor::filled(128, 128, true);
    let mut left = corners;
    for first in (0..128).step_by(3) {
        let cells = left.min(2 * (128 - first) - 3) + 2;
        for i in 0..cells {
            floor.set(first + (i + 1) / 2, i / 2, false);
        }
        left -= cells - 2;
        if left == 0 {
            return floor;
        }
    }
    panic!("no room for {corners} turning points");
}

/// One corridor that winds over the whole floor, row after row: the longest routes there are.
pub fn snake(w: usize, h: usize) -> Floor {
    let mut floor = Floor::filled(w, h, false);
    for y in (1..h).step_by(2) {
        let gap = if y % 4 == 1 { w - 1 } else { 0 };
        (0..w).filter(|&x| x != gap).for_each(|x| floor.set(x, y, true));
    }
    floor
}
