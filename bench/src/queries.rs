//! One query beside independent searches: over the cells, toward the goal, over the cells by a table, and over links.
use crate::chance::Chance;
use crate::clock;
use crate::floors::{self, Kind};
use crate::lent::Lent;
use crate::rivals::cells::CellSearch;
use crate::rivals::links::LinkSearch;
use crate::rivals::survey::Surveyor;
use crate::rivals::Found;

const KINDS: [(&str, Kind, &str); 3] = [
    ("rooms of side 16", Kind::Rooms(16), "20"),
    ("rooms of side 7", Kind::Rooms(7), "8"),
    ("pillars on 3 percent", Kind::Pillars(3), "2"),
];

/// Queries on each floor; so many of them are answered by one before the next has its turn, and so often.
const QUERIES: usize = 2_000;
const BATCH: usize = 25;
const ROUNDS: usize = 7;

/// A floor with all who answer queries on it.
struct Site {
    lent: Lent,
    cells: CellSearch,
    tabled: CellSearch,
    links: LinkSearch,
    free: Vec<usize>,
}

impl Site {
    /// The first floor of 128 × 128 of a kind that the survey accepts.
    fn of(kind: Kind, chance: &mut Chance) -> Site {
        loop {
            let floor = floors::make(kind, 128, 128, chance);
            if let Some(lent) = Lent::of(&floor) {
                let mut surveyor = Surveyor::default();
                surveyor.survey(lent.w, lent.h, &lent.words);
                let cells = CellSearch::of(&surveyor.grid);
                let tabled = CellSearch::tabled(&surveyor.grid);
                return Site {
                    lent,
                    cells,
                    tabled,
                    links: LinkSearch::of(surveyor),
                    free: floor.free_cells(),
                };
            }
        }
    }

    /// All must find the same length, and the search over links also the same route with the same effort.
    fn agree(&mut self, start: usize, goal: usize) {
        let [code, straight, diagonal, cells, effort] = self.lent.query(start, goal);
        let length = (code == 0).then_some((straight, diagonal));
        assert_eq!(self.links.query(start, goal), Found { length, settled: effort });
        assert!(code != 0 || self.links.route == self.lent.route[..cells as usize], "another route");
        assert_eq!(self.cells.nearest_first(start, goal).length, length);
        assert_eq!(self.cells.toward_goal(start, goal).length, length);
        assert_eq!(self.tabled.nearest_first(start, goal).length, length);
        assert_eq!(self.lent.checks(start, goal), [11, 0, 0, 0, 0]);
    }

    /// The times for a batch: of the queries, of their part after the checks, and of the four searches. A query checks
    /// the plan each time, which takes longer than all the rest. So next to each query stands the same one with a work
    /// entry too few, which ends after the checks, and the difference is the rest. Of the times of one query the least
    /// counts: a hundredth of the checks would be a tenth of what is left.
    fn race(&mut self, batch: &[(usize, usize)]) -> [f64; 6] {
        let mut least = vec![[f64::MAX; 6]; batch.len()];
        for _ in 0..ROUNDS {
            for (&(s, g), least) in batch.iter().zip(&mut least) {
                clock::lower(&mut least[0], || self.lent.query(s, g));
                clock::lower(&mut least[1], || self.lent.checks(s, g));
            }
            for (&(s, g), least) in batch.iter().zip(&mut least) {
                clock::lower(&mut least[2], || self.cells.nearest_first(s, g));
            }
            for (&(s, g), least) in batch.iter().zip(&mut least) {
                clock::lower(&mut least[3], || self.cells.toward_goal(s, g));
            }
            for (&(s, g), least) in batch.iter().zip(&mut least) {
                clock::lower(&mut least[4], || self.tabled.nearest_first(s, g));
            }
            for (&(s, g), least) in batch.iter().zip(&mut least) {
                clock::lower(&mut least[5], || self.links.query(s, g));
            }
        }
        let sum = |at: usize| least.iter().map(|times| times[at]).sum::<f64>();
        [sum(0), sum(0) - sum(1), sum(2), sum(3), sum(4), sum(5)]
    }
}

pub fn report() {
    println!("A query on floors of 128 x 128, {QUERIES} random ones: how many times as fast as the searches over cells,");
    println!("and as a multiple of the independent search over links (aim: at most 2.0). In brackets with its checks.");
    let heads = ["floor", "aim", "nearest first", "toward goal", "by a table", "links"];
    let [floor, aim, nearest, toward, tabled, links] = heads;
    println!("{floor:20} {aim:>7}  {nearest:>16} {toward:>16} {tabled:>16} {links:>16}");
    let mut chance = Chance::new(2);
    for (name, kind, aim) in KINDS {
        let mut site = Site::of(kind, &mut chance);
        let queries: Vec<(usize, usize)> =
            (0..QUERIES).map(|_| (chance.pick(&site.free), chance.pick(&site.free))).collect();
        queries.iter().for_each(|&(start, goal)| site.agree(start, goal));
        let mut sums = [0.0; 6];
        for batch in queries.chunks(BATCH) {
            sums.iter_mut().zip(site.race(batch)).for_each(|(sum, time)| *sum += time);
        }
        let [whole, after, nearest, toward, tabled, links] = sums;
        let both = |after: f64, whole: f64| format!("{after:.2} [{whole:.3}]");
        println!(
            "{name:20} {:>7}  {:>16} {:>16} {:>16} {:>16}",
            format!(">= {aim}"),
            both(nearest / after, nearest / whole),
            both(toward / after, toward / whole),
            both(tabled / after, tabled / whole),
            both(after / links, whole / links),
        );
    }
}
