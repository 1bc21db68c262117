//! The query, against a plain search over the cells and the rules of effort and route.
use azebimoru_tests::chance::Chance;
use azebimoru_tests::damage::{damage_one, each_damage};
use azebimoru_tests::face::{self, Ends, Words};
use azebimoru_tests::floors::{self, Kind};
use azebimoru_tests::lend::{rubbish, Lent, LentPlan};
use azebimoru_tests::oracle::floor::{sizes_refused, Floor};
use azebimoru_tests::oracle::plan::{Lists, Plan, MOST_CORNERS};
use azebimoru_tests::oracle::trip::{known_of_words, refused, Distances, Expected, Known, Way};

/// The most cells that a route may have, and the most work entries that a query may need.
const MOST_ROUTE: usize = 16_384;
const MOST_WORK: usize = 6 * (MOST_CORNERS + 2);

/// All that is lent to a query: a floor, a plan, so many route cells and so many work entries.
#[derive(Clone, Copy)]
struct Lending<'a> {
    w: usize,
    h: usize,
    words: &'a [u64],
    lists: &'a Lists,
    room: usize,
    work: usize,
}

/// Asks with rubbish in both lists that a query writes, and compares all that is returned and left with what is
/// expected; floor and plan must be as they were, and so must every entry beside the lent ones.
fn ask(lent: Lending, ends: Ends, expected: &Expected, chance: &mut Chance) {
    let words = Lent::new(lent.words);
    let plan = LentPlan::new(lent.lists);
    let mut route: Vec<u16> = rubbish(chance, lent.room);
    let mut work: Vec<u32> = rubbish(chance, lent.work);
    let mut lent_route = Lent::new(&route);
    let mut lent_work = Lent::new(&work);
    let floor = Words { w: lent.w, h: lent.h, words: words.read() };
    let answer = face::query(floor, plan.read(), ends, lent_route.part(), lent_work.part());
    let told = || format!("{} x {}, {:x?}, {ends:?}", lent.w, lent.h, lent.words);
    assert_eq!(answer, expected.answer, "{}", told());
    route[..expected.route.len()].copy_from_slice(&expected.route);
    work[..expected.zeroed].fill(0);
    assert!(lent_route.back() == route, "another route, {}: {:?}", told(), lent_route.back());
    assert!(lent_work.back() == work, "another work space, {}", told());
    assert_eq!(words.back(), lent.words, "the floor was written");
    plan.expect(lent.lists);
}

/// A floor whose plan is within the limits, as it is lent, and all that the oracle knows of it.
struct Site {
    known: Known,
    words: Vec<u64>,
    lists: Lists,
}

impl Site {
    fn of(floor: &Floor) -> Option<Site> {
        let known = Known::of(floor);
        let lists = known.lists.clone()?;
        Some(Site { known, words: floor.words(), lists })
    }

    fn drawn(rows: &[&str]) -> Site {
        Site::of(&Floor::drawn(rows)).expect("a small floor")
    }

    fn floor(&self) -> &Floor {
        &self.known.ground.floor
    }

    /// The work entries that a query on this floor needs.
    fn work(&self) -> usize {
        6 * (self.lists.corners.len() + 2)
    }

    fn lending(&self, room: usize, work: usize) -> Lending<'_> {
        Lending { w: self.floor().w, h: self.floor().h, words: &self.words, lists: &self.lists, room, work }
    }

    fn ends(&self, start: usize, goal: usize) -> Ends {
        let w = self.floor().w;
        Ends { sx: start % w, sy: start / w, gx: goal % w, gy: goal / w }
    }

    fn distances(&self, start: usize) -> Distances {
        Distances::of(&self.known.ground, start)
    }

    /// Asks for a way between two free cells with every room at which the answer may change: the route's cells
    /// exactly, one fewer, none and more than enough; and work entries exactly as needed, one fewer and more.
    fn check(&self, from: &Distances, goal: usize, chance: &mut Chance) -> Way {
        let way = Way::of(&self.known.ground, from, goal);
        let ends = self.ends(from.start, goal);
        let (cells, work) = (way.route.len(), self.work());
        let more = chance.below(9);
        for room in [cells, cells.saturating_sub(1), cells + more, 0] {
            let expected = self.known.expect(&way, room);
            ask(self.lending(room, work + more), ends, &expected, chance);
        }
        ask(self.lending(cells, work), ends, &self.known.expect(&way, cells), chance);
        ask(self.lending(cells, work - 1), ends, &refused(11), chance);
        way
    }

    /// The same for any start and goal, also outside or blocked: in lists long enough.
    fn check_any(&self, ends: Ends, chance: &mut Chance) -> u32 {
        let expected = self.known.expect_any(&self.lists, ends, MOST_ROUTE, self.work());
        ask(self.lending(MOST_ROUTE, self.work()), ends, &expected, chance);
        expected.answer[0]
    }

    /// Two random free cells, if there is one.
    fn check_some(&self, queries: usize, chance: &mut Chance, seen: &mut Seen) {
        let free = self.floor().free_cells();
        if free.is_empty() {
            return;
        }
        for _ in 0..queries {
            let from = self.distances(chance.pick(&free));
            seen.note(&self.check(&from, chance.pick(&free), chance));
        }
    }
}

/// How many ways were straight there, round turning points or not there at all: each must come up often enough.
#[derive(Default, Debug)]
struct Seen {
    direct: usize,
    round: usize,
    none: usize,
}

impl Seen {
    fn note(&mut self, way: &Way) {
        match (&way.length, way.effort) {
            (None, _) => self.none += 1,
            (Some(_), 0) => self.direct += 1,
            (Some(_), _) => self.round += 1,
        }
    }

    fn at_least(&self, each: usize) {
        assert!(self.direct >= each && self.round >= each && self.none >= each, "{self:?}");
    }
}

/// Random floors of all kinds up to a side, with random queries.
fn check_floors(seed: u64, rounds: usize, most: usize, queries: usize, each: usize) {
    let mut chance = Chance::new(seed);
    let mut seen = Seen::default();
    for _ in 0..rounds {
        let floor = floors::some(&mut chance, most);
        if let Some(site) = Site::of(&floor) {
            site.check_some(queries, &mut chance, &mut seen);
        }
    }
    seen.at_least(each);
}

/// Document 01's floor and queries, as they stand there.
#[test]
fn listing_of_the_document() {
    let site = Site::drawn(&[".....", "..#..", "....."]);
    let listed: [([usize; 4], [u32; 5], &[u16]); 5] = [
        ([0, 1, 4, 1], [0, 2, 2, 5, 6], &[5, 1, 2, 3, 9]),
        ([0, 0, 4, 2], [0, 4, 1, 6, 6], &[0, 1, 2, 3, 9, 14]),
        ([0, 0, 1, 2], [0, 1, 1, 3, 0], &[0, 6, 11]),
        ([0, 0, 0, 0], [0, 0, 0, 1, 0], &[0]),
        ([0, 0, 2, 1], [10, 0, 0, 0, 0], &[]),
    ];
    let mut chance = Chance::new(80);
    for ([sx, sy, gx, gy], answer, route) in listed {
        let zeroed = if answer[0] == 0 { 36 } else { 0 };
        let expected = Expected { answer, route: route.to_vec(), zeroed };
        let ends = Ends { sx, sy, gx, gy };
        ask(site.lending(MOST_ROUTE, MOST_WORK), ends, &expected, &mut chance);
        ask(site.lending(route.len(), 36), ends, &expected, &mut chance);
        // The oracle says the same.
        let room = site.known.expect_any(&site.lists, ends, MOST_ROUTE, MOST_WORK);
        assert_eq!(room, expected);
    }
}

/// Document 01's sums P9 to P12.
#[test]
fn sums_of_the_document() {
    let mut chance = Chance::new(81);
    let mut check = |rows: &[&str], corners: &[u16], goal: usize, answer: [u32; 5], route: &[u16]| {
        let site = Site::drawn(rows);
        assert_eq!(site.lists.corners, corners);
        let expected = Expected { answer, route: route.to_vec(), zeroed: site.work() };
        ask(site.lending(route.len(), site.work()), site.ends(0, goal), &expected, &mut chance);
        ask(site.lending(9, site.work() + 9), site.ends(0, goal), &expected, &mut chance);
    };
    check(&[".#", ".."], &[2], 3, [0, 2, 0, 3, 3], &[0, 2, 3]);
    check(&[".#", "#."], &[], 3, [12, 0, 0, 0, 1], &[]);
    check(&[".#."], &[], 2, [12, 0, 0, 0, 1], &[]);
}

/// Every two cells of many small floors, blocked ones too, in exactly the room needed and one fewer.
#[test]
fn all_pairs_of_small_floors() {
    let mut chance = Chance::new(82);
    let mut seen = Seen::default();
    for _ in 0..800 {
        let floor = floors::some(&mut chance, 6);
        let site = Site::of(&floor).expect("a small floor");
        for start in 0..floor.blocked.len() {
            let from = site.distances(start);
            for goal in 0..floor.blocked.len() {
                if floor.blocked[start] || floor.blocked[goal] {
                    let code = if floor.blocked[start] { 9 } else { 10 };
                    let lent = site.lending(MOST_ROUTE, site.work());
                    ask(lent, site.ends(start, goal), &refused(code), &mut chance);
                } else {
                    seen.note(&site.check(&from, goal, &mut chance));
                }
            }
        }
    }
    seen.at_least(4_000);
}

#[test]
fn small_floors() {
    check_floors(83, 6_000, 9, 6, 2_000);
}

#[test]
fn middling_floors() {
    check_floors(84, 800, 40, 12, 500);
}

#[test]
fn large_floors() {
    check_floors(85, 60, 255, 10, 40);
}

/// Floors of the largest sizes, of every kind that has a plan there.
#[test]
fn floors_of_the_largest_sizes() {
    let mut chance = Chance::new(86);
    let mut seen = Seen::default();
    let mut planned = 0;
    for (w, h) in [(128, 128), (255, 64), (64, 255)] {
        for kind in floors::KINDS {
            if let Some(site) = Site::of(&floors::make(kind, w, h, &mut chance)) {
                planned += 1;
                site.check_some(2, &mut chance, &mut seen);
                // From corner to corner: the longest legs.
                let ends = Ends { sx: 0, sy: 0, gx: w - 1, gy: h - 1 };
                site.check_any(ends, &mut chance);
            }
        }
    }
    assert!(planned >= 20, "{planned}");
    seen.at_least(5);
}

/// Corridors that wind over a whole floor: the longest routes and the longest chains.
#[test]
fn longest_routes() {
    let mut chance = Chance::new(87);
    for (w, h) in [(128, 128), (255, 64), (64, 255), (2, 255), (255, 3)] {
        let site = Site::of(&floors::snake(w, h)).expect("few turning points");
        let from = site.distances(0);
        let farthest = (0..w * h).max_by_key(|&c| from.to[c]).expect("a cell");
        let there = site.check(&from, farthest, &mut chance);
        let back = site.check(&site.distances(farthest), 0, &mut chance);
        assert_eq!(there.length, back.length);
        // Every free cell is passed, but those that a diagonal step at a bend leaves out.
        let free = site.floor().free_cells().len();
        assert!(there.route.len() + 2 * h > free, "{w} {h}: {}", there.route.len());
    }
}

/// Plans at the limits are taken; one turning point or one link beyond, lists that are exactly the plan are not.
#[test]
fn plans_at_the_limits() {
    let mut chance = Chance::new(88);
    let mut seen = Seen::default();
    for floor in [floors::stairs(MOST_CORNERS), floors::pillars_at_the_limit(true)] {
        Site::of(&floor).expect("a plan within the limits").check_some(4, &mut chance, &mut seen);
    }
    assert!(seen.round > 0, "{seen:?}");
    for floor in [floors::stairs(MOST_CORNERS + 1), floors::pillars_at_the_limit(false)] {
        let plan = Plan::of_floor(&floor);
        assert!(!plan.within_limits());
        let (words, lists) = (floor.words(), plan.lists());
        let work = MOST_WORK + 6;
        let lent = Lending { w: 128, h: 128, words: &words, lists: &lists, room: MOST_ROUTE, work };
        let goal = floor.free_cells()[1];
        let ends = Ends { sx: goal % 128, sy: goal / 128, gx: goal % 128, gy: goal / 128 };
        ask(lent, ends, &refused(8), &mut chance);
    }
}

/// Start equal to goal: one cell and no effort; 13 where no route cell is lent.
#[test]
fn start_is_goal() {
    let mut chance = Chance::new(89);
    for _ in 0..300 {
        let site = Site::of(&floors::some(&mut chance, 9)).expect("a small floor");
        let zeroed = site.work();
        for cell in site.floor().free_cells() {
            let ends = site.ends(cell, cell);
            let none = Expected { answer: [13, 0, 0, 1, 0], route: vec![], zeroed };
            let one = Expected { answer: [0, 0, 0, 1, 0], route: vec![cell as u16], zeroed };
            ask(site.lending(0, zeroed), ends, &none, &mut chance);
            ask(site.lending(1, zeroed), ends, &one, &mut chance);
            ask(site.lending(7, zeroed + 7), ends, &one, &mut chance);
        }
    }
}

/// Refusal 1: each limit on sizes at its edge, whatever the lists are.
#[test]
fn sizes_at_their_edges() {
    let mut chance = Chance::new(90);
    let stay = Ends { sx: 0, sy: 0, gx: 0, gy: 0 };
    for (w, h) in [(1, 1), (255, 1), (1, 255), (255, 64), (64, 255), (128, 128)] {
        let site = Site::of(&Floor::filled(w, h, false)).expect("an open floor");
        assert_eq!(site.check_any(stay, &mut chance), 0);
        assert_eq!(site.check_any(Ends { gx: w - 1, gy: h - 1, ..stay }, &mut chance), 0);
    }
    let huge = usize::MAX;
    let refused_sizes = [
        (0, 1),
        (1, 0),
        (0, 0),
        (256, 1),
        (1, 256),
        (128, 129),
        (129, 128),
        (255, 65),
        (65, 255),
        (1 << 32, 1 << 32),
        (huge, huge),
    ];
    for (w, h) in refused_sizes {
        assert!(sizes_refused(w, h));
        // Words and clearances are as many as the rows would need, so that nothing but the size is wrong.
        let (count, cells) = if w > 256 { (0, 0) } else { ((w + 63) / 64 * h, w * h) };
        let floor = Floor { w, h, blocked: vec![false; cells] };
        let words = if count == 0 { vec![] } else { floor.words() };
        let lists =
            Lists { clearances: vec![0; 4 * cells], corners: vec![], starts: vec![0], neighbours: vec![] };
        let lent = Lending { w, h, words: &words, lists: &lists, room: MOST_ROUTE, work: MOST_WORK };
        ask(lent, stay, &refused(1), &mut chance);
    }
}

/// Refusals 2 and 3: a word more or fewer, and each unused bit by itself.
#[test]
fn words_at_their_edges() {
    let mut chance = Chance::new(91);
    let stay = Ends { sx: 0, sy: 0, gx: 0, gy: 0 };
    for (w, h) in [(1, 1), (5, 3), (63, 4), (64, 3), (65, 5), (130, 3), (255, 2)] {
        let site = Site::of(&Floor::filled(w, h, false)).expect("an open floor");
        assert_eq!(site.check_any(stay, &mut chance), 0);
        let mut check = |words: &[u64], code: u32| {
            let lent = Lending { words, ..site.lending(MOST_ROUTE, MOST_WORK) };
            ask(lent, stay, &refused(code), &mut chance);
        };
        check(&[&site.words[..], &[u64::MAX]].concat(), 2);
        check(&site.words[1..], 2);
        check(&[], 2);
        let row = site.words.len() / h;
        for y in 0..h {
            for bit in (w - 1) % 64 + 1..64 {
                let mut bad = site.words.clone();
                bad[y * row + row - 1] -= 1 << bit;
                check(&bad, 3);
            }
        }
    }
}

/// Refusal 8: every single entry of the four lists altered, and every list one longer or shorter.
#[test]
fn nothing_but_the_plan() {
    let mut chance = Chance::new(92);
    let mut arcs = 0;
    for _ in 0..300 {
        let site = Site::of(&floors::some(&mut chance, 7)).expect("a small floor");
        let free = site.floor().free_cells();
        if free.is_empty() {
            continue;
        }
        let ends = site.ends(chance.pick(&free), chance.pick(&free));
        assert_ne!(site.check_any(ends, &mut chance), 8);
        arcs += site.lists.neighbours.len();
        let mut more = Chance::new(chance.word());
        each_damage(&site.lists, &mut chance, |bad| {
            let lent = Lending { lists: bad, ..site.lending(MOST_ROUTE, MOST_WORK) };
            ask(lent, ends, &refused(8), &mut more);
        });
    }
    assert!(arcs > 500, "{arcs}");
}

/// Refusal 8 again: the plan of a floor on which one cell is different, where that makes another plan.
#[test]
fn no_plan_of_another_floor() {
    let mut chance = Chance::new(93);
    let mut codes = [0; 14];
    for _ in 0..2_000 {
        let floor = floors::some(&mut chance, 9);
        let mut other = floor.clone();
        let at = chance.below(other.blocked.len());
        other.blocked[at] = !other.blocked[at];
        let site = Site::of(&floor).expect("a small floor");
        let theirs = Plan::of_floor(&other).lists();
        let ends = site.ends(chance.below(floor.blocked.len()), chance.below(floor.blocked.len()));
        let expected = site.known.expect_any(&theirs, ends, MOST_ROUTE, MOST_WORK);
        let lent = Lending { lists: &theirs, ..site.lending(MOST_ROUTE, MOST_WORK) };
        ask(lent, ends, &expected, &mut chance);
        codes[expected.answer[0] as usize] += 1;
    }
    assert!(codes[8] > 1_000, "{codes:?}");
}

/// Refusals 9 and 10: start and goal just inside, just outside, far outside and blocked.
#[test]
fn ends_at_their_edges() {
    let mut chance = Chance::new(94);
    for (w, h) in [(1, 1), (5, 3), (64, 2), (65, 2), (255, 64)] {
        let site = Site::of(&Floor::filled(w, h, false)).expect("an open floor");
        let last = (w - 1, h - 1);
        let huge = usize::MAX;
        let outside = [(w, 0), (0, h), (w, h), (w - 1, h), (w, h - 1), (huge, 0), (0, huge), (huge, huge)];
        let code = |start: (usize, usize), goal: (usize, usize), chance: &mut Chance| {
            site.check_any(Ends { sx: start.0, sy: start.1, gx: goal.0, gy: goal.1 }, chance)
        };
        assert_eq!(code(last, (0, 0), &mut chance), 0);
        assert_eq!(code((0, 0), last, &mut chance), 0);
        for there in outside {
            assert_eq!(code(there, last, &mut chance), 9);
            assert_eq!(code(last, there, &mut chance), 10);
            assert_eq!(code(there, there, &mut chance), 9);
        }
    }
    // The numbers of these cells would be those of free cells, if only the number were looked at.
    let site = Site::drawn(&["...", "...", "..#"]);
    for (x, y) in [(3, 0), (5, 1), (2, 2), (usize::MAX - 2, 1)] {
        let ends = Ends { sx: x, sy: y, gx: 0, gy: 0 };
        assert_eq!(site.check_any(ends, &mut chance), 9);
        assert_eq!(site.check_any(Ends { sx: 0, sy: 0, gx: x, gy: y }, &mut chance), 10);
    }
}

/// Refusal 11: fewer work entries than 6 × (K + 2), down to none.
#[test]
fn work_at_its_edge() {
    let mut chance = Chance::new(95);
    for _ in 0..200 {
        let site = Site::of(&floors::some(&mut chance, 9)).expect("a small floor");
        let free = site.floor().free_cells();
        if free.is_empty() {
            continue;
        }
        let ends = site.ends(chance.pick(&free), chance.pick(&free));
        for short in [1, 2, 6, 12, site.work()] {
            let lent = site.lending(MOST_ROUTE, site.work().saturating_sub(short));
            ask(lent, ends, &refused(11), &mut chance);
        }
        assert_ne!(site.check_any(ends, &mut chance), 11);
    }
}

/// Refusal 12: a goal walled in, or seen only past a corner that may not be cut.
#[test]
fn no_walk_at_all() {
    let mut chance = Chance::new(96);
    let floors: [&[&str]; 4] = [
        &["....", "..##", "..#."],
        &["..#..", "..#..", "..#.."],
        &["...", ".#.", "..#", "##."],
        &["#.#", ".#.", "#.#"],
    ];
    for rows in floors {
        let site = Site::drawn(rows);
        let free = site.floor().free_cells();
        let (first, last) = (free[0], free[free.len() - 1]);
        for (start, goal) in [(first, last), (last, first)] {
            let way = site.check(&site.distances(start), goal, &mut chance);
            assert_eq!(way.length, None);
            assert!(way.effort >= 1, "the start counts");
        }
    }
}

/// Of all refusals that apply, the least: every set of them at once.
#[test]
fn least_refusal_first() {
    let mut chance = Chance::new(97);
    let site = Site::drawn(&[".....#.", "..#..##", "......."]);
    let all = [1, 2, 3, 8, 9, 10, 11, 12, 13];
    let mut damaged = site.lists.clone();
    damaged.clearances[0] += 1;
    for set in 0..1 << all.len() {
        let has = |code: u32| all.iter().position(|&c| c == code).map_or(false, |at| set >> at & 1 == 1);
        let mut words = site.words.clone();
        if has(3) {
            words[0] -= 1 << 63;
        }
        if has(2) {
            words.push(u64::MAX);
        }
        let start = if has(9) { (2, 1) } else { (0, 0) };
        // A goal that is blocked has no walk to it either.
        let goal = match (has(10), has(12)) {
            (true, _) => (7, 0),
            (false, true) => (6, 0),
            (false, false) => (4, 2),
        };
        let ends = Ends { sx: start.0, sy: start.1, gx: goal.0, gy: goal.1 };
        let lent = Lending {
            w: if has(1) { 0 } else { 7 },
            h: 3,
            words: &words,
            lists: if has(8) { &damaged } else { &site.lists },
            room: if has(13) { 5 } else { 6 },
            work: site.work() - usize::from(has(11)),
        };
        let expected = match known_of_words(lent.w, lent.h, lent.words) {
            Ok(known) => known.expect_any(lent.lists, ends, lent.room, lent.work),
            Err(early) => early,
        };
        let least = all.iter().copied().find(|&code| has(code)).unwrap_or(0);
        assert_eq!(expected.answer[0], least, "{set:b}");
        ask(lent, ends, &expected, &mut chance);
    }
}

/// Anything at all: sizes, words, lists, ends and room each right or wrong by chance.
#[test]
fn whatever_is_lent() {
    let mut chance = Chance::new(98);
    let mut codes = [0; 14];
    for _ in 0..20_000 {
        let floor = floors::some(&mut chance, 8);
        let mut words = floor.words();
        let mut lists = Plan::of_floor(&floor).lists();
        let (mut w, mut h) = (floor.w, floor.h);
        match chance.below(12) {
            0 => w = chance.pick(&[0, 256, w + 1, 64 + w]),
            1 => h = chance.pick(&[0, 256, h + 1, h - 1]),
            2 => words = rubbish(&mut chance, floor.h),
            3 => words.push(u64::MAX),
            4 | 5 => damage_one(&mut lists, &mut chance),
            _ => {}
        }
        let mut within = |n: usize| if chance.percent(4) { n + chance.below(3) } else { chance.below(n) };
        let ends =
            Ends { sx: within(floor.w), sy: within(floor.h), gx: within(floor.w), gy: within(floor.h) };
        let room = chance.below(12);
        let work = (6 * (lists.corners.len() + 2) + 1).saturating_sub(chance.below(3));
        let expected = match known_of_words(w, h, &words) {
            Ok(known) => known.expect_any(&lists, ends, room, work),
            Err(early) => early,
        };
        ask(Lending { w, h, words: &words, lists: &lists, room, work }, ends, &expected, &mut chance);
        codes[expected.answer[0] as usize] += 1;
    }
    let each = [0, 1, 2, 3, 8, 9, 10, 11, 12, 13];
    assert!(each.iter().all(|&code: &usize| codes[code] >= 100), "{codes:?}");
}

/// A way back has the same length as the way there, whatever its cells.
#[test]
fn there_and_back() {
    let mut chance = Chance::new(99);
    let mut round = 0;
    for _ in 0..60 {
        let kind =
            chance.pick(&[Kind::Rooms(7), Kind::Maze, Kind::Dense(20), Kind::Shelves, Kind::Diagonals]);
        let site = Site::of(&floors::make(kind, 30, 20, &mut chance)).expect("few turning points");
        let free = site.floor().free_cells();
        let (mut route, mut work) = (vec![0; MOST_ROUTE], vec![0; MOST_WORK]);
        let plan = face::Plan {
            clearances: &site.lists.clearances,
            corners: &site.lists.corners,
            starts: &site.lists.starts,
            neighbours: &site.lists.neighbours,
        };
        let floor = Words { w: 30, h: 20, words: &site.words };
        for _ in 0..40 {
            let (a, b) = (chance.pick(&free), chance.pick(&free));
            let there = face::query(floor, plan, site.ends(a, b), &mut route, &mut work);
            let cells: Vec<usize> = route[..there[3] as usize].iter().map(|&c| usize::from(c)).collect();
            let back = face::query(floor, plan, site.ends(b, a), &mut route, &mut work);
            assert_eq!(there[..4], back[..4], "{:?} {a} {b}", site.floor());
            if there[0] == 0 {
                assert_eq!((cells[0], cells[cells.len() - 1]), (a, b));
                let (straight, diagonal) = steps(&site, &cells);
                assert_eq!((there[1], there[2]), (straight, diagonal), "{:?} {a} {b}", site.floor());
                round += usize::from(there[4] > 0);
            }
        }
    }
    assert!(round > 500, "{round}");
}

/// The straight and the diagonal steps of a route; fails where one is not legal.
fn steps(site: &Site, cells: &[usize]) -> (u32, u32) {
    let mut count = (0, 0);
    for pair in cells.windows(2) {
        let dir = (0..8).find(|&dir| site.known.ground.step(pair[0], dir) == Some(pair[1]));
        match dir.expect("a legal step") {
            0..=3 => count.0 += 1,
            _ => count.1 += 1,
        }
    }
    count
}
