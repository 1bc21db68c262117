//! Survey, against the definitions.
use azebimoru_tests::chance::Chance;
use azebimoru_tests::face::{self, Words};
use azebimoru_tests::floors::{self, Kind};
use azebimoru_tests::lend::{rubbish, Lent, LentPlan};
use azebimoru_tests::oracle::floor::Floor;
use azebimoru_tests::oracle::ground::Ground;
use azebimoru_tests::oracle::plan::{survey, Lists, Plan, MOST_ARCS, MOST_CORNERS};

/// How many entries are lent in each list.
#[derive(Clone, Copy, Debug)]
struct Room {
    clearances: usize,
    corners: usize,
    starts: usize,
    neighbours: usize,
}

/// The largest sizes that any plan may need.
const AMPLE: Room =
    Room { clearances: 65_536, corners: MOST_CORNERS, starts: MOST_CORNERS + 1, neighbours: MOST_ARCS };

impl Room {
    /// Exactly what this plan takes.
    fn of(plan: &Plan) -> Room {
        Room {
            clearances: plan.clearances.len(),
            corners: plan.corners.len(),
            starts: plan.starts.len(),
            neighbours: plan.neighbours.len(),
        }
    }

    fn more(self, chance: &mut Chance) -> Room {
        Room {
            clearances: self.clearances + chance.below(9),
            corners: self.corners + chance.below(9),
            starts: self.starts + chance.below(9),
            neighbours: self.neighbours + chance.below(9),
        }
    }

    fn rubbish(self, chance: &mut Chance) -> Lists {
        Lists {
            clearances: rubbish(chance, self.clearances),
            corners: rubbish(chance, self.corners),
            starts: rubbish(chance, self.starts),
            neighbours: rubbish(chance, self.neighbours),
        }
    }
}

/// Surveys lent words into lent rubbish, compares all that is returned and left with the oracle, and gives the code.
fn check_words(w: usize, h: usize, words: &[u64], room: Room, chance: &mut Chance) -> u32 {
    let mut expected = room.rubbish(chance);
    let mut plan = LentPlan::new(&expected);
    let lent = Lent::new(words);
    let returned = face::survey(Words { w, h, words: lent.read() }, plan.room());
    let told = survey(w, h, words, &mut expected);
    assert_eq!(returned, told, "{w} x {h}, {room:?}, {words:?}");
    plan.expect(&expected);
    assert_eq!(lent.back(), words, "the floor was written");
    told[0]
}

fn check(floor: &Floor, room: Room, chance: &mut Chance) -> u32 {
    check_words(floor.w, floor.h, &floor.words(), room, chance)
}

/// Floors of all kinds up to a side, in lists exactly as long as needed or a little longer.
fn check_some(seed: u64, rounds: usize, most: usize) {
    let mut chance = Chance::new(seed);
    for round in 0..rounds {
        let floor = floors::some(&mut chance, most);
        let plan = Plan::of_floor(&floor);
        let exact = Room::of(&plan);
        let room = if round % 2 == 0 { exact } else { exact.more(&mut chance) };
        let code = check(&floor, room, &mut chance);
        let expected = if plan.corners.len() > MOST_CORNERS { 5 } else { 0 };
        assert_eq!(code, expected, "{floor:?}");
    }
}

#[test]
fn small_floors() {
    check_some(10, 4_000, 9);
}

#[test]
fn middling_floors() {
    check_some(11, 400, 40);
}

#[test]
fn large_floors() {
    check_some(12, 40, 255);
}

/// Every kind at the width of whole words and beside it, where the last word is full, short or new.
#[test]
fn widths_round_whole_words() {
    let mut chance = Chance::new(13);
    for w in [63, 64, 65, 127, 128, 129, 191, 192, 193, 254, 255] {
        for kind in floors::KINDS {
            let floor = floors::make(kind, w, 7, &mut chance);
            assert_eq!(check(&floor, AMPLE, &mut chance), 0, "{kind:?} {w}");
        }
    }
}

#[test]
fn floors_of_one_row_or_column() {
    let mut chance = Chance::new(14);
    for n in 1..256 {
        for (w, h) in [(1, n), (n, 1)] {
            let kind = chance.pick(&floors::KINDS);
            let floor = floors::make(kind, w, h, &mut chance);
            let plan = Plan::of_floor(&floor);
            assert!(plan.corners.is_empty(), "nothing turns in a single row");
            assert_eq!(check(&floor, Room::of(&plan), &mut chance), 0);
        }
    }
}

/// Refusal 1: each limit on sizes at its edge.
#[test]
fn sizes_at_their_edges() {
    let mut chance = Chance::new(15);
    let accepted = [(1, 1), (255, 1), (1, 255), (255, 64), (64, 255), (128, 128)];
    let huge = usize::MAX;
    let refused = [
        (0, 1),
        (1, 0),
        (0, 0),
        (256, 1),
        (1, 256),
        (128, 129),
        (129, 128),
        (255, 65),
        (65, 255),
        (huge, huge),
    ];
    for (w, h) in accepted {
        assert_eq!(check(&Floor::filled(w, h, false), AMPLE, &mut chance), 0, "{w} {h}");
    }
    for (w, h) in refused {
        // The words are as many as the rows would need, so that nothing but the size is wrong.
        let count = if w == huge { 0 } else { (w + 63) / 64 * h };
        assert_eq!(check_words(w, h, &vec![u64::MAX; count], AMPLE, &mut chance), 1, "{w} {h}");
    }
    // 2^32 in each direction multiplies to nothing in 64 bits.
    assert_eq!(check_words(1 << 32, 1 << 32, &[], AMPLE, &mut chance), 1);
}

/// Refusals 2 and 3: a word more or fewer, and each unused bit by itself.
#[test]
fn words_at_their_edges() {
    let mut chance = Chance::new(16);
    for (w, h) in [(1, 1), (5, 3), (63, 4), (64, 3), (65, 5), (130, 3), (255, 2)] {
        let words = Floor::filled(w, h, false).words();
        let longer = [&words[..], &[u64::MAX]].concat();
        assert_eq!(check_words(w, h, &longer, AMPLE, &mut chance), 2);
        assert_eq!(check_words(w, h, &words[1..], AMPLE, &mut chance), 2);
        assert_eq!(check_words(w, h, &[], AMPLE, &mut chance), 2);
        let row = words.len() / h;
        for y in 0..h {
            for bit in (w - 1) % 64 + 1..64 {
                let mut bad = words.clone();
                bad[y * row + row - 1] -= 1 << bit;
                assert_eq!(check_words(w, h, &bad, AMPLE, &mut chance), 3, "{w} {h} {y} {bit}");
            }
        }
    }
}

/// Refusals 4 to 7: each list one entry too short, and the order among them.
#[test]
fn lists_one_too_short() {
    let mut chance = Chance::new(17);
    let mut seen = [0; 8];
    for _ in 0..1_500 {
        let floor = floors::some(&mut chance, 12);
        let exact = Room::of(&Plan::of_floor(&floor));
        for short in 0..16 {
            let less = |n: usize, bit: usize| n.saturating_sub(short >> bit & 1);
            let room = Room {
                clearances: less(exact.clearances, 0),
                corners: less(exact.corners, 1),
                starts: less(exact.starts, 2),
                neighbours: less(exact.neighbours, 3),
            };
            seen[check(&floor, room, &mut chance) as usize] += 1;
        }
    }
    assert!([0, 4, 5, 6, 7].iter().all(|&code: &usize| seen[code] > 500), "{seen:?}");
}

/// Refusal 7 zeroes every entry that was lent, also far beyond the plan.
#[test]
fn seven_clears_all_that_was_lent() {
    let mut chance = Chance::new(18);
    let floor = floors::make(Kind::Dense(20), 20, 20, &mut chance);
    let plan = Plan::of_floor(&floor);
    for lent in [0, 1, plan.neighbours.len() / 2, plan.neighbours.len() - 1] {
        let code = check(&floor, Room { neighbours: lent, ..AMPLE }, &mut chance);
        assert_eq!(code, 7, "{lent}");
    }
}

/// Refusal 5 at the limit of turning points, whatever room is lent; and with room for exactly them or one fewer.
#[test]
fn turning_points_at_their_limit() {
    let mut chance = Chance::new(19);
    let more = Room { corners: 4_000, starts: 4_001, ..AMPLE };
    for (k, code) in [(MOST_CORNERS, 0), (MOST_CORNERS + 1, 5)] {
        let floor = floors::stairs(k);
        let plan = Plan::of_floor(&floor);
        assert_eq!(plan.corners.len(), k);
        assert_eq!(check(&floor, more, &mut chance), code, "{k}");
        assert_eq!(check(&floor, Room::of(&plan), &mut chance), code, "{k}");
        assert_eq!(check(&floor, Room { corners: k - 1, ..more }, &mut chance), 5, "{k}");
    }
    // Far beyond it: more turning points than any list of the program holds.
    let floor = floors::make(Kind::Dense(20), 128, 128, &mut chance);
    assert!(Ground::of(floor.clone()).corners().len() > 4_000);
    assert_eq!(check(&floor, Room { corners: 16_384, starts: 16_385, ..AMPLE }, &mut chance), 5);
}

/// Refusal 7 at the limit of neighbours, whatever room is lent; and with room for exactly them or one fewer.
#[test]
fn neighbours_at_their_limit() {
    let mut chance = Chance::new(20);
    let more = Room { neighbours: 40_000, ..AMPLE };
    let cases = [
        (floors::pillar_columns(), 32_334, 0),
        (floors::pillars_at_the_limit(true), MOST_ARCS, 0),
        (floors::pillars_at_the_limit(false), MOST_ARCS + 2, 7),
    ];
    for (floor, m, code) in cases {
        let plan = Plan::of_floor(&floor);
        assert_eq!(plan.neighbours.len(), m);
        assert_eq!(check(&floor, more, &mut chance), code, "{m}");
        assert_eq!(check(&floor, Room { neighbours: m, ..AMPLE }, &mut chance), code, "{m}");
        assert_eq!(check(&floor, Room { neighbours: m - 1, ..AMPLE }, &mut chance), 7, "{m}");
    }
}
