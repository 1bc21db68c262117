//! The check whether four lists are exactly a floor's plan.
use azebimoru_tests::chance::Chance;
use azebimoru_tests::damage::each_damage;
use azebimoru_tests::face::{self, Words};
use azebimoru_tests::floors;
use azebimoru_tests::lend::{Lent, LentPlan};
use azebimoru_tests::oracle::floor::Floor;
use azebimoru_tests::oracle::plan::{Lists, Plan};

/// Whether the four lists are taken for the plan of the floor of these words; nothing lent may change.
fn matches(w: usize, h: usize, words: &[u64], lists: &Lists) -> bool {
    let plan = LentPlan::new(lists);
    let lent = Lent::new(words);
    let says = face::matches(Words { w, h, words: lent.read() }, plan.read());
    plan.expect(lists);
    assert_eq!(lent.back(), words, "the floor was written");
    says
}

fn matches_floor(floor: &Floor, lists: &Lists) -> bool {
    matches(floor.w, floor.h, &floor.words(), lists)
}

/// Floors of all kinds: the plan matches where it is within the limits.
fn check_some(seed: u64, rounds: usize, most: usize) {
    let mut chance = Chance::new(seed);
    for _ in 0..rounds {
        let floor = floors::some(&mut chance, most);
        let plan = Plan::of_floor(&floor);
        assert_eq!(matches_floor(&floor, &plan.lists()), plan.within_limits(), "{floor:?}");
    }
}

#[test]
fn plans_of_small_floors() {
    check_some(70, 4_000, 9);
}

#[test]
fn plans_of_middling_floors() {
    check_some(71, 400, 40);
}

#[test]
fn plans_of_large_floors() {
    check_some(72, 30, 255);
}

/// Every single entry altered, and every list one longer or shorter: no longer the plan.
#[test]
fn nothing_but_the_plan() {
    let mut chance = Chance::new(73);
    let mut arcs = 0;
    for _ in 0..1_000 {
        let floor = floors::some(&mut chance, 7);
        let good = Plan::of_floor(&floor).lists();
        assert!(matches_floor(&floor, &good), "{floor:?}");
        arcs += good.neighbours.len();
        each_damage(&good, &mut chance, |bad| assert!(!matches_floor(&floor, bad), "{floor:?} {bad:?}"));
    }
    assert!(arcs > 2_000, "{arcs}");
}

/// The plan of another floor, one cell of it changed, where that makes another plan.
#[test]
fn no_plan_of_another_floor() {
    let mut chance = Chance::new(74);
    let mut differing = 0;
    for _ in 0..2_000 {
        let floor = floors::some(&mut chance, 9);
        let mut other = floor.clone();
        let at = chance.below(other.blocked.len());
        other.blocked[at] = !other.blocked[at];
        let (ours, theirs) = (Plan::of_floor(&floor).lists(), Plan::of_floor(&other).lists());
        assert_eq!(matches_floor(&floor, &theirs), ours == theirs, "{floor:?} {other:?}");
        differing += usize::from(ours != theirs);
    }
    assert!(differing > 1_000, "{differing}");
}

/// A plan at each limit matches; beyond it, lists that are exactly the plan do not.
#[test]
fn plans_at_the_limits() {
    let cases = [
        (floors::stairs(2_048), true),
        (floors::stairs(2_049), false),
        (floors::pillar_columns(), true),
        (floors::pillars_at_the_limit(true), true),
        (floors::pillars_at_the_limit(false), false),
    ];
    for (floor, within) in cases {
        assert_eq!(matches_floor(&floor, &Plan::of_floor(&floor).lists()), within);
    }
}

/// A floor that is refused has no plan.
#[test]
fn no_plan_of_a_refused_floor() {
    let floor = Floor::drawn(&[".....", "..#..", "....."]);
    let (words, lists) = (floor.words(), Plan::of_floor(&floor).lists());
    let mut unused = words.clone();
    unused[2] -= 1 << 5;
    assert!(matches(5, 3, &words, &lists));
    assert!(!matches(5, 3, &unused, &lists));
    assert!(!matches(5, 3, &words[..2], &lists));
    assert!(!matches(5, 0, &words, &lists));
    assert!(!matches(0, 3, &words, &lists));
    assert!(!matches(usize::MAX, usize::MAX, &words, &lists));
}
