//! Survey and matches beside an independent survey.
use crate::chance::Chance;
use crate::clock::{self, median};
use crate::floors::{self, Kind};
use crate::lent::{Lent, Room};
use crate::rivals::survey::Surveyor;

const KINDS: [(&str, Kind); 7] = [
    ("rooms of side 16", Kind::Rooms(16)),
    ("rooms of side 7", Kind::Rooms(7)),
    ("mazes", Kind::Maze),
    ("10 percent blocked", Kind::Dense(10)),
    ("20 percent blocked", Kind::Dense(20)),
    ("30 percent blocked", Kind::Dense(30)),
    ("40 percent blocked", Kind::Dense(40)),
];

/// Floors of each kind, and how often each is surveyed.
const FLOORS: usize = 3;
const ROUNDS: usize = 25;

/// The largest square floor of a kind that the survey accepts, from side 128 down by 4.
fn largest(kind: Kind, chance: &mut Chance) -> Lent {
    let sides = (4..=128).rev().step_by(4);
    let mut floors = sides.map(|side| floors::make(kind, side, side, chance));
    floors.find_map(|floor| Lent::of(&floor)).expect("a small floor is accepted")
}

/// The times of survey and of matches, each divided by that of the independent survey.
fn race(lent: &Lent) -> [f64; 2] {
    let mut rival = Surveyor::default();
    rival.survey(lent.w, lent.h, &lent.words);
    assert!(rival.clearances == lent.clearances && rival.corners == lent.corners, "another plan");
    assert!(rival.starts == lent.starts && rival.neighbours == lent.neighbours, "another plan");
    assert!(lent.matches(), "not the plan");
    let mut room = Room::new();
    let (mut surveys, mut checks) = (Vec::new(), Vec::new());
    for _ in 0..ROUNDS {
        let independent =
            clock::time(|| clock::each(&[(); 8], |_| rival.survey(lent.w, lent.h, &lent.words)));
        let survey = clock::time(|| clock::each(&[lent; 2], |lent| room.survey(lent.floor())));
        let check = clock::time(|| clock::each(&[lent; 2], |lent| lent.matches()));
        surveys.push(survey / 2.0 / (independent / 8.0));
        checks.push(check / 2.0 / (independent / 8.0));
    }
    [median(&surveys), median(&checks)]
}

/// The middle one of several floors' ratios, and the greatest.
fn told(ratios: &[f64]) -> String {
    format!("{:.2} (most {:.2})", median(ratios), ratios.iter().copied().fold(0.0, f64::max))
}

pub fn report() {
    println!("Survey and matches, each as a multiple of an independent survey (aim: at most 2.0)");
    println!("{:20} {:>11}   {:18} {:18}", "floors", "sides", "survey", "matches");
    let mut chance = Chance::new(1);
    for (name, kind) in KINDS {
        let floors: Vec<Lent> = (0..FLOORS).map(|_| largest(kind, &mut chance)).collect();
        let ratios: Vec<[f64; 2]> = floors.iter().map(race).collect();
        let sides: Vec<String> = floors.iter().map(|lent| lent.w.to_string()).collect();
        let of = |task: usize| told(&ratios.iter().map(|both| both[task]).collect::<Vec<f64>>());
        println!("{name:20} {:>11}   {:18} {:18}", sides.join(" "), of(0), of(1));
    }
    println!();
}
