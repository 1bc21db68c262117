//! The comparing call against the exact order of the oracle.
use azebimoru_tests::chance::Chance;
use azebimoru_tests::face;
use azebimoru_tests::oracle::lengths::Length;
use std::cmp::Ordering;

type Pair = (u16, u16);

/// The ends of the range, powers of two, and the convergents p/q of √2, where p² and 2q² differ by 1 only.
const EDGES: [u16; 31] = [
    0, 1, 2, 3, 5, 7, 12, 17, 29, 41, 70, 99, 169, 239, 408, 577, 985, 1393, 2378, 3363, 5741, 8119, 13860,
    19601, 32767, 32768, 33461, 47321, 65533, 65534, 65535,
];

fn sign(order: Ordering) -> i32 {
    match order {
        Ordering::Less => -1,
        Ordering::Equal => 0,
        Ordering::Greater => 1,
    }
}

fn length((a, b): Pair) -> Length {
    Length { straight: u32::from(a), diagonal: u32::from(b) }
}

/// One comparison, both ways round.
fn check(x: Pair, y: Pair) {
    let expected = sign(length(x).cmp(&length(y)));
    assert_eq!(face::compare(x, y), expected, "{x:?} against {y:?}");
    assert_eq!(face::compare(y, x), -expected, "{y:?} against {x:?}");
}

fn any(chance: &mut Chance) -> Pair {
    (chance.word() as u16, chance.word() as u16)
}

#[test]
fn sums_of_the_document() {
    assert_eq!(face::compare((7, 0), (0, 5)), -1);
    assert_eq!(face::compare((17, 0), (0, 12)), 1);
    assert_eq!(face::compare((239, 0), (0, 169)), -1);
}

#[test]
fn all_edge_values() {
    let pairs: Vec<Pair> = EDGES.iter().flat_map(|&a| EDGES.iter().map(move |&b| (a, b))).collect();
    for (i, &x) in pairs.iter().enumerate() {
        // Each two once: the check itself goes both ways.
        pairs[i..].iter().for_each(|&y| check(x, y));
    }
}

#[test]
fn a_million_random_pairs() {
    let mut chance = Chance::new(3);
    for _ in 0..1_000_000 {
        check(any(&mut chance), any(&mut chance));
    }
}

/// A pair and one that trades q diagonal steps for the whole number of straight ones next to q√2, or one beside it.
#[test]
fn pairs_of_nearly_equal_worth() {
    let mut chance = Chance::new(4);
    let mut checked = 0;
    for _ in 0..1_000_000 {
        let (a, b) = any(&mut chance);
        let q = chance.below(46_340);
        // The square root of a number below 2^32 is exact enough in floating point for a whole number near it.
        let p = ((2 * q * q) as f64).sqrt() as usize + chance.below(3);
        let traded = usize::from(a).checked_sub(p).map(|left| (left, usize::from(b) + q));
        if let Some((left, right)) = traded.filter(|&(_, right)| right < 65_536) {
            check((a, b), (left as u16, right as u16));
            checked += 1;
        }
    }
    assert!(checked > 50_000, "{checked}");
}

/// A pair is worth the same as itself, and as no pair one step away from it.
#[test]
fn equal_only_to_itself() {
    let mut chance = Chance::new(5);
    for _ in 0..100_000 {
        let (a, b) = any(&mut chance);
        assert_eq!(face::compare((a, b), (a, b)), 0);
        check((a, b), (a.wrapping_add(1), b));
        check((a, b), (a, b.wrapping_sub(1)));
        check((a, b), (b, a));
    }
}
