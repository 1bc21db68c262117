//! Inputs of the program: good ones on any floor, and such that are wrong in a few bytes.
use crate::chance::Chance;
use crate::oracle::floor::Floor;

/// Bytes that stand in inputs, or that people's tools put there.
const BYTES: &[u8] = b"\n\n  ..##0123456789\r\t+-,x\0\x7f\xff";

/// The lines up to the last row of the map.
pub fn head(floor: &Floor) -> Vec<u8> {
    format!("{} {}\n{}", floor.w, floor.h, floor.text()).into_bytes()
}

/// One end of a trip: mostly a free cell, else any, else just outside or far outside.
fn end(floor: &Floor, free: &[usize], chance: &mut Chance) -> (usize, usize) {
    match chance.below(24) {
        0 => (floor.w, chance.below(floor.h)),
        1 => (chance.below(floor.w), floor.h),
        2 => (chance.below(1_000), chance.below(1_000)),
        3..=5 => (chance.below(floor.w), chance.below(floor.h)),
        _ => {
            let cell = if free.is_empty() { 0 } else { chance.pick(free) };
            (cell % floor.w, cell / floor.w)
        }
    }
}

/// A good input with this many trips.
pub fn good(floor: &Floor, trips: usize, chance: &mut Chance) -> Vec<u8> {
    let free = floor.free_cells();
    let mut input = head(floor);
    for _ in 0..trips {
        let (sx, sy) = end(floor, &free, chance);
        let (gx, gy) = end(floor, &free, chance);
        input.extend(format!("{sx} {sy} {gx} {gy}\n").bytes());
    }
    input
}

/// A trip whose line has this many bytes, 8 to 16; it may lead outside.
fn trip_of(bytes: usize, chance: &mut Chance) -> String {
    let mut digits = [1; 4];
    for _ in 8..bytes {
        let short: Vec<usize> = (0..4).filter(|&i| digits[i] < 3).collect();
        digits[chance.pick(&short)] += 1;
    }
    let numbers = digits.map(|count| match count {
        1 => chance.below(10).to_string(),
        2 => chance.between(10, 99).to_string(),
        _ => chance.between(100, 999).to_string(),
    });
    numbers.join(" ") + "\n"
}

/// A good input whose last line ends with exactly this byte, which is well behind the map.
pub fn filled(floor: &Floor, bytes: usize, chance: &mut Chance) -> Vec<u8> {
    let mut input = head(floor);
    while input.len() < bytes {
        // What is left after this line is nothing, or enough for another.
        let next = match bytes - input.len() {
            left @ 8..=16 => left,
            17..=23 => 8,
            _ => chance.between(8, 16),
        };
        input.extend(trip_of(next, chance).bytes());
    }
    input
}

/// Where a line begins and where it ends, its newline included: the first line now and then, else any.
fn some_line(input: &[u8], chance: &mut Chance) -> (usize, usize) {
    let lines: Vec<&[u8]> = input.split_inclusive(|&b| b == b'\n').collect();
    if lines.is_empty() {
        return (0, 0);
    }
    let at = if chance.percent(20) { 0 } else { chance.below(lines.len()) };
    let from = lines[..at].iter().map(|line| line.len()).sum();
    (from, from + lines[at].len())
}

/// Alters an input in one place. It may still be a good one: another letter makes another map.
pub fn damage(input: &mut Vec<u8>, chance: &mut Chance) {
    let (from, to) = some_line(input, chance);
    let at = chance.between(from, to);
    let byte = chance.pick(BYTES);
    match chance.below(10) {
        0..=2 if at < input.len() => input[at] = byte,
        3 | 4 if at < input.len() => drop(input.remove(at)),
        5 => input.truncate(at),
        6 => drop(input.splice(from..to, [])),
        7 => drop(input.splice(to..to, input[from..to].to_vec())),
        8 => {
            // A number with more digits, with a zero before it or without any.
            let digits = chance.pick(&[&b"0"[..], b"1", b"00", b"100", b"1000", b"99999999999999999999"]);
            drop(input.splice(at..at, digits.iter().copied()))
        }
        _ => input.insert(at, byte),
    }
}
