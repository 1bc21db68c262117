//! Lengths a + b√2, compared exactly.
use std::cmp::Ordering;

#[derive(Clone, Copy, PartialEq, Eq, Debug)]
pub struct Length {
    pub straight: u32,
    pub diagonal: u32,
}

pub const NOTHING: Length = Length { straight: 0, diagonal: 0 };

impl Length {
    pub fn plus(self, other: Length) -> Length {
        Length { straight: self.straight + other.straight, diagonal: self.diagonal + other.diagonal }
    }

    /// The figure printed for people.
    pub fn figure(self) -> u64 {
        10_000 * u64::from(self.straight) + 14_142 * u64::from(self.diagonal)
    }
}

/// The length of one step in a direction, of which the first four are straight.
pub fn step(dir: usize) -> Length {
    Length { straight: u32::from(dir < 4), diagonal: u32::from(dir > 3) }
}

/// The octile distance of two cells that are dx and dy apart.
pub fn octile(dx: usize, dy: usize) -> Length {
    let diagonal = dx.min(dy) as u32;
    Length { straight: dx.max(dy) as u32 - diagonal, diagonal }
}

/// n² with the sign of n: it rises with n over all whole numbers, and also over their multiples of √2.
fn signed_square(n: i128) -> i128 {
    n * n.abs()
}

impl Ord for Length {
    /// p + q√2 has the sign of p|p| + 2q|q|: p exceeds -q√2 exactly when its signed square does.
    fn cmp(&self, other: &Length) -> Ordering {
        let p = i128::from(self.straight) - i128::from(other.straight);
        let q = i128::from(self.diagonal) - i128::from(other.diagonal);
        (signed_square(p) + 2 * signed_square(q)).cmp(&0)
    }
}

impl PartialOrd for Length {
    fn partial_cmp(&self, other: &Length) -> Option<Ordering> {
        Some(self.cmp(other))
    }
}

#[cfg(test)]
mod tests {
    use super::*;

    /// Small values against bounds of √2 that are far closer than any two lengths here.
    #[test]
    fn order_of_small_lengths() {
        let all: Vec<Length> = (0..24 * 24).map(|i| Length { straight: i / 24, diagonal: i % 24 }).collect();
        for x in &all {
            for y in &all {
                let worth =
                    |l: &Length| u64::from(l.straight) * 1_000_000 + u64::from(l.diagonal) * 1_414_213;
                assert_eq!(x.cmp(y), worth(x).cmp(&worth(y)), "{x:?} {y:?}");
            }
        }
    }

    #[test]
    fn figures_of_the_document() {
        assert_eq!(Length { straight: 2, diagonal: 2 }.figure(), 48_284);
        assert_eq!(Length { straight: 0, diagonal: 169 }.figure(), 2_389_998);
    }
}
