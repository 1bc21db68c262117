//! Independent programs for the same tasks, written as one would write them in Rust: tables of whole floors, vectors
//! that grow and the standard library's binary heap. None of them calls the library.
pub mod cells;
pub mod grid;
pub mod links;
pub mod survey;

/// What a walk of these many straight and diagonal steps weighs. Over all lengths of shortest walks on a floor these
/// whole numbers are ordered as the lengths are, so a rival compares one number where floats would go wrong.
pub const STRAIGHT: u32 = 80_782;
pub const DIAGONAL: u32 = 114_243;

/// The weight of the octile distance for two offsets.
pub fn octile(dx: u32, dy: u32) -> u32 {
    let (less, more) = if dx < dy { (dx, dy) } else { (dy, dx) };
    STRAIGHT * (more - less) + DIAGONAL * less
}

/// What a rival finds: straight and diagonal steps, if there is a walk, and how many it settled.
#[derive(Clone, Copy, PartialEq, Eq, Debug)]
pub struct Found {
    pub length: Option<(u32, u32)>,
    pub settled: u32,
}

/// The straight and diagonal steps of a list of cells, each next to the one before.
pub fn length_of(w: usize, route: &[u16]) -> (u32, u32) {
    let diagonal = |pair: &&[u16]| {
        let gap = usize::from(pair[0].abs_diff(pair[1]));
        gap != 1 && gap != w
    };
    let diagonals = route.windows(2).filter(diagonal).count();
    ((route.len() - 1 - diagonals) as u32, diagonals as u32)
}
