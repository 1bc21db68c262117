//! The C face of the library and safe wrappers of it. Every wrapper is inlined into its caller, so that a test binary
//! asks the archive only for the calls it makes: calls can be added to the library one by one.

#[repr(C)]
struct Surveyed {
    code: u32,
    free: u32,
    corners: u32,
    arcs: u32,
}

#[repr(C)]
struct Answer {
    code: u32,
    straight: u32,
    diagonal: u32,
    cells: u32,
    effort: u32,
}

extern "C" {
    fn azebimoru_compare(a: u16, b: u16, c: u16, d: u16) -> i32;

    fn azebimoru_survey(
        w: usize,
        h: usize,
        words: *const u64,
        words_len: usize,
        clearances: *mut u8,
        clearances_len: usize,
        corners: *mut u16,
        corners_len: usize,
        starts: *mut u16,
        starts_len: usize,
        neighbours: *mut u16,
        neighbours_len: usize,
    ) -> Surveyed;

    fn azebimoru_matches(
        w: usize,
        h: usize,
        words: *const u64,
        words_len: usize,
        clearances: *const u8,
        clearances_len: usize,
        corners: *const u16,
        corners_len: usize,
        starts: *const u16,
        starts_len: usize,
        neighbours: *const u16,
        neighbours_len: usize,
    ) -> bool;

    fn azebimoru_query(
        w: usize,
        h: usize,
        words: *const u64,
        words_len: usize,
        clearances: *const u8,
        clearances_len: usize,
        corners: *const u16,
        corners_len: usize,
        starts: *const u16,
        starts_len: usize,
        neighbours: *const u16,
        neighbours_len: usize,
        sx: usize,
        sy: usize,
        gx: usize,
        gy: usize,
        route: *mut u16,
        route_len: usize,
        work: *mut u32,
        work_len: usize,
    ) -> Answer;
}

/// A floor as it is lent.
#[derive(Clone, Copy)]
pub struct Words<'a> {
    pub w: usize,
    pub h: usize,
    pub words: &'a [u64],
}

/// The four lists of a plan, to be read.
#[derive(Clone, Copy)]
pub struct Plan<'a> {
    pub clearances: &'a [u8],
    pub corners: &'a [u16],
    pub starts: &'a [u16],
    pub neighbours: &'a [u16],
}

/// The four lists of a plan, to be written.
pub struct PlanRoom<'a> {
    pub clearances: &'a mut [u8],
    pub corners: &'a mut [u16],
    pub starts: &'a mut [u16],
    pub neighbours: &'a mut [u16],
}

/// A start and a goal.
#[derive(Clone, Copy, PartialEq, Eq, Debug)]
pub struct Ends {
    pub sx: usize,
    pub sy: usize,
    pub gx: usize,
    pub gy: usize,
}

#[inline]
pub fn compare(x: (u16, u16), y: (u16, u16)) -> i32 {
    // Only numbers are passed.
    unsafe { azebimoru_compare(x.0, x.1, y.0, y.1) }
}

/// Code, free cells, K, M.
#[inline]
pub fn survey(floor: Words, room: PlanRoom) -> [u32; 4] {
    // Every pointer goes with the length of its own slice, and no two of the written ones overlap.
    let s = unsafe {
        azebimoru_survey(
            floor.w,
            floor.h,
            floor.words.as_ptr(),
            floor.words.len(),
            room.clearances.as_mut_ptr(),
            room.clearances.len(),
            room.corners.as_mut_ptr(),
            room.corners.len(),
            room.starts.as_mut_ptr(),
            room.starts.len(),
            room.neighbours.as_mut_ptr(),
            room.neighbours.len(),
        )
    };
    [s.code, s.free, s.corners, s.arcs]
}

#[inline]
pub fn matches(floor: Words, plan: Plan) -> bool {
    // Every pointer goes with the length of its own slice; the call only reads.
    unsafe {
        azebimoru_matches(
            floor.w,
            floor.h,
            floor.words.as_ptr(),
            floor.words.len(),
            plan.clearances.as_ptr(),
            plan.clearances.len(),
            plan.corners.as_ptr(),
            plan.corners.len(),
            plan.starts.as_ptr(),
            plan.starts.len(),
            plan.neighbours.as_ptr(),
            plan.neighbours.len(),
        )
    }
}

/// Code, straight steps, diagonal steps, cells, effort.
#[inline]
pub fn query(floor: Words, plan: Plan, ends: Ends, route: &mut [u16], work: &mut [u32]) -> [u32; 5] {
    // Every pointer goes with the length of its own slice, and no two of the written ones overlap.
    let a = unsafe {
        azebimoru_query(
            floor.w,
            floor.h,
            floor.words.as_ptr(),
            floor.words.len(),
            plan.clearances.as_ptr(),
            plan.clearances.len(),
            plan.corners.as_ptr(),
            plan.corners.len(),
            plan.starts.as_ptr(),
            plan.starts.len(),
            plan.neighbours.as_ptr(),
            plan.neighbours.len(),
            ends.sx,
            ends.sy,
            ends.gx,
            ends.gy,
            route.as_mut_ptr(),
            route.len(),
            work.as_mut_ptr(),
            work.len(),
        )
    };
    [a.code, a.straight, a.diagonal, a.cells, a.effort]
}
