//! Times that are only ever divided by one another. What is compared runs in turn, round after round.
use std::mem::ManuallyDrop;
use std::ptr::read_volatile;
use std::time::Instant;

/// How long a task takes.
pub fn time(task: impl FnOnce()) -> f64 {
    let begun = Instant::now();
    task();
    begun.elapsed().as_secs_f64()
}

/// The least time of a task so far. The task is the same each time, and what else the machine does only makes it longer.
pub fn lower<T>(least: &mut f64, task: impl FnOnce() -> T) {
    *least = least.min(time(|| drop(veiled(task()))));
}

/// A value as it is, of which the compiler knows nothing any more. The standard library's `black_box` is younger than the
/// compiler that the tests make do with.
fn veiled<T>(value: T) -> T {
    let value = ManuallyDrop::new(value);
    // The value is read once, and never used or dropped where it was.
    ManuallyDrop::into_inner(unsafe { read_volatile(&value) })
}

/// Does a thing for each entry of a list. The compiler may not leave it out.
pub fn each<A: Copy, T>(list: &[A], mut task: impl FnMut(A) -> T) {
    for &entry in list {
        veiled(task(veiled(entry)));
    }
}

/// The middle of a list of numbers. A round in which the machine was busy elsewhere does not show in it.
pub fn median(values: &[f64]) -> f64 {
    let mut sorted = values.to_vec();
    sorted.sort_by(f64::total_cmp);
    let half = sorted.len() / 2;
    if sorted.len() % 2 == 1 {
        sorted[half]
    } else {
        (sorted[half - 1] + sorted[half]) / 2.0
    }
}
