//! How fast the library is beside independent programs in Rust, in one process and one run. It prints ratios and
//! judges nothing: README.md says what they mean and what is aimed at.
#[allow(dead_code)]
#[path = "../../tests/src/chance.rs"]
mod chance;
mod clock;
#[allow(dead_code)]
#[path = "../../tests/src/face.rs"]
mod face;
#[allow(dead_code)]
#[path = "../../tests/src/oracle/floor.rs"]
mod floor;
#[allow(dead_code)]
#[path = "../../tests/src/floors.rs"]
mod floors;
mod lent;
mod plans;
mod queries;
mod rivals;

/// The floors of the tests name theirs by this path.
mod oracle {
    pub(crate) use crate::floor;
}

fn main() {
    if std::env::var_os("AZEBIMORU_EMULATED").is_some() {
        println!("All of it runs in an emulator: the ratios are those of emulated code, and no aim is judged by them.\n");
    }
    match std::env::args().nth(1).as_deref() {
        None => {
            plans::report();
            queries::report();
        }
        Some("plans") => plans::report(),
        Some("queries") => queries::report(),
        Some(other) => {
            eprintln!("usage: azebimoru-bench [plans|queries], not {other}");
            std::process::exit(2);
        }
    }
}
