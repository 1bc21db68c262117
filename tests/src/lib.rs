//! The test harness of azebimoru: the face of the library, an oracle made from the definitions, the floors on which
//! the two are compared, and lists that show when something outside them was written.
//!
//! Each call has a test file of its own, and so has the program floorwalk; a test binary asks the library only for the
//! calls it makes. The folder of the static library is AZEBIMORU_LIB, the program is AZEBIMORU_FLOORWALK;
//! AZEBIMORU_RUNNER, split at spaces, starts the program where it cannot start by itself, and where AZEBIMORU_EMULATED
//! is set the program is run fewer times, and again where it does not end.
pub mod chance;
pub mod damage;
pub mod face;
pub mod floors;
pub mod inputs;
pub mod lend;
pub mod oracle;
pub mod program;
