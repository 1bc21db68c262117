//! The oracle: what each call must return and leave, made from the definitions and not from any algorithm of the
//! library. Where a definition speaks of all walks of a length, all of them are swept.
pub mod floor;
pub mod ground;
pub mod lengths;
pub mod listing;
pub mod plan;
pub mod trip;
