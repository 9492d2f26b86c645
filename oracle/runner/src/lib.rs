//! Cases, and the comparisons that the program `oracle` and the measurements in bench/ share.
pub mod aggregates;
pub mod cases;
pub mod compare;
pub mod damage;
pub mod dealing;
pub mod exports;
pub mod known;
pub mod library;
pub mod overlaps;
pub mod random;
pub mod rust;
pub mod sample;
pub mod tally;
