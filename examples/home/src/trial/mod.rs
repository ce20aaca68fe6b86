//! A trial of home and its lanes: made-up work by real processes, home killed at made-up moments, and what must be so at the end.

pub mod check;
pub mod drive;
pub mod places;
pub mod plan;
pub mod random;
pub mod run;
pub mod work;
