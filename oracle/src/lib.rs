//! A second program by other hands for document 01, "The shared book of a
//! grader line", and Wishes 1 to 4, and for the C header's single calls: clear rather than fast, to
//! be held against `linebook` and the library.

pub mod answer;
pub mod answer_bytes;
pub mod cases;
pub mod cover;
pub mod cover_calls;
pub mod demand3;
pub mod ends;
pub mod event;
pub mod group;
pub mod line;
pub mod make;
pub mod random;
pub mod refuse;
pub mod report;
pub mod rules;
pub mod sheet;
pub mod single;
pub mod state;
pub mod steps;
pub mod stream;
