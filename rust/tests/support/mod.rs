//! What the tests of the library against the model share:
//!
//! - `random`: numbers that are the same in each run
//! - `surveys`: surveys that are admitted, of all sizes
//! - `shapes`: surveys on which choosing is work
//! - `survey_faults`: faults 8 to 12, put into a survey
//! - `small`: every survey of few groups
//! - `lists`: the lists that a call lends
//! - `room`: memory with nothing readable before and behind it
//! - `lent`: slices lent from such rooms
//! - `packed`: a refusal as a number
//! - `coverage`: what came up
//! - `run`: many cases on all cores

// No test uses all of it.
#![allow(dead_code)]

pub mod coverage;
pub mod lent;
pub mod lists;
pub mod packed;
pub mod random;
pub mod room;
pub mod run;
pub mod shapes;
pub mod small;
pub mod survey_faults;
pub mod surveys;
