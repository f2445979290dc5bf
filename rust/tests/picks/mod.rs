//! What the chooser's test is made of, in the order in which a survey is made and tried:
//!
//! - `cases`: which survey is tried, its faults, and the lists that are lent
//! - `trial`: one call of the library beside one of the model
//! - `coverage`: which answers came up
//!
//! And beside it `few`: every survey of few groups.

pub mod cases;
pub mod coverage;
pub mod few;
pub mod trial;
