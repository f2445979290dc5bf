//! What the checker's test is made of, in the order in which a claim is made and tried:
//!
//! - `sheet`: a survey with its pick, on which claims are made
//! - `near`: claims that are right, or nearly
//! - `far`: claims of other sets and amounts, and noise
//! - `claim_faults`: faults 13 and 14, put into a claim
//! - `cases`: every way to make a claim, further faults, and the lists that are lent
//! - `trial`: one call of the library beside one of the model
//! - `coverage`: which answers came up
//!
//! And beside it `few`: every claim on every survey of few groups.

pub mod cases;
pub mod claim_faults;
pub mod coverage;
pub mod far;
pub mod few;
pub mod near;
pub mod sheet;
pub mod trial;
