//! What the reader's test is made of, in the order in which a file is made and tried:
//!
//! - `file_faults`: faults 2 to 7, put into a file
//! - `wild`: damage whose answer only the model knows
//! - `cases`: which of these a case takes, and the lists that are lent
//! - `trial`: one call of the library beside one of the model
//! - `coverage`: which answers came up

pub mod cases;
pub mod coverage;
pub mod file_faults;
pub mod trial;
pub mod wild;
