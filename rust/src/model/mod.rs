//! The library's functions once more, in plain Rust, for tests to compare with and for speed to be
//! measured against.
//!
//! Everything here is written from `docs/SPECIFICATION.md` alone. It uses nothing of this crate's
//! other modules, nothing of the proved library, and other methods where there is a choice, so that
//! a mistake on one side has no reason to be made on the other: a cycle is found by a search in
//! depth, not by taking groups away; the heaviest closed set by augmenting paths, or for small
//! surveys by looking at every set, not by waves; the largest settled set by passes over the links,
//! not by a queue.

mod answer;
mod checker;
mod chooser;
mod cycle;
mod every_set;
mod layout;
mod lists;
mod paths;
mod reader;
mod sets;
mod survey;
mod writer;

pub use answer::{at_block, at_group, at_link, chosen, nothing, read_all, ACCEPTED};
pub use checker::{check, MOST_AMOUNT};
pub use chooser::{choose, choose_by_paths, Pick};
pub use every_set::{choose_by_every_set, MOST_TO_TRY};
pub use layout::{check_words, BLOCK, CONTENT, MOST_BLOCKS, PAIRS};
pub use paths::{heaviest, Heaviest};
pub use reader::read;
pub use sets::{open_link, sums, weights, Set};
pub use survey::{MOST_COUNT, MOST_GROUPS, MOST_LINKS};
pub use writer::{build, mend};

/// Two words that stand together: dead and live of a group, or the two ends of a link.
pub type Pair = (u32, u32);
