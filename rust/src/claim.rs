//! A claim in memory, and its marks and amounts as the bytes that cross the boundary.

use crate::survey::{padded, ENTRY, MOST_GROUPS, MOST_LINKS};

/// That a set of groups is the pick of a survey, with the amounts that show it.
#[derive(Clone, Debug, PartialEq, Eq, Hash)]
pub struct Claim {
    /// For each group, whether it is in the set.
    pub marks: Vec<bool>,
    /// For each link its amount, 0 to 20,000,000,000,000,000.
    pub amounts: Vec<u64>,
}

impl Claim {
    /// The claim that the bytes of its two lists say. A mark is 0 or 1.
    pub(crate) fn from_lists(marks: &[u8], amounts: &[u8]) -> Claim {
        let amount = |entry: &[u8]| {
            let mut bytes = [0; ENTRY];
            bytes.copy_from_slice(entry);
            u64::from_le_bytes(bytes)
        };
        Claim {
            marks: marks.iter().map(|&mark| mark == 1).collect(),
            amounts: amounts.chunks_exact(ENTRY).map(amount).collect(),
        }
    }

    /// The bytes of the marks and of the amounts, as many as a lent list must have: a mark or an
    /// amount that is missing becomes 0.
    pub(crate) fn lists(&self) -> (Vec<u8>, Vec<u8>) {
        let marks = self.marks.iter().map(|&mark| u8::from(mark));
        let amounts = self.amounts.iter().flat_map(|amount| amount.to_le_bytes());
        (
            padded(marks, MOST_GROUPS),
            padded(amounts, ENTRY * MOST_LINKS),
        )
    }
}
