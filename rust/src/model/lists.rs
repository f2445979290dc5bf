//! The entries of lent lists.

use super::survey::{MOST_GROUPS, MOST_LINKS};
use super::Pair;

/// Fault 1: whether one of the four lists of a claim's call has too few whole entries.
pub(super) fn too_short(groups: &[u8], links: &[u8], marks: &[u8], amounts: &[u8]) -> bool {
    groups.len() / 8 < MOST_GROUPS
        || links.len() / 8 < MOST_LINKS
        || marks.len() < MOST_GROUPS
        || amounts.len() / 8 < MOST_LINKS
}

/// The first `count` pairs of a list.
pub(super) fn pairs(list: &[u8], count: usize) -> Vec<Pair> {
    // An entry of 8 bytes, low byte first, is its first word and 2^32 times its second.
    let pair = |entry| (entry as u32, (entry >> 32) as u32);
    amounts(list, count).into_iter().map(pair).collect()
}

/// The first `count` amounts of a list.
pub(super) fn amounts(list: &[u8], count: usize) -> Vec<u64> {
    let amount = |entry: &[u8]| {
        let places = entry.iter().rev();
        places.fold(0, |high, &byte| high << 8 | u64::from(byte))
    };
    list.chunks_exact(8).take(count).map(amount).collect()
}

/// Writes amounts into the first places of a list, and leaves those after them.
pub(super) fn write_amounts(amounts: &[u64], list: &mut [u8]) {
    for (amount, entry) in amounts.iter().zip(list.chunks_exact_mut(8)) {
        entry.copy_from_slice(&amount.to_le_bytes());
    }
}
