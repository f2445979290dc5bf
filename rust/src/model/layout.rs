//! Where the words of a survey file stand.

use super::survey::{MOST_GROUPS, MOST_LINKS};

/// The bytes of a block.
pub const BLOCK: usize = 512;
/// The words of content in a block; two words of check follow them.
pub const CONTENT: usize = 126;
/// The pairs that a block of groups or links has room for, from word 2 on.
pub const PAIRS: usize = 62;
/// The blocks of the largest file: the header, 3 of groups and 17 of links.
pub const MOST_BLOCKS: usize = 1 + blocks_for(MOST_GROUPS) + blocks_for(MOST_LINKS);

/// The word of 32 bits, low byte first, at place `w` of a block.
pub(super) fn word(block: &[u8], w: usize) -> u32 {
    let bytes = &block[4 * w..4 * w + 4];
    u32::from_le_bytes([bytes[0], bytes[1], bytes[2], bytes[3]])
}

/// The two check sums of a block, from 1 and from 0 on: each content word is added to the first,
/// and each time the first, as it has become, to the second.
pub fn check_words(block: &[u8]) -> (u32, u32) {
    let (mut a, mut b) = (1u32, 0u32);
    for w in 0..CONTENT {
        a = a.wrapping_add(word(block, w));
        b = b.wrapping_add(a);
    }
    (a, b)
}

/// How many blocks so many pairs fill: a new one is begun only when the one before is full.
pub(super) const fn blocks_for(pairs: usize) -> usize {
    (pairs + PAIRS - 1) / PAIRS
}

/// What block `b` of a file with n groups and e links should be: its kind, and how many words of it
/// are used.
pub(super) fn kind_and_used(b: usize, n: usize, e: usize) -> (u32, usize) {
    let first_link_block = 1 + blocks_for(n);
    if b == 0 {
        (1, 4)
    } else if b < first_link_block {
        (2, 2 + 2 * PAIRS.min(n - PAIRS * (b - 1)))
    } else {
        (3, 2 + 2 * PAIRS.min(e - PAIRS * (b - first_link_block)))
    }
}
