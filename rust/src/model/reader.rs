//! The reader of survey files, fault by fault in the order of the table of refusals.

use super::answer::{at_block, nothing, read_all};
use super::layout::{
    blocks_for, check_words, kind_and_used, word, BLOCK, CONTENT, MOST_BLOCKS, PAIRS,
};
use super::survey::{out_of_range, survey_fault, MOST_GROUPS, MOST_LINKS};
use super::Pair;

/// Reads a survey file into lent lists, and answers as the boundary does.
pub fn read(file: &[u8], groups: &mut [u8], links: &mut [u8]) -> u64 {
    if groups.len() / 8 < MOST_GROUPS || links.len() / 8 < MOST_LINKS {
        return nothing(1);
    }
    match survey_in(file) {
        Err(refusal) => refusal,
        Ok((found_groups, found_links)) => {
            write_pairs(&found_groups, groups);
            write_pairs(&found_links, links);
            read_all(found_groups.len(), found_links.len())
        }
    }
}

/// The groups and links of a file, or its refusal.
fn survey_in(file: &[u8]) -> Result<(Vec<Pair>, Vec<Pair>), u64> {
    if file.is_empty() || file.len() % BLOCK != 0 || file.len() > MOST_BLOCKS * BLOCK {
        return Err(nothing(2));
    }
    let blocks: Vec<&[u8]> = file.chunks(BLOCK).collect();

    let disagrees =
        |block: &&[u8]| check_words(block) != (word(block, CONTENT), word(block, CONTENT + 1));
    if let Some(b) = blocks.iter().position(disagrees) {
        return Err(at_block(3, b));
    }
    if word(blocks[0], 0) != 0 || word(blocks[0], 1) != 1 {
        return Err(at_block(4, 0));
    }

    let (n, e) = (word(blocks[0], 2), word(blocks[0], 3));
    if out_of_range(n.into(), e.into()) {
        return Err(nothing(5));
    }
    let (n, e) = (n as usize, e as usize);
    if blocks.len() != 1 + blocks_for(n) + blocks_for(e) {
        return Err(nothing(6));
    }
    for (b, block) in blocks.iter().enumerate() {
        let (kind, _) = kind_and_used(b, n, e);
        if word(block, 0) != b as u32 || word(block, 1) != kind {
            return Err(at_block(6, b));
        }
    }
    for (b, block) in blocks.iter().enumerate() {
        let (_, used) = kind_and_used(b, n, e);
        if (used..CONTENT).any(|w| word(block, w) != 0) {
            return Err(at_block(7, b));
        }
    }

    let (group_blocks, link_blocks) = blocks[1..].split_at(blocks_for(n));
    let groups = read_pairs(group_blocks, n);
    let links = read_pairs(link_blocks, e);
    match survey_fault(&groups, &links) {
        Some(refusal) => Err(refusal),
        None => Ok((groups, links)),
    }
}

/// The first `count` pairs of blocks of one kind.
fn read_pairs(blocks: &[&[u8]], count: usize) -> Vec<Pair> {
    let mut pairs = Vec::with_capacity(count);
    for block in blocks {
        for k in 0..PAIRS.min(count - pairs.len()) {
            pairs.push((word(block, 2 + 2 * k), word(block, 3 + 2 * k)));
        }
    }
    pairs
}

/// Writes pairs into the first places of a list, and leaves those after them.
fn write_pairs(pairs: &[Pair], list: &mut [u8]) {
    for (&(first, second), entry) in pairs.iter().zip(list.chunks_exact_mut(8)) {
        entry[..4].copy_from_slice(&first.to_le_bytes());
        entry[4..].copy_from_slice(&second.to_le_bytes());
    }
}
