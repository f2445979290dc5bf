//! A writer of survey files for tests. It writes what it is told, right or wrong.

use super::layout::{check_words, BLOCK, CONTENT, PAIRS};
use super::Pair;

/// A survey file with these groups and links, each block sound in itself. The header says n and e
/// as given, whether or not they are the numbers of groups and links.
pub fn build(n: u32, e: u32, groups: &[Pair], links: &[Pair]) -> Vec<u8> {
    let mut file = Vec::new();
    add_block(&mut file, 1, &[(n, e)]);
    for part in groups.chunks(PAIRS) {
        add_block(&mut file, 2, part);
    }
    for part in links.chunks(PAIRS) {
        add_block(&mut file, 3, part);
    }
    mend(&mut file);
    file
}

/// Makes the check words of every whole block right again.
pub fn mend(file: &mut [u8]) {
    for block in file.chunks_exact_mut(BLOCK) {
        let (a, b) = check_words(block);
        block[4 * CONTENT..4 * CONTENT + 4].copy_from_slice(&a.to_le_bytes());
        block[4 * CONTENT + 4..].copy_from_slice(&b.to_le_bytes());
    }
}

/// Adds a block with the next number, this kind, and the pairs from word 2 on. Its check is left to
/// [`mend`].
fn add_block(file: &mut Vec<u8>, kind: u32, pairs: &[Pair]) {
    let start = file.len();
    let number = (start / BLOCK) as u32;
    let head = (number, kind);
    for &(first, second) in std::iter::once(&head).chain(pairs) {
        file.extend_from_slice(&first.to_le_bytes());
        file.extend_from_slice(&second.to_le_bytes());
    }
    file.resize(start + BLOCK, 0);
}
