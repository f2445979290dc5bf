//! Damage whose answer only the model knows: blocks moved about, bits and words overwritten, noise.

use super::file_faults::{set_word, word};
use crate::support::random::Random;
use crate::support::surveys::admitted;
use corkgully::model::{
    build, mend, Pair, BLOCK, CONTENT, MOST_BLOCKS, MOST_GROUPS, MOST_LINKS, PAIRS,
};

pub fn file(random: &mut Random) -> Vec<u8> {
    match random.below(8) {
        0 => noise(random),
        1 | 2 => any_links(random),
        _ => {
            let mut file = admitted(random).file();
            for _ in 0..random.one_of(&[1, 1, 1, 2, 4]) {
                damage(&mut file, random);
            }
            file
        }
    }
}

fn damage(file: &mut Vec<u8>, random: &mut Random) {
    let blocks = file.len() / BLOCK;
    if blocks == 0 {
        return;
    }
    let (b, c) = (random.place(blocks), random.place(blocks));
    match random.below(12) {
        0 => swap_blocks(file, b, c),
        1 => file.copy_within(BLOCK * b..BLOCK * (b + 1), BLOCK * c),
        2 => {
            let again = file[BLOCK * b..BLOCK * (b + 1)].to_vec();
            insert(file, c, &again);
        }
        3 => drop(file.drain(BLOCK * b..BLOCK * (b + 1))),
        4 => added_block(file, random),
        5 => file.truncate(BLOCK * random.below(blocks + 1)),
        6 => flip(file, random),
        7 => {
            flip(file, random);
            mend(file);
        }
        8 | 9 => {
            let any = random.below(CONTENT);
            let w = random.one_of(&[0, 1, 2, 3, 4, 5, 124, 125, any]);
            let value = any_word(word(file, b, w), random);
            set_word(file, b, w, value);
            mend(file);
        }
        10 => {
            header(file, random);
            mend(file);
        }
        _ => mend(file),
    }
}

fn swap_blocks(file: &mut [u8], b: usize, c: usize) {
    for k in 0..BLOCK {
        file.swap(BLOCK * b + k, BLOCK * c + k);
    }
}

/// Puts a block before block `at`.
fn insert(file: &mut Vec<u8>, at: usize, block: &[u8]) {
    let behind = file.split_off(BLOCK * at);
    file.extend_from_slice(block);
    file.extend_from_slice(&behind);
}

/// Adds a sound block at the end: empty, noise, or such as could stand there.
fn added_block(file: &mut Vec<u8>, random: &mut Random) {
    let mut block = vec![0; BLOCK];
    let way = random.below(3);
    if way == 1 {
        random.fill(&mut block);
    }
    if way == 2 {
        set_word(&mut block, 0, 0, (file.len() / BLOCK) as u32);
        set_word(&mut block, 0, 1, random.one_of(&[2, 3]));
    }
    mend(&mut block);
    file.extend_from_slice(&block);
}

fn flip(file: &mut [u8], random: &mut Random) {
    let at = random.below(file.len());
    file[at] ^= 1 << random.below(8);
}

/// Another n or e: near, at the edges, or the pair changed so that the number of blocks still fits.
fn header(file: &mut [u8], random: &mut Random) {
    let (n, e) = (word(file, 0, 2), word(file, 0, 3));
    let (most_n, most_e) = (MOST_GROUPS as u32, MOST_LINKS as u32);
    let a_block = PAIRS as u32;
    let any_n = random.one_of(&[0, 1, n.wrapping_sub(1), n + 1, most_n, most_n + 1, u32::MAX]);
    let any_e = random.one_of(&[0, 1, e.wrapping_sub(1), e + 1, most_e, most_e + 1, u32::MAX]);
    match random.below(4) {
        0 => set_word(file, 0, 2, any_n),
        1 => set_word(file, 0, 3, any_e),
        2 => {
            set_word(file, 0, 2, n.wrapping_add(a_block));
            set_word(file, 0, 3, e.wrapping_sub(a_block));
        }
        _ => {
            set_word(file, 0, 2, n.wrapping_sub(a_block));
            set_word(file, 0, 3, e.wrapping_add(a_block));
        }
    }
}

fn any_word(right: u32, random: &mut Random) -> u32 {
    match random.below(3) {
        0 => random.below(200) as u32,
        1 => random.below(2_000_000) as u32,
        _ => random.wrong_word(right),
    }
}

/// Noise of any number of blocks: raw, with right checks, with right numbers, kinds and header, or
/// in the pairs alone.
fn noise(random: &mut Random) -> Vec<u8> {
    let draft = admitted(random);
    let (n, e) = (draft.groups.len(), draft.links.len());
    let mut file = draft.file();
    let right = file.clone();
    let way = random.below(5);
    match way {
        0 | 1 => {
            file.resize(BLOCK * random.between(1, MOST_BLOCKS + 1), 0);
            random.fill(&mut file);
        }
        2 | 3 => {
            random.fill(&mut file);
            for b in 0..file.len() / BLOCK {
                for w in 0..if b == 0 { 4 } else { 2 } {
                    set_word(&mut file, b, w, word(&right, b, w));
                }
            }
        }
        // Small words: counts in their range, and links that are now and then.
        _ => {
            file = build(
                n as u32,
                e as u32,
                &pairs(n, 200, random),
                &pairs(e, 200, random),
            )
        }
    }
    if way > 0 {
        mend(&mut file);
    }
    file
}

/// So many pairs of words below a limit.
fn pairs(count: usize, limit: usize, random: &mut Random) -> Vec<Pair> {
    let mut word = || random.below(limit) as u32;
    (0..count).map(|_| (word(), word())).collect()
}

/// A survey of few groups with any links, ascending, so that a cycle is there about as often as
/// not.
fn any_links(random: &mut Random) -> Vec<u8> {
    let n = random.between(1, 12);
    let count = random.below(2 * n);
    let mut links = pairs(count, n, random);
    links.retain(|link| link.0 != link.1);
    links.sort_unstable();
    links.dedup();
    build(n as u32, links.len() as u32, &pairs(n, 3, random), &links)
}
