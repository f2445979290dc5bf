//! Faults 2 to 7, put into a file. Each gives the answer that it calls for where no lower fault is
//! present.
//!
//! They are put in from the highest number down, and those above 3 leave every check right, so that
//! the fault itself is reached.

use crate::support::random::Random;
use crate::support::surveys::Draft;
use corkgully::model::{
    at_block, mend, nothing, BLOCK, CONTENT, MOST_BLOCKS, MOST_GROUPS, MOST_LINKS, PAIRS,
};

pub fn put(number: u64, file: &mut Vec<u8>, draft: &Draft, random: &mut Random) -> u64 {
    match number {
        2 => wrong_length(file, random),
        3 => wrong_check(file, random),
        4 => wrong_header(file, random),
        5 => out_of_range(file, random),
        6 => wrong_block(file, draft, random),
        7 => unused_word(file, draft, random),
        _ => unreachable!("{} is no fault of a file", number),
    }
}

pub fn word(file: &[u8], block: usize, w: usize) -> u32 {
    let at = BLOCK * block + 4 * w;
    u32::from_le_bytes([file[at], file[at + 1], file[at + 2], file[at + 3]])
}

pub fn set_word(file: &mut [u8], block: usize, w: usize, value: u32) {
    let at = BLOCK * block + 4 * w;
    file[at..at + 4].copy_from_slice(&value.to_le_bytes());
}

fn blocks_for(pairs: usize) -> usize {
    pairs / PAIRS + usize::from(pairs % PAIRS > 0)
}

fn wrong_length(file: &mut Vec<u8>, random: &mut Random) -> u64 {
    let length = file.len();
    let odd = random.one_of(&[1, 2, 4, 8, 255, 256, 504, 508, 510, 511]);
    match random.below(6) {
        0 => file.clear(),
        1 => file.truncate(odd),
        2 => file.truncate(length - odd),
        3 => file.truncate(random.below(length / BLOCK) * BLOCK + odd),
        4 => file.resize(length + random.below(4) * BLOCK + odd, 0),
        _ => {
            // Whole blocks, each sound, but more than the largest file has.
            let more = MOST_BLOCKS + random.one_of(&[1, 1, 1, 2, 22, 43]);
            while file.len() < more * BLOCK {
                let again = random.below(length / BLOCK) * BLOCK;
                file.extend_from_within(again..again + BLOCK);
            }
        }
    }
    nothing(2)
}

fn wrong_check(file: &mut [u8], random: &mut Random) -> u64 {
    let blocks = file.len() / BLOCK;
    let b = random.place(blocks);
    break_block(file, b, random);
    if b + 1 < blocks && random.once_in(3) {
        break_block(file, random.between(b + 1, blocks - 1), random);
    }
    at_block(3, b)
}

/// Makes the check of a sound block disagree.
fn break_block(file: &mut [u8], b: usize, random: &mut Random) {
    let (i, j) = (random.place(CONTENT), random.place(CONTENT));
    let (x, y) = (word(file, b, i), word(file, b, j));
    let (a_word, b_word) = (CONTENT, CONTENT + 1);
    match random.below(7) {
        // Words change places, or one gives to the other: a stays right. The first leaves b right
        // too where the product of the distances is a multiple of 2^32.
        0 if x
            .wrapping_sub(y)
            .wrapping_mul((j as u32).wrapping_sub(i as u32))
            != 0 =>
        {
            set_word(file, b, i, y);
            set_word(file, b, j, x);
        }
        1 if i != j => {
            set_word(file, b, i, x.wrapping_add(1));
            set_word(file, b, j, y.wrapping_sub(1));
        }
        // Word w is in (126 - w) of the terms of b: b stays right.
        2 if i != j => {
            set_word(file, b, i, x.wrapping_add((CONTENT - j) as u32));
            set_word(file, b, j, y.wrapping_sub((CONTENT - i) as u32));
        }
        3 => set_wrong(file, b, a_word, random),
        4 => set_wrong(file, b, b_word, random),
        5 => {
            set_wrong(file, b, a_word, random);
            set_wrong(file, b, b_word, random);
        }
        _ => set_wrong(file, b, i, random),
    }
}

fn set_wrong(file: &mut [u8], b: usize, w: usize, random: &mut Random) {
    let wrong = random.wrong_word(word(file, b, w));
    set_word(file, b, w, wrong);
}

fn wrong_header(file: &mut [u8], random: &mut Random) -> u64 {
    let w = random.below(2);
    set_wrong(file, 0, w, random);
    if random.once_in(4) {
        set_wrong(file, 0, 1 - w, random);
    }
    mend(file);
    at_block(4, 0)
}

fn out_of_range(file: &mut [u8], random: &mut Random) -> u64 {
    let (n, e) = (word(file, 0, 2), word(file, 0, 3));
    let (most_n, most_e) = (MOST_GROUPS as u32, MOST_LINKS as u32);
    // Some would pass a test of the low bits alone.
    let low_byte = n | (2 * most_n.next_power_of_two());
    let wrong_n = [
        0,
        0,
        most_n + 1,
        most_n + 1,
        low_byte,
        n | 1 << 16,
        1 << 31,
        u32::MAX,
    ];
    let wrong_e = [
        most_e + 1,
        most_e + 1,
        e | 1 << 16,
        e | 1 << 31,
        1 << 31,
        u32::MAX,
    ];
    let which = random.below(4);
    if which != 0 {
        set_word(file, 0, 2, random.one_of(&wrong_n));
    }
    if which < 2 {
        set_word(file, 0, 3, random.one_of(&wrong_e));
    }
    mend(file);
    nothing(5)
}

/// A wrong number or kind, or a number of blocks that doesn't fit, or both.
fn wrong_block(file: &mut Vec<u8>, draft: &Draft, random: &mut Random) -> u64 {
    let mut answer = nothing(6);
    let way = random.below(7);
    if way > 0 {
        let blocks = file.len() / BLOCK;
        let b = 1 + random.place(blocks - 1);
        set_wrong(file, b, random.below(2), random);
        if b + 1 < blocks && random.once_in(3) {
            set_wrong(
                file,
                random.between(b + 1, blocks - 1),
                random.below(2),
                random,
            );
        }
        answer = at_block(6, b);
    }
    if way < 2 {
        wrong_number_of_blocks(file, draft, random);
        answer = nothing(6);
    }
    mend(file);
    answer
}

fn wrong_number_of_blocks(file: &mut Vec<u8>, draft: &Draft, random: &mut Random) {
    let blocks = file.len() / BLOCK;
    match random.below(4) {
        0 if blocks < MOST_BLOCKS => {
            let again = BLOCK * random.below(blocks);
            file.extend_from_within(again..again + BLOCK);
        }
        1 => {
            let lost = BLOCK * (1 + random.place(blocks - 1));
            file.drain(lost..lost + BLOCK);
        }
        // n or e of a larger or smaller file, by one block or by many.
        2 => {
            let mut n = draft.groups.len();
            while blocks_for(n) == blocks_for(draft.groups.len()) {
                n = random.between(1, MOST_GROUPS);
            }
            set_word(file, 0, 2, n as u32);
        }
        _ => {
            let mut e = draft.links.len();
            while blocks_for(e) == blocks_for(draft.links.len()) {
                e = random.one_of(&[0, 1, PAIRS, PAIRS + 1, MOST_LINKS]);
            }
            set_word(file, 0, 3, e as u32);
        }
    }
}

fn unused_word(file: &mut [u8], draft: &Draft, random: &mut Random) -> u64 {
    let (n, e) = (draft.groups.len(), draft.links.len());
    let last_of_groups = blocks_for(n);
    let last_of_links = last_of_groups + blocks_for(e);
    // The block, and the first word in it that isn't used.
    let mut ends = vec![(0, 4)];
    if n % PAIRS > 0 {
        ends.push((last_of_groups, 2 + 2 * (n % PAIRS)));
    }
    if e % PAIRS > 0 {
        ends.push((last_of_links, 2 + 2 * (e % PAIRS)));
    }
    let k = random.below(ends.len());
    for (b, first) in [ends[k], ends[random.between(k, ends.len() - 1)]] {
        let w = first + random.place(CONTENT - first);
        set_wrong(file, b, w, random);
        if word(file, b, w) == 0 {
            set_word(file, b, w, 1); // the same word was taken twice and came back to 0
        }
    }
    mend(file);
    at_block(7, ends[k].0)
}
