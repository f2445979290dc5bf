//! Faults 8 to 12, put into a survey. Each gives the answer that it calls for where no lower fault
//! is present, or nothing where the survey has no room for it.
//!
//! They are put in from the highest number down: a fault stays where it was put, and none brings a
//! lower one with it.

use super::random::Random;
use super::surveys::Draft;
use corkgully::model::{at_group, at_link, nothing, Pair, MOST_COUNT, MOST_LINKS};

pub fn put(number: u64, draft: &mut Draft, random: &mut Random) -> Option<u64> {
    match number {
        8 => Some(count_above(draft, random)),
        9 => end_outside(draft, random),
        10 => not_above(draft, random),
        11 => Some(cycle(draft, random)),
        12 => Some(no_dead(draft)),
        _ => unreachable!("{} is no fault of a survey", number),
    }
}

fn count_above(draft: &mut Draft, random: &mut Random) -> u64 {
    let all_dead_are_0 = draft.groups.iter().all(|group| group.0 == 0);
    let n = draft.groups.len();
    let g = random.place(n);
    // At times a second one, after it.
    for place in [g, random.between(g, n - 1)] {
        let above = match random.below(4) {
            0 | 1 => MOST_COUNT + 1,
            2 => u32::MAX,
            _ => MOST_COUNT + 1 + random.below((u32::MAX - MOST_COUNT) as usize) as u32,
        };
        if all_dead_are_0 || random.once_in(2) {
            draft.groups[place].1 = above;
        } else {
            draft.groups[place].0 = above;
        }
    }
    at_group(8, g)
}

fn end_outside(draft: &mut Draft, random: &mut Random) -> Option<u64> {
    if draft.links.is_empty() {
        return None;
    }
    let n = draft.groups.len() as u32;
    let k = random.place(draft.links.len());
    for place in [k, random.between(k, draft.links.len() - 1)] {
        let link = &mut draft.links[place];
        let end = if random.once_in(2) {
            &mut link.0
        } else {
            &mut link.1
        };
        // The last two would pass a test of the low bits alone.
        let low_byte = *end | n.next_power_of_two().max(1 << 8);
        let low_half = *end | 1 << 16;
        *end = random.one_of(&[n, n, n + 1, u32::MAX, low_byte, low_half]);
    }
    Some(at_link(9, k))
}

fn not_above(draft: &mut Draft, random: &mut Random) -> Option<u64> {
    if draft.links.len() < 2 {
        return None;
    }
    let k = 1 + random.place(draft.links.len() - 1);
    if random.once_in(2) {
        draft.links[k] = draft.links[k - 1];
    } else {
        draft.links.swap(k - 1, k);
    }
    Some(at_link(10, k))
}

fn cycle(draft: &mut Draft, random: &mut Random) -> u64 {
    let ring = match random.below(4) {
        0 => vec![random.place(draft.groups.len()) as u32],
        1 => any_ring(draft.groups.len(), random),
        _ => path(draft, random),
    };
    let mut links: Vec<Pair> = (0..ring.len())
        .map(|k| (ring[k], ring[(k + 1) % ring.len()]))
        .collect();
    // The links of the ring are all needed; the others stay as far as there is room.
    let others = draft.links.iter().filter(|link| !links.contains(link));
    let room = MOST_LINKS - links.len();
    let others: Vec<Pair> = others.copied().take(room).collect();
    links.extend(others);
    links.sort_unstable();
    draft.links = links;
    nothing(11)
}

/// Some groups in any order, at times all.
fn any_ring(n: usize, random: &mut Random) -> Vec<u32> {
    let mut ring: Vec<u32> = (0..n as u32).collect();
    random.shuffle(&mut ring);
    let length = random.between(1, n);
    if !random.once_in(4) {
        ring.truncate(length);
    }
    ring
}

/// The groups on a path along the links, so that a single link back closes it.
fn path(draft: &Draft, random: &mut Random) -> Vec<u32> {
    let mut group = random.below(draft.groups.len()) as u32;
    let mut path = vec![group];
    loop {
        let start = draft.links.partition_point(|link| link.0 < group);
        let end = draft.links.partition_point(|link| link.0 <= group);
        if start == end || (path.len() > 1 && random.once_in(20)) {
            return path;
        }
        group = draft.links[random.between(start, end - 1)].1;
        path.push(group);
    }
}

fn no_dead(draft: &mut Draft) -> u64 {
    for group in &mut draft.groups {
        group.0 = 0;
    }
    nothing(12)
}
