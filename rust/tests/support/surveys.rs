//! Surveys that are admitted: all sizes, many shapes of links, counts from all 0:0 but one to all
//! at the limit.

use super::random::Random;
use corkgully::model::{self, Pair, MOST_COUNT, MOST_GROUPS, MOST_LINKS, PAIRS};
use corkgully::{Group, Link, Survey};

#[derive(Clone, Debug)]
pub struct Draft {
    pub groups: Vec<Pair>,
    pub links: Vec<Pair>,
}

impl Draft {
    pub fn file(&self) -> Vec<u8> {
        let (n, e) = (self.groups.len() as u32, self.links.len() as u32);
        model::build(n, e, &self.groups, &self.links)
    }

    /// The same as the wrapper has it.
    pub fn survey(&self) -> Survey {
        let group = |&(dead, live): &Pair| Group { dead, live };
        let link = |&(from, to): &Pair| Link { from, to };
        Survey {
            groups: self.groups.iter().map(group).collect(),
            links: self.links.iter().map(link).collect(),
        }
    }

    /// What the reader answers where nothing is wrong.
    pub fn success(&self) -> u64 {
        model::read_all(self.groups.len(), self.links.len())
    }
}

pub fn admitted(random: &mut Random) -> Draft {
    let largest = random.once_in(24);
    let n = if largest {
        MOST_GROUPS
    } else {
        number_of_groups(random)
    };
    let mut draft = Draft {
        groups: groups(n, random),
        links: links(n, largest, random),
    };
    draft.links.sort_unstable();
    draft
}

/// Often a number at which the blocks or the range end.
fn number_of_groups(random: &mut Random) -> usize {
    if random.once_in(2) {
        let edges = [
            1,
            1,
            2,
            PAIRS - 1,
            PAIRS,
            PAIRS + 1,
            2 * PAIRS,
            2 * PAIRS + 1,
            MOST_GROUPS - 1,
            MOST_GROUPS,
            MOST_GROUPS,
        ];
        random.one_of(&edges)
    } else {
        random.between(1, MOST_GROUPS)
    }
}

fn groups(n: usize, random: &mut Random) -> Vec<Pair> {
    let limit = MOST_COUNT as usize + 1;
    let way = random.below(6);
    let mut count = |_| -> Pair {
        match way {
            0 => (MOST_COUNT, MOST_COUNT),
            1 => (random.below(10) as u32, random.below(10) as u32),
            2 if random.once_in(2) => (0, 0),
            3 => (0, random.below(limit) as u32),
            _ => (random.below(limit) as u32, random.below(limit) as u32),
        }
    };
    let mut groups: Vec<Pair> = (0..n).map(&mut count).collect();
    if groups.iter().all(|&(dead, _)| dead == 0) {
        // A single dead object, at times alone in the first or the last group.
        groups[random.place(n)].0 = random.one_of(&[1, 1 << 8, 1 << 16, MOST_COUNT]);
    }
    groups
}

/// Links that all go up in one order of the groups, so that they have no cycle. They are not yet
/// sorted.
fn links(n: usize, largest: bool, random: &mut Random) -> Vec<Pair> {
    let mut order: Vec<u32> = (0..n as u32).collect();
    match random.below(4) {
        0 => {}
        1 => order.reverse(),
        _ => random.shuffle(&mut order),
    }
    let most = MOST_LINKS.min(n * (n - 1) / 2);
    let shape = if largest { 4 } else { random.below(8) };
    match shape {
        0 => Vec::new(),
        1 => order.windows(2).map(|two| (two[0], two[1])).collect(),
        2 => order[1..].iter().map(|&to| (order[0], to)).collect(),
        3 => order[1..].iter().map(|&from| (from, order[0])).collect(),
        4 if random.once_in(2) => dense(&order, most),
        4 => scattered(&order, most, random),
        5 => {
            let count = number_of_links(most, random);
            dense(&order, count)
        }
        6 => scattered(&order, most.min(4 * n), random),
        _ => {
            let count = number_of_links(most, random);
            scattered(&order, count, random)
        }
    }
}

/// Often a number at which the blocks or the range end.
fn number_of_links(most: usize, random: &mut Random) -> usize {
    let edges = [
        1,
        PAIRS - 1,
        PAIRS,
        PAIRS + 1,
        2 * PAIRS,
        16 * PAIRS,
        16 * PAIRS + 1,
        MOST_LINKS - 1,
        MOST_LINKS,
    ];
    let count = if random.once_in(2) {
        random.one_of(&edges)
    } else {
        random.below(most + 1)
    };
    count.min(most)
}

/// Every link between the last groups of the order, as far as `count` goes.
fn dense(order: &[u32], count: usize) -> Vec<Pair> {
    let mut links = Vec::with_capacity(count + order.len());
    for from in (0..order.len()).rev() {
        if links.len() >= count {
            break;
        }
        links.extend(order[from + 1..].iter().map(|&to| (order[from], to)));
    }
    links.truncate(count);
    links
}

/// Links between any groups: `count` of them, or a few less where nearly all there can be were
/// asked for.
fn scattered(order: &[u32], count: usize, random: &mut Random) -> Vec<Pair> {
    let n = order.len();
    let mut links = Vec::with_capacity(count);
    for _ in 0..6 {
        while links.len() < count && n > 1 {
            let (p, q) = (random.below(n), random.below(n - 1));
            let q = if q >= p { q + 1 } else { q };
            links.push((order[p.min(q)], order[p.max(q)]));
        }
        links.sort_unstable();
        links.dedup();
        if links.len() == count {
            break;
        }
    }
    links
}
