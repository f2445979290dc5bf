//! Surveys on which choosing is work: each has a shape of links and a sort of counts.

use super::coverage::{Coverage, Met};
use super::random::Random;
use super::surveys::Draft;
use corkgully::model::{Pair, MOST_COUNT, MOST_GROUPS, MOST_LINKS};

pub struct Shaped {
    pub draft: Draft,
    shape: &'static str,
    counts: &'static str,
}

const SHAPES: [&str; 9] = [
    "none",
    "scattered",
    "dense",
    "banded",
    "layered",
    "chained",
    "two-sided",
    "fanned out",
    "fanned in",
];

const COUNTS: [&str; 9] = [
    "any",
    "small",
    "ties",
    "all equal",
    "often no live",
    "often 0:0",
    "dead and live apart",
    "powers of 2",
    "at the limit",
];

pub fn shaped(random: &mut Random) -> Shaped {
    let (shape, counts) = (random.one_of(&SHAPES), random.one_of(&COUNTS));
    let n = number_of_groups(random);
    Shaped {
        draft: draft(shape, counts, n, random),
        shape,
        counts,
    }
}

impl Shaped {
    pub fn note(&self, coverage: &mut Coverage) {
        coverage.count(links_are(self.shape));
        coverage.count(counts_are(self.counts));
    }
}

pub fn wanted() -> Vec<Met> {
    let shapes = SHAPES.iter().map(|shape| links_are(shape));
    let counts = COUNTS.iter().map(|counts| counts_are(counts));
    shapes.chain(counts).collect()
}

fn links_are(shape: &str) -> Met {
    ("links".to_string(), shape.to_string())
}

fn counts_are(counts: &str) -> Met {
    ("counts".to_string(), counts.to_string())
}

/// Few more often than many: those can be held against every set, and take less time.
fn number_of_groups(random: &mut Random) -> usize {
    match random.below(12) {
        0 => random.between(1, 2),
        1..=4 => random.between(3, 12),
        5..=8 => random.between(13, 48),
        9 | 10 => random.between(49, MOST_GROUPS),
        _ => MOST_GROUPS,
    }
}

/// A survey of a shape and a sort of counts that the lists above name.
pub fn draft(shape: &str, counts: &str, n: usize, random: &mut Random) -> Draft {
    // All links go up in one order of the groups, so that they have no cycle.
    let mut order: Vec<u32> = (0..n as u32).collect();
    match random.below(4) {
        0 => {}
        1 => order.reverse(),
        _ => random.shuffle(&mut order),
    }
    let mut links: Vec<Pair> = places(shape, n, random)
        .into_iter()
        .map(|(low, high)| (order[low], order[high]))
        .collect();
    random.shuffle(&mut links);
    links.truncate(MOST_LINKS);
    links.sort_unstable();

    let mut groups = vec![(0, 0); n];
    for (place, pair) in pairs(counts, n, random).into_iter().enumerate() {
        groups[order[place] as usize] = pair;
    }
    if groups.iter().all(|group| group.0 == 0) {
        groups[random.place(n)].0 = 1;
    }
    Draft { groups, links }
}

/// The places in the order, low and high, between which there is a link.
fn places(shape: &str, n: usize, random: &mut Random) -> Vec<(usize, usize)> {
    // One in so many of the pairs that the shape allows.
    let one_in = match shape {
        "dense" | "chained" => 1,
        "scattered" => random.between(1, n + 1),
        _ => random.between(1, 4),
    };
    let width = random.between(1, 12);
    let layer = n / random.between(2, 8) + 1;
    let middle = random.between(1, n);
    let joins = |low: usize, high: usize| match shape {
        "none" => false,
        "banded" => high - low <= width,
        "layered" => high / layer == low / layer + 1,
        "chained" => high == low + 1,
        "two-sided" => low < middle && high >= middle,
        "fanned out" => low < n / 16 + 1,
        "fanned in" => high + n / 16 + 1 >= n,
        _ => true,
    };
    let mut places = Vec::new();
    for high in 0..n {
        for low in 0..high {
            if joins(low, high) && random.once_in(one_in) {
                places.push((low, high));
            }
        }
    }
    places
}

/// The counts of the groups by their place in the order.
fn pairs(counts: &str, n: usize, random: &mut Random) -> Vec<Pair> {
    let any = |random: &mut Random| random.below(MOST_COUNT as usize + 1) as u32;
    let small = |random: &mut Random| random.below(10) as u32;
    let power = |random: &mut Random| 1 << random.below(20);
    let (one, other) = (
        (small(random), small(random)),
        (small(random), small(random)),
    );
    let pair = |place: usize| -> Pair {
        match counts {
            "small" => (small(random), small(random)),
            // Few ratios, so that many sets are of the same quality.
            "ties" => {
                let (dead, live) = if random.once_in(4) { other } else { one };
                let times = random.between(1, 8) as u32;
                (dead * times, live * times)
            }
            "all equal" => one,
            "often no live" if random.once_in(2) => (any(random), 0),
            "often 0:0" if random.once_in(2) => (0, 0),
            "often 0:0" => (small(random), small(random)),
            // What points has the live objects, and what is pointed to the dead ones: each set is
            // paid for by others, and amounts are everywhere.
            "dead and live apart" if random.once_in(8) => (small(random), small(random)),
            "dead and live apart" if 2 * place < n => (0, any(random)),
            "dead and live apart" => (any(random), 0),
            "powers of 2" => (power(random), power(random)),
            "at the limit" => (MOST_COUNT, MOST_COUNT),
            _ => (any(random), any(random)),
        }
    };
    (0..n).map(pair).collect()
}
