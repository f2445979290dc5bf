//! The lists that a call lends: their lengths, and what stands in them.

use super::coverage::{lent, Coverage, Met};
use super::random::Random;
use super::surveys::Draft;
use corkgully::model::{Pair, MOST_GROUPS, MOST_LINKS};

/// How many of the lengths below are long enough; they stand last.
const LONG_ENOUGH: usize = 5;
/// The lengths, in bytes, of the lists of groups that are lent.
pub const GROUPS_LENGTHS: [usize; 12] = {
    let enough = 8 * MOST_GROUPS;
    [
        0,
        1,
        7,
        8,
        enough - 8,
        enough - 7,
        enough - 1,
        enough,
        enough + 1,
        enough + 7,
        enough + 8,
        2 * enough,
    ]
};
/// The lengths of the lists of links, and of amounts.
pub const LINKS_LENGTHS: [usize; 14] = {
    let enough = 8 * MOST_LINKS;
    [
        0,
        1,
        7,
        8,
        1023,
        1024,
        enough - 8,
        enough - 7,
        enough - 1,
        enough,
        enough + 1,
        enough + 7,
        enough + 8,
        enough + 1024,
    ]
};
/// The lengths of the lists of marks. The last is enough even for marks of 8 bytes.
pub const MARKS_LENGTHS: [usize; 12] = {
    let enough = MOST_GROUPS;
    [
        0,
        1,
        7,
        8,
        16,
        enough - 8,
        enough - 1,
        enough,
        enough + 1,
        enough + 7,
        enough + 8,
        8 * enough,
    ]
};

/// One of the lengths; most often one that is enough, or nothing but refusal 1 would be tried.
pub fn length(lengths: &[usize], random: &mut Random) -> usize {
    let any = random.once_in(12);
    let enough = &lengths[lengths.len() - LONG_ENOUGH..];
    random.one_of(if any { lengths } else { enough })
}

/// A checker, the library's or the model's.
pub type Checker = fn(u64, u64, &[u8], &[u8], &[u8], &[u8]) -> u64;
/// A chooser, the library's or the model's.
pub type Chooser = fn(u64, u64, &[u8], &[u8], &mut [u8], &mut [u8]) -> u64;

/// What a call of the chooser or the checker lends.
#[derive(Clone)]
pub struct Lists {
    pub n: u64,
    pub e: u64,
    pub groups: Vec<u8>,
    pub links: Vec<u8>,
    pub marks: Vec<u8>,
    pub amounts: Vec<u8>,
    /// How n and e are outside their range, if they are.
    wrong_n: &'static str,
    wrong_e: &'static str,
}

impl Lists {
    /// A survey in lists that are just long enough.
    pub fn plain(draft: &Draft) -> Lists {
        Lists::with(draft, |_, enough| vec![0xff; enough])
    }

    /// A survey in lists of any lengths, once in four just long enough, with noise all over what
    /// the survey leaves: a place that shouldn't be looked at has a fault, and one that shouldn't be
    /// written is seen whatever is written.
    pub fn any(draft: &Draft, random: &mut Random) -> Lists {
        let just = random.once_in(4);
        Lists::with(draft, |lengths, enough| {
            let length = length(lengths, random);
            let mut list = vec![0; if just { enough } else { length }];
            random.fill(&mut list);
            list
        })
    }

    /// A survey in lists that are made by their lengths and the one that is just enough.
    fn with(draft: &Draft, mut list: impl FnMut(&[usize], usize) -> Vec<u8>) -> Lists {
        let mut lists = Lists {
            n: draft.groups.len() as u64,
            e: draft.links.len() as u64,
            groups: list(&GROUPS_LENGTHS, 8 * MOST_GROUPS),
            links: list(&LINKS_LENGTHS, 8 * MOST_LINKS),
            marks: list(&MARKS_LENGTHS, MOST_GROUPS),
            amounts: list(&LINKS_LENGTHS, 8 * MOST_LINKS),
            wrong_n: "",
            wrong_e: "",
        };
        put(&mut lists.groups, pair_bytes(&draft.groups));
        put(&mut lists.links, pair_bytes(&draft.links));
        lists
    }

    /// What a checker answers to the claim in these lists.
    pub fn checked_by(&self, check: Checker) -> u64 {
        check(
            self.n,
            self.e,
            &self.groups,
            &self.links,
            &self.marks,
            &self.amounts,
        )
    }

    /// What a chooser answers; it writes into the lists of marks and amounts.
    pub fn chosen_by(&mut self, choose: Chooser) -> u64 {
        choose(
            self.n,
            self.e,
            &self.groups,
            &self.links,
            &mut self.marks,
            &mut self.amounts,
        )
    }

    /// Puts a claim into the lists of marks and amounts.
    pub fn put_claim(&mut self, marks: &[u8], amounts: &[u64]) {
        put(&mut self.marks, marks.iter().copied());
        let bytes = amounts.iter().flat_map(|amount| amount.to_le_bytes());
        put(&mut self.amounts, bytes);
    }

    pub fn too_short(&self) -> bool {
        self.groups.len() < 8 * MOST_GROUPS
            || self.links.len() < 8 * MOST_LINKS
            || self.marks.len() < MOST_GROUPS
            || self.amounts.len() < 8 * MOST_LINKS
    }

    /// Fault 5: n or e, or both, outside its range.
    pub fn leave_range(&mut self, random: &mut Random) {
        let which = random.below(4);
        if which != 0 {
            let (how, n) = random.one_of(&wrong_sizes(self.n, MOST_GROUPS));
            self.n = n;
            self.wrong_n = how;
        }
        if which < 2 {
            let (how, e) = random.one_of(&wrong_sizes(self.e, MOST_LINKS)[1..]);
            self.e = e;
            self.wrong_e = how;
        }
    }

    /// Notes how long the lists were, and the sizes outside their range.
    pub fn note(&self, coverage: &mut Coverage) {
        coverage.count(lent("groups", self.groups.len()));
        coverage.count(lent("links", self.links.len()));
        coverage.count(lent("marks", self.marks.len()));
        coverage.count(lent("amounts", self.amounts.len()));
        for (size, how) in [("n", self.wrong_n), ("e", self.wrong_e)] {
            if !how.is_empty() {
                coverage.count(outside(size, how));
            }
        }
    }
}

/// Sizes outside a range, the right one's low bits kept in some.
fn wrong_sizes(right: u64, most: usize) -> [(&'static str, u64); 7] {
    [
        ("0", 0),
        ("one too many", most as u64 + 1),
        ("2^16 too many", right + (1 << 16)),
        ("2^32 too many", right + (1 << 32)),
        ("2^32 + 5", (1 << 32) + 5),
        ("2^63", 1 << 63),
        ("2^64 - 1", u64::MAX),
    ]
}

fn outside(size: &str, how: &str) -> Met {
    (format!("{} outside its range", size), how.to_string())
}

/// The lengths and wrong sizes that have to come up.
pub fn wanted() -> Vec<Met> {
    let mut wanted = Vec::new();
    wanted.extend(GROUPS_LENGTHS.map(|length| lent("groups", length)));
    wanted.extend(LINKS_LENGTHS.map(|length| lent("links", length)));
    wanted.extend(MARKS_LENGTHS.map(|length| lent("marks", length)));
    wanted.extend(LINKS_LENGTHS.map(|length| lent("amounts", length)));
    let sizes = wrong_sizes(1, MOST_GROUPS);
    wanted.extend(sizes.map(|(how, _)| outside("n", how)));
    wanted.extend(sizes[1..].iter().map(|(how, _)| outside("e", how)));
    wanted
}

/// Writes into the first places of a list, as far as it goes.
fn put(list: &mut [u8], bytes: impl Iterator<Item = u8>) {
    for (place, byte) in list.iter_mut().zip(bytes) {
        *place = byte;
    }
}

fn pair_bytes(pairs: &[Pair]) -> impl Iterator<Item = u8> + '_ {
    let words = pairs.iter().flat_map(|&(first, second)| [first, second]);
    words.flat_map(u32::to_le_bytes)
}
