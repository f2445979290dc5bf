//! The faults of a survey however it came: its sizes, and 8 to 12. And one given as lists.

use super::answer::{at_group, at_link, nothing};
use super::cycle::has_cycle;
use super::lists::pairs;
use super::Pair;

/// The most groups of a survey.
pub const MOST_GROUPS: usize = 128;
/// The most links of a survey.
pub const MOST_LINKS: usize = 1024;
/// The most dead, and the most live, of a group.
pub const MOST_COUNT: u32 = 1_000_000;

/// Fault 5: n is 0 or too large, or e is.
pub(super) fn out_of_range(n: u64, e: u64) -> bool {
    n < 1 || n > MOST_GROUPS as u64 || e > MOST_LINKS as u64
}

/// The groups and links of a survey given as lists that are long enough, or its refusal.
pub(super) fn survey_in_lists(
    n: u64,
    e: u64,
    groups: &[u8],
    links: &[u8],
) -> Result<(Vec<Pair>, Vec<Pair>), u64> {
    if out_of_range(n, e) {
        return Err(nothing(5));
    }
    let groups = pairs(groups, n as usize);
    let links = pairs(links, e as usize);
    match survey_fault(&groups, &links) {
        Some(refusal) => Err(refusal),
        None => Ok((groups, links)),
    }
}

/// The first of the faults 8 to 12, as a refusal.
pub(super) fn survey_fault(groups: &[Pair], links: &[Pair]) -> Option<u64> {
    let n = groups.len();

    let too_many = |&(dead, live): &Pair| dead > MOST_COUNT || live > MOST_COUNT;
    if let Some(g) = groups.iter().position(too_many) {
        return Some(at_group(8, g));
    }
    let outside = |&(from, to): &Pair| from as usize >= n || to as usize >= n;
    if let Some(k) = links.iter().position(outside) {
        return Some(at_link(9, k));
    }
    // The place is the later of the two links. Pairs compare by their first word, then by their
    // second.
    if let Some(k) = links.windows(2).position(|two| two[1] <= two[0]) {
        return Some(at_link(10, k + 1));
    }
    if has_cycle(n, links) {
        return Some(nothing(11));
    }
    if groups.iter().all(|&(dead, _)| dead == 0) {
        return Some(nothing(12));
    }
    None
}
