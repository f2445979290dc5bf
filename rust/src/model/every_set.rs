//! The pick and the rounds of a small survey by looking at every closed set, straight from the
//! specification. A set is a number here: bit g is group g.

use super::sets::{better, cost, Set};
use super::Pair;

/// The most groups for which every set is looked at.
pub const MOST_TO_TRY: usize = 12;

/// The pick of an admitted survey with at most [`MOST_TO_TRY`] groups, and the count of rounds.
pub fn choose_by_every_set(groups: &[Pair], links: &[Pair]) -> (Set, u64) {
    let closed = closed_sets(groups, links);
    let pick = pick(&closed);
    let (last, rounds) = rounds(groups, &closed);
    assert_eq!(last, pick, "the rounds end at the pick");
    let set = (0..groups.len()).map(|g| pick >> g & 1 == 1).collect();
    (set, rounds)
}

/// A closed set with its D and L.
type Closed = (u32, (i128, i128));

fn closed_sets(groups: &[Pair], links: &[Pair]) -> Vec<Closed> {
    let n = groups.len();
    assert!(n <= MOST_TO_TRY, "too many sets");
    let is_closed = |set: &u32| {
        let holds = |g: u32| set >> g & 1 == 1;
        links.iter().all(|&(p, q)| !holds(q) || holds(p))
    };
    let with_sums = |set: u32| {
        let members = || (0..n).filter(|g| set >> g & 1 == 1).map(|g| groups[g]);
        let dead = members().map(|group| i128::from(group.0)).sum();
        (set, (dead, members().map(cost).sum()))
    };
    (0..1 << n).filter(is_closed).map(with_sums).collect()
}

/// The best candidate that contains all the best ones.
fn pick(closed: &[Closed]) -> u32 {
    let candidates = || closed.iter().filter(|(_, (dead, _))| *dead > 0);
    let mut best = candidates().next().expect("some dead count is above 0").1;
    for &(_, sums) in candidates() {
        if better(sums, best) {
            best = sums;
        }
    }
    containing_all(
        candidates()
            .filter(|&&(_, sums)| !better(best, sums))
            .map(|&(set, _)| set),
    )
}

/// The set at which the rounds end, and how many they were.
fn rounds(groups: &[Pair], closed: &[Closed]) -> (u32, u64) {
    let mut current = (1 << groups.len()) - 1;
    let mut count = 0;
    loop {
        count += 1;
        let find = |set| closed.iter().find(|closed| closed.0 == set);
        let (_, (dead, live)) = *find(current).expect("all groups, or a set taken from these");
        let weight = |&(_, sums): &Closed| sums.0 * live - sums.1 * dead;
        let greatest = closed.iter().map(weight).max();
        let greatest = greatest.expect("the empty set is closed");
        let heaviest = closed.iter().filter(|&set| weight(set) == greatest);
        let largest = containing_all(heaviest.map(|&(set, _)| set));
        if greatest == 0 {
            return (largest, count);
        }
        current = largest;
    }
}

/// The one of these sets that contains every other.
fn containing_all(sets: impl Iterator<Item = u32> + Clone) -> u32 {
    let union = sets.clone().fold(0, |union, set| union | set);
    let mut sets = sets;
    assert!(sets.any(|set| set == union), "none contains every other");
    union
}
