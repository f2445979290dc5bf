//! Sets of groups: D and L, closed, better, and the weights that a set gives the groups. Everything
//! is in 128 bits, where nothing of a survey can overflow.

use super::Pair;

/// For each group, whether it is in the set.
pub type Set = Vec<bool>;

/// What a group costs: its live count.
pub(super) fn cost(group: Pair) -> i128 {
    group.1.into()
}

/// A set's D and L.
pub fn sums(groups: &[Pair], set: &[bool]) -> (i128, i128) {
    let members = || (0..groups.len()).filter(|&g| set[g]).map(|g| groups[g]);
    let dead = members().map(|group| i128::from(group.0)).sum();
    let live = members().map(cost).sum();
    (dead, live)
}

/// The first link that comes into a set from outside: its start is out and its end in.
pub fn open_link(links: &[Pair], set: &[bool]) -> Option<usize> {
    let open = |&(from, to): &Pair| !set[from as usize] && set[to as usize];
    links.iter().position(open)
}

/// Whether a candidate with these D and L is better than one with those, compared crosswise.
pub(super) fn better(a: (i128, i128), b: (i128, i128)) -> bool {
    a.1 * b.0 < b.1 * a.0
}

/// The weight that a set gives each group, by its D and its L.
pub fn weights(groups: &[Pair], set: &[bool]) -> Vec<i128> {
    let (dead, live) = sums(groups, set);
    let weight = |&group: &Pair| i128::from(group.0) * live - cost(group) * dead;
    groups.iter().map(weight).collect()
}
