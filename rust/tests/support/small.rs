//! Every survey of few groups.

use super::surveys::Draft;
use corkgully::model::Pair;

/// Every survey of n groups, up to 4, in which each group has one of these counts.
pub fn every_survey(n: u32, counts: &[Pair]) -> impl Iterator<Item = Draft> {
    let mut all_groups = every_list(n as usize, counts);
    all_groups.retain(|groups| groups.iter().any(|group| group.0 > 0));
    let all_links = every_links(n).filter(move |links| !reaches_itself(n, links));
    all_links.flat_map(move |links| {
        let all_groups = all_groups.clone();
        all_groups.into_iter().map(move |groups| Draft {
            groups,
            links: links.clone(),
        })
    })
}

/// Every set of links between n groups, those with a cycle too, each ascending.
pub fn every_links(n: u32) -> impl Iterator<Item = Vec<Pair>> {
    (0..1u32 << (n * n)).map(move |set| {
        let chosen = (0..n * n).filter(|bit| set >> bit & 1 == 1);
        chosen.map(|bit| (bit / n, bit % n)).collect()
    })
}

/// Every list of so many of these things.
pub fn every_list<T: Copy>(length: usize, things: &[T]) -> Vec<Vec<T>> {
    let mut lists = vec![Vec::new()];
    for _ in 0..length {
        let mut longer = Vec::with_capacity(lists.len() * things.len());
        for list in &lists {
            longer.extend(things.iter().map(|&thing| {
                let mut list: Vec<T> = list.clone();
                list.push(thing);
                list
            }));
        }
        lists = longer;
    }
    lists
}

/// Whether some group is reached from itself: paths through groups 0 up to k are put together for
/// each k in turn.
pub fn reaches_itself(n: u32, links: &[Pair]) -> bool {
    let n = n as usize;
    let mut reaches = [[false; 4]; 4];
    for &(from, to) in links {
        reaches[from as usize][to as usize] = true;
    }
    for k in 0..n {
        for p in 0..n {
            for q in 0..n {
                reaches[p][q] |= reaches[p][k] && reaches[k][q];
            }
        }
    }
    (0..n).any(|g| reaches[g][g])
}
