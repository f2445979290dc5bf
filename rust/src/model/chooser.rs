//! The chooser: the rounds of the specification, each by augmenting paths.

use super::answer::{chosen, nothing};
use super::lists::{too_short, write_amounts};
use super::paths::heaviest;
use super::sets::{weights, Set};
use super::survey::survey_in_lists;
use super::Pair;

/// Chooses the pick of a survey given as lent lists, and answers as the boundary does.
pub fn choose(
    n: u64,
    e: u64,
    groups: &[u8],
    links: &[u8],
    marks: &mut [u8],
    amounts: &mut [u8],
) -> u64 {
    if too_short(groups, links, marks, amounts) {
        return nothing(1);
    }
    match survey_in_lists(n, e, groups, links) {
        Err(refusal) => refusal,
        Ok((groups, links)) => {
            let pick = choose_by_paths(&groups, &links);
            for (mark, &is_in) in marks.iter_mut().zip(&pick.set) {
                *mark = is_in.into();
            }
            write_amounts(&pick.amounts, amounts);
            chosen(pick.rounds)
        }
    }
}

/// A pick with the amounts that show it.
#[derive(Clone)]
pub struct Pick {
    /// Its groups.
    pub set: Set,
    /// An amount for each link, right by the balance rule.
    pub amounts: Vec<u64>,
    /// The rounds, the last among them.
    pub rounds: u64,
}

/// The pick of an admitted survey.
pub fn choose_by_paths(groups: &[Pair], links: &[Pair]) -> Pick {
    let mut current = vec![true; groups.len()];
    let mut rounds = 0;
    loop {
        rounds += 1;
        let found = heaviest(&weights(groups, &current), links);
        if found.weight == 0 {
            return Pick {
                set: found.set,
                amounts: found.amounts,
                rounds,
            };
        }
        current = found.set;
    }
}

#[cfg(test)]
mod tests {
    use super::super::cycle::has_cycle;
    use super::super::every_set::choose_by_every_set;
    use super::*;

    /// The two choosers of the model held together: 16 kinds of group, 25 sets of links.
    #[test]
    fn every_survey_of_three_groups() {
        let kinds: Vec<Pair> = (0..16).map(|k| (k / 4, k % 4)).collect();
        let ends: Vec<Pair> = (0..9).map(|k| (k / 3, k % 3)).collect();
        let mut tried = 0;
        for set in 0..1 << 9 {
            let chosen = (0..9).filter(|k| set >> k & 1 == 1).map(|k| ends[k]);
            let links: Vec<Pair> = chosen.collect();
            if has_cycle(3, &links) {
                continue;
            }
            for counts in 0..16 * 16 * 16 {
                let groups = [counts / 256, counts / 16 % 16, counts % 16].map(|k| kinds[k]);
                if groups.iter().all(|group| group.0 == 0) {
                    continue;
                }
                let pick = choose_by_paths(&groups, &links);
                let by_every_set = choose_by_every_set(&groups, &links);
                assert_eq!((pick.set, pick.rounds), by_every_set);
                tried += 1;
            }
        }
        assert_eq!(tried, 25 * (16 * 16 * 16 - 4 * 4 * 4));
    }
}
