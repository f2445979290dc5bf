//! The checker of claims, fault by fault in the order of the table of refusals.

use super::answer::{at_group, at_link, nothing, ACCEPTED};
use super::lists::{amounts as amounts_of, too_short};
use super::sets::{open_link, sums, weights, Set};
use super::survey::survey_in_lists;
use super::Pair;

/// The most that an amount can be.
pub const MOST_AMOUNT: u64 = 20_000_000_000_000_000;

/// Checks a claim on a survey, given as lent lists, and answers as the boundary does.
pub fn check(n: u64, e: u64, groups: &[u8], links: &[u8], marks: &[u8], amounts: &[u8]) -> u64 {
    if too_short(groups, links, marks, amounts) {
        return nothing(1);
    }
    let (groups, links) = match survey_in_lists(n, e, groups, links) {
        Ok(survey) => survey,
        Err(refusal) => return refusal,
    };
    let amounts = amounts_of(amounts, links.len());
    match claim_fault(&groups, &links, &marks[..groups.len()], &amounts) {
        Some(refusal) => refusal,
        None => ACCEPTED,
    }
}

/// The first of the faults 13 to 18 of a claim on an admitted survey, as a refusal.
fn claim_fault(groups: &[Pair], links: &[Pair], marks: &[u8], amounts: &[u64]) -> Option<u64> {
    if let Some(g) = marks.iter().position(|&mark| mark > 1) {
        return Some(at_group(13, g));
    }
    if let Some(k) = amounts.iter().position(|&amount| amount > MOST_AMOUNT) {
        return Some(at_link(14, k));
    }
    let claimed: Set = marks.iter().map(|&mark| mark == 1).collect();
    if let Some(k) = open_link(links, &claimed) {
        return Some(at_link(15, k));
    }
    if sums(groups, &claimed).0 == 0 {
        return Some(nothing(16));
    }
    let balances = balances(&weights(groups, &claimed), links, amounts);
    if let Some(g) = balances.iter().position(|&balance| balance > 0) {
        return Some(at_group(17, g));
    }
    let largest = largest(&balances, links, amounts);
    if claimed == largest {
        return None;
    }
    let left_out = (0..groups.len()).find(|&g| largest[g] && !claimed[g]);
    // Weights that come from the claimed set itself sum to 0 over it.
    Some(at_group(
        18,
        left_out.expect("a claimed set lies in the largest"),
    ))
}

/// The balance of each group: its weight, with the amounts on links from it added and those on
/// links to it taken away.
fn balances(weights: &[i128], links: &[Pair], amounts: &[u64]) -> Vec<i128> {
    let mut balances = weights.to_vec();
    for (&(from, to), &amount) in links.iter().zip(amounts) {
        balances[from as usize] += i128::from(amount);
        balances[to as usize] -= i128::from(amount);
    }
    balances
}

/// The largest settled set. What can't be in it is taken out, pass after pass over the links, until
/// a pass takes nothing out.
fn largest(balances: &[i128], links: &[Pair], amounts: &[u64]) -> Set {
    let mut set: Set = balances.iter().map(|&balance| balance == 0).collect();
    loop {
        let mut taken_out = false;
        for (&(from, to), &amount) in links.iter().zip(amounts) {
            let (p, q) = (from as usize, to as usize);
            if set[q] && !set[p] {
                set[q] = false;
                taken_out = true;
            }
            if set[p] && !set[q] && amount > 0 {
                set[p] = false;
                taken_out = true;
            }
        }
        if !taken_out {
            return set;
        }
    }
}
