//! Claims that are right, or nearly. A way gives nothing where the survey has no room for it.

use super::sheet::{Made, Sheet};
use crate::support::random::Random;
use corkgully::model::{at_group, weights, ACCEPTED, MOST_AMOUNT};

pub fn right(sheet: &Sheet, _: &mut Random) -> Option<Made> {
    Some(sheet.right().told(ACCEPTED))
}

/// Amounts moved round a triangle of links, which leaves every balance as it was.
pub fn moved_round(sheet: &Sheet, random: &mut Random) -> Option<Made> {
    let links = &sheet.draft.links;
    let mut made = sheet.right();
    let mut moved = false;
    for _ in 0..sheet.e().min(400) {
        let first = random.below(sheet.e());
        let (p, q) = links[first];
        let start = links.partition_point(|&link| link < (q, 0));
        let end = links.partition_point(|&link| link < (q + 1, 0));
        if start == end {
            continue;
        }
        let second = random.between(start, end - 1);
        let straight = match links.binary_search(&(p, links[second].1)) {
            Ok(straight) => straight,
            Err(_) => continue,
        };
        let amounts = &mut made.amounts;
        let (less, more) = if random.once_in(2) {
            (vec![first, second], vec![straight])
        } else {
            (vec![straight], vec![first, second])
        };
        let most = less.iter().map(|&k| amounts[k]).min().unwrap_or(0);
        let part = random.one_of(&[most, most / 2, most.min(1)]);
        if part > 0 && more.iter().all(|&k| amounts[k] + part <= MOST_AMOUNT) {
            less.iter().for_each(|&k| amounts[k] -= part);
            more.iter().for_each(|&k| amounts[k] += part);
            moved = true;
        }
    }
    moved.then(|| made.told(ACCEPTED))
}

pub fn amount_off_by_one(sheet: &Sheet, random: &mut Random) -> Option<Made> {
    if sheet.e() == 0 {
        return None;
    }
    let mut made = sheet.right();
    let k = random.place(sheet.e());
    let amount = &mut made.amounts[k];
    if *amount > 0 && random.once_in(2) {
        *amount -= 1;
    } else {
        *amount += 1;
    }
    Some(made)
}

/// An amount of another link, none, or twice as much.
pub fn another_amount(sheet: &Sheet, random: &mut Random) -> Option<Made> {
    if sheet.e() == 0 {
        return None;
    }
    let mut made = sheet.right();
    let (j, k) = (random.place(sheet.e()), random.place(sheet.e()));
    let twice = (2 * made.amounts[j]).min(MOST_AMOUNT);
    made.amounts[j] = random.one_of(&[made.amounts[k], 0, twice]);
    Some(made)
}

/// One mark more, or one less.
pub fn one_mark_off(sheet: &Sheet, random: &mut Random) -> Option<Made> {
    let mut made = sheet.right();
    made.marks[random.place(sheet.n())] ^= 1;
    Some(made)
}

/// A smaller set of the same quality, shown by amounts for its own weights.
pub fn smaller(sheet: &Sheet, random: &mut Random) -> Option<Made> {
    let set = part_of_the_pick(sheet, random)?;
    let left_out = (0..sheet.n()).find(|&g| sheet.pick.set[g] && !set[g])?;
    let amounts = sheet.own_amounts(&set);
    Some(sheet.claim(&set, amounts).told(at_group(18, left_out)))
}

/// A smaller set of the same quality with the pick's amounts, which are for other weights.
pub fn smaller_with_the_amounts_of_the_pick(sheet: &Sheet, random: &mut Random) -> Option<Made> {
    let set = part_of_the_pick(sheet, random)?;
    Some(sheet.claim(&set, sheet.pick.amounts.clone()))
}

/// A closed set of the same quality as the pick: what amounts flow between stays together.
fn part_of_the_pick(sheet: &Sheet, random: &mut Random) -> Option<Vec<bool>> {
    let members: Vec<usize> = (0..sheet.n()).filter(|&g| sheet.pick.set[g]).collect();
    for _ in 0..4 {
        let mut set = vec![false; sheet.n()];
        for _ in 0..random.between(1, members.len()) {
            set[random.one_of(&members)] = true;
        }
        let set = sheet.grown(set, |k| sheet.pick.amounts[k] > 0);
        if set != sheet.pick.set && sheet.dead(&set) > 0 {
            return Some(set);
        }
    }
    None
}

/// The pick without a group that has nothing in it.
pub fn empty_group_left_out(sheet: &Sheet, random: &mut Random) -> Option<Made> {
    let can_go = |&g: &usize| {
        let mut into = sheet.draft.links.iter().filter(|link| link.0 as usize == g);
        sheet.pick.set[g]
            && sheet.draft.groups[g] == (0, 0)
            && into.all(|link| !sheet.pick.set[link.1 as usize])
    };
    let can_go: Vec<usize> = (0..sheet.n()).filter(can_go).collect();
    if can_go.is_empty() {
        return None;
    }
    let g = can_go[random.place(can_go.len())];
    let mut made = sheet.right();
    made.marks[g] = 0;
    Some(made.told(at_group(18, g)))
}

/// The pick with the amounts of the first round.
pub fn amounts_of_the_first_round(sheet: &Sheet, _: &mut Random) -> Option<Made> {
    let all = vec![true; sheet.n()];
    Some(sheet.claim(&sheet.pick.set, sheet.own_amounts(&all)))
}

/// The pick with no amounts at all; where no group of it pays another, that is right.
pub fn no_amounts(sheet: &Sheet, _: &mut Random) -> Option<Made> {
    let made = sheet.claim(&sheet.pick.set, vec![0; sheet.e()]);
    let weights = weights(&sheet.draft.groups, &sheet.pick.set);
    if weights.iter().all(|&weight| weight <= 0) {
        return Some(made.told(ACCEPTED));
    }
    Some(made)
}
