//! Claims of other sets and other amounts, and noise. A way gives nothing where the survey has no
//! room for it.

use super::sheet::{Made, Sheet};
use crate::support::random::Random;
use corkgully::model::{nothing, MOST_AMOUNT};

/// The empty set, with any amounts.
pub fn nothing_claimed(sheet: &Sheet, random: &mut Random) -> Option<Made> {
    let amounts = some_amounts(sheet, random);
    let made = sheet.claim(&vec![false; sheet.n()], amounts);
    Some(made.told(nothing(16)))
}

/// Groups without dead objects, as many as make a closed set.
pub fn no_dead_claimed(sheet: &Sheet, random: &mut Random) -> Option<Made> {
    let mut set: Vec<bool> = sheet
        .draft
        .groups
        .iter()
        .map(|group| group.0 == 0)
        .collect();
    // What has something dead before it goes; the links rise from group to group as they ascend or
    // not, so it takes passes.
    loop {
        let open = corkgully::model::open_link(&sheet.draft.links, &set);
        match open {
            Some(k) => set[sheet.draft.links[k].1 as usize] = false,
            None => break,
        }
    }
    if !set.contains(&true) {
        return None;
    }
    let amounts = some_amounts(sheet, random);
    Some(sheet.claim(&set, amounts).told(nothing(16)))
}

/// All groups, with amounts for their weights.
pub fn all_claimed(sheet: &Sheet, _: &mut Random) -> Option<Made> {
    let all = vec![true; sheet.n()];
    let amounts = sheet.own_amounts(&all);
    Some(sheet.claim(&all, amounts))
}

/// Any closed set, with amounts for its weights, the pick's, or none.
pub fn any_closed(sheet: &Sheet, random: &mut Random) -> Option<Made> {
    let set = sheet.closed(sheet.any_set(random));
    let amounts = match random.below(3) {
        0 => vec![0; sheet.e()],
        1 => sheet.pick.amounts.clone(),
        _ => sheet.own_amounts(&set),
    };
    Some(sheet.claim(&set, amounts))
}

/// A closed set from which the start of a link is taken whose end is in it.
pub fn not_closed(sheet: &Sheet, random: &mut Random) -> Option<Made> {
    if sheet.e() == 0 {
        return None;
    }
    let (from, to) = sheet.draft.links[random.place(sheet.e())];
    let mut set = match random.below(3) {
        0 => vec![false; sheet.n()],
        1 => sheet.pick.set.clone(),
        _ => sheet.any_set(random),
    };
    set[to as usize] = true;
    let mut set = sheet.closed(set);
    set[from as usize] = false;
    let amounts = some_amounts(sheet, random);
    Some(sheet.claim(&set, amounts))
}

/// The pick, or any closed set, with every amount at its limit.
pub fn all_at_the_limit(sheet: &Sheet, random: &mut Random) -> Option<Made> {
    let set = if random.once_in(2) {
        sheet.pick.set.clone()
    } else {
        sheet.closed(sheet.any_set(random))
    };
    Some(sheet.claim(&set, vec![MOST_AMOUNT; sheet.e()]))
}

/// Any groups, and any amounts in their range.
pub fn noise_in_range(sheet: &Sheet, random: &mut Random) -> Option<Made> {
    let set = sheet.any_set(random);
    let amounts = some_amounts(sheet, random);
    Some(sheet.claim(&set, amounts))
}

/// Any bytes.
pub fn noise(sheet: &Sheet, random: &mut Random) -> Option<Made> {
    let mut marks = vec![0; sheet.n()];
    random.fill(&mut marks);
    Some(Made {
        marks,
        amounts: (0..sheet.e()).map(|_| random.next()).collect(),
        told: None,
    })
}

/// Amounts in their range: few, of all sizes, or the pick's.
fn some_amounts(sheet: &Sheet, random: &mut Random) -> Vec<u64> {
    let way = random.below(4);
    let amount = |k: usize| match way {
        0 => sheet.pick.amounts[k],
        1 if random.once_in(4) => random.below(3) as u64,
        1 => 0,
        2 => random.next() >> random.between(10, 63),
        _ => random.below(MOST_AMOUNT as usize + 1) as u64,
    };
    (0..sheet.e()).map(amount).collect()
}
