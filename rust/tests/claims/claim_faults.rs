//! Faults 13 and 14, put into a claim. Each gives the answer that it calls for where no lower fault
//! is present, or nothing where the claim has no room for it.

use super::sheet::Made;
use crate::support::random::Random;
use corkgully::model::{at_group, at_link, MOST_AMOUNT};

pub fn put(number: u64, made: &mut Made, random: &mut Random) -> Option<u64> {
    match number {
        13 => Some(wrong_mark(made, random)),
        14 => amount_above(made, random),
        _ => unreachable!("{} is no fault that is put into a claim", number),
    }
}

fn wrong_mark(made: &mut Made, random: &mut Random) -> u64 {
    let n = made.marks.len();
    let g = random.place(n);
    // At times a second one, after it.
    for place in [g, random.between(g, n - 1)] {
        // Those whose low bit alone would do, and the limits of a byte.
        made.marks[place] = random.one_of(&[2, 2, 3, 127, 128, 129, 254, 255, 255]);
    }
    at_group(13, g)
}

fn amount_above(made: &mut Made, random: &mut Random) -> Option<u64> {
    let e = made.amounts.len();
    if e == 0 {
        return None;
    }
    match random.below(8) {
        0 | 1 => made.amounts = vec![MOST_AMOUNT; e],
        2 => {
            made.amounts = vec![MOST_AMOUNT + 1; e];
            return Some(at_link(14, 0));
        }
        _ => {}
    }
    let k = random.place(e);
    for place in [k, random.between(k, e - 1)] {
        let right = made.amounts[place];
        made.amounts[place] = random.one_of(&[
            MOST_AMOUNT + 1,
            MOST_AMOUNT + 1,
            // The same in its low bits, or as a signed number below 0.
            right | 1 << 56,
            right | 1 << 63,
            u64::MAX,
        ]);
    }
    Some(at_link(14, k))
}
