//! The cases: which claim is tried, in which lists, and what is known of the answer beforehand.

use super::sheet::{Made, Sheet};
use super::{claim_faults, far, near};
use crate::support::lists::Lists;
use crate::support::random::Random;
use crate::support::survey_faults;
use crate::support::surveys::Draft;
use corkgully::model::nothing;

pub struct Case {
    pub way: &'static str,
    pub lists: Lists,
    /// The answer, where the way the claim was made says it. The model has to agree too.
    pub told: Option<u64>,
    /// The faults that were put in.
    pub faults: Vec<u64>,
    /// What stands in the lists.
    pub draft: Draft,
    pub marks: Vec<u8>,
    pub amounts: Vec<u64>,
}

type Way = fn(&Sheet, &mut Random) -> Option<Made>;

/// The ways to make a claim; each is tried on each survey.
pub const WAYS: [(&str, Way); 18] = [
    ("right", near::right),
    ("amounts moved round", near::moved_round),
    ("an amount off by one", near::amount_off_by_one),
    ("another amount", near::another_amount),
    ("one mark off", near::one_mark_off),
    ("smaller", near::smaller),
    (
        "smaller, the pick's amounts",
        near::smaller_with_the_amounts_of_the_pick,
    ),
    ("a 0:0 group left out", near::empty_group_left_out),
    (
        "amounts of the first round",
        near::amounts_of_the_first_round,
    ),
    ("no amounts", near::no_amounts),
    ("nothing claimed", far::nothing_claimed),
    ("no dead claimed", far::no_dead_claimed),
    ("all claimed", far::all_claimed),
    ("any closed", far::any_closed),
    ("not closed", far::not_closed),
    ("all at the limit", far::all_at_the_limit),
    ("noise in range", far::noise_in_range),
    ("noise", far::noise),
];

/// The faults that are put in on top of a claim, in the order in which they are looked for. Fault 1
/// comes with the lists.
const PUT: [u64; 8] = [5, 8, 9, 10, 11, 12, 13, 14];

pub fn case(sheet: &Sheet, way: usize, random: &mut Random) -> Option<Case> {
    let (way, make) = WAYS[way];
    let mut made = make(sheet, random)?;
    let noise = made.has_noise();
    let mut draft = sheet.draft.clone();
    let mut told = made.told;
    let mut faults = Vec::new();

    // They are put in from the last to be looked for to the first; the answer is then the last
    // one's.
    let wanted = wanted_faults(random);
    for number in PUT.iter().rev().copied().filter(|n| wanted.contains(n)) {
        let answer = match number {
            5 => Some(nothing(5)),
            13 | 14 if noise => None, // it has them, and nobody knows where
            13 | 14 => claim_faults::put(number, &mut made, random),
            _ => survey_faults::put(number, &mut draft, random),
        };
        if answer.is_some() {
            told = answer;
            faults.push(number);
        }
    }
    // A cycle can have brought links.
    made.amounts.resize(draft.links.len(), 0);

    let mut lists = Lists::any(&draft, random);
    lists.put_claim(&made.marks, &made.amounts);
    if faults.contains(&5) {
        lists.leave_range(random);
    }
    if lists.too_short() {
        told = Some(nothing(1));
        faults.push(1);
    }
    Some(Case {
        way,
        lists,
        told,
        faults,
        draft,
        marks: made.marks,
        amounts: made.amounts,
    })
}

/// Most often none; else one, or several at once, so that the order of their numbers is tried.
fn wanted_faults(random: &mut Random) -> Vec<u64> {
    if !random.once_in(4) {
        return Vec::new();
    }
    let lowest = random.below(PUT.len());
    let mut wanted = PUT[lowest + 1..].to_vec();
    random.shuffle(&mut wanted);
    wanted.truncate(random.one_of(&[0, 0, 1, 1, 2, 10]));
    wanted.push(PUT[lowest]);
    wanted
}
