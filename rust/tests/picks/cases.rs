//! The cases: which survey is tried, in which lists, and what is known of the answer beforehand.

use crate::support::lists::Lists;
use crate::support::random::Random;
use crate::support::shapes::{shaped, Shaped};
use crate::support::survey_faults;
use crate::support::surveys::{admitted, Draft};
use corkgully::model::nothing;

pub struct Case {
    pub lists: Lists,
    /// The refusal, where one is known.
    pub told: Option<u64>,
    /// The faults that were put in.
    pub faults: Vec<u64>,
    /// What stands in the lists.
    pub draft: Draft,
    /// The shape that it was made in, if any.
    pub shaped: Option<Shaped>,
}

/// The faults that are put in, in the order in which they are looked for. Fault 1 comes with the
/// lists.
const PUT: [u64; 6] = [5, 8, 9, 10, 11, 12];

pub fn case(seed: u64, number: u64) -> Case {
    let mut random = Random::new(seed, number);
    let random = &mut random;
    let shaped = (number % 4 != 0).then(|| shaped(random));
    let mut draft = match &shaped {
        Some(shaped) => shaped.draft.clone(),
        None => admitted(random),
    };

    // They are put in from the last to be looked for to the first; the answer is then the last
    // one's.
    let wanted = wanted_faults(random);
    let mut told = None;
    let mut faults = Vec::new();
    for number in PUT.iter().rev().copied().filter(|n| wanted.contains(n)) {
        let answer = match number {
            5 => Some(nothing(5)),
            _ => survey_faults::put(number, &mut draft, random),
        };
        if answer.is_some() {
            told = answer;
            faults.push(number);
        }
    }
    let mut lists = Lists::any(&draft, random);
    if faults.contains(&5) {
        lists.leave_range(random);
    }
    if lists.too_short() {
        told = Some(nothing(1));
        faults.push(1);
    }
    Case {
        lists,
        told,
        faults,
        draft,
        shaped,
    }
}

/// Most often none; else one, or several at once, so that the order of their numbers is tried.
fn wanted_faults(random: &mut Random) -> Vec<u64> {
    if !random.once_in(5) {
        return Vec::new();
    }
    let lowest = random.below(PUT.len());
    let mut wanted = PUT[lowest + 1..].to_vec();
    random.shuffle(&mut wanted);
    wanted.truncate(random.one_of(&[0, 0, 1, 1, 2, 10]));
    wanted.push(PUT[lowest]);
    wanted
}
