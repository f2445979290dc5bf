//! The cases: which file is tried, in which lists, and what is known of the answer beforehand.

use super::{file_faults, wild};
use crate::support::lists::{length, GROUPS_LENGTHS, LINKS_LENGTHS};
use crate::support::random::Random;
use crate::support::survey_faults;
use crate::support::surveys::{admitted, Draft};
use corkgully::model::{nothing, MOST_GROUPS, MOST_LINKS};

#[derive(Default)]
pub struct Case {
    pub file: Vec<u8>,
    /// The lengths of the lent lists in bytes.
    pub groups_length: usize,
    pub links_length: usize,
    /// The answer, where the way the file was made says it. The model has to agree too.
    pub told: Option<u64>,
    /// The faults that were put in.
    pub faults: Vec<u64>,
    /// The survey that the file was made from, where nothing was damaged.
    pub draft: Option<Draft>,
}

pub fn case(seed: u64, number: u64) -> Case {
    let mut random = Random::new(seed, number);
    let random = &mut random;
    let mut case = match number % 10 {
        0..=2 => good(random),
        3..=6 => faulty(random),
        _ => Case {
            file: wild::file(random),
            ..Case::default()
        },
    };
    lengths(&mut case, random);
    case
}

fn good(random: &mut Random) -> Case {
    let draft = admitted(random);
    Case {
        file: draft.file(),
        told: Some(draft.success()),
        draft: Some(draft),
        ..Case::default()
    }
}

/// One fault, or several at once, so that the order of their numbers is tried. They are put in from
/// the highest number down; the answer is then the last one's.
fn faulty(random: &mut Random) -> Case {
    let lowest = random.between(2, 12) as u64;
    let mut wanted: Vec<u64> = (lowest + 1..=12).collect();
    random.shuffle(&mut wanted);
    wanted.truncate(random.one_of(&[0, 0, 1, 1, 2, 10]));
    wanted.push(lowest);

    let mut draft = admitted(random);
    let mut told = None;
    let mut faults = Vec::new();
    for number in (8..=12).rev().filter(|number| wanted.contains(number)) {
        if let Some(answer) = survey_faults::put(number, &mut draft, random) {
            told = Some(answer);
            faults.push(number);
        }
    }
    let mut file = draft.file();
    for number in (2..=7).rev().filter(|number| wanted.contains(number)) {
        told = Some(file_faults::put(number, &mut file, &draft, random));
        faults.push(number);
    }
    Case {
        file,
        told: told.or_else(|| Some(draft.success())),
        faults,
        ..Case::default()
    }
}

/// Lists of all lengths.
fn lengths(case: &mut Case, random: &mut Random) {
    case.groups_length = length(&GROUPS_LENGTHS, random);
    case.links_length = length(&LINKS_LENGTHS, random);
    if random.once_in(4) {
        case.groups_length = 8 * MOST_GROUPS;
        case.links_length = 8 * MOST_LINKS;
    }
    if case.groups_length < 8 * MOST_GROUPS || case.links_length < 8 * MOST_LINKS {
        case.told = Some(nothing(1));
        case.faults.push(1);
    }
}
