//! One call of the library beside one of the model, on the same bytes.

use super::cases::{case, Case};
use super::coverage::note;
use crate::support::coverage::Coverage;
use crate::support::lent::{Lenders, EDGES};
use crate::support::lists::{Checker, Lists};
use crate::support::packed::packed;
use crate::support::random::Random;
use crate::support::room::now_trying;
use crate::support::run::Trial;
use crate::support::surveys::Draft;
use corkgully::model::{self, choose_by_every_set, chosen, sums, ACCEPTED, MOST_TO_TRY};
use corkgully::{boundary, choose};

/// A case is a survey.
pub struct PickTrial {
    seed: u64,
    lenders: Lenders,
}

const CHECKERS: [(&str, Checker); 2] = [
    ("checked by the library", boundary::check),
    ("checked by the model", model::check),
];

impl Trial for PickTrial {
    fn new(seed: u64) -> PickTrial {
        PickTrial {
            seed,
            lenders: Lenders::new(),
        }
    }

    fn run(&mut self, number: u64, coverage: &mut Coverage) {
        let case = case(self.seed, number);
        let mut random = Random::new(!self.seed, number);
        let edge = random.one_of(&EDGES);
        let (n, e) = (case.lists.n, case.lists.e);

        now_trying(number);
        let [groups, links, marks, amounts] = self.lenders.lend(edge, &case.lists);
        let answer = boundary::choose(n, e, groups, links, marks, amounts);
        let library_amounts = amounts.to_vec();
        let mut lists = case.lists.clone();
        let model_answer = lists.chosen_by(model::choose);

        let told = || {
            format!(
                "case {} of seed {:#x}: {} groups, {} links; {:?}; put in {:?}; answer {:#x}",
                number,
                self.seed,
                case.draft.groups.len(),
                case.draft.links.len(),
                edge,
                case.faults,
                answer
            )
        };
        assert_eq!(answer, model_answer, "the answers differ; {}", told());
        if let Some(refusal) = case.told {
            assert_eq!(answer, refusal, "not what it was made for; {}", told());
            self.lenders.assert_hold(&case.lists, told);
        } else {
            assert_eq!(answer % 65_536, 0, "admitted, but refused; {}", told());
            assert_accepted(&lists, "the model's claim", told);
            // Several amounts can be right, so those of the library are not compared. What stands
            // after them is.
            let written = 8 * case.draft.links.len();
            lists.amounts[..written].copy_from_slice(&library_amounts[..written]);
            self.lenders.assert_hold(&lists, told);
            assert_accepted(&lists, "the library's claim", told);
            compare_with_every_set(&case.draft, &lists, answer, told);
        }
        if number % 4 == 0 && !case.faults.contains(&1) && !case.faults.contains(&5) {
            compare_typed(&case, &lists, answer);
        }
        note(coverage, &case, edge, answer, &lists.marks);
    }
}

/// Library and model accept a claim.
fn assert_accepted(lists: &Lists, whose: &str, told: impl Fn() -> String) {
    for (name, check) in CHECKERS {
        let answer = lists.checked_by(check);
        assert_eq!(answer, ACCEPTED, "{}, {}; {}", whose, name, told());
    }
}

/// Where the groups are few, looking at every set gives the same pick and rounds.
fn compare_with_every_set(draft: &Draft, lists: &Lists, answer: u64, told: impl Fn() -> String) {
    if draft.groups.len() <= MOST_TO_TRY {
        let (pick, rounds) = choose_by_every_set(&draft.groups, &draft.links);
        let marks = pick.iter().map(|&is_in| u8::from(is_in));
        assert_eq!(answer, chosen(rounds), "not the rounds; {}", told());
        assert!(
            marks.eq(lists.marks[..pick.len()].iter().copied()),
            "not the pick; {}",
            told()
        );
    }
}

/// What the typed wrapper gives is what the answer number and the lists say.
fn compare_typed(case: &Case, lists: &Lists, answer: u64) {
    match choose(&case.draft.survey()) {
        Err(refusal) => assert_eq!(packed(refusal), answer),
        Ok(pick) => {
            let n = case.draft.groups.len();
            let set: Vec<bool> = lists.marks[..n].iter().map(|&mark| mark == 1).collect();
            let members: Vec<usize> = (0..n).filter(|&g| set[g]).collect();
            let sums = sums(&case.draft.groups, &set);
            assert_eq!(chosen(pick.rounds), answer);
            assert_eq!(pick.groups, members);
            assert_eq!((pick.dead.into(), pick.live.into()), sums);
            assert_eq!(pick.claim.marks, set);
            let amounts = pick.claim.amounts.iter().flat_map(|x| x.to_le_bytes());
            assert!(amounts.eq(lists.amounts[..8 * case.draft.links.len()].iter().copied()));
        }
    }
}
