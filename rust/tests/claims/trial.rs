//! One call of the library beside one of the model, on the same bytes.

use super::cases::{case, Case, WAYS};
use super::coverage::note;
use super::sheet::Sheet;
use crate::support::coverage::Coverage;
use crate::support::lent::{Lenders, EDGES};
use crate::support::packed::packed;
use crate::support::random::Random;
use crate::support::room::now_trying;
use crate::support::run::Trial;
use corkgully::{boundary, check, model, Claim};

/// A case is a survey with a claim made in every way.
pub struct ClaimTrial {
    seed: u64,
    lenders: Lenders,
}

impl Trial for ClaimTrial {
    fn new(seed: u64) -> ClaimTrial {
        ClaimTrial {
            seed,
            lenders: Lenders::new(),
        }
    }

    fn run(&mut self, number: u64, coverage: &mut Coverage) {
        let sheet = Sheet::new(&mut Random::new(self.seed, number));
        for way in 0..WAYS.len() {
            let mut random = Random::new(!self.seed, number * WAYS.len() as u64 + way as u64);
            if let Some(case) = case(&sheet, way, &mut random) {
                self.try_claim(number, &case, &mut random, coverage);
            }
        }
    }
}

impl ClaimTrial {
    fn try_claim(
        &mut self,
        number: u64,
        case: &Case,
        random: &mut Random,
        coverage: &mut Coverage,
    ) {
        let lists = &case.lists;
        let edge = random.one_of(&EDGES);
        now_trying(number);
        let [groups, links, marks, amounts] = self.lenders.lend(edge, lists);
        let answer = boundary::check(lists.n, lists.e, groups, links, marks, amounts);
        let model_answer = lists.checked_by(model::check);

        let told = || {
            format!(
                "case {} of seed {:#x}, {}: {} groups, {} links; {:?}; put in {:?}; answer {:#x}",
                number,
                self.seed,
                case.way,
                case.draft.groups.len(),
                case.draft.links.len(),
                edge,
                case.faults,
                answer
            )
        };
        assert_eq!(answer, model_answer, "the answers differ; {}", told());
        self.lenders.assert_hold(lists, told);
        if let Some(answer) = case.told {
            assert_eq!(
                model_answer,
                answer,
                "not the answer it was made for; {}",
                told()
            );
        }
        let typed = case.marks.iter().all(|&mark| mark <= 1)
            && !case.faults.contains(&1)
            && !case.faults.contains(&5);
        if typed && random.once_in(4) {
            let claim = Claim {
                marks: case.marks.iter().map(|&mark| mark == 1).collect(),
                amounts: case.amounts.clone(),
            };
            let checked = check(&case.draft.survey(), &claim);
            assert_eq!(checked.map_or_else(packed, |()| 0), answer, "{}", told());
        }
        note(coverage, case, edge, model_answer);
    }
}
