//! Every survey of few groups: the pick and the rounds are those found by looking at every set.

use crate::support::lists::{Checker, Lists};
use crate::support::small::every_survey;
use corkgully::boundary;
use corkgully::model::{self, choose_by_every_set, chosen, Pair, ACCEPTED};

pub fn try_every_survey(n: u32, counts: &[Pair]) {
    let mut surveys = 0;
    for draft in every_survey(n, counts) {
        let (pick, rounds) = choose_by_every_set(&draft.groups, &draft.links);
        let pick: Vec<u8> = pick.iter().map(|&is_in| u8::from(is_in)).collect();
        let mut lists = Lists::plain(&draft);
        let answer = lists.chosen_by(boundary::choose);
        assert_eq!(answer, chosen(rounds), "{:?}", draft);
        assert_eq!(lists.marks[..pick.len()], pick, "{:?}", draft);
        for check in [boundary::check as Checker, model::check] {
            assert_eq!(lists.checked_by(check), ACCEPTED, "{:?}", draft);
        }
        surveys += 1;
    }
    println!("{} surveys", surveys);
}
