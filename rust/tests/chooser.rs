//! The library's chooser beside the model's, on many surveys, and on every survey of few groups.
//!
//! `CORKGULLY_SURVEYS` says on how many; see `support::run` for the rest.

mod picks;
mod support;

use corkgully::model::Pair;
use picks::coverage::wanted;
use picks::few::try_every_survey;
use picks::trial::PickTrial;
use support::run::Plan;

#[test]
fn the_chooser_answers_as_the_model_does() {
    // Those that are not refused are counted as successes.
    let plan = Plan {
        name: "CORKGULLY_SURVEYS",
        cases: 30_000,
        calls: 30_000,
        successes: 20_000,
        wanted: wanted(),
    };
    plan.run::<PickTrial>();
}

#[test]
fn every_survey_of_one_or_two_groups() {
    let counts: Vec<Pair> = (0..25).map(|k| (k / 5, k % 5)).collect();
    try_every_survey(1, &counts);
    try_every_survey(2, &counts);
}

#[test]
fn every_survey_of_three_groups() {
    let counts: Vec<Pair> = (0..9).map(|k| (k / 3, k % 3)).collect();
    try_every_survey(3, &counts);
}

#[test]
fn every_survey_of_four_groups() {
    try_every_survey(4, &[(0, 0), (0, 1), (1, 0), (2, 1)]);
}
