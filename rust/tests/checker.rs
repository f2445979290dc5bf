//! The library's checker beside the model's, on many claims, right and wrong, and on every claim on
//! few groups.
//!
//! `CORKGULLY_SURVEYS` says on how many surveys; see `support::run` for the rest.

mod claims;
mod support;

use claims::coverage::wanted;
use claims::few::try_every_claim;
use claims::trial::ClaimTrial;
use support::run::Plan;

#[test]
fn the_checker_answers_as_the_model_does() {
    // On each survey up to 18 claims, one in each way.
    let plan = Plan {
        name: "CORKGULLY_SURVEYS",
        cases: 8_000,
        calls: 100_000,
        successes: 20_000,
        wanted: wanted(),
    };
    plan.run::<ClaimTrial>();
}

#[test]
fn every_claim_on_one_group() {
    try_every_claim(1, &[(1, 0), (1, 1), (2, 1), (1_000_000, 1_000_000)], 0);
}

/// The amounts go further than any claim on these counts needs.
#[test]
fn every_claim_on_two_groups() {
    let counts = [
        (0, 0),
        (0, 1),
        (0, 2),
        (1, 0),
        (1, 1),
        (1, 2),
        (2, 0),
        (2, 1),
        (3, 2),
    ];
    try_every_claim(2, &counts, 12);
}

#[test]
fn every_claim_on_three_groups() {
    let counts = [(0, 0), (0, 1), (1, 0), (1, 1), (2, 0), (2, 1)];
    try_every_claim(3, &counts, 4);
}

#[test]
fn every_claim_on_four_groups() {
    try_every_claim(4, &[(0, 1), (1, 0)], 1);
}
