//! The library's reader beside the model's, on many files, good and damaged.
//!
//! `CORKGULLY_FILES` says how many; see `support::run` for the rest.

mod files;
mod support;

use files::coverage::wanted;
use files::trial::FileTrial;
use support::run::Plan;

#[test]
fn the_reader_answers_as_the_model_does() {
    let plan = Plan {
        name: "CORKGULLY_FILES",
        cases: 120_000,
        calls: 120_000,
        successes: 20_000,
        wanted: wanted(),
    };
    plan.run::<FileTrial>();
}
