//! How long the library's checker takes on the largest surveys beside the model's, and how much
//! stack it and the chooser use there.
//!
//! Both checkers run in one program, turn about, on the same lists. The claims are right, so that
//! every fault is looked for and none is found. Under an emulator the times say nothing and their
//! ratio only a little.

mod speed;

use corkgully::model::{choose_by_paths, ACCEPTED, MOST_GROUPS, MOST_LINKS};
use corkgully::{boundary, model};
use speed::support::lists::{Checker, Lists};
use speed::support::random::Random;
use speed::support::shapes::draft;

fn main() {
    for (shape, counts) in [
        ("dense", "any"),
        ("dense", "dead and live apart"),
        ("two-sided", "dead and live apart"),
        ("dense", "at the limit"),
    ] {
        let lists = largest(shape, counts);
        println!(
            "{} groups, {} links, {}, {}",
            lists.n, lists.e, shape, counts
        );
        speed::compare(
            "corkgully_check",
            call(boundary::check, &lists),
            call(model::check, &lists),
        );
        speed::print_stack("corkgully_check", call(boundary::check, &lists));
        let mut lists = lists.clone();
        speed::print_stack("corkgully_choose", move || {
            assert_eq!(lists.chosen_by(boundary::choose) % 65_536, 0, "refused");
        });
    }
}

/// A call of a checker, which accepts.
fn call(check: Checker, lists: &Lists) -> impl FnMut() + '_ {
    move || assert_eq!(lists.checked_by(check), ACCEPTED)
}

/// The right claim on a survey with as many groups and links as there can be.
fn largest(shape: &str, counts: &str) -> Lists {
    let full = (0..).map(|case| draft(shape, counts, MOST_GROUPS, &mut Random::new(1, case)));
    let draft = full
        .take(1000)
        .find(|draft| draft.links.len() == MOST_LINKS)
        .expect("the shape has room for so many links");
    let pick = choose_by_paths(&draft.groups, &draft.links);
    let marks: Vec<u8> = pick.set.iter().map(|&is_in| u8::from(is_in)).collect();
    let mut lists = Lists::plain(&draft);
    lists.put_claim(&marks, &pick.amounts);
    lists
}
