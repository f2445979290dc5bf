//! The picks of the specification.

use super::checker::{claimed, draft, F7_GROUPS, F7_LINKS};
use super::support::lists::{Chooser, Lists};
use super::support::packed::packed;
use super::{F2_GROUPS, F2_LINKS};
use corkgully::model::{self, at_group, at_link, chosen, nothing, Pair, ACCEPTED};
use corkgully::{boundary, choose};

/// Library and model both choose these groups in so many rounds; returned are D and L.
fn picked(groups: &[Pair], links: &[Pair], pick: &[usize], rounds: u64) -> (u64, u64) {
    let given = choose(&draft(groups, links).survey()).unwrap();
    assert_eq!(given.groups, pick);
    assert_eq!(given.rounds, rounds);
    // By the claim that came with it, the model and the library judge the pick alike.
    claimed(groups, links, pick, &given.claim.amounts, ACCEPTED);
    answered(groups, links, chosen(rounds));
    (given.dead, given.live)
}

/// Library and model both answer this, write the same marks and leave what they should.
fn answered(groups: &[Pair], links: &[Pair], answer: u64) {
    let draft = draft(groups, links);
    let typed = choose(&draft.survey());
    assert_eq!(
        typed.map_or_else(packed, |pick| chosen(pick.rounds)),
        answer
    );
    let before = Lists::plain(&draft);
    let (n, e) = match answer % 256 {
        0 => (groups.len(), links.len()),
        _ => (0, 0), // a refusal changes nothing
    };
    let marks = [boundary::choose as Chooser, model::choose].map(|choose| {
        let mut lists = before.clone();
        assert_eq!(lists.chosen_by(choose), answer);
        assert_eq!(lists.marks[n..], before.marks[n..]);
        assert_eq!(lists.amounts[8 * e..], before.amounts[8 * e..]);
        lists.marks
    });
    assert_eq!(marks[0], marks[1]);
}

#[test]
fn f2() {
    let sums = picked(&F2_GROUPS, &F2_LINKS, &[1, 4], 4);
    assert_eq!(sums, (14, 6));
}

#[test]
fn f7() {
    let sums = picked(&F7_GROUPS, &F7_LINKS, &[0, 1, 2, 3], 1);
    assert_eq!(sums, (8, 3));
}

#[test]
fn groups_without_links() {
    assert_eq!(picked(&[(1, 1), (1, 1)], &[], &[0, 1], 1), (2, 2));
    assert_eq!(picked(&[(3, 0), (5, 1)], &[], &[0], 2), (3, 0));
    assert_eq!(picked(&[(3, 0), (5, 1), (0, 0)], &[], &[0, 2], 2), (3, 0));
    assert_eq!(picked(&[(1, 0)], &[], &[0], 1), (1, 0));
}

#[test]
fn a_full_survey_at_the_limit_is_all_picked() {
    let all: Vec<usize> = (0..128).collect();
    let sums = picked(&[(1_000_000, 1_000_000); 128], &[], &all, 1);
    assert_eq!(sums, (128_000_000, 128_000_000));
}

#[test]
fn surveys_that_are_refused() {
    answered(&[(0, 5)], &[], nothing(12));
    let mut groups = F2_GROUPS;
    groups[0].0 = 1_000_001;
    answered(&groups, &F2_LINKS, at_group(8, 0));
    answered(&F2_GROUPS, &[(3, 3)], nothing(11));
    answered(&F2_GROUPS, &[(4, 5)], at_link(9, 0));
    answered(&F2_GROUPS, &[(1, 2), (1, 2)], at_link(10, 1));
    answered(&[(1, 1); 129], &[], nothing(5));
    answered(&[], &[], nothing(5));
    assert_eq!(
        choose(&draft(&[(0, 5)], &[]).survey())
            .unwrap_err()
            .to_string(),
        "refused 12: no group has anything dead"
    );
}
