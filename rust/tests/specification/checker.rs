//! The claims of the specification.

use super::support::lists::{Checker, Lists};
use super::support::packed::packed;
use super::support::surveys::Draft;
use super::{F2_GROUPS, F2_LINKS};
use corkgully::model::{self, at_group, at_link, nothing, Pair, ACCEPTED, MOST_AMOUNT};
use corkgully::{boundary, check, check_lists, Claim, Place, Refusal};

pub const F7_GROUPS: [Pair; 4] = [(2, 1), (0, 2), (3, 0), (3, 0)];
pub const F7_LINKS: [Pair; 3] = [(0, 1), (1, 2), (1, 3)];

pub fn draft(groups: &[Pair], links: &[Pair]) -> Draft {
    Draft {
        groups: groups.to_vec(),
        links: links.to_vec(),
    }
}

/// Library and model both answer this to a claim of these groups with these amounts.
pub fn claimed(groups: &[Pair], links: &[Pair], set: &[usize], amounts: &[u64], answer: u64) {
    let draft = draft(groups, links);
    let claim = Claim {
        marks: (0..groups.len()).map(|g| set.contains(&g)).collect(),
        amounts: amounts.to_vec(),
    };
    let marks: Vec<u8> = claim.marks.iter().map(|&mark| mark.into()).collect();
    let mut lists = Lists::plain(&draft);
    lists.put_claim(&marks, amounts);
    for check in [boundary::check as Checker, model::check] {
        assert_eq!(lists.checked_by(check), answer);
    }
    let checked = check(&draft.survey(), &claim);
    assert_eq!(checked.map_or_else(packed, |()| ACCEPTED), answer);
}

#[test]
fn f2_with_18_last_is_accepted_and_with_17_or_19_refused() {
    let claimed = |last, answer| claimed(&F2_GROUPS, &F2_LINKS, &[1, 4], &[0, 0, 0, last], answer);
    claimed(18, ACCEPTED);
    claimed(17, at_group(17, 4));
    claimed(19, at_group(17, 1));
}

#[test]
fn f7_with_2_9_9_is_accepted() {
    let all = [0, 1, 2, 3];
    claimed(&F7_GROUPS, &F7_LINKS, &all, &[2, 9, 9], ACCEPTED);
    claimed(&F7_GROUPS, &F7_LINKS, &[0], &[0, 0, 0], at_group(17, 2));
}

#[test]
fn of_two_groups_alike_one_is_not_the_largest_and_none_has_no_dead() {
    let groups = [(1, 1), (1, 1)];
    claimed(&groups, &[], &[0, 1], &[], ACCEPTED);
    claimed(&groups, &[], &[0], &[], at_group(18, 1));
    claimed(&groups, &[], &[1], &[], at_group(18, 0));
    claimed(&groups, &[], &[], &[], nothing(16));
}

#[test]
fn a_group_with_nothing_in_it_belongs_to_the_pick() {
    let groups = [(3, 0), (5, 1), (0, 0)];
    claimed(&groups[..2], &[], &[0], &[], ACCEPTED);
    claimed(&groups, &[], &[0, 2], &[], ACCEPTED);
    claimed(&groups, &[], &[0], &[], at_group(18, 2));
    claimed(&groups, &[], &[2], &[], nothing(16));
}

#[test]
fn closed_is_backward_along_links() {
    // Forward, {4} alone would be the best of F2.
    claimed(&F2_GROUPS, &F2_LINKS, &[4], &[0; 4], at_link(15, 3));
    claimed(&F2_GROUPS, &F2_LINKS, &[2], &[0; 4], at_link(15, 0));
    claimed(&F2_GROUPS, &F2_LINKS, &[0, 2], &[0; 4], at_link(15, 1));
}

#[test]
fn amounts_at_and_above_their_limit() {
    let amounts = [MOST_AMOUNT; 4];
    claimed(&F2_GROUPS, &F2_LINKS, &[1, 4], &amounts, at_group(17, 0));
    let above = [0, 0, MOST_AMOUNT + 1, u64::MAX];
    claimed(&F2_GROUPS, &F2_LINKS, &[1, 4], &above, at_link(14, 2));
}

#[test]
fn surveys_that_are_refused_whatever_is_claimed() {
    claimed(&[(0, 5)], &[], &[0], &[], nothing(12));
    claimed(&[(1, 0)], &[], &[0], &[], ACCEPTED);
    let mut groups = F2_GROUPS;
    groups[4].0 = 1_000_001;
    claimed(&groups, &F2_LINKS, &[1, 4], &[0, 0, 0, 18], at_group(8, 4));
    claimed(&F2_GROUPS, &[(3, 3)], &[1], &[0], nothing(11));
    claimed(&F2_GROUPS, &[(4, 5)], &[1], &[0], at_link(9, 0));
    claimed(&F2_GROUPS, &[(1, 2), (1, 2)], &[1], &[0, 0], at_link(10, 1));
    claimed(&[(1, 1); 129], &[], &[0], &[], nothing(5));
    claimed(&[], &[], &[], &[], nothing(5));
}

#[test]
fn a_short_claim_is_filled_up_and_a_long_one_cut() {
    let survey = draft(&[(3, 0), (5, 1)], &[]).survey();
    let claim = |marks: &[bool], amounts: &[u64]| Claim {
        marks: marks.to_vec(),
        amounts: amounts.to_vec(),
    };
    assert_eq!(check(&survey, &claim(&[true], &[])), Ok(()));
    let longer = claim(&[true, false, true, true], &[1, u64::MAX]);
    assert_eq!(check(&survey, &longer), Ok(()));
    let empty = check(&survey, &claim(&[], &[])).unwrap_err();
    assert_eq!(
        empty.to_string(),
        "refused 16: nothing in the claimed set is dead"
    );
}

#[test]
fn lists_too_short_are_refused_1_and_marks_of_2_are_refused_13() {
    let mut lists = Lists::plain(&draft(&F2_GROUPS, &F2_LINKS));
    lists.put_claim(&[0, 1, 0, 0, 1], &[0, 0, 0, 18]);
    let checked = |lists: &Lists, short: [usize; 4]| {
        check_lists(
            5,
            4,
            &lists.groups[short[0]..],
            &lists.links[short[1]..],
            &lists.marks[short[2]..],
            &lists.amounts[short[3]..],
        )
    };
    let refused = |number, place| Err(Refusal { number, place });
    assert_eq!(checked(&lists, [0; 4]), Ok(()));
    for short in [[1, 0, 0, 0], [0, 1, 0, 0], [0, 0, 1, 0], [0, 0, 0, 1]] {
        assert_eq!(checked(&lists, short), refused(1, Place::Nothing));
    }
    lists.marks[4] = 2;
    assert_eq!(checked(&lists, [0; 4]), refused(13, Place::Group(4)));
}
