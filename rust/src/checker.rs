//! The checker of claims.

use crate::answer::{unpack, Refusal};
use crate::boundary;
use crate::claim::Claim;
use crate::survey::Survey;

/// Checks the claim that a set of groups is the pick of a survey. It is accepted exactly when the
/// balance rule holds, and then the set is the pick.
///
/// A mark that the claim has no entry for says "not in the set", and a missing amount is 0; entries
/// beyond the survey's groups and links are not looked at.
///
/// ```
/// use corkgully::{check, Claim, Group, Place, Survey};
///
/// // Two groups 1:1 without links: the pick is both.
/// let survey = Survey {
///     groups: vec![Group { dead: 1, live: 1 }; 2],
///     links: vec![],
/// };
/// let both = Claim { marks: vec![true, true], amounts: vec![] };
/// assert_eq!(check(&survey, &both), Ok(()));
///
/// let one = Claim { marks: vec![true, false], amounts: vec![] };
/// let refusal = check(&survey, &one).unwrap_err();
/// assert_eq!((refusal.number, refusal.place), (18, Place::Group(1)));
/// ```
///
/// # Errors
///
/// Refusals 5, 8 to 12 and 14 to 18: the lowest number that survey or claim has a fault for, and of
/// the places that have it the lowest.
pub fn check(survey: &Survey, claim: &Claim) -> Result<(), Refusal> {
    let (groups, links) = survey.lists();
    let (marks, amounts) = claim.lists();
    let (n, e) = (survey.groups.len() as u64, survey.links.len() as u64);
    check_lists(n, e, &groups, &links, &marks, &amounts)
}

/// Checks a claim on a survey, all given as lent lists. The first n groups and marks and the first
/// e links and amounts are looked at, and nothing is written.
///
/// # Errors
///
/// Refusal 1 where a list of groups or marks has fewer than [`MOST_GROUPS`](crate::MOST_GROUPS)
/// whole entries, or one of links or amounts fewer than [`MOST_LINKS`](crate::MOST_LINKS); else as
/// [`check`], and 13 for a mark that is something else than 0 or 1.
pub fn check_lists(
    n: u64,
    e: u64,
    groups: &[u8],
    links: &[u8],
    marks: &[u8],
    amounts: &[u8],
) -> Result<(), Refusal> {
    let value = unpack(boundary::check(n, e, groups, links, marks, amounts))?;
    assert_eq!(value, 0, "no answer of the checker");
    Ok(())
}
