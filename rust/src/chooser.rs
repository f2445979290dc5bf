//! The chooser.

use crate::answer::{unpack, Refusal};
use crate::boundary;
use crate::claim::Claim;
use crate::survey::{Survey, ENTRY, MOST_GROUPS, MOST_LINKS};

/// The pick of a survey.
#[derive(Clone, Debug, PartialEq, Eq, Hash)]
pub struct Pick {
    /// The numbers of its groups, ascending.
    pub groups: Vec<usize>,
    /// The sum of its dead counts.
    pub dead: u64,
    /// The sum of its live counts.
    pub live: u64,
    /// How many rounds it took, the last among them.
    pub rounds: u64,
    /// The claim that it is the pick, as [`check`](crate::check) accepts it.
    pub claim: Claim,
}

/// Chooses the pick of a survey: the closed set with most dead per live object, and the largest of
/// those.
///
/// ```
/// use corkgully::{check, choose, Group, Survey};
///
/// let counts = [(3, 0), (5, 1), (0, 0)];
/// let survey = Survey {
///     groups: counts.iter().map(|&(dead, live)| Group { dead, live }).collect(),
///     links: vec![],
/// };
/// let pick = choose(&survey).unwrap();
/// assert_eq!(pick.groups, [0, 2]);
/// assert_eq!((pick.dead, pick.live, pick.rounds), (3, 0, 2));
/// assert_eq!(check(&survey, &pick.claim), Ok(()));
/// ```
///
/// # Errors
///
/// Refusals 5 and 8 to 12: the lowest number that the survey has a fault for, and of the places that
/// have it the lowest.
pub fn choose(survey: &Survey) -> Result<Pick, Refusal> {
    let (groups, links) = survey.lists();
    let (n, e) = (survey.groups.len(), survey.links.len());
    // On the heap, since the caller's stack may be small.
    let mut marks = vec![0; MOST_GROUPS];
    let mut amounts = vec![0; ENTRY * MOST_LINKS];
    let rounds = choose_into(
        n as u64,
        e as u64,
        &groups,
        &links,
        &mut marks,
        &mut amounts,
    )?;

    let claim = Claim::from_lists(&marks[..n], &amounts[..ENTRY * e]);
    let chosen: Vec<usize> = (0..n).filter(|&g| claim.marks[g]).collect();
    let counts = || chosen.iter().map(|&g| survey.groups[g]);
    Ok(Pick {
        dead: counts().map(|group| u64::from(group.dead)).sum(),
        live: counts().map(|group| u64::from(group.live)).sum(),
        groups: chosen,
        rounds,
        claim,
    })
}

/// Chooses the pick of a survey given as lent lists, and gives the number of rounds. n marks and e
/// amounts are written; what stands after them stays, and a refusal changes nothing.
///
/// # Errors
///
/// Refusal 1 where `groups` or `marks` has fewer than [`MOST_GROUPS`] whole entries, or `links` or
/// `amounts` fewer than [`MOST_LINKS`]; else as [`choose`].
pub fn choose_into(
    n: u64,
    e: u64,
    groups: &[u8],
    links: &[u8],
    marks: &mut [u8],
    amounts: &mut [u8],
) -> Result<u64, Refusal> {
    unpack(boundary::choose(n, e, groups, links, marks, amounts))
}
