//! The reader of survey files.

use crate::answer::{unpack, Refusal};
use crate::boundary;
use crate::survey::{Survey, ENTRY, MOST_GROUPS, MOST_LINKS};

/// Reads a survey file.
///
/// ```
/// use corkgully::{model, read};
///
/// // Five groups and the link (3,3), which by itself is a cycle.
/// let groups = [(2, 2), (4, 3), (1, 12), (6, 3), (10, 3)];
/// let refusal = read(&model::build(5, 1, &groups, &[(3, 3)])).unwrap_err();
/// assert_eq!(refusal.number, 11);
/// assert_eq!(refusal.to_string(), "refused 11: there is a cycle");
/// ```
///
/// # Errors
///
/// Refusals 2 to 12: the lowest number that the file has a fault for, and of the places that have
/// it the lowest.
pub fn read(file: &[u8]) -> Result<Survey, Refusal> {
    // On the heap, since the caller's stack may be small.
    let mut groups = vec![0; ENTRY * MOST_GROUPS];
    let mut links = vec![0; ENTRY * MOST_LINKS];
    let (n, e) = read_into(file, &mut groups, &mut links)?;
    Ok(Survey::from_lists(
        &groups[..ENTRY * n],
        &links[..ENTRY * e],
    ))
}

/// Reads a survey file into lent lists and gives n and e. The first n groups and first e links are
/// written, in 8 bytes each; what stands after them stays, and a refusal changes nothing.
///
/// # Errors
///
/// Refusal 1 where `groups` has fewer than [`MOST_GROUPS`] whole entries or `links` fewer than
/// [`MOST_LINKS`]; else as [`read`].
pub fn read_into(
    file: &[u8],
    groups: &mut [u8],
    links: &mut [u8],
) -> Result<(usize, usize), Refusal> {
    let value = unpack(boundary::read(file, groups, links))?;
    Ok(((value & 0xffff) as usize, (value >> 16) as usize))
}
