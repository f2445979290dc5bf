//! A survey in memory, and its groups and links as the 8 bytes that cross the boundary.

/// The most groups a survey can have, and so the entries that a lent list of groups must have.
pub const MOST_GROUPS: usize = 128;
/// The most links a survey can have, and so the entries that a lent list of links must have.
pub const MOST_LINKS: usize = 1024;

/// The bytes of one entry of a list.
pub(crate) const ENTRY: usize = 8;

/// What a group holds. The two counts are different sorts of number, and are not mixed.
#[derive(Clone, Copy, Debug, PartialEq, Eq, Hash)]
pub struct Group {
    /// The count of dead objects, 0 to 1,000,000.
    pub dead: u32,
    /// The count of live objects, 0 to 1,000,000.
    pub live: u32,
}

/// It allows for pointers from objects of one group to objects of another.
#[derive(Clone, Copy, Debug, PartialEq, Eq, Hash, PartialOrd, Ord)]
pub struct Link {
    /// The group whose object points.
    pub from: u32,
    /// The group that is pointed to.
    pub to: u32,
}

/// A survey: its groups, numbered as they stand, and its links, ascending and without a cycle.
#[derive(Clone, Debug, PartialEq, Eq, Hash)]
pub struct Survey {
    /// The groups, 1 to [`MOST_GROUPS`].
    pub groups: Vec<Group>,
    /// The links, 0 to [`MOST_LINKS`], by where they come from and then where they go.
    pub links: Vec<Link>,
}

impl Survey {
    /// The survey that the bytes of its two lists say.
    pub(crate) fn from_lists(groups: &[u8], links: &[u8]) -> Survey {
        Survey {
            groups: groups
                .chunks_exact(ENTRY)
                .map(|group| Group {
                    dead: word(group, 0),
                    live: word(group, 4),
                })
                .collect(),
            links: links
                .chunks_exact(ENTRY)
                .map(|link| Link {
                    from: word(link, 0),
                    to: word(link, 4),
                })
                .collect(),
        }
    }

    /// The bytes of the groups and of the links, as many as a lent list must have.
    pub(crate) fn lists(&self) -> (Vec<u8>, Vec<u8>) {
        let groups = self.groups.iter().map(|group| [group.dead, group.live]);
        let links = self.links.iter().map(|link| [link.from, link.to]);
        let bytes = |words: [u32; 2]| words.into_iter().flat_map(u32::to_le_bytes);
        (
            padded(groups.flat_map(bytes), ENTRY * MOST_GROUPS),
            padded(links.flat_map(bytes), ENTRY * MOST_LINKS),
        )
    }
}

/// These bytes, and 0 after them up to so many.
pub(crate) fn padded(bytes: impl Iterator<Item = u8>, length: usize) -> Vec<u8> {
    let mut list: Vec<u8> = bytes.collect();
    list.resize(list.len().max(length), 0);
    list
}

/// The word of 4 bytes, low byte first, that stands at `at`.
fn word(bytes: &[u8], at: usize) -> u32 {
    u32::from_le_bytes([bytes[at], bytes[at + 1], bytes[at + 2], bytes[at + 3]])
}
