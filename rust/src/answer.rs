//! What the library's answer number says.

use std::error::Error;
use std::fmt;

/// Where a refusal's fault is. Blocks, groups and links are numbered from 0.
#[derive(Clone, Copy, Debug, PartialEq, Eq, Hash)]
pub enum Place {
    /// The fault is of the whole, not of one place in it.
    Nothing,
    /// A block of the file.
    Block(u64),
    /// A group of the survey.
    Group(u64),
    /// A link of the survey.
    Link(u64),
}

impl Place {
    /// The number of the block, group or link, and 0 for nothing.
    pub fn number(&self) -> u64 {
        match *self {
            Place::Nothing => 0,
            Place::Block(k) | Place::Group(k) | Place::Link(k) => k,
        }
    }
}

/// Why the library refused: the lowest number that there is a fault for, and of the places that have
/// it the lowest.
#[derive(Clone, Copy, Debug, PartialEq, Eq, Hash)]
pub struct Refusal {
    /// The number of the fault in the table of refusals.
    pub number: u8,
    /// The lowest place that has it.
    pub place: Place,
}

impl Refusal {
    /// The fault, as the table of refusals has it (`docs/SPECIFICATION.md`, 11.1).
    pub fn fault(&self) -> &'static str {
        match (self.number, self.place) {
            (1, _) => "a list is too short: 128 groups and marks, 1,024 links and amounts",
            (2, _) => "the file is empty, too long, or does not end with a whole block",
            (3, _) => "the check words are not those of the content",
            (4, _) => "the number of the first block is not 0, or its kind is not 1",
            (5, _) => "n is 0 or above 128, or e is above 1,024",
            (6, Place::Nothing) => "there are more blocks or fewer than n and e ask for",
            (6, _) => "the number or the kind is not the one that belongs there",
            (7, _) => "a content word without a use is not 0",
            (8, _) => "a count exceeds 1,000,000",
            (9, _) => "no group has the number that is the link's from, or its to",
            (10, _) => "the link does not stand above its predecessor",
            (11, _) => "there is a cycle",
            (12, _) => "no group has anything dead",
            (13, _) => "the mark is something else than 0 or 1",
            (14, _) => "the amount exceeds its limit",
            (15, _) => "the link's to is claimed but its from is not",
            (16, _) => "nothing in the claimed set is dead",
            (17, _) => "the balance is above 0",
            (18, _) => "the largest settled set has the group, and the claim leaves it out",
            _ => "a fault that this wrapper has no words for",
        }
    }
}

impl fmt::Display for Refusal {
    fn fmt(&self, out: &mut fmt::Formatter<'_>) -> fmt::Result {
        write!(out, "refused {}", self.number)?;
        match self.place {
            Place::Nothing => {}
            Place::Block(k) => write!(out, " at block {}", k)?,
            Place::Group(k) => write!(out, " at group {}", k)?,
            Place::Link(k) => write!(out, " at link {}", k)?,
        }
        write!(out, ": {}", self.fault())
    }
}

impl Error for Refusal {}

/// What an answer number says: a refusal where its low 16 bits aren't 0, and otherwise the value
/// above them, whose meaning is the called function's. That no two answers of a function have the
/// same number is proved (`crates/corkgully/proofs/NumberOne.antt`).
///
/// # Panics
///
/// On a number that no function of the library gives. The archive and this wrapper are then of
/// different make, and nothing either says can be relied on.
pub(crate) fn unpack(answer: u64) -> Result<u64, Refusal> {
    let number = (answer % 256) as u8;
    let place = answer >> 16;
    let place = match (number, answer >> 8 & 255) {
        (0, 0) => return Ok(place),
        (1..=255, 0) if place == 0 => Place::Nothing,
        (1..=255, 1) => Place::Block(place),
        (1..=255, 2) => Place::Group(place),
        (1..=255, 3) => Place::Link(place),
        _ => panic!("{:#x} is no answer of the library", answer),
    };
    Err(Refusal { number, place })
}

#[cfg(test)]
mod tests {
    use super::*;

    #[test]
    fn each_sort_of_place_is_unpacked_and_worded() {
        let told = |answer| unpack(answer).unwrap_err().to_string();
        assert_eq!(
            told(5),
            "refused 5: n is 0 or above 128, or e is above 1,024"
        );
        assert_eq!(
            told(6),
            "refused 6: there are more blocks or fewer than n and e ask for"
        );
        assert_eq!(
            told(6 + 256 + (2 << 16)),
            "refused 6 at block 2: the number or the kind is not the one that belongs there"
        );
        assert_eq!(
            told(8 + 512 + (3 << 16)),
            "refused 8 at group 3: a count exceeds 1,000,000"
        );
        assert_eq!(
            told(10 + 768 + (1023 << 16)),
            "refused 10 at link 1023: the link does not stand above its predecessor"
        );
    }

    #[test]
    fn a_place_is_printed_as_its_number_and_nothing_as_0() {
        let number = |answer| unpack(answer).unwrap_err().place.number();
        assert_eq!(number(5), 0);
        assert_eq!(number(6 + 256 + (2 << 16)), 2);
        assert_eq!(number(8 + 512 + (3 << 16)), 3);
        assert_eq!(number(10 + 768 + (1023 << 16)), 1023);
    }

    #[test]
    fn a_success_gives_what_stands_above_its_low_bits() {
        assert_eq!(unpack(0), Ok(0));
        assert_eq!(unpack(5 << 16 | 4 << 32), Ok(5 | 4 << 16));
    }

    #[test]
    #[should_panic(expected = "is no answer of the library")]
    fn a_place_without_a_sort_is_no_answer() {
        let _ = unpack(5 + (1 << 16));
    }

    #[test]
    #[should_panic(expected = "is no answer of the library")]
    fn a_sort_without_a_number_is_no_answer() {
        let _ = unpack(256);
    }
}
