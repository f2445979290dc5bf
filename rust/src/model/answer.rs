//! The boundary's answer numbers: number + 256·sort + 65,536·place for a refusal; 65,536·n +
//! 4,294,967,296·e for a survey that was read, 65,536·rounds for a pick, 0 for a claim accepted.

/// The answer of a checker that accepts a claim.
pub const ACCEPTED: u64 = 0;

/// The answer of a reader that read n groups and e links.
pub fn read_all(n: usize, e: usize) -> u64 {
    65_536 * n as u64 + 4_294_967_296 * e as u64
}

/// The answer of a chooser that chose in so many rounds.
pub fn chosen(rounds: u64) -> u64 {
    65_536 * rounds
}

/// A refusal whose place is nothing.
pub fn nothing(number: u64) -> u64 {
    number
}

/// A refusal at a block.
pub fn at_block(number: u64, block: usize) -> u64 {
    number + 256 + 65_536 * block as u64
}

/// A refusal at a group.
pub fn at_group(number: u64, group: usize) -> u64 {
    number + 2 * 256 + 65_536 * group as u64
}

/// A refusal at a link.
pub fn at_link(number: u64, link: usize) -> u64 {
    number + 3 * 256 + 65_536 * link as u64
}
