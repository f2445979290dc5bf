//! A refusal as the boundary's number.

use corkgully::{Place, Refusal};

pub fn packed(refusal: Refusal) -> u64 {
    let (sort, place) = match refusal.place {
        Place::Nothing => (0, 0),
        Place::Block(k) => (1, k),
        Place::Group(k) => (2, k),
        Place::Link(k) => (3, k),
    };
    u64::from(refusal.number) + 256 * sort + 65_536 * place
}
