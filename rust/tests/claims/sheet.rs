//! A survey with its pick, on which claims are made.

use crate::support::random::Random;
use crate::support::shapes::shaped;
use crate::support::surveys::{admitted, Draft};
use corkgully::model::{choose_by_paths, heaviest, sums, weights, Pick, Set, MOST_AMOUNT};

pub struct Sheet {
    pub draft: Draft,
    pub pick: Pick,
}

/// A claim, and its answer where the way it was made says it.
pub struct Made {
    pub marks: Vec<u8>,
    pub amounts: Vec<u64>,
    pub told: Option<u64>,
}

impl Sheet {
    pub fn new(random: &mut Random) -> Sheet {
        let draft = if random.once_in(4) {
            admitted(random)
        } else {
            shaped(random).draft
        };
        let pick = choose_by_paths(&draft.groups, &draft.links);
        Sheet { draft, pick }
    }

    pub fn n(&self) -> usize {
        self.draft.groups.len()
    }

    pub fn e(&self) -> usize {
        self.draft.links.len()
    }

    /// The sum of the dead counts of a set.
    pub fn dead(&self, set: &[bool]) -> i128 {
        sums(&self.draft.groups, set).0
    }

    /// The amounts that would show a set to be the pick, if it were as good as the pick.
    pub fn own_amounts(&self, set: &[bool]) -> Vec<u64> {
        heaviest(&weights(&self.draft.groups, set), &self.draft.links).amounts
    }

    /// The least closed set with all of this one.
    pub fn closed(&self, set: Set) -> Set {
        self.grown(set, |_| false)
    }

    /// The least set with all of this one that is closed, and that a link whose start it has leads
    /// into, too, if the link says so.
    pub fn grown(&self, mut set: Set, leads_on: impl Fn(usize) -> bool) -> Set {
        loop {
            let mut grew = false;
            for (k, &(from, to)) in self.draft.links.iter().enumerate() {
                let (p, q) = (from as usize, to as usize);
                if set[q] && !set[p] {
                    set[p] = true;
                    grew = true;
                }
                if set[p] && !set[q] && leads_on(k) {
                    set[q] = true;
                    grew = true;
                }
            }
            if !grew {
                return set;
            }
        }
    }

    /// Some groups, few or many.
    pub fn any_set(&self, random: &mut Random) -> Set {
        let one_in = random.one_of(&[1, 2, 4, self.n()]);
        (0..self.n()).map(|_| random.once_in(one_in)).collect()
    }

    /// A claim of this set with these amounts, whatever comes of it.
    pub fn claim(&self, set: &[bool], amounts: Vec<u64>) -> Made {
        Made {
            marks: set.iter().map(|&is_in| u8::from(is_in)).collect(),
            amounts,
            told: None,
        }
    }

    /// The claim that is right.
    pub fn right(&self) -> Made {
        self.claim(&self.pick.set, self.pick.amounts.clone())
    }
}

impl Made {
    pub fn told(self, answer: u64) -> Made {
        Made {
            told: Some(answer),
            ..self
        }
    }

    /// Whether a mark or an amount is outside its range.
    pub fn has_noise(&self) -> bool {
        let wrong_mark = self.marks.iter().any(|&mark| mark > 1);
        wrong_mark || self.amounts.iter().any(|&amount| amount > MOST_AMOUNT)
    }
}
