//! Every claim on every survey of few groups. What is accepted is the pick, found by looking at
//! every set.

use crate::support::lists::Lists;
use crate::support::small::{every_list, every_survey};
use corkgully::boundary;
use corkgully::model::{self, choose_by_every_set, choose_by_paths, Pair, ACCEPTED};

/// Tries every set with every list of amounts from 0 to `most_amount` on every survey of n groups
/// with these counts.
pub fn try_every_claim(n: u32, counts: &[Pair], most_amount: u64) {
    let all_marks = every_list(n as usize, &[0, 1]);
    let steps: Vec<u64> = (0..=most_amount).collect();
    let (mut surveys, mut claims, mut accepted) = (0, 0, 0);
    for draft in every_survey(n, counts) {
        let (pick, _) = choose_by_every_set(&draft.groups, &draft.links);
        let pick: Vec<u8> = pick.iter().map(|&is_in| u8::from(is_in)).collect();
        let mut lists = Lists::plain(&draft);
        for amounts in every_list(draft.links.len(), &steps) {
            for marks in &all_marks {
                claims += 1;
                if answer(&mut lists, marks, &amounts) == ACCEPTED {
                    accepted += 1;
                    assert_eq!(marks, &pick, "{:?} {:?}", draft, amounts);
                }
            }
        }
        // And the pick is accepted, with amounts that need not be among those above.
        let amounts = choose_by_paths(&draft.groups, &draft.links).amounts;
        assert_eq!(answer(&mut lists, &pick, &amounts), ACCEPTED);
        surveys += 1;
    }
    println!(
        "{} surveys, {} claims, {} accepted",
        surveys, claims, accepted
    );
}

/// What library and model answer to a claim.
fn answer(lists: &mut Lists, marks: &[u8], amounts: &[u64]) -> u64 {
    lists.put_claim(marks, amounts);
    let [library, model] = [boundary::check, model::check].map(|check| lists.checked_by(check));
    assert_eq!(library, model, "{:?} {:?}", marks, amounts);
    library
}
