//! Which answers of the checker came up, and where.

use super::cases::{Case, WAYS};
use crate::support::coverage::{refused, refused_at_each, though, Coverage, Met};
use crate::support::lent::{Edge, EDGES};
use crate::support::lists;
use corkgully::model::{ACCEPTED, MOST_GROUPS, MOST_LINKS};

pub fn note(coverage: &mut Coverage, case: &Case, edge: Edge, answer: u64) {
    let (n, e) = (case.draft.groups.len(), case.draft.links.len());
    coverage.note_answer(answer, [0, n as u64, e as u64], &case.faults);
    coverage.count(made(case.way));
    case.lists.note(coverage);
    if answer == ACCEPTED {
        coverage.count(accepted("any", edge));
        if (n, e) == (1, 0) {
            coverage.count(accepted("the smallest", edge));
        }
        if (n, e) == (MOST_GROUPS, MOST_LINKS) {
            coverage.count(accepted("the largest", edge));
        }
    }
}

fn made(way: &str) -> Met {
    ("claims made".to_string(), way.to_string())
}

fn accepted(size: &str, edge: Edge) -> Met {
    (format!("accepted, {}", size), format!("lent at {:?}", edge))
}

pub fn wanted() -> Vec<Met> {
    let mut wanted = lists::wanted();
    wanted.extend(WAYS.map(|(way, _)| made(way)));
    for number in [1, 5, 11, 12, 16] {
        wanted.push(refused(number, "nothing"));
    }
    for number in [8, 13, 17, 18] {
        wanted.extend(refused_at_each(number, "group"));
    }
    for number in [9, 10, 14, 15] {
        wanted.extend(refused_at_each(number, "link"));
    }
    let put = [1, 5, 8, 9, 10, 11, 12, 13, 14];
    for (k, &number) in put.iter().enumerate() {
        wanted.extend(put[k + 1..].iter().map(|&other| though(number, other)));
    }
    for size in ["any", "the smallest", "the largest"] {
        wanted.extend(EDGES.map(|edge| accepted(size, edge)));
    }
    wanted
}
