//! Which answers of the chooser came up, and where.

use super::cases::Case;
use crate::support::coverage::{refused, refused_at_each, though, Coverage, Met};
use crate::support::lent::{Edge, EDGES};
use crate::support::{lists, shapes};
use corkgully::model::{sums, MOST_GROUPS, MOST_LINKS};

/// More rounds than this are counted together.
const MANY_ROUNDS: u64 = 7;

pub fn note(coverage: &mut Coverage, case: &Case, edge: Edge, answer: u64, marks: &[u8]) {
    let (n, e) = (case.draft.groups.len(), case.draft.links.len());
    coverage.note_answer(answer, [0, n as u64, e as u64], &case.faults);
    case.lists.note(coverage);
    if answer % 256 == 0 {
        note_pick(coverage, case, edge, answer, marks);
    }
}

fn note_pick(coverage: &mut Coverage, case: &Case, edge: Edge, answer: u64, marks: &[u8]) {
    if let Some(shaped) = &case.shaped {
        shaped.note(coverage);
    }
    let groups = &case.draft.groups;
    let (n, e) = (groups.len(), case.draft.links.len());
    coverage.count(chosen("any", edge));
    if (n, e) == (1, 0) {
        coverage.count(chosen("the smallest", edge));
    }
    if (n, e) == (MOST_GROUPS, MOST_LINKS) {
        coverage.count(chosen("the largest", edge));
    }
    coverage.count(rounds(answer >> 16));

    let set: Vec<bool> = marks[..n].iter().map(|&mark| mark == 1).collect();
    let picked = (0..n).filter(|&g| set[g]);
    coverage.count(pick(match picked.clone().count() {
        k if k == n => ALL,
        1 => ONE,
        _ => SOME,
    }));
    if sums(groups, &set).1 == 0 {
        coverage.count(pick(NO_LIVE));
    }
    if picked.clone().any(|g| groups[g] == (0, 0)) {
        coverage.count(pick(EMPTY_GROUP));
    }
}

const ALL: &str = "all groups";
const ONE: &str = "one group of several";
const SOME: &str = "some groups";
const NO_LIVE: &str = "no live";
const EMPTY_GROUP: &str = "with a 0:0 group";

fn pick(what: &str) -> Met {
    ("picks".to_string(), what.to_string())
}

fn rounds(rounds: u64) -> Met {
    let what = if rounds < MANY_ROUNDS {
        rounds.to_string()
    } else {
        format!("{} or more", MANY_ROUNDS)
    };
    ("rounds".to_string(), what)
}

fn chosen(size: &str, edge: Edge) -> Met {
    (format!("chosen, {}", size), format!("lent at {:?}", edge))
}

pub fn wanted() -> Vec<Met> {
    let mut wanted = lists::wanted();
    wanted.extend(shapes::wanted());
    wanted.extend([ALL, ONE, SOME, NO_LIVE, EMPTY_GROUP].map(pick));
    wanted.extend((1..=MANY_ROUNDS).map(rounds));
    for number in [1, 5, 11, 12] {
        wanted.push(refused(number, "nothing"));
    }
    wanted.extend(refused_at_each(8, "group"));
    for number in [9, 10] {
        wanted.extend(refused_at_each(number, "link"));
    }
    let put = [1, 5, 8, 9, 10, 11, 12];
    for (k, &number) in put.iter().enumerate() {
        wanted.extend(put[k + 1..].iter().map(|&other| though(number, other)));
    }
    for size in ["any", "the smallest", "the largest"] {
        wanted.extend(EDGES.map(|edge| chosen(size, edge)));
    }
    wanted
}
