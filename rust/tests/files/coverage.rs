//! Which answers of the reader came up, and where.

use super::cases::Case;
use super::file_faults::word;
use crate::support::coverage::{lent, refused, refused_at_each, though, Coverage, Met};
use crate::support::lent::{Edge, EDGES};
use crate::support::lists::{GROUPS_LENGTHS, LINKS_LENGTHS};
use corkgully::model::{BLOCK, MOST_COUNT, MOST_GROUPS, MOST_LINKS};

pub fn note(coverage: &mut Coverage, case: &Case, edge: Edge, answer: u64) {
    coverage.note_answer(answer, sizes(&case.file), &case.faults);
    if answer % 256 == 0 {
        note_success(coverage, case, edge, answer);
    }
    coverage.count(lent("groups", case.groups_length));
    coverage.count(lent("links", case.links_length));
}

fn note_success(coverage: &mut Coverage, case: &Case, edge: Edge, answer: u64) {
    let (n, e) = ((answer >> 16 & 0xffff) as usize, (answer >> 32) as usize);
    coverage.count(read("any", edge));
    if (n, e) == (1, 0) {
        coverage.count(read("the smallest", edge));
    }
    if (n, e) == (MOST_GROUPS, MOST_LINKS) {
        coverage.count(read("the largest", edge));
        let exactly = (case.groups_length, case.links_length) == (8 * n, 8 * e);
        coverage.count(largest(if exactly { JUST } else { LONGER }));
        if let Some(draft) = &case.draft {
            let limit = (MOST_COUNT, MOST_COUNT);
            if draft.groups.iter().all(|&group| group == limit) {
                coverage.count(largest(AT_THE_LIMIT));
            }
        }
    }
}

/// The numbers of blocks, groups and links that a file has or says.
fn sizes(file: &[u8]) -> [u64; 3] {
    let blocks = file.len() / BLOCK;
    let said = |w| {
        if blocks == 0 {
            0
        } else {
            word(file, 0, w).into()
        }
    };
    [blocks as u64, said(2), said(3)]
}

const JUST: &str = "lists just long enough";
const LONGER: &str = "lists longer";
const AT_THE_LIMIT: &str = "counts at the limit";

fn read(size: &str, edge: Edge) -> Met {
    (format!("read, {}", size), format!("lent at {:?}", edge))
}

fn largest(how: &str) -> Met {
    ("read, the largest".to_string(), how.to_string())
}

pub fn wanted() -> Vec<Met> {
    let mut wanted = vec![
        refused(4, "first block"),
        largest(JUST),
        largest(LONGER),
        largest(AT_THE_LIMIT),
    ];
    for number in [1, 2, 5, 6, 11, 12] {
        wanted.push(refused(number, "nothing"));
    }
    for number in [3, 6, 7] {
        wanted.extend(refused_at_each(number, "block"));
    }
    wanted.extend(refused_at_each(8, "group"));
    for number in [9, 10] {
        wanted.extend(refused_at_each(number, "link"));
    }
    for number in 1..=12 {
        wanted.extend((number + 1..=12).map(|other| though(number, other)));
    }
    wanted.extend(GROUPS_LENGTHS.map(|length| lent("groups", length)));
    wanted.extend(LINKS_LENGTHS.map(|length| lent("links", length)));
    for size in ["any", "the smallest", "the largest"] {
        wanted.extend(EDGES.map(|edge| read(size, edge)));
    }
    wanted
}
