//! How long the library's reader takes on the largest file beside the model's, and how much stack
//! it uses there.
//!
//! Both run in one program, turn about, on the same bytes and into the same kind of lists, which
//! are not cleared between calls. Under an emulator the times say nothing and their ratio only a
//! little.

mod speed;

use corkgully::model::{self, Pair, MOST_COUNT, MOST_GROUPS, MOST_LINKS};
use corkgully::{boundary, read};

type Reader = fn(&[u8], &mut [u8], &mut [u8]) -> u64;

fn main() {
    let file = largest_file();
    let survey = read(&file).expect("the largest file is admitted");
    println!(
        "the largest file: {} groups, {} links, {} bytes",
        survey.groups.len(),
        survey.links.len(),
        file.len()
    );
    speed::compare(
        "corkgully_read",
        call(boundary::read, &file),
        call(model::read, &file),
    );
    speed::print_stack("corkgully_read", call(boundary::read, &file));
    speed::print_stack(
        "the model, with lists on the heap",
        call(model::read, &file),
    );
}

/// A call of a reader with lists of its own.
fn call(reader: Reader, file: &[u8]) -> impl FnMut() + '_ {
    let mut groups = vec![0; 8 * MOST_GROUPS];
    let mut links = vec![0; 8 * MOST_LINKS];
    move || {
        let answer = reader(file, &mut groups, &mut links);
        assert_eq!(answer % 65_536, 0, "refused");
    }
}

/// As many groups and links as a survey can have; link k skips over some groups, so that paths are
/// long and short.
fn largest_file() -> Vec<u8> {
    let n = MOST_GROUPS as u32;
    let groups: Vec<Pair> = (0..n)
        .map(|g| (MOST_COUNT - g, MOST_COUNT - 2 * g))
        .collect();
    let mut links: Vec<Pair> = Vec::new();
    for skip in 1..n {
        // The groups in an order of their own: 37 and the number of groups have no common divisor.
        let group = |place: u32| place * 37 % n;
        links.extend((0..n - skip).map(|place| (group(place), group(place + skip))));
    }
    links.truncate(MOST_LINKS);
    links.sort_unstable();
    model::build(n, links.len() as u32, &groups, &links)
}
