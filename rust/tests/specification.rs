//! The cases of the specification, each put to the library and to the model: here those that a
//! reader can meet, and in modules of their own those of the checker and the chooser.

#[path = "specification/checker.rs"]
mod checker;
#[path = "specification/chooser.rs"]
mod chooser;
mod support;

use corkgully::model::{self, Pair};
use corkgully::{boundary, read, read_into, Group, Link, Place, Refusal};

const F2_GROUPS: [Pair; 5] = [(2, 2), (4, 3), (1, 12), (6, 3), (10, 3)];
const F2_LINKS: [Pair; 4] = [(0, 2), (1, 2), (1, 3), (1, 4)];

fn f2() -> Vec<u8> {
    model::build(5, 4, &F2_GROUPS, &F2_LINKS)
}

/// A survey of five groups with these links.
fn five_with(links: &[Pair]) -> Vec<u8> {
    model::build(5, links.len() as u32, &F2_GROUPS, links)
}

/// Library and model both give this answer; returned is the library's refusal.
fn refused(file: &[u8], number: u8, place: Place) -> Refusal {
    let (mut groups, mut links) = (vec![7; 8 * 128], vec![9; 8 * 1024]);
    let answer = boundary::read(file, &mut groups, &mut links);
    assert_eq!(answer, model::read(file, &mut groups, &mut links));
    assert!(
        groups.iter().all(|&byte| byte == 7) && links.iter().all(|&byte| byte == 9),
        "a refusal changes nothing"
    );
    let refusal = read(file).unwrap_err();
    assert_eq!(refusal, Refusal { number, place });
    refusal
}

#[test]
fn f2_is_a_file_of_3_blocks() {
    assert_eq!(f2().len(), 3 * 512);
}

#[test]
fn the_header_of_f2_has_check_words_11_and_1363() {
    let file = f2();
    assert_eq!(model::check_words(&file[..512]), (11, 1363));
    assert_eq!(file[504..512], [11, 0, 0, 0, 0x53, 0x05, 0, 0]);
}

#[test]
fn f2_is_read() {
    let survey = read(&f2()).unwrap();
    let groups = F2_GROUPS.map(|(dead, live)| Group { dead, live });
    let links = F2_LINKS.map(|(from, to)| Link { from, to });
    assert_eq!(survey.groups, groups);
    assert_eq!(survey.links, links);
}

#[test]
fn places_after_the_survey_stay() {
    let (mut groups, mut links) = (vec![7; 8 * 128 + 3], vec![9; 8 * 1024 + 5]);
    assert_eq!(read_into(&f2(), &mut groups, &mut links), Ok((5, 4)));
    assert_eq!(groups[..8], [2, 0, 0, 0, 2, 0, 0, 0]);
    assert_eq!(groups[32..40], [10, 0, 0, 0, 3, 0, 0, 0]);
    assert!(groups[40..].iter().all(|&byte| byte == 7));
    assert_eq!(links[24..32], [1, 0, 0, 0, 4, 0, 0, 0]);
    assert!(links[32..].iter().all(|&byte| byte == 9));
}

#[test]
fn lists_too_short_are_refused_1() {
    let too_short = Err(Refusal {
        number: 1,
        place: Place::Nothing,
    });
    let (mut groups, mut links) = (vec![7; 8 * 128], vec![9; 8 * 1024]);
    assert_eq!(read_into(&f2(), &mut groups[..1023], &mut links), too_short);
    assert_eq!(read_into(&f2(), &mut groups, &mut links[..8191]), too_short);
    assert_eq!(read_into(&[], &mut [], &mut []), too_short);
    assert_eq!(read_into(&f2(), &mut groups, &mut links), Ok((5, 4)));
}

#[test]
fn links_that_are_refused() {
    refused(&five_with(&[(3, 3)]), 11, Place::Nothing);
    refused(&five_with(&[(4, 5)]), 9, Place::Link(0));
    refused(&five_with(&[(1, 2), (1, 2)]), 10, Place::Link(1));
    refused(&five_with(&[(0, 1), (1, 2), (2, 1)]), 11, Place::Nothing);
}

#[test]
fn sizes_that_are_refused() {
    let groups = vec![(1, 1); 129];
    refused(&model::build(129, 0, &groups, &[]), 5, Place::Nothing);
    refused(&model::build(0, 0, &[], &[]), 5, Place::Nothing);
    refused(&model::build(1, 1025, &groups[..1], &[]), 5, Place::Nothing);
}

#[test]
fn counts_that_are_refused() {
    let mut groups = F2_GROUPS;
    groups[3].1 = 1_000_001;
    let refusal = refused(&model::build(5, 4, &groups, &F2_LINKS), 8, Place::Group(3));
    assert_eq!(
        refusal.to_string(),
        "refused 8 at group 3: a count exceeds 1,000,000"
    );
    refused(&model::build(1, 0, &[(0, 5)], &[]), 12, Place::Nothing);
    assert!(read(&model::build(1, 0, &[(1, 0)], &[])).is_ok());
}

#[test]
fn a_full_survey_at_the_limit_is_read() {
    let groups = vec![(1_000_000, 1_000_000); 128];
    let survey = read(&model::build(128, 0, &groups, &[])).unwrap();
    assert_eq!(survey.groups.len(), 128);

    let links: Vec<Pair> = (0..128)
        .flat_map(|from| (from + 1..128).map(move |to| (from, to)))
        .take(1024)
        .collect();
    let file = model::build(128, 1024, &groups, &links);
    assert_eq!(file.len(), 10_752);
    assert_eq!(read(&file).unwrap().links.len(), 1024);
}

#[test]
fn files_that_are_no_surveys() {
    refused(&[], 2, Place::Nothing);
    refused(&f2()[..1535], 2, Place::Nothing);
    refused(&vec![0; 10_752 + 512], 2, Place::Nothing);
    refused(&[0; 512], 3, Place::Block(0));
    refused(&f2()[512..], 4, Place::Block(0));
    refused(&f2()[..1024], 6, Place::Nothing);

    let mut swapped = f2();
    swapped[512..].rotate_left(512);
    let refusal = refused(&swapped, 6, Place::Block(1));
    assert_eq!(
        refusal.to_string(),
        "refused 6 at block 1: the number or the kind is not the one that belongs there"
    );

    let mut leftover = f2();
    leftover[4 * 125] = 1;
    model::mend(&mut leftover);
    refused(&leftover, 7, Place::Block(0));
}
