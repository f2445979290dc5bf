//! Small families of files, each tried to the last member.

mod support;

use corkgully::{boundary, model};
use support::small::{every_links, reaches_itself};

/// What the library answers; it does the same to its lists as the model, and the model says the
/// same.
fn answer(file: &[u8]) -> u64 {
    let (mut groups, mut links) = (vec![7; 8 * 128], vec![9; 8 * 1024]);
    let (mut model_groups, mut model_links) = (groups.clone(), links.clone());
    let answer = boundary::read(file, &mut groups, &mut links);
    let model_answer = model::read(file, &mut model_groups, &mut model_links);
    assert_eq!(answer, model_answer);
    assert!(groups == model_groups && links == model_links);
    answer
}

/// The survey F2.
fn f2() -> Vec<u8> {
    let groups = [(2, 2), (4, 3), (1, 12), (6, 3), (10, 3)];
    model::build(5, 4, &groups, &[(0, 2), (1, 2), (1, 3), (1, 4)])
}

#[test]
fn every_bit_of_f2() {
    let file = f2();
    for bit in 0..8 * file.len() {
        let mut damaged = file.clone();
        damaged[bit / 8] ^= 1 << (bit % 8);
        let block = bit / 8 / 512;
        assert_eq!(answer(&damaged), model::at_block(3, block), "bit {}", bit);
        model::mend(&mut damaged);
        answer(&damaged);
    }
}

#[test]
fn every_length_of_f2() {
    let mut file = f2();
    file.resize(12_000, 0);
    model::mend(&mut file);
    for length in 0..=file.len() {
        let odd = length % 512 != 0;
        let refused_2 = answer(&file[..length]) == model::nothing(2);
        assert_eq!(refused_2, odd || length == 0 || length > 10_752);
    }
}

/// 66,066 surveys.
#[test]
fn every_set_of_links_between_few_groups() {
    let mut tried = 0;
    for n in 1..=4 {
        for links in every_links(n) {
            let e = links.len();
            let file = model::build(n, e as u32, &vec![(1, 1); n as usize], &links);
            let expected = if reaches_itself(n, &links) {
                model::nothing(11)
            } else {
                model::read_all(n as usize, e)
            };
            assert_eq!(answer(&file), expected, "{:?}", links);
            tried += 1;
        }
    }
    assert_eq!(tried, 66_066);
}
