//! The exported functions as they are: numbers and byte slices in, one answer number out.
//!
//! An entry of a list has 8 bytes, the lowest first: a group its dead word and its live word, a link
//! its from and its to, an amount one number. A mark is a single byte. Of a list only whole entries
//! count.
//!
//! A refusal is answered by its number, 256 times the sort of its place and 65,536 times the place,
//! added up; the sort is 0 for nothing, 1 for a block, 2 for a group and 3 for a link. The low 16
//! bits of a success are 0.

#![allow(unsafe_code)]

mod exported {
    // Nothing compares these lines with the library's source: a slice is a pointer and then its
    // length in bytes.
    extern "C" {
        pub fn corkgully_read(
            file: *const u8,
            file_length: usize,
            groups: *mut u8,
            groups_length: usize,
            links: *mut u8,
            links_length: usize,
        ) -> u64;

        pub fn corkgully_choose(
            n: u64,
            e: u64,
            groups: *const u8,
            groups_length: usize,
            links: *const u8,
            links_length: usize,
            marks: *mut u8,
            marks_length: usize,
            amounts: *mut u8,
            amounts_length: usize,
        ) -> u64;

        pub fn corkgully_check(
            n: u64,
            e: u64,
            groups: *const u8,
            groups_length: usize,
            links: *const u8,
            links_length: usize,
            marks: *const u8,
            marks_length: usize,
            amounts: *const u8,
            amounts_length: usize,
        ) -> u64;
    }
}

/// Reads a survey file into lent lists of groups and links. Success is 65,536·n + 4,294,967,296·e,
/// and the first n groups and first e links are written; a refusal writes nothing.
pub fn read(file: &[u8], groups: &mut [u8], links: &mut [u8]) -> u64 {
    // SAFETY: each pointer comes with the length of the slice it was taken from, the slices are
    // borrowed until the call returns, and the two that are written overlap nothing. The function
    // asks nothing else of its caller: it is proved for every input.
    unsafe {
        exported::corkgully_read(
            file.as_ptr(),
            file.len(),
            groups.as_mut_ptr(),
            groups.len(),
            links.as_mut_ptr(),
            links.len(),
        )
    }
}

/// Chooses the pick of a survey. Success is 65,536·rounds, and n marks and e amounts are written: a
/// claim that [`check`] accepts. A refusal writes nothing.
pub fn choose(
    n: u64,
    e: u64,
    groups: &[u8],
    links: &[u8],
    marks: &mut [u8],
    amounts: &mut [u8],
) -> u64 {
    // SAFETY: as in `read`; of n and e nothing is asked either.
    unsafe {
        exported::corkgully_choose(
            n,
            e,
            groups.as_ptr(),
            groups.len(),
            links.as_ptr(),
            links.len(),
            marks.as_mut_ptr(),
            marks.len(),
            amounts.as_mut_ptr(),
            amounts.len(),
        )
    }
}

/// Checks the claim that a set is the pick of a survey. Success, the claim accepted, is 0. Nothing
/// is written.
pub fn check(n: u64, e: u64, groups: &[u8], links: &[u8], marks: &[u8], amounts: &[u8]) -> u64 {
    // SAFETY: as in `read`; of n and e nothing is asked either.
    unsafe {
        exported::corkgully_check(
            n,
            e,
            groups.as_ptr(),
            groups.len(),
            links.as_ptr(),
            links.len(),
            marks.as_ptr(),
            marks.len(),
            amounts.as_ptr(),
            amounts.len(),
        )
    }
}
