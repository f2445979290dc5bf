//! Memory with nothing readable right before it and right behind it: a call that steps outside a
//! slice at an edge of it is killed.

use std::cell::Cell;

// The page is as large as any machine has that could emulate x86-64, and so a multiple of its
// pages.
const PAGE: usize = 65536;

const NO_ACCESS: i32 = 0;
const READ_AND_WRITE: i32 = 1 | 2;
const PRIVATE_AND_ANONYMOUS: i32 = 2 | 32;
const SEGMENTATION_FAULT: i32 = 11;
const DEFAULT: usize = 0;
const STANDARD_ERROR: i32 = 2;

// The C library's, with the constants of Linux on x86-64.
extern "C" {
    fn mmap(at: *mut u8, size: usize, access: i32, how: i32, file: i32, offset: i64) -> *mut u8;
    fn mprotect(at: *mut u8, size: usize, access: i32) -> i32;
    fn munmap(at: *mut u8, size: usize) -> i32;
    fn signal(number: i32, handler: usize) -> usize;
    fn write(file: i32, bytes: *const u8, length: usize) -> isize;
}

pub struct Room {
    start: *mut u8,
    size: usize,
}

impl Room {
    /// Room for at least so many bytes.
    pub fn new(size: usize) -> Room {
        let size = (size + PAGE - 1) / PAGE * PAGE;
        // SAFETY: fresh memory is asked for, and access is given to what lies inside it.
        unsafe {
            let whole = mmap(
                std::ptr::null_mut(),
                size + 2 * PAGE,
                NO_ACCESS,
                PRIVATE_AND_ANONYMOUS,
                -1,
                0,
            );
            assert!(whole as isize != -1, "no memory for a room");
            let start = whole.add(PAGE);
            assert_eq!(mprotect(start, size, READ_AND_WRITE), 0);
            Room { start, size }
        }
    }

    /// All of it; before the first byte and behind the last nothing can be read.
    pub fn bytes(&mut self) -> &mut [u8] {
        // SAFETY: the memory is this room's alone, and lives as long as it.
        unsafe { std::slice::from_raw_parts_mut(self.start, self.size) }
    }
}

impl Drop for Room {
    fn drop(&mut self) {
        // SAFETY: this is what was asked for in new, and nobody has a part of it any more.
        unsafe {
            munmap(self.start.sub(PAGE), self.size + 2 * PAGE);
        }
    }
}

thread_local! {
    static CASE: Cell<u64> = const { Cell::new(0) };
}

/// Notes which case this thread tries.
pub fn now_trying(case: u64) {
    CASE.with(|cell| cell.set(case));
}

/// Has a segmentation fault say which case it was before it ends the program. In the emulator the
/// program ends without that line.
pub fn tell_of_faults() {
    // SAFETY: the handler only formats a number on its stack and writes it.
    unsafe {
        signal(SEGMENTATION_FAULT, told as extern "C" fn(i32) as usize);
    }
}

extern "C" fn told(_: i32) {
    let mut digits = [b' '; 20];
    let mut rest = CASE.with(Cell::get);
    for digit in digits.iter_mut().rev() {
        *digit = b'0' + (rest % 10) as u8;
        rest /= 10;
        if rest == 0 {
            break;
        }
    }
    let start = digits.iter().take_while(|digit| **digit == b' ').count();
    let parts: [&[u8]; 3] = [
        b"case ",
        &digits[start..],
        b": touched memory that wasn't lent\n",
    ];
    // SAFETY: the bytes are on the stack; and the fault, come to again, ends the program.
    unsafe {
        for part in parts {
            write(STANDARD_ERROR, part.as_ptr(), part.len());
        }
        signal(SEGMENTATION_FAULT, DEFAULT);
    }
}
