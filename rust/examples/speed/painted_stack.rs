//! How deep a call goes: it runs on a stack of its own that was painted before, and the lowest byte
//! that lost its paint is looked for.

use super::support::room::Room;
use std::arch::asm;

const SIZE: usize = 1 << 20;

/// The bytes of stack that a job wrote to, with the few that starting it takes. What it only set
/// aside below them isn't seen.
pub fn bytes_used(mut job: impl FnMut()) -> usize {
    // A byte that happens to be written in the first colour is not in the second.
    let first = depth(&mut job, 0x5a);
    let second = depth(&mut job, 0xa5);
    first.max(second)
}

fn depth(job: &mut dyn FnMut(), paint: u8) -> usize {
    let mut room = Room::new(SIZE);
    let stack = room.bytes();
    stack.fill(paint);
    let size = stack.len();
    let top = stack.as_mut_ptr_range().end;
    let mut job: &mut dyn FnMut() = job;
    // SAFETY: the room's end is a multiple of 16, nothing else uses the room, and `start` gets the
    // job that it expects. A job that goes deeper than the room is killed where nothing is
    // readable; one that panics ends the program, as `start` can't be unwound.
    unsafe {
        asm!(
            "mov r12, rsp",
            "mov rsp, {top}",
            "call {start}",
            "mov rsp, r12",
            top = in(reg) top,
            start = in(reg) start as extern "C" fn(*mut &mut dyn FnMut()),
            in("rdi") &mut job as *mut &mut dyn FnMut(),
            out("r12") _,
            clobber_abi("C"),
        );
    }
    let untouched = room
        .bytes()
        .iter()
        .take_while(|&&byte| byte == paint)
        .count();
    size - untouched
}

extern "C" fn start(job: *mut &mut dyn FnMut()) {
    // SAFETY: `depth` hands over its own job, and waits.
    unsafe { (*job)() }
}
