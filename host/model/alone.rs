//! Document 01, "The words of demand 3": served alone, a plain machine without rows, pointer and turns, with the endings at
//! a bad block from change request 2026-04.

use crate::parts::{Registers, BLOCK_SIZE};
use crate::steps::{set_count, steps, stopped, succeeded, Function, Outcome};
use crate::table;

/// Where the blocks that a request names lie in the store, how many they are, and how many of them come before the first bad one.
#[derive(Clone, Copy, PartialEq, Eq, Debug)]
pub struct Named {
    pub first: u64,
    pub count: u64,
    pub good: u64,
    pub written: bool,
}

/// What a post comes to for the machine: its registers, and the blocks it names if it is not answered at once. Window and store are
/// its state; it "is fed the placement at the post too". `None` if the bytes are not a table.
pub fn served_alone(
    table: &[u8],
    placement: Option<u64>,
    posted: Registers,
    window: &mut [u8],
    store: &mut [u8],
) -> Option<(Registers, Option<Named>)> {
    let drives = table::read(table, store.len() as u64 / BLOCK_SIZE).ok()?;
    let request = match steps(&drives, placement, window, posted) {
        Outcome::Answered(answer) => return Some((answer, None)),
        Outcome::Waits(request) => request,
    };
    let first = drives.numbered(request.drive)?.first + request.start;
    let function = Function::of(posted.ah())?;
    let written = function.writes();
    let good = drives.bad_of(request.drive).good(request.start, request.count);
    for i in 0..good {
        let memory = &mut window[(request.buffer + BLOCK_SIZE * i) as usize..][..BLOCK_SIZE as usize];
        let block = &mut store[(BLOCK_SIZE * (first + i)) as usize..][..BLOCK_SIZE as usize];
        if written {
            block.copy_from_slice(memory);
        } else {
            memory.copy_from_slice(block);
        }
    }
    let named = Named { first, count: request.count, good, written };
    if good == request.count {
        return Some((succeeded(posted), Some(named)));
    }
    if function.has_packet() {
        set_count(window, request.packet, good as u16);
    }
    Some((stopped(posted, function.bad_code(), good), Some(named)))
}
