//! Document 01, "Calls the host makes", with the house numbers of "Numbers given back", the placement of change request 2026-01, the
//! reader of 2026-03, the bad blocks of 2026-04 and the converter of 2026-06. The calls of include/edd_desk.h, with slices and references for its pointers.

use crate::addresses::{Address, Geometry};
use crate::block;
use crate::convert;
use crate::fragments::{self, Reader};
use crate::parameters;
use crate::parts::{self, Desk, Registers, Request, Row, BLOCK_SIZE, GUESTS};
use crate::steps::{self, Function, Outcome, WITHDRAWN};
use crate::table;

pub const DONE: u32 = 0;
/// post: the row waits; turn: idle; a reader: nothing is settled. The papers give these no number.
pub const NOTHING_YET: u32 = 256;

const BUFFER_SHORT: u32 = 19;
const NO_SUCH_GUEST: u32 = 20;
const ROW_NOT_VACANT: u32 = 21;
const NOT_FINISHED: u32 = 22;
const NOT_WAITING: u32 = 23;
const LENGTH_DIFFERS: u32 = 24;
const NOT_ACCEPTED: u32 = 25;
const BAD_PLACE: u32 = 26;
const OUTSIDE: u32 = 4;
const CONVERSION: u32 = 10;

/// "It moves the next 16 blocks".
const TURN_BLOCKS: u64 = 16;

// ---- the tests in their order: 25, 24, 20, then the row or 19

fn accepted(desk: &[u8]) -> Result<Desk, u32> {
    block::read(desk).ok_or(NOT_ACCEPTED)
}

fn same_lengths(desk: &Desk, arena: &[u8], store: &[u8]) -> Result<(), u32> {
    if arena.len() as u64 == desk.arena_length && store.len() as u64 == desk.store_length {
        Ok(())
    } else {
        Err(LENGTH_DIFFERS)
    }
}

fn guest_of(guest: u64) -> Result<usize, u32> {
    if guest < GUESTS as u64 {
        Ok(guest as usize)
    } else {
        Err(NO_SUCH_GUEST)
    }
}

/// Runs a call whose tests leave it early with their number.
fn number(call: impl FnOnce() -> Result<u32, u32>) -> u32 {
    call().unwrap_or_else(|refusal| refusal)
}

// ---- the calls

/// The header's EDD_VERSION; a change request that a program can see raises both.
pub fn version() -> u32 {
    6
}

pub fn desk_size() -> u64 {
    block::DESK_SIZE as u64
}

pub fn open(desk: &mut [u8], table: &[u8], arena_length: u64, store_length: u64, place: &mut u64) -> u32 {
    if desk.len() != block::DESK_SIZE {
        return NOT_ACCEPTED;
    }
    match table::read(table, store_length / BLOCK_SIZE) {
        Err(refusal) => {
            *place = refusal.place;
            refusal.number
        }
        Ok(drives) => {
            let opened = Desk { rows: [Row::Vacant; GUESTS], drives, pointer: 0, placements: [None; GUESTS], arena_length, store_length };
            block::write(desk, &opened);
            DONE
        }
    }
}

pub fn write(desk: &[u8], out: &mut [u8], written: &mut u64) -> u32 {
    number(|| {
        let read = accepted(desk)?;
        let length = table::length(&read.drives);
        if out.len() < length {
            return Err(BUFFER_SHORT);
        }
        table::write(&read.drives, out);
        *written = length as u64;
        Ok(DONE)
    })
}

pub fn post(desk: &mut [u8], arena: &mut [u8], store: &[u8], guest: u64, registers: &mut Registers) -> u32 {
    number(|| {
        let read = accepted(desk)?;
        same_lengths(&read, arena, store)?;
        let row = guest_of(guest)?;
        let Row::Vacant = read.rows[row] else {
            return Err(ROW_NOT_VACANT);
        };
        match steps::steps(&read.drives, read.placements[row], parts::window(arena, guest), *registers) {
            Outcome::Answered(answer) => {
                *registers = answer;
                Ok(DONE)
            }
            Outcome::Waits(request) => {
                block::put_row(desk, row, &Row::Waiting(request));
                Ok(NOTHING_YET)
            }
        }
    })
}

/// "the first waiting row at or after the pointer, counting cyclically".
fn next_waiting(desk: &Desk) -> Option<(usize, Request)> {
    (0..GUESTS).map(|step| (desk.pointer as usize + step) % GUESTS).find_map(|guest| match desk.rows[guest] {
        Row::Waiting(request) => Some((guest, request)),
        _ => None,
    })
}

/// Moves blocks `request.moved` to `request.moved + blocks` of the request. An acceptable row's ranges lie inside store and window.
fn move_blocks(desk: &Desk, request: &Request, blocks: u64, window: &mut [u8], store: &mut [u8]) {
    let drive = desk.drives.numbered(request.drive).expect("an acceptable row names a drive");
    let length = (BLOCK_SIZE * blocks) as usize;
    let at = (request.buffer + BLOCK_SIZE * request.moved) as usize;
    let in_store = (BLOCK_SIZE * (drive.first + request.start + request.moved)) as usize;
    let (memory, blocks) = (&mut window[at..at + length], &mut store[in_store..in_store + length]);
    if Function::of(request.registers.ah()).is_some_and(Function::writes) {
        blocks.copy_from_slice(memory);
    } else {
        memory.copy_from_slice(blocks);
    }
}

/// "A turn that reaches a bad block moves the good ones before it and finishes the request: carry set, AH = 10h for a read, CCh for a
/// write, the packet's count word (AL for 02h and 03h) giving the good blocks moved in the whole request. The count word is written after
/// the data".
fn stop_at_bad_block(request: &Request, moved: u64, window: &mut [u8]) -> Registers {
    let function = Function::of(request.registers.ah()).expect("an acceptable row has a function that waits");
    if function.has_packet() {
        steps::set_count(window, request.packet, moved as u16);
    }
    steps::stopped(request.registers, function.bad_code(), moved)
}

pub fn turn(desk: &mut [u8], arena: &mut [u8], store: &mut [u8], guest: &mut u64, moved: &mut u64) -> u32 {
    number(|| {
        let read = accepted(desk)?;
        same_lengths(&read, arena, store)?;
        let Some((row, request)) = next_waiting(&read) else {
            return Ok(NOTHING_YET);
        };
        let due = TURN_BLOCKS.min(request.count - request.moved);
        let blocks = read.drives.bad_of(request.drive).good(request.start + request.moved, due);
        let window = parts::window(arena, row as u64);
        move_blocks(&read, &request, blocks, window, store);
        let after = request.moved + blocks;
        let next = if blocks < due {
            Row::Finished(stop_at_bad_block(&request, after, window))
        } else if after == request.count {
            Row::Finished(steps::succeeded(request.registers))
        } else {
            Row::Waiting(Request { moved: after, ..request })
        };
        block::put_row(desk, row, &next);
        block::put_pointer(desk, ((row + 1) % GUESTS) as u64);
        *guest = row as u64;
        *moved = blocks;
        Ok(DONE)
    })
}

pub fn collect(desk: &mut [u8], guest: u64, registers: &mut Registers) -> u32 {
    number(|| {
        let read = accepted(desk)?;
        let row = guest_of(guest)?;
        let Row::Finished(finished) = read.rows[row] else {
            return Err(NOT_FINISHED);
        };
        block::put_row(desk, row, &Row::Vacant);
        *registers = finished;
        Ok(DONE)
    })
}

pub fn withdraw(desk: &mut [u8], arena: &mut [u8], store: &[u8], guest: u64, registers: &mut Registers) -> u32 {
    number(|| {
        let read = accepted(desk)?;
        same_lengths(&read, arena, store)?;
        let row = guest_of(guest)?;
        let Row::Waiting(request) = read.rows[row] else {
            return Err(NOT_WAITING);
        };
        if Function::of(request.registers.ah()).is_some_and(Function::has_packet) {
            steps::set_count(parts::window(arena, guest), request.packet, request.moved as u16);
        }
        block::put_row(desk, row, &Row::Vacant);
        *registers = steps::stopped(request.registers, WITHDRAWN, request.moved);
        Ok(DONE)
    })
}

/// "The host places all tables in a guest's window". Refused with 26 "for a place misaligned, tables ending past the window (with none,
/// the address past it) or a table's segment above FFFFh, and house 21 for a waiting row, 21 first".
pub fn place(desk: &mut [u8], arena: &mut [u8], store: &[u8], guest: u64, address: u64) -> u32 {
    number(|| {
        let read = accepted(desk)?;
        same_lengths(&read, arena, store)?;
        let row = guest_of(guest)?;
        if let Row::Waiting(_) = read.rows[row] {
            return Err(ROW_NOT_VACANT);
        }
        let window = parts::window(arena, guest);
        if !parameters::may_lie(&read.drives, address, window.len() as u64) {
            return Err(BAD_PLACE);
        }
        for (i, table) in parameters::tables_of(&read.drives).enumerate() {
            window[address as usize + parameters::TABLE_SIZE * i..][..parameters::TABLE_SIZE].copy_from_slice(&table);
        }
        block::put_placement(desk, row, Some(address));
        Ok(DONE)
    })
}

// ---- the reader of fragments

pub fn reader_size() -> u64 {
    fragments::READER_SIZE as u64
}

pub fn reader_open(reader: &mut [u8], store_length: u64) -> u32 {
    if reader.len() != fragments::READER_SIZE {
        return NOT_ACCEPTED;
    }
    fragments::write(reader, &Reader::open(store_length / BLOCK_SIZE));
    DONE
}

/// One call at the reader of a block: the step, and what it then answers. The place is written with a refusal only.
fn at_reader(reader: &mut [u8], place: &mut u64, step: impl FnOnce(&mut Reader)) -> u32 {
    number(|| {
        let mut read = fragments::read(reader).ok_or(NOT_ACCEPTED)?;
        step(&mut read);
        fragments::write(reader, &read);
        match read.verdict() {
            None => Ok(NOTHING_YET),
            Some(Ok(())) => Ok(DONE),
            Some(Err(refusal)) => {
                *place = refusal.place;
                Err(refusal.number)
            }
        }
    })
}

pub fn reader_feed(reader: &mut [u8], bytes: &[u8], place: &mut u64) -> u32 {
    at_reader(reader, place, |read| read.feed(bytes))
}

pub fn reader_end(reader: &mut [u8], place: &mut u64) -> u32 {
    at_reader(reader, place, Reader::end)
}

/// 25, then 256 or the table's refusal, then 19.
pub fn reader_write(reader: &[u8], out: &mut [u8], written: &mut u64) -> u32 {
    number(|| {
        let read = fragments::read(reader).ok_or(NOT_ACCEPTED)?;
        read.verdict().ok_or(NOTHING_YET)?.map_err(|refusal| refusal.number)?;
        let table = read.table();
        out.get_mut(..table.len()).ok_or(BUFFER_SHORT)?.copy_from_slice(table);
        *written = table.len() as u64;
        Ok(DONE)
    })
}

// ---- calls without a desk

/// 0, or 10 "with the output buffer unchanged".
fn converted(done: Option<()>) -> u32 {
    done.map_or(CONVERSION, |()| DONE)
}

pub fn convert_up(record: &[u8], out: &mut [u8]) -> u32 {
    converted(convert::up(record, out))
}

pub fn convert_down(record: &[u8], out: &mut [u8]) -> u32 {
    converted(convert::down(record, out))
}

pub fn window(arena_length: u64, guest: u64, start: &mut u64, length: &mut u64) -> u32 {
    (*start, *length) = parts::window_place(arena_length, guest);
    DONE
}

/// edd_block; the name `block` is the module's.
pub fn block_number(geometry: Geometry, address: Address, block: &mut u32) -> u32 {
    match geometry.block(address) {
        Some(found) => {
            *block = found;
            DONE
        }
        None => OUTSIDE,
    }
}

pub fn address(geometry: Geometry, block: u64, address: &mut Address) -> u32 {
    match geometry.address(block) {
        Some(found) => {
            *address = found;
            DONE
        }
        None => OUTSIDE,
    }
}
