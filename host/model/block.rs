//! The desk as a block of bytes (docs/BLOCK.md), and document 01's rule when a block is accepted ("Calls the host makes"), with the words
//! and the rule of change request 2026-01, the lists of 2026-04 and the kinds and tails of 2026-06.

use crate::bad::{BadBlocks, MOST_BAD};
use crate::parameters::{may_lie, Parameters};
use crate::parts::{inside, window_length, Desk, Drive, Drives, Registers, Request, Row, BLOCK_SIZE, GUESTS, MOST_DRIVES};
use crate::steps::Function;
use crate::table::{check_drive, DRIVE, WIDE_DRIVE};

const ROW_WORDS: usize = 23;
const DRIVE_WORDS: usize = 16;
const DRIVES_AT: usize = GUESTS * ROW_WORDS;
const COUNT_AT: usize = DRIVES_AT + MOST_DRIVES * DRIVE_WORDS;
const POINTER_AT: usize = COUNT_AT + 1;
const ARENA_LENGTH_AT: usize = COUNT_AT + 2;
const STORE_LENGTH_AT: usize = COUNT_AT + 3;
const PLACED_AT: usize = COUNT_AT + 4;
const ADDRESSES_AT: usize = PLACED_AT + GUESTS;
const PRESENT_AT: usize = ADDRESSES_AT + GUESTS;
const PARAMETERS_AT: usize = PRESENT_AT + MOST_DRIVES;
const PARAMETERS_SIZE: usize = size_of::<Parameters>();
const BAD_COUNTS_AT: usize = PARAMETERS_AT + MOST_DRIVES * PARAMETERS_SIZE / 8;
const BAD_AT: usize = BAD_COUNTS_AT + MOST_DRIVES;
const WORDS: usize = BAD_AT + MOST_DRIVES * MOST_BAD;
pub const DESK_SIZE: usize = 8 * WORDS;

const VACANT: u64 = 0;
const WAITING: u64 = 1;
const FINISHED: u64 = 2;

type Words<const N: usize> = [u64; N];

fn words<const N: usize>(bytes: &[u8], from: usize) -> Words<N> {
    let mut out = [0; N];
    for (word, bytes) in out.iter_mut().zip(bytes[8 * from..].chunks_exact(8)) {
        *word = u64::from_le_bytes(bytes.try_into().unwrap());
    }
    out
}

fn put<const N: usize>(bytes: &mut [u8], from: usize, words: &Words<N>) {
    for (bytes, word) in bytes[8 * from..].chunks_exact_mut(8).zip(words) {
        bytes.copy_from_slice(&word.to_le_bytes());
    }
}

fn all_zero(words: &[u64]) -> bool {
    words.iter().fold(0, |or, word| or | word) == 0
}

// ---- reading: `None` for a block that is not the image of a desk, or whose desk is not acceptable (25)

/// The desk of an acceptable block.
pub fn read(bytes: &[u8]) -> Option<Desk> {
    if bytes.len() != DESK_SIZE {
        return None;
    }
    let [count, pointer, arena_length, store_length] = words(bytes, COUNT_AT);
    if pointer >= GUESTS as u64 {
        return None;
    }
    let mut desk =
        Desk { rows: [Row::Vacant; GUESTS], drives: Drives::default(), pointer, placements: [None; GUESTS], arena_length, store_length };
    read_drives(bytes, count, store_length / BLOCK_SIZE, &mut desk.drives)?;
    read_parameters(bytes, &mut desk.drives)?;
    read_bad_blocks(bytes, &mut desk.drives)?;
    for guest in 0..GUESTS {
        desk.placements[guest] = read_placement(bytes, guest, &desk.drives, window_length(arena_length))?;
    }
    for (guest, row) in desk.rows.iter_mut().enumerate() {
        *row = read_row(&words(bytes, ROW_WORDS * guest), &desk.drives, window_length(arena_length))?;
    }
    Some(desk)
}

/// "a desk whose table obeys the rules below": its fields, the store and the overlaps.
fn read_drives(bytes: &[u8], count: u64, store_blocks: u64, drives: &mut Drives) -> Option<()> {
    if count > MOST_DRIVES as u64 {
        return None;
    }
    for slot in 0..MOST_DRIVES {
        let at: Words<DRIVE_WORDS> = words(bytes, DRIVES_AT + DRIVE_WORDS * slot);
        if slot as u64 >= count {
            if !all_zero(&at) {
                return None;
            }
            continue;
        }
        let drive = read_drive(&at)?;
        check_drive(&drive, drives.known(), store_blocks).ok()?;
        drives.slot[slot] = drive;
        drives.count = slot + 1;
    }
    Some(())
}

/// The kind of a drive is 1 or 2.
fn read_kind(word: u64) -> Option<u16> {
    [DRIVE.0, WIDE_DRIVE.0].into_iter().find(|kind| u64::from(*kind) == word)
}

/// Every field within its width. A drive of kind 1 has eight zeros where the other kind has more of the device path.
fn read_drive(at: &Words<DRIVE_WORDS>) -> Option<Drive> {
    let (kind, tail) = (read_kind(at[14])?, at[15]);
    if kind == DRIVE.0 && tail != 0 {
        return None;
    }
    Some(Drive {
        kind,
        physical_cylinders: at[0].try_into().ok()?,
        physical_heads: at[1].try_into().ok()?,
        physical_sectors: at[2].try_into().ok()?,
        blocks: at[3],
        first: at[4],
        flags: at[5].try_into().ok()?,
        cylinders: at[6].try_into().ok()?,
        heads: at[7].try_into().ok()?,
        sectors: at[8].try_into().ok()?,
        protection: at[9].try_into().ok()?,
        host_bus: u32::try_from(at[10]).ok()?.to_le_bytes(),
        interface_type: at[11].to_le_bytes(),
        interface_path: at[12].to_le_bytes(),
        device_path: at[13].to_le_bytes(),
        tail: tail.to_le_bytes(),
    })
}

/// A mark of the block: 0 or 1.
fn read_mark(bytes: &[u8], at: usize) -> Option<bool> {
    match words(bytes, at) {
        [0] => Some(false),
        [1] => Some(true),
        _ => None,
    }
}

fn parameters_at(slot: usize) -> std::ops::Range<usize> {
    let from = 8 * PARAMETERS_AT + PARAMETERS_SIZE * slot;
    from..from + PARAMETERS_SIZE
}

/// The raw bytes of the records of kind 4. Only a drive has some, and where there are none the bytes are zero.
fn read_parameters(bytes: &[u8], drives: &mut Drives) -> Option<()> {
    for slot in 0..MOST_DRIVES {
        let raw: Parameters = bytes[parameters_at(slot)].try_into().unwrap();
        if read_mark(bytes, PRESENT_AT + slot)? {
            if slot >= drives.count {
                return None;
            }
            drives.parameters[slot] = Some(raw);
        } else if raw != [0; PARAMETERS_SIZE] {
            return None;
        }
    }
    Some(())
}

/// The lists of the records of kind 3: at most sixteen numbers that obey the table's rule, zeros behind them, none without a drive.
fn read_bad_blocks(bytes: &[u8], drives: &mut Drives) -> Option<()> {
    for slot in 0..MOST_DRIVES {
        let [count] = words(bytes, BAD_COUNTS_AT + slot);
        let list: Words<MOST_BAD> = words(bytes, BAD_AT + MOST_BAD * slot);
        let count = usize::try_from(count).ok().filter(|count| *count <= MOST_BAD)?;
        let (numbers, behind) = list.split_at(count);
        let bad = BadBlocks::of(numbers.iter().copied());
        if slot >= drives.count && count > 0 || !bad.obey(drives.slot[slot].blocks) || !all_zero(behind) {
            return None;
        }
        drives.bad[slot] = bad;
    }
    Some(())
}

/// "a desk block with a bad place is 25". Without placement the address is 0.
fn read_placement(bytes: &[u8], guest: usize, drives: &Drives, window_length: u64) -> Option<Option<u64>> {
    let [address] = words(bytes, ADDRESSES_AT + guest);
    if read_mark(bytes, PLACED_AT + guest)? {
        may_lie(drives, address, window_length).then_some(Some(address))
    } else {
        (address == 0).then_some(None)
    }
}

fn read_registers(at: &[u64]) -> Option<Registers> {
    Some(Registers {
        ax: at[0].try_into().ok()?,
        bx: at[1].try_into().ok()?,
        cx: at[2].try_into().ok()?,
        dx: at[3].try_into().ok()?,
        ds: at[4].try_into().ok()?,
        si: at[5].try_into().ok()?,
        es: at[6].try_into().ok()?,
        carry: if at[7] <= 1 { at[7] as u16 } else { return None },
    })
}

fn read_row(at: &Words<ROW_WORDS>, drives: &Drives, window_length: u64) -> Option<Row> {
    let (request, finished) = (&at[1..15], &at[15..23]);
    match at[0] {
        VACANT if all_zero(request) && all_zero(finished) => Some(Row::Vacant),
        WAITING if all_zero(finished) => {
            let request = Request {
                registers: read_registers(&at[1..9])?,
                drive: at[9],
                start: at[10],
                count: at[11],
                buffer: at[12],
                packet: at[13],
                moved: at[14],
            };
            may_wait(&request, drives, window_length).then_some(Row::Waiting(request))
        }
        FINISHED if all_zero(request) => Some(Row::Finished(read_registers(finished)?)),
        _ => None,
    }
}

/// "each waiting row names a drive, a block range inside that drive (and the geometry for 02h and 03h), a count within its
/// function's limit, a buffer and any packet inside the window, no write to a protected drive, and a moved number that is a multiple
/// of 16 below the count". A row of 02h or 03h has no packet; its word is 0.
fn may_wait(request: &Request, drives: &Drives, window_length: u64) -> bool {
    let Some(function) = Function::of(request.registers.ah()) else {
        return false;
    };
    let Some(drive) = drives.numbered(request.drive) else {
        return false;
    };
    let range_end = if function.has_packet() { drive.blocks } else { drive.geometry_blocks() };
    let packet_inside = if function.has_packet() { inside(request.packet, 16, window_length) } else { request.packet == 0 };
    request.count <= function.limit()
        && inside(request.start, request.count, range_end)
        && inside(request.buffer, BLOCK_SIZE * request.count, window_length)
        && packet_inside
        && !(function.writes() && drive.is_protected())
        && request.moved % 16 == 0
        && request.moved < request.count
}

// ---- writing

fn register_words(of: &Registers) -> Words<8> {
    [of.ax, of.bx, of.cx, of.dx, of.ds, of.si, of.es, of.carry].map(u64::from)
}

fn row_words(row: &Row) -> Words<ROW_WORDS> {
    let mut at = [0; ROW_WORDS];
    match row {
        Row::Vacant => at[0] = VACANT,
        Row::Waiting(request) => {
            at[0] = WAITING;
            at[1..9].copy_from_slice(&register_words(&request.registers));
            at[9] = request.drive;
            at[10] = request.start;
            at[11] = request.count;
            at[12] = request.buffer;
            at[13] = request.packet;
            at[14] = request.moved;
        }
        Row::Finished(registers) => {
            at[0] = FINISHED;
            at[15..23].copy_from_slice(&register_words(registers));
        }
    }
    at
}

fn drive_words(drive: &Drive) -> Words<DRIVE_WORDS> {
    [
        u64::from(drive.physical_cylinders),
        u64::from(drive.physical_heads),
        u64::from(drive.physical_sectors),
        drive.blocks,
        drive.first,
        u64::from(drive.flags),
        u64::from(drive.cylinders),
        u64::from(drive.heads),
        u64::from(drive.sectors),
        u64::from(drive.protection),
        u64::from(u32::from_le_bytes(drive.host_bus)),
        u64::from_le_bytes(drive.interface_type),
        u64::from_le_bytes(drive.interface_path),
        u64::from_le_bytes(drive.device_path),
        u64::from(drive.kind),
        u64::from_le_bytes(drive.tail),
    ]
}

/// One row of a block that was read, for a call that changed it.
pub fn put_row(bytes: &mut [u8], guest: usize, row: &Row) {
    put(bytes, ROW_WORDS * guest, &row_words(row));
}

pub fn put_pointer(bytes: &mut [u8], pointer: u64) {
    put(bytes, POINTER_AT, &[pointer]);
}

pub fn put_placement(bytes: &mut [u8], guest: usize, placement: Option<u64>) {
    put(bytes, PLACED_AT + guest, &[u64::from(placement.is_some())]);
    put(bytes, ADDRESSES_AT + guest, &[placement.unwrap_or(0)]);
}

/// The whole block of a desk.
pub fn write(bytes: &mut [u8], desk: &Desk) {
    for (guest, row) in desk.rows.iter().enumerate() {
        put_row(bytes, guest, row);
    }
    for (slot, drive) in desk.drives.slot.iter().enumerate() {
        put(bytes, DRIVES_AT + DRIVE_WORDS * slot, &drive_words(drive));
    }
    put(bytes, COUNT_AT, &[desk.drives.count as u64]);
    put_pointer(bytes, desk.pointer);
    put(bytes, ARENA_LENGTH_AT, &[desk.arena_length]);
    put(bytes, STORE_LENGTH_AT, &[desk.store_length]);
    for (guest, placement) in desk.placements.iter().enumerate() {
        put_placement(bytes, guest, *placement);
    }
    for (slot, parameters) in desk.drives.parameters.iter().enumerate() {
        put(bytes, PRESENT_AT + slot, &[u64::from(parameters.is_some())]);
        bytes[parameters_at(slot)].copy_from_slice(&parameters.unwrap_or_default());
    }
    for (slot, bad) in desk.drives.bad.iter().enumerate() {
        let mut list = [0; MOST_BAD];
        list[..bad.numbers().len()].copy_from_slice(bad.numbers());
        put(bytes, BAD_COUNTS_AT + slot, &[bad.numbers().len() as u64]);
        put(bytes, BAD_AT + MOST_BAD * slot, &list);
    }
}
