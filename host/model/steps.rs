//! Document 01, "Steps of each function", and the BIOS answers of "Numbers given back". 41h and 48h as change request 2026-01 has them,
//! what a bad block is answered with, from 2026-04, and the longer result of 48h, from 2026-06.

use crate::addresses::{address_in, Geometry};
use crate::parameters::{extensions_of, pointer_to};
use crate::parts::{inside, linear, Drive, Drives, Registers, Request, BLOCK_SIZE};
use crate::table::{qword, word};

const BAD_PARAMETER: u8 = 0x01;
const WRITE_PROTECTED: u8 = 0x03;
const OUTSIDE: u8 = 0x04;
const NO_PARAMETERS: u8 = 0x07;
const BAD_BUFFER: u8 = 0x09;
pub const WITHDRAWN: u8 = 0x80;
/// "AH = 10h for a read, CCh for a write".
const BAD_SECTOR: u8 = 0x10;
const WRITE_FAULT: u8 = 0xCC;

const PACKET_SIZE: u64 = 16;
const PACKET_COUNT: usize = 2;
const MOST_BY_PACKET: u64 = 127;
const MOST_BY_AL: u64 = 128;

/// What a post comes to: registers at once, or a request that waits.
#[derive(Clone, Copy, PartialEq, Eq, Debug)]
pub enum Outcome {
    Answered(Registers),
    Waits(Request),
}

/// What a request moves: which way, by which form of address, how many at most.
#[derive(Clone, Copy, PartialEq, Eq, Debug)]
pub enum Function {
    ReadSectors,
    WriteSectors,
    ReadBlocks,
    WriteBlocks,
}

impl Function {
    /// The functions whose requests wait; the others never have a row.
    pub fn of(ah: u8) -> Option<Function> {
        match ah {
            0x02 => Some(Function::ReadSectors),
            0x03 => Some(Function::WriteSectors),
            0x42 => Some(Function::ReadBlocks),
            0x43 => Some(Function::WriteBlocks),
            _ => None,
        }
    }
    pub fn writes(self) -> bool {
        matches!(self, Function::WriteSectors | Function::WriteBlocks)
    }
    /// AH of a request that met a bad block.
    pub fn bad_code(self) -> u8 {
        if self.writes() {
            WRITE_FAULT
        } else {
            BAD_SECTOR
        }
    }
    pub fn has_packet(self) -> bool {
        matches!(self, Function::ReadBlocks | Function::WriteBlocks)
    }
    pub fn limit(self) -> u64 {
        if self.has_packet() {
            MOST_BY_PACKET
        } else {
            MOST_BY_AL
        }
    }
}

/// The steps of the function in AH, for a guest's registers, its window and the place of its parameter tables.
pub fn steps(drives: &Drives, placement: Option<u64>, window: &mut [u8], posted: Registers) -> Outcome {
    let given = Registers { carry: 0, ..posted };
    match given.ah() {
        0x02 | 0x03 => read_write_sectors(drives, window, given),
        0x08 => Outcome::Answered(drive_parameters(drives, given)),
        0x41 => Outcome::Answered(check_extensions(drives, placement, given)),
        0x42..=0x44 => blocks_by_packet(drives, window, given),
        0x47 => Outcome::Answered(seek(drives, window, given)),
        0x48 => Outcome::Answered(extended_parameters(drives, placement, window, given)),
        _ => Outcome::Answered(refused(given, BAD_PARAMETER)),
    }
}

/// "Success clears carry and sets AH = 0".
pub fn succeeded(given: Registers) -> Registers {
    let mut out = Registers { carry: 0, ..given };
    out.set_ah(0);
    out
}

/// "BIOS answers set carry and AH = code". 02h and 03h also set AL: to 0 when refused, to the blocks moved when withdrawn
/// or stopped by a bad block.
pub fn stopped(given: Registers, code: u8, moved: u64) -> Registers {
    let mut out = Registers { carry: 1, ..given };
    if matches!(given.ah(), 0x02 | 0x03) {
        out.set_al(moved as u8);
    }
    out.set_ah(code);
    out
}

fn refused(given: Registers, code: u8) -> Registers {
    stopped(given, code, 0)
}

fn drive_in_dl<'a>(drives: &'a Drives, given: &Registers) -> Option<&'a Drive> {
    drives.numbered(u64::from(given.dl()))
}

// ---- 42h, 43h, 44h, 47h

struct Packet {
    place: u64,
    count: u64,
    buffer: u64,
    start: u64,
}

/// "16 packet bytes at DS:SI inside the window (01h); size byte at least 16 (01h)".
fn packet(window: &[u8], given: &Registers) -> Result<Packet, u8> {
    let place = linear(given.ds, given.si);
    if !inside(place, PACKET_SIZE, window.len() as u64) {
        return Err(BAD_PARAMETER);
    }
    let bytes = &window[place as usize..][..PACKET_SIZE as usize];
    if u64::from(bytes[0]) < PACKET_SIZE {
        return Err(BAD_PARAMETER);
    }
    Ok(Packet {
        place,
        count: u64::from(word(bytes, PACKET_COUNT)),
        buffer: linear(word(bytes, 6), word(bytes, 4)),
        start: qword(bytes, 8),
    })
}

/// The packet's count word.
pub fn set_count(window: &mut [u8], packet: u64, count: u16) {
    let at = packet as usize + PACKET_COUNT;
    window[at..at + 2].copy_from_slice(&count.to_le_bytes());
}

/// The tests of 42h, 43h and 44h that come before the size byte is found good.
fn packet_for_blocks<'a>(drives: &'a Drives, window: &[u8], given: &Registers) -> Result<(&'a Drive, Packet), u8> {
    let drive = drive_in_dl(drives, given).ok_or(BAD_PARAMETER)?;
    if given.ah() == 0x43 {
        let verify_supported = drive.flags & 1 << 3 != 0;
        if given.al() > 2 || given.al() == 2 && !verify_supported {
            return Err(BAD_PARAMETER);
        }
    }
    Ok((drive, packet(window, given)?))
}

/// Those that come after it, in the paper's order.
fn blocks_fit(drive: &Drive, asked: &Packet, window_length: u64, function: u8) -> Result<(), u8> {
    if asked.count > MOST_BY_PACKET {
        return Err(BAD_PARAMETER);
    }
    if function == 0x43 && drive.is_protected() {
        return Err(WRITE_PROTECTED);
    }
    if !inside(asked.start, asked.count, drive.blocks) {
        return Err(OUTSIDE);
    }
    if function != 0x44 && !inside(asked.buffer, BLOCK_SIZE * asked.count, window_length) {
        return Err(BAD_BUFFER);
    }
    Ok(())
}

fn blocks_by_packet(drives: &Drives, window: &mut [u8], given: Registers) -> Outcome {
    let (drive, asked) = match packet_for_blocks(drives, window, &given) {
        Ok(found) => found,
        Err(code) => return Outcome::Answered(refused(given, code)),
    };
    if let Err(code) = blocks_fit(drive, &asked, window.len() as u64, given.ah()) {
        set_count(window, asked.place, 0);
        return Outcome::Answered(refused(given, code));
    }
    if given.ah() == 0x44 {
        return Outcome::Answered(verify(drives, window, given, &asked));
    }
    if asked.count == 0 {
        return Outcome::Answered(succeeded(given));
    }
    Outcome::Waits(Request {
        registers: given,
        drive: u64::from(given.dl()),
        start: asked.start,
        count: asked.count,
        buffer: asked.buffer,
        packet: asked.place,
        moved: 0,
    })
}

/// "44h reports the first bad block of its range at once with 10h, after the 04h check, the count word giving the good blocks before it."
fn verify(drives: &Drives, window: &mut [u8], given: Registers, asked: &Packet) -> Registers {
    let good = drives.bad_of(u64::from(given.dl())).good(asked.start, asked.count);
    if good == asked.count {
        return succeeded(given);
    }
    set_count(window, asked.place, good as u16);
    stopped(given, BAD_SECTOR, good)
}

fn seek(drives: &Drives, window: &[u8], given: Registers) -> Registers {
    let answer = drive_in_dl(drives, &given).ok_or(BAD_PARAMETER).and_then(|drive| {
        let asked = packet(window, &given)?;
        if asked.start < drive.blocks {
            Ok(())
        } else {
            Err(OUTSIDE)
        }
    });
    match answer {
        Ok(()) => succeeded(given),
        Err(code) => refused(given, code),
    }
}

// ---- 02h, 03h

/// The first block of a run by cylinder, head and sector, once every test has passed.
fn sector_run(drives: &Drives, window_length: u64, given: &Registers) -> Result<u64, u8> {
    let drive = drive_in_dl(drives, given).ok_or(BAD_PARAMETER)?;
    let count = u64::from(given.al());
    if count == 0 {
        return Err(BAD_PARAMETER);
    }
    if count > MOST_BY_AL {
        return Err(BAD_BUFFER);
    }
    if given.ah() == 0x03 && drive.is_protected() {
        return Err(WRITE_PROTECTED);
    }
    let geometry = Geometry { cylinders: u32::from(drive.cylinders), heads: u32::from(drive.heads), sectors: u32::from(drive.sectors) };
    let block = u64::from(geometry.block(address_in(given.cx, given.dx)).ok_or(OUTSIDE)?);
    if !inside(block, count, drive.geometry_blocks()) {
        return Err(OUTSIDE);
    }
    if !inside(linear(given.es, given.bx), BLOCK_SIZE * count, window_length) {
        return Err(BAD_BUFFER);
    }
    Ok(block)
}

fn read_write_sectors(drives: &Drives, window: &[u8], given: Registers) -> Outcome {
    match sector_run(drives, window.len() as u64, &given) {
        Err(code) => Outcome::Answered(refused(given, code)),
        Ok(start) => Outcome::Waits(Request {
            registers: given,
            drive: u64::from(given.dl()),
            start,
            count: u64::from(given.al()),
            buffer: linear(given.es, given.bx),
            packet: 0,
            moved: 0,
        }),
    }
}

// ---- 08h, 41h, 48h

fn drive_parameters(drives: &Drives, given: Registers) -> Registers {
    let Some(drive) = drive_in_dl(drives, &given) else {
        return refused(given, NO_PARAMETERS);
    };
    let last_cylinder = drive.cylinders - 1;
    let cl = (last_cylinder >> 8) << 6 | u16::from(drive.sectors);
    let mut out = succeeded(given);
    out.set_al(0);
    out.cx = (last_cylinder & 0xFF) << 8 | cl;
    out.dx = (drive.heads - 1) << 8 | drives.count as u16;
    out
}

fn check_extensions(drives: &Drives, placement: Option<u64>, given: Registers) -> Registers {
    match drives.slot_of(u64::from(given.dl())) {
        Some(slot) if given.bx == 0x55AA => {
            Registers { ax: 0x3000, bx: 0xAA55, cx: extensions_of(drives, placement, slot), carry: 0, ..given }
        }
        _ => refused(given, BAD_PARAMETER),
    }
}

const WIDE_RESULT: usize = 74;

/// "Below 26: 01h; 26 to 29 returns 26; 30 to 65 returns 30"; "Sizes of 74 and more shall return 74 ..; 66 to 73 still return 66", but a
/// drive "of type I2O is answered as if the size were 30".
fn returned_size(drive: &Drive, asked: u16) -> Option<usize> {
    match asked {
        0..=25 => None,
        26..=29 => Some(26),
        30..=65 => Some(30),
        66..=73 if drive.is_i2o() => Some(30),
        66..=73 => Some(66),
        _ => Some(WIDE_RESULT),
    }
}

/// 2026-02: "48h returns bits 4 to 6 as zero when bit 2 is clear."
fn information_flags(drive: &Drive) -> [u8; 2] {
    const REMOVABLE: u16 = 1 << 2;
    const OF_REMOVABLE: u16 = 1 << 4 | 1 << 5 | 1 << 6;
    let meaningless = if drive.flags & REMOVABLE == 0 { OF_REMOVABLE } else { 0 };
    (drive.flags & !meaningless).to_le_bytes()
}

/// The whole result buffer, by its places; the bytes from 30 on are those of the size that is returned.
fn result_of(drive: &Drive, pointer: [u8; 4], returned: usize) -> [u8; WIDE_RESULT] {
    let mut result = [0; WIDE_RESULT];
    result[0..2].copy_from_slice(&(returned as u16).to_le_bytes());
    result[2..4].copy_from_slice(&information_flags(drive));
    result[4..8].copy_from_slice(&drive.physical_cylinders.to_le_bytes());
    result[8..12].copy_from_slice(&drive.physical_heads.to_le_bytes());
    result[12..16].copy_from_slice(&drive.physical_sectors.to_le_bytes());
    result[16..24].copy_from_slice(&drive.blocks.to_le_bytes());
    result[24..26].copy_from_slice(&512u16.to_le_bytes());
    result[26..30].copy_from_slice(&pointer);
    result[30..32].copy_from_slice(&0xBEDDu16.to_le_bytes());
    result[48..56].copy_from_slice(&drive.interface_path);
    result[56..64].copy_from_slice(&drive.device_path);
    if returned == WIDE_RESULT {
        // "length byte 2Ch at 32, a zero at 72 and the checksum at 73"
        result[32] = 0x2C;
        result[36..40].copy_from_slice(&drive.host_bus.map(padded));
        result[40..48].copy_from_slice(&drive.interface_type.map(padded));
        result[64..72].copy_from_slice(&drive.tail);
        result[73] = checksum(&result[30..73]);
    } else {
        result[32] = 0x24;
        result[36..40].copy_from_slice(&drive.host_bus);
        result[40..48].copy_from_slice(&drive.interface_type);
        result[65] = checksum(&result[30..65]);
    }
    result
}

/// Document 000: "left justified and padded with the value 20h". No name has a NUL in it, so each NUL is padding.
fn padded(byte: u8) -> u8 {
    if byte == 0 {
        0x20
    } else {
        byte
    }
}

/// The byte that makes the sum with those before it zero modulo 256.
fn checksum(bytes: &[u8]) -> u8 {
    bytes.iter().fold(0u8, |sum, byte| sum.wrapping_sub(*byte))
}

fn extended_parameters(drives: &Drives, placement: Option<u64>, window: &mut [u8], given: Registers) -> Registers {
    let place = linear(given.ds, given.si);
    let length = window.len() as u64;
    let returned = drives.slot_of(u64::from(given.dl())).and_then(|slot| {
        if !inside(place, 2, length) {
            return None;
        }
        let returned = returned_size(&drives.slot[slot], word(window, place as usize))?;
        inside(place, returned as u64, length).then_some((slot, returned))
    });
    let Some((slot, returned)) = returned else {
        return refused(given, BAD_PARAMETER);
    };
    let result = result_of(&drives.slot[slot], pointer_to(drives, placement, slot), returned);
    window[place as usize..][..returned].copy_from_slice(&result[..returned]);
    succeeded(given)
}
