//! Document 01, "The drive table", with the record of kind 4 that change request 2026-01 adds, that of kind 3 of 2026-04
//! and that of kind 2 of 2026-06.

use crate::bad::{BadBlocks, MOST_BAD};
use crate::parameters::Parameters;
use crate::parts::{inside, Drive, Drives, I2O, MOST_DRIVES};

const HEADER: usize = 4;
const END: (u16, usize) = (0, 4);
pub const DRIVE: (u16, usize) = (1, 68);
/// "record kind 2, length 76, a drive with a sixteen-byte device path".
pub const WIDE_DRIVE: (u16, usize) = (2, 76);
const PARAMETERS: (u16, usize) = (4, 20);
/// "record kind 3, length 4 + 2 + 8 times n".
const BAD_BLOCKS: u16 = 3;

pub const fn bad_blocks_length(n: usize) -> usize {
    4 + 2 + 8 * n
}

/// A refusal: its number, 1 to 9, and the place.
#[derive(Clone, Copy, PartialEq, Eq, Debug)]
pub struct Refusal {
    pub number: u32,
    pub place: u64,
}

enum Record {
    End,
    Drive,
    BadBlocks,
    Parameters,
}

pub fn word(bytes: &[u8], at: usize) -> u16 {
    u16::from_le_bytes(bytes[at..at + 2].try_into().unwrap())
}

pub fn dword(bytes: &[u8], at: usize) -> u32 {
    u32::from_le_bytes(bytes[at..at + 4].try_into().unwrap())
}

pub fn qword(bytes: &[u8], at: usize) -> u64 {
    u64::from_le_bytes(bytes[at..at + 8].try_into().unwrap())
}

/// "1 fewer than 4 bytes left; 3 unknown kind; 2 wrong length for the kind; 1 record cut off". The record's kind, and all its bytes.
fn header(left: &[u8]) -> Result<(Record, &[u8]), u32> {
    if left.len() < HEADER {
        return Err(1);
    }
    let length = usize::from(word(left, 0));
    let (record, may_be) = match word(left, 2) {
        k if k == END.0 => (Record::End, length == END.1),
        k if k == DRIVE.0 => (Record::Drive, length == DRIVE.1),
        k if k == WIDE_DRIVE.0 => (Record::Drive, length == WIDE_DRIVE.1),
        k if k == PARAMETERS.0 => (Record::Parameters, length == PARAMETERS.1),
        BAD_BLOCKS => (Record::BadBlocks, (1..=MOST_BAD).any(|n| length == bad_blocks_length(n))),
        _ => return Err(3),
    };
    if !may_be {
        return Err(2);
    }
    Ok((record, left.get(..length).ok_or(1u32)?))
}

/// The fields of a drive's record of either kind, by their places. Where the eight bytes at 68 are missing they count as zeros: "A kind 1
/// drive answers 74 as its conversion."
pub fn drive_of(record: &[u8]) -> Drive {
    Drive {
        kind: word(record, 2),
        physical_cylinders: dword(record, 4),
        physical_heads: dword(record, 8),
        physical_sectors: dword(record, 12),
        blocks: qword(record, 16),
        first: qword(record, 24),
        flags: word(record, 32),
        cylinders: word(record, 34),
        heads: word(record, 36),
        sectors: record[38],
        protection: record[39],
        host_bus: record[40..44].try_into().unwrap(),
        interface_type: record[44..52].try_into().unwrap(),
        interface_path: record[52..60].try_into().unwrap(),
        device_path: record[60..68].try_into().unwrap(),
        tail: record.get(68..76).map_or([0; 8], |tail| tail.try_into().unwrap()),
    }
}

pub fn put_header(record: &mut [u8], (kind, length): (u16, usize)) {
    record[0..2].copy_from_slice(&(length as u16).to_le_bytes());
    record[2..4].copy_from_slice(&kind.to_le_bytes());
}

/// Kind and length of the record that a drive is written as: those it was read with, whatever its tail holds.
fn header_of(drive: &Drive) -> (u16, usize) {
    if drive.kind == WIDE_DRIVE.0 {
        WIDE_DRIVE
    } else {
        DRIVE
    }
}

fn record_of(drive: &Drive, record: &mut [u8]) {
    put_header(record, header_of(drive));
    record[4..8].copy_from_slice(&drive.physical_cylinders.to_le_bytes());
    record[8..12].copy_from_slice(&drive.physical_heads.to_le_bytes());
    record[12..16].copy_from_slice(&drive.physical_sectors.to_le_bytes());
    record[16..24].copy_from_slice(&drive.blocks.to_le_bytes());
    record[24..32].copy_from_slice(&drive.first.to_le_bytes());
    record[32..34].copy_from_slice(&drive.flags.to_le_bytes());
    record[34..36].copy_from_slice(&drive.cylinders.to_le_bytes());
    record[36..38].copy_from_slice(&drive.heads.to_le_bytes());
    record[38] = drive.sectors;
    record[39] = drive.protection;
    record[40..44].copy_from_slice(&drive.host_bus);
    record[44..52].copy_from_slice(&drive.interface_type);
    record[52..60].copy_from_slice(&drive.interface_path);
    record[60..68].copy_from_slice(&drive.device_path);
    if drive.kind == WIDE_DRIVE.0 {
        record[68..76].copy_from_slice(&drive.tail);
    }
}

const HOST_BUSES: [[u8; 4]; 2] = [*b"ISA\0", *b"PCI\0"];
const INTERFACE_TYPES: [[u8; 8]; 6] =
    [*b"ATA\0\0\0\0\0", *b"ATAPI\0\0\0", *b"SCSI\0\0\0\0", *b"USB\0\0\0\0\0", *b"1394\0\0\0\0", *b"FIBRE\0\0\0"];

/// 5 "a field". The names are compared whole, with their NULs.
pub fn fields_obey(drive: &Drive) -> bool {
    drive.blocks >= 1
        && drive.flags < 1 << 7
        && (1..=1024).contains(&drive.cylinders)
        && (1..=255).contains(&drive.heads)
        && (1..=63).contains(&drive.sectors)
        && drive.geometry_blocks() <= drive.blocks
        && drive.protection <= 1
        && HOST_BUSES.contains(&drive.host_bus)
        && type_obeys(drive)
}

/// I2O is a type of kind 2 only.
fn type_obeys(drive: &Drive) -> bool {
    INTERFACE_TYPES.contains(&drive.interface_type) || drive.kind == WIDE_DRIVE.0 && drive.interface_type == I2O
}

/// 6 "first + blocks above the store", negated, and without a sum that could wrap.
pub fn lies_in_store(drive: &Drive, store_blocks: u64) -> bool {
    inside(drive.first, drive.blocks, store_blocks)
}

/// 7 "overlap with an earlier drive". Both drives lie in the store, so the sums do not wrap.
pub fn overlaps(drive: &Drive, earlier: &[Drive]) -> bool {
    earlier.iter().any(|e| drive.first < e.first + e.blocks && e.first < drive.first + drive.blocks)
}

/// The rules that the drive after `earlier` breaks first: 4, 5, 6, 7 in this order.
pub fn check_drive(drive: &Drive, earlier: &[Drive], store_blocks: u64) -> Result<(), u32> {
    if earlier.len() == MOST_DRIVES {
        Err(4)
    } else if !fields_obey(drive) {
        Err(5)
    } else if !lies_in_store(drive, store_blocks) {
        Err(6)
    } else if overlaps(drive, earlier) {
        Err(7)
    } else {
        Ok(())
    }
}

/// The numbers of a record of kind 3: "table 9 as in 2026-01 and for a kind 3 after its drive's kind 4, table 5 for a list unsorted,
/// repeated or outside the drive".
fn bad_blocks_of(record: &[u8], drives: &Drives) -> Result<BadBlocks, u32> {
    let named = usize::from(word(record, 4));
    if named + 1 != drives.count || !drives.bad[named].is_empty() || drives.parameters[named].is_some() {
        return Err(9);
    }
    let bad = BadBlocks::of(record[6..].chunks_exact(8).map(|number| qword(number, 0)));
    if !bad.obey(drives.slot[named].blocks) {
        return Err(5);
    }
    Ok(bad)
}

/// The fourteen bytes of a record of kind 4, if the drive it names is the last one read and has none yet; else 9.
fn parameters_of(record: &[u8], drives: &Drives) -> Result<Parameters, u32> {
    let named = usize::from(word(record, 4));
    if named + 1 != drives.count || drives.parameters[named].is_some() {
        return Err(9);
    }
    Ok(record[6..20].try_into().unwrap())
}

/// Reads a whole table for a store of that many blocks.
pub fn read(table: &[u8], store_blocks: u64) -> Result<Drives, Refusal> {
    let mut drives = Drives::default();
    let mut place = 0;
    loop {
        let refused = |number| Refusal { number, place: place as u64 };
        let (kind, record) = header(&table[place..]).map_err(refused)?;
        match kind {
            Record::End if table.len() == place + END.1 => return Ok(drives),
            Record::End => return Err(Refusal { number: 8, place: (place + END.1) as u64 }),
            Record::Drive => {
                let drive = drive_of(record);
                check_drive(&drive, drives.known(), store_blocks).map_err(refused)?;
                drives.slot[drives.count] = drive;
                drives.count += 1;
            }
            Record::BadBlocks => drives.bad[drives.count.saturating_sub(1)] = bad_blocks_of(record, &drives).map_err(refused)?,
            Record::Parameters => {
                drives.parameters[drives.count.saturating_sub(1)] = Some(parameters_of(record, &drives).map_err(refused)?);
            }
        }
        place += record.len();
    }
}

/// The length of the drives as a table.
pub fn length(drives: &Drives) -> usize {
    let bad_blocks: usize = drives.bad.iter().filter(|bad| !bad.is_empty()).map(|bad| bad_blocks_length(bad.numbers().len())).sum();
    let drive_records: usize = drives.known().iter().map(|drive| header_of(drive).1).sum();
    drive_records + bad_blocks + PARAMETERS.1 * drives.parameters.iter().flatten().count() + END.1
}

/// Lays the drives out as a table again; the caller has made sure that there is room.
pub fn write(drives: &Drives, out: &mut [u8]) {
    let mut place = 0;
    for (slot, drive) in drives.known().iter().enumerate() {
        let length = header_of(drive).1;
        record_of(drive, &mut out[place..place + length]);
        place += length;
        let numbers = drives.bad[slot].numbers();
        if !numbers.is_empty() {
            let record = &mut out[place..place + bad_blocks_length(numbers.len())];
            put_header(record, (BAD_BLOCKS, record.len()));
            record[4..6].copy_from_slice(&(slot as u16).to_le_bytes());
            for (at, number) in record[6..].chunks_exact_mut(8).zip(numbers) {
                at.copy_from_slice(&number.to_le_bytes());
            }
            place += bad_blocks_length(numbers.len());
        }
        if let Some(parameters) = &drives.parameters[slot] {
            put_header(&mut out[place..], PARAMETERS);
            out[place + 4..place + 6].copy_from_slice(&(slot as u16).to_le_bytes());
            out[place + 6..place + 20].copy_from_slice(parameters);
            place += PARAMETERS.1;
        }
    }
    put_header(&mut out[place..], END);
}
