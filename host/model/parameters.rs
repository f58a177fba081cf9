//! Change request 2026-01: the device parameter table, source document 002, Table 00278. A record of the drive table gives its first
//! fourteen bytes, the host places all tables in a guest's window, and 41h and 48h tell the guest of its drive's one.

use crate::parts::{inside, Drives};

/// "bytes 0 to 13 of the 16, any", as the record has them.
pub type Parameters = [u8; 14];

pub const TABLE_SIZE: usize = 16;
const FLAGS: usize = 4;
const REVISION: u8 = 0x11;

/// FFFFh:FFFFh, offset first: no table.
const NO_POINTER: [u8; 4] = [0xFF; 4];

/// "the service works out its checksum, sets bits 7 and 5 of its drive flags (byte 4), and puts revision 11h".
pub fn table_of(parameters: &Parameters) -> [u8; TABLE_SIZE] {
    let mut table = [0; TABLE_SIZE];
    table[..14].copy_from_slice(parameters);
    table[FLAGS] |= 1 << 7 | 1 << 5;
    table[14] = REVISION;
    table[15] = table[..15].iter().fold(0u8, |sum, byte| sum.wrapping_sub(*byte));
    table
}

/// "one after another in drive order": a drive without a record has no table, and takes no room.
pub fn tables_of(drives: &Drives) -> impl Iterator<Item = [u8; TABLE_SIZE]> + '_ {
    drives.parameters[..drives.count].iter().flatten().map(table_of)
}

/// Not "a place misaligned, tables ending past the window (with none, the address past it) or a table's segment above FFFFh".
pub fn may_lie(drives: &Drives, address: u64, window_length: u64) -> bool {
    let tables = drives.parameters[..drives.count].iter().flatten().count() as u64;
    let last_segment = || address / TABLE_SIZE as u64 + tables - 1;
    address % TABLE_SIZE as u64 == 0
        && inside(address, TABLE_SIZE as u64 * tables, window_length)
        && (tables == 0 || last_segment() <= 0xFFFF)
}

/// Where the table of the drive in that slot lies for a guest, if it has one and the guest a placement.
fn address_of(drives: &Drives, placement: Option<u64>, slot: usize) -> Option<u64> {
    drives.parameters[slot]?;
    let before = drives.parameters[..slot].iter().flatten().count();
    Some(placement? + (TABLE_SIZE * before) as u64)
}

/// Bytes 26 to 29 of the 48h result: "a pointer of offset 0 and segment its table's address / 16. Drives without one, and guests
/// without placement, keep FFFFh:FFFFh."
pub fn pointer_to(drives: &Drives, placement: Option<u64>, slot: usize) -> [u8; 4] {
    let Some(address) = address_of(drives, placement, slot) else {
        return NO_POINTER;
    };
    let [low, high] = ((address / 16) as u16).to_le_bytes();
    [0, 0, low, high]
}

/// CX of 41h: "41h sets CX bit 2 for a drive with such a record, for guests with placement."
pub fn extensions_of(drives: &Drives, placement: Option<u64>, slot: usize) -> u16 {
    0x0001 | u16::from(address_of(drives, placement, slot).is_some()) << 2
}
