//! Change request 2026-06: "a converter from kind 1 to kind 2 (eight zero bytes appended) and back". It knows records, no desk and no
//! store.

use crate::table::{drive_of, fields_obey, put_header, word, DRIVE, WIDE_DRIVE};

/// "a sound record (length, kind, fields)" of a kind: the buffer and the length word have that kind's length, and no field breaks
/// check 5. Where the drive lies, checks 6 and 7, is no matter of the record alone.
fn sound(record: &[u8], (kind, length): (u16, usize)) -> bool {
    record.len() == length && usize::from(word(record, 0)) == length && word(record, 2) == kind && fields_obey(&drive_of(record))
}

/// Kind 1 to kind 2. `None` is refusal 10: "also for buffers not of 68 and 76 bytes and for input that isn't a sound record of its kind".
pub fn up(record: &[u8], out: &mut [u8]) -> Option<()> {
    if out.len() != WIDE_DRIVE.1 || !sound(record, DRIVE) {
        return None;
    }
    out[..DRIVE.1].copy_from_slice(record);
    out[DRIVE.1..].fill(0);
    put_header(out, WIDE_DRIVE);
    Some(())
}

/// Kind 2 to kind 1: "a sound record .. is refused exactly when the last eight bytes aren't zero or the type is I2O".
pub fn down(record: &[u8], out: &mut [u8]) -> Option<()> {
    if out.len() != DRIVE.1 || !sound(record, WIDE_DRIVE) {
        return None;
    }
    let drive = drive_of(record);
    if drive.tail != [0; 8] || drive.is_i2o() {
        return None;
    }
    out.copy_from_slice(&record[..DRIVE.1]);
    put_header(out, DRIVE);
    Some(())
}
