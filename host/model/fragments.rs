//! Change request 2026-03: the table is read as it arrives. The reader keeps everything that arrived until it is settled, and decides by
//! reading that as a whole; and the reader as a block of bytes, whose words, held bytes and table are taken from the same whole reading.

use crate::bad::MOST_BAD;
use crate::parts::MOST_DRIVES;
use crate::table::{self, bad_blocks_length, qword, word, Refusal};

/// "Missing bytes are reported only at the end of input".
const MISSING: u32 = 1;
/// Its place is behind the end record, all others' at the start of a record.
const TRAILING: u32 = 8;
const END_RECORD: [u8; 4] = [4, 0, 0, 0];

/// "keeps at most one unfinished record": room for the longest, one of sixteen bad blocks.
const LONGEST_RECORD: usize = bad_blocks_length(MOST_BAD);
const LONGEST_TABLE: usize = MOST_DRIVES * (76 + LONGEST_RECORD + 20) + END_RECORD.len();

// where the parts of the block stand
const COURSE: usize = 0;
const NUMBER: usize = 8;
const STORE: usize = 16;
const HELD: usize = 24;
const LENGTH: usize = 32;
const HELD_AT: usize = 40;
const TABLE_AT: usize = HELD_AT + LONGEST_RECORD;
pub const READER_SIZE: usize = TABLE_AT + LONGEST_TABLE;

const READING: u64 = 0;
const END_READ: u64 = 1;
const ACCEPTED: u64 = 2;
const REFUSED: u64 = 3;

pub struct Reader {
    store_blocks: u64,
    /// What arrived while nothing was settled, or the records of it that count.
    arrived: Vec<u8>,
    /// Once the table is refused, or the end was told.
    verdict: Option<Result<(), Refusal>>,
}

impl Reader {
    pub fn open(store_blocks: u64) -> Reader {
        Reader { store_blocks, arrived: Vec::new(), verdict: None }
    }

    /// "Once refused, it stays refused ..; bytes after that, or after the told end of input, are ignored. Missing bytes are reported
    /// only at the end of input, any other refusal by the feed whose bytes settle it."
    pub fn feed(&mut self, bytes: &[u8]) {
        if self.verdict.is_some() {
            return;
        }
        self.arrived.extend(bytes);
        if let Err(refusal) = table::read(&self.arrived, self.store_blocks) {
            if refusal.number != MISSING {
                self.verdict = Some(Err(refusal));
            }
        }
    }

    /// "is told when the input ends".
    pub fn end(&mut self) {
        if self.verdict.is_none() {
            self.verdict = Some(table::read(&self.arrived, self.store_blocks).map(|_| ()));
        }
    }

    /// `None` while nothing is settled.
    pub fn verdict(&self) -> Option<Result<(), Refusal>> {
        self.verdict
    }

    /// The table, of a reader that accepted it: what arrived.
    pub fn table(&self) -> &[u8] {
        &self.arrived
    }

    /// What arrived, as the records that were taken and the beginning of the next. The end record is neither, nor is what follows it.
    fn split(&self) -> (&[u8], &[u8]) {
        let records = match table::read(&self.arrived, self.store_blocks) {
            Ok(_) => return (&self.arrived[..self.arrived.len() - END_RECORD.len()], &[]),
            Err(Refusal { number: TRAILING, place }) => place as usize - END_RECORD.len(),
            Err(Refusal { place, .. }) => place as usize,
        };
        self.arrived.split_at(records)
    }

    fn end_was_read(&self) -> bool {
        table::read(&self.arrived, self.store_blocks).is_ok()
    }
}

// ---- the block: five words, the bytes held, and the records taken with an end record behind them

fn held_may_be(held: &[u8]) -> bool {
    if held.len() < 4 {
        return true;
    }
    let whole = usize::from(word(held, 0));
    let may_be = match word(held, 2) {
        1 => whole == 68,
        2 => whole == 76,
        3 => (1..=MOST_BAD).any(|n| whole == bad_blocks_length(n)),
        4 => whole == 20,
        _ => false,
    };
    may_be && held.len() < whole
}

fn all_zero(bytes: &[u8]) -> bool {
    bytes.iter().all(|byte| *byte == 0)
}

/// The reader of a block; `None` for one that is no reader's (25).
pub fn read(block: &[u8]) -> Option<Reader> {
    if block.len() != READER_SIZE {
        return None;
    }
    let (course, number, store_blocks) = (qword(block, COURSE), qword(block, NUMBER), qword(block, STORE));
    let held_length = usize::try_from(qword(block, HELD)).ok().filter(|n| *n < LONGEST_RECORD)?;
    let length = usize::try_from(qword(block, LENGTH)).ok().filter(|n| (END_RECORD.len()..=LONGEST_TABLE).contains(n))?;
    let (held, no_longer_held) = block[HELD_AT..TABLE_AT].split_at(held_length);
    let (table, behind) = block[TABLE_AT..].split_at(length);
    let numbered = if course == REFUSED { (1..=9).contains(&number) } else { number == 0 };
    let holds = if course == READING { held_may_be(held) } else { held.is_empty() };
    if course > REFUSED || !numbered || !holds || !all_zero(no_longer_held) || !all_zero(behind) {
        return None;
    }
    table::read(table, store_blocks).ok()?;

    let records = &table[..length - END_RECORD.len()];
    let (arrived, verdict) = match course {
        READING => ([records, held].concat(), None),
        END_READ => (table.to_vec(), None),
        ACCEPTED => (table.to_vec(), Some(Ok(()))),
        _ => {
            let number = number as u32;
            let place = if number == TRAILING { length } else { records.len() };
            (records.to_vec(), Some(Err(Refusal { number, place: place as u64 })))
        }
    };
    Some(Reader { store_blocks, arrived, verdict })
}

/// Lays a reader out. Only one that reads still holds bytes.
pub fn write(block: &mut [u8], reader: &Reader) {
    let (records, begun) = reader.split();
    let (course, number, held) = match reader.verdict {
        None if reader.end_was_read() => (END_READ, 0, &[][..]),
        None => (READING, 0, begun),
        Some(Ok(())) => (ACCEPTED, 0, &[][..]),
        Some(Err(refusal)) => (REFUSED, u64::from(refusal.number), &[][..]),
    };
    let table = [records, &END_RECORD[..]].concat();
    block.fill(0);
    let words = [(COURSE, course), (NUMBER, number), (STORE, reader.store_blocks), (HELD, held.len() as u64), (LENGTH, table.len() as u64)];
    for (at, word) in words {
        block[at..at + 8].copy_from_slice(&word.to_le_bytes());
    }
    block[HELD_AT..HELD_AT + held.len()].copy_from_slice(held);
    block[TABLE_AT..TABLE_AT + table.len()].copy_from_slice(&table);
}
