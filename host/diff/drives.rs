//! Drive tables for the tests: good ones, and the ways to damage them. The records are laid out here again from document 01 and change
//! requests 2026-01, 2026-04 and 2026-06, so that a fault in the model's writer is not hidden.

use crate::chance::Chance;

/// The numbers of a record of kind 3, sixteen at most; with none there is no record.
#[derive(Clone, Copy, Debug, Default)]
pub struct Bad {
    list: [u64; 16],
    count: usize,
}

impl Bad {
    pub fn of(numbers: &[u64]) -> Bad {
        let mut bad = Bad { count: numbers.len(), ..Bad::default() };
        bad.list[..numbers.len()].copy_from_slice(numbers);
        bad
    }
    pub fn numbers(&self) -> &[u64] {
        &self.list[..self.count]
    }
}

#[derive(Clone, Copy, Debug)]
pub struct Drive {
    pub physical: [u32; 3],
    pub blocks: u64,
    pub first: u64,
    pub flags: u16,
    pub cylinders: u16,
    pub heads: u16,
    pub sectors: u8,
    pub protection: u8,
    pub host_bus: [u8; 4],
    pub interface_type: [u8; 8],
    pub interface_path: [u8; 8],
    pub device_path: [u8; 8],
    /// Of a drive of kind 2: the other eight bytes of its device path.
    pub tail: Option<[u8; 8]>,
    pub bad: Bad,
    /// Of its record of kind 4, if it has one.
    pub parameters: Option<[u8; 14]>,
}

pub const END: [u8; 4] = [4, 0, 0, 0];
/// The interface type that only a drive of kind 2 may have.
pub const I2O: [u8; 8] = *b"I2O\0\0\0\0\0";

impl Drive {
    pub fn geometry(&self) -> u64 {
        u64::from(self.cylinders) * u64::from(self.heads) * u64::from(self.sectors)
    }

    pub fn record(&self) -> Vec<u8> {
        let mut record = if self.tail.is_some() { vec![0x4C, 0, 2, 0] } else { vec![0x44, 0, 1, 0] };
        for number in self.physical {
            record.extend(number.to_le_bytes());
        }
        record.extend(self.blocks.to_le_bytes());
        record.extend(self.first.to_le_bytes());
        record.extend(self.flags.to_le_bytes());
        record.extend(self.cylinders.to_le_bytes());
        record.extend(self.heads.to_le_bytes());
        record.push(self.sectors);
        record.push(self.protection);
        record.extend(self.host_bus);
        record.extend(self.interface_type);
        record.extend(self.interface_path);
        record.extend(self.device_path);
        record.extend(self.tail.iter().flatten());
        record
    }
}

/// The record of kind 3 that gives a drive, counted from 0, its bad blocks: any numbers, and any number of them.
pub fn bad_record(number: u16, blocks: &[u64]) -> Vec<u8> {
    let mut record = (4 + 2 + 8 * blocks.len() as u16).to_le_bytes().to_vec();
    record.extend([3, 0]);
    record.extend(number.to_le_bytes());
    blocks.iter().for_each(|block| record.extend(block.to_le_bytes()));
    record
}

/// The record of kind 4 that gives a drive, counted from 0, its parameters.
pub fn parameters_record(number: u16, parameters: [u8; 14]) -> Vec<u8> {
    let mut record = vec![20, 0, 4, 0];
    record.extend(number.to_le_bytes());
    record.extend(parameters);
    record
}

/// The records of all drives, each drive's bad blocks and then its parameters behind it.
fn records(drives: &[Drive]) -> Vec<Vec<u8>> {
    let bad = |i: usize, d: &Drive| (d.bad.count > 0).then(|| bad_record(i as u16, d.bad.numbers()));
    let of = |(i, d): (usize, &Drive)| [Some(d.record()), bad(i, d), d.parameters.map(|bytes| parameters_record(i as u16, bytes))];
    drives.iter().enumerate().flat_map(of).flatten().collect()
}

pub fn table(drives: &[Drive]) -> Vec<u8> {
    let mut bytes = records(drives).concat();
    bytes.extend(END);
    bytes
}

/// How many parameter tables the drives have.
pub fn tables(drives: &[Drive]) -> u64 {
    drives.iter().filter(|d| d.parameters.is_some()).count() as u64
}

/// The drive of document 01's table of 72 bytes.
pub fn paper_drive() -> Drive {
    Drive {
        physical: [2, 16, 63],
        blocks: 2048,
        first: 0,
        flags: 2,
        cylinders: 2,
        heads: 16,
        sectors: 63,
        protection: 0,
        host_bus: *b"PCI\0",
        interface_type: *b"ATA\0\0\0\0\0",
        interface_path: [0, 0x1F, 1, 0, 0, 0, 0, 0],
        device_path: [0; 8],
        tail: None,
        bad: Bad::default(),
        parameters: None,
    }
}

const BUSES: [[u8; 4]; 2] = [*b"ISA\0", *b"PCI\0"];
const TYPES: [[u8; 8]; 6] = [*b"ATA\0\0\0\0\0", *b"ATAPI\0\0\0", *b"SCSI\0\0\0\0", *b"USB\0\0\0\0\0", *b"1394\0\0\0\0", *b"FIBRE\0\0\0"];

/// A list for a drive of that many blocks: none, a few numbers, a run of neighbours, or as many as there may be.
pub fn bad_blocks(chance: &mut Chance, blocks: u64) -> Bad {
    let wanted = chance.weighed(&[(10, 0), (5, 1), (4, 2), (2, 5), (1, 15), (2, 16)]).min(blocks);
    let mut numbers = std::collections::BTreeSet::new();
    if chance.percent(25) {
        let first = chance.between(0, blocks - wanted);
        numbers.extend(first..first + wanted);
    }
    while (numbers.len() as u64) < wanted {
        let any = chance.below(blocks);
        numbers.insert(chance.weighed(&[(12, any), (1, 0), (2, blocks - 1)]));
    }
    Bad::of(&numbers.into_iter().collect::<Vec<_>>())
}

/// The tail of a drive of kind 2, with eight zeros or one bit now and then, or that of a drive of kind 1.
fn tail(chance: &mut Chance) -> Option<[u8; 8]> {
    let any = chance.any();
    let bit = 1 << chance.below(64);
    chance.weighed(&[(5, None), (2, Some(0)), (1, Some(bit)), (2, Some(any))]).map(u64::to_le_bytes)
}

/// A drive of that many blocks, with a geometry that fits.
pub fn drive(chance: &mut Chance, first: u64, blocks: u64) -> Drive {
    let sectors = chance.between(1, blocks.min(63));
    let heads = chance.between(1, (blocks / sectors).min(255));
    let most = (blocks / sectors / heads).min(1024);
    let cylinders = if chance.percent(60) { most } else { chance.between(1, most) };
    let mut paths = [0; 16];
    chance.fill(&mut paths);
    let mut parameters = [0; 14];
    chance.fill(&mut parameters);
    let tail = tail(chance);
    let i2o = tail.is_some() && chance.percent(35);
    Drive {
        physical: [chance.any() as u32, chance.any() as u32, chance.any() as u32],
        blocks,
        first,
        flags: chance.below(128) as u16,
        cylinders: cylinders as u16,
        heads: heads as u16,
        sectors: sectors as u8,
        protection: u8::from(chance.percent(20)),
        host_bus: chance.one_of(&BUSES),
        interface_type: if i2o { I2O } else { chance.one_of(&TYPES) },
        interface_path: paths[..8].try_into().unwrap(),
        device_path: paths[8..].try_into().unwrap(),
        tail,
        bad: bad_blocks(chance, blocks),
        parameters: chance.percent(40).then_some(parameters),
    }
}

/// Up to eight drives that lie apart in a store of that many blocks, in any order.
pub fn drives(chance: &mut Chance, store_blocks: u64) -> Vec<Drive> {
    let wanted = chance.weighed(&[(1, 0), (8, 1), (6, 2), (4, 3), (2, 5), (4, 8)]).min(store_blocks);
    let mut drives = Vec::new();
    let mut next = 0;
    for i in 0..wanted {
        let share = (store_blocks - next) / (wanted - i);
        let gap = if share > 4 && chance.percent(30) { chance.between(1, 3) } else { 0 };
        let most = share - gap;
        let blocks = if chance.percent(60) { most } else { chance.between(1, most) };
        drives.push(drive(chance, next + gap, blocks));
        next += gap + blocks;
    }
    for i in (1..drives.len()).rev() {
        drives.swap(i, chance.below(i as u64 + 1) as usize);
    }
    drives
}

/// A drive whose field, range or neighbour breaks a rule, or nearly does.
fn damaged_drive(chance: &mut Chance, drives: &mut [Drive], store_blocks: u64) {
    if drives.is_empty() {
        return;
    }
    let which = chance.below(drives.len() as u64) as usize;
    if chance.percent(60) {
        // else its list may be refused after it
        drives[which].bad = Bad::default();
    }
    let other = drives[chance.below(drives.len() as u64) as usize];
    let d = &mut drives[which];
    match chance.below(15) {
        0 => d.blocks = chance.one_of(&[0, 1, u64::MAX, d.geometry(), d.geometry() - 1, store_blocks, store_blocks + 1]),
        1 => d.first = chance.one_of(&[0, u64::MAX, u64::MAX - d.blocks, store_blocks, store_blocks.saturating_sub(d.blocks)]),
        2 => d.first = (store_blocks + 1).wrapping_sub(d.blocks),
        3 => d.flags = chance.one_of(&[0x7F, 0x80, 0x100, 0x8000, 0xFFFF]),
        4 => d.cylinders = chance.one_of(&[0, 1, 1024, 1025, 0xFFFF]),
        5 => d.heads = chance.one_of(&[0, 1, 255, 256, 0xFFFF]),
        6 => d.sectors = chance.one_of(&[0, 1, 63, 64, 255]),
        7 => d.protection = chance.one_of(&[0, 1, 2, 3, 255]),
        8 => d.host_bus = chance.one_of(&[*b"PCI ", *b"pci\0", *b"ISA\0", *b"EISA", [0; 4]]),
        9 => {
            d.interface_type =
                chance.one_of(&[*b"ATA     ", *b"SATA\0\0\0\0", *b"FIBRE\0\0\0", I2O, *b"I2O     ", *b"I2O\0\0\0\0\x01", [0; 8]])
        }
        10 => d.interface_type[chance.below(8) as usize] ^= 1 << chance.below(8),
        11 => d.first = other.first,
        12 => (d.tail, d.interface_type) = (tail(chance), chance.one_of(&[I2O, d.interface_type])),
        13 => d.first = (other.first + other.blocks).wrapping_sub(chance.below(2)),
        _ => d.first = other.first.wrapping_sub(d.blocks).wrapping_add(chance.below(2)),
    }
}

/// A record of kind 3 or 4 that names any drive, repeats one, or stands elsewhere.
fn damaged_attached(chance: &mut Chance, records: &mut Vec<Vec<u8>>, kind: u8) {
    let near = chance.below(9) as u16;
    let number = chance.weighed(&[(6, near), (1, 0x100), (1, 0xFFFF)]);
    let mut record = match kind {
        3 => bad_record(number, &[0, 1][..chance.between(1, 2) as usize]),
        _ => parameters_record(number, chance.bytes(14).try_into().unwrap()),
    };
    let of_kind: Vec<usize> = (0..records.len()).filter(|i| records[*i][2] == kind).collect();
    if !of_kind.is_empty() && chance.percent(60) {
        let from = chance.one_of(&of_kind);
        record = if chance.percent(50) { records.remove(from) } else { records[from].clone() };
    }
    let at = chance.below(records.len() as u64 + 1) as usize;
    records.insert(at, record);
}

/// The list of a drive that is not ascending, repeated, outside the drive, empty or too long, or the same drive's again; or nearly.
fn damaged_list(chance: &mut Chance, drives: &[Drive], records: &mut [Vec<u8>]) {
    let of_kind: Vec<usize> = (0..records.len()).filter(|i| records[*i][2] == 3).collect();
    if of_kind.is_empty() {
        return;
    }
    let record = &mut records[chance.one_of(&of_kind)];
    let number = u16::from_le_bytes([record[4], record[5]]);
    // the drive itself may be damaged already
    let blocks = drives[usize::from(number)].blocks;
    let below = blocks.wrapping_sub(1);
    let mut list: Vec<u64> = record[6..].chunks(8).map(|bytes| u64::from_le_bytes(bytes.try_into().unwrap())).collect();
    let at = chance.below(list.len() as u64) as usize;
    match chance.below(8) {
        0 => list[at] = chance.one_of(&[blocks, below, blocks.wrapping_add(1), u64::MAX, 1 << 63, blocks.wrapping_add(1 << 32)]),
        1 => *list.last_mut().unwrap() = chance.one_of(&[blocks, below]),
        2 => list.insert(at, list[at]),
        3 => list.swap(0, at),
        4 => list[at] = list[0],
        5 => list.clear(),
        6 => list = (0..chance.between(15, 18)).collect(),
        _ => list.push(list[at].wrapping_add(1)),
    }
    *record = bad_record(number, &list);
}

/// A drive's record for the converters: sound or damaged, of either kind, and of any length.
pub fn any_record(chance: &mut Chance) -> Vec<u8> {
    let blocks = chance.between(1, 3000);
    let mut list = [drive(chance, 0, blocks)];
    if chance.percent(25) {
        damaged_drive(chance, &mut list, blocks);
    }
    // where the drive lies and how far it goes
    if chance.percent(40) {
        list[0].first = chance.any();
    }
    if chance.percent(15) {
        list[0].blocks = chance.one_of(&[u64::MAX, 1 << 32, list[0].geometry()]);
    }
    let mut record = list[0].record();
    let length = record.len();
    match chance.below(16) {
        0 => record[chance.below(4) as usize] = chance.one_of(&[0, 1, 2, 3, 4, 0x43, 0x44, 0x45, 0x4B, 0x4C, 0x4D]),
        1 => record[chance.below(length as u64) as usize] ^= 1 << chance.below(8),
        2 => record.truncate(chance.below(length as u64 + 1) as usize),
        3 => record.resize(chance.one_of(&[67, 68, 69, 75, 76, 77, 144, 152]), 0),
        4 => {
            // the other kind's length, with its own header or without
            record.resize(144 - length, 0);
            if chance.percent(50) {
                record[..4].copy_from_slice(if length == 76 { &[0x44, 0, 1, 0] } else { &[0x4C, 0, 2, 0] });
            }
        }
        _ => {}
    }
    record
}

/// The bytes of a table, good or not, for a store of that many blocks.
pub fn any_table(chance: &mut Chance, store_blocks: u64) -> Vec<u8> {
    let mut list = drives(chance, store_blocks.min(1 << 20));
    match chance.below(12) {
        0..=3 => damaged_drive(chance, &mut list, store_blocks),
        4 if !list.is_empty() => {
            // drives up to and past the eighth; they overlap unless they are refused before
            while list.len() < chance.between(8, 10) as usize {
                let again = list[0];
                list.push(again);
            }
        }
        5 if store_blocks >= 9 => {
            // a ninth drive that overlaps nothing
            list = (0..9).map(|i| drive(chance, i, 1)).collect();
            if chance.percent(30) {
                list[8].sectors = 0;
            }
        }
        _ => {}
    }
    let mut records = records(&list);
    match chance.below(20) {
        0..=2 => damaged_attached(chance, &mut records, 4),
        3..=5 => damaged_attached(chance, &mut records, 3),
        6..=7 => damaged_list(chance, &list, &mut records),
        _ => {}
    }
    let starts: Vec<usize> = (0..=records.len()).map(|i| records[..i].concat().len()).collect();
    let mut bytes = records.concat();
    bytes.extend(END);
    let length = bytes.len() as u64;
    match chance.below(12) {
        0 => bytes.truncate(chance.below(length + 1) as usize),
        1 => bytes.truncate(length.saturating_sub(chance.between(1, 5)) as usize),
        2 => {
            let more = chance.between(1, 80) as usize;
            bytes.extend(chance.bytes(more));
        }
        3 => bytes.push(0),
        4 => bytes[chance.below(length) as usize] ^= 1 << chance.below(8),
        5 => {
            // the length word or the kind of a record
            let at = chance.one_of(&starts) + chance.below(4) as usize;
            bytes[at] = chance
                .one_of(&[0, 1, 2, 3, 4, 5, 6, 0x0D, 0x0E, 0x13, 0x14, 0x15, 0x16, 0x43, 0x44, 0x45, 0x4B, 0x4C, 0x4D, 0x86, 0x8E, 0xFF]);
        }
        8 if chance.percent(40) => {
            // a drive's record said to be of the other kind
            let drives: Vec<usize> = starts.iter().copied().filter(|at| matches!(bytes[at + 2], 1 | 2)).collect();
            if !drives.is_empty() {
                let at = chance.one_of(&drives);
                let other = if bytes[at + 2] == 1 { [0x4C, 0, 2, 0] } else { [0x44, 0, 1, 0] };
                bytes[at..at + 4].copy_from_slice(&other);
            }
        }
        6 if chance.percent(20) => bytes.clear(),
        7 if chance.percent(30) => {
            let random = chance.below(200) as usize;
            bytes = chance.bytes(random);
        }
        _ => {}
    }
    bytes
}
