//! What a run met: calls per kind, answers per number, AH per function, hostile blocks. A run of some length must have met everything
//! on the list below; otherwise it did not test what it is for.

use crate::demand::Watch;
use crate::random::{Call, Outcome};
use std::collections::BTreeMap;

#[derive(Default)]
pub struct Tally {
    pub worlds: u64,
    answers: BTreeMap<(&'static str, u32), u64>,
    codes: BTreeMap<(u8, u32), u64>,
    withdrawn: BTreeMap<u8, u64>,
    /// Requests followed to their end, by function and AH, and those of them at a bad block, by the cases of `Watch::stopped`.
    endings: BTreeMap<(u8, u8), u64>,
    stopped: [u64; 4],
    parts: BTreeMap<u64, u64>,
    hostile_accepted: u64,
    hostile_refused: u64,
    hostile_readers: [u64; 2],
    /// Tables that were fed: what was said of them for good, by a feed or at the told end.
    read: BTreeMap<(bool, u32), u64>,
    finished: u64,
    compared: u64,
    at_once: u64,
    at_once_placed: u64,
    /// Placements by the number of tables, answers of 41h by CX, and results of 48h with a pointer and with FFFFh:FFFFh.
    placed: BTreeMap<u64, u64>,
    extensions: BTreeMap<u16, u64>,
    pointers: [u64; 2],
    /// Results of 48h with the flags of the table, and with other ones.
    flags: [u64; 2],
    /// Results of 48h by the cases of `RESULTS`.
    results: [u64; 8],
}

/// AH of an answered post, or this for a request that waits.
const WAITS: u32 = 256;
/// Functions that document 01 does not handle are counted together, under FFh.
const UNKNOWN: u8 = 0xFF;
const HANDLED: [u8; 9] = [0x02, 0x03, 0x08, 0x41, 0x42, 0x43, 0x44, 0x47, 0x48];

const EXPECTED_ANSWERS: [(&str, &[u32]); 16] = [
    ("open", &[0, 1, 2, 3, 4, 5, 6, 7, 8, 9, 25]),
    ("write", &[0, 19, 25]),
    ("post", &[0, 20, 21, 24, 25, 256]),
    ("turn", &[0, 24, 25, 256]),
    ("collect", &[0, 20, 22, 25]),
    ("withdraw", &[0, 20, 23, 24, 25]),
    ("place", &[0, 20, 21, 24, 25, 26]),
    ("reader_open", &[0, 25]),
    ("reader_feed", &[0, 1, 2, 3, 4, 5, 6, 7, 8, 9, 25, 256]),
    ("reader_end", &[0, 1, 2, 3, 4, 5, 6, 7, 8, 9, 25]),
    ("reader_write", &[0, 1, 2, 3, 4, 5, 6, 7, 8, 9, 19, 25, 256]),
    ("convert_up", &[0, 10]),
    ("convert_down", &[0, 10]),
    ("window", &[0]),
    ("block", &[0, 4]),
    ("address", &[0, 4]),
];

const EXPECTED_CODES: [(u8, &[u32]); 10] = [
    (0x02, &[0x01, 0x04, 0x09, WAITS]),
    (0x03, &[0x01, 0x03, 0x04, 0x09, WAITS]),
    (0x08, &[0x00, 0x07]),
    (0x41, &[0x30, 0x01]),
    (0x42, &[0x00, 0x01, 0x04, 0x09, WAITS]),
    (0x43, &[0x00, 0x01, 0x03, 0x04, 0x09, WAITS]),
    (0x44, &[0x00, 0x01, 0x04, 0x10]),
    (0x47, &[0x00, 0x01, 0x04]),
    (0x48, &[0x00, 0x01]),
    (UNKNOWN, &[0x01]),
];

/// "10h and CCh only as said".
const EXPECTED_ENDINGS: [(u8, u8); 8] =
    [(0x02, 0x00), (0x02, 0x10), (0x03, 0x00), (0x03, 0xCC), (0x42, 0x00), (0x42, 0x10), (0x43, 0x00), (0x43, 0xCC)];
const STOPPED: [&str; 4] = ["before any block", "after a whole part", "at the last block", "with the count word on top of the data"];

/// Results of 48h: what was returned for which drive.
const RESULTS: [&str; 8] = [
    "26 bytes",
    "30 bytes",
    "66 bytes of kind 1",
    "66 bytes of kind 2",
    "30 bytes of an I2O drive asked with 66 to 73",
    "74 bytes of kind 1",
    "74 bytes of kind 2",
    "74 bytes of an I2O drive",
];

impl Tally {
    pub fn add(&mut self, call: &Call, outcome: &Outcome) {
        let kind = match call {
            Call::Open { .. } => "open",
            Call::Write => "write",
            Call::Post { .. } => "post",
            Call::Turn => "turn",
            Call::Collect { .. } => "collect",
            Call::Withdraw { .. } => "withdraw",
            Call::Place { .. } => "place",
            Call::ReaderOpen { .. } => "reader_open",
            Call::ReaderFeed => "reader_feed",
            Call::ReaderEnd => "reader_end",
            Call::ReaderWrite => "reader_write",
            Call::ConvertUp => "convert_up",
            Call::ConvertDown => "convert_down",
            Call::Window { .. } => "window",
            Call::Block { .. } => "block",
            Call::Address { .. } => "address",
        };
        *self.answers.entry((kind, outcome.answer)).or_default() += 1;
        match call {
            Call::Post { registers, .. } if matches!(outcome.answer, 0 | 256) => {
                let function = if HANDLED.contains(&registers.ah()) { registers.ah() } else { UNKNOWN };
                let code = if outcome.answer == 0 { u32::from(outcome.registers.ah()) } else { WAITS };
                *self.codes.entry((function, code)).or_default() += 1;
                if function == 0x41 && outcome.registers.carry == 0 {
                    *self.extensions.entry(outcome.registers.cx).or_default() += 1;
                }
            }
            Call::Withdraw { .. } if outcome.answer == 0 => {
                *self.withdrawn.entry(outcome.registers.ah()).or_default() += 1;
            }
            Call::Turn if outcome.answer == 0 => *self.parts.entry(outcome.numbers[1]).or_default() += 1,
            _ => {}
        }
    }

    pub fn hostile(&mut self, accepted: bool) {
        *(if accepted { &mut self.hostile_accepted } else { &mut self.hostile_refused }) += 1;
    }

    pub fn hostile_reader(&mut self, accepted: bool) {
        self.hostile_readers[usize::from(accepted)] += 1;
    }

    /// A reader said something for good, and it was that of the whole reading.
    pub fn read(&mut self, told: bool, number: u32) {
        *self.read.entry((told, number)).or_default() += 1;
    }

    /// A placement that was done, of so many tables.
    pub fn placed(&mut self, tables: u64) {
        *self.placed.entry(tables).or_default() += 1;
    }

    /// A 48h result of 30 bytes or more, with a pointer or without.
    pub fn shown(&mut self, pointer: bool) {
        self.pointers[usize::from(pointer)] += 1;
    }

    /// A 48h result, with other flags than the table's or with those.
    pub fn flagged(&mut self, other: bool) {
        self.flags[usize::from(other)] += 1;
    }

    /// A 48h result: the size asked for, the size returned, and the drive's kind and whether it is of type I2O.
    pub fn result(&mut self, asked: u16, returned: u8, kind: u16, i2o: bool) {
        let met = match (returned, kind, i2o) {
            (26, ..) => 0,
            (30, _, true) if asked >= 66 => 4,
            (30, ..) => 1,
            (66, 1, _) => 2,
            (66, ..) => 3,
            (74, 1, _) => 5,
            (74, _, false) => 6,
            _ => 7,
        };
        self.results[met] += 1;
    }

    pub fn add_watch(&mut self, watch: &Watch) {
        self.finished += watch.finished;
        self.compared += watch.compared;
        self.at_once += watch.at_once;
        self.at_once_placed += watch.at_once_placed;
        for (ending, times) in &watch.endings {
            *self.endings.entry(*ending).or_default() += times;
        }
        for (sum, times) in self.stopped.iter_mut().zip(watch.stopped) {
            *sum += times;
        }
    }

    /// What the run should have met and did not.
    pub fn missing(&self) -> Vec<String> {
        let mut missing = Vec::new();
        for (kind, numbers) in EXPECTED_ANSWERS {
            missing.extend(numbers.iter().filter(|n| !self.answers.contains_key(&(kind, **n))).map(|n| format!("{kind} {n}")));
        }
        for (function, codes) in EXPECTED_CODES {
            let never = codes.iter().filter(|c| !self.codes.contains_key(&(function, **c)));
            missing.extend(never.map(|c| format!("{function:02x}h answered {}", code_name(*c))));
        }
        missing.extend((0..=16).filter(|k| !self.parts.contains_key(k)).map(|k| format!("a turn that moves {k}")));
        let never = EXPECTED_ENDINGS.iter().filter(|ending| !self.endings.contains_key(ending));
        missing.extend(never.map(|(function, ah)| format!("a request of {function:02x}h that ends with {ah:02x}h")));
        let never = STOPPED.iter().zip(self.stopped).filter(|(_, times)| *times == 0);
        missing.extend(never.map(|(case, _)| format!("a request stopped {case}")));
        if self.hostile_accepted == 0 || self.hostile_refused == 0 {
            missing.push("hostile blocks of both kinds".into());
        }
        if self.compared == 0 || self.compared == self.finished || self.at_once == 0 || self.at_once_placed == 0 {
            missing.push("requests to compare with served alone".into());
        }
        if self.hostile_readers.contains(&0) {
            missing.push("hostile readers of both kinds".into());
        }
        let said = (2..=9).map(|number| (false, number)).chain([(true, 0), (true, 1)]);
        missing.extend(said.filter(|key| !self.read.contains_key(key)).map(|(_, number)| format!("a table fed and settled with {number}")));
        missing.extend((0..=3).filter(|n| !self.placed.contains_key(n)).map(|n| format!("a placement of {n} tables")));
        missing.extend([1, 5].iter().filter(|cx| !self.extensions.contains_key(cx)).map(|cx| format!("41h with CX {cx:04x}h")));
        if self.pointers.contains(&0) {
            missing.push("48h results with a pointer and without".into());
        }
        if self.flags.contains(&0) {
            missing.push("48h results with the table's flags and with bits 4 to 6 cleared".into());
        }
        let never = RESULTS.iter().zip(self.results).filter(|(_, times)| *times == 0);
        missing.extend(never.map(|(case, _)| format!("a 48h result of {case}")));
        missing
    }

    pub fn print(&self) {
        for (kind, _) in EXPECTED_ANSWERS {
            let of_kind: Vec<_> = self.answers.iter().filter(|(key, _)| key.0 == kind).collect();
            let total: u64 = of_kind.iter().map(|(_, times)| **times).sum();
            let list: Vec<String> = of_kind.iter().map(|((_, number), times)| format!("{number}: {times}")).collect();
            println!("{kind:12}{total:8} calls; answers {}", list.join(", "));
        }
        for (function, _) in EXPECTED_CODES {
            let of_function = self.codes.iter().filter(|(key, _)| key.0 == function);
            let list: Vec<String> = of_function.map(|((_, code), times)| format!("{}: {times}", code_name(*code))).collect();
            let name = if function == UNKNOWN { "other".into() } else { format!("{function:02x}h") };
            println!("post {name:5} AH {}", list.join(", "));
        }
        let withdrawn: Vec<String> = self.withdrawn.iter().map(|(ah, times)| format!("{ah:02x}h: {times}")).collect();
        println!("withdraw   AH {}", withdrawn.join(", "));
        let parts: Vec<String> = self.parts.iter().map(|(k, times)| format!("{k}: {times}")).collect();
        println!("blocks moved by a turn {}", parts.join(", "));
        println!(
            "demand 3: {} requests followed to their end, {} of them with their memory; {} posts answered at once, {} of them 41h or 48h \
             with placement",
            self.finished, self.compared, self.at_once, self.at_once_placed
        );
        let endings: Vec<String> = self.endings.iter().map(|((f, ah), times)| format!("{f:02x}h with {ah:02x}h: {times}")).collect();
        println!("requests that ended {}", endings.join(", "));
        let stopped: Vec<String> = STOPPED.iter().zip(self.stopped).map(|(case, times)| format!("{case}: {times}")).collect();
        println!("of them stopped by a bad block {}", stopped.join(", "));
        let placed: Vec<String> = self.placed.iter().map(|(n, times)| format!("{n}: {times}")).collect();
        println!("tables of a placement {}", placed.join(", "));
        let extensions: Vec<String> = self.extensions.iter().map(|(cx, times)| format!("{cx:04x}h: {times}")).collect();
        println!("41h CX {}; 48h pointers: {} given, {} not", extensions.join(", "), self.pointers[1], self.pointers[0]);
        println!("48h flags: {} as the table has them, {} with bits 4 to 6 cleared", self.flags[0], self.flags[1]);
        let results: Vec<String> = RESULTS.iter().zip(self.results).map(|(case, times)| format!("{case}: {times}")).collect();
        println!("48h results {}", results.join(", "));
        let read = |told: bool| -> Vec<String> {
            self.read.iter().filter(|(key, _)| key.0 == told).map(|((_, number), times)| format!("{number}: {times}")).collect()
        };
        println!("tables fed, as the whole reading has them: by a feed {}; at the end {}", read(false).join(", "), read(true).join(", "));
        println!("hostile readers: {} accepted, {} refused", self.hostile_readers[1], self.hostile_readers[0]);
        println!("hostile blocks: {} accepted, {} refused; worlds: {}", self.hostile_accepted, self.hostile_refused, self.worlds);
    }
}

fn code_name(code: u32) -> String {
    if code == WAITS {
        "waits".into()
    } else {
        format!("{code:02x}h")
    }
}
