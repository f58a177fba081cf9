//! Random calls, library against model, call by call: the answer, every value behind a pointer, and every byte of desk, reader, arena,
//! store and buffer must be the same. The calls go to worlds, each with an arena, a store and a desk opened over them. Most calls are good,
//! so that requests wait, are served in parts, finish, and are collected or withdrawn, with the calls of eight guests interleaved. Between
//! them tables, good and damaged, arrive in fragments at the world's reader, and records are converted.

use crate::chance::Chance;
use crate::demand::Watch;
use crate::drives::{self, Drive};
use crate::fragments::Reading;
use crate::service::{Lent, Library, Model, Place, Service};
use crate::tally::Tally;
use model::addresses::{Address, Geometry};
use model::parts::{Desk, Row};
use model::{Registers, DESK_SIZE, READER_SIZE};
use std::sync::atomic::{AtomicU64, Ordering};

/// For the message when the machine stops a call: see `main`. If several runs are active at the same time, it names one of them.
pub static SEED: AtomicU64 = AtomicU64::new(0);
pub static CALL: AtomicU64 = AtomicU64::new(0);

/// A call with its arguments, except for the slices that it is lent.
#[derive(Clone, Debug)]
pub enum Call {
    Open { arena_length: u64, store_length: u64 },
    Write,
    Post { guest: u64, registers: Registers },
    Turn,
    Collect { guest: u64, registers: Registers },
    Withdraw { guest: u64, registers: Registers },
    Place { guest: u64, address: u64 },
    ReaderOpen { store_length: u64 },
    ReaderFeed,
    ReaderEnd,
    ReaderWrite,
    ConvertUp,
    ConvertDown,
    Window { arena_length: u64, guest: u64 },
    Block { geometry: [u32; 3], address: [u32; 3] },
    Address { geometry: [u32; 3], block: u64 },
}

impl Call {
    fn at_reader(&self) -> bool {
        matches!(self, Call::ReaderOpen { .. } | Call::ReaderFeed | Call::ReaderEnd | Call::ReaderWrite)
    }
}

/// What a call left behind its pointers. What it did not write still holds what was there before, which is the same on both sides.
#[derive(Clone, Copy, PartialEq, Eq, Debug)]
pub struct Outcome {
    pub answer: u32,
    pub numbers: [u64; 3],
    pub registers: Registers,
}

/// The block is the desk's, or for a call at a reader the reader's; the table is a fragment then, and a record for a converter.
struct Slices<'a> {
    block: &'a mut [u8],
    arena: &'a mut [u8],
    store: &'a mut [u8],
    table: &'a [u8],
    out: &'a mut [u8],
}

fn perform(service: &dyn Service, call: &Call, lent: Slices, before: [u64; 3]) -> Outcome {
    let mut n = before;
    let mut r = Registers::default();
    let Slices { block, arena, store, table, out } = lent;
    let geometry = |g: &[u32; 3]| Geometry { cylinders: g[0], heads: g[1], sectors: g[2] };
    let answer = match call {
        Call::Open { arena_length, store_length } => service.open(block, table, *arena_length, *store_length, &mut n[0]),
        Call::Write => service.write(block, out, &mut n[0]),
        Call::Post { guest, registers } => {
            r = *registers;
            service.post(block, arena, store, *guest, &mut r)
        }
        Call::Turn => {
            let [guest, moved, _] = &mut n;
            service.turn(block, arena, store, guest, moved)
        }
        Call::Collect { guest, registers } => {
            r = *registers;
            service.collect(block, *guest, &mut r)
        }
        Call::Withdraw { guest, registers } => {
            r = *registers;
            service.withdraw(block, arena, store, *guest, &mut r)
        }
        Call::Place { guest, address } => service.place(block, arena, store, *guest, *address),
        Call::ReaderOpen { store_length } => service.reader_open(block, *store_length),
        Call::ReaderFeed => service.reader_feed(block, table, &mut n[0]),
        Call::ReaderEnd => service.reader_end(block, &mut n[0]),
        Call::ReaderWrite => service.reader_write(block, out, &mut n[0]),
        Call::ConvertUp => service.convert_up(table, out),
        Call::ConvertDown => service.convert_down(table, out),
        Call::Window { arena_length, guest } => {
            let [start, length, _] = &mut n;
            service.window(*arena_length, *guest, start, length)
        }
        Call::Block { geometry: g, address: a } => {
            let mut found = n[0] as u32;
            let answer = service.block(geometry(g), Address { cylinder: a[0], head: a[1], sector: a[2] }, &mut found);
            n[0] = u64::from(found);
            answer
        }
        Call::Address { geometry: g, block } => {
            let mut at = Address { cylinder: n[0] as u32, head: n[1] as u32, sector: n[2] as u32 };
            let answer = service.address(geometry(g), *block, &mut at);
            n = [at.cylinder, at.head, at.sector].map(u64::from);
            answer
        }
    };
    Outcome { answer, numbers: n, registers: r }
}

/// The world's own slice, or another one for this call only.
enum Slice {
    Own,
    Other(Vec<u8>),
}

/// An arena and a store, twice, with a desk that was opened over them, and a reader.
struct World {
    drives: Vec<Drive>,
    window: u64,
    desk: Lent,
    reader: Lent,
    arena: Lent,
    store: Lent,
    model_desk: Vec<u8>,
    model_reader: Vec<u8>,
    model_arena: Vec<u8>,
    model_store: Vec<u8>,
    watch: Watch,
    reading: Reading,
    /// A calm world has no hostile blocks, so that demand 3 can be followed over a long list.
    calm: bool,
    /// For now the desk is not the one that was opened; the watch pauses until that one is back.
    suspended: bool,
}

/// Slices for one call (`desk` for a reader of another size too), and the library with the choice that its caller has: how an empty slice is passed.
struct Spare {
    desk: Lent,
    arena: Lent,
    store: Lent,
    table: Lent,
    out: Lent,
    library: Library,
}

pub struct Run {
    chance: Chance,
    seed: u64,
    calls: u64,
    wanted: u64,
    tally: Tally,
    world: World,
    spare: Spare,
}

const TABLE_ROOM: usize = 4096;
const LONGEST_TABLE: usize = 8 * (76 + 134 + 20) + 4;
/// Where a reader block has its table: behind five words and the bytes held, of the longest record one less.
const LONGEST_RECORD: usize = 134;
const READER_TABLE: usize = 40 + LONGEST_RECORD;

/// Words of the desk block: sixteen for each drive, of which change request 2026-06 put the last two there, kind and tail; drive count,
/// pointer and lengths; marks and addresses of placements; marks and bytes of parameters; how many bad blocks each slot has, and sixteen
/// for each.
const DRIVES: usize = 184;
const DRIVE_WORDS: usize = 16;
const KIND: usize = 14;
const TAIL: usize = 15;
const TYPE: usize = 11;
const COUNT: usize = DRIVES + 8 * DRIVE_WORDS;
const POINTER: usize = COUNT + 1;
const LENGTHS: usize = COUNT + 2;
const PLACED: usize = COUNT + 4;
const ADDRESSES: usize = PLACED + 8;
const PRESENT: usize = ADDRESSES + 8;
const PARAMETERS: usize = PRESENT + 8;
const BAD_COUNTS: usize = PARAMETERS + 14;
const BAD_LISTS: usize = BAD_COUNTS + 8;
const WORDS: usize = BAD_LISTS + 128;
const SPARE_ROOM: usize = 1 << 17;

impl World {
    fn new(chance: &mut Chance) -> World {
        // windows below a packet, below a block, of some parts of sixteen, of a whole AL of 128, above 1 MiB
        let window = match chance.weighed(&[(3, 0), (4, 1), (25, 2), (45, 3), (12, 4), (1, 5)]) {
            0 => chance.one_of(&[0, 0, 1, 2, 15, 16, 17]),
            1 => chance.between(18, 1100),
            2 => chance.between(512, 5000),
            3 => chance.between(5000, 24_000),
            4 => chance.between(66_000, 70_000),
            _ => chance.between(0x10_FFEF, 0x11_2000),
        };
        let blocks = match chance.weighed(&[(1, 0), (8, 1), (40, 2), (40, 3), (2, 4)]) {
            0 => 0,
            1 => chance.between(1, 12),
            2 => chance.between(12, 120),
            3 => chance.between(120, 400),
            _ => 2048,
        };
        let arena_length = 8 * window + if chance.percent(50) { chance.below(8) } else { 0 };
        let store_length = 512 * blocks + if chance.percent(50) { chance.below(512) } else { 0 };
        let drives = drives::drives(chance, blocks);
        let arena = chance.bytes(arena_length as usize);
        let store = chance.bytes(store_length as usize);
        // opening looks at the size of the block alone: it is opened over random bytes
        let desk = chance.bytes(DESK_SIZE);
        let reader = chance.bytes(READER_SIZE);
        let place = place(chance);
        World {
            drives,
            window,
            desk: Lent::holding(&desk, place),
            reader: Lent::holding(&reader, place),
            arena: Lent::holding(&arena, place),
            store: Lent::holding(&store, place),
            model_desk: desk,
            model_reader: reader,
            model_arena: arena,
            model_store: store,
            watch: Watch::default(),
            reading: Reading::default(),
            calm: chance.percent(50),
            suspended: false,
        }
    }

    fn rows(&self) -> Option<Desk> {
        model::block::read(&self.model_desk)
    }

    /// The host writes into a guest's window, on both sides; what would fall outside is dropped.
    fn poke(&mut self, guest: u64, place: u64, bytes: &[u8]) {
        if guest < 8 {
            self.watch.window_disturbed(guest as usize);
        }
        for (i, byte) in bytes.iter().enumerate() {
            let at = place + i as u64;
            if guest < 8 && at < self.window {
                let at = (guest * self.window + at) as usize;
                self.model_arena[at] = *byte;
                self.arena.bytes_mut()[at] = *byte;
            }
        }
    }

    /// Tells the watch what a call at the world's desk did.
    fn follow(&mut self, call: &Call, got: &Outcome, own_memory: bool, table: Vec<u8>, found: Option<Vec<u8>>) -> Result<(), String> {
        if got.answer == 25 {
            return Err("25 at a desk that nobody else wrote".into());
        }
        if !matches!(got.answer, 0 | 256) {
            return Ok(());
        }
        let lends_memory = matches!(call, Call::Post { .. } | Call::Turn | Call::Withdraw { .. });
        if lends_memory && !own_memory {
            // another arena or store of the same length
            self.watch.all_disturbed();
        }
        let (arena, store) = (self.arena.bytes(), self.store.bytes());
        let window = |guest: u64| &arena[(guest * self.window) as usize..][..self.window as usize];
        match call {
            Call::Open { .. } => self.watch.opened(table),
            Call::Post { guest, registers } if got.answer == 256 && own_memory => {
                self.watch.accepted(*guest as usize, *registers, window(*guest), store)?;
            }
            Call::Post { guest, registers } => {
                if let Some(found) = found {
                    let guest = *guest as usize;
                    self.watch.answered(guest, *registers, found, &mut self.model_store, got.registers, window(guest as u64))?;
                }
            }
            Call::Turn => {
                let served = (got.answer == 0).then_some((got.numbers[0], got.numbers[1]));
                self.watch.turned(served, arena, store)?;
            }
            Call::Withdraw { guest, .. } => self.watch.withdrawn(*guest as usize),
            Call::Place { guest, address } => self.watch.placed(*guest as usize, *address)?,
            Call::Collect { guest, .. } => self.watch.collected(*guest as usize, got.registers)?,
            _ => {}
        }
        Ok(())
    }

    fn set_desk(&mut self, bytes: &[u8]) {
        self.model_desk.copy_from_slice(bytes);
        self.desk.bytes_mut().copy_from_slice(bytes);
    }

    fn set_reader(&mut self, bytes: &[u8]) {
        self.model_reader.copy_from_slice(bytes);
        self.reader.bytes_mut().copy_from_slice(bytes);
    }
}

impl Run {
    pub fn new(seed: u64, wanted: u64) -> Run {
        let mut chance = Chance::new(seed);
        let world = World::new(&mut chance);
        let spare = Spare {
            desk: Lent::with_room(2 * DESK_SIZE),
            arena: Lent::with_room(SPARE_ROOM),
            store: Lent::with_room(SPARE_ROOM),
            table: Lent::with_room(TABLE_ROOM),
            out: Lent::with_room(TABLE_ROOM),
            library: Library::default(),
        };
        SEED.store(seed, Ordering::Relaxed);
        Run { chance, seed, calls: 0, wanted, tally: Tally::default(), world, spare }
    }

    /// Runs all calls; the summary, or what differed.
    pub fn run(mut self) -> Result<Tally, String> {
        while self.calls < self.wanted {
            self.world = World::new(&mut self.chance);
            self.tally.worlds += 1;
            self.open_world()?;
            let length = if self.world.window > 60_000 { 250 } else { self.chance.between(50, 800) };
            let end = (self.calls + length).min(self.wanted);
            while self.calls < end {
                self.step()?;
            }
            self.tally.add_watch(&self.world.watch);
        }
        Ok(self.tally)
    }

    fn open_world(&mut self) -> Result<(), String> {
        let table = drives::table(&self.world.drives);
        let (arena_length, store_length) = (self.world.model_arena.len() as u64, self.world.model_store.len() as u64);
        let opened = self.call(Call::Open { arena_length, store_length }, Slice::Own, Slice::Own, Slice::Own, table)?;
        if opened.answer == 0 {
            Ok(())
        } else {
            Err(format!("a good table was refused with {}", opened.answer))
        }
    }

    // ---- one call, both ways

    /// The block is the desk's or the reader's, by the call; the table is what is opened, or the fragment that is fed.
    fn call(&mut self, call: Call, block: Slice, arena: Slice, store: Slice, table: Vec<u8>) -> Result<Outcome, String> {
        self.calls += 1;
        CALL.store(self.calls, Ordering::Relaxed);
        let place = place(&mut self.chance);
        self.spare.library.null_for_empty.set(self.chance.percent(50));
        let before = [self.chance.any(), self.chance.any(), self.chance.any()];
        let before = if matches!(call, Call::Block { .. } | Call::Address { .. }) { before.map(|n| n & 0xFFFF_FFFF) } else { before };
        let room = self.room_for_write(&call);
        let mut out = self.chance.bytes(room);
        let asked = self.asked_size(&call);

        let spare = &mut self.spare;
        lay(&mut spare.table, &table, place);
        lay(&mut spare.out, &out, place);
        for (slice, lent) in [(&block, &mut spare.desk), (&arena, &mut spare.arena), (&store, &mut spare.store)] {
            lay(lent, if let Slice::Other(bytes) = slice { bytes } else { &[] }, place);
        }
        let world = &mut self.world;
        let own = |slice: &Slice| matches!(slice, Slice::Own);
        let (own_block, own_memory) = (own(&block), own(&arena) && own(&store));
        let at_reader = call.at_reader();
        let own_desk = own_block && !at_reader;
        // some posts that may be answered at once are served alone as well, on the window that they found
        let found_window = match &call {
            Call::Post { guest, .. } if *guest < 8 && own_desk && own_memory && self.calls % 4 == 0 => {
                Some(model::parts::window(&mut world.model_arena, *guest).to_vec())
            }
            _ => None,
        };
        let lent_block = match own_block {
            true if at_reader => &mut world.reader,
            true => &mut world.desk,
            false => &mut spare.desk,
        };
        let lent_arena = if own(&arena) { &mut world.arena } else { &mut spare.arena };
        let lent_store = if own(&store) { &mut world.store } else { &mut spare.store };

        let only_read = matches!(call, Call::Post { .. } | Call::Withdraw { .. } | Call::Place { .. });
        lent_store.set_read_only(only_read);
        lent_block.set_read_only(matches!(call, Call::Write | Call::ReaderWrite));
        spare.table.set_read_only(true);
        let by_library = perform(
            &spare.library,
            &call,
            Slices {
                block: lent_block.bytes_mut(),
                arena: lent_arena.bytes_mut(),
                store: lent_store.bytes_mut(),
                table: spare.table.bytes(),
                out: spare.out.bytes_mut(),
            },
            before,
        );
        spare.table.set_read_only(false);
        lent_block.set_read_only(false);
        lent_store.set_read_only(false);

        let (mut other_block, mut other_arena, mut other_store) = (block, arena, store);
        let model_block = pick(&mut other_block, if at_reader { &mut world.model_reader } else { &mut world.model_desk });
        let model_arena = pick(&mut other_arena, &mut world.model_arena);
        let model_store = pick(&mut other_store, &mut world.model_store);
        let by_model = perform(
            &Model,
            &call,
            Slices { block: model_block, arena: model_arena, store: model_store, table: &table, out: &mut out },
            before,
        );

        let lends_memory = matches!(call, Call::Post { .. } | Call::Turn | Call::Withdraw { .. } | Call::Place { .. });
        let mut found = None;
        if by_library != by_model {
            found = Some(format!("library {by_library:?}\nmodel   {by_model:?}"));
        }
        found = found.or_else(|| difference(if at_reader { "reader" } else { "desk" }, lent_block, model_block));
        if lends_memory {
            found = found.or_else(|| difference("arena", lent_arena, model_arena));
            found = found.or_else(|| difference("store", lent_store, model_store));
        }
        found = found.or_else(|| difference("buffer", &spare.out, &out));
        found = found.or_else(|| difference("table", &spare.table, &table));
        if let Some(what) = found {
            let lengths = format!(
                "block {}, arena {}, store {}, table {}, buffer {}",
                model_block.len(),
                model_arena.len(),
                model_store.len(),
                table.len(),
                out.len()
            );
            return Err(format!("seed {}, call {}: {call:x?}\nlengths: {lengths}\n{what}", self.seed, self.calls));
        }
        self.tally.add(&call, &by_model);
        self.tally_tables(&call, &by_model, own_desk && own_memory, asked);
        if at_reader && own_block && self.world.reading.known && !matches!(call, Call::ReaderOpen { .. }) {
            let followed = self.world.reading.follow(&call, &by_library, &table, &out);
            followed.map_err(|what| format!("seed {}, call {}: {call:x?}\nthe reader: {what}", self.seed, self.calls))?;
        }
        let opening = matches!(call, Call::Open { .. });
        if own_desk && !self.world.suspended && (own_memory || !opening) {
            self.world
                .follow(&call, &by_library, own_memory, table, found_window)
                .map_err(|what| format!("seed {}, call {}: {call:x?}\ndemand 3: {what}", self.seed, self.calls))?;
        }
        Ok(by_model)
    }

    /// The size that a 48h asks for, as it lies in the guest's window.
    fn asked_size(&self, call: &Call) -> u16 {
        let Call::Post { guest, registers } = call else { return 0 };
        let place = model::parts::linear(registers.ds, registers.si);
        if *guest >= 8 || place + 2 > self.world.window {
            return 0;
        }
        let at = (guest * self.world.window + place) as usize;
        u16::from_le_bytes([self.world.model_arena[at], self.world.model_arena[at + 1]])
    }

    /// What is counted of parameter tables and the pointers to them, and of the results of 48h.
    fn tally_tables(&mut self, call: &Call, done: &Outcome, own: bool, asked: u16) {
        if done.answer != 0 || !own {
            return;
        }
        match call {
            Call::Place { .. } => {
                let tables = self.world.rows().map_or(0, |desk| desk.drives.parameters.iter().flatten().count());
                self.tally.placed(tables as u64);
            }
            Call::Post { guest, registers } if registers.ah() == 0x48 && done.registers.carry == 0 => {
                let at = (guest * self.world.window + model::parts::linear(registers.ds, registers.si)) as usize;
                let result = &self.world.model_arena[at..];
                if result[0] >= 30 {
                    self.tally.shown(result[26..30] != [0xFF; 4]);
                }
                let returned = result[0];
                let shown: Option<[u8; 2]> = result[2..4].try_into().ok();
                let Some(drive) = self.world.rows().and_then(|desk| desk.drives.numbered(u64::from(registers.dl())).copied()) else {
                    return;
                };
                self.tally.flagged(Some(drive.flags.to_le_bytes()) != shown);
                self.tally.result(asked, returned, drive.kind, drive.interface_type == drives::I2O);
            }
            _ => {}
        }
    }

    /// Buffers around the length of the world's table, or of what was fed to its reader, for edd_write and edd_reader_write; for the
    /// converters mostly that of the other kind's record.
    fn room_for_write(&mut self, call: &Call) -> usize {
        if let Call::ConvertUp | Call::ConvertDown = call {
            let (right, swapped) = if matches!(call, Call::ConvertUp) { (76, 68) } else { (68, 76) };
            let any = self.chance.below(200) as usize;
            return self.chance.weighed(&[(30, right), (6, swapped), (1, right - 1), (1, right + 1), (1, 0), (1, any)]);
        }
        let fed = self.world.reading.fed.len();
        let table = if call.at_reader() { fed.clamp(4, TABLE_ROOM - 100) } else { drives::table(&self.world.drives).len() };
        match self.chance.below(6) {
            0 => table,
            1 => table - 1,
            2 => table + self.chance.below(100) as usize,
            3 => self.chance.below(4) as usize,
            4 => self.chance.below(table as u64) as usize,
            _ => LONGEST_TABLE,
        }
    }

    // ---- what is called

    fn step(&mut self) -> Result<(), String> {
        let hostile = if self.world.calm { 0 } else { 12 };
        match self.chance.weighed(&[(86, 0), (hostile, 1), (3, 2), (2, 3), (3, 4), (18, 5), (4, 6)]) {
            0 => self.at_desk(Slice::Own),
            1 => self.hostile_block(),
            2 => {
                let desk = self.wrong_size();
                self.at_desk(desk)
            }
            3 => self.opening(),
            4 => self.without_desk(),
            5 => self.at_reader(),
            _ => self.conversion(),
        }
    }

    /// One call at a desk, mostly with the world's arena and store.
    fn at_desk(&mut self, desk: Slice) -> Result<(), String> {
        // turns and collects are rarer where there is nothing to serve or to hand out
        let (waiting, finished) = self.rows_by_stage();
        let kind = self.chance.weighed(&[(30, 0), (4 + 6 * waiting, 1), (2 + 6 * finished, 2), (3 + waiting / 2, 3), (3, 4), (4, 5)]);
        let arena = self.memory(self.world.model_arena.len());
        let store = self.memory(self.world.model_store.len());
        let call = match kind {
            0 => self.post(),
            1 => Call::Turn,
            2 => Call::Collect { guest: self.guest_in(|row| matches!(row, Row::Finished(_))), registers: self.registers() },
            3 => Call::Withdraw { guest: self.guest_in(|row| matches!(row, Row::Waiting(_))), registers: self.registers() },
            4 => Call::Write,
            _ => Call::Place { guest: self.guest_in(|row| !matches!(row, Row::Waiting(_))), address: self.address() },
        };
        self.call(call, desk, arena, store, Vec::new())?;
        // the host and the guests write memory between calls
        if self.chance.percent(3) {
            let (guest, place, bytes) = (self.chance.below(8), self.chance.below(self.world.window.max(1)), self.chance.bytes(40));
            self.world.poke(guest, place, &bytes);
        }
        Ok(())
    }

    /// The world's own memory, or sometimes a slice of another length; by chance it may have the same.
    fn memory(&mut self, own: usize) -> Slice {
        if self.chance.percent(97) {
            return Slice::Own;
        }
        let length = match self.chance.below(4) {
            0 => 0,
            1 => own.wrapping_add(1),
            2 => own.wrapping_sub(1),
            _ => self.chance.below(3000) as usize,
        };
        Slice::Other(self.chance.bytes(length.min(SPARE_ROOM)))
    }

    fn rows_by_stage(&self) -> (u64, u64) {
        let Some(desk) = self.world.rows() else { return (2, 2) };
        let count = |wanted: fn(&Row) -> bool| desk.rows.iter().filter(|row| wanted(row)).count() as u64;
        (count(|row| matches!(row, Row::Waiting(_))), count(|row| matches!(row, Row::Finished(_))))
    }

    /// A desk block of another size, with the world's bytes as far as they go.
    fn wrong_size(&mut self) -> Slice {
        let size = match self.chance.below(5) {
            0 => 0,
            1 => DESK_SIZE - self.chance.between(1, 8) as usize,
            2 => DESK_SIZE + self.chance.between(1, 8) as usize,
            3 => self.chance.below(DESK_SIZE as u64) as usize,
            _ => 2 * DESK_SIZE,
        };
        let mut bytes = self.world.model_desk.clone();
        bytes.resize(size, 0);
        Slice::Other(bytes)
    }

    fn guest(&mut self) -> u64 {
        if self.chance.percent(97) {
            return self.chance.below(8);
        }
        self.chance.weighed(&[(4, 8), (1, 9), (1, 256), (1, 1 << 32), (1, 1 << 61), (1, u64::MAX - 7), (1, u64::MAX)])
    }

    /// A guest, mostly one whose row is as wanted.
    fn guest_in(&mut self, wanted: impl Fn(&Row) -> bool) -> u64 {
        let guest = self.guest();
        if guest < 8 && self.chance.percent(80) {
            if let Some(desk) = self.world.rows() {
                return (0..8).map(|i| (guest + i) % 8).find(|g| wanted(&desk.rows[*g as usize])).unwrap_or(guest);
            }
        }
        guest
    }

    fn registers(&mut self) -> Registers {
        let mut r = || self.chance.word();
        Registers { ax: r(), bx: r(), cx: r(), dx: r(), ds: r(), si: r(), es: r(), carry: r() }
    }

    // ---- posts

    fn post(&mut self) -> Call {
        let guest = self.guest_in(|row| matches!(row, Row::Vacant));
        let function = self.chance.weighed(&[
            (22, 0x42),
            (22, 0x43),
            (14, 0x02),
            (13, 0x03),
            (6, 0x44),
            (6, 0x47),
            (8, 0x48),
            (4, 0x41),
            (4, 0x08),
            (2, 0xFFFF),
        ]);
        let mut r = self.registers();
        r.carry = self.chance.one_of(&[0, 1, r.carry]);
        r.set_ah(if function == 0xFFFF { self.chance.byte() } else { function as u8 });
        let drive = self.drive(&mut r);
        match r.ah() {
            0x02 | 0x03 => self.sectors(&mut r, drive),
            0x41 if self.chance.percent(80) => r.bx = 0x55AA,
            0x42 | 0x43 | 0x44 | 0x47 => self.packet(guest, &mut r, drive),
            0x48 => self.result_buffer(guest, &mut r),
            _ => {}
        }
        Call::Post { guest, registers: r }
    }

    /// A drive of the table in DL, or sometimes a number that is none.
    fn drive(&mut self, r: &mut Registers) -> Option<Drive> {
        let count = self.world.drives.len() as u64;
        let odd = self.chance.one_of(&[0, 0x7F, 0x80 + count, 0xFF, u64::from(r.dl())]);
        let number = if count > 0 && self.chance.percent(95) { 0x80 + self.chance.below(count) } else { odd };
        r.dx = r.dx & 0xFF00 | number as u16 & 0xFF;
        self.world.drives.get((number as usize).wrapping_sub(0x80)).copied()
    }

    /// How many blocks: mostly what the window and the drive have room for.
    fn count(&mut self, drive: &Drive, most: u64) -> u64 {
        let room = (self.world.window / 512).min(drive.blocks).min(most);
        match self.chance.below(40) {
            0 => 0,
            1 => self.chance.one_of(&[most, most + 1, 128, 129, 255, 256, 65535]),
            2 => room,
            3 => room + 1,
            4 => 16.min(room),
            5 => 17.min(room),
            _ if room > 0 => self.chance.between(1, room),
            _ => 1,
        }
    }

    /// The first block: mostly one from which the count fits.
    fn start(&mut self, blocks: u64, count: u64) -> u64 {
        let last = blocks.saturating_sub(count);
        match self.chance.below(50) {
            0 => last,
            1 => last + 1,
            2 => blocks,
            3 => u64::MAX,
            4 => 0u64.wrapping_sub(count),
            5 => self.chance.any(),
            6 => self.chance.one_of(&[1 << 32, 1 << 63, blocks + (1 << 32)]),
            _ => self.chance.between(0, last),
        }
    }

    /// A place in the window from which `length` bytes fit, mostly.
    fn place(&mut self, length: u64) -> u64 {
        let last = self.world.window.saturating_sub(length);
        match self.chance.below(40) {
            0 => last,
            1 => last + 1,
            2 => self.world.window,
            3 => self.chance.between(last, last + length),
            4 => 0,
            _ => self.chance.between(0, last),
        }
    }

    /// A segment and an offset that give the place, as far as there are some.
    fn split(&mut self, place: u64) -> (u16, u16) {
        let highest = (place / 16).min(0xFFFF);
        let lowest = place.saturating_sub(0xFFFF).div_ceil(16).min(highest);
        let segment = self.chance.between(lowest, highest);
        (segment as u16, (place - 16 * segment).min(0xFFFF) as u16)
    }

    fn sectors(&mut self, r: &mut Registers, drive: Option<Drive>) {
        let Some(drive) = drive else { return };
        let count = self.count(&drive, 128).min(255);
        r.set_al(count as u8);
        let block = self.start(drive.geometry(), count);
        let (h, s) = (u64::from(drive.heads), u64::from(drive.sectors));
        let (mut cylinder, mut head, mut sector) = (block / s / h, block / s % h, block % s + 1);
        if self.chance.percent(8) {
            match self.chance.below(5) {
                0 => sector = 0,
                1 => sector = s + 1,
                2 => head = h,
                3 => cylinder = u64::from(drive.cylinders),
                _ => (cylinder, head, sector) = (self.chance.any(), self.chance.any(), self.chance.any()),
            }
        }
        r.cx = ((cylinder & 0xFF) << 8 | (cylinder >> 8 & 3) << 6 | sector & 0x3F) as u16;
        r.dx = (head as u16) << 8 | r.dx & 0xFF;
        let buffer = self.place(512 * count);
        (r.es, r.bx) = self.split(buffer);
    }

    fn packet(&mut self, guest: u64, r: &mut Registers, drive: Option<Drive>) {
        if r.ah() == 0x43 && self.chance.percent(97) {
            r.set_al(self.chance.weighed(&[(20, 0), (12, 1), (6, 2), (1, 3)]));
        }
        let place = self.place(16);
        (r.ds, r.si) = self.split(place);
        let Some(drive) = drive else { return };
        let count = self.count(&drive, 127);
        let start = self.start(drive.blocks, count);
        let buffer = self.place(512 * count);
        let (segment, offset) = if self.chance.percent(2) { (0xFFFF, 0xFFFF) } else { self.split(buffer) };
        let size = self.chance.weighed(&[(40, 16), (4, 24), (2, 255), (2, 15), (1, 0)]);
        let mut packet = vec![size, self.chance.byte()];
        packet.extend((count as u16).to_le_bytes());
        packet.extend(offset.to_le_bytes());
        packet.extend(segment.to_le_bytes());
        packet.extend(start.to_le_bytes());
        if self.chance.percent(3) {
            packet[self.chance.below(16) as usize] ^= 1 << self.chance.below(8);
        }
        if self.chance.percent(98) {
            self.world.poke(guest, place, &packet);
        }
    }

    fn result_buffer(&mut self, guest: u64, r: &mut Registers) {
        let from_end = self.chance.one_of(&[0, 1, 2, 25, 26, 29, 30, 65, 66, 67, 73, 74, 75]);
        let place = if self.chance.percent(50) { self.place(74) } else { self.world.window.saturating_sub(from_end) };
        (r.ds, r.si) = self.split(place);
        let size = self.chance.one_of(&[0, 25, 26, 29, 30, 65, 66, 67, 72, 73, 74, 75, 0xFFFF, r.ax]);
        self.world.poke(guest, place, &size.to_le_bytes());
    }

    // ---- placements

    /// An address for parameter tables: mostly a good one, else one that is just too far, misaligned or absurd.
    fn address(&mut self) -> u64 {
        let (window, tables) = (self.world.window, drives::tables(&self.world.drives));
        let last = window.saturating_sub(16 * tables) & !15;
        let last_segment = 0x10_0000 - 16 * tables;
        match self.chance.below(24) {
            0 => 0,
            1 => last,
            2 => last + 16,
            3 => window,
            4 => window.next_multiple_of(16),
            5 => self.chance.between(0, last),
            6 => 16 * self.chance.between(0, last / 16) + self.chance.one_of(&[1, 2, 4, 8, 15]),
            7 => self.chance.one_of(&[last_segment, last_segment + 16, 0xF_FFF0, 0x10_0000]),
            8 => self.chance.one_of(&[u64::MAX, u64::MAX - 15, 1 << 63, 1 << 32, 0u64.wrapping_sub(16 * tables)]),
            9 => self.chance.any() & !15,
            _ => 16 * self.chance.between(0, last / 16),
        }
    }

    // ---- openings

    fn opening(&mut self) -> Result<(), String> {
        let (own_arena, own_store) = (self.world.model_arena.len() as u64, self.world.model_store.len() as u64);
        // most are tried on another block, since one that passes ends the world's list
        let desk = match self.chance.below(10) {
            0 => self.wrong_size(),
            1..=5 => Slice::Other(self.chance.bytes(DESK_SIZE)),
            6 => {
                // the opened block is lent with its own lengths: 2^64 - 1 can match no slice
                return self.absurd_lengths();
            }
            _ => Slice::Own,
        };
        let is_own = matches!(desk, Slice::Own);
        let any = self.chance.any();
        let (arena_length, store_length) = if is_own {
            (own_arena, own_store)
        } else {
            (
                self.chance.one_of(&[own_arena, 0, 7, 8, u64::MAX, any]),
                self.chance.one_of(&[own_store, own_store, own_store, 0, 511, 512, 1 << 41, u64::MAX, any]),
            )
        };
        let table = drives::any_table(&mut self.chance, store_length / 512);
        let opened = self.call(Call::Open { arena_length, store_length }, desk, Slice::Own, Slice::Own, table)?;
        if is_own && opened.answer == 0 {
            // the drives that the posts are made for are those that now stand in the block
            self.world.drives =
                self.world.rows().map(|desk| (0..desk.drives.count).map(|i| known(&desk.drives, i)).collect()).unwrap_or_default();
        }
        Ok(())
    }

    /// Opens with lengths that no slice has, and makes a few calls at that desk.
    fn absurd_lengths(&mut self) -> Result<(), String> {
        let kept = self.world.model_desk.clone();
        self.world.suspended = true;
        let length = self.chance.one_of(&[u64::MAX, u64::MAX - 7, 1 << 63]);
        let drives = drives::drives(&mut self.chance, 40);
        let call = Call::Open { arena_length: length, store_length: length };
        self.call(call, Slice::Own, Slice::Own, Slice::Own, drives::table(&drives))?;
        for _ in 0..4 {
            self.at_desk(Slice::Own)?;
        }
        self.world.set_desk(&kept);
        self.world.suspended = false;
        Ok(())
    }

    // ---- hostile blocks

    /// The world's block with something changed, and a few calls at it. Now and then one that is accepted is kept.
    fn hostile_block(&mut self) -> Result<(), String> {
        let kept = self.world.model_desk.clone();
        let mut bytes = kept.clone();
        let changes = self.chance.weighed(&[(12, 1), (3, 2), (1, 5)]);
        for _ in 0..changes {
            self.change_block(&mut bytes);
        }
        self.world.set_desk(&bytes);
        self.world.suspended = true;
        let room = Slice::Other(Vec::new());
        let looked = self.call(Call::Write, Slice::Own, Slice::Other(Vec::new()), room, Vec::new())?;
        self.tally.hostile(looked.answer != 25);
        let more = if looked.answer == 25 { self.chance.between(0, 2) } else { self.chance.between(2, 8) };
        for _ in 0..more {
            self.at_desk(Slice::Own)?;
        }
        // table and lengths as they were; rows, pointer and placements may be others
        let own_table = |b: &[u8]| {
            [DRIVES..POINTER, LENGTHS..PLACED, PRESENT..WORDS]
                .into_iter()
                .all(|w| b[8 * w.start..8 * w.end] == kept[8 * w.start..8 * w.end])
        };
        let accepted = self.world.rows().is_some();
        if accepted && own_table(&self.world.model_desk) && self.chance.percent(30) {
            self.world.watch.forget();
        } else {
            self.world.set_desk(&kept);
            self.world.watch.all_disturbed();
        }
        self.world.suspended = false;
        Ok(())
    }

    fn change_block(&mut self, bytes: &mut [u8]) {
        let guest = self.chance.below(8) as usize;
        let row = 23 * self.waiting_row().unwrap_or(guest);
        let at = match self.chance.below(21) {
            0 => {
                let at = self.chance.below(DESK_SIZE as u64) as usize;
                bytes[at] ^= 1 << self.chance.below(8);
                return;
            }
            1 => return self.change_row(bytes, guest),
            2..=4 => row + self.chance.below(23) as usize,
            5 => row + self.chance.between(9, 14) as usize,
            6..=8 => return self.change_to_edge(bytes, row),
            9..=10 => {
                let slot = self.chance.below(self.world.drives.len().max(1) as u64) as usize;
                drive_word(slot, self.chance.below(DRIVE_WORDS as u64) as usize)
            }
            11 => COUNT + self.chance.below(4) as usize,
            12..=14 => return self.change_tables(bytes, guest),
            15..=16 => return self.change_bad_blocks(bytes),
            17..=18 => return self.change_kind(bytes),
            _ => self.chance.below(DESK_SIZE as u64 / 8) as usize,
        };
        let old = word_at(bytes, at);
        let drive = self.world.drives.first().copied();
        let (blocks, first) = drive.map_or((0, 0), |d| (d.blocks, d.first));
        let mut values = vec![u64::MAX, u64::MAX - 15, 0, 1, 2, 8, 0x80, 0x100, 1 << 16, 1 << 32, 1 << 63];
        values.extend([old.wrapping_add(1), old.wrapping_sub(1), old.wrapping_add(16), old & !15, old ^ 1 << self.chance.below(64)]);
        values.extend([self.chance.any(), u64::from(self.chance.word()), self.world.window, blocks, first, first + blocks]);
        let value = self.chance.one_of(&values);
        set_word_at(bytes, at, value);
    }

    /// Changes the kind of a drive, its tail or its interface type, or makes it a good drive of the other kind.
    fn change_kind(&mut self, bytes: &mut [u8]) {
        let slots = if self.chance.percent(80) { self.world.drives.len().max(1) as u64 } else { 8 };
        let slot = self.chance.below(slots) as usize;
        let (kind, tail) = (drive_word(slot, KIND), drive_word(slot, TAIL));
        let old = word_at(bytes, kind);
        match self.chance.below(7) {
            0 => set_word_at(bytes, kind, self.chance.one_of(&[0, 3, 4, 257, 258, 65537, 65538, old | 1 << 32, old | 1 << 63, u64::MAX])),
            1 => set_word_at(bytes, kind, self.chance.one_of(&[1, 2, old ^ 3])),
            2 => set_word_at(bytes, tail, self.chance.one_of(&[0, 1, 1 << 63, u64::MAX])),
            3 => bytes[8 * tail + self.chance.below(8) as usize] ^= 1 << self.chance.below(8),
            4 => set_word_at(bytes, drive_word(slot, TYPE), u64::from_le_bytes(drives::I2O)),
            5 => {
                set_word_at(bytes, kind, 1);
                set_word_at(bytes, tail, 0);
            }
            _ => {
                set_word_at(bytes, kind, 2);
                set_word_at(bytes, tail, self.chance.any());
                if self.chance.percent(50) {
                    set_word_at(bytes, drive_word(slot, TYPE), u64::from_le_bytes(drives::I2O));
                }
            }
        }
    }

    /// Changes what the block says of parameter tables: a guest's mark or address, a slot's mark or bytes.
    fn change_tables(&mut self, bytes: &mut [u8], guest: usize) {
        let slot = self.chance.below(8) as usize;
        let raw = 8 * PARAMETERS + 14 * slot;
        match self.chance.below(6) {
            0 => set_word_at(bytes, PLACED + guest, self.chance.one_of(&[0, 1, 1, 2, 256, 1 << 32, u64::MAX])),
            1 => set_word_at(bytes, ADDRESSES + guest, self.address()),
            2 => {
                let address = self.address();
                set_word_at(bytes, PLACED + guest, 1);
                set_word_at(bytes, ADDRESSES + guest, address);
            }
            3 => set_word_at(bytes, PRESENT + slot, self.chance.one_of(&[0, 1, 1, 2, 256, 1 << 63])),
            4 => bytes[raw + self.chance.below(14) as usize] = self.chance.byte(),
            _ => {
                // a record more or less, which moves what the placements of all guests must have room for
                let present = word_at(bytes, PRESENT + slot) == 0;
                set_word_at(bytes, PRESENT + slot, u64::from(present));
                bytes[raw..raw + 14].fill(0);
                if present {
                    self.chance.fill(&mut bytes[raw..raw + 14]);
                }
            }
        }
    }

    /// Changes a slot's bad blocks: how many, one of the numbers, what stands behind them, or the whole list.
    fn change_bad_blocks(&mut self, bytes: &mut [u8]) {
        let slots = if self.chance.percent(70) { self.world.drives.len().max(1) as u64 } else { 8 };
        let slot = self.chance.below(slots) as usize;
        let blocks = self.world.drives.get(slot).map_or(0, |drive| drive.blocks);
        let old = word_at(bytes, BAD_COUNTS + slot);
        let (first, last) = (BAD_LISTS + 16 * slot, BAD_LISTS + 16 * slot + old.clamp(1, 16) as usize - 1);
        let any = BAD_LISTS + 16 * slot + self.chance.below(16) as usize;
        match self.chance.below(9) {
            0 => set_word_at(bytes, BAD_COUNTS + slot, self.chance.one_of(&[0, 1, 2, 15, 16, 17, 256, 1 << 32, u64::MAX])),
            1 => set_word_at(bytes, BAD_COUNTS + slot, self.chance.one_of(&[old.wrapping_add(1), old.wrapping_sub(1), old | 1 << 56])),
            2 => set_word_at(bytes, last, self.chance.one_of(&[blocks, blocks.wrapping_sub(1), u64::MAX, 1 << 63, blocks | 1 << 32])),
            3 => set_word_at(bytes, any, word_at(bytes, any).wrapping_add(self.chance.one_of(&[1, u64::MAX]))),
            4 => set_word_at(bytes, any, word_at(bytes, self.chance.between(first as u64, last as u64) as usize)),
            5 => {
                let (a, b) = (word_at(bytes, first), word_at(bytes, last));
                set_word_at(bytes, first, b);
                set_word_at(bytes, last, a);
            }
            6 => bytes[8 * any + self.chance.below(8) as usize] = self.chance.one_of(&[1, 0x80, 0xFF]),
            kind => {
                // a good list, or none, for the drive of the slot
                let bad = if kind == 7 && blocks > 0 { drives::bad_blocks(&mut self.chance, blocks) } else { drives::Bad::default() };
                bytes[8 * first..8 * (first + 16)].fill(0);
                set_word_at(bytes, BAD_COUNTS + slot, bad.numbers().len() as u64);
                for (i, number) in bad.numbers().iter().enumerate() {
                    set_word_at(bytes, first + i, *number);
                }
            }
        }
    }

    /// Sets one word of a waiting row to the last value that the other words allow there, or to the first that they do not.
    fn change_to_edge(&mut self, bytes: &mut [u8], row: usize) {
        let get = |word: usize| word_at(bytes, row + word);
        let (ax, number, start, count, buffer, moved) = (get(1), get(9), get(10), get(11), get(12), get(14));
        let Some(drive) = self.world.drives.get((number as usize).wrapping_sub(0x80)).copied() else { return };
        if [ax, start, count, buffer, moved].iter().any(|word| *word > 1 << 32) {
            // an earlier change already made it absurd
            return;
        }
        let by_sector = ax >> 8 < 0x40;
        let (end, limit) = if by_sector { (drive.geometry(), 128) } else { (drive.blocks, 127) };
        let (m, drives) = (self.world.window, self.world.drives.len() as u64);
        let word = self.chance.one_of(&[1, 9, 10, 10, 11, 11, 12, 12, 13, 14, 14]);
        let after_buffer = m.saturating_sub(buffer) / 512;
        let edges: Vec<u64> = match word {
            1 => [0x02, 0x03, 0x42, 0x43, 0x44, 0x47, 0x01, 0x04].map(|ah| ah << 8 | ax & 0xFF).to_vec(),
            9 => vec![0x7F, 0x80, 0x80 + drives - 1, 0x80 + drives, number + 256],
            10 => vec![end - count.min(end), (end + 1).wrapping_sub(count), drive.blocks.wrapping_sub(count), 0u64.wrapping_sub(count), 0],
            11 => vec![
                limit,
                limit + 1,
                moved,
                moved + 1,
                end.wrapping_sub(start),
                end.wrapping_sub(start).wrapping_add(1),
                after_buffer,
                after_buffer + 1,
            ],
            12 => vec![m.wrapping_sub(512 * count), (m + 1).wrapping_sub(512 * count), 0u64.wrapping_sub(512 * count), m],
            13 => vec![m.wrapping_sub(16), m.wrapping_sub(15), 0u64.wrapping_sub(16), 0, 1, m],
            _ => vec![count & !15, count, count.saturating_sub(1) & !15, 16, 0, 8, moved + 16],
        };
        let value = self.chance.one_of(&edges);
        set_word_at(bytes, row + word, value);
    }

    fn waiting_row(&mut self) -> Option<usize> {
        let from = self.chance.below(8) as usize;
        let desk = self.world.rows()?;
        (0..8).map(|i| (from + i) % 8).find(|g| matches!(desk.rows[*g], Row::Waiting(_)))
    }

    /// A whole row made anew: a copy of another, a finished one with any registers, or a request made up from a drive.
    fn change_row(&mut self, bytes: &mut [u8], guest: usize) {
        let mut words = [0u64; 23];
        match self.chance.below(3) {
            0 => {
                let from = 184 * self.chance.below(8) as usize;
                bytes.copy_within(from..from + 184, 184 * guest);
                return;
            }
            1 => {
                words[0] = 2;
                words[15..22].fill_with(|| u64::from(self.chance.word()));
                words[22] = self.chance.weighed(&[(5, 0), (5, 1), (1, 2)]);
            }
            _ => {
                let Some(place) = (self.world.drives.len() as u64).checked_sub(1).map(|last| self.chance.between(0, last)) else {
                    return;
                };
                let drive = self.world.drives[place as usize];
                let function = self.chance.one_of(&[0x02, 0x03, 0x42, 0x43]);
                let (limit, blocks) = if function < 0x40 { (128, drive.geometry()) } else { (127, drive.blocks) };
                words[0] = 1;
                words[1..8].fill_with(|| u64::from(self.chance.word()));
                words[1] = function << 8 | words[1] & 0xFF;
                words[8] = self.chance.below(2);
                words[9] = 0x80 + place;
                words[11] = self.count(&drive, limit);
                words[10] = self.start(blocks, words[11]);
                words[12] = self.place(words[11].wrapping_mul(512));
                words[13] = if function < 0x40 { 0 } else { self.place(16) };
                words[14] = self.chance.below(words[11] + 1) & !15;
            }
        }
        for (i, word) in words.iter().enumerate() {
            bytes[184 * guest + 8 * i..][..8].copy_from_slice(&word.to_le_bytes());
        }
    }

    // ---- readers

    /// One call at the world's reader: mostly the next fragment of its table, until all of it has arrived and the end is told.
    fn at_reader(&mut self) -> Result<(), String> {
        let (open, feed, end, write, damage) = (0, 1, 2, 3, 4);
        let reading = &self.world.reading;
        let choices = match (reading.verdict, reading.coming.len()) {
            _ if !reading.known => [(8, open), (6, feed), (3, end), (3, write), (3, damage)],
            (Some(_), _) => [(8, open), (5, feed), (3, end), (5, write), (3, damage)],
            (None, 0) => [(1, open), (2, feed), (12, end), (2, write), (4, damage)],
            (None, _) => [(1, open), (40, feed), (2, end), (2, write), (8, damage)],
        };
        let kind = self.chance.weighed(&choices);
        if kind == open {
            return self.open_reader();
        }
        if kind == damage && !self.world.calm {
            return self.hostile_reader();
        }
        if self.chance.percent(3) {
            let reader = self.reader_of_wrong_size();
            let call = [Call::ReaderFeed, Call::ReaderEnd, Call::ReaderWrite][self.chance.below(3) as usize].clone();
            return self.call(call, reader, Slice::Own, Slice::Own, vec![0x44]).map(|_| ());
        }
        if kind == write {
            return self.call(Call::ReaderWrite, Slice::Own, Slice::Own, Slice::Own, Vec::new()).map(|_| ());
        }
        let (settled, told) = (self.world.reading.verdict.is_some(), kind == end);
        let (call, fragment) = if told { (Call::ReaderEnd, Vec::new()) } else { (Call::ReaderFeed, self.fragment()) };
        let got = self.call(call, Slice::Own, Slice::Own, Slice::Own, fragment)?;
        if self.world.reading.known && !settled && (got.answer != 256 || self.chance.percent(20)) {
            self.read_as_a_whole(told)?;
        }
        Ok(())
    }

    fn open_reader(&mut self) -> Result<(), String> {
        let (own, any) = (self.world.model_store.len() as u64, self.chance.any());
        let store_length = self.chance.one_of(&[own, own, own, own, 0, 511, 512, 1 << 41, u64::MAX, any]);
        if self.chance.percent(4) {
            let reader = self.reader_of_wrong_size();
            return self.call(Call::ReaderOpen { store_length }, reader, Slice::Own, Slice::Own, Vec::new()).map(|_| ());
        }
        self.call(Call::ReaderOpen { store_length }, Slice::Own, Slice::Own, Slice::Own, Vec::new())?;
        let coming = drives::any_table(&mut self.chance, store_length / 512);
        self.world.reading = Reading::opened(store_length, coming);
        Ok(())
    }

    /// The next bytes of the table: none, a few, up to around the end of a record, or all that are left.
    fn fragment(&mut self) -> Vec<u8> {
        let coming = &mut self.world.reading.coming;
        let length = match self.chance.below(12) {
            0 => 0,
            1..=3 => 1,
            4..=5 => self.chance.between(1, 5),
            6..=7 => self.chance.between(5, 70),
            8 => self.chance.one_of(&[3, 4, 13, 14, 19, 20, 67, 68, 69, 75, 76, 77, 88, 96, 133, 134, 135, 202, 210, 222, 230]),
            9 => self.chance.between(60, 300),
            _ => coming.len() as u64,
        };
        let fragment: Vec<u8> = coming.drain(..coming.len().min(length as usize)).collect();
        // after all of it, or once that is settled, any bytes
        if fragment.is_empty() && self.chance.percent(30) {
            return self.chance.bytes(length as usize);
        }
        fragment
    }

    /// What was fed, read as a whole by edd_open, is what the reader says.
    fn read_as_a_whole(&mut self, told: bool) -> Result<(), String> {
        let (store_length, fed) = (self.world.reading.store_length, self.world.reading.fed.clone());
        let desk = Slice::Other(self.chance.bytes(DESK_SIZE));
        let whole = self.call(Call::Open { arena_length: 0, store_length }, desk, Slice::Own, Slice::Own, fed)?;
        let reading = &self.world.reading;
        if let Some((number, _)) = reading.verdict {
            self.tally.read(told, number);
        }
        reading
            .equals_whole(told, (whole.answer, whole.numbers[0]))
            .map_err(|what| format!("seed {}, call {}: the reader: {what}", self.seed, self.calls))
    }

    fn reader_of_wrong_size(&mut self) -> Slice {
        let size =
            self.chance.one_of(&[0, 1, READER_SIZE - 1, READER_SIZE + 1, READER_SIZE - 8, READER_SIZE + 8, 2 * READER_SIZE, DESK_SIZE]);
        let mut bytes = self.world.model_reader.clone();
        bytes.resize(size, 0);
        Slice::Other(bytes)
    }

    /// The world's reader with something changed, and a few calls at it. Now and then it is kept.
    fn hostile_reader(&mut self) -> Result<(), String> {
        let (kept, reading) = (self.world.model_reader.clone(), self.world.reading.clone());
        let mut bytes = kept.clone();
        for _ in 0..self.chance.weighed(&[(12, 1), (3, 2), (1, 4)]) {
            self.change_reader(&mut bytes);
        }
        self.world.set_reader(&bytes);
        self.world.reading.known = false;
        let looked = self.call(Call::ReaderWrite, Slice::Own, Slice::Own, Slice::Own, Vec::new())?;
        self.tally.hostile_reader(looked.answer != 25);
        for _ in 0..self.chance.between(0, if looked.answer == 25 { 1 } else { 4 }) {
            let fragment = self.fragment();
            let call = if self.chance.percent(80) { Call::ReaderFeed } else { Call::ReaderEnd };
            self.call(call, Slice::Own, Slice::Own, Slice::Own, fragment)?;
        }
        if self.chance.percent(70) {
            self.world.set_reader(&kept);
            self.world.reading = reading;
        }
        Ok(())
    }

    /// Changes a word of a reader block, its held bytes, its table, or any bit.
    fn change_reader(&mut self, block: &mut [u8]) {
        let table_length = word_at(block, 4);
        let (at, value) = match self.chance.below(14) {
            0 => {
                block[self.chance.below(READER_SIZE as u64) as usize] ^= 1 << self.chance.below(8);
                return;
            }
            1 => (0, self.chance.one_of(&[0, 1, 2, 3, 4, 256, 1 << 63])),
            2 => (1, self.chance.one_of(&[0, 1, 5, 9, 10, 257, 1 << 32])),
            3 => (2, self.chance.one_of(&[0, 1, word_at(block, 2).wrapping_sub(1), 40, 400, u64::MAX])),
            4 => (3, {
                let old = word_at(block, 3);
                self.chance.one_of(&[
                    0,
                    1,
                    3,
                    4,
                    19,
                    20,
                    67,
                    68,
                    69,
                    75,
                    76,
                    77,
                    133,
                    134,
                    135,
                    1 << 32,
                    u64::MAX,
                    old.wrapping_sub(1),
                    old.wrapping_add(1),
                ])
            }),
            5 => (
                4,
                self.chance.one_of(&[
                    0,
                    3,
                    4,
                    72,
                    92,
                    table_length.wrapping_sub(68),
                    table_length.wrapping_sub(76),
                    table_length.wrapping_add(1),
                    LONGEST_TABLE as u64,
                    LONGEST_TABLE as u64 + 1,
                    1 << 32,
                    u64::MAX,
                ]),
            ),
            6..=7 => {
                // without held bytes it may be on any course
                block[24..32].fill(0);
                block[40..READER_TABLE].fill(0);
                let course = self.chance.below(4);
                set_word_at(block, 1, if course == 3 { self.chance.between(1, 9) } else { 0 });
                (0, course)
            }
            8..=10 => return self.change_held(block),
            11 => return self.change_table(block),
            12 => {
                let at = READER_TABLE as u64 + table_length.min(LONGEST_TABLE as u64) + self.chance.below(3);
                block[(at as usize).min(READER_SIZE - 1)] = self.chance.byte();
                return;
            }
            _ => (self.chance.below(READER_SIZE as u64 / 8) as usize, self.chance.any() >> self.chance.below(64)),
        };
        set_word_at(block, at, value);
    }

    /// The beginning of a record as the bytes held, of a good one, nearly whole or whole, or with another length or kind.
    fn change_held(&mut self, block: &mut [u8]) {
        let mut record = self.chance.bytes(LONGEST_RECORD);
        let (length, kind) = if self.chance.percent(40) {
            (self.chance.one_of(&[6, 14, 14, 22, 30, 126, 134, 134, 134, 142, 13, 15, 133, 0x10E]), 3)
        } else {
            self.chance.one_of(&[
                (68, 1),
                (76, 2),
                (76, 2),
                (20, 4),
                (20, 4),
                (4, 0),
                (67, 1),
                (20, 1),
                (4, 2),
                (0x144, 1),
                (68, 2),
                (76, 1),
                (77, 2),
                (0x14C, 2),
            ])
        };
        record[..4].copy_from_slice(&[length as u8, (length >> 8) as u8, kind, 0]);
        let held = self.chance.one_of(&[0, 1, 3, 4, 5, 13, 14, 19, 20, 21, 66, 67, 68, 74, 75, 76, 125, 126, 132, 133, 134]);
        set_word_at(block, 3, held as u64);
        if self.chance.percent(70) {
            set_word_at(block, 0, 0);
            set_word_at(block, 1, 0);
        }
        block[40..READER_TABLE].fill(0);
        block[40..40 + held].copy_from_slice(&record[..held]);
    }

    /// Another table in the block, good or not, with its length; it may be that of more drives than a table has.
    fn change_table(&mut self, block: &mut [u8]) {
        let table = drives::any_table(&mut self.chance, word_at(block, 2).min(1 << 55));
        let length = table.len().min(LONGEST_TABLE);
        set_word_at(block, 4, length as u64);
        block[READER_TABLE..].fill(0);
        block[READER_TABLE..READER_TABLE + length].copy_from_slice(&table[..length]);
    }

    // ---- conversions

    /// A record, sound or damaged, from one kind to the other; then, now and then, what came out of it back again.
    fn conversion(&mut self) -> Result<(), String> {
        let mut record = drives::any_record(&mut self.chance);
        // mostly the converter for the kind that the record says it is of
        let mut up = self.chance.percent(85) == (record.get(2) == Some(&1));
        for _ in 0..2 {
            let call = if up { Call::ConvertUp } else { Call::ConvertDown };
            let done = self.call(call, Slice::Own, Slice::Own, Slice::Own, record.clone())?;
            let converted = self.spare.out.bytes().to_vec();
            if done.answer != 0 || self.chance.percent(50) {
                break;
            }
            (record, up) = (converted, !up);
            if self.chance.percent(30) {
                let at = self.chance.below(record.len() as u64) as usize;
                record[at] ^= 1 << self.chance.below(8);
            }
        }
        Ok(())
    }

    // ---- windows and addresses

    fn without_desk(&mut self) -> Result<(), String> {
        let any = self.chance.any();
        let limit = |chance: &mut Chance, most: u32| {
            let small = chance.between(1, u64::from(most)) as u32;
            chance.weighed(&[(12, small), (1, 0), (2, most), (1, most + 1), (1, u32::MAX), (1, 1 << 16)])
        };
        let geometry = [limit(&mut self.chance, 1024), limit(&mut self.chance, 255), limit(&mut self.chance, 63)];
        let call = match self.chance.below(3) {
            0 => Call::Window {
                arena_length: self.chance.one_of(&[0, 1, 7, 8, 9, 63, 64, 65, 4103, u64::MAX, u64::MAX - 7, 1 << 63, any, any >> 40]),
                guest: self.chance.one_of(&[0, 1, 2, 3, 4, 5, 6, 7, 8, 9, 1 << 32, 1 << 61, u64::MAX, any]),
            },
            1 => {
                let part = |chance: &mut Chance, end: u32| {
                    let inside = chance.below(u64::from(end.max(1))) as u32;
                    chance.weighed(&[(10, inside), (1, 0), (1, end.wrapping_sub(1)), (1, end), (1, u32::MAX)])
                };
                let [c, h, s] = geometry;
                let address = [part(&mut self.chance, c), part(&mut self.chance, h), part(&mut self.chance, s.saturating_add(1))];
                Call::Block { geometry, address }
            }
            _ => {
                let size = geometry.iter().map(|n| u64::from(*n)).fold(1u64, u64::saturating_mul);
                let inside = self.chance.below(size.max(1));
                let block =
                    self.chance.one_of(&[inside, inside, inside, size.wrapping_sub(1), size, 0, 1 << 32, u64::MAX, inside + (1 << 32)]);
                Call::Address { geometry, block }
            }
        };
        self.call(call, Slice::Own, Slice::Own, Slice::Own, Vec::new())?;
        Ok(())
    }
}

fn known(known: &model::parts::Drives, slot: usize) -> Drive {
    let drive = known.slot[slot];
    Drive {
        physical: [drive.physical_cylinders, drive.physical_heads, drive.physical_sectors],
        blocks: drive.blocks,
        first: drive.first,
        flags: drive.flags,
        cylinders: drive.cylinders,
        heads: drive.heads,
        sectors: drive.sectors,
        protection: drive.protection,
        host_bus: drive.host_bus,
        interface_type: drive.interface_type,
        interface_path: drive.interface_path,
        device_path: drive.device_path,
        tail: (drive.kind == 2).then_some(drive.tail),
        bad: drives::Bad::of(known.bad[slot].numbers()),
        parameters: known.parameters[slot],
    }
}

/// Mostly against a page that nobody may touch; else at any address.
fn place(chance: &mut Chance) -> Place {
    Place { at_end: chance.percent(70), gap: if chance.percent(70) { 0 } else { chance.between(1, 7) as usize } }
}

/// A word of a drive's slot.
fn drive_word(slot: usize, word: usize) -> usize {
    DRIVES + DRIVE_WORDS * slot + word
}

fn word_at(block: &[u8], word: usize) -> u64 {
    u64::from_le_bytes(block[8 * word..8 * word + 8].try_into().unwrap())
}

fn set_word_at(block: &mut [u8], word: usize, value: u64) {
    block[8 * word..8 * word + 8].copy_from_slice(&value.to_le_bytes());
}

fn lay(lent: &mut Lent, bytes: &[u8], place: Place) {
    lent.set_length(bytes.len(), place);
    lent.bytes_mut().copy_from_slice(bytes);
}

fn pick<'a>(slice: &'a mut Slice, own: &'a mut Vec<u8>) -> &'a mut [u8] {
    match slice {
        Slice::Own => own,
        Slice::Other(bytes) => bytes,
    }
}

/// The first byte that differs, named.
fn difference(what: &str, lent: &Lent, model: &[u8]) -> Option<String> {
    if !lent.margin_intact() {
        return Some(format!("{what}: the library wrote beside it"));
    }
    if lent.bytes() == model {
        return None;
    }
    let at = lent.bytes().iter().zip(model).position(|(a, b)| a != b)?;
    let mut text = format!("{what} byte {at}: library {:02x}, model {:02x}", lent.bytes()[at], model[at]);
    if what == "desk" {
        let word = at / 8;
        text += &match word {
            0..DRIVES => format!(" (word {word}: guest {}, word {} of its row)", word / 23, word % 23),
            DRIVES..COUNT => {
                format!(" (word {word}: drive place {}, word {})", (word - DRIVES) / DRIVE_WORDS, (word - DRIVES) % DRIVE_WORDS)
            }
            PLACED..ADDRESSES => format!(" (word {word}: guest {}, mark of placement)", word - PLACED),
            ADDRESSES..PRESENT => format!(" (word {word}: guest {}, address of placement)", word - ADDRESSES),
            PRESENT..PARAMETERS => format!(" (word {word}: drive place {}, mark of parameters)", word - PRESENT),
            PARAMETERS..BAD_COUNTS => {
                format!(" (drive place {}, byte {} of its parameters)", (at - 8 * PARAMETERS) / 14, (at - 8 * PARAMETERS) % 14)
            }
            BAD_COUNTS..BAD_LISTS => format!(" (drive place {}, how many bad blocks)", word - BAD_COUNTS),
            BAD_LISTS..WORDS => format!(" (drive place {}, bad block {})", (word - BAD_LISTS) / 16, (word - BAD_LISTS) % 16),
            _ => format!(" (word {word})"),
        };
    }
    if what == "reader" {
        text += &match at {
            0..=39 => format!(" (word {})", at / 8),
            40..READER_TABLE => format!(" (held byte {})", at - 40),
            _ => format!(" (table byte {})", at - READER_TABLE),
        };
    }
    Some(text)
}
