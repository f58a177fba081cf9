//! Cases written by hand, each named after the point of document 01 or of a change request that it is about. Every case runs against the library and against
//! the model, and says itself what must come out.
//!
//! Letters: a refusals, b functions, c the drive table, d the desk block, e windows and turns, g sums and threads, h change requests:
//! parameter tables (2026-01), information flags (2026-02, from h15 on), a table in fragments (2026-03, from h18 on), bad blocks (2026-04,
//! from h31 on), division (2026-05, h52), the 74-byte result, drives of kind 2 and conversions (2026-06, from h53 on).

use crate::chance::Chance;
use crate::drives::{self, paper_drive, Bad, Drive};
use crate::random::Run;
use crate::service::{Lent, Library, Model, Place, Service};
use model::addresses::{Address, Geometry};
use model::{Registers, DESK_SIZE, READER_SIZE};
use std::panic::{catch_unwind, AssertUnwindSafe};
use std::process::ExitCode;
use std::sync::atomic::{AtomicUsize, Ordering};

const DONE: u32 = 0;
const NOTHING_YET: u32 = 256;

// words of the block
const POINTER: usize = 313;
const ARENA_LENGTH: usize = 314;
const STORE_LENGTH: usize = 315;
const DRIVE_COUNT: usize = 312;
const PLACED: usize = 316;
const ADDRESSES: usize = 324;
const PRESENT: usize = 332;
const PARAMETERS: usize = 8 * 340; // a byte
const BAD_COUNTS: usize = 354;
const BAD_LISTS: usize = 362;
// words of a drive's slot
const TYPE: usize = 11;
const KIND: usize = 14;
const TAIL: usize = 15;

/// Eight drives of kind 2 with a record of sixteen bad blocks and one of kind 4 each, and the end record; and of kind 1 without bad blocks.
const LONGEST_TABLE: usize = 8 * (76 + 134 + 20) + 4;
const PARAMETERS_TABLE: usize = 8 * (68 + 20) + 4;
/// Where a reader block has its table, and how many bytes the longest record has.
const READER_TABLE: usize = 40 + LONGEST_RECORD;
const LONGEST_RECORD: usize = 134;

fn row(guest: usize, word: usize) -> usize {
    23 * guest + word
}

fn drive_word(slot: usize, word: usize) -> usize {
    184 + 16 * slot + word
}

// ---- a desk with its arena and store

struct Stand<'a> {
    service: &'a dyn Service,
    desk: Lent,
    arena: Lent,
    store: Lent,
}

type Snapshot = (Vec<u8>, Vec<u8>, Vec<u8>);

/// What the places of results hold before a call, so that a write to them shows.
const UNWRITTEN: u64 = 0xDEAD_BEEF_5EED;
const STALE: Registers = Registers { ax: 0x1111, bx: 0x2222, cx: 0x3333, dx: 0x4444, ds: 0x5555, si: 0x6666, es: 0x7777, carry: 0x8888 };

impl<'a> Stand<'a> {
    /// Opens a desk over memory with bytes that differ from place to place.
    fn open(service: &'a dyn Service, drives: &[Drive], arena_length: usize, store_length: usize) -> Stand<'a> {
        let mut chance = Chance::new(7);
        let mut stand = Stand {
            service,
            desk: Lent::holding(&chance.bytes(DESK_SIZE), Place::END),
            arena: Lent::holding(&chance.bytes(arena_length), Place::END),
            store: Lent::holding(&chance.bytes(store_length), Place::END),
        };
        let answer = stand.open_again(&drives::table(drives), arena_length as u64, store_length as u64);
        assert_eq!(answer, (DONE, UNWRITTEN), "opening");
        stand
    }

    /// Document 01's drive, a store that holds it and an arena with windows of `window` bytes.
    fn paper(service: &'a dyn Service, window: usize) -> Stand<'a> {
        Stand::open(service, &[paper_drive()], 8 * window, 2048 * 512)
    }

    /// The same over memory of zeros that may be longer than the machine's. The machine must give address space for that.
    fn vast(service: &'a dyn Service, drives: &[Drive], arena_length: usize, store_length: usize) -> Stand<'a> {
        let desk = Lent::holding(&[0; DESK_SIZE], Place::END);
        let (Some(arena), Some(store)) = (Lent::vast(arena_length), Lent::vast(store_length)) else {
            panic!("no address space for {} bytes: lift the limit (ulimit -v)", arena_length + store_length);
        };
        let mut stand = Stand { service, desk, arena, store };
        let answer = stand.open_again(&drives::table(drives), arena_length as u64, store_length as u64);
        assert_eq!(answer, (DONE, UNWRITTEN), "opening");
        stand
    }

    fn open_again(&mut self, table: &[u8], arena_length: u64, store_length: u64) -> (u32, u64) {
        let mut place = UNWRITTEN;
        let answer = self.service.open(self.desk.bytes_mut(), table, arena_length, store_length, &mut place);
        self.beside();
        (answer, place)
    }

    fn post(&mut self, guest: u64, given: Registers) -> (u32, Registers) {
        let mut registers = given;
        let answer = self.service.post(self.desk.bytes_mut(), self.arena.bytes_mut(), self.store.bytes(), guest, &mut registers);
        self.beside();
        (answer, registers)
    }

    fn turn(&mut self) -> (u32, u64, u64) {
        let (mut guest, mut moved) = (UNWRITTEN, UNWRITTEN);
        let (desk, arena, store) = (self.desk.bytes_mut(), self.arena.bytes_mut(), self.store.bytes_mut());
        let answer = self.service.turn(desk, arena, store, &mut guest, &mut moved);
        self.beside();
        (answer, guest, moved)
    }

    fn collect(&mut self, guest: u64) -> (u32, Registers) {
        let mut registers = STALE;
        let answer = self.service.collect(self.desk.bytes_mut(), guest, &mut registers);
        self.beside();
        (answer, registers)
    }

    fn withdraw(&mut self, guest: u64) -> (u32, Registers) {
        let mut registers = STALE;
        let (desk, arena) = (self.desk.bytes_mut(), self.arena.bytes_mut());
        let answer = self.service.withdraw(desk, arena, self.store.bytes(), guest, &mut registers);
        self.beside();
        (answer, registers)
    }

    fn place(&mut self, guest: u64, address: u64) -> u32 {
        let (desk, arena) = (self.desk.bytes_mut(), self.arena.bytes_mut());
        let answer = self.service.place(desk, arena, self.store.bytes(), guest, address);
        self.beside();
        answer
    }

    fn write(&self, out: &mut [u8]) -> (u32, u64) {
        let mut written = UNWRITTEN;
        (self.service.write(self.desk.bytes(), out, &mut written), written)
    }

    /// Places, and nothing changes but the window's bytes from the address on and the guest's two words of the block.
    fn place_done(&mut self, guest: usize, address: usize, tables: &[[u8; 16]]) {
        let mut expected = self.all();
        let at = guest * (self.arena.bytes().len() / 8) + address;
        expected.1[at..at + 16 * tables.len()].copy_from_slice(&tables.concat());
        for (word, value) in [(PLACED + guest, 1), (ADDRESSES + guest, address as u64)] {
            expected.0[8 * word..8 * word + 8].copy_from_slice(&value.to_le_bytes());
        }
        assert_eq!(self.place(guest as u64, address as u64), DONE, "guest {guest} at {address:x}");
        assert!(self.all() == expected, "guest {guest} at {address:x}: memory");
    }

    fn place_refused(&mut self, number: u32, guest: u64, address: u64) {
        let before = self.all();
        assert_eq!(self.place(guest, address), number, "guest {guest} at {address:x}");
        assert!(self.all() == before, "guest {guest} at {address:x}: something changed");
    }

    /// What 48h of so many bytes returns to a guest for a drive, laid at 0000:0200, and the four bytes after 26, returned or not.
    fn result(&mut self, guest: usize, dl: u8, size: u16) -> (Vec<u8>, [u8; 4]) {
        self.window(guest)[0x200..0x202].copy_from_slice(&size.to_le_bytes());
        let given = Registers { ds: 0x20, si: 0, ..registers(0x48, 0, dl) };
        assert_eq!(self.post(guest as u64, given), (DONE, succeeded(given)), "48h of {dl:02x}");
        let window = self.window(guest);
        let returned = usize::from(window[0x200]);
        (window[0x200..0x200 + returned].to_vec(), window[0x200 + 26..0x200 + 30].try_into().unwrap())
    }

    /// The pointer of 48h and CX of 41h.
    fn shown(&mut self, guest: usize, dl: u8) -> ([u8; 4], u16) {
        let given = Registers { bx: 0x55AA, ..registers(0x41, 0, dl) };
        let (answer, got) = self.post(guest as u64, given);
        assert_eq!((answer, got), (DONE, Registers { ax: 0x3000, bx: 0xAA55, cx: got.cx, ..given }));
        (self.result(guest, dl, 66).1, got.cx)
    }

    /// Nothing beside the slices was written.
    fn beside(&self) {
        for (what, lent) in [("desk", &self.desk), ("arena", &self.arena), ("store", &self.store)] {
            assert!(lent.margin_intact(), "the library wrote beside the {what}");
        }
    }

    fn accepted(&self) -> bool {
        let (answer, _) = self.write(&mut [0; LONGEST_TABLE]);
        assert!(matches!(answer, DONE | 25), "write answered {answer}");
        answer == DONE
    }

    fn word(&self, word: usize) -> u64 {
        u64::from_le_bytes(self.desk.bytes()[8 * word..8 * word + 8].try_into().unwrap())
    }

    fn set_word(&mut self, word: usize, value: u64) {
        self.desk.bytes_mut()[8 * word..8 * word + 8].copy_from_slice(&value.to_le_bytes());
    }

    fn all(&self) -> Snapshot {
        (self.desk.bytes().to_vec(), self.arena.bytes().to_vec(), self.store.bytes().to_vec())
    }

    fn window(&mut self, guest: usize) -> &mut [u8] {
        let length = self.arena.bytes().len() / 8;
        &mut self.arena.bytes_mut()[guest * length..(guest + 1) * length]
    }

    /// Lays a packet of size 16 into a guest's window.
    fn packet(&mut self, guest: usize, place: usize, count: u16, buffer: (u16, u16), start: u64) {
        let mut bytes = vec![16, 0];
        bytes.extend(count.to_le_bytes());
        bytes.extend(buffer.1.to_le_bytes());
        bytes.extend(buffer.0.to_le_bytes());
        bytes.extend(start.to_le_bytes());
        self.window(guest)[place..place + 16].copy_from_slice(&bytes);
    }

    /// Posts with a packet at 0000:0000 and the buffer at 0000:0200.
    fn post_packet(&mut self, guest: usize, ah: u8, count: u16, start: u64) -> (u32, Registers) {
        self.packet(guest, 0, count, (0, 0x200), start);
        self.post(guest as u64, by_packet(ah, 0))
    }

    fn refused_everywhere(&mut self, what: &str) {
        let before = self.all();
        assert_eq!(self.write(&mut [0; LONGEST_TABLE]), (25, UNWRITTEN), "{what}: write");
        assert_eq!(self.post(1, by_packet(0x42, 0)), (25, by_packet(0x42, 0)), "{what}: post");
        assert_eq!(self.turn(), (25, UNWRITTEN, UNWRITTEN), "{what}: turn");
        assert_eq!(self.collect(1), (25, STALE), "{what}: collect");
        assert_eq!(self.withdraw(1), (25, STALE), "{what}: withdraw");
        assert_eq!(self.place(1, 0), 25, "{what}: place");
        assert!(self.all() == before, "{what}: something changed");
    }

    /// One word changed: refused by every call, and nothing is written.
    fn refused_with(&mut self, what: &str, word: usize, value: u64) {
        let old = self.word(word);
        assert_ne!(old, value, "{what}: the word is already so");
        self.set_word(word, value);
        self.refused_everywhere(what);
        self.set_word(word, old);
    }

    fn accepted_with(&mut self, what: &str, word: usize, value: u64) {
        let old = self.word(word);
        assert_ne!(old, value, "{what}: the word is already so");
        self.set_word(word, value);
        assert!(self.accepted(), "{what}: not accepted");
        self.set_word(word, old);
    }
}

/// Registers with values that show when they are changed.
fn registers(ah: u8, al: u8, dl: u8) -> Registers {
    Registers {
        ax: u16::from(ah) << 8 | u16::from(al),
        bx: 0xB0B1,
        cx: 0xC0C1,
        dx: 0xD000 | u16::from(dl),
        ds: 0xD5D6,
        si: 0x5152,
        es: 0xE5E6,
        carry: 0,
    }
}

/// 42h to 44h and 47h on drive 80h with the packet at 0000:place.
fn by_packet(ah: u8, place: u16) -> Registers {
    Registers { ds: 0, si: place, ..registers(ah, 0, 0x80) }
}

/// 02h or 03h on drive 80h at cylinder, head, sector, buffer 0000:0200.
fn by_sector(ah: u8, count: u8, cylinder: u16, head: u8, sector: u8) -> Registers {
    Registers {
        cx: (cylinder & 0xFF) << 8 | (cylinder >> 8) << 6 | u16::from(sector),
        dx: u16::from(head) << 8 | 0x80,
        es: 0,
        bx: 0x200,
        ..registers(ah, count, 0x80)
    }
}

fn refused(given: Registers, code: u8) -> Registers {
    Registers { ax: u16::from(code) << 8 | given.ax & 0xFF, carry: 1, ..given }
}

fn succeeded(given: Registers) -> Registers {
    Registers { ax: given.ax & 0xFF, carry: 0, ..given }
}

/// A refused 02h or 03h sets AL to 0.
fn refused_sectors(given: Registers, code: u8) -> Registers {
    Registers { ax: u16::from(code) << 8, carry: 1, ..given }
}

fn protected(drive: Drive) -> Drive {
    Drive { protection: 1, ..drive }
}

/// The blocks of the largest geometry, 1024 x 255 x 63.
const LARGEST: u64 = 16_450_560;

fn largest_drive() -> Drive {
    Drive { blocks: LARGEST, cylinders: 1024, heads: 255, sectors: 63, ..paper_drive() }
}

/// A drive of some blocks with a geometry of one cylinder and one head.
fn small_drive(first: u64, blocks: u64) -> Drive {
    Drive { first, blocks, cylinders: 1, heads: 1, sectors: blocks.min(63) as u8, ..paper_drive() }
}

/// A drive of kind 2 with those last eight bytes of its device path.
fn wide(drive: Drive, tail: [u8; 8]) -> Drive {
    Drive { tail: Some(tail), ..drive }
}

/// A drive with a record of kind 4, whose fourteen bytes count up from the first.
fn with_parameters(drive: Drive, first: u8) -> Drive {
    Drive { parameters: Some(counting(first)), ..drive }
}

fn counting(first: u8) -> [u8; 14] {
    std::array::from_fn(|i| first.wrapping_add(i as u8))
}

// ---- a: refusals

// rule: post_of turn_of collect_of withdraw_of place_of written_of
fn a1_order_of_house_numbers(service: &dyn Service) {
    let mut stand = Stand::paper(service, 1024);
    stand.arena = Lent::holding(&[0; 100], Place::END);
    let good = stand.desk.bytes().to_vec();
    stand.set_word(POINTER, 8);
    assert_eq!(stand.post(9, by_packet(0x42, 0)).0, 25, "post: desk, arena and guest are bad");
    assert_eq!(stand.turn().0, 25);
    assert_eq!(stand.withdraw(9).0, 25);
    assert_eq!(stand.place(9, 1), 25);
    assert_eq!(stand.collect(9).0, 25);
    assert_eq!(stand.write(&mut []).0, 25);
    stand.desk.bytes_mut().copy_from_slice(&good);
    assert_eq!(stand.post(9, by_packet(0x42, 0)).0, 24, "post: arena and guest are bad");
    assert_eq!(stand.turn().0, 24);
    assert_eq!(stand.withdraw(9).0, 24);
    assert_eq!(stand.place(9, 1), 24);
    assert_eq!(stand.collect(9).0, 20, "collect is lent no arena");
    assert_eq!(stand.write(&mut []).0, 19);
    let mut stand = Stand::paper(service, 1024);
    for guest in [8, 9, 256, 1 << 32, u64::MAX] {
        assert_eq!(stand.post(guest, by_packet(0x42, 0)), (20, by_packet(0x42, 0)));
        assert_eq!(stand.withdraw(guest), (20, STALE));
        assert_eq!(stand.collect(guest), (20, STALE));
        assert_eq!(stand.place(guest, 1), 20);
    }
    assert_eq!(stand.withdraw(7), (23, STALE));
    assert_eq!(stand.collect(7), (22, STALE));
}

// rule: post_of turn_of withdraw_of place_of
fn a2_store_length_alone(service: &dyn Service) {
    let mut stand = Stand::paper(service, 1024);
    assert_eq!(stand.post_packet(3, 0x42, 1, 0).0, NOTHING_YET);
    stand.packet(2, 0, 1, (0, 0x200), 0);
    let length = stand.store.bytes().len();
    for wrong in [0, 512, length - 1, length + 1] {
        stand.store = Lent::holding(&vec![9; wrong], Place::END);
        let before = stand.all();
        assert_eq!(stand.post(2, by_packet(0x42, 0)), (24, by_packet(0x42, 0)), "post");
        assert_eq!(stand.post(2, registers(0x41, 7, 0x80)), (24, registers(0x41, 7, 0x80)), "post of 41h");
        assert_eq!(stand.place(2, 0), 24, "place");
        assert_eq!(stand.turn(), (24, UNWRITTEN, UNWRITTEN), "turn");
        assert_eq!(stand.withdraw(3), (24, STALE), "withdraw");
        assert!(stand.all() == before, "something changed");
    }
}

// rule: post_of turn_of withdraw_of place_of
fn a2_arena_length_alone(service: &dyn Service) {
    let mut stand = Stand::paper(service, 1024);
    assert_eq!(stand.post_packet(3, 0x42, 1, 0).0, NOTHING_YET);
    for wrong in [0, 8, 8191, 8193] {
        stand.arena = Lent::holding(&vec![9; wrong], Place::END);
        let before = stand.all();
        assert_eq!(stand.post(2, by_packet(0x42, 0)), (24, by_packet(0x42, 0)), "post");
        assert_eq!(stand.place(2, 0), 24, "place");
        assert_eq!(stand.turn(), (24, UNWRITTEN, UNWRITTEN), "turn");
        assert_eq!(stand.withdraw(3), (24, STALE), "withdraw");
        assert!(stand.all() == before, "something changed");
    }
}

// rule: open_call Calls.opened exports::edd_open
fn a3_open_over_anything(service: &dyn Service) {
    let table = drives::table(&[paper_drive()]);
    let mut clean = Stand::paper(service, 1024);
    clean.desk.bytes_mut().fill(0);
    assert_eq!(clean.open_again(&table, 8192, 2048 * 512), (DONE, UNWRITTEN));
    let mut stand = Stand::paper(service, 1024);
    assert!(stand.desk.bytes() == clean.desk.bytes(), "opened over random bytes");
    assert_eq!(stand.post_packet(3, 0x42, 1, 0).0, NOTHING_YET);
    assert_eq!(stand.open_again(&table, 8192, 2048 * 512), (DONE, UNWRITTEN));
    assert!(stand.desk.bytes() == clean.desk.bytes(), "opened over a desk with a waiting row");
    assert_eq!(stand.turn().0, NOTHING_YET);
}

// rule: open_call exports::edd_open
fn a3_table_refused(service: &dyn Service) {
    let mut stand = Stand::paper(service, 1024);
    assert_eq!(stand.post_packet(3, 0x42, 1, 0).0, NOTHING_YET);
    let before = stand.all();
    let mut bad = small_drive(2048, 1);
    bad.sectors = 0;
    let table = drives::table(&[paper_drive(), bad]);
    assert_eq!(stand.open_again(&table, 8192, 4096 * 512), (5, 68));
    assert_eq!(stand.open_again(&[], 8192, 4096 * 512), (1, 0));
    assert!(stand.all() == before, "something changed");
    assert_eq!(stand.turn(), (DONE, 3, 1), "the desk goes on");
}

// rule: open_call exports::edd_open
fn a3_wrong_size_first(service: &dyn Service) {
    let good = drives::table(&[paper_drive()]);
    for size in [0, 1, DESK_SIZE - 1, DESK_SIZE + 1, 2 * DESK_SIZE] {
        let mut desk = Lent::holding(&vec![0x77; size], Place::END);
        for table in [&good[..], &good[..71], &[]] {
            let mut place = UNWRITTEN;
            assert_eq!(service.open(desk.bytes_mut(), table, 8192, 2048 * 512, &mut place), 25);
            assert_eq!(place, UNWRITTEN, "place was written");
            assert!(desk.bytes().iter().all(|byte| *byte == 0x77), "the block was written");
        }
    }
}

// rule: turn_of exports::edd_turn
fn a4_idle(service: &dyn Service) {
    let mut stand = Stand::paper(service, 1024);
    assert_eq!(stand.post_packet(4, 0x42, 1, 0).0, NOTHING_YET);
    assert_eq!(stand.turn(), (DONE, 4, 1));
    let before = stand.all();
    assert_eq!(stand.turn(), (NOTHING_YET, UNWRITTEN, UNWRITTEN), "a finished row is not served");
    assert!(stand.all() == before, "something changed");
    assert_eq!(stand.word(POINTER), 5);
    stand.store = Lent::holding(&[0; 512], Place::END);
    assert_eq!(stand.turn(), (24, UNWRITTEN, UNWRITTEN), "lengths come before idle");
}

// rule: post_of exports::edd_post
fn a5_a6_busy_row(service: &dyn Service) {
    let mut stand = Stand::paper(service, 1024);
    assert_eq!(stand.post_packet(4, 0x42, 1, 0).0, NOTHING_YET);
    for stage in ["waiting", "finished"] {
        let before = stand.all();
        for ah in [0x02, 0x03, 0x08, 0x41, 0x42, 0x44, 0x48, 0x15] {
            let given = registers(ah, 9, 0x80);
            assert_eq!(stand.post(4, given), (21, given), "{stage}, AH {ah:02x}");
        }
        assert!(stand.all() == before, "{stage}: something changed");
        if stage == "waiting" {
            assert_eq!(stand.turn(), (DONE, 4, 1));
        }
    }
}

// rule: refuse exports::edd_post
fn a7_unknown_function(service: &dyn Service) {
    let mut stand = Stand::paper(service, 1024);
    let before = stand.all();
    for ah in (0..=255).filter(|ah| ![2, 3, 8, 0x41, 0x42, 0x43, 0x44, 0x47, 0x48].contains(ah)) {
        for dl in [0x80, 0x81, 0x00] {
            let given = registers(ah, 0x5A, dl);
            assert_eq!(stand.post(0, given), (DONE, refused(given, 0x01)), "AH {ah:02x}");
        }
    }
    assert!(stand.all() == before, "something changed");
}

// rule: is_drive
fn a8_drive_numbers(service: &dyn Service) {
    for count in [0u8, 1, 8] {
        let drives: Vec<Drive> = (0..count).map(|i| small_drive(u64::from(i), 1)).collect();
        let mut stand = Stand::open(service, &drives, 8 * 1024, 8 * 512);
        stand.packet(0, 0, 1, (0, 0x200), 0);
        let before = stand.all();
        for dl in [0x00, 0x7F, 0x80 + count, 0xFF, count, 8] {
            for ah in [0x02, 0x03, 0x08, 0x41, 0x42, 0x43, 0x44, 0x47, 0x48] {
                let given = Registers { bx: 0x55AA, ds: 0, si: 0, ..registers(ah, 1, dl) };
                let (answer, got) = stand.post(0, given);
                let code = if ah == 0x08 { 0x07 } else { 0x01 };
                let expected = if ah < 0x08 { refused_sectors(given, code) } else { refused(given, code) };
                assert_eq!((answer, got), (DONE, expected), "AH {ah:02x} DL {dl:02x} with {count} drives");
            }
        }
        assert!(stand.all() == before, "something changed");
        for dl in 0x80..0x80 + u16::from(count) {
            let given = Registers { bx: 0x55AA, ..registers(0x41, 1, dl as u8) };
            assert_eq!(stand.post(0, given).1.bx, 0xAA55, "drive {dl:02x} is known");
        }
    }
}

// rule: given post_call
fn a9_carry_is_not_read(service: &dyn Service) {
    let mut blocks = Vec::new();
    for carry in [0, 1, 65535] {
        let mut stand = Stand::paper(service, 1024);
        stand.packet(3, 0, 1, (0, 0x200), 0);
        let given = Registers { carry, ..by_packet(0x42, 0) };
        assert_eq!(stand.post(3, given), (NOTHING_YET, given), "256 leaves every register, carry too");
        assert_eq!(stand.post(3, given), (21, given), "21 leaves every register, carry too");
        assert_eq!(stand.post(8, given), (20, given), "20 leaves every register, carry too");
        let sectors = Registers { carry, ..by_sector(0x02, 1, 0, 0, 1) };
        assert_eq!(stand.post(2, sectors), (NOTHING_YET, sectors));
        let at_once = Registers { carry, ..registers(0x08, 1, 0x80) };
        let (answer, out) = stand.post(1, at_once);
        assert_eq!((answer, out.carry, out.ax), (DONE, 0, 0), "answered at once");
        let unknown = Registers { carry, ..registers(0xFF, 1, 0x80) };
        assert_eq!(stand.post(1, unknown), (DONE, refused(unknown, 0x01)));
        blocks.push(stand.desk.bytes().to_vec());
    }
    assert!(blocks.iter().all(|block| *block == blocks[0]), "the block shows the carry that was given");
}

// rule: Image.accepted
fn a9_waiting_row_with_carry_1(service: &dyn Service) {
    let mut stand = Stand::paper(service, 1024);
    assert_eq!(stand.post_packet(3, 0x42, 1, 0).0, NOTHING_YET);
    stand.set_word(row(3, 8), 1);
    assert!(stand.accepted());
    assert_eq!(stand.turn(), (DONE, 3, 1));
    assert_eq!(stand.collect(3), (DONE, succeeded(by_packet(0x42, 0))), "finished with carry clear");
}

// rule: exports::edd_open exports::edd_write exports::edd_post exports::edd_turn exports::edd_collect exports::edd_withdraw exports::edd_place
fn a10_empty_slices(service: &dyn Service) {
    let table = drives::table(&[]);
    let (mut desk, mut none) = (vec![0; DESK_SIZE], []);
    let (mut place, mut written, mut guest, mut moved) = (UNWRITTEN, UNWRITTEN, UNWRITTEN, UNWRITTEN);
    let mut given = STALE;
    // an empty desk
    assert_eq!(service.open(&mut none, &table, 0, 0, &mut place), 25);
    assert_eq!(service.write(&none, &mut [0; 9], &mut written), 25);
    assert_eq!(service.post(&mut none, &mut [0; 8], &[0; 8], 0, &mut given), 25);
    assert_eq!(service.turn(&mut none, &mut [0; 8], &mut [0; 8], &mut guest, &mut moved), 25);
    assert_eq!(service.collect(&mut none, 0, &mut given), 25);
    assert_eq!(service.withdraw(&mut none, &mut [0; 8], &[0; 8], 0, &mut given), 25);
    assert_eq!(service.place(&mut none, &mut [0; 8], &[0; 8], 0, 0), 25);
    // everything empty
    assert_eq!(service.open(&mut none, &[], 0, 0, &mut place), 25);
    assert_eq!(service.write(&none, &mut [], &mut written), 25);
    assert_eq!(service.post(&mut none, &mut [], &[], 0, &mut given), 25);
    assert_eq!(service.turn(&mut none, &mut [], &mut [], &mut guest, &mut moved), 25);
    assert_eq!(service.withdraw(&mut none, &mut [], &[], 0, &mut given), 25);
    assert_eq!(service.place(&mut none, &mut [], &[], 0, 0), 25);
    assert_eq!((place, written, guest, moved, given), (UNWRITTEN, UNWRITTEN, UNWRITTEN, UNWRITTEN, STALE));
    // an empty table
    assert_eq!(service.open(&mut desk, &[], 0, 0, &mut place), 1);
    assert_eq!(place, 0);
    // an empty arena and an empty store that are right, and an empty buffer
    assert_eq!(service.open(&mut desk, &table, 0, 0, &mut place), DONE);
    assert_eq!(service.write(&desk, &mut [], &mut written), 19);
    assert_eq!(service.turn(&mut desk, &mut [], &mut [], &mut guest, &mut moved), NOTHING_YET);
    assert_eq!(service.withdraw(&mut desk, &mut [], &[], 0, &mut given), 23);
    assert_eq!((service.place(&mut desk, &mut [], &[], 0, 0), service.place(&mut desk, &mut [], &[], 0, 16)), (DONE, 26));
    for ah in [0x02, 0x03, 0x08, 0x41, 0x42, 0x43, 0x44, 0x47, 0x48, 0x00] {
        let mut asked = registers(ah, 1, 0x80);
        assert_eq!(service.post(&mut desk, &mut [], &[], 7, &mut asked), DONE);
        assert_eq!((asked.ah(), asked.carry), (if ah == 8 { 7 } else { 1 }, 1));
    }
    // an empty arena or store that is wrong
    assert_eq!(service.open(&mut desk, &table, 8, 8, &mut place), DONE);
    assert_eq!(service.post(&mut desk, &mut [], &[0; 8], 0, &mut given), 24);
    assert_eq!(service.post(&mut desk, &mut [0; 8], &[], 0, &mut given), 24);
    assert_eq!(service.turn(&mut desk, &mut [], &mut [0; 8], &mut guest, &mut moved), 24);
    assert_eq!(service.turn(&mut desk, &mut [0; 8], &mut [], &mut guest, &mut moved), 24);
    assert_eq!(service.withdraw(&mut desk, &mut [], &[], 0, &mut given), 24);
    assert_eq!(service.place(&mut desk, &mut [], &[0; 8], 0, 0), 24);
    assert_eq!(service.place(&mut desk, &mut [0; 8], &[], 0, 0), 24);
    assert_eq!((written, guest, moved, given), (UNWRITTEN, UNWRITTEN, UNWRITTEN, STALE));
}

// ---- b: functions

// rule: packet_plan packet_tests
fn b1_order_by_packet(service: &dyn Service) {
    // a protected drive; each line has one fault and all later ones
    let mut stand = Stand::open(service, &[protected(paper_drive())], 8 * 1024, 2048 * 512);
    let far = (0xFFFF, 0xFFFF);
    let mut case = |what: &str, al: u8, dl: u8, place: usize, size: u8, count: u16, start: u64, code: u8, cleared: bool| {
        let given = Registers { ds: 0, si: place as u16, ..registers(0x43, al, dl) };
        if place + 16 <= 1024 {
            stand.packet(2, place, count, far, start);
            stand.window(2)[place] = size;
        }
        let mut expected = stand.all();
        if cleared {
            expected.1[2 * 1024 + place + 2] = 0;
            expected.1[2 * 1024 + place + 3] = 0;
        }
        assert_eq!(stand.post(2, given), (DONE, refused(given, code)), "{what}");
        assert!(stand.all() == expected, "{what}: memory");
    };
    case("drive", 3, 0x81, 8, 15, 0x180, u64::MAX, 0x01, false);
    case("AL", 3, 0x80, 8, 15, 0x180, u64::MAX, 0x01, false);
    case("packet outside", 0, 0x80, 1009, 15, 0x180, u64::MAX, 0x01, false);
    case("size byte", 0, 0x80, 1008, 15, 0x180, u64::MAX, 0x01, false);
    case("count", 0, 0x80, 1008, 16, 0x180, u64::MAX, 0x01, true);
    case("count, low byte alone", 0, 0x80, 8, 16, 0x80, u64::MAX, 0x01, true);
    case("protection", 0, 0x80, 8, 16, 0x7F, u64::MAX, 0x03, true);
    let mut stand = Stand::paper(service, 1024);
    for (what, ah, start, code) in
        [("range, 43h", 0x43, 2047, 0x04), ("range, 42h", 0x42, 2047, 0x04), ("buffer, 43h", 0x43, 0, 0x09), ("buffer, 42h", 0x42, 0, 0x09)]
    {
        stand.packet(2, 0, 2, far, start);
        let mut expected = stand.all();
        expected.1[2 * 1024 + 2] = 0;
        assert_eq!(stand.post(2, by_packet(ah, 0)), (DONE, refused(by_packet(ah, 0), code)), "{what}");
        assert!(stand.all() == expected, "{what}: memory");
    }
}

// rule: packet_tests
fn b2_count_zero(service: &dyn Service) {
    let mut stand = Stand::open(service, &[protected(paper_drive()), Drive { first: 2048, ..paper_drive() }], 8 * 1024, 4096 * 512);
    // function, drive, start, buffer, code
    let cases = [
        (0x43, 0x80, 0, 0x200, 0x03),
        (0x42, 0x81, 2048, 0x200, 0x00),
        (0x42, 0x81, 2049, 0x200, 0x04),
        (0x43, 0x81, 2048, 1024, 0x00),
        (0x43, 0x81, 2048, 1025, 0x09),
        (0x42, 0x80, 0, 1024, 0x00),
        (0x42, 0x80, 0, 1025, 0x09),
        (0x42, 0x81, u64::MAX, 0, 0x04),
    ];
    for (ah, dl, start, buffer, code) in cases {
        stand.packet(5, 16, 0, (0, buffer), start);
        let before = stand.all();
        let given = Registers { ds: 1, si: 0, ..registers(ah, 0, dl) };
        let expected = if code == 0 { succeeded(given) } else { refused(given, code) };
        assert_eq!(stand.post(5, given), (DONE, expected), "{ah:02x} {dl:02x} start {start} buffer {buffer}");
        assert!(stand.all() == before, "the row is vacant and the packet is not written");
    }
}

// rule: packet_tests
fn b3_verify_moves_nothing(service: &dyn Service) {
    let mut stand = Stand::open(service, &[protected(paper_drive())], 8 * 1024, 2048 * 512);
    stand.packet(0, 0, 127, (0xFFFF, 0xFFFF), 2048 - 127);
    let before = stand.all();
    let given = Registers { ax: 0x44EE, ..by_packet(0x44, 0) };
    assert_eq!(stand.post(0, given), (DONE, succeeded(given)));
    assert!(stand.all() == before, "something changed");
    stand.packet(0, 0, 127, (0xFFFF, 0xFFFF), 2048 - 126);
    let (answer, got) = stand.post(0, given);
    assert_eq!((answer, got), (DONE, refused(given, 0x04)));
    assert_eq!(stand.window(0)[2..4], [0, 0]);
}

// rule: seek_read
fn b4_seek(service: &dyn Service) {
    let mut stand = Stand::paper(service, 1024);
    for (count, start, code) in [(65535, 2047, 0), (0, 2047, 0), (0, 2048, 4), (65535, 2048, 4), (1, u64::MAX, 4)] {
        stand.packet(0, 0, count, (0xFFFF, 0xFFFF), start);
        let before = stand.all();
        let given = by_packet(0x47, 0);
        let expected = if code == 0 { succeeded(given) } else { refused(given, code) };
        assert_eq!(stand.post(0, given), (DONE, expected), "start {start}");
        assert!(stand.all() == before, "all sixteen packet bytes stay");
    }
    stand.window(0)[0] = 15;
    assert_eq!(stand.post(0, by_packet(0x47, 0)).1.ah(), 0x01);
}

// rule: packet_at
fn b5_packet(service: &dyn Service) {
    let mut stand = Stand::paper(service, 1024);
    // always sixteen bytes, whatever the size byte says
    for (size, code) in [(16, 0x44), (24, 0x44), (255, 0x44), (15, 1), (0, 1)] {
        stand.packet(0, 1024 - 16, 1, (0, 0), 0);
        stand.window(0)[1024 - 16] = size;
        stand.window(0)[1024 - 15] = 0x99;
        let got = stand.post(0, by_packet(0x44, 1024 - 16)).1;
        assert_eq!(got.ah(), if code == 0x44 { 0 } else { 1 }, "size {size}");
    }
    assert_eq!(stand.post(0, by_packet(0x44, 1024 - 15)).1.ah(), 1, "one byte past the window");
    for count in [0x0100, 0x00FF, 0x0080, 0xFF00] {
        stand.packet(0, 0, count, (0, 0), 0);
        assert_eq!(stand.post(0, by_packet(0x42, 0)).1.ah(), 1, "count {count:04x}");
        assert_eq!(stand.window(0)[2..4], [0, 0], "count {count:04x}");
    }
    stand.packet(0, 0, 1, (0xFFFF, 0xFFFF), 0);
    assert_eq!(stand.post(0, by_packet(0x42, 0)).1.ah(), 9, "FFFF:FFFF is an address");
}

// rule: linear read_packet
fn b6_addresses_never_wrap(service: &dyn Service) {
    let last = 0x10_FFEF;
    for (window, waits) in [(last + 512, true), (last + 511, false)] {
        let mut stand = Stand::open(service, &[small_drive(0, 200)], 8 * window, 200 * 512);
        stand.packet(7, 0x100, 1, (0xFFFF, 0xFFFF), 5);
        let (answer, got) = stand.post(7, by_packet(0x42, 0x100));
        if !waits {
            assert_eq!((answer, got.ah()), (DONE, 0x09));
            continue;
        }
        assert_eq!(answer, NOTHING_YET);
        assert_eq!(stand.turn(), (DONE, 7, 1));
        let block = stand.store.bytes()[5 * 512..6 * 512].to_vec();
        assert!(stand.window(7)[last..last + 512] == block[..], "the block lies at 10FFEFh");
        // a packet at FFFF:FFFF, and a buffer that passes a border of 64 KiB
        stand.collect(7);
        stand.packet(6, last, 127, (0x0F00, 0x0800), 3);
        let given = Registers { ds: 0xFFFF, si: 0xFFFF, ..registers(0x42, 0, 0x80) };
        assert_eq!(stand.post(6, given).0, NOTHING_YET);
        for _ in 0..8 {
            assert_eq!(stand.turn().0, DONE);
        }
        let blocks = stand.store.bytes()[3 * 512..130 * 512].to_vec();
        assert!(stand.window(6)[0xF800..0xF800 + 127 * 512] == blocks[..], "127 blocks across a border of 64 KiB");
    }
}

// rule: packet_tests
fn b7_start_and_count_never_wrap(service: &dyn Service) {
    let mut stand = Stand::paper(service, 2048);
    for (count, start) in [(0, u64::MAX), (1, u64::MAX), (2, u64::MAX), (2, u64::MAX - 1), (3, u64::MAX - 2), (1, 2048), (1, 1 << 32)] {
        for ah in [0x42, 0x43, 0x44] {
            let (answer, got) = stand.post_packet(0, ah, count, start);
            assert_eq!((answer, got.ah(), got.carry), (DONE, 0x04, 1), "{ah:02x} start {start} count {count}");
        }
    }
}

// rule: verify_ok
fn b8_write_with_verify(service: &dyn Service) {
    let with_bit_3 = Drive { first: 2048, flags: 0x08, ..paper_drive() };
    let mut stand = Stand::open(service, &[paper_drive(), with_bit_3], 8 * 1024, 4096 * 512);
    for (al, dl, waits) in [(0, 0x80, true), (1, 0x80, true), (2, 0x80, false), (2, 0x81, true), (3, 0x81, false), (255, 0x81, false)] {
        stand.packet(0, 0, 1, (0, 0x200), 0);
        let before = stand.all();
        let given = Registers { ds: 0, si: 0, ..registers(0x43, al, dl) };
        let got = stand.post(0, given);
        if waits {
            assert_eq!(got, (NOTHING_YET, given), "AL {al} on {dl:02x}");
            stand.withdraw(0);
        } else {
            assert_eq!(got, (DONE, refused(given, 0x01)), "AL {al} on {dl:02x}");
            assert!(stand.all() == before, "the packet is not looked at");
        }
    }
}

// rule: sectors sector_run
fn b9_sectors(service: &dyn Service) {
    let mut stand = Stand::open(service, &[protected(paper_drive())], 8 * 70_000, 2048 * 512);
    for (al, cylinder, code) in [(0, 9, 0x01), (129, 9, 0x09), (1, 9, 0x03), (128, 0, 0x03)] {
        let given = by_sector(0x03, al, cylinder, 0, 1);
        assert_eq!(stand.post(0, given), (DONE, refused_sectors(given, code)), "protected, AL {al}");
    }
    let mut stand = Stand::paper(service, 70_000);
    // count, cylinder, head, sector, code (0: waits)
    let cases = [
        (0, 0, 0, 1, 0x01),
        (129, 0, 0, 1, 0x09),
        (255, 9, 0, 1, 0x09),
        (128, 0, 0, 1, 0),
        (1, 0, 0, 0, 0x04),
        (1, 0, 0, 63, 0),
        (1, 0, 15, 63, 0),
        (1, 0, 16, 1, 0x04),
        (1, 2, 0, 1, 0x04),
        (1, 1, 15, 63, 0),
        (2, 1, 15, 63, 0x04),
        (64, 0, 0, 1, 0),
    ];
    for (count, cylinder, head, sector, code) in cases {
        let given = by_sector(0x02, count, cylinder, head, sector);
        let got = stand.post(0, given);
        if code == 0 {
            assert_eq!(got, (NOTHING_YET, given), "{count} at {cylinder}/{head}/{sector}");
            let block = (u64::from(cylinder) * 16 + u64::from(head)) * 63 + u64::from(sector) - 1;
            assert_eq!(stand.word(row(0, 10)), block);
            stand.withdraw(0);
        } else {
            assert_eq!(got, (DONE, refused_sectors(given, code)), "{count} at {cylinder}/{head}/{sector}");
        }
    }
    let far = Registers { es: 0xFFFF, bx: 0xFFFF, ..by_sector(0x02, 1, 0, 0, 1) };
    assert_eq!(stand.post(0, far), (DONE, refused_sectors(far, 0x09)));
    let both = Registers { es: 0xFFFF, ..by_sector(0x02, 1, 2, 0, 1) };
    assert_eq!(stand.post(0, both), (DONE, refused_sectors(both, 0x04)), "the address comes before the buffer");
}

// rule: parameters geometry_given
fn b10_drive_parameters(service: &dyn Service) {
    let drives = [small_drive(0, 5), small_drive(5, 5), Drive { cylinders: 3, heads: 2, sectors: 1, ..small_drive(10, 6) }];
    let mut stand = Stand::open(service, &drives, 80, 16 * 512);
    let given = registers(0x08, 0x77, 0x82);
    let expected = Registers { ax: 0, cx: 0x0201, dx: 0x0103, ..given };
    assert_eq!(stand.post(0, given), (DONE, expected), "82h of three drives");
    let given = registers(0x08, 0x77, 0x83);
    assert_eq!(stand.post(0, given), (DONE, refused(given, 0x07)));
    // P6
    let mut stand = Stand::vast(service, &[largest_drive()], 0, LARGEST as usize * 512);
    let given = registers(0x08, 1, 0x80);
    assert_eq!(stand.post(0, given), (DONE, Registers { ax: 0, cx: 0xFFFF, dx: 0xFE01, ..given }));
}

// rule: extensions extensions_given
fn b11_check_extensions(service: &dyn Service) {
    let mut stand = Stand::paper(service, 0);
    let given = Registers { bx: 0x55AA, ..registers(0x41, 0x99, 0x80) };
    assert_eq!(stand.post(0, given), (DONE, Registers { ax: 0x3000, bx: 0xAA55, cx: 1, ..given }));
    for bad in [Registers { bx: 0xAA55, ..given }, Registers { dx: 0x81, ..given }] {
        assert_eq!(stand.post(0, bad), (DONE, refused(bad, 0x01)));
    }
}

// rule: returned_size result_answer
fn b12_result_sizes(service: &dyn Service) {
    let mut stand = Stand::paper(service, 1024);
    for asked in [0u16, 25, 26, 29, 30, 65, 66, 73, 74, 65535] {
        let returned = match asked {
            0..=25 => None,
            26..=29 => Some(26),
            30..=65 => Some(30),
            66..=73 => Some(66),
            _ => Some(74),
        };
        for left in [0usize, 1, 2, 25, 26, 29, 30, 65, 66, 73, 74, 100] {
            let place = 1024 - left;
            if left >= 2 {
                stand.window(3)[place..place + 2].copy_from_slice(&asked.to_le_bytes());
            }
            let before = stand.all();
            let given = by_packet(0x48, place as u16);
            let got = stand.post(3, given);
            let fits = left >= 2 && returned.is_some_and(|size| size <= left);
            if fits {
                assert_eq!(got, (DONE, succeeded(given)), "size {asked}, {left} left");
                let size = returned.unwrap();
                assert_eq!(stand.window(3)[place..place + 2], (size as u16).to_le_bytes());
                assert!(stand.window(3)[place + size..] == before.1[3 * 1024 + place + size..4 * 1024], "bytes past the result");
            } else {
                assert_eq!(got, (DONE, refused(given, 0x01)), "size {asked}, {left} left");
                assert!(stand.all() == before, "size {asked}, {left} left: something changed");
            }
        }
    }
}

// rule: whole_result checksum
fn b13_result_bytes(service: &dyn Service) {
    let mut stand = Stand::paper(service, 1024);
    stand.window(3)[8..10].copy_from_slice(&73u16.to_le_bytes());
    let before = stand.all();
    assert_eq!(stand.post(3, by_packet(0x48, 8)).1.ah(), 0);
    let mut expected = vec![66, 0, 2, 0, 2, 0, 0, 0, 16, 0, 0, 0, 63, 0, 0, 0, 0, 8, 0, 0, 0, 0, 0, 0, 0, 2, 255, 255, 255, 255];
    expected.extend([0xDD, 0xBE, 0x24, 0, 0, 0]);
    expected.extend(b"PCI\0ATA\0\0\0\0\0");
    expected.extend([0, 0x1F, 1, 0, 0, 0, 0, 0]);
    expected.extend([0; 9]);
    expected.push(0x6F); // P7
    assert_eq!(stand.window(3)[8..74], expected[..]);
    let (desk, arena, store) = stand.all();
    assert!((desk, store) == (before.0, before.2));
    let from = 3 * 1024 + 8;
    assert!(arena[..from] == before.1[..from] && arena[from + 66..] == before.1[from + 66..], "every other byte stays");
}

// rule: block_of address_of exports::edd_block exports::edd_address
fn b14_addresses(service: &dyn Service) {
    let of = |c, h, s| Geometry { cylinders: c, heads: h, sectors: s };
    let block = |g, cylinder, head, sector| {
        let mut out = 0xFEED;
        (service.block(g, Address { cylinder, head, sector }, &mut out), out)
    };
    let address = |g, number| {
        let mut out = Address { cylinder: 91, head: 92, sector: 93 };
        let answer = service.address(g, number, &mut out);
        (answer, [out.cylinder, out.head, out.sector])
    };
    let big = u32::MAX;
    for g in [
        of(0, 16, 63),
        of(1025, 16, 63),
        of(1024, 0, 63),
        of(1024, 256, 63),
        of(1024, 16, 0),
        of(1024, 16, 64),
        of(big, 1, 1),
        of(1, big, 1),
        of(1, 1, big),
    ] {
        assert_eq!(block(g, 0, 0, 1), (4, 0xFEED), "a geometry outside the limits");
        assert_eq!(address(g, 0), (4, [91, 92, 93]), "a geometry outside the limits");
    }
    for g in [of(1, 1, 1), of(3, 4, 5), of(7, 255, 2), of(2, 1, 63)] {
        let mut next = 0;
        for cylinder in 0..g.cylinders {
            for head in 0..g.heads {
                for sector in 1..=g.sectors {
                    assert_eq!(block(g, cylinder, head, sector), (DONE, next));
                    assert_eq!(address(g, u64::from(next)), (DONE, [cylinder, head, sector]));
                    next += 1;
                }
            }
        }
        for beyond in [u64::from(next), u64::from(next) + 1, 1 << 32, (1 << 32) + 1, u64::MAX] {
            assert_eq!(address(g, beyond), (4, [91, 92, 93]), "block {beyond}");
        }
        for (cylinder, head, sector) in
            [(g.cylinders, 0, 1), (0, g.heads, 1), (0, 0, 0), (0, 0, g.sectors + 1), (big, big, big), (0, big, 1)]
        {
            assert_eq!(block(g, cylinder, head, sector), (4, 0xFEED));
        }
    }
}

// ---- c: the drive table

fn opened(service: &dyn Service, table: &[u8], store_blocks: u64) -> (u32, u64) {
    let mut desk = Lent::holding(&[0; DESK_SIZE], Place::END);
    let table = Lent::holding(table, Place::END);
    let mut place = UNWRITTEN;
    (service.open(desk.bytes_mut(), table.bytes(), 0, 512 * store_blocks, &mut place), place)
}

// rule: read_table refusal
fn c1_order_of_checks(service: &dyn Service) {
    let good = small_drive(0, 4);
    let record = good.record();
    let with = |at: usize, byte: u8| {
        let mut bytes = record.clone();
        bytes[at] = byte;
        bytes
    };
    assert_eq!(opened(service, &[5, 0, 2], 9), (1, 0), "three bytes");
    assert_eq!(opened(service, &[5, 0, 5, 0], 9), (3, 0), "kind before length");
    assert_eq!(opened(service, &[5, 0, 0, 0], 9), (2, 0), "an end record of length 5");
    assert_eq!(opened(service, &with(0, 67)[..10], 9), (2, 0), "length before cut off");
    assert_eq!(opened(service, &record[..67], 9), (1, 0), "cut off");
    let mut nine: Vec<Drive> = (0..9).map(|i| small_drive(i, 1)).collect();
    let table = drives::table(&nine);
    assert_eq!(opened(service, &table[..9 * 68 - 1], 9), (1, 544), "a ninth drive cut off");
    nine[8].sectors = 0;
    assert_eq!(opened(service, &drives::table(&nine), 9), (4, 544), "a ninth drive with a bad field");
    let bad_field_past_store = Drive { first: 100, sectors: 0, ..good };
    assert_eq!(opened(service, &drives::table(&[good, bad_field_past_store]), 9), (5, 68), "5 before 6");
    let past_store_and_overlap = Drive { first: 3, blocks: 7, ..good };
    assert_eq!(opened(service, &drives::table(&[good, past_store_and_overlap]), 9), (6, 68), "6 before 7");
    assert_eq!(opened(service, &drives::table(&[good, Drive { first: 3, ..good }]), 9), (7, 68));
    let mut after = drives::table(&[good]);
    after.push(0);
    assert_eq!(opened(service, &after, 9), (8, 72));
    assert_eq!(opened(service, &after, 3), (6, 0), "a drive is judged before what follows the end");
}

// rule: read_table
fn c2_places(service: &dyn Service) {
    let record = small_drive(0, 4).record();
    assert_eq!(opened(service, &[], 9), (1, 0));
    assert_eq!(opened(service, &record, 9), (1, 68), "no end record");
    assert_eq!(opened(service, &[4, 0, 0, 0, 4, 0, 0, 0], 9), (8, 4));
    assert_eq!(opened(service, &[record.clone(), vec![4, 0, 5, 0]].concat(), 9), (3, 68));
    assert_eq!(opened(service, &[record, vec![4, 0]].concat(), 9), (1, 68));
}

/// A drive of 2048 blocks with one field changed, and what the table's check of its fields says: 5, or 0.
fn field_cases(good: Drive) -> [(&'static str, Drive, u32); 27] {
    [
        ("blocks 0", Drive { blocks: 0, ..good }, 5),
        ("blocks below the geometry", Drive { blocks: 2015, ..good }, 5),
        ("blocks as the geometry", Drive { blocks: 2016, ..good }, 0),
        ("flags bit 6", Drive { flags: 0x7F, ..good }, 0),
        ("flags bit 7", Drive { flags: 0x80, ..good }, 5),
        ("flags bit 15", Drive { flags: 0x8000, ..good }, 5),
        ("C 0", Drive { cylinders: 0, ..good }, 5),
        ("C 1024", Drive { cylinders: 1024, heads: 1, sectors: 1, ..good }, 0),
        ("C 1025", Drive { cylinders: 1025, heads: 1, sectors: 1, ..good }, 5),
        ("H 0", Drive { heads: 0, ..good }, 5),
        ("H 255", Drive { heads: 255, cylinders: 1, sectors: 1, ..good }, 0),
        ("H 256", Drive { heads: 256, cylinders: 1, sectors: 1, ..good }, 5),
        ("S 0", Drive { sectors: 0, ..good }, 5),
        ("S 64", Drive { sectors: 64, cylinders: 1, heads: 1, ..good }, 5),
        ("protection 1", Drive { protection: 1, ..good }, 0),
        ("protection 2", Drive { protection: 2, ..good }, 5),
        ("ISA", Drive { host_bus: *b"ISA\0", ..good }, 0),
        ("PCI and a space", Drive { host_bus: *b"PCI ", ..good }, 5),
        ("pci", Drive { host_bus: *b"pci\0", ..good }, 5),
        ("ATAPI", Drive { interface_type: *b"ATAPI\0\0\0", ..good }, 0),
        ("SCSI", Drive { interface_type: *b"SCSI\0\0\0\0", ..good }, 0),
        ("USB", Drive { interface_type: *b"USB\0\0\0\0\0", ..good }, 0),
        ("1394", Drive { interface_type: *b"1394\0\0\0\0", ..good }, 0),
        ("FIBRE", Drive { interface_type: *b"FIBRE\0\0\0", ..good }, 0),
        ("ATA and spaces", Drive { interface_type: *b"ATA     ", ..good }, 5),
        ("a byte after ATA", Drive { interface_type: *b"ATA\0\0\0\0\x01", ..good }, 5),
        ("any paths", Drive { interface_path: [0xFF; 8], device_path: [0xFE; 8], physical: [u32::MAX; 3], ..good }, 0),
    ]
}

// rule: fields_ok
fn c3_fields(service: &dyn Service) {
    for (what, drive, number) in field_cases(paper_drive()) {
        let expected = (number, if number == 0 { UNWRITTEN } else { 0 });
        assert_eq!(opened(service, &drives::table(&[drive]), 2048), expected, "{what}");
    }
}

// rule: in_store overlap
fn c4_c5_ranges(service: &dyn Service) {
    let at = |first, blocks| Drive { first, ..small_drive(first, blocks) };
    let one = |first, blocks, store| opened(service, &drives::table(&[at(first, blocks)]), store).0;
    assert_eq!(one(u64::MAX, 1, 100), 6, "the sum does not wrap");
    assert_eq!(one(u64::MAX - 1, 2, 100), 6);
    assert_eq!(one(1, u64::MAX, 100), 6);
    assert_eq!(one(99, 1, 100), 0);
    assert_eq!(one(99, 2, 100), 6);
    assert_eq!(one(0, 1, 0), 6);
    let two = |a: (u64, u64), b: (u64, u64)| opened(service, &drives::table(&[at(a.0, a.1), at(b.0, b.1)]), 100);
    for (a, b) in [((10, 5), (15, 5)), ((15, 5), (10, 5)), ((0, 1), (99, 1))] {
        assert_eq!(two(a, b).0, 0, "apart or touching");
    }
    for (a, b) in [((10, 5), (14, 5)), ((14, 5), (10, 5)), ((10, 5), (10, 5)), ((10, 9), (12, 2)), ((12, 2), (10, 9))] {
        assert_eq!(two(a, b), (7, 68), "{a:?} {b:?}");
    }
    let mut desk = [0; DESK_SIZE];
    assert_eq!(service.open(&mut desk, &drives::table(&[at(0, 1)]), 0, 511, &mut 0), 6, "511 bytes hold no block");
    assert_eq!(service.open(&mut desk, &drives::table(&[]), 0, 511, &mut 0), DONE);
}

// rule: table_of write_out exports::edd_write
fn c7_written_back(service: &dyn Service) {
    let mut chance = Chance::new(77);
    for round in 0..60 {
        let list = drives::drives(&mut chance, 100);
        let table = drives::table(&list);
        let stand = Stand::open(service, &list, 0, 100 * 512);
        let mut out = Lent::holding(&[0x3C; 2000], Place::END);
        assert_eq!(stand.write(out.bytes_mut()), (DONE, table.len() as u64), "round {round}");
        assert!(out.margin_intact(), "the library wrote beside the buffer");
        assert!(out.bytes()[..table.len()] == table[..], "the bytes that were opened");
        assert!(out.bytes()[table.len()..].iter().all(|byte| *byte == 0x3C), "bytes past it stay");
        out.set_length(table.len(), Place::END);
        assert_eq!(stand.write(out.bytes_mut()), (DONE, table.len() as u64));
        out.set_length(table.len() - 1, Place::END);
        out.bytes_mut().fill(0x3C);
        assert_eq!(stand.write(out.bytes_mut()), (19, UNWRITTEN));
        assert!(out.bytes().iter().all(|byte| *byte == 0x3C));
    }
}

// ---- d: the desk block

/// Guest 0 waits with 43h (20 blocks, 16 moved), guest 1 is vacant, guest 2 waits with 02h (20 blocks), guest 3 has finished.
fn mixed(service: &dyn Service) -> Stand<'_> {
    let other = Drive { first: 2048, blocks: 100, cylinders: 1, heads: 1, sectors: 50, ..paper_drive() };
    let mut stand = Stand::open(service, &[paper_drive(), other], 8 * 12_000, 2148 * 512);
    assert_eq!(stand.post_packet(3, 0x42, 1, 0).0, NOTHING_YET);
    assert_eq!(stand.turn(), (DONE, 3, 1));
    assert_eq!(stand.post_packet(0, 0x43, 20, 7).0, NOTHING_YET);
    assert_eq!(stand.turn(), (DONE, 0, 16));
    assert_eq!(stand.post(2, by_sector(0x02, 20, 1, 2, 3)).0, NOTHING_YET);
    assert!(stand.accepted());
    stand
}

// rule: Acceptable.accept Image.accepted
fn d1_accepted_though_unreachable(service: &dyn Service) {
    let mut stand = mixed(service);
    let ax = stand.word(row(0, 1));
    stand.accepted_with("43h with AL 7", row(0, 1), ax | 7);
    for k in 2..8 {
        stand.accepted_with("a register that does not agree with the row", row(0, k), 0xFFFF);
        stand.accepted_with("a register that does not agree with the row", row(2, k), 0xFFFF);
    }
    stand.accepted_with("carry of a waiting row", row(0, 8), 1);
    stand.accepted_with("another drive than DL", row(0, 9), 0x81);
    stand.accepted_with("another start than the packet's", row(0, 10), 2028);
    stand.accepted_with("another start than the address's", row(2, 10), 0);
    stand.accepted_with("another count than AL", row(2, 11), 21);
    stand.accepted_with("another buffer than ES:BX", row(2, 12), 1);
    stand.accepted_with("another packet than DS:SI", row(0, 13), 12_000 - 16);
    stand.accepted_with("fewer moved", row(0, 14), 0);
    stand.accepted_with("more moved than turns could", row(2, 14), 16);
    for k in 15..22 {
        stand.accepted_with("any register of a finished row", row(3, k), 0xFFFF);
    }
    stand.accepted_with("carry of a finished row", row(3, 22), 1);
    stand.accepted_with("another pointer", POINTER, 7);
    // two writes of the same blocks
    let words: Vec<u64> = (0..23).map(|k| stand.word(row(0, k))).collect();
    for (k, value) in words.iter().enumerate() {
        stand.set_word(row(1, k), *value);
    }
    assert!(stand.accepted(), "requests that collide");
    // a buffer that no segment and offset reach
    stand.set_word(ARENA_LENGTH, 1 << 40);
    stand.set_word(row(0, 12), 0x20_0000);
    assert!(stand.accepted(), "a buffer above 10FFEFh");
    // a block that was never opened can be the image of a desk: zeros are the one without drives and with lengths 0
    stand.desk.bytes_mut().fill(0);
    let mut out = [0xA5; 5];
    assert_eq!((stand.write(&mut out), out), ((DONE, 4), [4, 0, 0, 0, 0xA5]), "a block of zeros");
    assert_eq!(stand.turn().0, 24, "zeros, and an arena with bytes");
}

// rule: Acceptable.accept job_ok range_ok moved_ok
fn d1_refused_by_one_word(service: &dyn Service) {
    let mut stand = mixed(service);
    stand.refused_with("pointer", POINTER, 8);
    stand.refused_with("pointer", POINTER, u64::MAX);
    stand.refused_with("stage", row(0, 0), 3);
    stand.refused_with("drive below 80h", row(0, 9), 0x7F);
    stand.refused_with("drive past the table", row(0, 9), 0x82);
    stand.refused_with("drive above a byte", row(0, 9), 0x180);
    stand.refused_with("range, 43h", row(0, 10), 2029);
    stand.refused_with("range inside the drive, not the geometry, 02h", row(2, 10), 2016 - 19);
    stand.accepted_with("range at the end of the geometry, 02h", row(2, 10), 2016 - 20);
    stand.refused_with("count 128, 43h", row(0, 11), 128);
    stand.refused_with("count 129, 02h", row(2, 11), 129);
    stand.refused_with("buffer, 43h", row(0, 12), 12_000 - 20 * 512 + 1);
    stand.accepted_with("buffer at the end, 43h", row(0, 12), 12_000 - 20 * 512);
    stand.refused_with("buffer, 02h", row(2, 12), 12_000 - 20 * 512 + 1);
    stand.refused_with("packet", row(0, 13), 12_000 - 15);
    stand.refused_with("write to a protected drive", drive_word(0, 9), 1);
    stand.accepted_with("a protected drive that is read or not used", drive_word(1, 9), 1);
    stand.refused_with("moved no multiple of 16", row(0, 14), 8);
    stand.refused_with("moved no multiple of 16", row(0, 14), 17);
    stand.refused_with("moved past the count", row(0, 14), 32);
    stand.refused_with("count not above moved", row(0, 11), 16);
    for k in 1..8 {
        stand.refused_with("a register above 16 bits", row(0, k), stand.word(row(0, k)) | 0x10000);
    }
    stand.refused_with("carry 2", row(0, 8), 2);
}

// rule: count_ok
fn d1_limits_of_the_counts(service: &dyn Service) {
    let mut stand = Stand::paper(service, 70_000);
    assert_eq!(stand.post_packet(0, 0x42, 127, 0).0, NOTHING_YET);
    assert_eq!(stand.post(1, by_sector(0x02, 128, 0, 0, 1)).0, NOTHING_YET);
    assert!(stand.accepted());
    stand.refused_with("128 by packet", row(0, 11), 128);
    stand.refused_with("129 by AL", row(1, 11), 129);
    stand.accepted_with("112 of 127 moved", row(0, 14), 112);
    stand.accepted_with("112 of 128 moved", row(1, 14), 112);
    stand.refused_with("128 of 128 moved", row(1, 14), 128);
}

// rule: is_transfer
fn d2_function_of_a_row(service: &dyn Service) {
    let mut stand = mixed(service);
    stand.set_word(row(0, 13), 8);
    for ah in 0..=255 {
        if ah != 0x43 && ah != 0x42 {
            stand.refused_with("AH of a waiting row with a packet", row(0, 1), ah << 8);
        }
        if ah != 0x02 && ah != 0x03 && ah != 0x42 && ah != 0x43 {
            stand.refused_with("AH of a waiting row", row(2, 1), ah << 8);
        }
    }
    stand.refused_with("count 0", row(2, 11), 0);
}

// rule: packet_ok
fn d3_packet_of_02h_and_03h(service: &dyn Service) {
    let mut stand = mixed(service);
    stand.refused_with("02h with packet 1", row(2, 13), 1);
    stand.set_word(row(2, 1), 0x0314);
    assert!(stand.accepted());
    stand.refused_with("03h with packet 1", row(2, 13), 1);
    stand.set_word(row(2, 1), 0x4214);
    stand.accepted_with("42h with packet 1", row(2, 13), 1);
    stand.accepted_with("42h, packet at the end", row(2, 13), 12_000 - 16);
    stand.refused_with("42h, packet one byte past the window", row(2, 13), 12_000 - 15);
}

// rule: is_image
fn d4_words_that_a_stage_does_not_use(service: &dyn Service) {
    let mut stand = mixed(service);
    for value in [1, 1 << 63, u64::MAX] {
        for k in 1..23 {
            stand.refused_with("vacant", row(1, k), value);
        }
        for k in 15..23 {
            stand.refused_with("waiting", row(0, k), value);
        }
        for k in 1..15 {
            stand.refused_with("finished", row(3, k), value);
        }
        for slot in 2..8 {
            for k in 0..16 {
                stand.refused_with("an unused slot of the table", drive_word(slot, k), value);
            }
        }
    }
    for k in 15..22 {
        stand.refused_with("a finished register above 16 bits", row(3, k), 0x10000);
    }
    for carry in [2, 0x10000, 1 << 32, u64::MAX] {
        stand.refused_with("carry of a finished row", row(3, 22), carry);
    }
    for stage in [3, 4, 256, 1 << 32, u64::MAX] {
        stand.refused_with("stage", row(1, 0), stage);
    }
    for count in [0, 1, 3, 8, 9, 1 << 32, u64::MAX] {
        stand.refused_with("drive count", DRIVE_COUNT, count);
    }
}

// rule: is_sound
fn d5_table_in_the_block(service: &dyn Service) {
    let mut stand = mixed(service);
    // widths
    for (word, bits) in [(0, 32), (1, 32), (2, 32), (5, 16), (6, 16), (7, 16), (8, 8), (9, 8), (10, 32)] {
        let old = stand.word(drive_word(1, word));
        stand.refused_with("a field wider than its record's", drive_word(1, word), old | 1 << bits);
    }
    // 5
    for (word, value) in [(3, 0), (3, 49), (5, 0x80), (6, 0), (6, 1025), (7, 0), (7, 256), (8, 0), (8, 64), (9, 2)] {
        stand.refused_with("a field", drive_word(1, word), value);
    }
    stand.refused_with("C x H x S above the blocks", drive_word(1, 6), 3);
    stand.refused_with("host bus", drive_word(1, 10), u64::from(u32::from_le_bytes(*b"PCI ")));
    stand.refused_with("interface type", drive_word(1, 11), u64::from_le_bytes(*b"ATA\0\0\0\0 "));
    stand.accepted_with("interface path", drive_word(1, 12), u64::MAX);
    stand.accepted_with("device path", drive_word(1, 13), u64::MAX);
    // 6, by the block's own store length
    stand.refused_with("blocks past the store", drive_word(1, 3), 101);
    stand.refused_with("first past the store", drive_word(1, 4), 2049);
    stand.refused_with("first + blocks wraps", drive_word(1, 4), u64::MAX - 50);
    stand.refused_with("a store too short by a byte", STORE_LENGTH, 2148 * 512 - 1);
    stand.accepted_with("a longer store", STORE_LENGTH, u64::MAX);
    // 7
    stand.refused_with("overlap", drive_word(1, 4), 2047);
    stand.refused_with("overlap", drive_word(0, 3), 2049);
    stand.refused_with("overlap", drive_word(1, 4), 0);
}

// rule: job_ok range_ok
fn d6_words_that_wrap(service: &dyn Service) {
    let mut stand = mixed(service);
    for guest in [0, 2] {
        for k in 9..15 {
            for value in [u64::MAX, u64::MAX - 15, 1 << 63, 1 << 32] {
                stand.refused_with("a huge word of a waiting row", row(guest, k), value);
            }
        }
        stand.refused_with("start + count is 2^64", row(guest, 10), 0u64.wrapping_sub(20));
        stand.refused_with("start + count wraps to 7", row(guest, 10), 0u64.wrapping_sub(13));
        stand.refused_with("buffer + 512 x count is 2^64", row(guest, 12), 0u64.wrapping_sub(20 * 512));
        stand.refused_with("512 x count wraps to 0", row(guest, 11), 1 << 55);
    }
    stand.refused_with("packet + 16 is 2^64", row(0, 13), 0u64.wrapping_sub(16));
    // M is of the block's own arena length
    stand.refused_with("a shorter arena", ARENA_LENGTH, 8 * (0x200 + 20 * 512) - 1);
    stand.accepted_with("an arena just long enough", ARENA_LENGTH, 8 * (0x200 + 20 * 512));
}

// rule: open_of
fn d7_absurd_lengths(service: &dyn Service) {
    let mut stand = Stand::paper(service, 1024);
    let table = drives::table(&[paper_drive()]);
    assert_eq!(stand.open_again(&table, u64::MAX, u64::MAX), (DONE, UNWRITTEN));
    assert_eq!((stand.word(ARENA_LENGTH), stand.word(STORE_LENGTH)), (u64::MAX, u64::MAX));
    let before = stand.all();
    assert_eq!(stand.post(0, registers(0x41, 1, 0x80)), (24, registers(0x41, 1, 0x80)));
    assert_eq!(stand.turn(), (24, UNWRITTEN, UNWRITTEN));
    assert_eq!(stand.withdraw(0), (24, STALE));
    assert_eq!(stand.collect(0), (22, STALE));
    let mut out = vec![0; 72];
    assert_eq!(stand.write(&mut out), (DONE, 72));
    assert_eq!(out, table);
    assert!(stand.all() == before);
    // lengths that agree with those of the slices in their low 32 bits
    let (arena_length, store_length) = (8 * 1024, 2048 * 512);
    for (a, s) in [(1 << 32, 0), (0, 1 << 32), (1 << 63, 0)] {
        assert_eq!(stand.open_again(&table, arena_length + a, store_length + s), (DONE, UNWRITTEN));
        assert_eq!(stand.turn(), (24, UNWRITTEN, UNWRITTEN));
    }
    // the largest drive that a number of bytes can hold
    let blocks = u64::MAX / 512;
    assert_eq!(stand.open_again(&drives::table(&[Drive { blocks, ..paper_drive() }]), 0, u64::MAX).0, DONE);
    assert_eq!(stand.open_again(&drives::table(&[Drive { blocks: blocks + 1, ..paper_drive() }]), 0, u64::MAX), (6, 0));
}

// rule: is_image open_call
fn d9_wrong_size(service: &dyn Service) {
    let mut stand = mixed(service);
    let good = stand.desk.bytes().to_vec();
    for size in [0, 1, 8, DESK_SIZE - 8, DESK_SIZE - 1, DESK_SIZE + 1, DESK_SIZE + 8, 2 * DESK_SIZE] {
        let mut bytes = good.clone();
        bytes.resize(size, 0);
        stand.desk = Lent::holding(&bytes, Place::END);
        stand.refused_everywhere("size");
        let before = stand.all();
        assert_eq!(stand.open_again(&drives::table(&[]), 0, 0), (25, UNWRITTEN));
        assert!(stand.all() == before);
    }
    assert_eq!(service.desk_size(), DESK_SIZE as u64);
    assert_eq!(service.version(), model::version());
}

// ---- e: windows, turns, collects, withdrawals

// rule: window_length span_start span_length exports::edd_window
fn e1_windows(service: &dyn Service) {
    let window = |arena_length, guest| {
        let (mut start, mut length) = (UNWRITTEN, UNWRITTEN);
        assert_eq!(service.window(arena_length, guest, &mut start, &mut length), DONE);
        (start, length)
    };
    for length in [0, 1, 7, 8, 9, 127, 128, 4103, 1 << 40, u64::MAX] {
        for guest in 0..8 {
            assert_eq!(window(length, guest), (guest * (length / 8), length / 8));
        }
        for guest in [8, 9, 1 << 32, 1 << 61, u64::MAX] {
            assert_eq!(window(length, guest), (0, 0));
        }
    }
}

// rule: window_length in_store
fn e2_odd_arenas(service: &dyn Service) {
    let edges = [1, 2, 25, 26, 29, 30, 65, 66, 73, 74].map(|m| 8 * m + 3);
    for arena_length in [0, 7, 8, 127, 128, 8 * 511, 4096 + 7, 8 * 512 + 7].into_iter().chain(edges) {
        let mut stand = Stand::open(service, &[small_drive(0, 4)], arena_length, 4 * 512 + 100);
        let m = arena_length / 8;
        let tail = stand.arena.bytes()[8 * m..].to_vec();
        if m >= 16 {
            stand.packet(7, m - 16, 1, (0, 0), 0);
        }
        let by_packet_got = stand.post(7, by_packet(0x42, m.saturating_sub(16) as u16));
        match m {
            0..=15 => assert_eq!(by_packet_got.1.ah(), 1, "no packet fits"),
            16..=511 => assert_eq!(by_packet_got.1.ah(), 9, "no block fits"),
            _ => assert_eq!(by_packet_got.0, NOTHING_YET),
        }
        let given = Registers { bx: 0, ..by_sector(0x03, 1, 0, 0, 1) };
        let by_sector_got = stand.post(6, given);
        if m < 512 {
            assert_eq!(by_sector_got, (DONE, refused_sectors(given, 0x09)));
            let bad = Registers { cx: 0, ..given };
            assert_eq!(stand.post(6, bad).1.ah(), 0x04, "after the other tests");
        } else {
            assert_eq!(by_sector_got.0, NOTHING_YET);
            let last = stand.store.bytes()[4 * 512..].to_vec();
            assert_eq!((stand.turn().1, stand.turn().1), (6, 7));
            assert!(stand.store.bytes()[4 * 512..] == last[..], "bytes past the last block");
        }
        // P8; None is 01h
        let sizes = [(25, None), (26, Some(26)), (29, Some(26)), (30, Some(30)), (65, Some(30)), (66, Some(66)), (65535, Some(74))];
        for (asked, returned) in sizes {
            if m >= 2 {
                stand.window(5)[..2].copy_from_slice(&u16::to_le_bytes(asked));
            }
            let given = by_packet(0x48, 0);
            let expected = if returned.is_some_and(|size| size <= m) { succeeded(given) } else { refused(given, 0x01) };
            assert_eq!(stand.post(5, given), (DONE, expected), "48h of size {asked}, window of {m}");
        }
        assert_eq!(stand.post(5, Registers { bx: 0x55AA, ..registers(0x41, 0, 0x80) }).1.bx, 0xAA55);
        assert_eq!(stand.post(5, registers(0x08, 0, 0x80)).1.carry, 0);
        assert!(stand.arena.bytes()[8 * m..] == tail[..], "bytes that belong to nobody");
    }
}

// rule: turn_of exports::edd_turn
fn e4_turn_order(service: &dyn Service) {
    let mut stand = Stand::paper(service, 1024 + 16 * 512);
    stand.set_word(POINTER, 7);
    for guest in [0, 7, 3] {
        assert_eq!(stand.post_packet(guest, 0x42, 1, guest as u64).0, NOTHING_YET);
    }
    assert_eq!((stand.turn(), stand.word(POINTER)), ((DONE, 7, 1), 0), "at the pointer; then 8 modulo 8");
    assert_eq!((stand.turn(), stand.word(POINTER)), ((DONE, 0, 1), 1));
    assert_eq!((stand.turn(), stand.word(POINTER)), ((DONE, 3, 1), 4));
    // finished rows are passed over
    assert_eq!(stand.post_packet(5, 0x42, 1, 0).0, NOTHING_YET);
    stand.set_word(POINTER, 7);
    assert_eq!(stand.turn(), (DONE, 5, 1));
}

// rule: moves exports::edd_turn
fn e5_what_moves(service: &dyn Service) {
    for (ah, drive) in [(0x42, 0), (0x43, 0), (0x42, 1), (0x43, 1), (0x02, 0), (0x03, 0)] {
        let other = Drive { first: 2053, ..small_drive(2053, 60) };
        let mut stand = Stand::open(service, &[Drive { first: 3, ..paper_drive() }, other], 8 * 21_100 + 5, 2120 * 512 + 77);
        let start = 11;
        let given = if ah < 0x40 {
            Registers { bx: 0x20D, ..by_sector(ah, 40, 0, 0, start + 1) }
        } else {
            stand.packet(5, 7, 40, (0, 0x20D), u64::from(start));
            Registers { dx: 0x80 + drive, ..by_packet(ah, 7) }
        };
        assert_eq!(stand.post(5, given).0, NOTHING_YET);
        let first = [3, 2053][drive as usize] + usize::from(start);
        let mut moved = 0;
        for blocks in [16, 16, 8] {
            let mut expected = stand.all();
            let in_arena = 5 * 21_100 + 0x20D + 512 * moved;
            let in_store = 512 * (first + moved);
            let length = 512 * blocks;
            if matches!(ah, 0x02 | 0x42) {
                let data = expected.2[in_store..in_store + length].to_vec();
                expected.1[in_arena..in_arena + length].copy_from_slice(&data);
            } else {
                let data = expected.1[in_arena..in_arena + length].to_vec();
                expected.2[in_store..in_store + length].copy_from_slice(&data);
            }
            assert_eq!(stand.turn(), (DONE, 5, blocks as u64), "{ah:02x}");
            let (_, arena, store) = stand.all();
            assert!(arena == expected.1 && store == expected.2, "{ah:02x} after {moved} blocks");
            moved += blocks;
        }
        assert_eq!(stand.collect(5), (DONE, succeeded(given)), "{ah:02x}");
    }
}

// rule: moves
fn e5_places_above_4_gib(service: &dyn Service) {
    // the largest geometry, and windows of 640 MiB: guest 7's starts at 4.375 GiB
    const WINDOW: usize = 640 << 20;
    let mut stand = Stand::vast(service, &[largest_drive()], 8 * WINDOW, LARGEST as usize * 512);
    let mut block = [0; 512];
    Chance::new(5).fill(&mut block);
    let low = WINDOW * 7 & 0xFFFF_FFFF;
    let last = 512 * (LARGEST as usize - 1);
    // written by packet from guest 7 to the last block, read by sector into guest 6
    stand.window(7)[0x3000..0x3200].copy_from_slice(&block);
    stand.packet(7, 0, 1, (0, 0x3000), LARGEST - 1);
    assert_eq!(stand.post(7, by_packet(0x43, 0)).0, NOTHING_YET);
    assert_eq!(stand.turn(), (DONE, 7, 1));
    assert!(stand.store.bytes()[last..last + 512] == block, "the last block");
    assert!(stand.store.bytes()[last & 0xFFFF_FFFF..][..512] == [0; 512], "not narrowed");
    let given = by_sector(0x02, 1, 1023, 254, 63);
    assert_eq!(stand.post(6, given).0, NOTHING_YET);
    assert_eq!(stand.turn(), (DONE, 6, 1));
    assert!(stand.window(6)[0x200..0x400] == block);
    assert!(stand.arena.bytes()[low + 0x200..low + 0x400] == [0; 512], "not narrowed");
    assert_eq!(stand.post(6, Registers { ax: 0x0202, ..given }).0, 21);
    assert_eq!(stand.post(5, Registers { ax: 0x0202, ..given }).1.ah(), 0x04);
}

// rule: packet_job moves
fn e6_packet_is_read_once(service: &dyn Service) {
    let mut stand = Stand::paper(service, 21_000);
    // the read lays data over its own packet, and the guest writes other values there between the turns
    stand.packet(1, 0x210, 40, (0, 0x200), 9);
    let given = by_packet(0x42, 0x210);
    assert_eq!(stand.post(1, given).0, NOTHING_YET);
    for blocks in [16, 16, 8] {
        assert_eq!(stand.turn(), (DONE, 1, blocks));
        stand.packet(1, 0x210, 3, (0xFFFF, 0xFFFF), u64::MAX);
    }
    let data = stand.store.bytes()[9 * 512..49 * 512].to_vec();
    let window = stand.window(1);
    assert!(window[0x220..0x200 + 40 * 512] == data[0x20..], "forty blocks, but for the bytes that the guest wrote last");
    assert_eq!(stand.collect(1), (DONE, succeeded(given)));
}

// rule: withdraw_of withdrawn_window exports::edd_withdraw
fn e7_withdrawal(service: &dyn Service) {
    let mut stand = Stand::paper(service, 21_000);
    // nothing moved: 0
    stand.packet(1, 0x210, 40, (0, 0x200), 9);
    let given = Registers { ax: 0x4277, ..by_packet(0x42, 0x210) };
    assert_eq!(stand.post(1, given).0, NOTHING_YET);
    let mut expected = stand.all();
    expected.1[21_000 + 0x212..21_000 + 0x214].copy_from_slice(&[0, 0]);
    expected.0[8 * row(1, 0)..8 * row(2, 0)].fill(0);
    assert_eq!(stand.withdraw(1), (DONE, Registers { ax: 0x8077, carry: 1, ..given }));
    assert!(stand.all() == expected);
    assert_eq!(stand.withdraw(1), (23, STALE));
    assert_eq!(stand.collect(1), (22, STALE), "there is nothing to collect");
    // after sixteen blocks that lie over the packet
    stand.packet(1, 0x210, 40, (0, 0x200), 9);
    assert_eq!(stand.post(1, given).0, NOTHING_YET);
    assert_eq!(stand.turn(), (DONE, 1, 16));
    let mut expected = stand.all();
    expected.1[21_000 + 0x212..21_000 + 0x214].copy_from_slice(&[16, 0]);
    expected.0[8 * row(1, 0)..8 * row(2, 0)].fill(0);
    assert_eq!(stand.withdraw(1), (DONE, Registers { ax: 0x8077, carry: 1, ..given }));
    assert!(stand.all() == expected, "the count word over the data; moved blocks stay; the pointer too");
    // by AL
    let given = by_sector(0x03, 40, 0, 0, 1);
    assert_eq!(stand.post(1, given).0, NOTHING_YET);
    assert_eq!((stand.turn().2, stand.turn().2), (16, 16));
    let mut expected = stand.all();
    expected.0[8 * row(1, 0)..8 * row(2, 0)].fill(0);
    assert_eq!(stand.withdraw(1), (DONE, Registers { ax: 0x8020, carry: 1, ..given }));
    assert!(stand.all() == expected, "02h and 03h write no memory");
    assert_eq!(stand.post_packet(1, 0x42, 1, 0).0, NOTHING_YET, "the row is vacant at once");
}

// rule: collect_of exports::edd_collect
fn e8_collect_once(service: &dyn Service) {
    let mut stand = Stand::paper(service, 2048);
    assert_eq!(stand.post_packet(6, 0x42, 2, 0).0, NOTHING_YET);
    assert_eq!(stand.collect(6), (22, STALE), "it waits");
    assert_eq!(stand.turn(), (DONE, 6, 2));
    assert_eq!(stand.withdraw(6), (23, STALE), "it has finished");
    let mut expected = stand.all();
    expected.0[8 * row(6, 0)..8 * row(7, 0)].fill(0);
    assert_eq!(stand.collect(6), (DONE, succeeded(by_packet(0x42, 0))));
    assert!(stand.all() == expected, "only the row changes");
    assert_eq!(stand.collect(6), (22, STALE));
}

// ---- g: sums, the paper's own cases, threads

// rule: block_of parameters checksum turn_of
fn g1_sums(service: &dyn Service) {
    let g = Geometry { cylinders: 1024, heads: 16, sectors: 63 };
    let block = |cylinder, head, sector| {
        let mut out = 77;
        (service.block(g, Address { cylinder, head, sector }, &mut out), out)
    };
    assert_eq!([block(0, 0, 1), block(0, 1, 1), block(1, 0, 1), block(1023, 15, 63)], [(0, 0), (0, 63), (0, 1008), (0, 1032191)]);
    assert_eq!(block(0, 0, 0), (4, 77), "P5");
    let mut stand = Stand::paper(service, 1024);
    let got = stand.post(0, registers(0x08, 0, 0x80)).1;
    assert_eq!((got.cx, got.dx), (0x013F, 0x0F01), "P7");
    // P9
    let mut stand = Stand::paper(service, 21_000);
    for guest in [2, 5] {
        assert_eq!(stand.post_packet(guest, 0x42, 40, 0).0, NOTHING_YET);
    }
    let turns: Vec<(u32, u64, u64)> = (0..6).map(|_| stand.turn()).collect();
    assert_eq!(turns, [(0, 2, 16), (0, 5, 16), (0, 2, 16), (0, 5, 16), (0, 2, 8), (0, 5, 8)]);
    // P10
    let mut stand = Stand::paper(service, 21_000);
    for guest in 0..8 {
        assert_eq!(stand.post_packet(guest, 0x42, 40, 0).0, NOTHING_YET);
    }
    stand.set_word(POINTER, 1);
    let turns: Vec<u64> = (0..8).map(|_| stand.turn().1).collect();
    assert_eq!(turns, [1, 2, 3, 4, 5, 6, 7, 0]);
}

// rule: packet_tests sectors
fn g2_run_by_program(service: &dyn Service) {
    let mut stand = Stand::paper(service, 66_100);
    assert_eq!(stand.post_packet(0, 0x42, 1, 2047).0, NOTHING_YET);
    assert_eq!(stand.post_packet(1, 0x42, 0, 2048).1.carry, 0);
    assert_eq!(stand.post_packet(1, 0x42, 1, 2048).1.ah(), 0x04);
    assert_eq!(stand.post(2, by_sector(0x02, 128, 0, 0, 1)).0, NOTHING_YET);
    assert_eq!(stand.post(3, by_sector(0x02, 129, 0, 0, 1)).1.ah(), 0x09);
    assert_eq!(stand.post_packet(4, 0x42, 127, 0).0, NOTHING_YET);
    assert_eq!(stand.post_packet(5, 0x42, 128, 0).1.ah(), 0x01);
    let mut stand = Stand::open(service, &[protected(paper_drive())], 8 * 1024, 2048 * 512);
    assert_eq!(stand.post_packet(0, 0x43, 1, 2048).1.ah(), 0x03, "protected and out of range");
}

// rule: exports::edd_post exports::edd_turn exports::edd_place
/// A call touches the window of its own guest and the blocks that it moves, and nothing else of arena and store: it does not even read
/// there. So another guest may go on running in its own window. While a call runs, all other pages are made inaccessible.
fn g5_no_other_memory_is_touched(service: &dyn Service) {
    const WINDOW: usize = 16 * 4096;
    let drive = Drive { first: 16, blocks: 256, cylinders: 4, heads: 1, sectors: 63, ..with_parameters(paper_drive(), 0) };
    let mut stand = Stand::open(service, &[drive], 8 * WINDOW, 300 * 4096);
    let own = |guest: usize| guest * WINDOW..(guest + 1) * WINDOW;
    let nothing = 0..0;
    for guest in 0..8 {
        for ah in [0x42, 0x43, 0x02, 0x03] {
            // blocks 32 to 71 of the drive, to or from the second page of the window; by sector that is 0/0/33 and on
            stand.packet(guest, 0, 40, (0, 0x1000), 32);
            let given = if ah < 0x40 { Registers { bx: 0x1000, ..by_sector(ah, 40, 0, 0, 33) } } else { by_packet(ah, 0) };
            for withdrawn in [false, true] {
                stand.arena.keep_only(Some(own(guest)));
                stand.store.keep_only(Some(nothing.clone()));
                assert_eq!(stand.post(guest as u64, given).0, NOTHING_YET);
                for (from, blocks) in [(48, 16), (64, 16), (80, 8)] {
                    stand.store.keep_only(Some(512 * from..512 * (from + blocks)));
                    assert_eq!(stand.turn(), (DONE, guest as u64, blocks as u64));
                    if withdrawn {
                        stand.store.keep_only(Some(nothing.clone()));
                        assert_eq!(stand.withdraw(guest as u64).0, DONE);
                        break;
                    }
                }
                stand.arena.keep_only(Some(nothing.clone()));
                stand.store.keep_only(Some(nothing.clone()));
                assert_eq!(stand.turn().0, NOTHING_YET, "idle");
                assert_eq!(stand.collect(guest as u64).0, if withdrawn { 22 } else { DONE });
                assert!(stand.accepted());
                stand.arena.keep_only(None);
                stand.store.keep_only(None);
                stand.packet(guest, 0, 40, (0, 0x1000), 32);
            }
        }
        stand.arena.keep_only(Some(own(guest)));
        stand.store.keep_only(Some(nothing.clone()));
        for ah in [0x08, 0x41, 0x44, 0x47, 0x48, 0x15] {
            assert_eq!(stand.post(guest as u64, by_packet(ah, 0)).0, DONE);
        }
        assert_eq!(stand.place(guest as u64, WINDOW as u64 - 16), DONE);
        stand.arena.keep_only(Some(nothing.clone()));
        assert_eq!((stand.place(guest as u64, WINDOW as u64), stand.place(8, 0)), (26, 20));
        stand.arena.keep_only(None);
        stand.store.keep_only(None);
    }
}

/// Every known function with every AL and DL, and every unknown one: what is answered at once leaves the block as it was.
fn g3_answered_at_once_leaves_the_desk(service: &dyn Service) {
    // rule: post_of exports::edd_post
    let mut stand = Stand::paper(service, 1024);
    stand.packet(4, 0x100, 0, (0, 0), 0);
    let desk = stand.desk.bytes().to_vec();
    for ah in 0..=255 {
        for al in [0, 1, 2, 127, 255] {
            for dl in [0x80, 0x81] {
                let (answer, _) = stand.post(4, Registers { ds: 0x10, si: 0, ..registers(ah, al, dl) });
                assert_eq!(answer, DONE, "{ah:02x} {al:02x} {dl:02x}");
                assert!(stand.desk.bytes() == &desk[..]);
            }
        }
    }
}

// ---- h: parameter tables (change request 2026-01)

/// Three drives, of which the first and the third have records of kind 4; and the two tables that they come to.
fn gapped() -> [Drive; 3] {
    [with_parameters(small_drive(0, 4), 0x10), small_drive(4, 4), with_parameters(small_drive(8, 4), 0x50)]
}
const GAPPED: [[u8; 16]; 2] = [
    [0x10, 0x11, 0x12, 0x13, 0xB4, 0x15, 0x16, 0x17, 0x18, 0x19, 0x1A, 0x1B, 0x1C, 0x1D, 0x11, 0x14],
    [0x50, 0x51, 0x52, 0x53, 0xF4, 0x55, 0x56, 0x57, 0x58, 0x59, 0x5A, 0x5B, 0x5C, 0x5D, 0x11, 0x94],
];
const NO_POINTER: [u8; 4] = [0xFF; 4];

fn three_drives(service: &dyn Service, window: usize) -> Stand<'_> {
    Stand::open(service, &gapped(), 8 * window, 12 * 512)
}

fn small_record(number: u64) -> Vec<u8> {
    small_drive(number, 1).record()
}

fn parameters_record(number: u16) -> Vec<u8> {
    drives::parameters_record(number, counting(number as u8))
}

// rule: parameters_refusal not_last
fn h1_not_the_last_drive(service: &dyn Service) {
    let (d, p) = (small_record, parameters_record);
    let cases: [(&str, Vec<Vec<u8>>, (u32, u64)); 13] = [
        ("no drive read", vec![p(0)], (9, 0)),
        ("its own", vec![d(0), p(0)], (0, UNWRITTEN)),
        ("a later drive", vec![d(0), p(1)], (9, 68)),
        ("a later drive that follows", vec![d(0), p(1), d(1)], (9, 68)),
        ("an earlier drive", vec![d(0), d(1), p(0)], (9, 136)),
        ("an earlier drive that has one", vec![d(0), p(0), d(1), p(0)], (9, 156)),
        ("a repeat", vec![d(0), p(0), p(0)], (9, 88)),
        ("a repeat of the second", vec![d(0), p(0), d(1), p(1), p(1)], (9, 176)),
        ("two drives", vec![d(0), p(0), d(1), p(1)], (0, UNWRITTEN)),
        ("the second alone", vec![d(0), d(1), p(1)], (0, UNWRITTEN)),
        ("counted from 80h", vec![d(0), p(0x80)], (9, 68)),
        ("the high byte", vec![d(0), p(0x100)], (9, 68)),
        ("2^16 - 1", vec![d(0), p(0xFFFF)], (9, 68)),
    ];
    for (what, records, expected) in cases {
        let table = [records.concat(), drives::END.to_vec()].concat();
        assert_eq!(opened(service, &table, 9), expected, "{what}");
    }
    let eight: Vec<u8> = (0..8).flat_map(|i| [d(i), p(i as u16)].concat()).collect();
    let with = |more: &[Vec<u8>]| [&eight[..], &more.concat(), &drives::END].concat();
    assert_eq!(opened(service, &with(&[]), 9), (0, UNWRITTEN), "eight drives with parameters");
    assert_eq!(with(&[]).len(), PARAMETERS_TABLE);
    assert_eq!(opened(service, &with(&[p(7)]), 9), (9, 704), "a repeat after eight");
    assert_eq!(opened(service, &with(&[p(8)]), 9), (9, 704), "the ninth drive's");
    assert_eq!(opened(service, &with(&[d(8), p(8)]), 9), (4, 704), "a ninth drive comes first");
}

// rule: header_of length_ok is_kind
fn h1_checks_before_9(service: &dyn Service) {
    let (drive, bad) = (small_record(0), parameters_record(5));
    let at_68 = |record: &[u8]| opened(service, &[&drive[..], record].concat(), 9);
    assert_eq!(opened(service, &bad[..19], 9), (1, 0), "cut off, and no drive read");
    assert_eq!((at_68(&bad[..19]), at_68(&bad[..4]), at_68(&bad[..3])), ((1, 68), (1, 68), (1, 68)), "cut off");
    assert_eq!(at_68(&bad), (9, 68), "nothing behind it");
    for length in [0, 4, 6, 19, 21, 68, 0x1400, 0x114] {
        let mut record = bad.clone();
        record[..2].copy_from_slice(&u16::to_le_bytes(length));
        assert_eq!(at_68(&record), (2, 68), "length {length}");
        assert_eq!(at_68(&record[..4]), (2, 68), "length {length}, cut off");
    }
    for kind in [5, 6, 0x103, 0x104, 0x202, 0x300, 0x400] {
        let mut record = bad.clone();
        record[2..4].copy_from_slice(&u16::to_le_bytes(kind));
        assert_eq!(at_68(&record), (3, 68), "kind {kind}");
    }
    for kind in 0..=2 {
        assert_eq!(at_68(&[20, 0, kind, 0]), (2, 68), "the length of another kind");
    }
    // before the fields of the drive behind it and the bytes after the end; a record that is good leaves those tests
    let faulty = Drive { sectors: 0, ..small_drive(1, 1) }.record();
    assert_eq!(at_68(&[&bad[..], &faulty].concat()), (9, 68));
    assert_eq!(at_68(&[&bad[..], &[4, 0, 0, 0, 0]].concat()), (9, 68));
    let good = parameters_record(0);
    assert_eq!(at_68(&[&good[..], &faulty].concat()), (5, 88));
    assert_eq!(at_68(&[&good[..], &[4, 0, 0, 0, 0]].concat()), (8, 92));
    assert_eq!(at_68(&good), (1, 88), "no end record");
}

// rule: open_call exports::edd_open
fn h1_refused_changes_nothing(service: &dyn Service) {
    let mut stand = three_drives(service, 1024);
    stand.place_done(2, 0x40, &GAPPED);
    let before = stand.all();
    let table = [small_record(0), parameters_record(1), drives::END.to_vec()].concat();
    assert_eq!(stand.open_again(&table, 8 * 1024, 12 * 512), (9, 68));
    assert!(stand.all() == before, "something changed");
    assert_eq!(stand.shown(2, 0x82), ([0, 0, 5, 0], 5), "the desk goes on");
}

// rule: slot_records table_of write_out with_parameters
fn h2_written_back_raw(service: &dyn Service) {
    for first in [0x00, 0x20, 0x7C, 0x80, 0xA0, 0xF0] {
        let list: Vec<Drive> = (0..8).map(|i| with_parameters(small_drive(i, 1), first + i as u8)).collect();
        let table = drives::table(&list);
        let mut stand = Stand::open(service, &list, 8 * 1024, 8 * 512);
        let raw = table.chunks(88).take(8).flat_map(|records| records[74..].to_vec()).collect::<Vec<u8>>();
        assert!(stand.desk.bytes()[PARAMETERS..PARAMETERS + 112] == raw[..], "as the records have them");
        for placed in [false, true] {
            let mut out = [0x3C; PARAMETERS_TABLE + 3];
            assert_eq!(stand.write(&mut out), (DONE, PARAMETERS_TABLE as u64));
            assert!(out[..PARAMETERS_TABLE] == table[..] && out[PARAMETERS_TABLE..] == [0x3C; 3], "placed: {placed}");
            assert_eq!(stand.write(&mut [0; PARAMETERS_TABLE - 1]), (19, UNWRITTEN));
            assert_eq!(stand.place(5, 0x100), DONE);
        }
    }
    // a table with gaps, into a buffer just long enough
    let (stand, table) = (three_drives(service, 1024), drives::table(&gapped()));
    let mut out = [0; 3 * 68 + 2 * 20 + 4];
    assert_eq!(stand.write(&mut out), (DONE, out.len() as u64));
    assert!(out[..] == table[..]);
    assert_eq!(stand.write(&mut out[1..]), (19, UNWRITTEN));
}

// rule: place_of house_tests exports::edd_place
fn h3_order_of_house_numbers(service: &dyn Service) {
    let mut stand = three_drives(service, 1024);
    assert_eq!(stand.post_packet(3, 0x42, 1, 0).0, NOTHING_YET);
    let (arena, store) = (stand.arena.bytes().to_vec(), stand.store.bytes().to_vec());
    for (arena, store) in [(&arena[1..], &store[..]), (&arena[..], &store[1..]), (&arena[..0], &store[..0])] {
        stand.arena = Lent::holding(arena, Place::END);
        stand.store = Lent::holding(store, Place::END);
        stand.set_word(POINTER, 8);
        stand.place_refused(25, 9, 1);
        stand.set_word(POINTER, 0);
        for (guest, address) in [(9, 1), (3, 1), (3, 0), (2, 1), (2, 0)] {
            stand.place_refused(24, guest, address);
        }
    }
    stand.arena = Lent::holding(&arena, Place::END);
    stand.store = Lent::holding(&store, Place::END);
    for guest in [8, 9, 256, 1 << 32, u64::MAX] {
        stand.place_refused(20, guest, 1);
        stand.place_refused(20, guest, 0);
    }
    for address in [1, 0, 1024, u64::MAX] {
        stand.place_refused(21, 3, address);
    }
    stand.place_refused(26, 2, 1);
    stand.place_done(2, 0, &GAPPED);
}

// rule: place_stage place_of
fn h4_waiting_and_finished_rows(service: &dyn Service) {
    let mut stand = Stand::open(service, &[with_parameters(small_drive(0, 40), 0x10)], 8 * 12_000, 40 * 512);
    for given in [by_sector(0x02, 20, 0, 0, 1), by_sector(0x03, 20, 0, 0, 1), by_packet(0x42, 0), by_packet(0x43, 0)] {
        stand.packet(3, 0, 20, (0, 0x200), 0);
        assert_eq!(stand.post(3, given).0, NOTHING_YET);
        stand.place_refused(21, 3, 0x2E00);
        stand.place_done(4, 0, &GAPPED[..1]);
        assert_eq!(stand.turn(), (DONE, 3, 16));
        stand.place_refused(21, 3, 16);
        assert_eq!(stand.turn(), (DONE, 3, 4));
        // finished: placed, and the row is as it was
        stand.place_done(3, 11_968, &GAPPED[..1]);
        assert_eq!(stand.collect(3), (DONE, succeeded(given)));
        stand.place_done(3, 11_984, &GAPPED[..1]);
    }
    stand.packet(3, 0, 20, (0, 0x200), 0);
    assert_eq!(stand.post(3, by_packet(0x42, 0)).0, NOTHING_YET);
    stand.place_refused(21, 3, 0);
    assert_eq!(stand.withdraw(3).0, DONE);
    stand.place_done(3, 0, &GAPPED[..1]);
}

// rule: place_ok bad_place
fn h5_bad_places(service: &dyn Service) {
    // two tables in windows of that many bytes: the last good address, if there is one
    for (window, last) in [(0, None), (31, None), (32, Some(0)), (47, Some(0)), (48, Some(16)), (1023, Some(976)), (1024, Some(992))] {
        let mut stand = three_drives(service, window);
        if let Some(last) = last {
            for address in [0, 16, last / 2 & !15, last].into_iter().filter(|address| *address <= last) {
                stand.place_done(1, address, &GAPPED);
            }
        }
        let next = last.map_or(0, |last| last as u64 + 16);
        let past = [next, next + 16, next + 1024, 1 << 32, 1 << 63];
        let wrapping = [u64::MAX - 15, u64::MAX - 31, 0u64.wrapping_sub(32), u64::MAX];
        for address in past.into_iter().chain(wrapping).chain(1..16).chain(17..32) {
            stand.place_refused(26, 1, address);
        }
    }
    // a byte less, and the same address is too far
    three_drives(service, 1008).place_done(7, 976, &GAPPED);
    three_drives(service, 1007).place_refused(26, 7, 976);
}

// rule: place_ok place_tables
fn h6_no_tables(service: &dyn Service) {
    for drives in [&[][..], &[small_drive(0, 4)]] {
        for (window, last) in [(0, 0), (1015, 1008), (1024, 1024)] {
            let mut stand = Stand::open(service, drives, 8 * window, 4 * 512);
            for address in [0, 16, last].into_iter().filter(|address| *address <= last) {
                stand.place_done(6, address, &[]);
                assert!(stand.accepted());
            }
            for address in [last as u64 + 16, 1, 8, 1 << 63, u64::MAX - 15] {
                stand.place_refused(26, 6, address);
            }
        }
    }
    // what has no segment is not tested for one
    let mut stand = Stand::vast(service, &[small_drive(0, 4)], 8 * 0x20_0000, 4 * 512);
    assert_eq!((stand.place(0, 0x10_0000), stand.place(0, 0x20_0000), stand.place(0, 0x20_0010)), (DONE, DONE, 26));
    assert!(stand.accepted());
    assert_eq!(stand.shown(0, 0x80), (NO_POINTER, 1), "placed, but the drive has no record");
}

// rule: place_ok segments pointer_of
fn h7_segments(service: &dyn Service) {
    const WINDOW: usize = 0x11_0010;
    let one = [with_parameters(small_drive(0, 4), 0x10)];
    let mut stand = Stand::vast(service, &one, 8 * WINDOW, 12 * 512);
    assert_eq!(stand.place(7, 0xF_FFF0), DONE);
    assert!(stand.window(7)[0xF_FFF0..0x10_0000] == GAPPED[0]);
    assert_eq!(stand.shown(7, 0x80), ([0, 0, 0xFF, 0xFF], 5), "FFFF:0000 is a pointer");
    for address in [0x10_0000, 0x10_0010, 0x11_0000, 0xF_FFF1] {
        assert_eq!(stand.place(7, address), 26, "{address:x} lies inside the window");
    }
    assert_eq!(stand.shown(7, 0x80), ([0, 0, 0xFF, 0xFF], 5), "refused: the placement stays");
    // the last of two decides
    let mut stand = Stand::vast(service, &gapped(), 8 * WINDOW, 12 * 512);
    assert_eq!((stand.place(7, 0xF_FFF0), stand.place(7, 0xF_FFE0)), (26, DONE));
    assert!(stand.window(7)[0xF_FFE0..0x10_0000] == GAPPED.concat());
    assert_eq!((stand.shown(7, 0x80).0, stand.shown(7, 0x82).0), ([0, 0, 0xFE, 0xFF], [0, 0, 0xFF, 0xFF]));
    assert!(stand.accepted());
    // and so in the block
    stand.refused_with("a segment of 10000h", ADDRESSES + 7, 0xF_FFF0);
    stand.refused_with("a segment of 10000h", ADDRESSES + 7, 0x10_0000);
}

// rule: tables_of tables_in place_tables
fn h8_what_is_placed(service: &dyn Service) {
    let mut stand = three_drives(service, 1024);
    for guest in 0..8 {
        stand.place_done(guest, 16 * guest, &GAPPED);
    }
    stand.place_done(7, 992, &GAPPED);
    stand.place_done(0, 16, &GAPPED);
    let last = [small_drive(0, 1), small_drive(1, 1), with_parameters(small_drive(2, 1), 0x50)];
    let mut stand = Stand::open(service, &last, 8 * 1024 + 7, 3 * 512);
    stand.place_done(7, 1008, &GAPPED[1..]);
    assert_eq!(stand.shown(7, 0x82).0, [0, 0, 63, 0], "drives without a record take no room");
}

// rule: drive_flags checksum parameter_table TableBytes
fn h8_flags_and_sum(service: &dyn Service) {
    let mut chance = Chance::new(8);
    for flags in 0..=255 {
        let mut bytes: [u8; 14] = chance.bytes(14).try_into().unwrap();
        bytes[4] = flags;
        let drive = Drive { parameters: Some(bytes), ..small_drive(0, 1) };
        let mut stand = Stand::open(service, &[drive], 8 * 64, 512);
        assert_eq!(stand.place(3, 32), DONE);
        let table = stand.window(3)[32..48].to_vec();
        assert_eq!(table[4], flags | 0xA0, "bits 7 and 5 are set, the others as given");
        assert!(table[..4] == bytes[..4] && table[5..14] == bytes[5..], "as given");
        assert_eq!((table[14], table.iter().fold(0u8, |sum, byte| sum.wrapping_add(*byte))), (0x11, 0));
    }
}

// rule: pointer_of shown_in table_address result_out
fn h9_pointer_of_48h(service: &dyn Service) {
    let mut stand = three_drives(service, 1024);
    // before and after: the same result but for bytes 26 to 29, of every size
    let sizes = [26, 29, 30, 65, 66, 1000];
    let asked = || (0x80..0x83).flat_map(move |dl| sizes.map(|size| (dl, size)));
    let before: Vec<_> = asked().map(|(dl, size)| stand.result(2, dl, size).0).collect();
    stand.place_done(2, 0x40, &GAPPED);
    for (before, (dl, size)) in before.into_iter().zip(asked()) {
        let mut expected = before.clone();
        if size >= 30 {
            assert_eq!(before[26..30], NO_POINTER, "{dl:02x}: not placed");
            expected[26..30].copy_from_slice(&[[0, 0, 4, 0], NO_POINTER, [0, 0, 5, 0]][usize::from(dl - 0x80)]);
        }
        stand.window(2)[0x21A..0x21E].fill(0x77);
        let (got, after_26) = stand.result(2, dl, size);
        assert_eq!(got, expected, "{dl:02x}, size {size}");
        assert!(size >= 30 || after_26 == [0x77; 4], "26 bytes have no pointer");
    }
    for guest in [0, 1, 3, 7] {
        assert_eq!(stand.result(guest, 0x80, 66).1, NO_POINTER, "guest {guest} has no placement");
    }
    // address 0 is a place, and each guest has its own
    stand.place_done(3, 0, &GAPPED);
    assert_eq!((stand.shown(3, 0x80).0, stand.shown(3, 0x82).0), ([0; 4], [0, 0, 1, 0]));
    assert_eq!((stand.shown(2, 0x80).0, stand.shown(2, 0x82).0), ([0, 0, 4, 0], [0, 0, 5, 0]));
    // the result may lie over the tables: the pointer is the desk's
    stand.place_done(2, 0x200, &GAPPED);
    assert_eq!((stand.shown(2, 0x80).0, stand.shown(2, 0x82).0), ([0, 0, 0x20, 0], [0, 0, 0x21, 0]));
    // an address of more than a byte of segment
    let mut stand = three_drives(service, 70_000);
    stand.place_done(5, 0x1_0FF0, &GAPPED);
    assert_eq!((stand.shown(5, 0x80).0, stand.shown(5, 0x82).0), ([0, 0, 0xFF, 0x10], [0, 0, 0x00, 0x11]));
}

// rule: extensions extensions_given
fn h10_check_extensions(service: &dyn Service) {
    let mut stand = three_drives(service, 1024);
    let all = |stand: &mut Stand, guest: usize| [0x80, 0x81, 0x82].map(|dl| stand.shown(guest, dl).1);
    assert_eq!(all(&mut stand, 4), [1, 1, 1], "not placed");
    stand.place_done(4, 16, &GAPPED);
    assert_eq!(all(&mut stand, 4), [5, 1, 5]);
    assert_eq!((all(&mut stand, 3), all(&mut stand, 5)), ([1, 1, 1], [1, 1, 1]), "other guests");
    for bad in [Registers { bx: 0xAA55, ..registers(0x41, 1, 0x80) }, Registers { bx: 0x55AA, ..registers(0x41, 1, 0x83) }] {
        assert_eq!(stand.post(4, bad), (DONE, refused(bad, 0x01)), "CX stays");
    }
}

// rule: with_placement place_tables
fn h11_placed_anew(service: &dyn Service) {
    let mut stand = three_drives(service, 1024);
    stand.place_done(2, 0x40, &GAPPED);
    for (number, address) in [(26, 0x41), (26, 1008), (26, u64::MAX - 15)] {
        stand.place_refused(number, 2, address);
    }
    assert_eq!((stand.shown(2, 0x80), stand.shown(2, 0x81), stand.shown(2, 0x82)), (([0, 0, 4, 0], 5), (NO_POINTER, 1), ([0, 0, 5, 0], 5)));
    // the guest writes over its tables: the pointer stays, and the library does not look
    stand.window(2)[0x40..0x60].fill(0);
    assert_eq!(stand.shown(2, 0x82), ([0, 0, 5, 0], 5));
    // anew, over a part of the old ones and then elsewhere: old bytes stay
    stand.place_done(2, 0x50, &GAPPED);
    assert_eq!((stand.shown(2, 0x80).0, stand.shown(2, 0x82).0), ([0, 0, 5, 0], [0, 0, 6, 0]));
    stand.place_done(2, 0, &GAPPED);
    assert!(stand.window(2)[0x50..0x70] == GAPPED.concat());
    assert_eq!((stand.shown(2, 0x80).0, stand.shown(2, 0x82).0), ([0; 4], [0, 0, 1, 0]));
    // posts, turns, collects and withdrawals keep it
    assert_eq!(stand.post(2, by_sector(0x02, 1, 0, 0, 1)).0, NOTHING_YET);
    assert_eq!((stand.turn().1, stand.collect(2).0), (2, DONE));
    assert_eq!(stand.post(2, by_sector(0x02, 1, 0, 0, 1)).0, NOTHING_YET);
    assert_eq!(stand.withdraw(2).0, DONE);
    assert_eq!((stand.word(PLACED + 2), stand.word(ADDRESSES + 2), stand.shown(2, 0x82).0), (1, 0, [0, 0, 1, 0]));
}

// rule: Calls.opened open_of
fn h12_opening_clears(service: &dyn Service) {
    let mut stand = three_drives(service, 1024);
    let fresh = stand.desk.bytes().to_vec();
    for guest in 0..8 {
        stand.place_done(guest, 0x40, &GAPPED);
    }
    let placed = stand.all();
    assert_eq!(stand.open_again(&[], 8 * 1024, 12 * 512), (1, 0));
    assert_eq!((stand.shown(5, 0x80), stand.desk.bytes() == &placed.0[..]), (([0, 0, 4, 0], 5), true), "a refused one does not");
    assert_eq!(stand.open_again(&drives::table(&gapped()), 8 * 1024, 12 * 512), (DONE, UNWRITTEN));
    assert!(stand.desk.bytes() == &fresh[..], "no mark, no address");
    for guest in 0..8 {
        assert_eq!((stand.shown(guest, 0x80), stand.shown(guest, 0x82)), ((NO_POINTER, 1), (NO_POINTER, 1)));
        assert!(stand.window(guest)[0x40..0x60] == GAPPED.concat(), "the bytes stay");
    }
}

// rule: placement_ok placements_ok is_image Acceptable.accept
fn h13_placements_in_the_block(service: &dyn Service) {
    let mut stand = three_drives(service, 1024);
    stand.place_done(2, 0x40, &GAPPED);
    stand.place_done(5, 0, &GAPPED);
    for guest in 0..8 {
        for mark in [2, 3, 256, 257, 1 << 32, (1 << 32) + 1, 1 << 63, u64::MAX] {
            stand.refused_with("mark of placement", PLACED + guest, mark);
        }
    }
    stand.refused_with("an address that is not marked", PLACED + 2, 0);
    stand.accepted_with("address 0 that is not marked", PLACED + 5, 0);
    stand.accepted_with("address 0 that is marked", PLACED + 1, 1);
    for address in [1, 16, 32, 1 << 63, u64::MAX] {
        stand.refused_with("an address without a mark", ADDRESSES + 1, address);
    }
    for address in [0, 16, 976, 992] {
        stand.accepted_with("another good place", ADDRESSES + 2, address);
    }
    for address in [1, 8, 0x41, 0x4F, 991, 993, 1000, 1008, 1024, 1 << 32, 1 << 63, u64::MAX - 31, u64::MAX - 15, u64::MAX] {
        stand.refused_with("a bad place", ADDRESSES + 2, address);
    }
    // by the block's own M
    stand.refused_with("a shorter arena", ARENA_LENGTH, 8 * 0x60 - 1);
    stand.accepted_with("an arena just long enough", ARENA_LENGTH, 8 * 0x60);
    // with no table the address alone counts
    let mut stand = Stand::open(service, &[small_drive(0, 4)], 8 * 1024, 4 * 512);
    stand.place_done(2, 1024, &[]);
    stand.accepted_with("0", ADDRESSES + 2, 0);
    for address in [1040, 1, 1023, u64::MAX - 15] {
        stand.refused_with("a bad place for none", ADDRESSES + 2, address);
    }
    stand.set_word(ARENA_LENGTH, u64::MAX);
    stand.accepted_with("beyond every segment", ADDRESSES + 2, u64::MAX / 8 & !15);
    stand.refused_with("beyond the window", ADDRESSES + 2, (u64::MAX / 8 & !15) + 16);
}

// rule: attached_at is_sound is_image
fn h14_parameters_in_the_block(service: &dyn Service) {
    let mut stand = three_drives(service, 1024);
    for slot in 0..8 {
        for mark in [2, 256, 257, 1 << 32, 1 << 63, u64::MAX] {
            stand.refused_with("mark of parameters", PRESENT + slot, mark);
        }
    }
    for slot in 3..8 {
        stand.refused_with("parameters past the drives", PRESENT + slot, 1);
    }
    stand.refused_with("bytes that are not marked", PRESENT, 0);
    stand.accepted_with("a record of zeros", PRESENT + 1, 1);
    for at in 0..112 {
        // the second drive and the slots past the drives have none
        let old = stand.desk.bytes()[PARAMETERS + at];
        for byte in [1, 0x80, 0xFF] {
            stand.desk.bytes_mut()[PARAMETERS + at] = byte;
            if matches!(at / 14, 0 | 2) {
                assert!(stand.accepted(), "any byte of a record: {at}");
            } else {
                stand.refused_everywhere("a byte without a record");
            }
        }
        stand.desk.bytes_mut()[PARAMETERS + at] = old;
    }
    // a record more, and the tables of a guest that were the last to fit do not fit any more
    stand.place_done(6, 992, &GAPPED);
    stand.refused_with("no room for a third", PRESENT + 1, 1);
    stand.place_done(6, 976, &GAPPED);
    stand.accepted_with("room for a third", PRESENT + 1, 1);
    // a record less
    stand.desk.bytes_mut()[PARAMETERS..PARAMETERS + 14].fill(0);
    stand.accepted_with("one table", PRESENT, 0);
    stand.set_word(PRESENT, 0);
    assert_eq!((stand.shown(6, 0x80).0, stand.shown(6, 0x82).0), (NO_POINTER, [0, 0, 61, 0]), "by the records that there are");
}

// ---- 2026-02: flags that mean nothing on a fixed disk

/// Drives that differ in their information flags alone, and in where they lie.
fn flagged(words: impl Iterator<Item = u16>) -> Vec<Drive> {
    words.enumerate().map(|(i, flags)| Drive { flags, ..small_drive(i as u64, 1) }).collect()
}

// rule: flags_shown FlagBits
fn h15_flags_of_48h(service: &dyn Service) {
    let mut stand = Stand::open(service, &flagged([0x7A, 0x7E, 0x78, 0x70, 0x74, 0x2B, 0x5C, 0x13].into_iter()), 8 * 1024, 8 * 512);
    for (dl, shown) in (0x80..).zip([0x0A, 0x7E, 0x08, 0x00, 0x74, 0x0B, 0x5C, 0x03]) {
        assert_eq!(stand.result(1, dl, 66).0[2..4], [shown, 0], "{dl:02x}");
    }
    // every word that a table may hold, bit by bit, in every size; no other byte goes by the flags
    for some in 0..16 {
        let mut stand = Stand::open(service, &flagged(8 * some..8 * some + 8), 8 * 1024, 8 * 512);
        for (dl, flags) in (0x80..).zip(8 * some..8 * some + 8) {
            for size in [26, 29, 30, 65, 66, 73, 74, 1000] {
                let others = stand.result(6, 0x80, size).0[4..].to_vec();
                let result = stand.result(6, dl, size).0;
                for bit in 0..16 {
                    let (given, removable) = (flags >> bit & 1 == 1, flags >> 2 & 1 == 1);
                    let shown = u16::from_le_bytes([result[2], result[3]]) >> bit & 1 == 1;
                    assert_eq!(shown, given && (removable || !(4..=6).contains(&bit)), "flags {flags:02x}, bit {bit}, size {size}");
                }
                assert!(result[4..] == others, "flags {flags:02x}, size {size}: the checksum too");
            }
        }
    }
}

// rule: record_of table_of drive_words
fn h16_flags_are_kept(service: &dyn Service) {
    for some in 0..16 {
        let list = flagged(8 * some..8 * some + 8);
        let mut stand = Stand::open(service, &list, 8 * 1024, 8 * 512);
        let table = drives::table(&list);
        for _ in 0..2 {
            for (slot, drive) in list.iter().enumerate() {
                assert_eq!(stand.word(drive_word(slot, 5)), u64::from(drive.flags), "the block keeps what was written");
            }
            let mut out = vec![0; table.len()];
            assert_eq!(stand.write(&mut out), (DONE, table.len() as u64));
            assert!(out == table, "written back as it was");
            (0x80..0x88).for_each(|dl| drop(stand.result(2, dl, 66)));
        }
    }
}

// rule: verify_ok
fn h17_verify_by_the_table(service: &dyn Service) {
    let words = [0x78, 0x70, 0x7C, 0x74, 0x08, 0x7F, 0x77, 0x00];
    let mut stand = Stand::open(service, &flagged(words.into_iter()), 8 * 1024, 8 * 512);
    for (dl, flags) in (0x80..).zip(words) {
        stand.packet(4, 0, 1, (0, 0x200), 0);
        let given = Registers { ds: 0, si: 0, ..registers(0x43, 2, dl) };
        let got = stand.post(4, given);
        if flags & 8 != 0 {
            assert_eq!(got, (NOTHING_YET, given), "flags {flags:02x}");
            stand.withdraw(4);
        } else {
            assert_eq!(got, (DONE, refused(given, 0x01)), "flags {flags:02x}");
        }
    }
}

// ---- h: a table that arrives in fragments (change request 2026-03)

/// A reader, in a block of its own.
struct Arrival<'a> {
    service: &'a dyn Service,
    block: Lent,
}

/// Nothing is settled, and no place was written.
const MORE: (u32, u64) = (NOTHING_YET, UNWRITTEN);
/// Accepted, and no place was written.
const ACCEPTED: (u32, u64) = (DONE, UNWRITTEN);

impl<'a> Arrival<'a> {
    /// Opened over bytes that differ from place to place.
    fn open(service: &'a dyn Service, store_blocks: u64) -> Arrival<'a> {
        let mut arrival = Arrival { service, block: Lent::holding(&Chance::new(9).bytes(READER_SIZE), Place::END) };
        assert_eq!(arrival.open_again(512 * store_blocks), DONE, "opening");
        arrival
    }

    /// At a block of any bytes.
    fn at(service: &'a dyn Service, block: &[u8]) -> Arrival<'a> {
        Arrival { service, block: Lent::holding(block, Place::END) }
    }

    fn open_again(&mut self, store_length: u64) -> u32 {
        let answer = self.service.reader_open(self.block.bytes_mut(), store_length);
        assert!(self.block.margin_intact(), "the library wrote beside the reader");
        answer
    }

    fn feed(&mut self, bytes: &[u8]) -> (u32, u64) {
        let fragment = Lent::holding(bytes, Place::END);
        fragment.set_read_only(true);
        let mut place = UNWRITTEN;
        let answer = self.service.reader_feed(self.block.bytes_mut(), fragment.bytes(), &mut place);
        assert!(self.block.margin_intact(), "the library wrote beside the reader");
        (answer, place)
    }

    fn end(&mut self) -> (u32, u64) {
        let mut place = UNWRITTEN;
        let answer = self.service.reader_end(self.block.bytes_mut(), &mut place);
        assert!(self.block.margin_intact(), "the library wrote beside the reader");
        (answer, place)
    }

    fn write(&self, out: &mut [u8]) -> (u32, u64) {
        let mut written = UNWRITTEN;
        self.block.set_read_only(true);
        let answer = self.service.reader_write(self.block.bytes(), out, &mut written);
        self.block.set_read_only(false);
        (answer, written)
    }

    /// The end is told, and the table written out is that one.
    fn ends_with(&mut self, table: &[u8]) {
        assert_eq!(self.end(), ACCEPTED, "the end of {} bytes", table.len());
        let mut out = vec![0x3C; LONGEST_TABLE];
        assert_eq!(self.write(&mut out), (DONE, table.len() as u64));
        assert!(out[..table.len()] == *table, "the bytes that were fed");
        assert!(out[table.len()..].iter().all(|byte| *byte == 0x3C), "bytes past the table stay");
    }

    /// No byte of the block changes by what is done.
    fn unchanged(&mut self, what: &str, mut done: impl FnMut(&mut Self)) {
        let before = self.block.bytes().to_vec();
        done(self);
        assert!(self.block.bytes() == before, "{what}: the reader changed");
    }

    /// Refused by every call but an opening, and nothing is written.
    fn refused_everywhere(&mut self, what: &str) {
        self.unchanged(what, |reader| {
            let mut out = [0x3C; LONGEST_TABLE];
            assert_eq!(reader.write(&mut out), (25, UNWRITTEN), "{what}: write");
            assert!(out == [0x3C; LONGEST_TABLE], "{what}: the buffer was written");
            assert_eq!(reader.feed(&[0x44]), (25, UNWRITTEN), "{what}: feed");
            assert_eq!(reader.feed(&[]), (25, UNWRITTEN), "{what}: feed of nothing");
            assert_eq!(reader.end(), (25, UNWRITTEN), "{what}: end");
        });
    }
}

/// Document 01's 72 bytes.
fn paper_table() -> Vec<u8> {
    drives::table(&[paper_drive()])
}

/// Eight drives with parameters, 708 bytes, for a store of eight blocks.
fn parameters_table() -> Vec<u8> {
    drives::table(&(0..8).map(|i| with_parameters(small_drive(i, 1), i as u8)).collect::<Vec<_>>())
}

/// The block of a reader, laid out by hand: the records are those of the drives so far.
fn reader_block(course: u64, number: u64, store_blocks: u64, held: &[u8], records: &[u8]) -> Vec<u8> {
    let mut block = vec![0; READER_SIZE];
    let words = [course, number, store_blocks, held.len() as u64, records.len() as u64 + 4];
    for (i, word) in words.iter().enumerate() {
        block[8 * i..8 * i + 8].copy_from_slice(&word.to_le_bytes());
    }
    block[40..40 + held.len()].copy_from_slice(held);
    block[READER_TABLE..READER_TABLE + records.len()].copy_from_slice(records);
    block[READER_TABLE + records.len()] = 4;
    block
}

// rule: Arrives feed_all feeds joined exports::edd_reader_feed
fn h18_cut_in_two(service: &dyn Service) {
    let table = paper_table();
    assert_eq!(opened(service, &table, 2048), ACCEPTED);
    for cut in 0..=table.len() {
        let mut reader = Arrival::open(service, 2048);
        assert_eq!(reader.feed(&table[..cut]), MORE, "the first {cut} bytes");
        assert_eq!(reader.feed(&table[cut..]), MORE, "the others after {cut}");
        reader.ends_with(&table);
    }
    // in three, so that a piece lies inside a record
    for from in [1, 4, 20, 67] {
        for to in from..=table.len() {
            let mut reader = Arrival::open(service, 2048);
            for piece in [&table[..from], &table[from..to], &table[to..]] {
                assert_eq!(reader.feed(piece), MORE, "cut at {from} and {to}");
            }
            reader.ends_with(&table);
        }
    }
}

// rule: feed_byte held_byte after_step by_course
fn h19_byte_by_byte(service: &dyn Service) {
    for (table, store_blocks) in [(paper_table(), 2048), (parameters_table(), 8), (drives::table(&[]), 0), (drives::table(&gapped()), 64)] {
        let mut reader = Arrival::open(service, store_blocks);
        for (i, byte) in table.iter().enumerate() {
            assert_eq!(reader.feed(&[*byte]), MORE, "byte {i} of {}", table.len());
            // a copy of the block is a reader of its own
            if i % 67 == 0 {
                let mut copy = Arrival::at(service, reader.block.bytes());
                assert_eq!(copy.feed(&table[i + 1..]), MORE);
                copy.ends_with(&table);
            }
        }
        reader.ends_with(&table);
    }
}

/// A table that the byte at `settling` refuses: not before it, whatever follows, however it is cut, and as the whole reading has it.
fn settles(service: &dyn Service, what: &str, table: &[u8], store_blocks: u64, settling: usize, refusal: (u32, u64)) {
    assert_eq!(opened(service, &table[..=settling], store_blocks), refusal, "{what}: read as a whole");
    assert_eq!(opened(service, table, store_blocks), refusal, "{what}: read as a whole, with what follows");
    let mut slowly = Arrival::open(service, store_blocks);
    for (i, byte) in table[..settling].iter().enumerate() {
        assert_eq!(slowly.feed(&[*byte]), MORE, "{what}: byte {i}");
    }
    assert_eq!(slowly.feed(&table[settling..=settling]), refusal, "{what}: the byte that settles it");
    let mut at_once = Arrival::open(service, store_blocks);
    assert_eq!(at_once.feed(table), refusal, "{what}: all at once");
    assert!(slowly.block.bytes() == at_once.block.bytes(), "{what}: cut in another way, the block is the same");
    for cut in settling.saturating_sub(70)..=settling {
        let mut reader = Arrival::open(service, store_blocks);
        assert_eq!(reader.feed(&table[..cut]), MORE, "{what}: {cut} bytes");
        let mut ended = Arrival::at(service, reader.block.bytes());
        let whole = opened(service, &table[..cut], store_blocks);
        assert_eq!(ended.end(), whole, "{what}: ended after {cut} bytes");
        assert!(matches!(whole, (1, _) | ACCEPTED), "{what}: ended after {cut} bytes");
        assert_eq!(reader.feed(&table[cut..]), refusal, "{what}: the rest after {cut} bytes");
    }
    assert_eq!(slowly.end(), refusal, "{what}: at the end too");
}

// rule: after_step refused_at reader_feed_call Arrives
fn h20_settling_bytes(service: &dyn Service) {
    let good = [with_parameters(small_drive(0, 4), 1), small_drive(4, 4)];
    let records = |count: usize| drives::table(&good[..count]).strip_suffix(&drives::END).unwrap().to_vec();
    for before in 0..=2 {
        let at = records(before).len();
        let after = |record: &[u8]| [&records(before)[..], record, &drives::END].concat();
        // 3 and 2: with the fourth byte of the record
        for (header, number) in [
            ([0x44, 0, 2, 0], 2),
            ([0x4C, 0, 2, 1], 3),
            ([0x4C, 0, 1, 0], 2),
            ([4, 0, 3, 0], 2),
            ([0x0E, 0, 3, 1], 3),
            ([5, 0, 9, 0], 3),
            ([4, 0, 0, 1], 3),
            ([0x44, 0, 1, 0xFF], 3),
            ([0x43, 0, 1, 0], 2),
            ([0x44, 1, 1, 0], 2),
            ([0x14, 0, 1, 0], 2),
            ([0x44, 0, 4, 0], 2),
            ([0x15, 0, 4, 0], 2),
            ([0, 0, 0, 0], 2),
            ([5, 0, 0, 0], 2),
        ] {
            settles(service, "a header", &after(&[&header[..], &[7; 70]].concat()), 64, at + 3, (number, at as u64));
        }
        // 5, 6 and 7: with the last byte of the drive
        let bad = small_drive(8, 4);
        for (what, drive, number) in [
            ("a field", Drive { protection: 2, ..bad }, 5),
            ("its last but one field", Drive { interface_type: *b"I2O\0\0\0\0\0", ..bad }, 5),
            ("past the store", Drive { first: 61, ..bad }, 6),
            ("overlap", Drive { first: 3, ..bad }, 7),
        ] {
            if number != 7 || before > 0 {
                settles(service, what, &after(&drive.record()), 64, at + 67, (number, at as u64));
            }
        }
        // 9: with the last byte of the record of kind 4; only the second drive may still get one
        for number in [0, 1, 2, 7, 0x100, 0xFFFF].into_iter().filter(|number| (before, *number) != (2, 1)) {
            let record = drives::parameters_record(number, [7; 14]);
            settles(service, "another drive's parameters", &after(&record), 64, at + 19, (9, at as u64));
        }
        // 8: with the first byte behind the end record
        settles(service, "a byte behind the end", &after(&drives::END), 64, at + 4, (8, at as u64 + 4));
        settles(service, "a zero behind the end", &[&records(before)[..], &drives::END, &[0]].concat(), 64, at + 4, (8, at as u64 + 4));
    }
    // 4: with the last byte of a ninth drive, sound or not; 3 and 2 come before it, and so does 9
    let eight = &parameters_table()[..704];
    for ninth in [small_drive(8, 1), Drive { sectors: 0, ..small_drive(0, 1) }] {
        settles(service, "a ninth drive", &[eight, &ninth.record(), &drives::END].concat(), 9, 704 + 67, (4, 704));
    }
    settles(service, "a ninth drive of length 67", &[eight, &[0x43, 0, 1, 0, 9]].concat(), 9, 707, (2, 704));
    settles(service, "kind 5 after eight", &[eight, &[0x44, 0, 5, 0, 9]].concat(), 9, 707, (3, 704));
    settles(service, "parameters repeated", &[eight, &parameters_record(7), &[9]].concat(), 9, 704 + 19, (9, 704));
    settles(service, "a byte behind eight drives with parameters", &[&parameters_table()[..], &[0, 0]].concat(), 9, 708, (8, 708));
}

// rule: end_by end_feed told so_far exports::edd_reader_end
fn h21_missing_only_at_the_end(service: &dyn Service) {
    let table = drives::table(&[with_parameters(small_drive(0, 4), 1), small_drive(4, 4)]);
    for length in 0..table.len() {
        let place = [156, 88, 68, 0].into_iter().find(|place| *place <= length).unwrap() as u64;
        let mut reader = Arrival::open(service, 64);
        assert_eq!(reader.feed(&table[..length]), MORE, "{length} bytes");
        assert_eq!(reader.end(), (1, place), "{length} bytes");
        assert_eq!(opened(service, &table[..length], 64), (1, place), "{length} bytes as a whole");
        // the missing bytes come too late
        reader.unchanged("fed too late", |reader| {
            assert_eq!(reader.feed(&table[length..]), (1, place));
            assert_eq!(reader.end(), (1, place));
        });
    }
    let mut reader = Arrival::open(service, 64);
    assert_eq!(reader.end(), (1, 0), "nothing arrived");
    // a ninth drive that lacks its last byte is missing bytes first
    let nine = [&parameters_table()[..704], &small_drive(8, 1).record()].concat();
    let mut reader = Arrival::open(service, 9);
    assert_eq!(reader.feed(&nine[..771]), MORE);
    assert_eq!(reader.end(), (1, 704));
}

// rule: feed_all reader_feed_call
fn h22_empty_fragments(service: &dyn Service) {
    let table = drives::table(&gapped());
    let mut reader = Arrival::open(service, 64);
    for (i, byte) in table.iter().enumerate() {
        reader.unchanged("nothing was fed", |reader| assert_eq!(reader.feed(&[]), MORE, "before byte {i}"));
        assert_eq!(reader.feed(&[*byte]), MORE);
    }
    reader.unchanged("nothing was fed", |reader| assert_eq!(reader.feed(&[]), MORE, "after the end record"));
    reader.ends_with(&table);
    reader.unchanged("nothing was fed", |reader| assert_eq!(reader.feed(&[]), ACCEPTED));
    let mut refused = Arrival::open(service, 64);
    assert_eq!(refused.feed(&[0x44, 0, 5, 0]), (3, 0));
    refused.unchanged("nothing was fed", |reader| assert_eq!(reader.feed(&[]), (3, 0)));
}

// rule: feed_all after_step Arrives
fn h23_several_records_in_one(service: &dyn Service) {
    let table = parameters_table();
    // the records that a fragment ends, and the rest of them in another
    for length in [69, 88, 89, 156, 176, 200, 352, 703, 704, 705, 707, 708] {
        let mut reader = Arrival::open(service, 8);
        for piece in table.chunks(length) {
            assert_eq!(reader.feed(piece), MORE, "pieces of {length}");
        }
        reader.ends_with(&table);
    }
    // a refusal behind good records, in the same fragment: the drives before it count for its place, not the fragment's start
    for before in [1, 68, 100, 176, 600] {
        let mut reader = Arrival::open(service, 8);
        assert_eq!(reader.feed(&table[..before]), MORE);
        assert_eq!(reader.feed(&[&table[before..704], &[4, 0, 5, 0]].concat()), (3, 704), "after {before} bytes");
    }
    // a long one after the end record, and one that is refused by its first bytes
    let mut reader = Arrival::open(service, 8);
    assert_eq!(reader.feed(&[&table[..], &[0xFF; 100_000]].concat()), (8, 708));
    let mut reader = Arrival::open(service, 8);
    assert_eq!(reader.feed(&[0xFF; 100_000]), (3, 0));
}

// rule: by_course answer_by fed_numbers Stays
fn h24_after_a_refusal(service: &dyn Service) {
    let table = drives::table(&gapped());
    let one = drives::table(&[small_drive(0, 4)]);
    let refusals: [(&[u8], (u32, u64)); 5] = [
        (&[0x43, 0, 1, 0], (2, 0)),
        (&[&one[..68], &[4, 0, 5, 0]].concat(), (3, 68)),
        (&[&one[..68], &one[..68]].concat(), (7, 68)),
        (&[&one[..68], &parameters_record(1)].concat(), (9, 68)),
        (&[&one[..], &[0]].concat(), (8, 72)),
    ];
    for (bytes, refusal) in refusals {
        let mut reader = Arrival::open(service, 64);
        assert_eq!(reader.feed(bytes), refusal);
        reader.unchanged("after a refusal", |reader| {
            for _ in 0..2 {
                assert_eq!(reader.feed(&table), refusal, "a good table");
                assert_eq!(reader.feed(&[0]), refusal);
                assert_eq!(reader.end(), refusal, "the end");
                assert_eq!(reader.write(&mut [0; LONGEST_TABLE]), (refusal.0, UNWRITTEN), "written");
            }
        });
        // opened anew it has forgotten all
        assert_eq!(reader.open_again(64 * 512), DONE);
        assert_eq!(reader.feed(&table), MORE);
        reader.ends_with(&table);
    }
}

// rule: by_course end_by Stays
fn h25_after_the_end(service: &dyn Service) {
    let table = drives::table(&gapped());
    let mut reader = Arrival::open(service, 64);
    assert_eq!(reader.feed(&table), MORE);
    reader.ends_with(&table);
    reader.unchanged("after the end", |reader| {
        for _ in 0..2 {
            assert_eq!(reader.feed(&[0]), ACCEPTED, "a byte that is ignored");
            assert_eq!(reader.feed(&table), ACCEPTED);
            assert_eq!(reader.feed(&[0xFF; 4]), ACCEPTED);
            assert_eq!(reader.end(), ACCEPTED, "told again");
        }
    });
    reader.ends_with(&table);
    assert_eq!(opened(service, &table, 64), ACCEPTED, "what it wrote can be opened");
    assert_eq!(reader.open_again(64 * 512), DONE);
    assert_eq!(reader.end(), (1, 0), "opened anew, and nothing arrived");
}

// rule: reader_write_call reader_write_effect write_out exports::edd_reader_write
fn h26_written_out(service: &dyn Service) {
    let table = drives::table(&gapped());
    let mut out = Lent::holding(&[0x3C; LONGEST_TABLE], Place::END);
    let untouched = |out: &Lent| out.bytes().iter().all(|byte| *byte == 0x3C) && out.margin_intact();
    let mut reader = Arrival::open(service, 64);
    assert_eq!(reader.write(out.bytes_mut()), MORE, "before the first byte");
    assert_eq!(reader.write(&mut []), MORE, "256 before 19");
    assert_eq!(reader.feed(&table), MORE);
    assert_eq!(reader.write(out.bytes_mut()), MORE, "the end record was read, but the end was not told");
    assert_eq!(reader.write(&mut []), MORE, "256 before 19");
    assert_eq!(reader.end(), ACCEPTED);
    for room in [0, 3, 71, table.len() - 1] {
        out.set_length(room, Place::END);
        out.bytes_mut().fill(0x3C);
        assert_eq!(reader.write(out.bytes_mut()), (19, UNWRITTEN), "{room} bytes");
        assert!(untouched(&out), "{room} bytes");
    }
    for room in [table.len(), table.len() + 1, LONGEST_TABLE] {
        out.set_length(room, Place::END);
        out.bytes_mut().fill(0x3C);
        reader.unchanged("written", |reader| assert_eq!(reader.write(out.bytes_mut()), (DONE, table.len() as u64)));
        assert!(out.bytes()[..table.len()] == table && out.bytes()[table.len()..].iter().all(|byte| *byte == 0x3C) && out.margin_intact());
    }
    out.bytes_mut().fill(0x3C);
    let mut damaged = Arrival::at(service, reader.block.bytes());
    damaged.block.bytes_mut()[0] = 4;
    assert_eq!(damaged.write(&mut []), (25, UNWRITTEN), "25 before 19");
    let mut refused = Arrival::open(service, 64);
    assert_eq!(refused.feed(&table[..100]), MORE);
    assert_eq!(refused.end(), (1, 88));
    assert_eq!(refused.write(out.bytes_mut()), (1, UNWRITTEN), "the refusal");
    assert_eq!(refused.write(&mut []), (1, UNWRITTEN), "the refusal before 19");
    assert!(untouched(&out));
}

// rule: reader_open_call Feed.opened exports::edd_reader_open exports::edd_reader_size
fn h27_size_and_store(service: &dyn Service) {
    assert_eq!(service.reader_size(), READER_SIZE as u64);
    assert_eq!(READER_SIZE, 2018);
    let good = Arrival::open(service, 64).block.bytes().to_vec();
    for size in [0, 1, 8, READER_SIZE - 8, READER_SIZE - 1, READER_SIZE + 1, READER_SIZE + 8, DESK_SIZE] {
        let mut bytes = good.clone();
        bytes.resize(size, 0);
        let mut reader = Arrival::at(service, &bytes);
        reader.refused_everywhere("size");
        reader.unchanged("size", |reader| assert_eq!(reader.open_again(512), 25));
    }
    // the store has whole blocks
    let (table, at_two) = (drives::table(&[small_drive(0, 2)]), drives::table(&[small_drive(1, 1)]));
    for (store_length, answer) in [(0, 6), (511, 6), (1023, 6), (1024, DONE), (1025, DONE), (1 << 32, DONE), (u64::MAX, DONE)] {
        for table in [&table, &at_two] {
            let mut reader = Arrival::at(service, &good);
            assert_eq!(reader.open_again(store_length), DONE);
            assert!(reader.block.bytes() == reader_block(0, 0, store_length / 512, &[], &[]), "opened over a reader: {store_length}");
            let expected = if answer == DONE { MORE } else { (6, 0) };
            assert_eq!(reader.feed(table), expected, "a store of {store_length} bytes");
        }
    }
}

// rule: Reader.image head_bytes table_bytes course_number refusal_number Reader.laid
fn h28_reader_block(service: &dyn Service) {
    let list = [with_parameters(small_drive(0, 4), 0x30), small_drive(4, 4)];
    let table = drives::table(&list);
    let mut reader = Arrival::open(service, 64);
    let is = |reader: &Arrival, what: &str, block: Vec<u8>| {
        let at = reader.block.bytes().iter().zip(&block).position(|(got, wanted)| got != wanted);
        assert_eq!(at, None, "{what}: the first byte that differs");
    };
    is(&reader, "opened", reader_block(0, 0, 64, &[], &[]));
    // every stage of a table that is accepted, one byte after the other
    for length in 1..=table.len() {
        assert_eq!(reader.feed(&table[length - 1..length]), MORE);
        let taken = [156, 88, 68, 0].into_iter().find(|place| *place <= length).unwrap();
        let whole = length == table.len();
        let held = if whole { &[][..] } else { &table[taken..length] };
        is(&reader, "reading", reader_block(u64::from(whole), 0, 64, held, &table[..taken]));
    }
    assert_eq!(reader.end(), ACCEPTED);
    is(&reader, "accepted", reader_block(2, 0, 64, &[], &table[..156]));
    // refused: nothing is held, and the drives are those before the record
    let mut end_missing = Arrival::open(service, 64);
    assert_eq!(end_missing.feed(&table[..150]), MORE);
    assert_eq!(end_missing.end(), (1, 88));
    is(&end_missing, "1", reader_block(3, 1, 64, &[], &table[..88]));
    for (what, bytes, refusal, records) in [
        ("2", [&table[..156], &[0x43, 0, 1, 0]].concat(), (2, 156), 156),
        ("3", [&table[..88], &[0x44, 0, 5, 0, 5]].concat(), (3, 88), 88),
        ("7", [&table[..88], &table[..68]].concat(), (7, 88), 88),
        ("8", [&table[..], &[4]].concat(), (8, 160), 156),
        ("9", [&table[..88], &table[68..88]].concat(), (9, 88), 88),
    ] {
        let number = u64::from(refusal.0);
        for first in [0, 30, bytes.len() - 1, bytes.len()] {
            let mut reader = Arrival::open(service, 64);
            let answers = [reader.feed(&bytes[..first]), reader.feed(&bytes[first..])];
            assert_eq!(answers[1], refusal, "{what}");
            is(&reader, what, reader_block(3, number, 64, &[], &table[..records]));
        }
    }
    let eight = parameters_table();
    let mut reader = Arrival::open(service, 8);
    assert_eq!(reader.feed(&[&eight[..704], &eight[..67]].concat()), MORE);
    is(&reader, "full", reader_block(0, 0, 8, &eight[..67], &eight[..704]));
}

// rule: Reader.accepted read_reader Reader.Exact
/// Each byte of some good blocks changed by one: every call answers as the model does, and leaves the same block.
fn h29_every_byte_of_the_block(service: &dyn Service) {
    let list = [with_parameters(small_drive(0, 4), 0x30), small_drive(4, 4)];
    let (table, eight) = (drives::table(&list), parameters_table());
    let blocks = [
        reader_block(0, 0, 64, &[], &[]),
        reader_block(0, 0, 64, &table[88..118], &table[..88]),
        reader_block(0, 0, 64, &table[68..71], &table[..68]),
        reader_block(0, 0, 64, &table[68..87], &table[..68]),
        reader_block(1, 0, 64, &[], &table[..156]),
        reader_block(2, 0, 8, &[], &eight[..704]),
        reader_block(3, 5, 64, &[], &table[..68]),
    ];
    for (which, good) in blocks.iter().enumerate() {
        let mut accepted = Vec::new();
        for at in 0..READER_SIZE {
            let mut block = good.clone();
            block[at] = block[at].wrapping_add(1);
            let by = |service: &dyn Service| {
                let (mut fed, mut ended, mut places) = (block.clone(), block.clone(), [UNWRITTEN; 3]);
                let [first, second, third] = &mut places;
                let feed = service.reader_feed(&mut fed, &[0x14, 0], first);
                let end = service.reader_end(&mut ended, second);
                let write = service.reader_write(&block, &mut [0; LONGEST_TABLE], third);
                ([feed, end, write], places, fed, ended)
            };
            let (got, wanted) = (by(service), by(&Model));
            assert_eq!((got.0, got.1), (wanted.0, wanted.1), "block {which}, byte {at}: feed, end, write");
            assert!(got == wanted, "block {which}, byte {at}: the block after it");
            assert!(got.0 == [25; 3] || !got.0.contains(&25), "block {which}, byte {at}: 25 by some calls");
            if got.0[0] != 25 {
                accepted.push(at);
            }
        }
        // an opened reader: the course, the store's blocks, and one byte held, which is zero
        if which == 0 {
            assert_eq!(accepted, [0, 16, 17, 18, 19, 20, 21, 22, 23, 24]);
        }
        assert!(!accepted.is_empty() && accepted.len() < READER_SIZE / 2, "block {which}: {} bytes may be others", accepted.len());
    }
}

// rule: Reader.accept course_ok is_cut Reader.rest_zero course_at
fn h30_rules_of_the_block(service: &dyn Service) {
    let list = [with_parameters(small_drive(0, 4), 0x30), small_drive(4, 4)];
    let table = drives::table(&list);
    let records = &table[..156];
    let drive = small_drive(8, 4).record();
    let parameters = drives::parameters_record(1, [9; 14]);
    let refused = |what: &str, block: &[u8]| Arrival::at(service, block).refused_everywhere(what);
    let says = |what: &str, block: &[u8], answer: (u32, u64)| {
        let mut reader = Arrival::at(service, block);
        reader.unchanged(what, |reader| assert_eq!(reader.feed(&[]), answer, "{what}"));
    };
    refused("zeros: a table has an end record", &[0; READER_SIZE]);
    refused("ones", &[0xFF; READER_SIZE]);
    // course and number
    for course in 0..3 {
        let answer = if course == 2 { ACCEPTED } else { MORE };
        says("a course", &reader_block(course, 0, 64, &[], records), answer);
        for number in [1, 9, 256, 1 << 32, u64::MAX] {
            refused("a number and no refusal", &reader_block(course, number, 64, &[], records));
        }
    }
    for course in [4, 5, 256, 259, 1 << 32, (1 << 63) + 3, u64::MAX] {
        refused("no course", &reader_block(course, 0, 64, &[], records));
        refused("no course", &reader_block(course, 3, 64, &[], records));
    }
    for number in 1..=9 {
        let place = if number == 8 { 160 } else { 156 };
        says("refused", &reader_block(3, number, 64, &[], records), (number as u32, place));
        let place = if number == 8 { 4 } else { 0 };
        says("refused without drives", &reader_block(3, number, 0, &[], &[]), (number as u32, place));
    }
    for number in [0, 10, 255, 256, 257, 1 << 32 | 5, u64::MAX] {
        refused("no number of a table's refusal", &reader_block(3, number, 64, &[], records));
    }
    // bytes held: by a reader that reads, and only the beginning of a record
    for course in 1..4 {
        refused("held by one that does not read", &reader_block(course, if course == 3 { 5 } else { 0 }, 64, &drive[..1], records));
    }
    for held in [&[0xFF; 3][..], &[4, 0, 0], &drive[..4], &drive[..67], &parameters[..4], &parameters[..19], &[0x44, 0, 1, 0, 0xFF]] {
        says("a beginning", &reader_block(0, 0, 64, held, records), MORE);
        says("a beginning, after eight drives", &reader_block(0, 0, 8, held, &parameters_table()[..704]), MORE);
    }
    for held in [&[4, 0, 0, 0][..], &drive, &parameters, &[0x43, 0, 1, 0], &[0x44, 0, 2, 0], &[0x44, 0, 1, 1], &[4, 0, 0, 0, 0]] {
        refused("no beginning", &reader_block(0, 0, 64, held, records));
    }
    refused("parameters and more", &reader_block(0, 0, 64, &[&parameters[..], &[0]].concat(), records));
    let mut block = reader_block(0, 0, 64, &drive[..41], records);
    block[24] = 40;
    refused("a byte past those held", &block);
    for length in [68, 69, 133, 134, 135, 256, 256 + 41, 1 << 32, (1 << 32) + 41, u64::MAX] {
        block[24..32].copy_from_slice(&u64::to_le_bytes(length));
        refused("more held than there is room for", &block);
    }
    // the table: its rules, its length, and zeros behind it
    says("a store that just holds it", &reader_block(0, 0, 8, &[], records), MORE);
    refused("a store that does not hold it", &reader_block(0, 0, 7, &[], records));
    says("any store without drives", &reader_block(0, 0, u64::MAX, &[], &[]), MORE);
    for (what, at, byte) in [("field", 39, 2), ("overlap", 88 + 24, 3), ("kind", 2, 2), ("parameters", 72, 1), ("end record", 156, 5)] {
        let mut block = reader_block(0, 0, 64, &[], records);
        block[READER_TABLE + at] = byte;
        refused(what, &block);
    }
    for length in [0, 4, 88, 92, 156, 159, 161, 708, 709, 1780, 1844, 1845, 160 + 256, 1 << 32 | 160, u64::MAX] {
        let mut block = reader_block(0, 0, 64, &[], records);
        block[32..40].copy_from_slice(&u64::to_le_bytes(length));
        refused("another length of the table", &block);
    }
    for at in [160, 161, 707, 1779, 1843] {
        let mut block = reader_block(0, 0, 64, &[], records);
        block[READER_TABLE + at] = 1;
        refused("a byte behind the table", &block);
    }
    // a block that no bytes lead to goes on as one that they do: 9 on one that says 4 without a drive is still 4
    let mut odd = Arrival::at(service, &reader_block(3, 4, 64, &[], &[]));
    assert_eq!((odd.feed(&table), odd.end()), ((4, 0), (4, 0)));
    let mut closed = Arrival::at(service, &reader_block(1, 0, 64, &[], records));
    assert_eq!(closed.end(), ACCEPTED);
    let mut closed = Arrival::at(service, &reader_block(1, 0, 64, &[], records));
    assert_eq!(closed.feed(&[0]), (8, 160));
    let mut going_on = Arrival::at(service, &reader_block(0, 0, 64, &drive[..40], records));
    assert_eq!(going_on.feed(&drive[40..]), MORE);
    assert_eq!(going_on.feed(&drives::END), MORE);
    going_on.ends_with(&[records, &drive, &drives::END].concat());
}

// ---- h: disks with bad blocks (change request 2026-04)

/// A drive with a record of kind 3.
fn worn(drive: Drive, bad: &[u64]) -> Drive {
    Drive { bad: Bad::of(bad), ..drive }
}

const MOVING: [u8; 4] = [0x02, 0x03, 0x42, 0x43];

/// A request for `count` blocks, of which the first `good` are good; all of them if `good` is `count`. `first` is the store's block.
#[derive(Clone, Copy, Debug)]
struct Worn {
    first: usize,
    count: u64,
    good: u64,
    buffer: usize,
}

/// What the turns of a request answer when only its guest waits.
fn parts_of(count: u64, good: u64) -> Vec<u64> {
    let mut parts = Vec::new();
    for moved in (0..count).step_by(16) {
        let due = 16.min(count - moved);
        parts.push(due.min(good - moved));
        if good < moved + due {
            break;
        }
    }
    parts
}

/// The registers of a request that moved so many blocks of those it asked for.
fn ended(given: Registers, count: u64, good: u64) -> Registers {
    if good == count {
        return succeeded(given);
    }
    let code = if matches!(given.ah(), 0x03 | 0x43) { 0xCC00 } else { 0x1000 };
    let al = if given.ah() < 0x40 { good as u16 } else { given.ax & 0xFF };
    Registers { ax: code | al, carry: 1, ..given }
}

impl Stand<'_> {
    /// Turns until nothing waits: what each of them moved. Only that guest is served.
    fn serve(&mut self, guest: usize) -> Vec<u64> {
        let mut parts = Vec::new();
        loop {
            match self.turn() {
                (DONE, served, moved) if served == guest as u64 => parts.push(moved),
                (NOTHING_YET, ..) => return parts,
                other => panic!("a turn answered {other:?}"),
            }
        }
    }

    /// Posts, serves and collects, and compares everything with what must come out. Any packet already lies in the window.
    fn runs_to(&mut self, what: &str, guest: usize, given: Registers, asked: Worn) {
        let Worn { first, count, good, buffer } = asked;
        let (mut desk, mut arena, mut store) = self.all();
        let window = guest * (arena.len() / 8);
        assert_eq!(self.post(guest as u64, given), (NOTHING_YET, given), "{what}: nothing is tested at the post");
        assert!((&self.all().1, &self.all().2) == (&arena, &store), "{what}: the post wrote memory");
        assert_eq!(self.serve(guest), parts_of(count, good), "{what}: the turns");
        let memory = window + buffer..window + buffer + 512 * good as usize;
        let blocks = 512 * first..512 * (first + good as usize);
        if matches!(given.ah(), 0x03 | 0x43) {
            store[blocks].copy_from_slice(&arena[memory]);
        } else {
            arena[memory].copy_from_slice(&store[blocks]);
        }
        if good < count && given.ah() >= 0x40 {
            let word = window + 16 * usize::from(given.ds) + usize::from(given.si) + 2;
            arena[word..word + 2].copy_from_slice(&(good as u16).to_le_bytes());
        }
        assert!(self.arena.bytes() == arena, "{what}: the arena");
        assert!(self.store.bytes() == store, "{what}: the store");
        assert_eq!(self.collect(guest as u64), (DONE, ended(given, count, good)), "{what}: collected");
        desk[8 * POINTER] = (guest as u8 + 1) % 8;
        assert!(self.desk.bytes() == desk, "{what}: the desk, with a vacant row and the next pointer");
    }

    /// The same for a function of drive 80h from block `start`, buffer 0000:0200 and a packet at 0000:0000. The drive is the store's first.
    fn runs(&mut self, what: &str, guest: usize, ah: u8, start: u64, count: u64, good: u64) {
        self.packet(guest, 0, count as u16, (0, 0x200), start);
        let given = if ah < 0x40 {
            by_sector(ah, count as u8, 0, 0, start as u8 + 1)
        } else {
            Registers { ax: u16::from(ah) << 8 | 1, ..by_packet(ah, 0) }
        };
        self.runs_to(&format!("{what}, {ah:02x}h"), guest, given, Worn { first: start as usize, count, good, buffer: 0x200 });
    }
}

// rule: bads_refusal has_bads names_last
fn h31_not_the_last_drive(service: &dyn Service) {
    let (d, p) = (small_record, parameters_record);
    let b = |number| drives::bad_record(number, &[0]);
    let cases: [(&str, Vec<Vec<u8>>, (u32, u64)); 20] = [
        ("no drive read", vec![b(0)], (9, 0)),
        ("its own", vec![d(0), b(0)], ACCEPTED),
        ("its own, and parameters", vec![d(0), b(0), p(0)], ACCEPTED),
        ("after its drive's kind 4", vec![d(0), p(0), b(0)], (9, 88)),
        ("after its drive's kind 4, once more", vec![d(0), b(0), p(0), b(0)], (9, 102)),
        ("a repeat", vec![d(0), b(0), b(0)], (9, 82)),
        ("parameters repeated behind it", vec![d(0), b(0), p(0), p(0)], (9, 102)),
        ("a later drive", vec![d(0), b(1)], (9, 68)),
        ("a later drive that follows", vec![d(0), b(1), d(1)], (9, 68)),
        ("an earlier drive", vec![d(0), d(1), b(0)], (9, 136)),
        ("an earlier drive that has one", vec![d(0), b(0), d(1), b(0)], (9, 150)),
        ("a repeat of the second", vec![d(0), b(0), d(1), b(1), b(1)], (9, 164)),
        ("two drives", vec![d(0), b(0), d(1), b(1)], ACCEPTED),
        ("two drives, with parameters", vec![d(0), b(0), p(0), d(1), b(1), p(1)], ACCEPTED),
        ("the second alone", vec![d(0), d(1), b(1)], ACCEPTED),
        ("the first's kind 4 does not matter", vec![d(0), p(0), d(1), b(1)], ACCEPTED),
        ("parameters of another drive behind it", vec![d(0), b(0), p(1)], (9, 82)),
        ("counted from 80h", vec![d(0), b(0x80)], (9, 68)),
        ("the high byte", vec![d(0), b(0x100)], (9, 68)),
        ("2^16 - 1", vec![d(0), b(0xFFFF)], (9, 68)),
    ];
    for (what, records, expected) in cases {
        let table = [records.concat(), drives::END.to_vec()].concat();
        assert_eq!(opened(service, &table, 9), expected, "{what}");
    }
    let eight: Vec<u8> = (0..8).flat_map(|i| [d(i), b(i as u16)].concat()).collect();
    let with = |more: &[Vec<u8>]| [&eight[..], &more.concat(), &drives::END].concat();
    assert_eq!(opened(service, &with(&[]), 9), ACCEPTED, "eight");
    assert_eq!(opened(service, &with(&[b(7)]), 9), (9, 656), "a repeat after eight");
    assert_eq!(opened(service, &with(&[b(8)]), 9), (9, 656), "the ninth drive's");
    assert_eq!(opened(service, &with(&[d(8), b(8)]), 9), (4, 656), "a ninth drive comes first");
}

// rule: header_of length_ok bad_length_ok bads_refusal
fn h32_order_of_the_checks(service: &dyn Service) {
    let drive = small_record(0);
    let at_68 = |record: &[u8]| opened(service, &[&drive[..], record].concat(), 9);
    // one number, another drive's, outside: 9 comes before 5, and 1, 3, 2 and 1 before both
    let bad = drives::bad_record(5, &[7]);
    assert_eq!(opened(service, &bad[..13], 9), (1, 0), "cut off, and no drive read");
    assert_eq!((at_68(&bad[..13]), at_68(&bad[..4]), at_68(&bad[..3])), ((1, 68), (1, 68), (1, 68)), "cut off");
    assert_eq!(at_68(&bad), (9, 68), "9 before 5");
    assert_eq!(at_68(&drives::bad_record(5, &[0, 0])), (9, 68), "9 before 5");
    assert_eq!(opened(service, &drives::bad_record(0, &[1, 0]), 9), (9, 0), "9 before 5, without a drive");
    assert_eq!(at_68(&drives::bad_record(0, &[7])), (5, 68), "outside");
    assert_eq!(at_68(&drives::bad_record(0, &[0])), (1, 82), "no end record");
    let good_and_bad = [drives::bad_record(0, &[0]), drives::bad_record(0, &[9])].concat();
    assert_eq!(at_68(&good_and_bad), (9, 82), "a repeat that is outside: 9 before 5");
    assert_eq!(at_68(&[parameters_record(0), drives::bad_record(0, &[9])].concat()), (9, 88), "behind kind 4 and outside: 9 before 5");
    for kind in [0x103, 0x300, 0x303, 0x202, 5] {
        let mut record = bad.clone();
        record[2..4].copy_from_slice(&u16::to_le_bytes(kind));
        assert_eq!(at_68(&record), (3, 68), "kind {kind:x}");
    }
    // before the drive behind it, and before the byte after the end
    let faulty = Drive { sectors: 0, ..small_drive(1, 1) }.record();
    assert_eq!(at_68(&[&drives::bad_record(0, &[1])[..], &faulty].concat()), (5, 68));
    assert_eq!(at_68(&[&drives::bad_record(0, &[0])[..], &faulty].concat()), (5, 82));
    assert_eq!(at_68(&[&drives::bad_record(0, &[0])[..], &[4, 0, 0, 0, 0]].concat()), (8, 86));
}

// rule: bad_length_ok bad_count bad_length length_ok
fn h33_lengths(service: &dyn Service) {
    let drive = small_drive(0, 40).record();
    for length in 0..=300u16 {
        let mut bytes = [&drive[..], &length.to_le_bytes(), &[3, 0, 0, 0]].concat();
        // 0, 1, 2 and so on, as many as the length has room for
        bytes.extend((0..40u64).flat_map(u64::to_le_bytes));
        let numbers = (usize::from(length).saturating_sub(6)) / 8;
        let good = numbers * 8 + 6 == usize::from(length) && (1..=16).contains(&numbers);
        bytes.truncate(68 + if good { usize::from(length) } else { 4 });
        if good {
            assert_eq!(opened(service, &bytes[..bytes.len() - 1], 40), (1, 68), "length {length}, cut off");
            bytes.extend(drives::END);
            assert_eq!(opened(service, &bytes, 40), ACCEPTED, "length {length}");
        } else {
            assert_eq!(opened(service, &bytes, 40), (2, 68), "length {length}");
        }
    }
    // by the whole word, and before 1 and 9
    for length in [0x0E00, 0x010E, 0x0186, 0x8600, 0x8006, 0xFFFE, 0xFFFF] {
        let bytes = [&drive[..], &u16::to_le_bytes(length), &[3, 0]].concat();
        assert_eq!(opened(service, &bytes, 40), (2, 68), "length {length:x}");
        assert_eq!(opened(service, &bytes[68..], 40), (2, 0), "length {length:x}, without a drive");
    }
}

// rule: list_ok ascends are_blocks bad_at bads_refusal
fn h34_lists(service: &dyn Service) {
    let of = |blocks: u64, list: &[u64]| {
        let drive = Drive { blocks, ..small_drive(0, 1) };
        opened(service, &[drive.record(), drives::bad_record(0, list), drives::END.to_vec()].concat(), blocks)
    };
    let sixteen: Vec<u64> = (0..16).collect();
    let spread: Vec<u64> = (0..16).map(|i| 6 * i + 9).collect();
    for good in [&[0][..], &[99], &[0, 99], &[0, 1, 2], &[98, 99], &[5, 60, 61], &sixteen, &spread] {
        assert_eq!(of(100, good), ACCEPTED, "{good:?}");
    }
    assert_eq!(of(1, &[0]), ACCEPTED);
    assert_eq!(of(1, &[1]), (5, 68), "the only block is 0");
    for bad in [
        &[100][..],
        &[101],
        &[u64::MAX],
        &[1 << 32],
        &[0, 100],
        &[99, 100],
        &[5, 4],
        &[5, 5],
        &[0, 0],
        &[0, 5, 5],
        &[5, 6, 6, 7],
        &[1, 0, 2],
    ] {
        assert_eq!(of(100, bad), (5, 68), "{bad:?}");
    }
    // each of the sixteen places
    for at in 0..16 {
        let with = |value: u64| {
            let mut list = spread.clone();
            list[at] = value;
            of(100, &list)
        };
        assert_eq!(with(100), (5, 68), "number {at} outside");
        assert_eq!(with(u64::MAX), (5, 68), "number {at} far outside");
        if at > 0 {
            assert_eq!(with(spread[at - 1]), (5, 68), "number {at} repeated");
            assert_eq!(with(spread[at - 1] - 1), (5, 68), "number {at} below the one before");
            assert_eq!(with(spread[at - 1] + 1), ACCEPTED, "number {at} just above the one before");
        }
        assert_eq!(with(spread[at] + (1 << 32)), (5, 68), "number {at}, its upper half");
    }
    // all eight bytes are compared
    let vast = 1 << 54;
    assert_eq!(of(vast, &[1, 1 << 32, (1 << 32) + 1, 1 << 40, vast - 1]), ACCEPTED);
    assert_eq!(of(vast, &[1 << 32, 1]), (5, 68));
    assert_eq!(of(vast, &[vast]), (5, 68));
    assert_eq!(of(vast, &[0x0100, 0x00FF]), (5, 68), "little-endian");
    assert_eq!(of(vast, &[0x00FF, 0x0100]), ACCEPTED, "little-endian");
}

// rule: open_call exports::edd_open
fn h34_refused_changes_nothing(service: &dyn Service) {
    let mut stand = Stand::open(service, &[worn(small_drive(0, 40), &[3])], 8 * 21_000, 40 * 512);
    assert_eq!(stand.post_packet(2, 0x42, 20, 0).0, NOTHING_YET);
    let before = stand.all();
    for (list, number) in [(&[40][..], 5), (&[1, 1], 5), (&[], 2)] {
        let table = [small_drive(0, 40).record(), drives::bad_record(0, list), drives::END.to_vec()].concat();
        assert_eq!(stand.open_again(&table, 8 * 21_000, 40 * 512), (number, 68), "{list:?}");
    }
    let table = [small_drive(0, 40).record(), parameters_record(0), drives::bad_record(0, &[1]), drives::END.to_vec()].concat();
    assert_eq!(stand.open_again(&table, 8 * 21_000, 40 * 512), (9, 88));
    assert!(stand.all() == before, "something changed");
    assert_eq!(stand.serve(2), [3], "the desk goes on with the list that it has");
}

/// Drives of sixty blocks each, with every number of bad blocks that there may be, and every second with parameters.
fn worn_drives(counts: [usize; 8]) -> Vec<Drive> {
    let of = |(i, count): (usize, &usize)| {
        let list: Vec<u64> = (0..*count as u64).map(|j| 3 * j + i as u64).collect();
        let drive = worn(small_drive(60 * i as u64, 60), &list);
        if i % 2 == 0 {
            with_parameters(drive, 0x11 * i as u8)
        } else {
            drive
        }
    };
    counts.iter().enumerate().map(of).collect()
}

/// Eight drives of kind 2 of 60 blocks with sixteen bad blocks and parameters, 1844 bytes.
fn longest_table() -> Vec<u8> {
    let list: Vec<u64> = (0..16).map(|i| 3 * i + 1).collect();
    let of = |i: u64| with_parameters(worn(wide(small_drive(60 * i, 60), [0x91 + i as u8; 8]), &list), i as u8);
    drives::table(&(0..8).map(of).collect::<Vec<_>>())
}

// rule: slot_records bad_record table_of write_out with_bads bads_words
fn h35_written_back(service: &dyn Service) {
    for counts in [[0, 1, 2, 3, 4, 5, 6, 7], [8, 9, 10, 11, 12, 13, 14, 15], [16, 0, 16, 0, 1, 16, 0, 16], [16; 8], [1; 8], [0; 8]] {
        let list = worn_drives(counts);
        for drives_of in [&list[..], &list[..1], &list[..3], &[]] {
            let table = drives::table(drives_of);
            let stand = Stand::open(service, drives_of, 8 * 1024, 480 * 512);
            let mut out = Lent::holding(&[0x3C; LONGEST_TABLE + 3], Place::END);
            assert_eq!(stand.write(out.bytes_mut()), (DONE, table.len() as u64), "{counts:?}");
            assert!(out.bytes()[..table.len()] == table[..], "{counts:?}: byte for byte");
            assert!(out.bytes()[table.len()..].iter().all(|byte| *byte == 0x3C) && out.margin_intact(), "{counts:?}: bytes past it stay");
            out.set_length(table.len(), Place::END);
            assert_eq!(stand.write(out.bytes_mut()), (DONE, table.len() as u64), "{counts:?}: just long enough");
            assert!(out.bytes() == &table[..]);
            out.set_length(table.len() - 1, Place::END);
            out.bytes_mut().fill(0x3C);
            assert_eq!(stand.write(out.bytes_mut()), (19, UNWRITTEN), "{counts:?}: one byte less");
            assert!(out.bytes().iter().all(|byte| *byte == 0x3C));
            // and in the block: how many, then sixteen numbers of eight bytes for each slot, zeros behind the last
            for slot in 0..8 {
                let bad = drives_of.get(slot).map_or(&[][..], |drive| drive.bad.numbers());
                assert_eq!(stand.word(BAD_COUNTS + slot), bad.len() as u64, "{counts:?}: slot {slot}");
                let numbers: Vec<u64> = (0..16).map(|j| stand.word(BAD_LISTS + 16 * slot + j)).collect();
                assert!(numbers[..bad.len()] == *bad && numbers[bad.len()..].iter().all(|number| *number == 0), "{counts:?}: slot {slot}");
            }
        }
    }
    assert_eq!(longest_table().len(), LONGEST_TABLE);
    assert_eq!(opened(service, &longest_table(), 480), ACCEPTED, "the longest table");
    assert_eq!(opened(service, &[&longest_table()[..], &[0]].concat(), 480), (8, 1844));
    assert_eq!((DESK_SIZE, 8 * BAD_COUNTS, 8 * (BAD_LISTS + 128)), (3920, 2832, DESK_SIZE));
}

// rule: moves_now serve stage_after ended bad_code reported good is_bad
fn h36_first_block_bad(service: &dyn Service) {
    for ah in MOVING {
        for count in [1, 2, 16, 17, 40] {
            let mut stand = Stand::open(service, &[worn(small_drive(0, 63), &[11])], 8 * 21_000, 64 * 512);
            stand.runs("the first block", 5, ah, 11, count, 0);
        }
    }
    // a turn of 0 is a turn: the row has finished, the pointer goes on, and the count word is the only byte of memory that changes
    let mut stand = Stand::open(service, &[worn(small_drive(0, 63), &[11])], 8 * 21_000, 64 * 512);
    let given = by_packet(0x43, 0x30);
    stand.packet(7, 0x30, 0x17, (0, 0x200), 11);
    assert_eq!(stand.post(7, given).0, NOTHING_YET);
    let mut expected = stand.all();
    assert_eq!(stand.turn(), (DONE, 7, 0));
    expected.1[7 * 21_000 + 0x32..7 * 21_000 + 0x34].copy_from_slice(&[0, 0]);
    expected.0[8 * row(7, 0)..8 * row(8, 0)].fill(0);
    let finished = [0xCC00, 0xB0B1, 0xC0C1, 0xD080, 0, 0x30, 0xE5E6, 1];
    for (word, value) in [(row(7, 0), 2), (POINTER, 0)].into_iter().chain((15..23).map(|k| (row(7, k), finished[k - 15]))) {
        expected.0[8 * word..8 * word + 8].copy_from_slice(&u64::to_le_bytes(value));
    }
    assert!(stand.all() == expected, "a finished row with CCh and carry 1");
    assert_eq!(stand.turn(), (NOTHING_YET, UNWRITTEN, UNWRITTEN), "nothing waits any more");
    assert_eq!(stand.withdraw(7), (23, STALE), "it has finished");
    assert_eq!(stand.post(7, given), (21, given), "until it is collected");
    assert_eq!(stand.collect(7), (DONE, Registers { ax: 0xCC00, carry: 1, ..given }));
    assert_eq!(stand.collect(7), (22, STALE));
}

// rule: good is_bad before good_of moves_now quota serve stage_after goes_on moved_by beside reported ended_window ended_memory ended bad_code
fn h37_where_the_bad_block_lies(service: &dyn Service) {
    for ah in MOVING {
        for (count, index) in [1, 7, 14, 15, 16, 17, 30, 31, 32, 33, 38, 39].map(|index| (40, index)).into_iter().chain([
            (16, 15),
            (17, 15),
            (17, 16),
            (32, 16),
            (32, 31),
            (33, 32),
            (2, 1),
        ]) {
            let start = 9;
            let mut stand = Stand::open(service, &[worn(small_drive(0, 63), &[start + index])], 8 * 21_000, 64 * 512);
            stand.runs(&format!("bad at {index} of {count}"), 3, ah, start, count, index);
            // none of the blocks asked for: just before them, just behind them
            stand.runs("bad behind the last", 3, ah, start, index, index);
            stand.runs("bad before the first", 3, ah, start + index + 1, 10, 10);
        }
        // the first bad one of several counts, also where a list has sixteen, and those before the range do not
        let sixteen: Vec<u64> = (0..16).map(|i| 2 * i + 21).collect();
        for (list, start, count, good) in [
            (&[0, 1, 12, 13, 60][..], 2, 40, 10),
            (&[0, 1, 12, 13, 60], 13, 40, 0),
            (&[0, 1, 12, 13, 60], 14, 46, 46),
            (&[0, 1, 12, 13, 60], 14, 47, 46),
            (&[40, 41, 42], 8, 50, 32),
            (&sixteen, 0, 63, 21),
            (&sixteen, 0, 21, 21),
            (&sixteen, 22, 30, 1),
            (&sixteen, 50, 2, 1),
            (&sixteen, 51, 1, 0),
            (&sixteen, 52, 11, 11),
        ] {
            let mut stand = Stand::open(service, &[worn(small_drive(0, 63), list)], 8 * 33_000, 64 * 512);
            stand.runs(&format!("{list:?} from {start}"), 0, ah, start, count, good);
        }
    }
    // between the parts: what a turn answers, and that the row waits on with 16 moved
    let mut stand = Stand::open(service, &[worn(small_drive(0, 63), &[16])], 8 * 21_000, 64 * 512);
    let given = by_packet(0x42, 0);
    assert_eq!(stand.post_packet(1, 0x42, 40, 0), (NOTHING_YET, given));
    assert_eq!(stand.turn(), (DONE, 1, 16), "the bad block is not reached");
    assert_eq!((stand.word(row(1, 0)), stand.word(row(1, 14))), (1, 16), "the row waits");
    assert_eq!(stand.collect(1), (22, STALE));
    assert!(stand.window(1)[2..4] == [40, 0], "the count word stays until it is");
    assert_eq!(stand.turn(), (DONE, 1, 0));
    assert!(stand.window(1)[2..4] == [16, 0], "of the whole request, not of this turn");
    assert_eq!(stand.collect(1), (DONE, ended(given, 40, 16)));
}

// rule: reported beside ended_window AfterData CountBytes
fn h38_count_word_on_top_of_the_data(service: &dyn Service) {
    // the buffer is the window's first forty blocks, and the packet lies in it: in the first block, across two blocks, in the last one that
    // is moved, in the bad one, behind it; with no bad block among the forty the data stay
    for ah in [0x42, 0x43] {
        for index in [0, 1, 15, 16, 17, 31, 33, 39, 40] {
            let last = 512 * index as usize;
            for packet in [0, 0x20, 509, 512, 15 * 512 + 100, 8189, last.saturating_sub(3), last.saturating_sub(16), last, last + 3, 20_464]
            {
                let mut stand = Stand::open(service, &[worn(small_drive(0, 60), &[5 + index])], 8 * 21_000, 64 * 512);
                stand.packet(4, packet, 40, (0, 0), 5);
                let given = Registers { ax: u16::from(ah) << 8, ..by_packet(ah, packet as u16) };
                let asked = Worn { first: 5, count: 40, good: index, buffer: 0 };
                stand.runs_to(&format!("{ah:02x}h, bad at {index}, packet at {packet}"), 4, given, asked);
            }
        }
        // at the place of the post, whatever the guest wrote there since
        let mut stand = Stand::open(service, &[worn(small_drive(0, 60), &[20])], 8 * 21_000, 64 * 512);
        stand.packet(4, 0x40, 40, (0, 0x200), 0);
        assert_eq!(stand.post(4, by_packet(ah, 0x40)).0, NOTHING_YET);
        assert_eq!(stand.turn(), (DONE, 4, 16));
        stand.packet(4, 0x40, 0xFFFF, (0xFFFF, 0xFFFF), 20);
        assert_eq!(stand.turn(), (DONE, 4, 4));
        let mut packet = [0xFF; 16];
        packet[..4].copy_from_slice(&[16, 0, 20, 0]);
        packet[8..].copy_from_slice(&20u64.to_le_bytes());
        assert!(stand.window(4)[0x40..0x50] == packet, "two bytes of what is there");
        assert_eq!(stand.collect(4), (DONE, ended(by_packet(ah, 0x40), 40, 20)));
    }
}

// rule: turn_of serve bads_for moved_by
fn h39_two_guests(service: &dyn Service) {
    // guest 2 meets block 20 in its second part, guest 5 does not; guest 6 ends just before block 90, guest 0 begins with block 20
    for (ah, code) in [(0x42, 0x10), (0x43, 0xCC)] {
        let mut stand = Stand::open(service, &[worn(small_drive(0, 120), &[20, 90])], 8 * 21_000, 120 * 512);
        for (guest, count, start) in [(2, 40, 0), (5, 40, 40), (0, 1, 20), (6, 40, 50)] {
            stand.packet(guest, 0, count, (0, 0x200), start);
            assert_eq!(stand.post(guest as u64, by_packet(ah, 0)).0, NOTHING_YET);
        }
        let (_, arena, store) = stand.all();
        let turns = [(0, 0), (2, 16), (5, 16), (6, 16), (2, 4), (5, 16), (6, 16), (5, 8), (6, 8)];
        for (guest, moved) in turns {
            assert_eq!(stand.turn(), (DONE, guest, moved), "{ah:02x}");
            assert_eq!(stand.word(POINTER), guest + 1);
        }
        assert_eq!(stand.turn().0, NOTHING_YET);
        for (guest, good, count) in [(0, 0, 1), (2, 20, 40), (5, 40, 40), (6, 40, 40)] {
            let expected = ended(by_packet(ah, 0), count, good);
            assert_eq!(stand.collect(guest), (DONE, expected), "guest {guest}");
            assert_eq!(u64::from(expected.ah()), if good < count { code } else { 0 });
            let word = stand.window(guest as usize)[2..4].to_vec();
            assert_eq!(u16::from_le_bytes([word[0], word[1]]), good as u16, "guest {guest}: its count word");
        }
        // windows of guests without a request stay, and so does every block that no turn moved
        for guest in [1, 3, 4, 7] {
            assert!(stand.window(guest) == &arena[guest * 21_000..(guest + 1) * 21_000], "guest {guest}");
        }
        let untouched = |block: usize| stand.store.bytes()[512 * block..512 * (block + 1)] == store[512 * block..512 * (block + 1)];
        assert!((20..40).chain(90..120).all(untouched), "the bad blocks and those behind them");
        let mut moved = (0..20).chain(40..90);
        assert!(if ah == 0x42 { moved.all(untouched) } else { !moved.any(untouched) }, "the blocks before them");
    }
    // one guest's count word does not end another's request on the same blocks
    let mut stand = Stand::open(service, &[worn(small_drive(0, 60), &[16])], 8 * 21_000, 60 * 512);
    for guest in 0..8 {
        assert_eq!(stand.post_packet(guest, 0x42, 17, 0).0, NOTHING_YET);
    }
    for round in [16, 0] {
        for guest in 0..8 {
            assert_eq!(stand.turn(), (DONE, guest, round), "all eight at the same bad block");
        }
    }
    for guest in 0..8 {
        assert_eq!(stand.collect(guest), (DONE, ended(by_packet(0x42, 0), 17, 16)));
    }
}

// rule: ended bad_code good_of sector_job
fn h40_by_al(service: &dyn Service) {
    for ah in [0x02, 0x03] {
        for (bad, good) in
            [(10, 0), (11, 1), (25, 15), (26, 16), (27, 17), (121, 111), (122, 112), (136, 126), (137, 127), (138, 128), (9, 128)]
        {
            let mut stand = Stand::open(service, &[worn(paper_drive(), &[bad])], 8 * 67_000, 2048 * 512);
            let given = by_sector(ah, 128, 0, 0, 11);
            let what = format!("{ah:02x}h of 128, bad block {bad}");
            stand.runs_to(&what, 6, given, Worn { first: 10, count: 128, good, buffer: 0x200 });
        }
        // across a track and a cylinder: the number is the block's, not the sector's
        let mut stand = Stand::open(service, &[worn(paper_drive(), &[63, 1008 + 5])], 8 * 67_000, 2048 * 512);
        let worn = |first, count, good| Worn { first, count, good, buffer: 0x200 };
        stand.runs_to("track", 1, by_sector(ah, 20, 0, 0, 60), worn(59, 20, 4));
        stand.runs_to("cylinder", 1, by_sector(ah, 20, 0, 15, 55), worn(999, 20, 14));
        stand.runs_to("head", 1, by_sector(ah, 1, 0, 1, 1), worn(63, 1, 0));
        stand.runs_to("sector", 1, by_sector(ah, 62, 0, 1, 2), worn(64, 62, 62));
    }
}

// rule: verified packet_tests good_of packet_plan
fn h41_verify(service: &dyn Service) {
    let drive = worn(small_drive(3, 100), &[10, 20, 21, 99]);
    let mut stand = Stand::open(service, &[drive], 8 * 4000, 110 * 512);
    let verifies = |stand: &mut Stand, count: u16, start: u64, word: Option<u16>, code: u8| {
        stand.packet(6, 0x77, count, (0xFFFF, 0xFFFF), start);
        let given = Registers { ax: 0x44A7, ..by_packet(0x44, 0x77) };
        let mut expected = stand.all();
        if let Some(word) = word {
            expected.1[6 * 4000 + 0x79..6 * 4000 + 0x7B].copy_from_slice(&word.to_le_bytes());
        }
        let answer = if code == 0 { succeeded(given) } else { refused(given, code) };
        assert_eq!(stand.post(6, given), (DONE, answer), "{count} from {start}: at once, and AL stays");
        assert!(stand.all() == expected, "{count} from {start}: the count word alone");
        assert_eq!(stand.turn().0, NOTHING_YET);
    };
    // good ranges write nothing; the buffer does not matter
    for (count, start) in [(0, 0), (0, 10), (0, 20), (0, 99), (0, 100), (10, 0), (9, 11), (77, 22), (1, 9), (1, 11), (1, 22), (1, 98)] {
        verifies(&mut stand, count, start, None, 0);
    }
    for (count, start, good) in [
        (11, 0, 10),
        (100, 0, 10),
        (1, 10, 0),
        (50, 10, 0),
        (2, 9, 1),
        (10, 11, 9),
        (89, 11, 9),
        (1, 20, 0),
        (1, 21, 0),
        (78, 22, 77),
        (1, 99, 0),
        (2, 98, 1),
    ] {
        verifies(&mut stand, count, start, Some(good), 0x10);
    }
    // 01h and 04h come first, and write 0
    for (count, start, code) in
        [(101, 0, 0x04), (2, 99, 0x04), (1, 100, 0x04), (127, 10, 0x04), (128, 0, 0x01), (1, u64::MAX, 0x04), (0, 101, 0x04)]
    {
        verifies(&mut stand, count, start, Some(0), code);
    }
    // a protected drive is verified too, more than one turn's blocks at once
    let drive = worn(protected(small_drive(0, 200)), &[126]);
    let mut stand = Stand::open(service, &[drive], 8 * 4000, 200 * 512);
    verifies(&mut stand, 127, 0, Some(126), 0x10);
    verifies(&mut stand, 126, 0, None, 0);
    verifies(&mut stand, 127, 73, Some(53), 0x10);
}

// rule: packet_tests sectors verified steps seek
fn h42_what_comes_first_and_what_heeds_no_list(service: &dyn Service) {
    let all_bad: Vec<u64> = (0..16).collect();
    let drive = worn(Drive { flags: 0x0A, ..small_drive(0, 16) }, &all_bad);
    let mut stand = Stand::open(service, &[drive, worn(protected(small_drive(16, 16)), &all_bad)], 8 * 12_000, 32 * 512);
    // refused at the post as before: 03h on a protected drive and not CCh, 04h, 09h, 01h
    for (ah, code) in [(0x43, 0x03), (0x03, 0x03)] {
        stand.packet(1, 0, 4, (0, 0x200), 0);
        let given = if ah == 0x43 { by_packet(ah, 0) } else { by_sector(ah, 4, 0, 0, 1) };
        let given = Registers { dx: given.dx & 0xFF00 | 0x81, ..given };
        let answer = if ah == 0x43 { refused(given, code) } else { refused_sectors(given, code) };
        assert_eq!(stand.post(1, given), (DONE, answer), "{ah:02x}h");
    }
    for ah in [0x42, 0x43] {
        for (count, start, buffer, code) in
            [(17, 0, 0x200, 0x04), (1, 16, 0x200, 0x04), (16, 0, 12_000 - 8191, 0x09), (128, 0, 0x200, 0x01)]
        {
            stand.packet(1, 0, count, (0, buffer), start);
            assert_eq!(stand.post(1, by_packet(ah, 0)), (DONE, refused(by_packet(ah, 0), code)), "{ah:02x}h");
            assert!(stand.window(1)[2..4] == [0, 0]);
        }
        // a count of 0 meets none, and is answered at once
        stand.packet(1, 0, 0, (0, 0x200), 3);
        let before = stand.all();
        assert_eq!(stand.post(1, by_packet(ah, 0)), (DONE, succeeded(by_packet(ah, 0))));
        assert!(stand.all() == before);
    }
    for (given, code) in [
        (by_sector(0x02, 17, 0, 0, 1), 0x04),
        (by_sector(0x02, 1, 0, 0, 17), 0x04),
        (by_sector(0x02, 0, 0, 0, 1), 0x01),
        (by_sector(0x02, 129, 0, 0, 1), 0x09),
        (Registers { bx: 12_000 - 511, ..by_sector(0x02, 1, 0, 0, 1) }, 0x09),
    ] {
        assert_eq!(stand.post(1, given), (DONE, refused_sectors(given, code)));
    }
    // 43h with verification waits as any other
    for al in [1, 2] {
        stand.packet(1, 0, 4, (0, 0x200), 0);
        let given = Registers { ax: 0x4300 | al, ..by_packet(0x43, 0) };
        stand.runs_to("with verification", 1, given, Worn { first: 0, count: 4, good: 0, buffer: 0x200 });
    }
    // no list: 47h, 08h, 41h, 48h
    let plain = |drive: Drive| Drive { bad: Bad::default(), ..drive };
    let mut good = Stand::open(service, &[plain(drive), plain(protected(small_drive(16, 16)))], 8 * 12_000, 32 * 512);
    for ah in [0x47, 0x08, 0x41, 0x48] {
        for start in [0, 15, 16] {
            let mut answers = Vec::new();
            for stand in [&mut stand, &mut good] {
                stand.window(1).fill(0x5A);
                stand.packet(1, 0, 66, (0, 0x200), start);
                let given = Registers { bx: 0x55AA, ..by_packet(ah, if ah == 0x48 { 2 } else { 0 }) };
                answers.push((stand.post(1, given), stand.window(1).to_vec()));
            }
            assert!(answers[0] == answers[1], "{ah:02x}h at {start}: as without a list");
            assert_eq!(answers[0].0 .1.carry, u16::from(ah == 0x47 && start == 16), "{ah:02x}h at {start}");
        }
    }
}

// rule: withdraw_of withdrawn_window
fn h43_withdrawn_before_the_bad_block(service: &dyn Service) {
    for ah in MOVING {
        for (turns, moved) in [(0, 0), (1, 16)] {
            let mut stand = Stand::open(service, &[worn(small_drive(0, 60), &[20])], 8 * 21_000, 60 * 512);
            stand.packet(3, 0, 40, (0, 0x200), 0);
            let given = if ah < 0x40 { by_sector(ah, 40, 0, 0, 1) } else { by_packet(ah, 0) };
            assert_eq!(stand.post(3, given).0, NOTHING_YET);
            for _ in 0..turns {
                assert_eq!(stand.turn(), (DONE, 3, 16));
            }
            let mut expected = stand.all();
            expected.0[8 * row(3, 0)..8 * row(4, 0)].fill(0);
            let al = if ah < 0x40 { moved } else { given.ax & 0xFF };
            if ah >= 0x40 {
                expected.1[3 * 21_000 + 2..3 * 21_000 + 4].copy_from_slice(&moved.to_le_bytes());
            }
            assert_eq!(stand.withdraw(3), (DONE, Registers { ax: 0x8000 | al, carry: 1, ..given }), "{ah:02x}h: 80h as before");
            assert!(stand.all() == expected, "{ah:02x}h");
            assert_eq!(stand.turn().0, NOTHING_YET);
        }
    }
}

// rule: open_call exports::edd_open moves_now
fn h44_opened_with_another_list(service: &dyn Service) {
    let lengths = (8 * 21_000, 60 * 512);
    let mut stand = Stand::open(service, &[worn(small_drive(0, 60), &[20])], lengths.0 as usize, lengths.1 as usize);
    stand.runs("with the list", 3, 0x42, 0, 40, 20);
    assert_eq!(stand.open_again(&drives::table(&[small_drive(0, 60)]), lengths.0, lengths.1), ACCEPTED);
    stand.runs("without the list", 3, 0x42, 0, 40, 40);
    assert_eq!(stand.open_again(&drives::table(&[worn(small_drive(0, 60), &[7, 20])]), lengths.0, lengths.1), ACCEPTED);
    stand.runs("with another", 3, 0x43, 0, 40, 7);
    // a request that waited is lost, and the new list counts for the next
    assert_eq!(stand.post_packet(3, 0x42, 40, 8).0, NOTHING_YET);
    assert_eq!(stand.open_again(&drives::table(&[worn(small_drive(0, 60), &[30])]), lengths.0, lengths.1), ACCEPTED);
    assert_eq!(stand.turn().0, NOTHING_YET);
    stand.runs("opened while one waited", 3, 0x42, 8, 40, 22);
}

// rule: bads_of bads_at bads_for good_of worn_block
fn h45_blocks_of_the_drive(service: &dyn Service) {
    // the second drive begins at block 50 of the store: its block 4 is the store's 54; the third, at 10, has none; the fourth all of its own
    let list = [
        worn(small_drive(100, 30), &[4]),
        worn(small_drive(50, 30), &[4, 20]),
        small_drive(10, 30),
        worn(small_drive(0, 9), &[0, 1, 2, 3, 4, 5, 6, 7, 8]),
    ];
    let mut stand = Stand::open(service, &list, 8 * 17_000, 130 * 512);
    for (dl, first, start, count, good) in [
        (0x80, 100, 0, 30, 4),
        (0x80, 100, 5, 25, 25),
        (0x80, 100, 4, 1, 0),
        (0x81, 50, 0, 30, 4),
        (0x81, 50, 5, 25, 15),
        (0x81, 50, 21, 9, 9),
        (0x82, 10, 0, 30, 30),
        (0x82, 10, 4, 1, 1),
        (0x82, 10, 10, 20, 20),
        (0x83, 0, 3, 5, 0),
        (0x83, 0, 8, 1, 0),
    ] {
        for ah in MOVING {
            stand.packet(2, 0, count as u16, (0, 0x200), start);
            let given = if ah < 0x40 { by_sector(ah, count as u8, 0, 0, start as u8 + 1) } else { by_packet(ah, 0) };
            let given = Registers { dx: given.dx & 0xFF00 | dl, ..given };
            let asked = Worn { first: first + start as usize, count, good, buffer: 0x200 };
            stand.runs_to(&format!("{ah:02x}h of {dl:x} from {start}"), 2, given, asked);
        }
        stand.packet(2, 0, count as u16, (0, 0), start);
        let given = Registers { dx: 0xD000 | dl, ..by_packet(0x44, 0) };
        let answer = if good < count { refused(given, 0x10) } else { succeeded(given) };
        assert_eq!(stand.post(2, given), (DONE, answer), "44h of {dl:x} from {start}");
        assert_eq!(stand.window(2)[2], good as u8);
    }
}

// rule: good is_bad bad_at
fn h45_numbers_above_32_bits(service: &dyn Service) {
    // a store of 5 TiB of which only what is touched takes memory; the drive begins at its block 7
    let (first, blocks) = (7, 10 << 30);
    let bad = [5, (1 << 32) + 5, (1 << 33) + 40, blocks - 1];
    let drive = worn(Drive { first, blocks, ..small_drive(0, 63) }, &bad);
    let mut stand = Stand::vast(service, &[drive], 8 * 22_000, (first + blocks) as usize * 512);
    for (start, count, good) in [
        ((1 << 32) + 6, 40, 40),
        (1 << 32, 40, 5),
        (1 << 33, 41, 40),
        (1 << 33, 40, 40),
        ((1 << 33) + 5, 1, 1),
        (blocks - 2, 2, 1),
        (blocks - 1, 1, 0),
        (0, 40, 5),
    ] {
        stand.packet(1, 0, count as u16, (0, 0x200), start);
        assert_eq!(stand.post(1, by_packet(0x44, 0)).1.carry, u16::from(good < count), "44h from {start}");
        assert_eq!(u64::from(stand.window(1)[2]), good, "44h from {start}");
        stand.packet(1, 0, count as u16, (0, 0x200), start);
        assert_eq!(stand.post(1, by_packet(0x43, 0)).0, NOTHING_YET);
        assert_eq!(stand.serve(1), parts_of(count, good), "43h from {start}");
        assert_eq!(stand.collect(1), (DONE, ended(by_packet(0x43, 0), count, good)), "43h from {start}");
    }
}

// rule: bads_ok zero_past ascends are_blocks listed_to listed_at bads_good is_sound
fn h46_lists_in_the_block(service: &dyn Service) {
    let sixteen: Vec<u64> = (0..16).map(|i| 3 * i + 2).collect();
    // of one sector each, so that fewer blocks break no other rule
    let narrow = |first, blocks| Drive { sectors: 1, ..small_drive(first, blocks) };
    let list = [worn(narrow(0, 50), &[7, 9, 30]), narrow(50, 50), worn(narrow(100, 50), &sixteen), worn(narrow(150, 1), &[0])];
    let mut stand = Stand::open(service, &list, 8 * 1024, 151 * 512);
    let (count, at) = (|slot: usize| BAD_COUNTS + slot, |slot: usize, j: usize| BAD_LISTS + 16 * slot + j);
    // how many: one more or less than there are, more than sixteen, other bytes of the word
    for slot in 0..8 {
        let there = stand.word(count(slot));
        for value in [17, 18, 255, 256, 1 << 32, 1 << 56, u64::MAX, there + 256, there | 1 << 32, there | 1 << 63] {
            stand.refused_with("a count", count(slot), value);
        }
    }
    stand.refused_with("one less: a number behind the last", count(0), 2);
    stand.refused_with("none, and numbers", count(0), 0);
    stand.refused_with("one more: 0 is not above 30", count(0), 4);
    stand.accepted_with("block 0 as the only one", count(1), 1);
    stand.refused_with("two times 0", count(1), 2);
    stand.refused_with("fifteen of sixteen", count(2), 15);
    stand.accepted_with("the only number of the last drive is 0: none", count(3), 0);
    for slot in 4..8 {
        for value in 1..=16 {
            stand.refused_with("a list without a drive", count(slot), value);
        }
        for j in 0..16 {
            for value in [1, 0xFF, 1 << 32, 1 << 63] {
                stand.refused_with("a number without a drive", at(slot, j), value);
            }
        }
    }
    // the numbers: ascending, each below the drive's blocks
    for (j, good, bad) in [
        (0, &[0, 6, 8][..], &[9, 10, 30, 50, u64::MAX, 7 | 1 << 32, 7 | 1 << 63][..]),
        (1, &[8, 10, 29], &[7, 6, 0, 30, 31, 50, u64::MAX, 9 | 1 << 40]),
        (2, &[10, 31, 49], &[9, 8, 0, 50, 51, 1 << 32, u64::MAX, 30 | 1 << 56]),
    ] {
        good.iter().for_each(|value| stand.accepted_with("another number", at(0, j), *value));
        bad.iter().for_each(|value| stand.refused_with("a bad number", at(0, j), *value));
    }
    for j in 0..16 {
        let old = sixteen[j];
        stand.accepted_with("one above", at(2, j), old + 1);
        stand.refused_with("equal to the next", at(2, j), sixteen.get(j + 1).copied().unwrap_or(50));
        if j > 0 {
            stand.refused_with("equal to the one before", at(2, j), sixteen[j - 1]);
        }
    }
    // behind the last number
    for (slot, from) in [(0, 3), (1, 0), (3, 1)] {
        for j in from..16 {
            for value in [1, 31, 49, 50, 1 << 8, 1 << 32, 1 << 63, u64::MAX] {
                stand.refused_with("a number behind the last", at(slot, j), value);
            }
        }
    }
    stand.refused_with("the last drive's block 1", at(3, 0), 1);
    // by the drive's own blocks
    for (slot, last) in [(0, 30), (2, 47)] {
        stand.accepted_with("the last number just below the drive's end", drive_word(slot, 3), last + 1);
        stand.refused_with("the last number at the drive's end", drive_word(slot, 3), last);
    }
    // a drive less: its list has no drive any more
    for word in 0..16 {
        stand.set_word(drive_word(3, word), 0);
    }
    stand.refused_with("a list past the drives", DRIVE_COUNT, 3);
    stand.set_word(count(3), 0);
    stand.set_word(DRIVE_COUNT, 3);
    assert!(stand.accepted(), "three drives, and their lists");
}

// rule: bads_ok bads_good listed_to exports::edd_write
/// Each byte of the lists changed, in some blocks: every call answers as the model does, and leaves the same block and memory.
fn h46_every_byte_of_the_lists(service: &dyn Service) {
    let blocks = [[3, 0, 16, 1, 0, 2, 0, 0], [16; 8], [0; 8]].map(worn_drives);
    for (which, list) in blocks.iter().enumerate() {
        let drives_of = if which == 0 { &list[..6] } else { &list[..] };
        let mut stand = Stand::open(service, drives_of, 8 * 1024, 480 * 512);
        assert_eq!(stand.post_packet(2, 0x42, 1, 0).0, NOTHING_YET);
        let mut accepted = 0;
        for at in 8 * BAD_COUNTS..DESK_SIZE {
            for change in [1, 0xFF, 0x80] {
                let mut block = stand.desk.bytes().to_vec();
                block[at] = block[at].wrapping_add(change);
                let by = |service: &dyn Service| {
                    let (mut written, mut served, mut out) = (UNWRITTEN, [UNWRITTEN; 2], vec![0; LONGEST_TABLE]);
                    let write = service.write(&block, &mut out, &mut written);
                    let (mut desk, mut arena, mut store) = (block.clone(), stand.arena.bytes().to_vec(), stand.store.bytes()[..].to_vec());
                    let [guest, moved] = &mut served;
                    let turn =
                        if at % 64 == 0 || write == 0 { service.turn(&mut desk, &mut arena, &mut store, guest, moved) } else { write };
                    ([write, turn], written, served, out, desk, arena)
                };
                let (got, wanted) = (by(service), by(&Model));
                assert_eq!((got.0, got.1, got.2), (wanted.0, wanted.1, wanted.2), "block {which}, byte {at}: write, turn");
                assert!(got == wanted, "block {which}, byte {at}: what they left");
                accepted += u64::from(got.0[0] == 0);
            }
        }
        assert!(accepted > 0, "block {which}: no changed byte is accepted");
    }
}

// rule: job_ok moved_ok Acceptable.accept moves_now
fn h47_rows_and_lists(service: &dyn Service) {
    // no rule of a waiting row speaks of bad blocks: one behind the moved number, or before it, is accepted
    let mut stand = Stand::open(service, &[worn(small_drive(0, 60), &[3, 20])], 8 * 21_000, 60 * 512);
    assert_eq!(stand.post_packet(4, 0x42, 40, 0).0, NOTHING_YET);
    stand.set_word(row(4, 14), 16);
    assert!(stand.accepted(), "sixteen moved over a bad block");
    assert_eq!(stand.turn(), (DONE, 4, 4), "it goes on from there, and stops at the next");
    assert!(stand.window(4)[2..4] == [20, 0]);
    assert_eq!(stand.collect(4), (DONE, ended(by_packet(0x42, 0), 40, 20)));
    assert_eq!(stand.post_packet(4, 0x43, 40, 4).0, NOTHING_YET);
    stand.set_word(row(4, 14), 32);
    assert_eq!(stand.turn(), (DONE, 4, 8), "behind both of them");
    assert_eq!(stand.collect(4), (DONE, succeeded(by_packet(0x43, 0))));
    // a list that is laid under a waiting request counts from the next turn on
    assert_eq!(stand.post_packet(4, 0x42, 40, 20).0, NOTHING_YET);
    stand.set_word(BAD_COUNTS, 1);
    stand.set_word(BAD_LISTS, 37);
    stand.set_word(BAD_LISTS + 1, 0);
    assert_eq!(stand.serve(4), [16, 1]);
    // finished rows may have carry 1 and any AH
    for ax in [0x1001, 0xCC10, 0x80FF] {
        stand.accepted_with("finished", row(4, 15), ax);
    }
    stand.refused_with("carry 2", row(4, 22), 2);
    assert_eq!(stand.collect(4), (DONE, ended(by_packet(0x42, 0), 40, 17)));
}

// rule: feed_byte feed_all Arrives after_step
fn h48_lists_in_fragments(service: &dyn Service) {
    let list = [worn(small_drive(0, 40), &[1]), with_parameters(worn(small_drive(40, 40), &[0, 5, 39]), 7), small_drive(80, 40)];
    let table = drives::table(&list);
    for cut in 0..=table.len() {
        let mut reader = Arrival::open(service, 120);
        assert_eq!(reader.feed(&table[..cut]), MORE, "the first {cut} bytes");
        let mut ended = Arrival::at(service, reader.block.bytes());
        let whole = opened(service, &table[..cut], 120);
        assert_eq!(ended.end(), whole, "ended after {cut} bytes");
        assert_eq!(reader.feed(&table[cut..]), MORE, "the others after {cut}");
        reader.ends_with(&table);
    }
    // the longest record in every two pieces, the longest table byte by byte and in pieces around the records' lengths
    let longest = longest_table();
    for cut in 76..=210 {
        let mut reader = Arrival::open(service, 480);
        for piece in [&longest[..cut], &longest[cut..]] {
            assert_eq!(reader.feed(piece), MORE, "cut at {cut}");
        }
        reader.ends_with(&longest);
    }
    for length in [1, 3, 13, 14, 75, 76, 77, 133, 134, 135, 210, 229, 230, 231, 1840, 1843, 1844] {
        let mut reader = Arrival::open(service, 480);
        for piece in longest.chunks(length) {
            assert_eq!(reader.feed(piece), MORE, "pieces of {length}");
        }
        reader.ends_with(&longest);
        assert_eq!(reader.block.bytes()[READER_TABLE..], longest[..], "the whole of the block's table");
    }
}

// rule: after_step refused_at bads_refusal Arrives
fn h49_what_settles_a_list(service: &dyn Service) {
    let drive = small_drive(0, 40);
    let with_list = worn(drive, &[1, 30]);
    let p = || parameters_record(0);
    let b = drives::bad_record;
    for (what, before, record, settling, number) in [
        ("outside", drives::table(&[drive]), b(0, &[3, 40]), 21, 5),
        ("not ascending", drives::table(&[drive]), b(0, &[3, 2, 9]), 29, 5),
        ("repeated", drives::table(&[drive]), b(0, &[3, 3]), 21, 5),
        ("sixteen, the last repeated", drives::table(&[drive]), b(0, &[0, 1, 2, 3, 4, 5, 6, 7, 8, 9, 10, 11, 12, 13, 14, 14]), 133, 5),
        ("sixteen, the first two swapped", drives::table(&[drive]), b(0, &[1, 0, 2, 3, 4, 5, 6, 7, 8, 9, 10, 11, 12, 13, 14, 15]), 133, 5),
        ("another drive's", drives::table(&[drive]), b(1, &[3]), 13, 9),
        ("no drive", drives::table(&[]), b(0, &[3]), 13, 9),
        ("the second of a drive", drives::table(&[with_list]), b(0, &[3]), 13, 9),
        ("behind kind 4", [&drive.record()[..], &p(), &drives::END].concat(), b(0, &[3]), 13, 9),
        ("17 numbers", drives::table(&[drive]), b(0, &[7; 17]), 3, 2),
        ("no number", drives::table(&[drive]), b(0, &[]), 3, 2),
        ("half a number", drives::table(&[drive]), vec![0x12, 0, 3, 0, 0, 0, 1], 3, 2),
        ("kind 103h", drives::table(&[drive]), vec![0x0E, 0, 3, 1, 0, 0, 1], 3, 3),
    ] {
        let records = before.strip_suffix(&drives::END).unwrap();
        let table = [records, &record, &drives::END].concat();
        settles(service, what, &table, 40, records.len() + settling, (number, records.len() as u64));
    }
    // sixteen numbers that lack their last byte are missing bytes, whatever they are
    for record in [b(0, &[50; 16]), b(3, &[1; 16])] {
        let mut reader = Arrival::open(service, 40);
        assert_eq!(reader.feed(&[&drive.record()[..], &record[..133]].concat()), MORE);
        assert_eq!(reader.end(), (1, 68));
    }
}

// rule: Reader.image head_bytes table_bytes is_cut Reader.accept Reader.accepted Reader.rest_zero
fn h50_readers_of_lists(service: &dyn Service) {
    let list = [worn(small_drive(0, 40), &[1, 30]), with_parameters(small_drive(40, 40), 7)];
    let table = drives::table(&list);
    let is = |reader: &Arrival, what: &str, block: Vec<u8>| {
        let at = reader.block.bytes().iter().zip(&block).position(|(got, wanted)| got != wanted);
        assert_eq!(at, None, "{what}: the first byte that differs");
    };
    // every stage, one byte after the other
    let mut reader = Arrival::open(service, 80);
    for length in 1..=table.len() {
        assert_eq!(reader.feed(&table[length - 1..length]), MORE);
        let taken = [178, 158, 90, 68, 0].into_iter().find(|place| *place <= length).unwrap();
        let whole = length == table.len();
        let held = if whole { &[][..] } else { &table[taken..length] };
        is(&reader, "reading", reader_block(u64::from(whole), 0, 80, held, &table[..taken]));
    }
    // refused in a list: the drives before it
    for (list, refusal) in [(&[1, 1][..], (5, 68)), (&[40], (5, 68)), (&[], (2, 68))] {
        let mut reader = Arrival::open(service, 80);
        assert_eq!(reader.feed(&[&table[..68], &drives::bad_record(0, list)].concat()), refusal);
        is(&reader, "refused", reader_block(3, u64::from(refusal.0), 80, &[], &table[..68]));
    }
    // a full block: the longest record but for its last byte, after the longest table
    let longest = longest_table();
    let mut reader = Arrival::open(service, 480);
    assert_eq!(reader.feed(&[&longest[..1840], &longest[76..209]].concat()), MORE);
    is(&reader, "full", reader_block(0, 0, 480, &longest[76..209], &longest[..1840]));
    assert_eq!(reader.feed(&longest[209..210]), (9, 1840));
    is(&reader, "refused when full", reader_block(3, 9, 480, &[], &longest[..1840]));

    // what may be held: any beginning of a list, of one to sixteen numbers
    let refused = |what: &str, block: &[u8]| Arrival::at(service, block).refused_everywhere(what);
    let says = |what: &str, block: &[u8], answer: (u32, u64)| {
        let mut reader = Arrival::at(service, block);
        reader.unchanged(what, |reader| assert_eq!(reader.feed(&[]), answer, "{what}"));
    };
    for numbers in 1..=16 {
        let record = drives::bad_record(0xFFFF, &vec![u64::MAX; numbers]);
        for held in [4, 5, 6, 13, record.len() - 1] {
            says("a beginning", &reader_block(0, 0, 80, &record[..held], &table[..68]), MORE);
            says("a beginning without a drive", &reader_block(0, 0, 80, &record[..held], &[]), MORE);
        }
        if numbers < 16 {
            refused("a whole list", &reader_block(0, 0, 80, &record, &table[..68]));
        }
        let mut longer = record.clone();
        longer.push(0);
        if longer.len() <= LONGEST_RECORD {
            refused("more than a list", &reader_block(0, 0, 80, &longer, &table[..68]));
        }
    }
    let mut block = reader_block(0, 0, 80, &[], &table[..68]);
    block[40..174].copy_from_slice(&drives::bad_record(0, &[u64::MAX; 16]));
    block[24] = 134;
    refused("a whole list of sixteen", &block);
    block[24] = 133;
    refused("a byte past those held", &block);
    for header in [
        [6, 0, 3, 0],
        [13, 0, 3, 0],
        [15, 0, 3, 0],
        [142, 0, 3, 0],
        [14, 1, 3, 0],
        [14, 0, 3, 1],
        [68, 0, 3, 0],
        [14, 0, 4, 0],
        [14, 0, 1, 0],
    ] {
        refused("no beginning", &reader_block(0, 0, 80, &header, &table[..68]));
    }
    // the table in it: its lists obey their rules
    for (what, at, byte) in [("repeated", 82, 1), ("outside", 82, 40), ("another drive", 72, 1), ("length", 68, 21), ("high byte", 81, 1)] {
        let mut block = reader_block(0, 0, 80, &[], &table[..178]);
        block[READER_TABLE + at] = byte;
        refused(what, &block);
    }
    let mut block = reader_block(0, 0, 80, &[], &table[..178]);
    block[READER_TABLE + 82] = 39;
    says("another list", &block, MORE);
    let swapped = [&table[..68], &table[158..178], &table[68..90]].concat();
    refused("kind 3 behind kind 4", &reader_block(2, 0, 80, &[], &swapped));
    // a reader on the way to a list goes on, and judges it by the drive that it has
    for (last, answer) in [(39, MORE), (40, (5, 68))] {
        let record = drives::bad_record(0, &[0, last]);
        let mut going_on = Arrival::at(service, &reader_block(0, 0, 80, &record[..20], &table[..68]));
        assert_eq!(going_on.feed(&record[20..]), answer);
    }
}

// rule: exports::edd_turn exports::edd_post moves_now
/// A turn at a bad block touches neither that block nor those behind it, and 44h no block at all.
fn h51_no_other_memory_is_touched(service: &dyn Service) {
    const WINDOW: usize = 16 * 4096;
    let drive = Drive { first: 16, blocks: 256, cylinders: 4, heads: 1, sectors: 63, ..paper_drive() };
    for (bad, turns) in [(32, &[(48, 0)][..]), (40, &[(48, 8)]), (48, &[(48, 16), (64, 0)]), (56, &[(48, 16), (64, 8)])] {
        let mut stand = Stand::open(service, &[worn(drive, &[bad])], 8 * WINDOW, 300 * 4096);
        for guest in 0..8 {
            for ah in [0x42, 0x43, 0x02, 0x03] {
                // blocks 32 to 71 of the drive, which lies at block 16 of the store; eight of them are a page
                stand.packet(guest, 0, 40, (0, 0x1000), 32);
                let given = if ah < 0x40 { Registers { bx: 0x1000, ..by_sector(ah, 40, 0, 0, 33) } } else { by_packet(ah, 0) };
                stand.arena.keep_only(Some(guest * WINDOW..(guest + 1) * WINDOW));
                stand.store.keep_only(Some(0..0));
                assert_eq!(stand.post(guest as u64, by_packet(0x44, 0)), (DONE, refused(by_packet(0x44, 0), 0x10)));
                stand.packet(guest, 0, 40, (0, 0x1000), 32);
                assert_eq!(stand.post(guest as u64, given).0, NOTHING_YET);
                for (from, blocks) in turns {
                    stand.store.keep_only(Some(512 * from..512 * (from + blocks)));
                    assert_eq!(stand.turn(), (DONE, guest as u64, *blocks as u64));
                }
                stand.arena.keep_only(Some(0..0));
                assert_eq!(stand.collect(guest as u64), (DONE, ended(given, 40, bad - 32)));
                stand.arena.keep_only(None);
                stand.store.keep_only(None);
            }
        }
    }
}

// ---- h: division (change request 2026-05)

// rule: address_of exports::edd_address
/// Every block of the largest geometry has its address, and a number of 64 bits is compared whole: one that is a multiple of 2^32, of
/// S x 2^32, S x H x 2^32 or C x H x S x 2^32 above a good block, which a narrowed block or quotient would be taken for, is refused.
fn h52_blocks_of_64_bits(service: &dyn Service) {
    let of = |c, h, s| Geometry { cylinders: c, heads: h, sectors: s };
    let address = |g, number| {
        let mut out = Address { cylinder: 91, head: 92, sector: 93 };
        let answer = service.address(g, number, &mut out);
        (answer, [out.cylinder, out.head, out.sector])
    };
    for g in [of(1, 1, 1), of(3, 4, 5), of(2, 255, 1), of(1024, 1, 63), of(1024, 255, 63)] {
        let (c, h, s) = (u64::from(g.cylinders), u64::from(g.heads), u64::from(g.sectors));
        let size = c * h * s;
        assert_eq!(address(g, size - 1), (DONE, [g.cylinders - 1, g.heads - 1, g.sectors]));
        for step in [1, s, s * h, size].map(|by| by << 32) {
            for times in [1, 2, 3, u64::MAX / step] {
                for block in [0, 1, s - 1, s, s * h - 1, size - 1].into_iter().filter(|block| *block < size) {
                    let Some(beyond) = (times * step).checked_add(block) else { continue };
                    assert_eq!(address(g, beyond), (4, [91, 92, 93]), "block {beyond}");
                }
            }
        }
    }
    for number in 0..LARGEST as u32 {
        let expected = [number / 63 / 255, number / 63 % 255, number % 63 + 1];
        assert_eq!(address(of(1024, 255, 63), u64::from(number)), (DONE, expected), "block {number}");
    }
}

// ---- h: the 74-byte result, drives of kind 2, conversions (change request 2026-06)

/// A drive of kind 2 and of type I2O.
fn i2o(drive: Drive, tail: [u8; 8]) -> Drive {
    Drive { interface_type: drives::I2O, ..wide(drive, tail) }
}

/// A drive of kind 2 and of type I2O with another value in every byte of its record that 48h shows.
fn i2o_with_all_fields() -> Drive {
    Drive {
        physical: [0x0102_0304, 0x0506_0708, 0x090A_0B0C],
        blocks: 0x0112_1314,
        first: 17,
        flags: 0x56,
        cylinders: 291,
        heads: 127,
        sectors: 45,
        protection: 1,
        host_bus: *b"ISA\0",
        interface_type: drives::I2O,
        interface_path: [0x61, 0x62, 0x63, 0x64, 0x65, 0x66, 0x67, 0x68],
        device_path: [0x71, 0x72, 0x73, 0x74, 0x75, 0x76, 0x77, 0x78],
        tail: Some([0x81, 0x82, 0x83, 0x84, 0x85, 0x86, 0x87, 0x88]),
        bad: Bad::default(),
        parameters: None,
    }
}

fn wide_record(number: u64) -> Vec<u8> {
    wide(small_drive(number, 1), [0xA0 + number as u8; 8]).record()
}

impl Stand<'_> {
    /// A 48h for guest 6 with the size word at 0000:place, or without one where it does not fit, that returns so many bytes or is 01h.
    /// Nothing else changes.
    fn returns(&mut self, what: &str, dl: u8, place: usize, asked: u16, returned: Option<usize>) {
        let length = self.arena.bytes().len() / 8;
        if place + 2 <= length {
            self.window(6)[place..place + 2].copy_from_slice(&asked.to_le_bytes());
        }
        let before = self.all();
        let given = Registers { ds: 0, si: place as u16, ..registers(0x48, 9, dl) };
        let got = self.post(6, given);
        let Some(size) = returned else {
            assert_eq!(got, (DONE, refused(given, 0x01)), "{what}: size {asked}");
            assert!(self.all() == before, "{what}: size {asked}: something changed");
            return;
        };
        assert_eq!(got, (DONE, succeeded(given)), "{what}: size {asked}");
        let (desk, arena, store) = self.all();
        let at = 6 * length + place;
        assert_eq!(arena[at..at + 2], (size as u16).to_le_bytes(), "{what}: size {asked}");
        assert!(arena[..at] == before.1[..at], "{what}: size {asked}: bytes before the result");
        assert!(arena[at + size..] == before.1[at + size..], "{what}: size {asked}: bytes past the result stay");
        assert!((desk, store) == (before.0, before.2), "{what}: size {asked}: desk or store");
    }
}

// rule: returned_size result_answer
fn h53_result_sizes(service: &dyn Service) {
    let drives = [
        ("kind 1", small_drive(0, 4), 66),
        ("kind 2 with eight zeros", wide(small_drive(4, 4), [0; 8]), 66),
        ("kind 2", wide(small_drive(8, 4), [0x5A; 8]), 66),
        ("I2O", i2o(small_drive(12, 4), [0x5A; 8]), 30),
        ("I2O with eight zeros", i2o(small_drive(16, 4), [0; 8]), 30),
        ("kind 1 behind I2O", small_drive(20, 4), 66),
    ];
    let mut stand = Stand::open(service, &drives.map(|(_, drive, _)| drive), 8 * 1024, 24 * 512);
    // the low byte of some is that of another size
    let more = [100, 255, 256, 256 + 25, 256 + 26, 256 + 30, 256 + 66, 256 + 74, 0x1A00, 0x4200, 0x4A00, 65534, 65535];
    for (dl, (what, _, at_66)) in (0x80..).zip(drives) {
        for asked in (0..=75).chain(more) {
            let returned = match asked {
                0..=25 => None,
                26..=29 => Some(26),
                30..=65 => Some(30),
                66..=73 => Some(at_66),
                _ => Some(74),
            };
            stand.returns(what, dl, 0x123, asked, returned);
        }
    }
}

// rule: whole_result checksum
fn h54_whole_results(service: &dyn Service) {
    // document 01's drive: byte 73 makes the sum zero, with 20h in both names
    let expected = [
        0x4A, 0, 2, 0, 2, 0, 0, 0, 16, 0, 0, 0, 63, 0, 0, 0, 0, 8, 0, 0, 0, 0, 0, 0, 0, 2, 0xFF, 0xFF, 0xFF, 0xFF, // to 29
        0xDD, 0xBE, 0x2C, 0, 0, 0, 0x50, 0x43, 0x49, 0x20, 0x41, 0x54, 0x41, 0x20, 0x20, 0x20, 0x20, 0x20, // to 47
        0, 0x1F, 1, 0, 0, 0, 0, 0, 0, 0, 0, 0, 0, 0, 0, 0, 0, 0, 0, 0, 0, 0, 0, 0, 0, 0xA7,
    ];
    let mut stand = Stand::paper(service, 1024);
    for asked in [74, 75, 1000, 65535] {
        assert_eq!(stand.result(3, 0x80, asked).0, expected, "document 01's drive, size {asked}");
    }
    // its conversion has the same result, and one with a path of sixteen bytes shows the other eight from 64 on
    let mut stand = Stand::open(service, &[wide(paper_drive(), [0; 8])], 8 * 1024, 2048 * 512);
    assert_eq!(stand.result(3, 0x80, 74).0, expected, "its conversion");
    let mut stand = Stand::open(service, &[wide(paper_drive(), [1, 2, 3, 4, 5, 6, 7, 8])], 8 * 1024, 2048 * 512);
    let mut with_tail = expected;
    with_tail[64..72].copy_from_slice(&[1, 2, 3, 4, 5, 6, 7, 8]);
    with_tail[73] = 0x83;
    assert_eq!(stand.result(3, 0x80, 74).0, with_tail, "with a tail");

    // every byte another value
    let mut expected = [
        0x4A, 0, 0x56, 0, 4, 3, 2, 1, 8, 7, 6, 5, 12, 11, 10, 9, 0x14, 0x13, 0x12, 1, 0, 0, 0, 0, 0, 2, 0xFF, 0xFF, 0xFF,
        0xFF, // to 29
        0xDD, 0xBE, 0x2C, 0, 0, 0, 0x49, 0x53, 0x41, 0x20, 0x49, 0x32, 0x4F, 0x20, 0x20, 0x20, 0x20, 0x20, // to 47
        0x61, 0x62, 0x63, 0x64, 0x65, 0x66, 0x67, 0x68, 0x71, 0x72, 0x73, 0x74, 0x75, 0x76, 0x77, 0x78, // to 63
        0x81, 0x82, 0x83, 0x84, 0x85, 0x86, 0x87, 0x88, 0, 0xE6,
    ];
    let drive = i2o_with_all_fields();
    let store = 512 * (drive.first + drive.blocks) as usize;
    let mut stand = Stand::vast(service, &[drive], 8 * 1024, store);
    assert_eq!(stand.result(3, 0x80, 74).0, expected, "I2O");
    // asked with 66 it is answered as with 30; the size word is 30
    stand.window(3)[0x21E..0x260].fill(0x77);
    expected[0] = 30;
    assert_eq!(stand.result(3, 0x80, 66).0, expected[..30], "I2O, size 66");
    assert_eq!(stand.window(3)[0x21E..0x260], [0x77; 66], "bytes from 30 on stay");
    // the same drive of another type has 66 bytes, with NULs, length byte 24h and the first eight bytes of the path
    let mut stand = Stand::vast(service, &[Drive { interface_type: *b"FIBRE\0\0\0", ..drive }], 8 * 1024, store);
    expected[0] = 74;
    expected[40..45].copy_from_slice(b"FIBRE");
    expected[73] = 0x88;
    assert_eq!(stand.result(3, 0x80, 74).0, expected, "FIBRE");
    expected[0] = 66;
    let end = [
        0xDD, 0xBE, 0x24, 0, 0, 0, 0x49, 0x53, 0x41, 0, 0x46, 0x49, 0x42, 0x52, 0x45, 0, 0, 0, // to 47
        0x61, 0x62, 0x63, 0x64, 0x65, 0x66, 0x67, 0x68, 0x71, 0x72, 0x73, 0x74, 0x75, 0x76, 0x77, 0x78, 0, 0x34,
    ];
    stand.window(3)[0x242..0x260].fill(0x77);
    assert_eq!(stand.result(3, 0x80, 66).0, [&expected[..30], &end].concat(), "FIBRE, size 66");
    assert_eq!(stand.window(3)[0x242..0x260], [0x77; 30], "bytes from 66 on stay");
}

// rule: whole_result checksum
/// The names of document 000, with its padding, in the longer result; with the record's in the shorter one.
fn h55_padding(service: &dyn Service) {
    let buses = [(*b"PCI\0", [0x50, 0x43, 0x49, 0x20]), (*b"ISA\0", [0x49, 0x53, 0x41, 0x20])];
    let types = [
        (*b"ATA\0\0\0\0\0", [0x41, 0x54, 0x41, 0x20, 0x20, 0x20, 0x20, 0x20]),
        (*b"ATAPI\0\0\0", [0x41, 0x54, 0x41, 0x50, 0x49, 0x20, 0x20, 0x20]),
        (*b"SCSI\0\0\0\0", [0x53, 0x43, 0x53, 0x49, 0x20, 0x20, 0x20, 0x20]),
        (*b"USB\0\0\0\0\0", [0x55, 0x53, 0x42, 0x20, 0x20, 0x20, 0x20, 0x20]),
        (*b"1394\0\0\0\0", [0x31, 0x33, 0x39, 0x34, 0x20, 0x20, 0x20, 0x20]),
        (*b"FIBRE\0\0\0", [0x46, 0x49, 0x42, 0x52, 0x45, 0x20, 0x20, 0x20]),
        (drives::I2O, [0x49, 0x32, 0x4F, 0x20, 0x20, 0x20, 0x20, 0x20]),
    ];
    // zeros in the paths are no padding
    let paths = ([0, 1, 2, 0, 4, 0, 0, 7], [0, 9, 0, 0, 0, 0, 0, 0]);
    for (host_bus, shown_bus) in buses {
        for (interface_type, shown_type) in types {
            let base = Drive { host_bus, interface_type, interface_path: paths.0, device_path: paths.1, ..small_drive(0, 1) };
            for drive in [base, wide(base, [0; 8]), wide(base, [0, 0xEE, 0, 0, 0, 0, 0, 0x11])] {
                let is_i2o = interface_type == drives::I2O;
                if is_i2o && drive.tail.is_none() {
                    continue;
                }
                let mut stand = Stand::open(service, &[drive], 8 * 1024, 512);
                let long = stand.result(1, 0x80, 74).0;
                assert_eq!(long[..2], [74, 0]);
                assert_eq!(long[30..36], [0xDD, 0xBE, 0x2C, 0, 0, 0]);
                assert_eq!((&long[36..40], &long[40..48]), (&shown_bus[..], &shown_type[..]), "padded with 20h");
                assert_eq!((&long[48..56], &long[56..64]), (&paths.0[..], &paths.1[..]), "the paths as they are");
                assert_eq!(long[64..72], drive.tail.unwrap_or([0; 8]));
                assert_eq!((long[72], long[30..74].iter().fold(0, |sum: u8, byte| sum.wrapping_add(*byte))), (0, 0));
                let short = stand.result(1, 0x80, 73).0;
                if is_i2o {
                    assert_eq!(short.len(), 30);
                    continue;
                }
                assert_eq!(short[..2], [66, 0]);
                assert_eq!(short[30..36], [0xDD, 0xBE, 0x24, 0, 0, 0]);
                assert_eq!((&short[36..40], &short[40..48]), (&host_bus[..], &interface_type[..]), "NULs as in the record");
                assert_eq!((&short[48..56], &short[56..64]), (&paths.0[..], &paths.1[..]));
                assert_eq!((short[64], short[30..66].iter().fold(0, |sum: u8, byte| sum.wrapping_add(*byte))), (0, 0));
            }
        }
    }
    // the channel, byte 51, is byte 3 of the interface path: any value, of either kind
    for channel in [0, 1, 2, 0x20, 0x7F, 0xFF] {
        let base = Drive { interface_path: [1, 2, 3, channel, 5, 6, 7, 8], ..small_drive(0, 1) };
        for drive in [base, wide(base, [9; 8]), i2o(base, [9; 8])] {
            let mut stand = Stand::open(service, &[drive], 8 * 1024, 512);
            assert_eq!(stand.result(1, 0x80, 74).0[48..56], [1, 2, 3, channel, 5, 6, 7, 8]);
        }
    }
}

// rule: result_answer returned_size
fn h56_room(service: &dyn Service) {
    let drives = [small_drive(0, 4), wide(small_drive(4, 4), [0x5A; 8]), i2o(small_drive(8, 4), [0x5A; 8])];
    let mut stand = Stand::open(service, &drives, 8 * 1024, 12 * 512);
    for (dl, needed_at_66) in [(0x80, 66), (0x81, 66), (0x82, 30)] {
        for left in [0, 1, 2, 25, 26, 29, 30, 31, 65, 66, 67, 72, 73, 74, 75] {
            // it never falls back to a shorter result
            for (asked, needed) in [(26, 26), (30, 30), (65, 30), (66, needed_at_66), (73, needed_at_66), (74, 74), (75, 74), (65535, 74)] {
                let returned = (left >= 2 && left >= needed).then_some(needed);
                stand.returns(&format!("{left} left"), dl, 1024 - left, asked, returned);
            }
        }
    }
}

// rule: whole_result pointer_of shown_in
/// The pointer to the parameter table is there in the longer result, and where an I2O drive is asked with 66.
fn h57_placed_tables(service: &dyn Service) {
    let list = [
        with_parameters(small_drive(0, 4), 0x10),
        with_parameters(i2o(small_drive(4, 4), [0x5A; 8]), 0x30),
        i2o(small_drive(8, 4), [0x5A; 8]),
        with_parameters(wide(small_drive(12, 4), [0; 8]), 0x50),
    ];
    let mut stand = Stand::open(service, &list, 8 * 1024, 16 * 512);
    let sizes = [(26, 26, 26), (30, 30, 30), (65, 30, 30), (66, 66, 30), (73, 66, 30), (74, 74, 74), (65535, 74, 74)];
    for placed in [false, true] {
        let pointers = if placed { [[0, 0, 4, 0], [0, 0, 5, 0], NO_POINTER, [0, 0, 6, 0]] } else { [NO_POINTER; 4] };
        for (dl, pointer) in (0x80..).zip(pointers) {
            for (asked, other, of_i2o) in sizes {
                let returned = if matches!(dl, 0x81 | 0x82) { of_i2o } else { other };
                stand.window(2)[0x200..0x260].fill(0x77);
                let (result, after_26) = stand.result(2, dl, asked);
                assert_eq!((result.len(), &result[..2]), (returned, &[returned as u8, 0][..]), "{dl:02x}, size {asked}");
                assert_eq!(after_26, if asked < 30 { [0x77; 4] } else { pointer }, "{dl:02x}, size {asked}, placed: {placed}");
                assert!(stand.window(2)[0x200 + returned..0x260].iter().all(|byte| *byte == 0x77), "{dl:02x}, size {asked}: bytes past it");
            }
            assert_eq!(stand.shown(2, dl), (pointer, if pointer == NO_POINTER { 1 } else { 5 }), "41h of {dl:02x}");
        }
        if !placed {
            let of_i2o = [0x30, 0x31, 0x32, 0x33, 0xB4, 0x35, 0x36, 0x37, 0x38, 0x39, 0x3A, 0x3B, 0x3C, 0x3D, 0x11, 0x74];
            stand.place_done(2, 0x40, &[GAPPED[0], of_i2o, GAPPED[1]]);
        }
    }
}

// rule: flags_shown FlagBits
fn h58_flags_of_every_size(service: &dyn Service) {
    let words = [(0x7A, 0x0A), (0x7E, 0x7E), (0x70, 0x00), (0x74, 0x74), (0x2B, 0x0B)];
    for (flags, shown) in words {
        let base = Drive { flags, ..small_drive(0, 1) };
        for drive in [base, wide(base, [0; 8]), wide(base, [0x70; 8]), i2o(base, [0x70; 8])] {
            let mut stand = Stand::open(service, &[drive], 8 * 1024, 512);
            for asked in [26, 30, 66, 74] {
                assert_eq!(stand.result(1, 0x80, asked).0[2..4], [shown, 0], "flags {flags:02x}, size {asked}");
            }
            assert_eq!(stand.word(drive_word(0, 5)), u64::from(flags), "the block keeps what was written");
        }
    }
}

// rule: record_of table_of drive_words write_out
fn h59_the_kind_is_kept(service: &dyn Service) {
    let tails = [None, Some([0; 8]), Some([1, 2, 3, 4, 5, 6, 7, 8]), Some([0, 0, 0, 0, 0, 0, 0, 0x80]), Some([0xFF; 8])];
    // each pair of neighbours, and all after one another
    let pairs = tails.iter().flat_map(|a| tails.map(|b| vec![*a, b]));
    for list in pairs.chain([tails.to_vec(), [tails.to_vec(), tails[..3].to_vec()].concat()]) {
        let drives_of: Vec<Drive> = list.iter().zip(0..).map(|(tail, i)| Drive { tail: *tail, ..small_drive(i, 1) }).collect();
        let table = drives::table(&drives_of);
        assert_eq!(table.len(), list.iter().map(|tail| if tail.is_some() { 76 } else { 68 }).sum::<usize>() + 4);
        let stand = Stand::open(service, &drives_of, 8 * 1024, 8 * 512);
        for (slot, tail) in list.iter().enumerate() {
            let words = (stand.word(drive_word(slot, KIND)), stand.word(drive_word(slot, TAIL)).to_le_bytes());
            assert_eq!(words, tail.map_or((1, [0; 8]), |tail| (2, tail)), "{list:?}: slot {slot} of the block");
        }
        for slot in list.len()..8 {
            assert_eq!((0..16).map(|word| stand.word(drive_word(slot, word))).sum::<u64>(), 0, "a blank slot");
        }
        let mut out = Lent::holding(&vec![0x3C; table.len() + 9], Place::END);
        assert_eq!(stand.write(out.bytes_mut()), (DONE, table.len() as u64), "{list:?}");
        assert!(out.bytes()[..table.len()] == table, "{list:?}: byte for byte");
        assert!(out.bytes()[table.len()..] == [0x3C; 9] && out.margin_intact(), "{list:?}: bytes past it stay");
        out.set_length(table.len() - 1, Place::END);
        out.bytes_mut().fill(0x3C);
        assert_eq!(stand.write(out.bytes_mut()), (19, UNWRITTEN), "{list:?}: one byte less");
        assert!(out.bytes().iter().all(|byte| *byte == 0x3C));
    }
    let all = i2o_with_all_fields();
    let stand = Stand::vast(service, &[all], 0, 512 * (all.first + all.blocks) as usize);
    let mut out = [0; 80];
    assert_eq!(stand.write(&mut out), (DONE, 80));
    assert!(out[..] == drives::table(&[all])[..], "NULs in the names, as they were");
    assert_eq!(
        (out[..4].to_vec(), out[68..].to_vec()),
        (vec![76, 0, 2, 0], vec![0x81, 0x82, 0x83, 0x84, 0x85, 0x86, 0x87, 0x88, 4, 0, 0, 0])
    );
}

// rule: read_table table_of write_out feed_all
/// Eight drives of kind 2 with sixteen bad blocks and parameters each: the longest table, read whole, in fragments, and written.
fn h60_the_longest_table(service: &dyn Service) {
    let table = longest_table();
    assert_eq!((table.len(), LONGEST_TABLE), (1844, 1844));
    assert_eq!(opened(service, &table, 480), ACCEPTED);
    assert_eq!(opened(service, &table, 479), (6, 1610), "the last drive does not fit");
    assert_eq!(opened(service, &[&table[..], &[0]].concat(), 480), (8, 1844));
    for missing in [1, 3, 4] {
        assert_eq!(opened(service, &table[..1844 - missing], 480), (1, 1840), "{missing} bytes missing");
    }
    assert_eq!(opened(service, &[&table[..1840], &wide_record(9)].concat(), 600), (4, 1840), "a ninth");
    let mut stand = Stand::open(service, &[], 8 * 1024, 480 * 512);
    assert_eq!(stand.open_again(&table, 8 * 1024, 480 * 512), ACCEPTED);
    let mut out = vec![0x3C; 1845];
    assert_eq!(stand.write(&mut out), (DONE, 1844));
    assert!(out[..1844] == table && out[1844] == 0x3C);
    assert_eq!(stand.write(&mut out[..1843]), (19, UNWRITTEN));
    for length in [1, 2, 75, 76, 77, 134, 230, 921, 1843, 1844, 2000] {
        let mut reader = Arrival::open(service, 480);
        for piece in table.chunks(length) {
            assert_eq!(reader.feed(piece), MORE, "pieces of {length}");
        }
        reader.ends_with(&table);
        assert_eq!(reader.write(&mut out[..1843]), (19, UNWRITTEN));
    }
    for cut in (0..=table.len()).step_by(7) {
        let mut reader = Arrival::open(service, 480);
        assert_eq!((reader.feed(&table[..cut]), reader.feed(&table[cut..])), (MORE, MORE), "cut at {cut}");
        reader.ends_with(&table);
    }
}

// rule: read_table header_of length_ok is_kind refusal
fn h61_records_of_both_kinds(service: &dyn Service) {
    let (d, w, p) = (small_record, wide_record, parameters_record);
    let b = |number| drives::bad_record(number, &[0]);
    let cases: [(&str, Vec<Vec<u8>>, (u32, u64)); 23] = [
        ("one of kind 2", vec![w(0)], ACCEPTED),
        ("both kinds", vec![d(0), w(1), d(2), w(3), w(4)], ACCEPTED),
        ("a list", vec![w(0), b(0)], ACCEPTED),
        ("parameters", vec![w(0), p(0)], ACCEPTED),
        ("both", vec![w(0), b(0), p(0)], ACCEPTED),
        ("both, for both kinds", vec![w(0), b(0), p(0), d(1), b(1), p(1), w(2), p(2)], ACCEPTED),
        ("a list behind kind 4", vec![w(0), p(0), b(0)], (9, 96)),
        ("a list twice", vec![w(0), b(0), b(0)], (9, 90)),
        ("parameters twice", vec![w(0), p(0), p(0)], (9, 96)),
        ("parameters of the drive before", vec![d(0), w(1), p(0)], (9, 144)),
        ("a list of the drive before", vec![w(0), d(1), b(0)], (9, 144)),
        ("a later drive's list", vec![w(0), b(1)], (9, 76)),
        ("a list outside the drive", vec![w(0), drives::bad_record(0, &[1])], (5, 76)),
        ("overlap, kind 1 first", vec![d(0), w(0)], (7, 68)),
        ("overlap, kind 2 first", vec![w(0), d(0)], (7, 76)),
        ("overlap, both kind 2", vec![w(3), w(1), w(3)], (7, 152)),
        ("past the store", vec![w(0), w(9)], (6, 76)),
        ("past the store, the first", vec![w(9)], (6, 0)),
        ("I2O", vec![i2o(small_drive(2, 1), [1; 8]).record()], ACCEPTED),
        ("I2O, and eight zeros", vec![i2o(small_drive(2, 1), [0; 8]).record()], ACCEPTED),
        ("I2O in kind 1", vec![w(0), Drive { interface_type: drives::I2O, ..small_drive(1, 1) }.record()], (5, 76)),
        ("5 before 6", vec![Drive { sectors: 0, ..wide(small_drive(9, 1), [1; 8]) }.record()], (5, 0)),
        ("6 before 7", vec![w(8), wide(small_drive(8, 2), [1; 8]).record()], (6, 76)),
    ];
    for (what, records, expected) in cases {
        let table = [records.concat(), drives::END.to_vec()].concat();
        assert_eq!(opened(service, &table, 9), expected, "{what}");
    }
    assert_eq!(opened(service, &w(0), 9), (1, 76), "no end record");
    // both kinds count for the ninth
    for kinds in 0..=0xFF {
        let of = |i: u64| if kinds >> i & 1 == 1 { w(i) } else { d(i) };
        let eight: Vec<u8> = (0..8).flat_map(of).collect();
        let place = 8 * 68 + 8 * (kinds as u32).count_ones() as u64;
        assert_eq!(opened(service, &[&eight[..], &drives::END].concat(), 9), ACCEPTED, "kinds {kinds:08b}");
        for ninth in [d(8), w(8)] {
            assert_eq!(opened(service, &[&eight[..], &ninth, &drives::END].concat(), 9), (4, place), "kinds {kinds:08b}");
            assert_eq!(opened(service, &[&eight[..], &ninth[..67]].concat(), 9), (1, place), "cut off, 1 before 4");
        }
        assert_eq!(opened(service, &[&eight[..], &w(8)[..75]].concat(), 9), (1, place), "cut off, 1 before 4");
    }
    let faulty = Drive { sectors: 0, ..wide(small_drive(0, 1), [1; 8]) }.record();
    assert_eq!(opened(service, &[(0..8).flat_map(w).collect(), faulty].concat(), 9), (4, 608), "4 before 5");
    // lengths: each kind has its own, by the whole word, before 1
    for (kind, record, length) in [(1u8, d(0), 68), (2, w(0), 76)] {
        for other in (0..=300).chain([0x4400, 0x4C00, 0x144, 0x14C, 65535]).filter(|other| *other != length) {
            let mut bytes = record.clone();
            bytes[..2].copy_from_slice(&u16::to_le_bytes(other));
            assert_eq!(opened(service, &bytes, 9), (2, 0), "kind {kind} of length {other}");
            assert_eq!(opened(service, &bytes[..4], 9), (2, 0), "kind {kind} of length {other}, cut off");
        }
        for cut in 0..usize::from(length) {
            assert_eq!(opened(service, &record[..cut], 9), (1, 0), "{cut} bytes of kind {kind}");
        }
        for high in [1, 2, 0x80] {
            let mut bytes = record.clone();
            bytes[3] = high;
            assert_eq!(opened(service, &bytes, 9), (3, 0), "kind {kind} and a high byte");
        }
    }
}

// rule: fields_ok refusal
fn h62_fields_of_kind_2(service: &dyn Service) {
    for tail in [[0; 8], [0xFE; 8], *b"I2O\0\0\0\0\0"] {
        for (what, drive, number) in field_cases(paper_drive()) {
            let expected = (number, if number == 0 { UNWRITTEN } else { 0 });
            assert_eq!(opened(service, &drives::table(&[wide(drive, tail)]), 2048), expected, "{what}");
        }
    }
    // I2O, NUL-padded, and in kind 2 only
    let types = [
        (*b"I2O\0\0\0\0\0", 0),
        (*b"I2O     ", 5),
        (*b"I2O\0\0\0\0 ", 5),
        (*b"I2O \0\0\0\0", 5),
        (*b"i2o\0\0\0\0\0", 5),
        (*b"I20\0\0\0\0\0", 5),
        (*b"I2O\0\0\0\0\x01", 5),
        (*b"I2OI2O\0\0", 5),
        (*b"\0I2O\0\0\0\0", 5),
        (*b"I2\0\0\0\0\0\0", 5),
    ];
    for (interface_type, number) in types {
        let drive = Drive { interface_type, ..paper_drive() };
        let expected = (number, if number == 0 { UNWRITTEN } else { 0 });
        assert_eq!(opened(service, &drives::table(&[wide(drive, [3; 8])]), 2048), expected, "{interface_type:?} in kind 2");
        assert_eq!(opened(service, &drives::table(&[drive]), 2048), (5, 0), "{interface_type:?} in kind 1");
    }
    for host_bus in [*b"I2O\0", *b"ISA ", *b"PCI "] {
        assert_eq!(opened(service, &drives::table(&[wide(Drive { host_bus, ..paper_drive() }, [0; 8])]), 2048), (5, 0));
    }
}

// rule: after_step refused_at reader_feed_call Arrives
fn h63_what_settles_kind_2(service: &dyn Service) {
    let good = [wide(small_drive(0, 4), [1; 8]), with_parameters(i2o(small_drive(4, 4), [2; 8]), 1), small_drive(8, 4)];
    for before in 0..=3 {
        let records = drives::table(&good[..before]).strip_suffix(&drives::END).unwrap().to_vec();
        let at = records.len();
        assert_eq!(at, [0, 76, 172, 240][before]);
        let after = |record: &[u8]| [&records[..], record, &drives::END].concat();
        for (header, number) in
            [([0x44, 0, 2, 0], 2), ([0x4B, 0, 2, 0], 2), ([0x4C, 1, 2, 0], 2), ([0x4C, 0, 1, 0], 2), ([0x4C, 0, 5, 0], 3)]
        {
            settles(service, "a header", &after(&[&header[..], &[7; 80]].concat()), 64, at + 3, (number, at as u64));
        }
        // with the last byte of the tail, though the fields before it say it already
        let bad = wide(small_drive(12, 4), [9; 8]);
        for (what, drive, number) in [
            ("a field", Drive { protection: 2, ..bad }, 5),
            ("I2O and spaces", Drive { interface_type: *b"I2O     ", ..bad }, 5),
            ("past the store", Drive { first: 61, ..bad }, 6),
            ("overlap", Drive { first: 3, ..bad }, 7),
        ] {
            if number != 7 || before > 0 {
                settles(service, what, &after(&drive.record()), 64, at + 75, (number, at as u64));
            }
        }
        let kind_1 = Drive { interface_type: drives::I2O, ..small_drive(12, 4) };
        settles(service, "I2O in kind 1", &after(&kind_1.record()), 64, at + 67, (5, at as u64));
    }
    // the ninth
    let eight: Vec<u8> = (0..8).flat_map(|i| if i % 2 == 0 { wide_record(i) } else { small_record(i) }).collect();
    settles(service, "a ninth drive of kind 2", &[&eight[..], &wide_record(8), &drives::END].concat(), 9, 576 + 75, (4, 576));
    settles(service, "a ninth drive of kind 1", &[&eight[..], &small_record(8), &drives::END].concat(), 9, 576 + 67, (4, 576));
    // cut in two at every place
    let table = drives::table(&good);
    for cut in 0..=table.len() {
        let mut reader = Arrival::open(service, 64);
        assert_eq!((reader.feed(&table[..cut]), reader.feed(&table[cut..])), (MORE, MORE), "cut at {cut}");
        reader.ends_with(&table);
        let mut ended = Arrival::open(service, 64);
        assert_eq!(ended.feed(&table[..cut]), MORE);
        assert_eq!(ended.end(), opened(service, &table[..cut], 64), "ended after {cut} bytes");
    }
}

// rule: Reader.image Reader.accept Reader.accepted is_cut
fn h64_readers_of_kind_2(service: &dyn Service) {
    let list = [wide(small_drive(0, 4), [1; 8]), with_parameters(i2o(small_drive(4, 4), [2; 8]), 1)];
    let table = drives::table(&list);
    let is = |reader: &Arrival, what: &str, block: Vec<u8>| {
        let at = reader.block.bytes().iter().zip(&block).position(|(got, wanted)| got != wanted);
        assert_eq!(at, None, "{what}: the first byte that differs");
    };
    let mut reader = Arrival::open(service, 64);
    for length in 1..=table.len() {
        assert_eq!(reader.feed(&table[length - 1..length]), MORE);
        let taken = [172, 152, 76, 0].into_iter().find(|place| *place <= length).unwrap();
        let whole = length == table.len();
        let held = if whole { &[][..] } else { &table[taken..length] };
        is(&reader, "reading", reader_block(u64::from(whole), 0, 64, held, &table[..taken]));
    }
    let refused = |what: &str, block: &[u8]| Arrival::at(service, block).refused_everywhere(what);
    let says = |what: &str, block: &[u8], answer: (u32, u64)| {
        let mut reader = Arrival::at(service, block);
        reader.unchanged(what, |reader| assert_eq!(reader.feed(&[]), answer, "{what}"));
    };
    // any beginning of a record of kind 2 may be held, and no whole one
    let any = [&[76, 0, 2, 0][..], &[0xFF; 72]].concat();
    for held in 0..76 {
        says("a beginning", &reader_block(0, 0, 64, &any[..held], &table[..76]), MORE);
    }
    refused("a whole record", &reader_block(0, 0, 64, &any, &table[..76]));
    refused("more than a record", &reader_block(0, 0, 64, &[&any[..], &[0]].concat(), &table[..76]));
    for header in [[68, 0, 2, 0], [75, 0, 2, 0], [77, 0, 2, 0], [76, 0, 1, 0], [76, 1, 2, 0], [76, 0, 2, 1], [76, 0, 3, 0], [76, 0, 4, 0]] {
        refused("no beginning", &reader_block(0, 0, 64, &header, &table[..76]));
    }
    // the table in it
    for (what, at, byte) in
        [("length", 0, 68), ("kind", 2, 1), ("field", 39, 2), ("I2O, another byte", 76 + 47, 0x20), ("overlap", 76 + 24, 3)]
    {
        let mut block = reader_block(2, 0, 64, &[], &table[..172]);
        block[READER_TABLE + at] = byte;
        refused(what, &block);
    }
    for at in (68..76).chain(144..152) {
        let mut block = reader_block(2, 0, 64, &[], &table[..172]);
        block[READER_TABLE + at] = 0x99;
        says("any tail", &block, ACCEPTED);
    }
    let kind_1 = Drive { interface_type: drives::I2O, ..small_drive(8, 4) }.record();
    refused("I2O in kind 1", &reader_block(2, 0, 64, &[], &[&table[..172], &kind_1].concat()));
    // each byte of two blocks changed: every call answers as the model does, and leaves the same block
    for good in [reader_block(0, 0, 64, &table[76..151], &table[..76]), reader_block(2, 0, 64, &[], &table[..172])] {
        for at in 0..40 + LONGEST_RECORD + 200 {
            for change in [1, 0xFF] {
                let mut block = good.clone();
                block[at] = block[at].wrapping_add(change);
                let by = |service: &dyn Service| {
                    let (mut fed, mut ended, mut places) = (block.clone(), block.clone(), [UNWRITTEN; 3]);
                    let [first, second, third] = &mut places;
                    let feed = service.reader_feed(&mut fed, &[2, 0x14], first);
                    let end = service.reader_end(&mut ended, second);
                    let write = service.reader_write(&block, &mut [0; LONGEST_TABLE], third);
                    ([feed, end, write], places, fed, ended)
                };
                assert!(by(service) == by(&Model), "byte {at}");
            }
        }
    }
}

// rule: is_sound is_image drive_words
fn h65_kinds_in_the_block(service: &dyn Service) {
    let list = [
        small_drive(0, 4),
        wide(small_drive(4, 4), [0; 8]),
        wide(small_drive(8, 4), [1, 2, 3, 4, 5, 6, 7, 8]),
        i2o(small_drive(12, 4), [0; 8]),
    ];
    let mut stand = Stand::open(service, &list, 8 * 1024, 16 * 512);
    let (kind, tail, of_type) = (|slot| drive_word(slot, KIND), |slot| drive_word(slot, TAIL), |slot| drive_word(slot, TYPE));
    let type_word = u64::from_le_bytes(drives::I2O);
    for slot in 0..4 {
        for value in
            [0, 3, 4, 5, 255, 256, 257, 258, 65536, 65537, 65538, 1 << 32, 1 << 32 | 1, 1 << 32 | 2, 1 << 63 | 1, 1 << 63 | 2, u64::MAX]
        {
            stand.refused_with("no kind", kind(slot), value);
        }
    }
    stand.accepted_with("kind 1 as kind 2", kind(0), 2);
    stand.accepted_with("kind 2 with eight zeros as kind 1", kind(1), 1);
    stand.refused_with("kind 2 with a tail as kind 1", kind(2), 1);
    stand.refused_with("kind 2 of type I2O as kind 1", kind(3), 1);
    stand.refused_with("kind 1 of type I2O", of_type(0), type_word);
    stand.accepted_with("kind 2 of type I2O", of_type(1), type_word);
    stand.accepted_with("kind 2 of type I2O, with a tail", of_type(2), type_word);
    stand.accepted_with("kind 2 of another type", of_type(3), u64::from_le_bytes(*b"ATA\0\0\0\0\0"));
    for other in [*b"I2O     ", *b"I2O\0\0\0\0 ", *b"I2O\0\0\0\0\x01", *b"i2o\0\0\0\0\0", [0; 8]] {
        stand.refused_with("no type", of_type(3), u64::from_le_bytes(other));
    }
    for byte in 0..8 {
        for value in [1 << (8 * byte), 0x80 << (8 * byte), 0xFF << (8 * byte)] {
            stand.refused_with("kind 1 with a tail", tail(0), value);
            stand.accepted_with("kind 2 with any tail", tail(1), value);
            stand.accepted_with("I2O with any tail", tail(3), value);
        }
        let one_more = stand.word(tail(2)) ^ 1 << (8 * byte + 7);
        stand.accepted_with("kind 2 with another tail", tail(2), one_more);
    }
    stand.accepted_with("kind 2 without a tail", tail(2), 0);
    for slot in 4..8 {
        for value in [1, 2, 3, 256, 65537, 1 << 63, u64::MAX] {
            stand.refused_with("a blank slot with a kind", kind(slot), value);
            stand.refused_with("a blank slot with a tail", tail(slot), value);
        }
    }
    // a drive less: its kind has no drive any more
    let kept = stand.desk.bytes().to_vec();
    for word in (0..16).filter(|word| *word != KIND) {
        stand.set_word(drive_word(3, word), 0);
    }
    stand.set_word(DRIVE_COUNT, 3);
    stand.refused_everywhere("three drives, and a kind behind them");
    stand.set_word(kind(3), 0);
    assert!(stand.accepted(), "three drives");
    stand.desk.bytes_mut().copy_from_slice(&kept);
    // kind and tail are what is shown and written: the tail's bytes in their order
    stand.set_word(kind(0), 2);
    stand.set_word(tail(0), 0x8877_6655_4433_2211);
    assert_eq!(stand.result(2, 0x80, 74).0[64..72], [0x11, 0x22, 0x33, 0x44, 0x55, 0x66, 0x77, 0x88]);
    stand.set_word(kind(1), 1);
    let mut now = list;
    now[0].tail = Some([0x11, 0x22, 0x33, 0x44, 0x55, 0x66, 0x77, 0x88]);
    now[1].tail = None;
    let (table, mut out) = (drives::table(&now), [0x3C; LONGEST_TABLE]);
    assert_eq!(stand.write(&mut out), (DONE, table.len() as u64));
    assert!(out[..table.len()] == table, "the kinds that the block has");
    // where things stand
    assert_eq!([DRIVE_COUNT, POINTER, ARENA_LENGTH, STORE_LENGTH].map(|word| 8 * word), [2496, 2504, 2512, 2520]);
    assert_eq!([8 * PLACED, 8 * ADDRESSES, 8 * PRESENT, PARAMETERS, 8 * BAD_COUNTS, 8 * BAD_LISTS], [2528, 2592, 2656, 2720, 2832, 2896]);
    assert_eq!((8 * drive_word(0, 0), 8 * drive_word(1, KIND), service.desk_size()), (1472, 1472 + 128 + 112, 3920));
    assert_eq!(service.version(), 6);
}

// rule: post_of turn_of place_of
/// But for 48h and the table written, a drive of kind 2 and of type I2O is served as one of kind 1.
fn h66_served_as_kind_1(service: &dyn Service) {
    let base = [with_parameters(worn(small_drive(0, 40), &[30]), 0x10), protected(small_drive(40, 20))];
    let run = |list: &[Drive]| {
        let mut stand = Stand::open(service, list, 8 * 21_000, 60 * 512);
        let mut got: Vec<(u32, Registers)> = Vec::new();
        for dl in [0x80, 0x81, 0x82] {
            got.push(stand.post(1, Registers { bx: 0x55AA, ..registers(0x41, 0, dl) }));
            got.push(stand.post(1, registers(0x08, 0, dl)));
            for ah in [0x44, 0x47, 0x42, 0x43] {
                for (count, start) in [(0, 0), (2, 3), (4, 28), (20, 5), (1, 40)] {
                    stand.packet(1, 0x100, count, (0x20, 0), start);
                    got.push(stand.post(1, Registers { ds: 0x10, si: 0, ..registers(ah, 0, dl) }));
                    for _ in 0..2 {
                        let (answer, guest, moved) = stand.turn();
                        got.push((answer, Registers { ax: guest as u16, bx: moved as u16, ..STALE }));
                    }
                    got.push(stand.withdraw(1));
                    got.push(stand.collect(1));
                }
            }
            for (ah, sector) in [(0x02, 1), (0x03, 2), (0x02, 30), (0x03, 64)] {
                got.push(stand.post(1, Registers { dx: u16::from(dl), ..by_sector(ah, 3, 0, 0, sector) }));
                stand.turn();
                got.push(stand.collect(1));
            }
        }
        got.push((stand.place(1, 0x40), STALE));
        got.push(stand.post(1, Registers { bx: 0x55AA, ..registers(0x41, 0, 0x80) }));
        let (mut desk, arena, store) = stand.all();
        for slot in 0..2 {
            for word in [TYPE, KIND, TAIL] {
                desk[8 * drive_word(slot, word)..][..8].fill(0);
            }
        }
        (got, desk, arena, store)
    };
    let of_kind_1 = run(&base);
    assert!(of_kind_1.0.iter().any(|(_, registers)| registers.ah() == 0x10), "a bad block was met");
    for list in [base.map(|drive| wide(drive, [0; 8])), base.map(|drive| wide(drive, [0xEE; 8])), base.map(|drive| i2o(drive, [0xEE; 8]))] {
        let other = run(&list);
        assert_eq!(other.0, of_kind_1.0, "the answers");
        assert!(other == of_kind_1, "desk, arena and store");
    }
}

/// The converters, with a record and a buffer of any lengths.
struct Converter<'a> {
    service: &'a dyn Service,
    record: Lent,
    out: Lent,
}

#[derive(Clone, Copy, PartialEq, Debug)]
enum To {
    Kind2,
    Kind1,
}

impl To {
    /// The lengths of record and buffer.
    fn lengths(self) -> (usize, usize) {
        match self {
            To::Kind2 => (68, 76),
            To::Kind1 => (76, 68),
        }
    }
}

impl<'a> Converter<'a> {
    fn new(service: &'a dyn Service) -> Converter<'a> {
        Converter { service, record: Lent::with_room(300), out: Lent::with_room(300) }
    }

    /// What it answers, and what is then in the buffer, which held bytes that differ from place to place.
    fn run(&mut self, to: To, record: &[u8], room: usize) -> (u32, Vec<u8>) {
        self.record.set_length(record.len(), Place::END);
        self.record.bytes_mut().copy_from_slice(record);
        self.out.set_length(room, Place::END);
        self.out.bytes_mut().copy_from_slice(&Converter::untouched(room));
        let answer = match to {
            To::Kind2 => self.service.convert_up(self.record.bytes(), self.out.bytes_mut()),
            To::Kind1 => self.service.convert_down(self.record.bytes(), self.out.bytes_mut()),
        };
        assert!(self.record.bytes() == record && self.record.margin_intact() && self.out.margin_intact(), "it wrote elsewhere");
        (answer, self.out.bytes().to_vec())
    }

    fn untouched(room: usize) -> Vec<u8> {
        (0..room).map(|i| (7 * i + 0x3C) as u8).collect()
    }

    fn refused_in(&mut self, what: &str, to: To, record: &[u8], room: usize) {
        assert_eq!(self.run(to, record, room), (10, Converter::untouched(room)), "{what}, to {to:?}");
    }

    fn refused(&mut self, what: &str, to: To, record: &[u8]) {
        self.refused_in(what, to, record, to.lengths().1);
    }

    /// Converted to the other kind: length word, kind word, and eight zero bytes appended or dropped.
    fn done(&mut self, what: &str, to: To, record: &[u8]) -> Vec<u8> {
        let expected = match to {
            To::Kind2 => [&[76, 0, 2, 0], &record[4..], &[0; 8]].concat(),
            To::Kind1 => [&[68, 0, 1, 0], &record[4..68]].concat(),
        };
        assert_eq!(self.run(to, record, to.lengths().1), (DONE, expected.clone()), "{what}, to {to:?}");
        expected
    }
}

// rule: exports::edd_convert_up exports::edd_convert_down
/// Each byte of document 01's record, and of its conversion, with every value that it can have: which of them convert is counted by hand.
fn h67_every_byte_of_a_record(service: &dyn Service) {
    let mut converter = Converter::new(service);
    let narrow = paper_drive().record();
    let long = [&[76, 0, 2, 0], &narrow[4..], &[0; 8]].concat();
    for (to, record) in [(To::Kind2, &narrow), (To::Kind1, &long)] {
        let mut converted = 0;
        for at in 0..record.len() {
            for byte in 0..=255 {
                // 2048 blocks, 2 x 16 x 63 of them in the geometry
                let may_be = match at {
                    4..=15 => true,                 // physical geometry
                    16 | 18..=23 => true,           // blocks
                    17 => byte >= 8,                // 7 x 256 is below 2016
                    24..=31 => true,                // first
                    32 => byte < 0x80,              // flags
                    34 => matches!(byte, 1 | 2),    // C
                    36 => (1..=16).contains(&byte), // H
                    38 => (1..=63).contains(&byte), // S
                    39 => byte <= 1,                // protection
                    52..=67 => true,                // paths
                    _ => byte == record[at],        // length, kind, high bytes, names, tail
                };
                let mut changed = record.clone();
                changed[at] = byte;
                if may_be {
                    converter.done(&format!("byte {at} is {byte:02x}"), to, &changed);
                    converted += 1;
                } else {
                    converter.refused(&format!("byte {at} is {byte:02x}"), to, &changed);
                }
            }
        }
        // 43 bytes may be anything; 248, 128, 2, 16, 63 and 2 values; one value of the others
        let others = if to == To::Kind2 { 19 } else { 27 };
        assert_eq!(converted, 43 * 256 + 248 + 128 + 2 + 16 + 63 + 2 + others);
    }
    // a drive of type I2O converts neither as it is nor with a byte changed
    let record = i2o(paper_drive(), [0; 8]).record();
    converter.refused("I2O", To::Kind1, &record);
    for at in 0..76 {
        for change in [1, 0x20, 0x80, 0xFF] {
            let mut changed = record.clone();
            changed[at] = changed[at].wrapping_add(change);
            converter.refused(&format!("I2O, byte {at}"), To::Kind1, &changed);
        }
    }
}

// rule: exports::edd_convert_up exports::edd_convert_down
fn h68_lengths_of_a_conversion(service: &dyn Service) {
    let mut converter = Converter::new(service);
    let (narrow, long) = (paper_drive().record(), wide(paper_drive(), [0; 8]).record());
    converter.done("its kind", To::Kind2, &narrow);
    converter.done("its kind", To::Kind1, &long);
    let lengths = [0, 1, 3, 4, 67, 68, 69, 72, 75, 76, 77, 136, 144, 152, 256];
    for (to, record) in [(To::Kind2, &narrow), (To::Kind1, &long)] {
        let (length, room) = to.lengths();
        for other in lengths {
            let mut bytes = record.to_vec();
            bytes.resize(other, 0);
            for out in lengths {
                if (other, out) != (length, room) {
                    converter.refused_in(&format!("{other} bytes into {out}"), to, &bytes, out);
                }
            }
            // as long as its buffer is
            if let (Ok(word), true) = (u8::try_from(other), other >= 4 && other != length) {
                bytes[0] = word;
                converter.refused_in(&format!("{other} bytes that say so"), to, &bytes, room);
            }
        }
    }
    // the other kind's record, in its own length and in this one's
    converter.refused_in("kind 2", To::Kind2, &long, 76);
    converter.refused_in("kind 2, swapped", To::Kind2, &long, 68);
    converter.refused("the first 68 bytes of kind 2", To::Kind2, &long[..68]);
    converter.refused_in("kind 1", To::Kind1, &narrow, 68);
    converter.refused_in("kind 1, swapped", To::Kind1, &narrow, 76);
    converter.refused("kind 1 and eight zeros", To::Kind1, &[&narrow[..], &[0; 8]].concat());
    // each of the two words by itself, whole
    for (to, record) in [(To::Kind2, &narrow), (To::Kind1, &long)] {
        let with = |at: usize, word: u16| {
            let mut bytes = record.clone();
            bytes[at..at + 2].copy_from_slice(&word.to_le_bytes());
            bytes
        };
        for length in [0, 4, 20, 67, 69, 75, 77, 144 - record.len() as u16, 0x144, 0x14C, 0x4400, 0x4C00, 65535] {
            converter.refused(&format!("length word {length}"), to, &with(0, length));
        }
        for kind in [0, 3, 4, 5, 3 - u16::from(record[2]), 0x101, 0x102, 0x100, 0x200, 65535] {
            converter.refused(&format!("kind word {kind}"), to, &with(2, kind));
        }
    }
}

// rule: exports::edd_convert_up exports::edd_convert_down fields_ok
/// Up, then down, gives the original bytes; a record that check 5 refuses is 10, one that only checks 6 and 7 would refuse converts.
fn h69_up_and_down(service: &dyn Service) {
    let mut converter = Converter::new(service);
    for (what, drive, number) in field_cases(paper_drive()) {
        for first in [0, 1, 2048, 1 << 40, u64::MAX] {
            let drive = Drive { first, ..drive };
            if number == 0 {
                let up = converter.done(what, To::Kind2, &drive.record());
                assert!(converter.done(what, To::Kind1, &up) == drive.record(), "{what}: the original bytes");
            } else {
                converter.refused(what, To::Kind2, &drive.record());
                converter.refused(what, To::Kind1, &wide(drive, [0; 8]).record());
            }
        }
    }
    // where the drive lies does not matter, nor what it says of itself that no check looks at
    for (first, blocks) in [(u64::MAX, u64::MAX), (u64::MAX, 2016), (0, u64::MAX), (1 << 63, 1 << 63), (u64::MAX - 2015, 2016)] {
        let drive = Drive { first, blocks, physical: [u32::MAX; 3], ..paper_drive() };
        assert_eq!(opened(service, &drives::table(&[drive]), 1 << 50).0, 6, "no store holds it");
        let up = converter.done("past every store", To::Kind2, &drive.record());
        assert!(converter.done("past every store", To::Kind1, &up) == drive.record());
    }
    let limits = Drive { blocks: 1024 * 255 * 63, cylinders: 1024, heads: 255, sectors: 63, flags: 0x7F, protection: 1, ..paper_drive() };
    for drive in [limits, Drive { blocks: 1, cylinders: 1, heads: 1, sectors: 1, flags: 0, ..paper_drive() }] {
        let up = converter.done("at the limits", To::Kind2, &drive.record());
        assert!(converter.done("at the limits", To::Kind1, &up) == drive.record());
        let one_less = Drive { blocks: drive.blocks - 1, ..drive };
        converter.refused("one block less", To::Kind2, &one_less.record());
        converter.refused("one block less", To::Kind1, &wide(one_less, [0; 8]).record());
    }
    let mut chance = Chance::new(66);
    for _ in 0..300 {
        let blocks = chance.between(1, 1 << 20);
        let drive = Drive { tail: None, ..drives::drive(&mut chance, 0, blocks) };
        let first = chance.any();
        if drive.interface_type == drives::I2O {
            converter.refused("I2O in kind 1", To::Kind2, &Drive { first, ..drive }.record());
            continue;
        }
        let record = Drive { first, ..drive }.record();
        let up = converter.done("any", To::Kind2, &record);
        assert!(converter.done("any", To::Kind1, &up) == record, "the original bytes");
    }
}

// rule: exports::edd_convert_down
/// Down, a sound record is refused exactly when the last eight bytes are not zero or the type is I2O.
fn h70_what_has_no_kind_1(service: &dyn Service) {
    let mut converter = Converter::new(service);
    let all = i2o_with_all_fields();
    for interface_type in
        [*b"ATA\0\0\0\0\0", *b"ATAPI\0\0\0", *b"SCSI\0\0\0\0", *b"USB\0\0\0\0\0", *b"1394\0\0\0\0", *b"FIBRE\0\0\0", drives::I2O]
    {
        let drive = Drive { interface_type, ..all };
        let is_i2o = interface_type == drives::I2O;
        if is_i2o {
            converter.refused("I2O", To::Kind1, &wide(drive, [0; 8]).record());
            converter.refused("I2O in kind 1", To::Kind2, &Drive { tail: None, ..drive }.record());
        } else {
            let down = converter.done("eight zeros", To::Kind1, &wide(drive, [0; 8]).record());
            assert!(down == Drive { tail: None, ..drive }.record());
        }
        for at in 0..8 {
            for bit in 0..8 {
                let mut tail = [0; 8];
                tail[at] = 1 << bit;
                converter.refused(&format!("byte {at} of the tail, bit {bit}"), To::Kind1, &wide(drive, tail).record());
            }
        }
        for tail in [[0xFF; 8], [0x20; 8], *b"I2O\0\0\0\0\0", [1, 0, 0, 0, 0, 0, 0, 0xFF]] {
            converter.refused("a tail", To::Kind1, &wide(drive, tail).record());
        }
    }
    // but every one of them is a drive
    assert_eq!(opened(service, &drives::table(&[Drive { blocks: 1_663_065, ..all }]), 1 << 24), ACCEPTED);
}

// rule: whole_result returned_size exports::edd_convert_up
/// "A kind 1 drive answers 74 as its conversion", and every other size too.
fn h71_answers_as_its_conversion(service: &dyn Service) {
    let mut converter = Converter::new(service);
    let mut chance = Chance::new(74);
    for _ in 0..40 {
        let list: Vec<Drive> =
            drives::drives(&mut chance, 60).into_iter().map(|drive| Drive { bad: Bad::default(), parameters: None, ..drive }).collect();
        let of_kind_1 = |drive: &Drive| drive.tail.is_none() && drive.interface_type != drives::I2O;
        let list: Vec<Drive> = list.into_iter().filter(of_kind_1).collect();
        let table: Vec<u8> =
            list.iter().flat_map(|drive| converter.done("a drive", To::Kind2, &drive.record())).chain(drives::END).collect();
        let mut plain = Stand::open(service, &list, 8 * 1024, 60 * 512);
        let mut other = Stand::open(service, &[], 8 * 1024, 60 * 512);
        assert_eq!(other.open_again(&table, 8 * 1024, 60 * 512), ACCEPTED, "a conversion of a good table");
        for dl in 0x80..0x80 + list.len() as u8 {
            for asked in [26, 29, 30, 65, 66, 73, 74, 65535] {
                assert_eq!(plain.result(4, dl, asked), other.result(4, dl, asked), "{dl:02x}, size {asked}");
            }
        }
        // and the table of the converted drives is the converted one
        let mut out = [0; LONGEST_TABLE];
        assert_eq!(other.write(&mut out), (DONE, table.len() as u64));
        assert!(out[..table.len()] == table[..]);
    }
}

macro_rules! cases {
    ($($name:ident),* $(,)?) => { &[$((stringify!($name), $name as fn(&dyn Service))),*] };
}

const CASES: &[(&str, fn(&dyn Service))] = cases![
    a1_order_of_house_numbers,
    a2_store_length_alone,
    a2_arena_length_alone,
    a3_open_over_anything,
    a3_table_refused,
    a3_wrong_size_first,
    a4_idle,
    a5_a6_busy_row,
    a7_unknown_function,
    a8_drive_numbers,
    a9_carry_is_not_read,
    a9_waiting_row_with_carry_1,
    a10_empty_slices,
    b1_order_by_packet,
    b2_count_zero,
    b3_verify_moves_nothing,
    b4_seek,
    b5_packet,
    b6_addresses_never_wrap,
    b7_start_and_count_never_wrap,
    b8_write_with_verify,
    b9_sectors,
    b10_drive_parameters,
    b11_check_extensions,
    b12_result_sizes,
    b13_result_bytes,
    b14_addresses,
    c1_order_of_checks,
    c2_places,
    c3_fields,
    c4_c5_ranges,
    c7_written_back,
    d1_accepted_though_unreachable,
    d1_refused_by_one_word,
    d1_limits_of_the_counts,
    d2_function_of_a_row,
    d3_packet_of_02h_and_03h,
    d4_words_that_a_stage_does_not_use,
    d5_table_in_the_block,
    d6_words_that_wrap,
    d7_absurd_lengths,
    d9_wrong_size,
    e1_windows,
    e2_odd_arenas,
    e4_turn_order,
    e5_what_moves,
    e5_places_above_4_gib,
    e6_packet_is_read_once,
    e7_withdrawal,
    e8_collect_once,
    g1_sums,
    g2_run_by_program,
    g3_answered_at_once_leaves_the_desk,
    g5_no_other_memory_is_touched,
    h1_not_the_last_drive,
    h1_checks_before_9,
    h1_refused_changes_nothing,
    h2_written_back_raw,
    h3_order_of_house_numbers,
    h4_waiting_and_finished_rows,
    h5_bad_places,
    h6_no_tables,
    h7_segments,
    h8_what_is_placed,
    h8_flags_and_sum,
    h9_pointer_of_48h,
    h10_check_extensions,
    h11_placed_anew,
    h12_opening_clears,
    h13_placements_in_the_block,
    h14_parameters_in_the_block,
    h15_flags_of_48h,
    h16_flags_are_kept,
    h17_verify_by_the_table,
    h18_cut_in_two,
    h19_byte_by_byte,
    h20_settling_bytes,
    h21_missing_only_at_the_end,
    h22_empty_fragments,
    h23_several_records_in_one,
    h24_after_a_refusal,
    h25_after_the_end,
    h26_written_out,
    h27_size_and_store,
    h28_reader_block,
    h29_every_byte_of_the_block,
    h30_rules_of_the_block,
    h31_not_the_last_drive,
    h32_order_of_the_checks,
    h33_lengths,
    h34_lists,
    h34_refused_changes_nothing,
    h35_written_back,
    h36_first_block_bad,
    h37_where_the_bad_block_lies,
    h38_count_word_on_top_of_the_data,
    h39_two_guests,
    h40_by_al,
    h41_verify,
    h42_what_comes_first_and_what_heeds_no_list,
    h43_withdrawn_before_the_bad_block,
    h44_opened_with_another_list,
    h45_blocks_of_the_drive,
    h45_numbers_above_32_bits,
    h46_lists_in_the_block,
    h46_every_byte_of_the_lists,
    h47_rows_and_lists,
    h48_lists_in_fragments,
    h49_what_settles_a_list,
    h50_readers_of_lists,
    h51_no_other_memory_is_touched,
    h52_blocks_of_64_bits,
    h53_result_sizes,
    h54_whole_results,
    h55_padding,
    h56_room,
    h57_placed_tables,
    h58_flags_of_every_size,
    h59_the_kind_is_kept,
    h60_the_longest_table,
    h61_records_of_both_kinds,
    h62_fields_of_kind_2,
    h63_what_settles_kind_2,
    h64_readers_of_kind_2,
    h65_kinds_in_the_block,
    h66_served_as_kind_1,
    h67_every_byte_of_a_record,
    h68_lengths_of_a_conversion,
    h69_up_and_down,
    h70_what_has_no_kind_1,
    h71_answers_as_its_conversion,
];

/// The case that runs, for the message when the machine stops it.
static CASE: AtomicUsize = AtomicUsize::new(usize::MAX);

pub fn doing() -> Option<&'static str> {
    CASES.get(CASE.load(Ordering::Relaxed)).map(|case| case.0)
}

// rule: exports::edd_post exports::edd_turn
/// Different desks, arenas and stores on different threads at the same time, each compared with the model call by call.
fn g5_desks_on_threads() -> Result<(), String> {
    let threads: Vec<_> = (0..8).map(|i| std::thread::spawn(move || Run::new(1000 + i, 3000).run().map(|_| ()))).collect();
    threads.into_iter().try_for_each(|thread| thread.join().map_err(|_| "a thread panicked".to_string())?)
}

pub fn run() -> ExitCode {
    std::panic::set_hook(Box::new(|_| {}));
    let null = Library::default();
    null.null_for_empty.set(true);
    let not_null = Library::default();
    let services: [(&str, &dyn Service); 3] = [("library", &not_null), ("library, NULL for empty", &null), ("model", &Model)];
    let mut failed = 0;
    for (number, (name, case)) in CASES.iter().enumerate() {
        CASE.store(number, Ordering::Relaxed);
        for (whose, service) in services {
            if let Err(panic) = catch_unwind(AssertUnwindSafe(|| case(service))) {
                let text = panic.downcast_ref::<String>().map(String::as_str).or(panic.downcast_ref::<&str>().copied());
                println!("directed: {name} FAILED ({whose}): {}", text.unwrap_or("panic"));
                failed += 1;
            }
        }
    }
    CASE.store(usize::MAX, Ordering::Relaxed);
    if let Err(what) = g5_desks_on_threads() {
        println!("directed: g5_desks_on_threads FAILED: {what}");
        failed += 1;
    }
    println!("directed: {} cases, {failed} failed", CASES.len() + 1);
    if failed == 0 {
        ExitCode::SUCCESS
    } else {
        ExitCode::FAILURE
    }
}
