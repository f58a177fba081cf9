//! The calls of include/edd_desk.h as a trait, so that the same test runs against the library and against the model.

use model::addresses::{Address, Geometry};
use model::Registers;
use std::cell::Cell;
use std::ffi::c_void;

pub trait Service {
    fn version(&self) -> u32;
    fn desk_size(&self) -> u64;
    fn open(&self, desk: &mut [u8], table: &[u8], arena_length: u64, store_length: u64, place: &mut u64) -> u32;
    fn write(&self, desk: &[u8], out: &mut [u8], written: &mut u64) -> u32;
    /// Writes ax, bx, cx, dx and carry of the registers; ds, si and es are handed over by value.
    fn post(&self, desk: &mut [u8], arena: &mut [u8], store: &[u8], guest: u64, registers: &mut Registers) -> u32;
    fn turn(&self, desk: &mut [u8], arena: &mut [u8], store: &mut [u8], guest: &mut u64, moved: &mut u64) -> u32;
    fn collect(&self, desk: &mut [u8], guest: u64, registers: &mut Registers) -> u32;
    fn withdraw(&self, desk: &mut [u8], arena: &mut [u8], store: &[u8], guest: u64, registers: &mut Registers) -> u32;
    fn place(&self, desk: &mut [u8], arena: &mut [u8], store: &[u8], guest: u64, address: u64) -> u32;
    fn reader_size(&self) -> u64;
    fn reader_open(&self, reader: &mut [u8], store_length: u64) -> u32;
    fn reader_feed(&self, reader: &mut [u8], bytes: &[u8], place: &mut u64) -> u32;
    fn reader_end(&self, reader: &mut [u8], place: &mut u64) -> u32;
    fn reader_write(&self, reader: &[u8], out: &mut [u8], written: &mut u64) -> u32;
    fn convert_up(&self, record: &[u8], out: &mut [u8]) -> u32;
    fn convert_down(&self, record: &[u8], out: &mut [u8]) -> u32;
    fn window(&self, arena_length: u64, guest: u64, start: &mut u64, length: &mut u64) -> u32;
    fn block(&self, geometry: Geometry, address: Address, block: &mut u32) -> u32;
    fn address(&self, geometry: Geometry, block: u64, address: &mut Address) -> u32;
}

// ---- the model

pub struct Model;

impl Service for Model {
    fn version(&self) -> u32 {
        model::version()
    }
    fn desk_size(&self) -> u64 {
        model::desk_size()
    }
    fn open(&self, desk: &mut [u8], table: &[u8], arena_length: u64, store_length: u64, place: &mut u64) -> u32 {
        model::open(desk, table, arena_length, store_length, place)
    }
    fn write(&self, desk: &[u8], out: &mut [u8], written: &mut u64) -> u32 {
        model::write(desk, out, written)
    }
    fn post(&self, desk: &mut [u8], arena: &mut [u8], store: &[u8], guest: u64, registers: &mut Registers) -> u32 {
        model::post(desk, arena, store, guest, registers)
    }
    fn turn(&self, desk: &mut [u8], arena: &mut [u8], store: &mut [u8], guest: &mut u64, moved: &mut u64) -> u32 {
        model::turn(desk, arena, store, guest, moved)
    }
    fn collect(&self, desk: &mut [u8], guest: u64, registers: &mut Registers) -> u32 {
        model::collect(desk, guest, registers)
    }
    fn withdraw(&self, desk: &mut [u8], arena: &mut [u8], store: &[u8], guest: u64, registers: &mut Registers) -> u32 {
        model::withdraw(desk, arena, store, guest, registers)
    }
    fn place(&self, desk: &mut [u8], arena: &mut [u8], store: &[u8], guest: u64, address: u64) -> u32 {
        model::place(desk, arena, store, guest, address)
    }
    fn reader_size(&self) -> u64 {
        model::reader_size()
    }
    fn reader_open(&self, reader: &mut [u8], store_length: u64) -> u32 {
        model::reader_open(reader, store_length)
    }
    fn reader_feed(&self, reader: &mut [u8], bytes: &[u8], place: &mut u64) -> u32 {
        model::reader_feed(reader, bytes, place)
    }
    fn reader_end(&self, reader: &mut [u8], place: &mut u64) -> u32 {
        model::reader_end(reader, place)
    }
    fn reader_write(&self, reader: &[u8], out: &mut [u8], written: &mut u64) -> u32 {
        model::reader_write(reader, out, written)
    }
    fn convert_up(&self, record: &[u8], out: &mut [u8]) -> u32 {
        model::convert_up(record, out)
    }
    fn convert_down(&self, record: &[u8], out: &mut [u8]) -> u32 {
        model::convert_down(record, out)
    }
    fn window(&self, arena_length: u64, guest: u64, start: &mut u64, length: &mut u64) -> u32 {
        model::window(arena_length, guest, start, length)
    }
    fn block(&self, geometry: Geometry, address: Address, block: &mut u32) -> u32 {
        model::block_number(geometry, address, block)
    }
    fn address(&self, geometry: Geometry, block: u64, address: &mut Address) -> u32 {
        model::address(geometry, block, address)
    }
}

// ---- the library

#[link(name = "edd_desk", kind = "static")]
extern "C" {
    fn edd_version() -> u32;
    fn edd_desk_size() -> u64;
    fn edd_open(
        desk: *mut u8,
        desk_len: usize,
        table: *const u8,
        table_len: usize,
        arena_length: u64,
        store_length: u64,
        place: *mut u64,
    ) -> u32;
    fn edd_write(desk: *const u8, desk_len: usize, out: *mut u8, out_len: usize, written: *mut u64) -> u32;
    fn edd_post(
        desk: *mut u8,
        desk_len: usize,
        arena: *mut u8,
        arena_len: usize,
        store: *const u8,
        store_len: usize,
        guest: u64,
        ax: *mut u16,
        bx: *mut u16,
        cx: *mut u16,
        dx: *mut u16,
        ds: u16,
        si: u16,
        es: u16,
        carry: *mut u16,
    ) -> u32;
    fn edd_turn(
        desk: *mut u8,
        desk_len: usize,
        arena: *mut u8,
        arena_len: usize,
        store: *mut u8,
        store_len: usize,
        guest: *mut u64,
        moved: *mut u64,
    ) -> u32;
    fn edd_collect(
        desk: *mut u8,
        desk_len: usize,
        guest: u64,
        ax: *mut u16,
        bx: *mut u16,
        cx: *mut u16,
        dx: *mut u16,
        ds: *mut u16,
        si: *mut u16,
        es: *mut u16,
        carry: *mut u16,
    ) -> u32;
    fn edd_withdraw(
        desk: *mut u8,
        desk_len: usize,
        arena: *mut u8,
        arena_len: usize,
        store: *const u8,
        store_len: usize,
        guest: u64,
        ax: *mut u16,
        bx: *mut u16,
        cx: *mut u16,
        dx: *mut u16,
        ds: *mut u16,
        si: *mut u16,
        es: *mut u16,
        carry: *mut u16,
    ) -> u32;
    fn edd_place(
        desk: *mut u8,
        desk_len: usize,
        arena: *mut u8,
        arena_len: usize,
        store: *const u8,
        store_len: usize,
        guest: u64,
        address: u64,
    ) -> u32;
    fn edd_reader_size() -> u64;
    fn edd_reader_open(reader: *mut u8, reader_len: usize, store_length: u64) -> u32;
    fn edd_reader_feed(reader: *mut u8, reader_len: usize, bytes: *const u8, bytes_len: usize, place: *mut u64) -> u32;
    fn edd_reader_end(reader: *mut u8, reader_len: usize, place: *mut u64) -> u32;
    fn edd_reader_write(reader: *const u8, reader_len: usize, out: *mut u8, out_len: usize, written: *mut u64) -> u32;
    fn edd_convert_up(record: *const u8, record_len: usize, out: *mut u8, out_len: usize) -> u32;
    fn edd_convert_down(record: *const u8, record_len: usize, out: *mut u8, out_len: usize) -> u32;
    fn edd_window(arena_length: u64, guest: u64, start: *mut u64, length: *mut u64) -> u32;
    fn edd_block(c: u32, h: u32, s: u32, cylinder: u32, head: u32, sector: u32, block: *mut u32) -> u32;
    fn edd_address(c: u32, h: u32, s: u32, block: u64, cylinder: *mut u32, head: *mut u32, sector: *mut u32) -> u32;
}

/// The proved library. With `null_for_empty` an empty slice is passed as a null pointer, otherwise as its own address.
#[derive(Default)]
pub struct Library {
    pub null_for_empty: Cell<bool>,
}

/// Places for results with a guard before and after each, so that a call that writes beside a result is seen.
struct Places<T, const N: usize> {
    cells: Vec<T>,
}

impl<T: Copy + PartialEq, const N: usize> Places<T, N> {
    fn new(values: [T; N], guard: T) -> Self {
        let mut cells = vec![guard; 2 * N + 1];
        for (i, value) in values.into_iter().enumerate() {
            cells[2 * i + 1] = value;
        }
        Places { cells }
    }
    fn at(&mut self, i: usize) -> *mut T {
        &mut self.cells[2 * i + 1]
    }
    fn get(&self, i: usize) -> T {
        self.cells[2 * i + 1]
    }
    fn check(&self) {
        let guard = self.cells[0];
        assert!((0..=N).all(|i| self.cells[2 * i] == guard), "the library wrote beside the place of a result");
    }
}

const GUARD: u64 = 0xA5C3_96F0_5A3C_690F;

impl Library {
    fn pointer(&self, slice: &[u8]) -> *const u8 {
        if slice.is_empty() && self.null_for_empty.get() {
            std::ptr::null()
        } else {
            slice.as_ptr()
        }
    }
    fn pointer_mut(&self, slice: &mut [u8]) -> *mut u8 {
        if slice.is_empty() && self.null_for_empty.get() {
            std::ptr::null_mut()
        } else {
            slice.as_mut_ptr()
        }
    }
}

fn register_places(of: &Registers) -> Places<u16, 8> {
    Places::new([of.ax, of.bx, of.cx, of.dx, of.ds, of.si, of.es, of.carry], GUARD as u16)
}

fn take_registers(places: &Places<u16, 8>) -> Registers {
    places.check();
    let r = |i| places.get(i);
    Registers { ax: r(0), bx: r(1), cx: r(2), dx: r(3), ds: r(4), si: r(5), es: r(6), carry: r(7) }
}

impl Service for Library {
    fn version(&self) -> u32 {
        unsafe { edd_version() }
    }
    fn desk_size(&self) -> u64 {
        unsafe { edd_desk_size() }
    }
    fn open(&self, desk: &mut [u8], table: &[u8], arena_length: u64, store_length: u64, place: &mut u64) -> u32 {
        let mut out = Places::new([*place], GUARD);
        let (d, t) = (self.pointer_mut(desk), self.pointer(table));
        let answer = unsafe { edd_open(d, desk.len(), t, table.len(), arena_length, store_length, out.at(0)) };
        out.check();
        *place = out.get(0);
        answer
    }
    fn write(&self, desk: &[u8], out: &mut [u8], written: &mut u64) -> u32 {
        let mut places = Places::new([*written], GUARD);
        let (d, o) = (self.pointer(desk), self.pointer_mut(out));
        let answer = unsafe { edd_write(d, desk.len(), o, out.len(), places.at(0)) };
        places.check();
        *written = places.get(0);
        answer
    }
    fn post(&self, desk: &mut [u8], arena: &mut [u8], store: &[u8], guest: u64, registers: &mut Registers) -> u32 {
        let mut r = register_places(registers);
        let (d, a, s) = (self.pointer_mut(desk), self.pointer_mut(arena), self.pointer(store));
        let answer = unsafe {
            edd_post(
                d,
                desk.len(),
                a,
                arena.len(),
                s,
                store.len(),
                guest,
                r.at(0),
                r.at(1),
                r.at(2),
                r.at(3),
                registers.ds,
                registers.si,
                registers.es,
                r.at(7),
            )
        };
        *registers = take_registers(&r);
        answer
    }
    fn turn(&self, desk: &mut [u8], arena: &mut [u8], store: &mut [u8], guest: &mut u64, moved: &mut u64) -> u32 {
        let mut out = Places::new([*guest, *moved], GUARD);
        let (d, a, s) = (self.pointer_mut(desk), self.pointer_mut(arena), self.pointer_mut(store));
        let answer = unsafe { edd_turn(d, desk.len(), a, arena.len(), s, store.len(), out.at(0), out.at(1)) };
        out.check();
        (*guest, *moved) = (out.get(0), out.get(1));
        answer
    }
    fn collect(&self, desk: &mut [u8], guest: u64, registers: &mut Registers) -> u32 {
        let mut r = register_places(registers);
        let d = self.pointer_mut(desk);
        let answer = unsafe { edd_collect(d, desk.len(), guest, r.at(0), r.at(1), r.at(2), r.at(3), r.at(4), r.at(5), r.at(6), r.at(7)) };
        *registers = take_registers(&r);
        answer
    }
    fn withdraw(&self, desk: &mut [u8], arena: &mut [u8], store: &[u8], guest: u64, registers: &mut Registers) -> u32 {
        let mut r = register_places(registers);
        let (d, a, s) = (self.pointer_mut(desk), self.pointer_mut(arena), self.pointer(store));
        let answer = unsafe {
            edd_withdraw(
                d,
                desk.len(),
                a,
                arena.len(),
                s,
                store.len(),
                guest,
                r.at(0),
                r.at(1),
                r.at(2),
                r.at(3),
                r.at(4),
                r.at(5),
                r.at(6),
                r.at(7),
            )
        };
        *registers = take_registers(&r);
        answer
    }
    fn place(&self, desk: &mut [u8], arena: &mut [u8], store: &[u8], guest: u64, address: u64) -> u32 {
        let (d, a, s) = (self.pointer_mut(desk), self.pointer_mut(arena), self.pointer(store));
        unsafe { edd_place(d, desk.len(), a, arena.len(), s, store.len(), guest, address) }
    }
    fn reader_size(&self) -> u64 {
        unsafe { edd_reader_size() }
    }
    fn reader_open(&self, reader: &mut [u8], store_length: u64) -> u32 {
        let r = self.pointer_mut(reader);
        unsafe { edd_reader_open(r, reader.len(), store_length) }
    }
    fn reader_feed(&self, reader: &mut [u8], bytes: &[u8], place: &mut u64) -> u32 {
        let mut out = Places::new([*place], GUARD);
        let (r, b) = (self.pointer_mut(reader), self.pointer(bytes));
        let answer = unsafe { edd_reader_feed(r, reader.len(), b, bytes.len(), out.at(0)) };
        out.check();
        *place = out.get(0);
        answer
    }
    fn reader_end(&self, reader: &mut [u8], place: &mut u64) -> u32 {
        let mut out = Places::new([*place], GUARD);
        let r = self.pointer_mut(reader);
        let answer = unsafe { edd_reader_end(r, reader.len(), out.at(0)) };
        out.check();
        *place = out.get(0);
        answer
    }
    fn reader_write(&self, reader: &[u8], out: &mut [u8], written: &mut u64) -> u32 {
        let mut places = Places::new([*written], GUARD);
        let (r, o) = (self.pointer(reader), self.pointer_mut(out));
        let answer = unsafe { edd_reader_write(r, reader.len(), o, out.len(), places.at(0)) };
        places.check();
        *written = places.get(0);
        answer
    }
    fn convert_up(&self, record: &[u8], out: &mut [u8]) -> u32 {
        let (r, o) = (self.pointer(record), self.pointer_mut(out));
        unsafe { edd_convert_up(r, record.len(), o, out.len()) }
    }
    fn convert_down(&self, record: &[u8], out: &mut [u8]) -> u32 {
        let (r, o) = (self.pointer(record), self.pointer_mut(out));
        unsafe { edd_convert_down(r, record.len(), o, out.len()) }
    }
    fn window(&self, arena_length: u64, guest: u64, start: &mut u64, length: &mut u64) -> u32 {
        let mut out = Places::new([*start, *length], GUARD);
        let answer = unsafe { edd_window(arena_length, guest, out.at(0), out.at(1)) };
        out.check();
        (*start, *length) = (out.get(0), out.get(1));
        answer
    }
    fn block(&self, geometry: Geometry, at: Address, block: &mut u32) -> u32 {
        let mut out = Places::new([*block], GUARD as u32);
        let Geometry { cylinders, heads, sectors } = geometry;
        let answer = unsafe { edd_block(cylinders, heads, sectors, at.cylinder, at.head, at.sector, out.at(0)) };
        out.check();
        *block = out.get(0);
        answer
    }
    fn address(&self, geometry: Geometry, block: u64, at: &mut Address) -> u32 {
        let mut out = Places::new([at.cylinder, at.head, at.sector], GUARD as u32);
        let Geometry { cylinders, heads, sectors } = geometry;
        let answer = unsafe { edd_address(cylinders, heads, sectors, block, out.at(0), out.at(1), out.at(2)) };
        out.check();
        *at = Address { cylinder: out.get(0), head: out.get(1), sector: out.get(2) };
        answer
    }
}

// ---- memory to lend, between pages that nobody may touch

extern "C" {
    fn mmap(address: *mut c_void, length: usize, protection: i32, flags: i32, file: i32, offset: i64) -> *mut c_void;
    fn mprotect(address: *mut c_void, length: usize, protection: i32) -> i32;
    fn munmap(address: *mut c_void, length: usize) -> i32;
}

// Linux on x86-64
const PAGE: usize = 4096;
const NOBODY: i32 = 0;
const READ: i32 = 1;
const READ_WRITE: i32 = 3;
const PRIVATE_ANONYMOUS: i32 = 0x22;
const NO_RESERVE: i32 = 0x4000;

const MARGIN: usize = 64;
const MARGIN_BYTE: u8 = 0xC5;

/// Where a slice lies in its memory: against the page after it or against the one before it, or up to seven bytes away from there, so
/// that it starts at any address.
#[derive(Clone, Copy)]
pub struct Place {
    pub at_end: bool,
    pub gap: usize,
}

impl Place {
    pub const END: Place = Place { at_end: true, gap: 0 };
}

/// A slice to lend, between two pages that nobody may touch: a call that reads or writes past the end it lies against is stopped by the
/// machine. The bytes between the slice and the pages are looked at after the call.
pub struct Lent {
    map: *mut u8,
    pages: usize,
    start: usize,
    length: usize,
    /// Some pages are inaccessible, and the margins are among them.
    partly: Cell<bool>,
}

impl Lent {
    /// Memory for slices of up to `room` bytes.
    pub fn with_room(room: usize) -> Lent {
        Lent::mapped(room).unwrap_or_else(|| panic!("no memory for {room} bytes"))
    }

    fn mapped(room: usize) -> Option<Lent> {
        let pages = (room + MARGIN).div_ceil(PAGE) + 2;
        // no page is reserved until it is touched, so a slice may be much longer than the machine's memory
        let map = unsafe { mmap(std::ptr::null_mut(), pages * PAGE, NOBODY, PRIVATE_ANONYMOUS | NO_RESERVE, -1, 0) };
        if map as isize == -1 {
            return None;
        }
        let mut lent = Lent { map: map.cast(), pages, start: PAGE, length: 0, partly: Cell::new(false) };
        if unsafe { mprotect(lent.map.add(PAGE).cast(), (pages - 2) * PAGE, READ_WRITE) } != 0 {
            return None;
        }
        lent.set_length(0, Place::END);
        Some(lent)
    }

    /// A slice of zeros of which only the pages that are touched take memory; `None` if the machine has no address space for it.
    pub fn vast(length: usize) -> Option<Lent> {
        let mut lent = Lent::mapped(length)?;
        lent.set_length(length, Place::END);
        Some(lent)
    }

    pub fn holding(bytes: &[u8], place: Place) -> Lent {
        let mut lent = Lent::with_room(bytes.len());
        lent.set_length(bytes.len(), place);
        lent.bytes_mut().copy_from_slice(bytes);
        lent
    }

    pub fn set_length(&mut self, length: usize, place: Place) {
        assert!(length + MARGIN <= (self.pages - 2) * PAGE);
        self.length = length;
        self.start = if place.at_end { self.end_of_room() - place.gap - length } else { PAGE + place.gap };
        let (front, back) = self.margins();
        unsafe {
            std::slice::from_raw_parts_mut(self.map.add(self.start - front), front).fill(MARGIN_BYTE);
            std::slice::from_raw_parts_mut(self.map.add(self.start + length), back).fill(MARGIN_BYTE);
        }
    }

    fn end_of_room(&self) -> usize {
        (self.pages - 1) * PAGE
    }

    /// How many bytes before and after the slice are looked at.
    fn margins(&self) -> (usize, usize) {
        (MARGIN.min(self.start - PAGE), MARGIN.min(self.end_of_room() - self.start - self.length))
    }

    fn protect(&self, how: i32) {
        let done = unsafe { mprotect(self.map.add(PAGE).cast(), (self.pages - 2) * PAGE, how) };
        assert_eq!(done, 0, "mprotect");
    }

    /// While it is read-only, the machine stops a write to it.
    pub fn set_read_only(&self, on: bool) {
        self.protect(if on { READ } else { READ_WRITE });
    }

    /// Makes everything but a part of the slice inaccessible, or makes all of it accessible again. Slice and part begin and end with pages.
    pub fn keep_only(&self, part: Option<std::ops::Range<usize>>) {
        self.partly.set(part.is_some());
        let Some(part) = part else { return self.protect(READ_WRITE) };
        assert!([self.start, self.length, part.start, part.end].iter().all(|n| n % PAGE == 0));
        self.protect(NOBODY);
        if !part.is_empty() {
            let done = unsafe { mprotect(self.map.add(self.start + part.start).cast(), part.len(), READ_WRITE) };
            assert_eq!(done, 0, "mprotect");
        }
    }

    pub fn bytes(&self) -> &[u8] {
        unsafe { std::slice::from_raw_parts(self.map.add(self.start), self.length) }
    }

    pub fn bytes_mut(&mut self) -> &mut [u8] {
        unsafe { std::slice::from_raw_parts_mut(self.map.add(self.start), self.length) }
    }

    /// Nothing was written beside the slice, as far as one can look.
    pub fn margin_intact(&self) -> bool {
        if self.partly.get() {
            return true;
        }
        let (front, back) = self.margins();
        let (front, back) = unsafe {
            (
                std::slice::from_raw_parts(self.map.add(self.start - front), front),
                std::slice::from_raw_parts(self.map.add(self.start + self.length), back),
            )
        };
        front.iter().chain(back).all(|byte| *byte == MARGIN_BYTE)
    }
}

impl Drop for Lent {
    fn drop(&mut self) {
        unsafe { munmap(self.map.cast(), self.pages * PAGE) };
    }
}
