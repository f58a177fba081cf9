//! The model behind the C interface of include/edd_desk.h, as a library of the same name. It stands in for the proved library when
//! the tests themselves are to be tried: host/standin/try_faults builds it once with each fault below and expects every one to be found.
//!
//! A fault is chosen with `--cfg fault="NAME"`. Without one the stand-in is the model.

use model::addresses::{Address, Geometry};
use model::Registers;
#[allow(unused_imports)]
use model::{DESK_SIZE, READER_SIZE};
use std::slice::{from_raw_parts, from_raw_parts_mut};

/// The slice of a pointer and a length; a null pointer with length 0 is an empty one.
unsafe fn lent<'a>(start: *const u8, length: usize) -> &'a [u8] {
    if length == 0 {
        &[]
    } else {
        unsafe { from_raw_parts(start, length) }
    }
}

unsafe fn lent_mut<'a>(start: *mut u8, length: usize) -> &'a mut [u8] {
    if length == 0 {
        &mut []
    } else {
        unsafe { from_raw_parts_mut(start, length) }
    }
}

/// Words of the block, for the faults.
#[allow(dead_code)]
mod words {
    /// A word of a drive's slot, by its number there.
    pub fn drive(slot: usize, word: usize) -> usize {
        184 + 16 * slot + word
    }
    pub const POINTER: usize = 313;
    pub const ARENA_LENGTH: usize = 314;
    pub const STORE_LENGTH: usize = 315;
    pub const PLACED: usize = 316;
    pub const PRESENT: usize = 332;
    pub const PARAMETERS: usize = 340;

    pub fn get(desk: &[u8], word: usize) -> u64 {
        u64::from_le_bytes(desk[8 * word..8 * word + 8].try_into().unwrap())
    }
    pub fn set(desk: &mut [u8], word: usize, value: u64) {
        desk[8 * word..8 * word + 8].copy_from_slice(&value.to_le_bytes());
    }
}

/// What the faults of bad blocks need to know.
#[allow(dead_code)]
mod worn {
    use super::words;
    use model::parts::{linear, Registers, Request, Row};

    /// Words of the block: how many bad blocks each slot has, and sixteen for each.
    pub const COUNTS: usize = 354;
    pub const LISTS: usize = 362;

    /// The list of a slot, of a block that is a desk's.
    pub fn list(desk: &[u8], slot: usize) -> Vec<u64> {
        (0..words::get(desk, COUNTS + slot).min(16) as usize).map(|j| words::get(desk, LISTS + 16 * slot + j)).collect()
    }

    pub fn set_list(desk: &mut [u8], slot: usize, numbers: &[u64]) {
        words::set(desk, COUNTS + slot, numbers.len() as u64);
        for j in 0..16 {
            words::set(desk, LISTS + 16 * slot + j, numbers.get(j).copied().unwrap_or(0));
        }
    }

    /// The next turn of a block: its guest and request, where its blocks lie in the store, how many are due; and what the window has in
    /// the high byte of the count word.
    pub struct Service {
        pub guest: u64,
        pub request: Request,
        pub high: Option<u8>,
        pub first: usize,
        pub due: u64,
        pub writes: bool,
        pub by_packet: bool,
    }

    pub fn next(block: &[u8], arena: &[u8]) -> Option<Service> {
        let desk = model::block::read(block)?;
        let (guest, request) = (0..8).map(|i| (desk.pointer + i) % 8).find_map(|guest| match desk.rows[guest as usize] {
            Row::Waiting(request) => Some((guest, request)),
            _ => None,
        })?;
        let first = (desk.drives.numbered(request.drive)?.first + request.start + request.moved) as usize;
        let due = 16.min(request.count - request.moved);
        let ah = request.registers.ah();
        let by_packet = ah >= 0x42;
        let high = arena.get(guest as usize * (arena.len() / 8) + request.packet as usize + 3).copied().filter(|_| by_packet);
        Some(Service { guest, request, high, first, due, writes: matches!(ah, 0x03 | 0x43), by_packet })
    }

    impl Service {
        /// Moves blocks of this turn once more, from one on.
        pub fn move_again(&self, from: u64, blocks: u64, arena: &mut [u8], store: &mut [u8]) {
            let window = self.guest as usize * (arena.len() / 8);
            let at = window + (self.request.buffer + 512 * (self.request.moved + from)) as usize;
            let block = 512 * (self.first + from as usize);
            let (memory, blocks) = (&mut arena[at..at + 512 * blocks as usize], &mut store[block..block + 512 * blocks as usize]);
            if self.writes {
                blocks.copy_from_slice(memory);
            } else {
                memory.copy_from_slice(blocks);
            }
        }
        pub fn set_count(&self, arena: &mut [u8], count: u64) {
            model::steps::set_count(model::parts::window(arena, self.guest), self.request.packet, count as u16);
        }
    }

    /// The start and the count of a packet that was posted, and the slot of its drive.
    pub fn asked(window: &[u8], given: &Registers) -> (u64, u64, usize) {
        let packet = &window[linear(given.ds, given.si) as usize..][..16];
        let start = u64::from_le_bytes(packet[8..16].try_into().unwrap());
        (start, u64::from(u16::from_le_bytes([packet[2], packet[3]])), usize::from(given.dl() - 0x80))
    }

    /// The table with the list of the record at a place changed; `None` if that is no record of kind 3.
    pub fn with_list(table: &[u8], place: u64, change: impl FnOnce(&mut Vec<u64>)) -> Option<Vec<u8>> {
        let (before, record) = table.split_at_checked(place as usize)?;
        let good = record.len() >= 14 && record[1..4] == [0, 3, 0] && record[0] >= 14 && record.len() >= usize::from(record[0]);
        if !good {
            return None;
        }
        let (record, after) = record.split_at(usize::from(record[0]));
        let mut list = record[6..].chunks_exact(8).map(|n| u64::from_le_bytes(n.try_into().unwrap())).collect();
        change(&mut list);
        let mut out = before.to_vec();
        if !list.is_empty() {
            out.extend([(6 + 8 * list.len()) as u8, 0, 3, 0]);
            out.extend(&record[4..6]);
            list.iter().for_each(|number| out.extend(number.to_le_bytes()));
        }
        out.extend(after);
        Some(out)
    }
}

/// What the faults of kind 2 and of the longer result need to know.
#[allow(dead_code)]
mod wide {
    use super::words;
    use model::parts::{linear, Registers, I2O};

    // words of a drive's slot
    pub const TYPE: usize = 11;
    pub const KIND: usize = 14;
    pub const TAIL: usize = 15;

    pub const ATA: [u8; 8] = *b"ATA\0\0\0\0\0";

    /// A 48h that a good post would answer: the slot of its drive, where its result lies in the arena, how much room there is from there
    /// to the window's end, and the size asked for.
    pub struct Asked {
        pub slot: usize,
        pub at: usize,
        pub room: usize,
        pub size: u16,
    }

    pub fn asked(desk: &[u8], arena: &[u8], guest: u64, given: &Registers) -> Option<Asked> {
        let read = model::block::read(desk)?;
        let slot = read.drives.slot_of(u64::from(given.dl()))?;
        let (window, place) = (arena.len() / 8, linear(given.ds, given.si) as usize);
        if given.ah() != 0x48 || guest >= 8 || place + 2 > window {
            return None;
        }
        let at = guest as usize * window + place;
        Some(Asked { slot, at, room: window - place, size: u16::from_le_bytes([arena[at], arena[at + 1]]) })
    }

    pub fn is_i2o(desk: &[u8], slot: usize) -> bool {
        words::get(desk, words::drive(slot, TYPE)) == u64::from_le_bytes(I2O)
    }

    /// Makes the sum of a result of 66 or 74 bytes zero again.
    pub fn seal(result: &mut [u8], size: usize) {
        result[size - 1] = result[30..size - 1].iter().fold(0u8, |sum, byte| sum.wrapping_sub(*byte));
    }

    /// The block with the kinds and tails of its drives changed.
    pub fn with_slots(desk: &[u8], change: impl Fn(usize, &mut u64, &mut u64)) -> Vec<u8> {
        let mut copy = desk.to_vec();
        for slot in (0..8).filter(|_| desk.len() == super::DESK_SIZE) {
            let (kind, tail) = (words::drive(slot, KIND), words::drive(slot, TAIL));
            let (mut new_kind, mut new_tail) = (words::get(desk, kind), words::get(desk, tail));
            change(slot, &mut new_kind, &mut new_tail);
            words::set(&mut copy, kind, new_kind);
            words::set(&mut copy, tail, new_tail);
        }
        copy
    }
}

#[no_mangle]
pub extern "C" fn edd_version() -> u32 {
    model::version()
}

#[no_mangle]
pub extern "C" fn edd_desk_size() -> u64 {
    model::desk_size()
}

#[no_mangle]
pub unsafe extern "C" fn edd_open(
    desk: *mut u8,
    desk_len: usize,
    table: *const u8,
    table_len: usize,
    arena_length: u64,
    store_length: u64,
    place: &mut u64,
) -> u32 {
    let (desk, table) = unsafe { (lent_mut(desk, desk_len), lent(table, table_len)) };
    #[cfg(fault = "place_on_25")]
    if desk.len() != DESK_SIZE {
        *place = 0;
    }
    #[cfg(fault = "reads_past_table")]
    unsafe {
        table.as_ptr().add(table.len()).read_volatile();
    }
    #[cfg(fault = "store_length_narrowed")]
    let store_length = u64::from(store_length as u32);
    #[cfg(any(fault = "placements_survive", fault = "lists_survive"))]
    let before = desk.to_vec();
    let answer = model::open(desk, table, arena_length, store_length, place);
    #[cfg(fault = "bad_parameters_skipped")]
    if answer == 9 {
        let length = usize::from(table[*place as usize]);
        let without = [&table[..*place as usize], &table[*place as usize + length..]].concat();
        return model::open(desk, &without, arena_length, store_length, place);
    }
    #[cfg(fault = "flags_masked_at_open")]
    for at in (0..8).map(|slot| words::drive(slot, 5)).filter(|_| answer == 0) {
        let flags = words::get(desk, at);
        words::set(desk, at, if flags & 4 == 0 { flags & !0x70 } else { flags });
    }
    #[cfg(fault = "equal_neighbours_taken")]
    if let (5, Some(other)) = (answer, worn::with_list(table, *place, |list| list.dedup())) {
        return model::open(desk, &other, arena_length, store_length, place);
    }
    #[cfg(fault = "unsorted_list_taken")]
    if let (5, Some(other)) = (answer, worn::with_list(table, *place, |list| list.sort())) {
        return model::open(desk, &other, arena_length, store_length, place);
    }
    #[cfg(fault = "last_block_but_one_taken")]
    if let (5, Some(other)) = (answer, worn::with_list(table, *place, |list| *list.last_mut().unwrap() -= 1)) {
        // a number that is the drive's blocks is taken, as the one below it
        return model::open(desk, &other, arena_length, store_length, place);
    }
    #[cfg(fault = "list_after_parameters_taken")]
    if answer == 9 && *place >= 20 {
        let at = *place as usize;
        if table[at..].starts_with(&[table[at], 0, 3, 0]) && table[at - 20..].starts_with(&[20, 0, 4, 0]) {
            let end = at + usize::from(table[at]);
            let other = [&table[..at - 20], &table[at..end], &table[at - 20..at], &table[end..]].concat();
            return model::open(desk, &other, arena_length, store_length, place);
        }
    }
    #[cfg(fault = "list_before_its_drive_judged")]
    if let (9, Some(_)) = (answer, worn::with_list(table, *place, |_| ())) {
        // 5 before 9: a list that is not ascending, whatever drive it names
        let mut ascends = true;
        worn::with_list(table, *place, |list| ascends = list.windows(2).all(|pair| pair[0] < pair[1]));
        if !ascends {
            return 5;
        }
    }
    #[cfg(fault = "empty_list_taken")]
    if answer == 2 && table[*place as usize..].starts_with(&[6, 0, 3, 0]) && table.len() >= *place as usize + 6 {
        let other = [&table[..*place as usize], &table[*place as usize + 6..]].concat();
        return model::open(desk, &other, arena_length, store_length, place);
    }
    #[cfg(fault = "i2o_in_kind_1_taken")]
    if answer == 5 && table[*place as usize..].starts_with(&[68, 0, 1, 0]) && table[*place as usize + 44..][..8] == model::parts::I2O {
        let mut other = table.to_vec();
        other[*place as usize + 44..][..8].copy_from_slice(&wide::ATA);
        return model::open(desk, &other, arena_length, store_length, place);
    }
    #[cfg(fault = "spaces_in_kind_2_taken")]
    if answer == 5 && table[*place as usize..].starts_with(&[76, 0, 2, 0]) {
        // names padded as document 000 has them
        let mut other = table.to_vec();
        for byte in other[*place as usize + 40..][..12].iter_mut().filter(|byte| **byte == 0x20) {
            *byte = 0;
        }
        return model::open(desk, &other, arena_length, store_length, place);
    }
    #[cfg(fault = "kind_2_not_counted")]
    if answer == 4 && table[*place as usize + 2] == 2 {
        let other = [&table[..*place as usize], &table[*place as usize + 76..]].concat();
        return model::open(desk, &other, arena_length, store_length, place);
    }
    #[cfg(fault = "overlap_with_kind_2_taken")]
    if answer == 7 && table[*place as usize + 2] == 2 {
        let other = [&table[..*place as usize], &table[*place as usize + 76..]].concat();
        return model::open(desk, &other, arena_length, store_length, place);
    }
    #[cfg(fault = "kind_2_of_length_68_taken")]
    if answer == 2 && table[*place as usize..].starts_with(&[68, 0, 2, 0]) {
        let mut other = table.to_vec();
        other[*place as usize + 2] = 1;
        return model::open(desk, &other, arena_length, store_length, place);
    }
    #[cfg(fault = "placements_survive")]
    if answer == 0 && model::block::read(&before).is_some() {
        let placements = 8 * words::PLACED..8 * words::PRESENT;
        desk[placements.clone()].copy_from_slice(&before[placements]);
    }
    #[cfg(fault = "lists_survive")]
    if answer == 0 && model::block::read(&before).is_some() && worn::list(desk, 0).is_empty() {
        // the first drive keeps the list that it had, where it still may
        let (old, blocks) = (worn::list(&before, 0), words::get(desk, words::drive(0, 3)));
        if old.iter().all(|number| *number < blocks) {
            worn::set_list(desk, 0, &old);
        }
    }
    answer
}

#[no_mangle]
pub unsafe extern "C" fn edd_write(desk: *const u8, desk_len: usize, out: *mut u8, out_len: usize, written: &mut u64) -> u32 {
    let (desk, out) = unsafe { (lent(desk, desk_len), lent_mut(out, out_len)) };
    #[cfg(fault = "written_on_19")]
    if out.len() < 4 {
        *written = 4;
    }
    #[cfg(fault = "packet_word_free")]
    let desk = &packet_words_cleared(desk)[..];
    #[cfg(any(fault = "bad_count_by_its_low_byte", fault = "past_list_not_judged"))]
    let desk = &lists_cleared(desk)[..];
    #[cfg(fault = "kind_by_the_tail")]
    let desk = &wide::with_slots(desk, |slot, kind, tail| {
        if (*kind, *tail, wide::is_i2o(desk, slot)) == (2, 0, false) {
            *kind = 1;
        }
    })[..];
    #[cfg(fault = "tail_of_kind_1_not_judged")]
    let desk = &wide::with_slots(desk, |_, kind, tail| *tail = if *kind == 1 { 0 } else { *tail })[..];
    #[cfg(fault = "kind_by_its_low_byte")]
    let desk = &wide::with_slots(desk, |_, kind, _| *kind &= 0xFF)[..];
    #[cfg(fault = "tail_of_a_blank_slot_not_judged")]
    let desk = &wide::with_slots(desk, |_, kind, tail| *tail = if *kind == 0 { 0 } else { *tail })[..];
    let answer = model::write(desk, out, written);
    #[cfg(fault = "list_not_written")]
    if answer == 0 && worn::list(desk, 0).len() == 1 && *written >= 82 {
        // the first drive's list of one number
        let at = usize::from(out[0]);
        out.copy_within(at + 14..*written as usize, at);
        *written -= 14;
    }
    #[cfg(fault = "placed_bytes_written")]
    if answer == 0 && *written >= 92 && out[usize::from(out[0]) + 2] == 4 {
        out[usize::from(out[0]) + 10] |= 0xA0;
    }
    #[cfg(fault = "flags_masked_when_written")]
    if answer == 0 && *written >= 72 && out[32] & 4 == 0 {
        out[32] &= !0x70;
    }
    #[cfg(fault = "clears_rest_of_buffer")]
    if answer == 0 {
        out[*written as usize..].fill(0);
    }
    #[cfg(fault = "writes_before_buffer")]
    if answer == 0 {
        unsafe { out.as_mut_ptr().sub(1).write_volatile(0) };
    }
    answer
}

/// A reader that does not look at the packet word of a row of 02h or 03h.
#[cfg(fault = "packet_word_free")]
fn packet_words_cleared(desk: &[u8]) -> Vec<u8> {
    let mut copy = desk.to_vec();
    if desk.len() == DESK_SIZE {
        for guest in 0..8 {
            if words::get(desk, 23 * guest) == 1 && matches!(words::get(desk, 23 * guest + 1) >> 8, 2 | 3) {
                words::set(&mut copy, 23 * guest + 13, 0);
            }
        }
    }
    copy
}

/// A reader of the block that does not look at all of a count, or at what stands behind the numbers of a list.
#[cfg(any(fault = "bad_count_by_its_low_byte", fault = "past_list_not_judged"))]
fn lists_cleared(desk: &[u8]) -> Vec<u8> {
    let mut copy = desk.to_vec();
    for slot in (0..8).filter(|_| desk.len() == DESK_SIZE) {
        let count = words::get(desk, worn::COUNTS + slot);
        if cfg!(fault = "bad_count_by_its_low_byte") {
            words::set(&mut copy, worn::COUNTS + slot, count & 0xFF);
        } else if (1..16).contains(&count) {
            let list = worn::list(desk, slot);
            worn::set_list(&mut copy, slot, &list);
        }
    }
    copy
}

#[no_mangle]
pub unsafe extern "C" fn edd_post(
    desk: *mut u8,
    desk_len: usize,
    arena: *mut u8,
    arena_len: usize,
    store: *const u8,
    store_len: usize,
    guest: u64,
    ax: &mut u16,
    bx: &mut u16,
    cx: &mut u16,
    dx: &mut u16,
    ds: u16,
    si: u16,
    es: u16,
    carry: &mut u16,
) -> u32 {
    let (desk, arena, store) = unsafe { (lent_mut(desk, desk_len), lent_mut(arena, arena_len), lent(store, store_len)) };
    let given = Registers { ax: *ax, bx: *bx, cx: *cx, dx: *dx, ds, si, es, carry: *carry };
    #[cfg(fault = "lengths_before_desk")]
    if desk.len() == DESK_SIZE && words::get(desk, words::ARENA_LENGTH) != arena.len() as u64 {
        return 24;
    }
    #[cfg(fault = "store_length_unseen")]
    let store = if desk.len() == DESK_SIZE {
        let length = words::get(desk, words::STORE_LENGTH);
        if length <= store.len() as u64 {
            &store[..length as usize]
        } else {
            store
        }
    } else {
        store
    };
    let mut out = given;
    #[cfg(any(fault = "verify_before_the_range", fault = "protected_write_fault"))]
    let found = model::parts::window(arena, guest).to_vec();
    #[cfg(any(
        fault = "size_73_gives_74",
        fault = "i2o_gives_66",
        fault = "i2o_needs_room_for_66",
        fault = "shorter_where_no_room",
        fault = "nul_in_the_wide_result",
        fault = "spaces_in_66_bytes",
        fault = "unpadded_sum",
        fault = "wide_length_byte_24h",
        fault = "tail_not_shown",
        fault = "tail_before_the_path",
        fault = "i2o_without_pointer",
        fault = "channel_cleared",
        fault = "flags_unmasked_in_74_bytes"
    ))]
    if let Some(asked) = wide::asked(desk, arena, guest, &given) {
        return other_result(desk, arena, store, guest, given, (ax, carry), asked);
    }
    let answer = model::post(desk, arena, store, guest, &mut out);
    #[cfg(fault = "bad_block_at_the_post")]
    if answer == 256 && given.ax >> 8 == 0x42 {
        let (start, _, slot) = worn::asked(model::parts::window(arena, guest), &given);
        if worn::list(desk, slot).contains(&start) {
            desk[8 * 23 * guest as usize..8 * 23 * (guest as usize + 1)].fill(0);
            model::steps::set_count(model::parts::window(arena, guest), model::parts::linear(ds, si), 0);
            (*ax, *carry) = (0x1000 | given.ax & 0xFF, 1);
            return 0;
        }
    }
    #[cfg(fault = "verify_count_zero")]
    if answer == 0 && given.ax >> 8 == 0x44 && out.ah() == 0x10 {
        model::steps::set_count(model::parts::window(arena, guest), model::parts::linear(ds, si), 0);
    }
    #[cfg(fault = "verify_sets_al")]
    if answer == 0 && given.ax >> 8 == 0x44 && out.ah() == 0x10 {
        let (_, good, _) = worn::asked(model::parts::window(arena, guest), &given);
        out.set_al(good as u8);
    }
    #[cfg(fault = "verify_before_the_range")]
    if answer == 0 && given.ax >> 8 == 0x44 && out.ah() == 0x04 {
        // 10h where a bad block lies in the part inside the drive
        let (start, count, slot) = worn::asked(&found, &given);
        if let Some(bad) = worn::list(desk, slot).iter().find(|bad| **bad >= start && **bad - start < count) {
            model::steps::set_count(model::parts::window(arena, guest), model::parts::linear(ds, si), (bad - start) as u16);
            out.set_ah(0x10);
        }
    }
    #[cfg(fault = "verify_first_turn_only")]
    if answer == 0 && given.ax >> 8 == 0x44 && out.ah() == 0x10 {
        let (_, good, _) = worn::asked(model::parts::window(arena, guest), &given);
        if good >= 16 {
            out = model::steps::succeeded(given);
        }
    }
    #[cfg(fault = "protected_write_fault")]
    if answer == 0 && given.ax >> 8 == 0x43 && out.ah() == 0x03 {
        let (start, count, slot) = worn::asked(&found, &given);
        if worn::list(desk, slot).iter().any(|bad| *bad >= start && *bad - start < count) {
            out.set_ah(0xCC);
        }
    }
    #[cfg(fault = "seek_heeds_the_list")]
    if answer == 0 && given.ax >> 8 == 0x47 && out.carry == 0 {
        let (start, _, slot) = worn::asked(model::parts::window(arena, guest), &given);
        if worn::list(desk, slot).contains(&start) {
            out = Registers { ax: 0x1000 | given.ax & 0xFF, carry: 1, ..given };
        }
    }
    #[cfg(fault = "al_kept")]
    if answer == 0 && given.ax >> 8 == 2 && out.carry == 1 {
        out.set_al(given.al());
    }
    #[cfg(fault = "seek_clears_count")]
    if answer == 0 && given.ax >> 8 == 0x47 && out.ah() == 4 {
        model::steps::set_count(model::parts::window(arena, guest), model::parts::linear(ds, si), 0);
    }
    #[cfg(fault = "sum_wraps")]
    if answer == 0 && given.ax >> 8 == 0x42 && out.ah() == 4 {
        let packet = &arena[guest as usize * (arena.len() / 8) + model::parts::linear(ds, si) as usize..][..16];
        if u64::from_le_bytes(packet[8..16].try_into().unwrap()) > 1 << 63 {
            out = model::steps::succeeded(given);
        }
    }
    #[cfg(fault = "pointer_by_slot")]
    if answer == 0 && given.ax >> 8 == 0x48 && out.carry == 0 {
        // as if a drive without a record took room too
        let result = guest as usize * (arena.len() / 8) + model::parts::linear(ds, si) as usize;
        let slot = usize::from(given.dl() - 0x80);
        let without = (0..slot).filter(|slot| words::get(desk, words::PRESENT + slot) == 0).count() as u16;
        if words::get(desk, words::PLACED + guest as usize) == 1 && words::get(desk, words::PRESENT + slot) == 1 && arena[result] >= 30 {
            let segment = &mut arena[result + 28..result + 30];
            segment.copy_from_slice(&(u16::from_le_bytes([segment[0], segment[1]]).wrapping_add(without)).to_le_bytes());
        }
    }
    #[cfg(any(fault = "flags_unmasked", fault = "flags_always_masked", fault = "flags_without_bit_3"))]
    if answer == 0 && given.ax >> 8 == 0x48 && out.carry == 0 {
        let raw = words::get(desk, words::drive(usize::from(given.dl() - 0x80), 5)) as u8;
        let shown = if cfg!(fault = "flags_unmasked") {
            raw
        } else if cfg!(fault = "flags_always_masked") {
            raw & !0x70
        } else if raw & 4 == 0 {
            raw & 7
        } else {
            raw
        };
        arena[guest as usize * (arena.len() / 8) + model::parts::linear(ds, si) as usize + 2] = shown;
    }
    #[cfg(fault = "extensions_unplaced")]
    if answer == 0 && given.ax >> 8 == 0x41 && out.carry == 0 && words::get(desk, words::PRESENT + usize::from(given.dl() - 0x80)) == 1 {
        out.cx = 5;
    }
    #[cfg(fault = "static_scratch")]
    if answer == 256 {
        // the fault that was reported: the start of a request kept in a static that every guest shares
        static START: std::sync::atomic::AtomicU64 = std::sync::atomic::AtomicU64::new(0);
        let at = 23 * guest as usize + 10;
        let before = START.swap(words::get(desk, at), std::sync::atomic::Ordering::Relaxed);
        words::set(desk, at, before);
    }
    #[cfg(fault = "carry_kept")]
    if answer == 256 {
        words::set(desk, 23 * guest as usize + 8, u64::from(given.carry & 1));
    }
    #[cfg(fault = "carry_on_256")]
    if answer == 256 {
        *carry = 0;
    }
    if answer == 0 {
        (*ax, *bx, *cx, *dx, *carry) = (out.ax, out.bx, out.cx, out.dx, out.carry);
    }
    answer
}

/// A 48h that goes by another size, or returns other bytes. Its sum is still zero, but for one fault.
#[allow(dead_code)]
fn other_result(
    desk: &mut [u8],
    arena: &mut [u8],
    store: &[u8],
    guest: u64,
    given: Registers,
    (ax, carry): (&mut u16, &mut u16),
    asked: wide::Asked,
) -> u32 {
    let wide::Asked { slot, at, room, size } = asked;
    let (is_i2o, of_type) = (wide::is_i2o(desk, slot), words::drive(slot, wide::TYPE));
    let flags = words::get(desk, words::drive(slot, 5)) as u8;
    // no other window is touched
    let before = model::parts::window(arena, guest).to_vec();
    let mut ask = |desk: &mut [u8], arena: &mut [u8], size: u16| {
        let mut out = given;
        arena[at..at + 2].copy_from_slice(&size.to_le_bytes());
        let answer = model::post(desk, arena, store, guest, &mut out);
        if answer != 0 || out.carry == 1 {
            model::parts::window(arena, guest).copy_from_slice(&before);
        }
        if answer == 0 {
            (*ax, *carry) = (out.ax, out.carry);
        }
        (answer, out)
    };
    let at_66 = is_i2o && (66..74).contains(&size);
    if cfg!(fault = "size_73_gives_74") && size == 73 {
        return ask(desk, arena, 74).0;
    }
    if cfg!(fault = "i2o_gives_66") && at_66 {
        words::set(desk, of_type, u64::from_le_bytes(wide::ATA));
        let (answer, out) = ask(desk, arena, 66);
        words::set(desk, of_type, u64::from_le_bytes(model::parts::I2O));
        if answer == 0 && out.carry == 0 {
            arena[at + 40..at + 48].copy_from_slice(&model::parts::I2O);
            wide::seal(&mut arena[at..], 66);
        }
        return answer;
    }
    if cfg!(fault = "i2o_needs_room_for_66") && at_66 && room < 66 {
        return ask(desk, arena, 25).0;
    }
    let (mut answer, mut out) = ask(desk, arena, size);
    if cfg!(fault = "shorter_where_no_room") && size >= 74 && answer == 0 && out.carry == 1 {
        (answer, out) = ask(desk, arena, 66);
    }
    if answer != 0 || out.carry == 1 {
        return answer;
    }
    let result = &mut arena[at..];
    let returned = usize::from(result[0]);
    if returned == 74 {
        if cfg!(fault = "nul_in_the_wide_result") {
            result[36..48].iter_mut().filter(|byte| **byte == 0x20).for_each(|byte| *byte = 0);
        }
        if cfg!(fault = "wide_length_byte_24h") {
            result[32] = 0x24;
        }
        if cfg!(fault = "tail_not_shown") {
            result[64..72].fill(0);
        }
        if cfg!(fault = "tail_before_the_path") {
            result[56..72].rotate_left(8);
        }
        if cfg!(fault = "channel_cleared") {
            result[51] = 0;
        }
        if cfg!(fault = "flags_unmasked_in_74_bytes") {
            result[2] = flags;
        }
        wide::seal(result, 74);
        if cfg!(fault = "unpadded_sum") {
            let padding = result[36..48].iter().filter(|byte| **byte == 0x20).count();
            result[73] = result[73].wrapping_add(0x20 * padding as u8);
        }
    }
    if returned == 66 {
        if cfg!(fault = "spaces_in_66_bytes") {
            result[36..48].iter_mut().filter(|byte| **byte == 0).for_each(|byte| *byte = 0x20);
        }
        wide::seal(result, 66);
    }
    if cfg!(fault = "i2o_without_pointer") && at_66 {
        result[26..30].fill(0xFF);
    }
    answer
}

#[no_mangle]
pub unsafe extern "C" fn edd_turn(
    desk: *mut u8,
    desk_len: usize,
    arena: *mut u8,
    arena_len: usize,
    store: *mut u8,
    store_len: usize,
    guest: &mut u64,
    moved: &mut u64,
) -> u32 {
    let (desk, arena, store) = unsafe { (lent_mut(desk, desk_len), lent_mut(arena, arena_len), lent_mut(store, store_len)) };
    #[cfg(fault = "reads_other_window")]
    if !arena.is_empty() {
        unsafe { arena.as_ptr().read_volatile() };
    }
    #[cfg(fault = "packet_read_again")]
    if desk.len() == DESK_SIZE && words::get(desk, words::ARENA_LENGTH) == arena.len() as u64 {
        for guest in 0..8 {
            let place = (guest * (arena.len() / 8)).saturating_add(words::get(desk, 23 * guest + 13) as usize);
            let packet = arena.get(place..place.saturating_add(16)).filter(|packet| packet[0] >= 16);
            if let (1, 0x42, Some(packet)) = (words::get(desk, 23 * guest), words::get(desk, 23 * guest + 1) >> 8, packet) {
                words::set(desk, 23 * guest + 10, u64::from_le_bytes(packet[8..16].try_into().unwrap()) % 4);
            }
        }
    }
    #[cfg(fault = "search_from_zero")]
    let pointer = if desk.len() == DESK_SIZE { std::mem::replace(&mut desk[8 * words::POINTER], 0) } else { 0 };
    #[cfg(any(fault = "list_of_the_store", fault = "next_part_not_searched"))]
    let lists = lists_moved(desk);
    #[cfg(any(
        fault = "bad_block_moved",
        fault = "count_word_before_the_data",
        fault = "count_of_this_turn",
        fault = "bad_sector_for_writes",
        fault = "whole_part_answered",
        fault = "al_kept_at_a_bad_block",
        fault = "al_set_by_packet",
        fault = "count_word_on_success",
        fault = "bad_count_one_byte"
    ))]
    let next = worn::next(desk, arena);
    let answer = model::turn(desk, arena, store, guest, moved);
    #[cfg(any(fault = "list_of_the_store", fault = "next_part_not_searched"))]
    if desk.len() == DESK_SIZE {
        desk[8 * worn::COUNTS..].copy_from_slice(&lists);
    }
    #[cfg(any(
        fault = "bad_block_moved",
        fault = "count_word_before_the_data",
        fault = "count_of_this_turn",
        fault = "bad_sector_for_writes",
        fault = "whole_part_answered",
        fault = "al_kept_at_a_bad_block",
        fault = "al_set_by_packet",
        fault = "count_word_on_success",
        fault = "bad_count_one_byte"
    ))]
    if answer == 0 {
        spoil_ending(&next.unwrap(), desk, arena, store, moved);
    }
    #[cfg(fault = "search_from_zero")]
    if desk.len() == DESK_SIZE && answer != 0 {
        desk[8 * words::POINTER] = pointer;
    }
    #[cfg(fault = "pointer_stays")]
    if answer == 0 && *guest == 7 {
        words::set(desk, words::POINTER, 7);
    }
    #[cfg(fault = "last_block_lost")]
    if answer == 0 && *moved == 16 {
        if let Some(byte) = store.last_mut() {
            *byte ^= 1;
        }
    }
    #[cfg(fault = "guest_on_idle")]
    if answer == 256 {
        *guest = 0;
    }
    answer
}

/// Bad blocks counted from the store's first block, or only those in a request's first part: the lists of the block, and how they were.
#[cfg(any(fault = "list_of_the_store", fault = "next_part_not_searched"))]
fn lists_moved(desk: &mut [u8]) -> Vec<u8> {
    let old = if desk.len() == DESK_SIZE { desk[8 * worn::COUNTS..].to_vec() } else { Vec::new() };
    let Some(read) = model::block::read(desk) else { return old };
    for (slot, drive) in read.drives.known().iter().enumerate() {
        let list = worn::list(desk, slot);
        let kept: Vec<u64> = if cfg!(fault = "list_of_the_store") {
            list.iter().filter(|bad| **bad >= drive.first && **bad - drive.first < drive.blocks).map(|bad| bad - drive.first).collect()
        } else {
            // forgets a bad block that the next request to be served reaches in a later part
            let next = (0..8).map(|i| read.rows[(read.pointer as usize + i) % 8]).find_map(|row| match row {
                model::parts::Row::Waiting(request) => Some(request),
                _ => None,
            });
            list.into_iter().filter(|_| next.map_or(true, |request| request.moved == 0)).collect()
        };
        worn::set_list(desk, slot, &kept);
    }
    old
}

/// A turn that did something else where it met a bad block, or where it ended a request.
#[allow(dead_code)]
fn spoil_ending(served: &worn::Service, desk: &mut [u8], arena: &mut [u8], store: &mut [u8], moved: &mut u64) {
    let row = 23 * served.guest as usize;
    let ax = row + 15;
    if *moved == served.due {
        if cfg!(fault = "count_word_on_success") && served.by_packet && words::get(desk, row) == 2 {
            served.set_count(arena, served.request.count);
        }
        return;
    }
    if cfg!(fault = "bad_block_moved") {
        served.move_again(*moved, 1, arena, store);
    }
    if cfg!(fault = "count_word_before_the_data") && !served.writes {
        served.move_again(0, *moved, arena, store);
    }
    let registers = words::get(desk, ax);
    if cfg!(fault = "count_of_this_turn") {
        if served.by_packet {
            served.set_count(arena, *moved);
        } else {
            words::set(desk, ax, registers & 0xFF00 | *moved);
        }
    }
    if cfg!(fault = "bad_sector_for_writes") {
        words::set(desk, ax, 0x1000 | registers & 0xFF);
    }
    if cfg!(fault = "al_kept_at_a_bad_block") {
        words::set(desk, ax, registers & 0xFF00 | u64::from(served.request.registers.al()));
    }
    if cfg!(fault = "al_set_by_packet") {
        words::set(desk, ax, registers & 0xFF00 | served.request.moved + *moved);
    }
    if let (true, Some(high)) = (cfg!(fault = "bad_count_one_byte"), served.high) {
        let window = model::parts::window(arena, served.guest);
        window[served.request.packet as usize + 3] = high;
    }
    if cfg!(fault = "whole_part_answered") {
        *moved = served.due;
    }
}

#[no_mangle]
pub unsafe extern "C" fn edd_collect(
    desk: *mut u8,
    desk_len: usize,
    guest: u64,
    ax: &mut u16,
    bx: &mut u16,
    cx: &mut u16,
    dx: &mut u16,
    ds: &mut u16,
    si: &mut u16,
    es: &mut u16,
    carry: &mut u16,
) -> u32 {
    let desk = unsafe { lent_mut(desk, desk_len) };
    let mut out = Registers::default();
    let answer = model::collect(desk, guest, &mut out);
    #[cfg(fault = "segments_swapped")]
    std::mem::swap(&mut out.ds, &mut out.es);
    if answer == 0 {
        (*ax, *bx, *cx, *dx) = (out.ax, out.bx, out.cx, out.dx);
        (*ds, *si, *es, *carry) = (out.ds, out.si, out.es, out.carry);
    }
    answer
}

#[no_mangle]
pub unsafe extern "C" fn edd_withdraw(
    desk: *mut u8,
    desk_len: usize,
    arena: *mut u8,
    arena_len: usize,
    store: *const u8,
    store_len: usize,
    guest: u64,
    ax: &mut u16,
    bx: &mut u16,
    cx: &mut u16,
    dx: &mut u16,
    ds: &mut u16,
    si: &mut u16,
    es: &mut u16,
    carry: &mut u16,
) -> u32 {
    let (desk, arena, store) = unsafe { (lent_mut(desk, desk_len), lent_mut(arena, arena_len), lent(store, store_len)) };
    let mut out = Registers::default();
    #[cfg(fault = "withdrawn_count_one_byte")]
    let before = arena.to_vec();
    let answer = model::withdraw(desk, arena, store, guest, &mut out);
    #[cfg(fault = "withdrawn_count_one_byte")]
    if answer == 0 && out.ds | out.si != 0 {
        let start = guest as usize * (arena.len() / 8);
        let high = start + model::parts::linear(out.ds, out.si) as usize + 3;
        if high < arena.len() {
            arena[high] = before[high];
        }
    }
    if answer == 0 {
        (*ax, *bx, *cx, *dx) = (out.ax, out.bx, out.cx, out.dx);
        (*ds, *si, *es, *carry) = (out.ds, out.si, out.es, out.carry);
    }
    answer
}

#[no_mangle]
pub unsafe extern "C" fn edd_place(
    desk: *mut u8,
    desk_len: usize,
    arena: *mut u8,
    arena_len: usize,
    store: *const u8,
    store_len: usize,
    guest: u64,
    address: u64,
) -> u32 {
    let (desk, arena, store) = unsafe { (lent_mut(desk, desk_len), lent_mut(arena, arena_len), lent(store, store_len)) };
    #[cfg(fault = "finished_row_refuses")]
    if desk.len() == DESK_SIZE && guest < 8 && words::get(desk, 23 * guest as usize) == 2 {
        let answer = model::place(&mut desk.to_vec(), &mut arena.to_vec(), store, guest, address);
        return if matches!(answer, 0 | 26) { 21 } else { answer };
    }
    #[cfg(fault = "place_before_row")]
    if address % 16 != 0 && model::place(&mut desk.to_vec(), &mut arena.to_vec(), store, guest, address) == 21 {
        return 26;
    }
    #[cfg(fault = "address_0_is_none")]
    if address == 0 {
        return model::place(&mut desk.to_vec(), arena, store, guest, address);
    }
    let answer = model::place(desk, arena, store, guest, address);
    #[cfg(fault = "flags_raw")]
    if let Some(slot) = (0..8).find(|slot| answer == 0 && words::get(desk, words::PRESENT + slot) == 1) {
        // of the first table; its sum is still zero
        let at = guest as usize * (arena.len() / 8) + address as usize;
        let raw = desk[8 * words::PARAMETERS + 14 * slot + 4];
        arena[at + 15] = arena[at + 15].wrapping_add(arena[at + 4] - raw);
        arena[at + 4] = raw;
    }
    #[cfg(fault = "next_window")]
    if answer == 0 && guest < 7 {
        let at = (guest as usize + 1) * (arena.len() / 8) + address as usize;
        if let Some(byte) = arena.get_mut(at) {
            *byte ^= 1;
        }
    }
    answer
}

// ---- the reader of fragments

#[no_mangle]
pub extern "C" fn edd_reader_size() -> u64 {
    model::reader_size()
}

#[no_mangle]
pub unsafe extern "C" fn edd_reader_open(reader: *mut u8, reader_len: usize, store_length: u64) -> u32 {
    let reader = unsafe { lent_mut(reader, reader_len) };
    #[cfg(fault = "reader_size_untested")]
    let reader = if reader.len() > READER_SIZE { &mut reader[..READER_SIZE] } else { reader };
    let answer = model::reader_open(reader, store_length);
    #[cfg(fault = "reader_store_in_bytes")]
    if answer == 0 {
        words::set(reader, 2, store_length);
    }
    #[cfg(fault = "reader_keeps_old_bytes")]
    if answer == 0 {
        reader[READER_SIZE - 1] = 1;
    }
    answer
}

#[no_mangle]
pub unsafe extern "C" fn edd_reader_feed(reader: *mut u8, reader_len: usize, bytes: *const u8, bytes_len: usize, place: &mut u64) -> u32 {
    let (reader, bytes) = unsafe { (lent_mut(reader, reader_len), lent(bytes, bytes_len)) };
    #[cfg(fault = "reader_size_untested")]
    let reader = if reader.len() > READER_SIZE { &mut reader[..READER_SIZE] } else { reader };
    #[cfg(fault = "reads_past_fragment")]
    unsafe {
        bytes.as_ptr().add(bytes.len()).read_volatile();
    }
    #[cfg(fault = "counted_after_end")]
    if reader.len() == READER_SIZE && words::get(reader, 0) == 2 {
        // an accepted reader goes on from its end record
        words::set(reader, 0, 1);
        let answer = model::reader_feed(reader, bytes, place);
        if answer == 256 {
            return model::reader_end(reader, place);
        }
        return answer;
    }
    #[cfg(fault = "refusal_forgotten")]
    if reader.len() == READER_SIZE && words::get(reader, 0) == 3 && !bytes.is_empty() {
        words::set(reader, 0, 0);
        words::set(reader, 1, 0);
    }
    #[cfg(fault = "held_list_refused")]
    if reader.len() == READER_SIZE && words::get(reader, 3) >= 76 {
        // room for a drive's record only
        return 25;
    }
    #[cfg(fault = "held_kind_2_refused")]
    if reader.len() == READER_SIZE && words::get(reader, 3) >= 68 && reader[42] == 2 {
        // room for a drive of kind 1 only
        return 25;
    }
    #[cfg(fault = "empty_fragment_ends")]
    if bytes.is_empty() {
        return model::reader_end(reader, place);
    }
    #[cfg(fault = "one_record_of_a_fragment")]
    let bytes = one_record(reader, bytes);
    #[cfg(any(
        fault = "length_when_whole",
        fault = "kind_when_whole",
        fault = "held_after_refusal",
        fault = "place_in_fragment",
        fault = "drives_after_refusal",
        fault = "list_judged_at_the_end",
        fault = "list_judged_by_its_first_bytes"
    ))]
    let before = reader.to_vec();
    let answer = model::reader_feed(reader, bytes, place);
    #[cfg(fault = "cut_off_at_feed")]
    if answer == 256 && words::get(reader, 3) > 0 {
        return model::reader_end(reader, place);
    }
    #[cfg(any(fault = "length_when_whole", fault = "kind_when_whole"))]
    if answer == (if cfg!(fault = "length_when_whole") { 2 } else { 3 }) && words::get(&before, 0) == 0 {
        // nothing is said before so many bytes of the record arrived as the longest has
        let arrived = words::get(&before, 4) - 4 + words::get(&before, 3) + bytes.len() as u64;
        if arrived - *place < 134 {
            reader.copy_from_slice(&before);
            return 256;
        }
    }
    #[cfg(fault = "list_judged_at_the_end")]
    if answer == 5 && words::get(&before, 0) == 0 && words::get(&before, 3) >= 4 && before[42] == 3 {
        // a list that is not taken is told with the next byte only
        let kept = reader.to_vec();
        reader.copy_from_slice(&before);
        if bytes.len() == 1 {
            return 256;
        }
        reader.copy_from_slice(&kept);
    }
    #[cfg(fault = "list_judged_by_its_first_bytes")]
    if answer == 256 && words::get(reader, 0) == 0 && words::get(reader, 3) >= 6 && reader[42] == 3 && words::get(reader, 4) == 4 {
        // 9 for a list without a drive as soon as its number is there
        *place = 0;
        words::set(reader, 0, 3);
        words::set(reader, 1, 9);
        words::set(reader, 3, 0);
        reader[40..174].fill(0);
        return 9;
    }
    #[cfg(fault = "kind_2_judged_by_68_bytes")]
    if answer == 256 && words::get(reader, 0) == 0 && words::get(reader, 3) >= 68 && reader[42] == 2 {
        // the tail may be anything, so nothing is awaited
        let (mut copy, missing) = (reader.to_vec(), 76 - words::get(reader, 3) as usize);
        let early = model::reader_feed(&mut copy, &[0; 8][..missing], place);
        if early != 256 {
            reader.copy_from_slice(&copy);
            return early;
        }
    }
    #[cfg(fault = "trailing_before_a_byte")]
    if answer == 256 && words::get(reader, 0) == 1 {
        return model::reader_feed(reader, &[0], place);
    }
    #[cfg(fault = "trailing_at_the_record")]
    if answer == 8 {
        *place -= 4;
    }
    #[cfg(fault = "held_after_refusal")]
    if (2..=9).contains(&answer) && words::get(&before, 0) == 0 {
        reader[40..174].copy_from_slice(&before[40..174]);
    }
    #[cfg(fault = "drives_after_refusal")]
    if (2..=9).contains(&answer) && words::get(&before, 0) == 0 {
        // the drives of the refused fragment are forgotten
        reader[32..40].copy_from_slice(&before[32..40]);
        reader[174..].copy_from_slice(&before[174..]);
    }
    #[cfg(fault = "place_in_fragment")]
    if (2..=9).contains(&answer) && words::get(&before, 0) < 2 {
        let arrived = words::get(&before, 4) - 4 + words::get(&before, 3);
        *place = place.saturating_sub(arrived);
    }
    #[cfg(fault = "place_on_256")]
    if matches!(answer, 0 | 256) {
        *place = 0;
    }
    answer
}

/// The fragment up to the end of the record that its bytes complete first.
#[cfg(fault = "one_record_of_a_fragment")]
fn one_record<'a>(reader: &[u8], bytes: &'a [u8]) -> &'a [u8] {
    let mut copy = reader.to_vec();
    for (i, byte) in bytes.iter().enumerate() {
        let answer = model::reader_feed(&mut copy, &[*byte], &mut 0);
        if answer == 256 && copy[32..40] != reader[32..40] {
            return &bytes[..=i];
        }
    }
    bytes
}

#[no_mangle]
pub unsafe extern "C" fn edd_reader_end(reader: *mut u8, reader_len: usize, place: &mut u64) -> u32 {
    let reader = unsafe { lent_mut(reader, reader_len) };
    #[cfg(fault = "reader_size_untested")]
    let reader = if reader.len() > READER_SIZE { &mut reader[..READER_SIZE] } else { reader };
    #[cfg(fault = "end_forgotten")]
    if reader.len() == READER_SIZE {
        return model::reader_end(&mut reader.to_vec(), place);
    }
    let answer = model::reader_end(reader, place);
    #[cfg(fault = "place_on_0")]
    if answer == 0 {
        *place = 0;
    }
    answer
}

#[no_mangle]
pub unsafe extern "C" fn edd_reader_write(reader: *const u8, reader_len: usize, out: *mut u8, out_len: usize, written: &mut u64) -> u32 {
    let (reader, out) = unsafe { (lent(reader, reader_len), lent_mut(out, out_len)) };
    #[cfg(fault = "reader_size_untested")]
    let reader = if reader.len() > READER_SIZE { &reader[..READER_SIZE] } else { reader };
    #[cfg(fault = "held_not_judged")]
    if reader.len() == READER_SIZE && words::get(reader, 0) == 0 && words::get(reader, 3) < 134 {
        // only the bytes past those held are looked at
        let mut copy = reader.to_vec();
        let held = words::get(reader, 3) as usize;
        words::set(&mut copy, 3, 0);
        copy[40..40 + held].fill(0);
        return model::reader_write(&copy, out, written);
    }
    #[cfg(fault = "past_held_not_judged")]
    if reader.len() == READER_SIZE && words::get(reader, 3) < 134 {
        let mut copy = reader.to_vec();
        let held = words::get(reader, 3) as usize;
        copy[40 + held..174].fill(0);
        return model::reader_write(&copy, out, written);
    }
    #[cfg(fault = "written_before_the_end")]
    if reader.len() == READER_SIZE && words::get(reader, 0) == 1 {
        let mut copy = reader.to_vec();
        words::set(&mut copy, 0, 2);
        return model::reader_write(&copy, out, written);
    }
    let answer = model::reader_write(reader, out, written);
    #[cfg(fault = "short_before_refusal")]
    if (answer == 256 || (1..=9).contains(&answer)) && (out.len() as u64) < words::get(reader, 4) {
        return 19;
    }
    #[cfg(fault = "reader_clears_rest")]
    if answer == 0 {
        out[*written as usize..].fill(0);
    }
    answer
}

// ---- calls without a desk

#[no_mangle]
pub unsafe extern "C" fn edd_convert_up(record: *const u8, record_len: usize, out: *mut u8, out_len: usize) -> u32 {
    let (record, out) = unsafe { (lent(record, record_len), lent_mut(out, out_len)) };
    #[cfg(fault = "swapped_sizes_taken")]
    if (record.len(), out.len()) == (76, 68) {
        return model::convert_down(record, out);
    }
    #[cfg(fault = "longer_buffer_taken")]
    let out = if out.len() > 76 { &mut out[..76] } else { out };
    #[cfg(fault = "up_reads_past_the_record")]
    unsafe {
        record.as_ptr().add(record.len()).read_volatile();
    }
    #[cfg(fault = "up_judges_the_place")]
    if record.len() == 68 {
        // as if a drive had to end below 2^64
        let number = |at: usize| u64::from_le_bytes(record[at..at + 8].try_into().unwrap());
        if number(16).checked_add(number(24)).is_none() {
            return 10;
        }
    }
    let answer = model::convert_up(record, out);
    #[cfg(fault = "up_without_fields")]
    if answer == 10 && out.len() == 76 && record.len() == 68 && record[..4] == [68, 0, 1, 0] {
        out.copy_from_slice(&[&[76, 0, 2, 0], &record[4..], &[0; 8]].concat());
        return 0;
    }
    #[cfg(fault = "up_keeps_the_length")]
    if answer == 0 {
        out[0] = 68;
    }
    #[cfg(fault = "up_keeps_the_kind")]
    if answer == 0 {
        out[2] = 1;
    }
    #[cfg(fault = "up_leaves_the_tail")]
    if answer == 0 {
        out[75] = 0x3C;
    }
    #[cfg(fault = "out_written_on_10")]
    if answer == 10 && out.len() == 76 && record.len() == 68 {
        out[..68].copy_from_slice(record);
    }
    answer
}

#[no_mangle]
pub unsafe extern "C" fn edd_convert_down(record: *const u8, record_len: usize, out: *mut u8, out_len: usize) -> u32 {
    let (record, out) = unsafe { (lent(record, record_len), lent_mut(out, out_len)) };
    #[cfg(fault = "swapped_sizes_taken")]
    if (record.len(), out.len()) == (68, 76) {
        return model::convert_up(record, out);
    }
    #[cfg(fault = "longer_buffer_taken")]
    let out = if out.len() > 68 { &mut out[..68] } else { out };
    let answer = model::convert_down(record, out);
    #[cfg(any(fault = "down_ignores_the_tail", fault = "down_by_half_the_tail"))]
    if answer == 10 && record.len() == 76 {
        let from = if cfg!(fault = "down_ignores_the_tail") { 68 } else { 72 };
        return model::convert_down(&[&record[..from], &[0; 8][..76 - from]].concat(), out);
    }
    #[cfg(fault = "down_takes_i2o")]
    if answer == 10 && record.len() == 76 && record[44..52] == model::parts::I2O {
        let answer = model::convert_down(&[&record[..44], &wide::ATA, &record[52..]].concat(), out);
        if answer == 0 {
            out[44..52].copy_from_slice(&model::parts::I2O);
        }
        return answer;
    }
    #[cfg(fault = "out_written_on_10")]
    if answer == 10 && out.len() == 68 && record.len() == 76 {
        out.copy_from_slice(&record[..68]);
    }
    answer
}

#[no_mangle]
pub extern "C" fn edd_window(arena_length: u64, guest: u64, start: &mut u64, length: &mut u64) -> u32 {
    let answer = model::window(arena_length, guest, start, length);
    #[cfg(fault = "window_of_guest_8")]
    if guest == 8 {
        *start = arena_length / 8 * 8;
    }
    answer
}

#[no_mangle]
pub extern "C" fn edd_block(c: u32, h: u32, s: u32, cylinder: u32, head: u32, sector: u32, block: &mut u32) -> u32 {
    model::block_number(Geometry { cylinders: c, heads: h, sectors: s }, Address { cylinder, head, sector }, block)
}

#[no_mangle]
pub extern "C" fn edd_address(c: u32, h: u32, s: u32, block: u64, cylinder: &mut u32, head: &mut u32, sector: &mut u32) -> u32 {
    #[cfg(fault = "block_narrowed")]
    let block = u64::from(block as u32);
    #[cfg(any(fault = "wide_division", fault = "quotient_narrowed"))]
    return divided_wide(c, h, s, block, cylinder, head, sector);
    #[allow(unreachable_code)]
    let mut at = Address { cylinder: *cylinder, head: *head, sector: *sector };
    let answer = model::address(Geometry { cylinders: c, heads: h, sectors: s }, block, &mut at);
    (*cylinder, *head, *sector) = (at.cylinder, at.head, at.sector);
    answer
}

/// Divides 64-bit numbers, and only then compares: the same answers, which only host/division_test can tell from the model's. A quotient
/// that is narrowed before it is compared takes blocks from 2^32 x S on for others.
#[cfg(any(fault = "wide_division", fault = "quotient_narrowed"))]
fn divided_wide(c: u32, h: u32, s: u32, block: u64, cylinder: &mut u32, head: &mut u32, sector: &mut u32) -> u32 {
    if !((1..=1024).contains(&c) && (1..=255).contains(&h) && (1..=63).contains(&s)) {
        return 4;
    }
    let track = block / u64::from(s);
    let track = if cfg!(fault = "quotient_narrowed") { u64::from(track as u32) } else { track };
    if track >= u64::from(c * h) {
        return 4;
    }
    (*cylinder, *head, *sector) = (track as u32 / h, track as u32 % h, (block % u64::from(s)) as u32 + 1);
    0
}
