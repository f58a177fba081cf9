//! Document 01, "Parts of the desk", and what change requests 2026-01, 2026-04 and 2026-06 add to them.

use crate::bad::BadBlocks;
use crate::parameters::Parameters;

pub const GUESTS: usize = 8;
pub const MOST_DRIVES: usize = 8;
pub const FIRST_DRIVE: u64 = 0x80;
pub const BLOCK_SIZE: u64 = 512;
/// An interface type, NUL-padded as a record has it.
pub const I2O: [u8; 8] = *b"I2O\0\0\0\0\0";

/// The registers of INT 13h. Carry is 0 or 1; a post may give any number there and it is not looked at.
#[derive(Clone, Copy, PartialEq, Eq, Debug, Default)]
pub struct Registers {
    pub ax: u16,
    pub bx: u16,
    pub cx: u16,
    pub dx: u16,
    pub ds: u16,
    pub si: u16,
    pub es: u16,
    pub carry: u16,
}

impl Registers {
    pub fn ah(&self) -> u8 {
        (self.ax >> 8) as u8
    }
    pub fn al(&self) -> u8 {
        self.ax as u8
    }
    pub fn dl(&self) -> u8 {
        self.dx as u8
    }
    pub fn set_ah(&mut self, ah: u8) {
        self.ax = u16::from(ah) << 8 | self.ax & 0xFF;
    }
    pub fn set_al(&mut self, al: u8) {
        self.ax = self.ax & 0xFF00 | u16::from(al);
    }
}

/// A drive as its record in the table has it.
#[derive(Clone, Copy, PartialEq, Eq, Debug, Default)]
pub struct Drive {
    /// Of its record: 1, or 2 for one "with a sixteen-byte device path"; 0 in a blank slot.
    pub kind: u16,
    pub physical_cylinders: u32,
    pub physical_heads: u32,
    pub physical_sectors: u32,
    pub blocks: u64,
    pub first: u64,
    pub flags: u16,
    pub cylinders: u16,
    pub heads: u16,
    pub sectors: u8,
    pub protection: u8,
    pub host_bus: [u8; 4],
    pub interface_type: [u8; 8],
    pub interface_path: [u8; 8],
    /// The first eight bytes of the device path.
    pub device_path: [u8; 8],
    /// The other eight, which only a record of kind 2 has; zeros for a drive of kind 1.
    pub tail: [u8; 8],
}

impl Drive {
    pub fn is_protected(&self) -> bool {
        self.protection == 1
    }
    /// "the I2O interface (kind 2 only)".
    pub fn is_i2o(&self) -> bool {
        self.interface_type == I2O
    }
    /// C x H x S
    pub fn geometry_blocks(&self) -> u64 {
        u64::from(self.cylinders) * u64::from(self.heads) * u64::from(self.sectors)
    }
}

/// The drives in table order, and what their records of kinds 3 and 4 hold; slots past the count are blank.
#[derive(Clone, Copy, PartialEq, Eq, Debug, Default)]
pub struct Drives {
    pub slot: [Drive; MOST_DRIVES],
    pub bad: [BadBlocks; MOST_DRIVES],
    pub parameters: [Option<Parameters>; MOST_DRIVES],
    pub count: usize,
}

impl Drives {
    pub fn known(&self) -> &[Drive] {
        &self.slot[..self.count]
    }
    /// The slot of a BIOS number, 80h upward in table order.
    pub fn slot_of(&self, number: u64) -> Option<usize> {
        usize::try_from(number.checked_sub(FIRST_DRIVE)?).ok().filter(|slot| *slot < self.count)
    }
    pub fn numbered(&self, number: u64) -> Option<&Drive> {
        self.slot_of(number).map(|slot| &self.slot[slot])
    }
    /// The bad blocks of the drive of a BIOS number, counted from its block 0.
    pub fn bad_of(&self, number: u64) -> &BadBlocks {
        self.slot_of(number).map_or(&BadBlocks::NONE, |slot| &self.bad[slot])
    }
}

/// A request that waits: what it asks, and how many of its blocks are moved. Buffer and packet are places in the window.
#[derive(Clone, Copy, PartialEq, Eq, Debug)]
pub struct Request {
    pub registers: Registers,
    pub drive: u64,
    pub start: u64,
    pub count: u64,
    pub buffer: u64,
    pub packet: u64,
    pub moved: u64,
}

#[derive(Clone, Copy, PartialEq, Eq, Debug)]
pub enum Row {
    Vacant,
    Waiting(Request),
    Finished(Registers),
}

#[derive(Clone, Copy, PartialEq, Eq, Debug)]
pub struct Desk {
    pub rows: [Row; GUESTS],
    pub drives: Drives,
    pub pointer: u64,
    /// The address at which the guest's parameter tables were placed, if they were.
    pub placements: [Option<u64>; GUESTS],
    pub arena_length: u64,
    pub store_length: u64,
}

/// M
pub fn window_length(arena_length: u64) -> u64 {
    arena_length / 8
}

/// Where a guest's window starts, and its length. For a guest of 8 or more the empty part at 0.
pub fn window_place(arena_length: u64, guest: u64) -> (u64, u64) {
    if guest < GUESTS as u64 {
        (guest * window_length(arena_length), window_length(arena_length))
    } else {
        (0, 0)
    }
}

/// The window as that part of the arena itself.
pub fn window(arena: &mut [u8], guest: u64) -> &mut [u8] {
    let (start, length) = window_place(arena.len() as u64, guest);
    &mut arena[start as usize..][..length as usize]
}

/// 16 times segment plus offset, never wrapped.
pub fn linear(segment: u16, offset: u16) -> u64 {
    16 * u64::from(segment) + u64::from(offset)
}

/// Whether `length` things from `start` on lie below `end`, for any numbers: no sum that could wrap.
pub fn inside(start: u64, length: u64, end: u64) -> bool {
    length <= end && start <= end - length
}
