//! Document 01 and change requests 2026-01 to 2026-06 once more. It follows the papers, the tables of words in docs/BLOCK.md, the C
//! interface and the readings in docs/DECISIONS.md, and shares no code with the crates. The differential test (host/diff) compares the library
//! with it, and the benchmark measures against it.
//!
//! Each file is a section of the paper, each function one of its sentences:
//!   parts      Parts of the desk
//!   table      The drive table
//!   addresses  cylinder, head and sector, from 02h and 03h of "Steps of each function"
//!   steps      Steps of each function, with the BIOS answers of "Numbers given back"
//!   block      the desk as a block of bytes, and when it is accepted, from "Calls the host makes"
//!   calls      Calls the host makes, with the house numbers of "Numbers given back"
//!   alone      served alone, from "The words of demand 3"
//!   bad        the bad blocks of a drive, from change request 2026-04
//!   parameters the device parameter table, from change request 2026-01
//!   fragments  the reader of fragments, by value and as a block of bytes, from change request 2026-03
//!   convert    a drive's record of kind 1 as one of kind 2, and back, from change request 2026-06
//!
//! `calls` has the exported calls under their C names without `edd_`, on slices and references in place of pointers.

pub mod addresses;
pub mod alone;
pub mod bad;
pub mod block;
pub mod calls;
pub mod convert;
pub mod fragments;
pub mod parameters;
pub mod parts;
pub mod steps;
pub mod table;

pub use block::DESK_SIZE;
pub use calls::{address, block_number, collect, desk_size, open, place, post, turn, version, window, withdraw, write};
pub use calls::{convert_down, convert_up};
pub use calls::{reader_end, reader_feed, reader_open, reader_size, reader_write};
pub use fragments::READER_SIZE;
pub use parts::Registers;
