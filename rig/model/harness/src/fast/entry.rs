//! The fields of a station's entry.

use super::view::Entry;
use rules::layout::NIL;

pub const PARENT: usize = 0;
pub const TENTATIVE: usize = 1;
pub const MEMBER: usize = 2;
pub const CLOCK: usize = 4;
pub const CHILDREN: usize = 8;
pub const WAITING: usize = 10;

pub fn clock(entry: &Entry) -> u32 {
    u32::from_be_bytes([entry[CLOCK], entry[CLOCK + 1], entry[CLOCK + 2], entry[CLOCK + 3]])
}

pub fn set_clock(entry: &mut Entry, clock: u32) {
    entry[CLOCK..CLOCK + 4].copy_from_slice(&clock.to_be_bytes());
}

/// The mask at this place: children or waiting.
pub fn mask(entry: &Entry, at: usize) -> u16 {
    u16::from_be_bytes([entry[at], entry[at + 1]])
}

pub fn set_mask(entry: &mut Entry, at: usize, mask: u16) {
    entry[at..at + 2].copy_from_slice(&mask.to_be_bytes());
}

pub fn has(mask: u16, station: u8) -> bool {
    mask >> (station & 15) & 1 == 1
}

/// The station alone, as a mask.
pub fn bit(station: u8) -> u16 {
    1 << (station & 15)
}

pub fn joins(entry: &Entry) -> bool {
    entry[MEMBER] != 0 || mask(entry, CHILDREN) != 0
}

/// The root's parents are nil already.
pub fn leave_unless_joins(entry: &mut Entry) {
    if !joins(entry) {
        entry[PARENT] = NIL;
        entry[TENTATIVE] = NIL;
    }
}
