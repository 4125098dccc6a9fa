//! The test for well shaped. Flags are combined by `&`, there is no early exit, and every place is looked at, so that the
//! time does not hang on what the net holds.

use super::NetBytes;
use rules::layout::*;

/// The neighbours of each station, lowest bit first.
pub type Masks = [u16; MOST_STATIONS];

/// Whether these bytes are a well-shaped net in this form.
pub fn well_shaped(form: Form, bytes: &[u8]) -> bool {
    match (form, <&NetBytes>::try_from(bytes)) {
        // the form is known in each, so that neither asks for it at every entry
        (Form::Saved, Ok(net)) => shaped(Form::Saved, net),
        (Form::Working, Ok(net)) => shaped(Form::Working, net),
        (_, Err(_)) => false,
    }
}

#[inline(always)]
fn shaped(form: Form, net: &NetBytes) -> bool {
    let masks = masks(net);
    head(form, net)
        & groups(net)
        & cables(net, &masks)
        & routes(net, &masks)
        & entries(form, net, &masks)
        & channels(net, &masks)
}

#[inline(always)]
fn head(form: Form, net: &NetBytes) -> bool {
    let fixed = u64::from_le_bytes([net[0], net[1], net[2], net[3], net[4], 0, 0, net[MARK_AT]]);
    let (stations, groups) = (net[STATIONS_AT], net[GROUPS_AT]);
    let right = u64::from_le_bytes([0, 0, 0x3d, 0x70, 1, 0, 0, mark(form)]);
    (fixed == right) & (stations.wrapping_sub(1) < 16) & (groups.wrapping_sub(1) < 4)
}

/// The name's bytes, the first highest.
fn name(net: &NetBytes, group: usize) -> u128 {
    let at = group_at(group) + 1;
    let mut bytes = [0; NAME_BYTES];
    bytes.copy_from_slice(&net[at..at + NAME_BYTES]);
    u128::from_be_bytes(bytes)
}

fn groups(net: &NetBytes) -> bool {
    let (stations, groups) = (net[STATIONS_AT], usize::from(net[GROUPS_AT]));
    let mut ok = true;
    for k in 0..MOST_GROUPS {
        let used = k < groups;
        let (length, root) = (net[group_at(k)], net[root_at(k)]);
        // the bits of the padding: all of them for a name of no bytes, none for one of 16
        let padding = u128::MAX.checked_shr(8 * u32::from(length)).unwrap_or(0);
        let shaped = (length.wrapping_sub(1) < 16) & (name(net, k) & padding == 0) & (root < stations);
        let empty = (length == 0) & (name(net, k) == 0) & (root == 0);
        ok &= (used & shaped) | (!used & empty);
        for j in 0..k {
            // an unused group has length 0, so it is like no group in use
            ok &= !used | (net[group_at(j)] != length) | (name(net, j) != name(net, k));
        }
    }
    ok
}

pub fn masks(net: &NetBytes) -> Masks {
    std::array::from_fn(|p| u16::from_be_bytes([net[mask_at(p)], net[mask_at(p) + 1]]))
}

/// The first n stations, as a mask.
fn below(stations: u8) -> u16 {
    ((1u32 << stations.min(16)) - 1) as u16
}

fn cables(net: &NetBytes, masks: &Masks) -> bool {
    let all = below(net[STATIONS_AT]);
    let mut wrong = 0u16;
    for p in 0..MOST_STATIONS {
        let allowed = (0u16.wrapping_sub(all >> p & 1) & all) & !(1 << p);
        wrong |= masks[p] & !allowed;
        let mut back = 0u16;
        for (q, mask) in masks.iter().enumerate() {
            back |= (mask >> p & 1) << q;
        }
        wrong |= masks[p] ^ back;
    }
    wrong == 0
}

/// 1 if the byte is a neighbour in the mask.
fn in_mask(mask: u16, byte: u8) -> bool {
    (byte < 16) & (mask >> (byte & 15) & 1 == 1)
}

fn routes(net: &NetBytes, masks: &Masks) -> bool {
    let stations = usize::from(net[STATIONS_AT]);
    let mut ok = true;
    for p in 0..MOST_STATIONS {
        let row = &net[route_at(p, 0)..route_at(p, 0) + MOST_STATIONS];
        for (d, &next) in row.iter().enumerate() {
            let used = (p < stations) & (d < stations);
            let shaped = (next == NIL) | ((p != d) & in_mask(masks[p], next));
            ok &= (used & shaped) | (!used & (next == 0));
        }
    }
    ok
}

#[inline(always)]
fn entries(form: Form, net: &NetBytes, masks: &Masks) -> bool {
    let (stations, groups) = (usize::from(net[STATIONS_AT]), usize::from(net[GROUPS_AT]));
    let mut ok = true;
    for k in 0..MOST_GROUPS {
        let root = usize::from(net[root_at(k)]);
        for (p, &mask) in masks.iter().enumerate() {
            let at = entry_at(form, k, p);
            let entry = &net[at..at + ENTRY_SIZE];
            let used = (k < groups) & (p < stations);
            ok &= (used & entry_shaped(entry, mask, p == root)) | (!used & is_zero(entry));
        }
    }
    ok
}

fn entry_shaped(entry: &[u8], mask: u16, is_root: bool) -> bool {
    let nil_or_neighbour = |byte: u8| (byte == NIL) | (!is_root & in_mask(mask, byte));
    let children = u16::from_be_bytes([entry[8], entry[9]]);
    let waiting = u16::from_be_bytes([entry[10], entry[11]]);
    nil_or_neighbour(entry[0])
        & nil_or_neighbour(entry[1])
        & (entry[2] < 2)
        & (entry[3] == 0)
        & ((children | waiting) & !mask == 0)
}

fn is_zero(bytes: &[u8]) -> bool {
    bytes.iter().fold(0, |all, byte| all | byte) == 0
}

fn channels(net: &NetBytes, masks: &Masks) -> bool {
    let groups = u64::from(net[GROUPS_AT]);
    let mut wrong = Lanes::default();
    let mut too_many = false;
    for (place, channel) in net[FIRST_CHANNEL..].chunks_exact(CHANNEL_SIZE).enumerate() {
        let joined = masks[place / MOST_STATIONS] >> (place % MOST_STATIONS) & 1;
        too_many |= channel[0] > joined as u8 * CHANNEL_HOLDS as u8;
        messages(channel, groups, &mut wrong);
    }
    !too_many & (wrong.iter().fold(0, |all, lane| all | lane) == 0)
}

/// One word for each of a channel's 8 messages.
type Lanes = [u64; CHANNEL_HOLDS];

/// Sets a bit of a lane if its place does not hold a well-shaped message, where it is in use, or else zeros.
#[inline(always)]
fn messages(channel: &[u8], groups: u64, wrong: &mut Lanes) {
    let count = u64::from(channel[0]);
    for (i, lane) in wrong.iter_mut().enumerate() {
        // the 8 bytes that end with the message, so that none past the channel is read; the one before it is
        // shifted out
        let mut bytes = [0; 8];
        bytes.copy_from_slice(&channel[MESSAGE_SIZE * i..MESSAGE_SIZE * i + 8]);
        let message = u64::from_le_bytes(bytes) >> 8;
        // all bits if i is below the count, else none; the numbers are small, so the top bit of the difference tells
        let used = ((i as u64).wrapping_sub(count) as i64 >> 63) as u64;
        *lane |= (used & message_wrong(message, groups)) | (!used & message);
    }
}

/// Not zero if the message, its kind in the lowest byte, is not well shaped.
#[inline(always)]
fn message_wrong(message: u64, groups: u64) -> u64 {
    let (kind, group, values) = (message & 255, message >> 8 & 255, message >> 16);
    // a request may have no bit in its values, a reply any but the upper seven of its connected byte
    let allowed = 0u64.wrapping_sub(kind >> 1) & !254;
    // bit 8 is set if the group is not below g
    let group_wrong = (group + 256 - groups) & 256;
    (kind.wrapping_sub(1) & !1) | group_wrong | (values & !allowed)
}
