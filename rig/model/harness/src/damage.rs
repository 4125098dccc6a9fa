//! Damages nets and plans anywhere, in a byte or two. All but the entries stands where it stands in both forms, and
//! these fill the same bytes.

use crate::random::Random;
use rules::layout::*;

/// Changes a byte or two of a net, in any part of it, in use or not.
pub fn damage(random: &mut Random, net: &mut [u8]) {
    for _ in 0..1 + random.below(2) {
        let at = place(random);
        let byte = &mut net[at];
        *byte = other_value(random, *byte);
    }
}

/// Changes a byte or two of a plan.
pub fn damage_plan(random: &mut Random, plan: &mut [u8]) {
    for _ in 0..1 + random.below(2) {
        let at = place_in_plan(random);
        let byte = &mut plan[at];
        *byte = other_value(random, *byte);
    }
}

/// Any part as often as any other, however few bytes it has.
fn place(random: &mut Random) -> usize {
    let (p, q) = (random.below(MOST_STATIONS), random.below(MOST_STATIONS));
    match random.below(8) {
        0 => place_in_plan(random),
        1 => route_at(p, q),
        2 | 3 => entry_at(Form::Saved, random.below(MOST_GROUPS), p) + random.below(ENTRY_SIZE),
        4 => channel_at(p, q),
        5 => message_at(p, q, 0) + random.below(MESSAGE_SIZE),
        6 => channel_at(p, q) + random.below(CHANNEL_SIZE),
        _ => random.below(NET_BYTES),
    }
}

fn place_in_plan(random: &mut Random) -> usize {
    match random.below(4) {
        0 => random.below(FIRST_GROUP),
        1 => group_at(random.below(MOST_GROUPS)) + random.pick(&[0, 1, 16, 17]),
        2 => group_at(random.below(MOST_GROUPS)) + random.below(GROUP_SIZE),
        _ => FIRST_MASK + random.below(FIRST_ROUTE - FIRST_MASK),
    }
}

fn other_value(random: &mut Random, byte: u8) -> u8 {
    match random.below(4) {
        0 => byte ^ 1 << random.below(8),
        1 => byte.wrapping_add(random.pick(&[1, 255])),
        2 => random.pick(&[0, 1, 2, 3, 4, 8, 9, 15, 16, 255]),
        _ => random.byte(),
    }
}
