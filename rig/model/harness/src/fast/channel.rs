//! The messages of a channel. A place that holds none is zero.

use super::view::Channel;
use rules::layout::*;
use rules::outcome::{demand, Outcome, CHANNEL_FULL};

pub const REQUEST: u8 = 1;
pub const REPLY: u8 = 2;

pub struct Message {
    pub kind: u8,
    pub group: u8,
    pub connected: bool,
    pub clock: u32,
}

fn place(position: u8) -> usize {
    1 + MESSAGE_SIZE * usize::from(position & 7)
}

pub fn count(channel: &Channel) -> u8 {
    channel[0]
}

pub fn oldest(channel: &Channel) -> Option<Message> {
    let clock = u32::from_be_bytes([channel[4], channel[5], channel[6], channel[7]]);
    let message = Message { kind: channel[1], group: channel[2], connected: channel[3] == 1, clock };
    (count(channel) > 0).then_some(message)
}

/// Puts a request behind the others. Its flag and clock are zero, as they are in the place.
pub fn send_request(channel: &mut Channel, group: u8) -> Result<(), Outcome> {
    let at = add(channel)?;
    channel[at] = REQUEST;
    channel[at + 1] = group;
    Ok(())
}

pub fn send_reply(channel: &mut Channel, group: u8, connected: bool, clock: u32) -> Result<(), Outcome> {
    let at = add(channel)?;
    channel[at] = REPLY;
    channel[at + 1] = group;
    channel[at + 2] = u8::from(connected);
    channel[at + 3..at + 7].copy_from_slice(&clock.to_be_bytes());
    Ok(())
}

/// Where one more message goes, which is counted, if there is room.
fn add(channel: &mut Channel) -> Result<usize, Outcome> {
    let held = count(channel);
    demand(held < CHANNEL_HOLDS as u8, CHANNEL_FULL)?;
    channel[0] = held + 1;
    Ok(place(held))
}

/// Takes out the message at this position. Only the messages present move: that is asked for (document 02, No. 5). To
/// move all places behind it, at a fixed length, would be faster where channels are busy.
pub fn remove(channel: &mut Channel, position: u8) {
    let held = count(channel);
    let mut at = place(position);
    for _ in position + 1..held {
        let next = at + MESSAGE_SIZE;
        let message: [u8; MESSAGE_SIZE] = channel[next..next + MESSAGE_SIZE].try_into().expect("a message's bytes");
        channel[at..next].copy_from_slice(&message);
        at = next;
    }
    channel[at..at + MESSAGE_SIZE].fill(0);
    channel[0] = held - 1;
}

/// Whether the channel has a message of this kind and group.
pub fn holds(channel: &Channel, kind: u8, group: u8) -> bool {
    let wanted = u16::from_be_bytes([kind, group]);
    (0..count(channel).min(CHANNEL_HOLDS as u8)).any(|i| {
        let at = place(i);
        u16::from_be_bytes([channel[at], channel[at + 1]]) == wanted
    })
}
