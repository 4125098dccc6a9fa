//! The nine actions. Each tests its operands first (3), then whether it is enabled (4), then for room (5, 6), and
//! only then changes the net, so that a refusal changes nothing.

use crate::layout::{CHANNEL_HOLDS, NIL};
use crate::net::{Message, Net};
use crate::outcome::*;
use crate::reply::{case_of, Case};

/// An action number and its operands a, b and c.
pub type Step = [u8; 4];

/// The messages that an accepted step sent, delivered and lost, and the case of the reply, if it delivered one.
#[derive(Clone, Copy, Debug, Default, PartialEq, Eq)]
pub struct Moved {
    pub sent: u32,
    pub delivered: u32,
    pub lost: u32,
    pub case: Option<Case>,
}

const NOTHING: Moved = Moved { sent: 0, delivered: 0, lost: 0, case: None };
const ONE_SENT: Moved = Moved { sent: 1, ..NOTHING };

pub fn step(net: &mut Net, step: Step) -> Result<Moved, Outcome> {
    let [action, a, b, c] = step;
    match action {
        1 => tick(net, a, b, c),
        2 => ask(net, a, b, c),
        3 => refresh(net, a, b, c),
        4 => deliver(net, a, b, c),
        5 => lose(net, a, b, c),
        6 => give_up(net, a, b, c),
        7 => drop_child(net, a, b, c),
        8 => member(net, a, b, c),
        9 => route(net, a, b, c),
        _ => Err(NO_SUCH_ACTION),
    }
}

/// The root's clock grows by one.
fn tick(net: &mut Net, a: u8, b: u8, c: u8) -> Result<Moved, Outcome> {
    let group = group_operand(net, a)?;
    unused_operand(b)?;
    unused_operand(c)?;
    let root = net.root(group);
    let clock = &mut net.entries[group][root].clock;
    *clock = clock.checked_add(1).ok_or(CLOCK_FULL)?;
    Ok(NOTHING)
}

/// A station that joins sends a request along its route to the root: that neighbour becomes tentative parent.
fn ask(net: &mut Net, a: u8, b: u8, c: u8) -> Result<Moved, Outcome> {
    let group = group_operand(net, a)?;
    let station = station_operand(net, b)?;
    unused_operand(c)?;
    let root = net.root(group);
    let entry = &net.entries[group][station];
    demand(station != root && entry.joins(), NOT_ENABLED)?;
    let next = net.routes[station][root].ok_or(NOT_ENABLED)?;
    send_request(net, group, station, next)?;
    net.entries[group][station].tentative = Some(next);
    Ok(ONE_SENT)
}

/// A station sends a request to its parent.
fn refresh(net: &mut Net, a: u8, b: u8, c: u8) -> Result<Moved, Outcome> {
    let group = group_operand(net, a)?;
    let station = station_operand(net, b)?;
    unused_operand(c)?;
    let parent = net.entries[group][station].parent.ok_or(NOT_ENABLED)?;
    send_request(net, group, station, parent)?;
    Ok(ONE_SENT)
}

/// What ask and refresh share: not enabled while the station waits on that neighbour; the request goes out and it
/// waits.
fn send_request(net: &mut Net, group: usize, station: usize, neighbour: usize) -> Result<(), Outcome> {
    demand(!net.entries[group][station].waiting.has(neighbour), NOT_ENABLED)?;
    demand(!net.is_full(station, neighbour), CHANNEL_FULL)?;
    net.channels[station][neighbour].push_back(Message::Request { group });
    net.entries[group][station].waiting.add(neighbour);
    Ok(())
}

/// Takes the oldest message.
fn deliver(net: &mut Net, a: u8, b: u8, c: u8) -> Result<Moved, Outcome> {
    let (from, to) = neighbour_operands(net, a, b)?;
    unused_operand(c)?;
    let message = *net.channels[from][to].front().ok_or(NOT_ENABLED)?;
    let taken = match message {
        Message::Request { group } => take_request(net, group, from, to)?,
        Message::Reply { group, connected, clock } => take_reply(net, group, from, to, connected, clock),
    };
    net.channels[from][to].pop_front();
    Ok(Moved { delivered: 1, ..taken })
}

/// The receiver adds the sender to its children and replies with its connected flag and clock.
fn take_request(net: &mut Net, group: usize, from: usize, to: usize) -> Result<Moved, Outcome> {
    demand(!net.is_full(to, from), CHANNEL_FULL)?;
    let connected = net.is_connected(group, to);
    let entry = &mut net.entries[group][to];
    entry.children.add(from);
    let reply = Message::Reply { group, connected, clock: entry.clock };
    net.channels[to][from].push_back(reply);
    Ok(ONE_SENT)
}

/// The receiver stops waiting on the sender; if it adopts it, the sender becomes parent and the clock is taken.
fn take_reply(net: &mut Net, group: usize, from: usize, to: usize, connected: bool, clock: u32) -> Moved {
    let entry = &mut net.entries[group][to];
    let case = case_of(entry, from, connected, clock);
    entry.waiting.remove(from);
    if case == Case::Adopted {
        entry.parent = Some(from);
        entry.clock = clock;
    }
    Moved { case: Some(case), ..NOTHING }
}

/// The message at a position is removed; later ones move up.
fn lose(net: &mut Net, a: u8, b: u8, c: u8) -> Result<Moved, Outcome> {
    let (from, to) = neighbour_operands(net, a, b)?;
    let position = usize::from(c);
    demand(position < CHANNEL_HOLDS, OPERAND)?;
    net.channels[from][to].remove(position).ok_or(NOT_ENABLED)?;
    Ok(Moved { lost: 1, ..NOTHING })
}

/// A station stops waiting on a neighbour when neither its request nor the reply is in the channels.
fn give_up(net: &mut Net, a: u8, b: u8, c: u8) -> Result<Moved, Outcome> {
    let group = group_operand(net, a)?;
    let (station, neighbour) = neighbour_operands(net, b, c)?;
    demand(net.entries[group][station].waiting.has(neighbour), NOT_ENABLED)?;
    demand(!net.has_request(group, station, neighbour), NOT_ENABLED)?;
    demand(!net.has_reply(group, neighbour, station), NOT_ENABLED)?;
    net.entries[group][station].waiting.remove(neighbour);
    Ok(NOTHING)
}

/// A child whose parent is elsewhere is removed when no request from it and no reply to it is in the channels.
fn drop_child(net: &mut Net, a: u8, b: u8, c: u8) -> Result<Moved, Outcome> {
    let group = group_operand(net, a)?;
    let (station, child) = neighbour_operands(net, b, c)?;
    demand(net.entries[group][station].children.has(child), NOT_ENABLED)?;
    demand(net.entries[group][child].parent != Some(station), NOT_ENABLED)?;
    demand(!net.has_request(group, child, station), NOT_ENABLED)?;
    demand(!net.has_reply(group, station, child), NOT_ENABLED)?;
    net.entries[group][station].children.remove(child);
    leave_unless_joins(net, group, station);
    Ok(NOTHING)
}

/// Sets the flag.
fn member(net: &mut Net, a: u8, b: u8, c: u8) -> Result<Moved, Outcome> {
    let group = group_operand(net, a)?;
    let station = station_operand(net, b)?;
    demand(c <= 1, OPERAND)?;
    net.entries[group][station].member = c == 1;
    leave_unless_joins(net, group, station);
    Ok(NOTHING)
}

/// Sets the route. Names no group.
fn route(net: &mut Net, a: u8, b: u8, c: u8) -> Result<Moved, Outcome> {
    let station = station_operand(net, a)?;
    let destination = station_operand(net, b)?;
    demand(destination != station, OPERAND)?;
    let next = match c {
        NIL => None,
        _ => Some(neighbour_operands(net, a, c)?.1),
    };
    net.routes[station][destination] = next;
    Ok(NOTHING)
}

/// To leave is to set both parents to nil; the clock and waiting stay. The root never leaves: its parents are nil
/// already.
fn leave_unless_joins(net: &mut Net, group: usize, station: usize) {
    let entry = &mut net.entries[group][station];
    if !entry.joins() {
        entry.parent = None;
        entry.tentative = None;
    }
}

fn group_operand(net: &Net, operand: u8) -> Result<usize, Outcome> {
    let group = usize::from(operand);
    demand(group < net.plan.groups.len(), OPERAND)?;
    Ok(group)
}

fn station_operand(net: &Net, operand: u8) -> Result<usize, Outcome> {
    let station = usize::from(operand);
    demand(net.plan.is_station(station), OPERAND)?;
    Ok(station)
}

/// Two stations that must be neighbours.
fn neighbour_operands(net: &Net, p: u8, q: u8) -> Result<(usize, usize), Outcome> {
    let (p, q) = (station_operand(net, p)?, station_operand(net, q)?);
    demand(net.plan.are_neighbours(p, q), OPERAND)?;
    Ok((p, q))
}

fn unused_operand(operand: u8) -> Result<(), Outcome> {
    demand(operand == 0, OPERAND)
}
