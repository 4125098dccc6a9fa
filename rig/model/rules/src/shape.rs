//! The bytes of a net: decoding, which is the test for well shaped, and encoding.

use crate::layout::*;
use crate::net::{Channel, Entry, Message, Net};
use crate::plan::{read_stations, write_stations, Plan, Stations};

const REQUEST: u8 = 1;
const REPLY: u8 = 2;

/// The net of these bytes, if they are 15,728 and well shaped in this form.
pub fn decode(form: Form, bytes: &[u8]) -> Option<Net> {
    if bytes.len() != NET_BYTES {
        return None;
    }
    let net = read_net(form, bytes)?;
    // What is written back has the one right length, version, mark, padding and zeros in all unused places.
    (encode(form, &net) == bytes).then_some(net)
}

pub fn encode(form: Form, net: &Net) -> Vec<u8> {
    let mut bytes = vec![0; NET_BYTES];
    let stations = net.plan.stations;
    net.plan.write(&mut bytes);
    bytes[MARK_AT] = mark(form);
    for p in 0..stations {
        for q in 0..stations {
            bytes[route_at(p, q)] = nil_or(net.routes[p][q]);
            write_channel(&net.channels[p][q], &mut bytes[channel_at(p, q)..]);
        }
    }
    for (k, entries) in net.entries.iter().enumerate() {
        for (p, entry) in entries.iter().enumerate() {
            write_entry(entry, &mut bytes[entry_at(form, k, p)..]);
        }
    }
    bytes
}

/// Reads the places in use, and holds them to the rules.
fn read_net(form: Form, bytes: &[u8]) -> Option<Net> {
    let plan = Plan::read(bytes)?;
    let routes = table(plan.stations, plan.stations, |p, d| read_route(&plan, p, d, bytes[route_at(p, d)]))?;
    let entry = |k, p| read_entry(&plan, k, p, &bytes[entry_at(form, k, p)..]);
    let entries = table(plan.groups.len(), plan.stations, entry)?;
    let channels = table(plan.stations, plan.stations, |p, q| read_channel(&plan, p, q, &bytes[channel_at(p, q)..]))?;
    Some(Net { plan, routes, entries, channels })
}

/// Rows of cells, if there is something for every cell.
fn table<T>(rows: usize, columns: usize, cell: impl Fn(usize, usize) -> Option<T>) -> Option<Vec<Vec<T>>> {
    (0..rows).map(|row| (0..columns).map(|column| cell(row, column)).collect()).collect()
}

/// A route is nil or a neighbour of its station, and nil to itself.
fn read_route(plan: &Plan, station: usize, destination: usize, byte: u8) -> Option<Option<usize>> {
    let next = read_nil_or_neighbour(plan, station, byte)?;
    (station != destination || next.is_none()).then_some(next)
}

fn read_entry(plan: &Plan, group: usize, station: usize, bytes: &[u8]) -> Option<Entry> {
    let neighbours = plan.neighbours[station];
    let entry = Entry {
        parent: read_nil_or_neighbour(plan, station, bytes[0])?,
        tentative: read_nil_or_neighbour(plan, station, bytes[1])?,
        member: read_flag(bytes[2])?,
        clock: read_clock(&bytes[4..]),
        children: read_some_of(neighbours, &bytes[8..])?,
        waiting: read_some_of(neighbours, &bytes[10..])?,
    };
    let is_root = plan.groups[group].root == station;
    (!is_root || (entry.parent.is_none() && entry.tentative.is_none())).then_some(entry)
}

/// A channel holds at most 8, and none unless its ends are neighbours.
fn read_channel(plan: &Plan, from: usize, to: usize, bytes: &[u8]) -> Option<Channel> {
    let count = usize::from(bytes[0]);
    if count > CHANNEL_HOLDS || (count > 0 && !plan.are_neighbours(from, to)) {
        return None;
    }
    (0..count).map(|i| read_message(plan, &bytes[1 + MESSAGE_SIZE * i..])).collect()
}

fn read_message(plan: &Plan, bytes: &[u8]) -> Option<Message> {
    let group = usize::from(bytes[1]);
    let connected = read_flag(bytes[2])?;
    let clock = read_clock(&bytes[3..]);
    if group >= plan.groups.len() {
        return None;
    }
    match bytes[0] {
        REQUEST if !connected && clock == 0 => Some(Message::Request { group }),
        REPLY => Some(Message::Reply { group, connected, clock }),
        _ => None,
    }
}

fn read_nil_or_neighbour(plan: &Plan, station: usize, byte: u8) -> Option<Option<usize>> {
    match byte {
        NIL => Some(None),
        _ if plan.neighbours[station].has(usize::from(byte)) => Some(Some(usize::from(byte))),
        _ => None,
    }
}

fn read_flag(byte: u8) -> Option<bool> {
    match byte {
        0 => Some(false),
        1 => Some(true),
        _ => None,
    }
}

fn read_clock(bytes: &[u8]) -> u32 {
    u32::from_be_bytes([bytes[0], bytes[1], bytes[2], bytes[3]])
}

fn read_some_of(neighbours: Stations, bytes: &[u8]) -> Option<Stations> {
    let stations = read_stations(bytes);
    stations.within(neighbours).then_some(stations)
}

fn write_entry(entry: &Entry, bytes: &mut [u8]) {
    bytes[0] = nil_or(entry.parent);
    bytes[1] = nil_or(entry.tentative);
    bytes[2] = u8::from(entry.member);
    bytes[4..8].copy_from_slice(&entry.clock.to_be_bytes());
    write_stations(entry.children, &mut bytes[8..]);
    write_stations(entry.waiting, &mut bytes[10..]);
}

fn write_channel(channel: &Channel, bytes: &mut [u8]) {
    bytes[0] = channel.len() as u8;
    for (i, message) in channel.iter().enumerate() {
        write_message(message, &mut bytes[1 + MESSAGE_SIZE * i..]);
    }
}

fn write_message(message: &Message, bytes: &mut [u8]) {
    bytes[1] = message.group() as u8;
    match *message {
        Message::Request { .. } => bytes[0] = REQUEST,
        Message::Reply { connected, clock, .. } => {
            bytes[0] = REPLY;
            bytes[2] = u8::from(connected);
            bytes[3..7].copy_from_slice(&clock.to_be_bytes());
        }
    }
}

fn nil_or(station: Option<usize>) -> u8 {
    station.map_or(NIL, |station| station as u8)
}
