//! The reach of a call.

use crate::layout::{LIST_BYTES, NIL};
use crate::net::Net;

/// One line of the reach list.
#[derive(Clone, Copy, Debug, PartialEq, Eq)]
pub struct Reached {
    pub station: usize,
    pub parent: Option<usize>,
    pub depth: usize,
}

/// What a call came to: how many stations it reached, and how often it was passed on.
#[derive(Clone, Copy, Debug, PartialEq, Eq)]
pub struct Flood {
    pub reached: usize,
    pub copies: usize,
}

/// The station's parent, if the parent lists the station.
fn agreed_parent(net: &Net, group: usize, station: usize) -> Option<usize> {
    let parent = net.entries[group][station].parent?;
    net.entries[group][parent].children.has(station).then_some(parent)
}

/// The stations that this one agrees with as their parent, lowest first.
fn agreed_children(net: &Net, group: usize, station: usize) -> Vec<usize> {
    let children = net.entries[group][station].children;
    children.each().filter(|&child| agreed_parent(net, group, child) == Some(station)).collect()
}

/// Whether an agreed chain leads from the station to the root. One of more hops than stations would go round for
/// ever.
pub fn is_on_the_tree(net: &Net, group: usize, station: usize) -> bool {
    let mut at = station;
    for _ in 0..net.plan.stations {
        if at == net.root(group) {
            return true;
        }
        match agreed_parent(net, group, at) {
            Some(parent) => at = parent,
            None => return false,
        }
    }
    false
}

/// Floods the tree from a station that is on it: each passes the call to its agreed neighbours except the one it
/// came from.
pub fn flood(net: &Net, group: usize, caller: usize) -> Flood {
    let mut on_its_way = vec![(caller, None)];
    let mut heard = vec![false; net.plan.stations];
    let mut copies = 0;
    while let Some((station, came_from)) = on_its_way.pop() {
        heard[station] = true;
        for neighbour in agreed_neighbours(net, group, station) {
            if Some(neighbour) != came_from {
                copies += 1;
                on_its_way.push((neighbour, Some(station)));
            }
        }
    }
    Flood { reached: heard.iter().filter(|&&it| it).count(), copies }
}

fn agreed_neighbours(net: &Net, group: usize, station: usize) -> Vec<usize> {
    let mut neighbours = agreed_children(net, group, station);
    neighbours.extend(agreed_parent(net, group, station));
    neighbours
}

/// The stations on the tree from the root, lowest child first, a whole branch before the next.
pub fn reach_list(net: &Net, group: usize) -> Vec<Reached> {
    let mut list = Vec::new();
    let mut to_come = vec![Reached { station: net.root(group), parent: None, depth: 0 }];
    while let Some(next) = to_come.pop() {
        list.push(next);
        // the last one put here is the next one taken, so the highest child goes first
        for child in agreed_children(net, group, next.station).into_iter().rev() {
            to_come.push(Reached { station: child, parent: Some(next.station), depth: next.depth + 1 });
        }
    }
    list
}

/// 16 entries of station, parent and depth; those after the list's end hold 255 three times.
pub fn encode_list(list: &[Reached]) -> Vec<u8> {
    let mut bytes = vec![NIL; LIST_BYTES];
    for (i, line) in list.iter().enumerate() {
        bytes[3 * i] = line.station as u8;
        bytes[3 * i + 1] = line.parent.map_or(NIL, |parent| parent as u8);
        bytes[3 * i + 2] = line.depth as u8;
    }
    bytes
}
