//! The nets that are measured.

use harness::make;
use harness::random::Random;
use rules::fresh::fresh;
use rules::layout::*;
use rules::net::{Message, Net};
use rules::plan::{Plan, Stations};

/// A fresh net of 4 groups, in which every station has its routes to the roots. Plans are drawn until one joins all.
pub fn routed(random: &mut Random, stations: usize) -> Net {
    loop {
        let mut net = fresh(make::plan_of(random, stations, MOST_GROUPS));
        make::set_routes(&mut net);
        if (0..MOST_GROUPS).all(|group| has_routes(&net, net.root(group))) {
            return net;
        }
    }
}

fn has_routes(net: &Net, root: usize) -> bool {
    (0..net.plan.stations).all(|p| p == root || net.routes[p][root].is_some())
}

/// 16 stations, each joined to each, and 4 groups.
fn full_plan(random: &mut Random) -> Plan {
    let mut plan = make::plan_of(random, MOST_STATIONS, MOST_GROUPS);
    for p in 0..MOST_STATIONS {
        plan.neighbours[p] = Stations(!(1 << p));
    }
    plan
}

/// Every station joined to every other, and as many messages in each channel as is drawn for it.
pub fn filled(random: &mut Random, count: fn(&mut Random) -> usize) -> Net {
    let plan = full_plan(random);
    let mut net = make::shaped_over(random, plan);
    for (p, q) in channels() {
        net.channels[p][q] = (0..count(random)).map(|_| make::message(random, MOST_GROUPS)).collect();
    }
    net
}

/// Every place in use: channels hold 8 messages each.
pub fn full(random: &mut Random) -> Net {
    filled(random, |_| CHANNEL_HOLDS)
}

/// Every channel holds so many replies, and nobody has asked for one.
pub fn replied(random: &mut Random, count: usize) -> Net {
    let mut net = fresh(full_plan(random));
    for (p, q) in channels() {
        let reply = |_| Message::Reply { group: p % MOST_GROUPS, connected: true, clock: 1 };
        net.channels[p][q] = (0..count).map(reply).collect();
    }
    net
}

/// Each sender and receiver of a net in which every station is joined to every other.
pub fn channels() -> impl Iterator<Item = (usize, usize)> {
    (0..MOST_STATIONS).flat_map(|p| (0..MOST_STATIONS).map(move |q| (p, q))).filter(|(p, q)| p != q)
}

/// A full net in which a child, the first of the two, can refresh: its parent and the empty channels between them let
/// it. The parent's reply goes through the whole test, and its clock is not greater.
pub fn to_refresh(random: &mut Random) -> (Net, u8, u8) {
    let mut net = full(random);
    let root = net.root(0);
    let child = (root + 1) % MOST_STATIONS;
    let entry = &mut net.entries[0][child];
    (entry.parent, entry.tentative, entry.waiting) = (Some(root), Some(root), Stations::default());
    net.entries[0][root].children.add(child);
    net.entries[0][root].clock = 0;
    net.channels[root][child].clear();
    net.channels[child][root].clear();
    (net, child as u8, root as u8)
}

/// Of the pairs of neighbours some have filled both their channels with requests, so that neither can answer, and some
/// have none. The clock of group 0 is at its end.
pub fn stuck(random: &mut Random) -> Net {
    let plan = routed(random, MOST_STATIONS).plan;
    let mut net = make::shaped_over(random, plan);
    for (p, q) in channels().filter(|(p, q)| p < q) {
        let requests = match random.below(3) {
            0 if net.plan.are_neighbours(p, q) => CHANNEL_HOLDS,
            1 => 0,
            _ => continue,
        };
        net.channels[p][q] = (0..requests).map(|i| Message::Request { group: i % MOST_GROUPS }).collect();
        net.channels[q][p] = net.channels[p][q].clone();
    }
    let root = net.root(0);
    net.entries[0][root].clock = u32::MAX;
    net
}
