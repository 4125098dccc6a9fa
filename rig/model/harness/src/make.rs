//! Makes plans, nets, steps and scripts at random.

use crate::random::Random;
use rules::fresh::fresh;
use rules::layout::*;
use rules::net::{Entry, Message, Net};
use rules::plan::{Group, Plan, Stations};
use rules::step::{step, Step};
use std::collections::VecDeque;

// ---- plans

/// A well-shaped plan: any number of stations and groups, few cables or many.
pub fn plan(random: &mut Random) -> Plan {
    let stations = 1 + random.below(MOST_STATIONS);
    let groups = 1 + random.below(MOST_GROUPS);
    plan_of(random, stations, groups)
}

pub fn plan_of(random: &mut Random, stations: usize, groups: usize) -> Plan {
    let mut names: Vec<Vec<u8>> = Vec::new();
    while names.len() < groups {
        let name = name(random, &names);
        if !names.contains(&name) {
            names.push(name);
        }
    }
    let groups = names.into_iter().map(|name| Group { name, root: random.below(stations) }).collect();
    Plan { stations, groups, neighbours: cables(random, stations) }
}

/// A name of 1 to 16 bytes, often one that opens as another does.
fn name(random: &mut Random, others: &[Vec<u8>]) -> Vec<u8> {
    let length = 1 + random.below(NAME_BYTES);
    let alphabet: &[u8] = random.pick(&[&b"H210"[..], &[0], &[0, 255], &[]]);
    let mut name = match alphabet {
        [] => random.bytes(length),
        _ => (0..length).map(|_| random.pick(alphabet)).collect(),
    };
    if !others.is_empty() && random.chance(60) {
        let other = &others[random.below(others.len())];
        let shared = other.len().min(name.len());
        name[..shared].copy_from_slice(&other[..shared]);
    }
    name
}

fn cables(random: &mut Random, stations: usize) -> Vec<Stations> {
    let mut neighbours = vec![Stations::default(); stations];
    let percent = random.pick(&[0, 5, 15, 30, 60, 90, 100]);
    let joined = random.chance(80);
    let in_a_line = random.chance(30);
    for p in 1..stations {
        let joint = if in_a_line { p - 1 } else { random.below(p) };
        for q in 0..p {
            if random.chance(percent) || (joined && q == joint) {
                neighbours[p].add(q);
                neighbours[q].add(p);
            }
        }
    }
    neighbours
}

// ---- nets that are reached from a fresh one

/// A net that steps can lead to: routes to the roots, members, and then what comes of many likely steps.
pub fn grown(random: &mut Random) -> Net {
    let mut net = fresh(plan(random));
    if random.chance(90) {
        set_routes(&mut net);
    }
    let steps = random.pick(&[0, 10, 50, 150, 300]);
    for _ in 0..steps {
        let one = likely_step(random, &net);
        let _ = step(&mut net, one);
    }
    net
}

/// Sets every station's routes to the roots along shortest ways.
pub fn set_routes(net: &mut Net) {
    for group in 0..net.plan.groups.len() {
        let root = net.root(group);
        let mut found = vec![false; net.plan.stations];
        let mut line = VecDeque::from([root]);
        found[root] = true;
        while let Some(p) = line.pop_front() {
            for q in net.plan.neighbours[p].each().filter(|&q| !found[q]).collect::<Vec<_>>() {
                found[q] = true;
                net.routes[q][root] = Some(p);
                line.push_back(q);
            }
        }
    }
}

// ---- nets that are merely well shaped

/// A net with anything in it that the rules of well shaped let in.
pub fn shaped(random: &mut Random) -> Net {
    let plan = plan(random);
    shaped_over(random, plan)
}

pub fn shaped_over(random: &mut Random, plan: Plan) -> Net {
    let mut net = fresh(plan);
    let (stations, groups) = (net.plan.stations, net.plan.groups.len());
    let fullness = random.pick(&[0, 1, 4, 8]);
    for p in 0..stations {
        for q in 0..stations {
            if p != q {
                net.routes[p][q] = nil_or_neighbour(random, &net.plan, p);
            }
            if net.plan.are_neighbours(p, q) {
                let count = if random.chance(50) { fullness } else { random.below(CHANNEL_HOLDS + 1) };
                net.channels[p][q] = (0..count).map(|_| message(random, groups)).collect();
            }
        }
    }
    let agreeing = random.pick(&[0, 80, 100]);
    for group in 0..groups {
        for p in 0..stations {
            net.entries[group][p] = entry(random, &net.plan, group, p);
        }
        if agreeing > 0 {
            agree(random, &mut net, group, agreeing);
        }
    }
    net
}

fn entry(random: &mut Random, plan: &Plan, group: usize, station: usize) -> Entry {
    let neighbours = plan.neighbours[station];
    let is_root = plan.groups[group].root == station;
    let mut parent = || if is_root { None } else { nil_or_neighbour(random, plan, station) };
    Entry {
        parent: parent(),
        tentative: parent(),
        member: random.chance(50),
        clock: clock(random),
        children: some_of(random, neighbours),
        waiting: some_of(random, neighbours),
    }
}

/// Lets parents list their children, so many times in a hundred, and nobody else: then there are trees, and rings
/// too.
fn agree(random: &mut Random, net: &mut Net, group: usize, percent: usize) {
    for p in 0..net.plan.stations {
        if random.chance(percent) {
            net.entries[group][p].children = Stations::default();
        }
    }
    for p in 0..net.plan.stations {
        if let Some(parent) = net.entries[group][p].parent.filter(|_| random.chance(percent)) {
            net.entries[group][parent].children.add(p);
        }
    }
}

/// A well-shaped net in which nearly every station has a parent towards the root that lists it: trees of any depth.
pub fn treed(random: &mut Random) -> Net {
    let mut net = shaped(random);
    set_routes(&mut net);
    for group in 0..net.plan.groups.len() {
        let root = net.root(group);
        for p in (0..net.plan.stations).filter(|&p| p != root) {
            if random.chance(97) {
                net.entries[group][p].parent = net.routes[p][root];
            }
        }
        agree(random, &mut net, group, 97);
    }
    net
}

fn nil_or_neighbour(random: &mut Random, plan: &Plan, station: usize) -> Option<usize> {
    let neighbours: Vec<usize> = plan.neighbours[station].each().collect();
    random.pick_any(&neighbours).filter(|_| random.chance(85))
}

fn some_of(random: &mut Random, stations: Stations) -> Stations {
    let mask = random.word() as u16;
    let thinner = if random.chance(50) { random.word() as u16 } else { u16::MAX };
    Stations(stations.0 & mask & thinner)
}

pub fn clock(random: &mut Random) -> u32 {
    match random.below(5) {
        0 => random.pick(&[0, 1, 2, 3]),
        1 => random.pick(&[u32::MAX, u32::MAX - 1, u32::MAX - 2]),
        2 => 1 << random.below(32),
        3 => random.pick(&[255, 256, 65_535, 65_536, 0x7fff_ffff, 0x8000_0000]),
        _ => random.word() as u32,
    }
}

pub fn message(random: &mut Random, groups: usize) -> Message {
    let group = random.below(groups);
    match random.below(2) {
        0 => Message::Request { group },
        _ => Message::Reply { group, connected: random.chance(70), clock: clock(random) },
    }
}

// ---- nets with replies to be heard

/// A well-shaped net in which nearly every channel holds replies: their clocks are beside those of the stations that
/// they go to, or at an end.
pub fn answered(random: &mut Random) -> Net {
    let (stations, groups) = (2 + random.below(MOST_STATIONS - 1), 1 + random.below(MOST_GROUPS));
    let plan = plan_of(random, stations, groups);
    let mut net = shaped_over(random, plan);
    for entry in net.entries.iter_mut().flatten() {
        if random.chance(50) {
            entry.clock = random.pick(&[0, 1, u32::MAX - 1, u32::MAX]);
        }
    }
    for p in 0..stations {
        for q in net.plan.neighbours[p].each() {
            let count = random.below(CHANNEL_HOLDS + 1);
            net.channels[p][q] = (0..count).map(|_| message_to(random, &net, q)).collect();
        }
    }
    net
}

fn message_to(random: &mut Random, net: &Net, station: usize) -> Message {
    let group = random.below(net.plan.groups.len());
    if random.chance(15) {
        return Message::Request { group };
    }
    let own = net.entries[group][station].clock;
    let clock = match random.below(6) {
        0 => own,
        1 => own.saturating_add(1),
        2 => own.saturating_sub(1),
        3 => 0,
        4 => u32::MAX,
        _ => clock(random),
    };
    Message::Reply { group, connected: random.chance(50), clock }
}

// ---- steps

/// A delivery of a reply, if a channel has one in front: half of the time from a tentative parent.
pub fn hearing_step(random: &mut Random, net: &Net) -> Step {
    let replies = front_replies(net);
    let asked: Vec<_> = replies.iter().filter(|(.., asked)| *asked).copied().collect();
    let first = if random.chance(50) { &asked } else { &replies };
    match random.pick_any(first).or_else(|| random.pick_any(&replies)) {
        Some((from, to, _)) => [4, from as u8, to as u8, 0],
        None => likely_step(random, net),
    }
}

/// Each reply that is the oldest in its channel: sender, receiver, and whether the sender is the tentative parent.
fn front_replies(net: &Net) -> Vec<(usize, usize, bool)> {
    let mut replies = Vec::new();
    for (from, channels) in net.channels.iter().enumerate() {
        for (to, channel) in channels.iter().enumerate() {
            if let Some(Message::Reply { group, .. }) = channel.front() {
                replies.push((from, to, net.entries[*group][to].tentative == Some(from)));
            }
        }
    }
    replies
}

/// A step that is often accepted by this net.
pub fn likely_step(random: &mut Random, net: &Net) -> Step {
    let group = random.below(net.plan.groups.len());
    let station = random.below(net.plan.stations);
    let action = random.pick(&[1, 2, 2, 2, 2, 3, 3, 4, 4, 4, 4, 4, 4, 4, 5, 6, 7, 7, 8, 9]);
    likely_operands(random, net, action, group, station)
}

pub fn likely_operands(random: &mut Random, net: &Net, action: u8, group: usize, station: usize) -> Step {
    let entries = &net.entries[group];
    let (a, b, c) = match action {
        1 => (group, 0, 0),
        2 => (group, station_that(random, net, |p| entries[p].joins() && p != net.root(group)), 0),
        3 => (group, station_that(random, net, |p| entries[p].parent.is_some()), 0),
        4 => {
            let (from, to) = busy_channel(random, net, station);
            (from, to, 0)
        }
        5 => {
            let (from, to) = busy_channel(random, net, station);
            let held = net.channels[from].get(to).map_or(0, VecDeque::len);
            (from, to, random.below(1 + held.min(CHANNEL_HOLDS - 1)))
        }
        6 => {
            let p = station_that(random, net, |p| !entries[p].waiting.is_empty());
            (group, p, one_of(random, net, p, entries[p].waiting))
        }
        7 => {
            let p = station_that(random, net, |p| !entries[p].children.is_empty());
            (group, p, one_of(random, net, p, entries[p].children))
        }
        8 => (group, station, usize::from(random.chance(70))),
        _ => {
            let destination = if random.chance(80) { net.root(group) } else { random.below(net.plan.stations) };
            (station, destination, one_of(random, net, station, Stations::default()))
        }
    };
    [action, a as u8, b as u8, c as u8]
}

/// A station of which this holds, if there is one.
fn station_that(random: &mut Random, net: &Net, holds: impl Fn(usize) -> bool) -> usize {
    let stations: Vec<usize> = (0..net.plan.stations).filter(|&p| holds(p)).collect();
    random.pick_any(&stations).unwrap_or(0)
}

/// One of these stations, or else a neighbour of the station, or else nil.
fn one_of(random: &mut Random, net: &Net, station: usize, stations: Stations) -> usize {
    let first: Vec<usize> = stations.each().collect();
    let second: Vec<usize> = net.plan.neighbours[station].each().collect();
    random.pick_any(&first).or_else(|| random.pick_any(&second)).unwrap_or(usize::from(NIL))
}

/// A channel with a message in it, if there is one.
fn busy_channel(random: &mut Random, net: &Net, station: usize) -> (usize, usize) {
    let stations = net.plan.stations;
    let all = (0..stations).flat_map(|p| (0..stations).map(move |q| (p, q)));
    let busy: Vec<_> = all.filter(|&(p, q)| !net.channels[p][q].is_empty()).collect();
    random.pick_any(&busy).unwrap_or((station, one_of(random, net, station, Stations::default())))
}

/// A known action with operands that are mostly in range, and otherwise just out of it or anything.
pub fn rough_step(random: &mut Random, net: &Net) -> Step {
    let (group, station) = (random.below(net.plan.groups.len()), random.below(net.plan.stations));
    let action = 1 + random.below(9) as u8;
    let mut one = likely_operands(random, net, action, group, station);
    for _ in 0..random.below(3) {
        let place = 1 + random.below(3);
        one[place] = operand(random, net);
    }
    one
}

fn operand(random: &mut Random, net: &Net) -> u8 {
    let (stations, groups) = (net.plan.stations as u8, net.plan.groups.len() as u8);
    match random.below(4) {
        0 => random.below(net.plan.stations) as u8,
        1 => random.pick(&[stations, stations - 1, groups, groups - 1, stations + 1]),
        2 => random.pick(&[0, 1, 2, 7, 8, 15, 16, 17, 127, 128, 254, 255]),
        _ => random.byte(),
    }
}

/// Any action number, known or not.
pub fn wild_step(random: &mut Random, net: &Net) -> Step {
    let action = match random.below(3) {
        0 => random.pick(&[0, 10, 11, 128, 255]),
        1 => random.byte(),
        _ => random.below(12) as u8,
    };
    [action, operand(random, net), operand(random, net), operand(random, net)]
}

/// Mostly likely steps, some rough, a few wild.
pub fn any_step(random: &mut Random, net: &Net) -> Step {
    match random.below(20) {
        0 => wild_step(random, net),
        1..=3 => rough_step(random, net),
        _ => likely_step(random, net),
    }
}

/// So many steps in turn on this net, which is left as they leave it.
pub fn steps(random: &mut Random, net: &mut Net, count: usize) -> Vec<Step> {
    steps_of(random, net, count, any_step)
}

/// The same, and most of them deliver a reply.
pub fn hearing_steps(random: &mut Random, net: &mut Net, count: usize) -> Vec<Step> {
    steps_of(random, net, count, |random, net| match random.below(4) {
        0 => any_step(random, net),
        _ => hearing_step(random, net),
    })
}

fn steps_of(random: &mut Random, net: &mut Net, count: usize, one: fn(&mut Random, &Net) -> Step) -> Vec<Step> {
    let mut steps = Vec::with_capacity(count);
    for _ in 0..count {
        let one = one(random, net);
        let _ = step(net, one);
        steps.push(one);
    }
    steps
}

#[cfg(test)]
mod tests {
    use super::*;
    use crate::damage::damage;
    use crate::fast;
    use rules::shape::{decode, encode};

    #[test]
    fn what_is_made_is_well_shaped() {
        let mut random = Random::new(1);
        for _ in 0..300 {
            assert!(Plan::decode(&plan(&mut random).encode()).is_some());
            for net in [grown(&mut random), shaped(&mut random), treed(&mut random), answered(&mut random)] {
                for form in [Form::Saved, Form::Working] {
                    assert_eq!(decode(form, &encode(form, &net)).as_ref(), Some(&net));
                }
            }
        }
    }

    #[test]
    fn the_fast_test_is_the_plain_one() {
        let mut random = Random::new(2);
        let mut counts = [0, 0];
        for case in 0..6_000 {
            let net = if case % 2 == 0 { grown(&mut random) } else { shaped(&mut random) };
            let form = random.pick(&[Form::Saved, Form::Working]);
            let mut bytes = encode(form, &net);
            assert!(fast::well_shaped(form, &bytes) && !fast::well_shaped(form.other(), &bytes));
            damage(&mut random, &mut bytes);
            let plain = decode(form, &bytes).is_some();
            assert_eq!(fast::well_shaped(form, &bytes), plain);
            counts[usize::from(plain)] += 1;
        }
        assert!(counts[0] > 500 && counts[1] > 200, "{counts:?}");
        assert!(!fast::well_shaped(Form::Saved, &[]) && !fast::well_shaped(Form::Saved, &[0; NET_BYTES + 1]));
    }

    #[test]
    fn messages_are_kept_count_of() {
        let mut random = Random::new(3);
        for _ in 0..100 {
            let mut net = shaped(&mut random);
            let script = steps(&mut random, &mut net.clone(), 200).concat();
            let before = net.waiting_messages();
            let tally = rules::run::run(&mut net, &script);
            let left = net.waiting_messages();
            assert_eq!(before + tally.sent as usize, tally.delivered as usize + tally.lost as usize + left);
            assert_eq!(tally.accepted + tally.refused, 200);
        }
    }

    #[test]
    fn a_call_is_passed_on_once_for_each_other_station() {
        let mut random = Random::new(4);
        for _ in 0..300 {
            let net = shaped(&mut random);
            for station in (0..net.plan.stations).filter(|&p| rules::call::is_on_the_tree(&net, 0, p)) {
                let flood = rules::call::flood(&net, 0, station);
                assert_eq!(flood.copies, flood.reached - 1);
                assert_eq!(flood.reached, rules::call::reach_list(&net, 0).len());
            }
        }
    }
}
