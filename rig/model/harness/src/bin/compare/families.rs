//! The cases in which the functions are called.

use crate::forms::{both_forms, conversions, one_for_the_other};
use crate::functions::{Compare, Family};
use crate::outcomes::name_in;
use crate::replies::{replies, reply, reply_rows, runs_of_replies};
use harness::breaches::BREACHES;
use harness::damage::{damage, damage_plan};
use harness::make;
use harness::random::Random;
use rules::layout::Form::{Saved, Working};
use rules::layout::*;
use rules::net::Net;
use rules::plan::{Group, Plan, Stations};
use rules::shape::{decode, encode};
use rules::step::Step;
use rules::{face, fresh};
use std::io;

pub const FAMILIES: &[Family] = &[
    Family { name: "examples", number: 1, cases: 1, one: examples },
    Family { name: "fresh", number: 2, cases: 6_000, one: fresh_nets },
    Family { name: "sentences of a plan", number: 3, cases: 100, one: plan_sentences },
    Family { name: "find", number: 4, cases: 1_500, one: find_names },
    Family { name: "steps of reachable nets", number: 5, cases: 1_000, one: |c| reachable_steps(c, Saved) },
    Family { name: "single steps of reachable nets", number: 6, cases: 8_000, one: reachable_step },
    Family { name: "steps of well-shaped nets", number: 7, cases: 700, one: |c| shaped_steps(c, Saved) },
    Family { name: "single steps of well-shaped nets", number: 8, cases: 20_000, one: |c| shaped_step(c, Saved) },
    Family { name: "run", number: 9, cases: 3_000, one: |c| runs(c, Saved) },
    Family { name: "call", number: 10, cases: 1_500, one: calls },
    Family { name: "damaged nets", number: 11, cases: 20_000, one: |c| damaged_nets(c, Saved) },
    Family { name: "sentences of a net", number: 12, cases: 200, one: |c| net_sentences(c, Saved) },
    Family { name: "lengths of a net", number: 13, cases: 1_500, one: |c| net_lengths(c, Saved) },
    Family { name: "conversions", number: 14, cases: 3_000, one: conversions },
    Family { name: "reachable nets, working form", number: 15, cases: 500, one: |c| reachable_steps(c, Working) },
    Family { name: "well-shaped nets, working form", number: 16, cases: 400, one: |c| shaped_steps(c, Working) },
    Family { name: "single steps, working form", number: 17, cases: 10_000, one: |c| shaped_step(c, Working) },
    Family { name: "run, working form", number: 18, cases: 1_500, one: |c| runs(c, Working) },
    Family { name: "damaged nets, working form", number: 19, cases: 10_000, one: |c| damaged_nets(c, Working) },
    Family { name: "sentences of a net, working form", number: 20, cases: 150, one: |c| net_sentences(c, Working) },
    Family { name: "lengths of a net, working form", number: 21, cases: 1_000, one: |c| net_lengths(c, Working) },
    Family { name: "one form for the other", number: 22, cases: 5_000, one: one_for_the_other },
    Family { name: "both forms", number: 23, cases: 1_500, one: both_forms },
    Family { name: "rows of replies", number: 24, cases: 1, one: reply_rows },
    Family { name: "single replies", number: 25, cases: 6_000, one: |c| reply(c, Saved) },
    Family { name: "replies", number: 26, cases: 500, one: |c| replies(c, Saved) },
    Family { name: "runs of replies", number: 27, cases: 1_500, one: |c| runs_of_replies(c, Saved) },
    Family { name: "single replies, working form", number: 28, cases: 4_000, one: |c| reply(c, Working) },
    Family { name: "replies, working form", number: 29, cases: 300, one: |c| replies(c, Working) },
    Family { name: "runs of replies, working form", number: 30, cases: 1_000, one: |c| runs_of_replies(c, Working) },
];

pub fn line(stations: usize, names: &[&[u8]]) -> Plan {
    let mut neighbours = vec![Stations::default(); stations];
    for p in 1..stations {
        neighbours[p].add(p - 1);
        neighbours[p - 1].add(p);
    }
    let groups = names.iter().map(|name| Group { name: name.to_vec(), root: 0 }).collect();
    Plan { stations, groups, neighbours }
}

const LISTING: [Step; 13] = [
    [9, 2, 0, 1],
    [9, 1, 0, 0],
    [1, 0, 0, 0],
    [8, 0, 2, 1],
    [2, 0, 2, 0],
    [4, 2, 1, 0],
    [4, 1, 2, 0],
    [2, 0, 1, 0],
    [4, 1, 0, 0],
    [4, 0, 1, 0],
    [2, 0, 2, 0],
    [4, 2, 1, 0],
    [4, 1, 2, 0],
];

/// The listing and the other examples of the requirements that need nothing special in the net.
fn examples(c: &mut Compare) -> io::Result<()> {
    let three = line(3, &[b"A"]);
    c.fresh(&three.encode(), &[7; NET_BYTES])?;
    let net = fresh::fresh(three);
    let mut clock = fresh::fresh(line(1, &[b"A"]));
    clock.entries[0][0].clock = u32::MAX - 1;
    let tick = [1, 0, 0, 0];
    for form in [Saved, Working] {
        let bytes = encode(form, &net);
        c.steps(form, &net, &LISTING)?;
        for script in [LISTING.concat(), vec![], vec![1, 0, 0], tick.repeat(4096), tick.repeat(4097)] {
            c.run(form, &bytes, &script, &[9; TALLY_BYTES])?;
        }
        for size in OTHER_TALLY_SIZES {
            c.run(form, &bytes, &LISTING.concat(), &vec![9; size])?;
        }
        c.convert(form, &bytes, &[7; NET_BYTES])?;
        c.steps(form, &clock, &[tick, tick])?;
    }
    let mut after = encode(Saved, &net);
    face::run(&mut after, &LISTING.concat(), &mut [0; TALLY_BYTES]);
    for station in 0..4 {
        c.call(&after, false, 0, station, &[7; LIST_BYTES])?;
    }
    c.call(&encode(Saved, &fresh::fresh(line(1, &[b"A"]))), false, 0, 0, &[7; LIST_BYTES])?;
    let sisters = encode(Saved, &fresh::fresh(line(2, &[b"H21", b"H210"])));
    for name in [&b"H21"[..], b"H210", b"H2", b""] {
        c.find(&sisters, false, name)?;
    }
    Ok(())
}

/// A tally of 20 bytes has no counts of the replies by their cases.
const OTHER_TALLY_SIZES: [usize; 7] = [0, 1, 20, 35, 37, 40, 72];
const OTHER_PLAN_LENGTHS: [usize; 8] = [0, 1, 4, 111, 113, 224, 15_727, 15_728];
pub const OTHER_NET_LENGTHS: [usize; 14] =
    [0, 1, 4, 8, 80, 111, 112, 113, 368, 1136, 15_727, 15_729, 20_000, 2 * NET_BYTES];

/// Cut, or made longer by zeros or by anything; in half of the cases the length at the front is what it has become.
fn of_length(random: &mut Random, bytes: &[u8], length: usize) -> Vec<u8> {
    let mut other = bytes[..length.min(bytes.len())].to_vec();
    let zeros = random.chance(50);
    while other.len() < length {
        other.push(if zeros { 0 } else { random.byte() });
    }
    if random.chance(50) && length >= 4 {
        other[..4].copy_from_slice(&(length as u32).to_be_bytes());
    }
    other
}

/// What a buffer may hold before it is written.
pub fn stale(random: &mut Random, length: usize) -> Vec<u8> {
    match random.below(3) {
        0 => vec![0; length],
        1 => vec![255; length],
        _ => random.bytes(length),
    }
}

fn fresh_nets(c: &mut Compare) -> io::Result<()> {
    let mut plan = make::plan(&mut c.random).encode();
    if c.random.chance(50) {
        damage_plan(&mut c.random, &mut plan);
    }
    if c.random.chance(8) {
        let length = c.random.pick(&OTHER_PLAN_LENGTHS);
        plan = of_length(&mut c.random, &plan, length);
    }
    let length = if c.random.chance(10) { c.random.pick(&OTHER_NET_LENGTHS) } else { NET_BYTES };
    let net = stale(&mut c.random, length);
    c.fresh(&plan, &net)
}

fn plan_sentences(c: &mut Compare) -> io::Result<()> {
    for breach in BREACHES.iter().filter(|breach| breach.of_plan) {
        let plan = make::plan(&mut c.random);
        let mut bytes = plan.encode();
        if (breach.make)(&mut c.random, &plan, &mut bytes) {
            let net = stale(&mut c.random, NET_BYTES);
            c.fresh(&bytes, &net)?;
        }
    }
    Ok(())
}

pub fn some_net(random: &mut Random) -> Net {
    match random.below(6) {
        0 | 1 => make::grown(random),
        2 | 3 => make::shaped(random),
        4 => make::treed(random),
        _ => make::answered(random),
    }
}

fn find_names(c: &mut Compare) -> io::Result<()> {
    let net = some_net(&mut c.random);
    let bytes = encode(Saved, &net);
    let mut names = vec![Vec::new(), c.random.bytes(1), c.random.bytes(16), c.random.bytes(17), vec![0; 17]];
    for group in &net.plan.groups {
        names.extend(names_like(&mut c.random, &group.name));
    }
    for (i, name) in names.iter().enumerate() {
        c.find(&bytes, i > 0, name)?;
    }
    Ok(())
}

/// The name itself, a part of it, more than it, padded as it stands in the net, with another byte, with its root's
/// byte.
fn names_like(random: &mut Random, name: &[u8]) -> Vec<Vec<u8>> {
    let length = name.len();
    let part = name[..random.below(length)].to_vec();
    let mut other = name.to_vec();
    other[random.below(length)] ^= 1 << random.below(8);
    let mut padded = name.to_vec();
    padded.resize(NAME_BYTES, 0);
    let longer = [name, &[random.pick(&[0, b'0', 255])]].concat();
    let past = [&padded[..], &[random.pick(&[0, 1])]].concat();
    let counted = [&[length as u8], name].concat();
    vec![name.to_vec(), part, name[1..].to_vec(), other, padded, longer, past, counted, name.repeat(17)]
}

fn reachable_steps(c: &mut Compare, form: Form) -> io::Result<()> {
    let net = make::grown(&mut c.random);
    let count = c.random.pick(&[0, 1, 20, 100, 200]);
    let steps = make::steps(&mut c.random, &mut net.clone(), count);
    c.steps(form, &net, &steps)
}

fn reachable_step(c: &mut Compare) -> io::Result<()> {
    let net = make::grown(&mut c.random);
    let one = make::any_step(&mut c.random, &net);
    c.step(Saved, &encode(Saved, &net), one)
}

fn shaped_steps(c: &mut Compare, form: Form) -> io::Result<()> {
    let net = make::shaped(&mut c.random);
    let count = c.random.pick(&[5, 50, 150]);
    let steps = make::steps(&mut c.random, &mut net.clone(), count);
    c.steps(form, &net, &steps)
}

fn shaped_step(c: &mut Compare, form: Form) -> io::Result<()> {
    let net = make::shaped(&mut c.random);
    let one = match c.random.below(10) {
        0 => make::wild_step(&mut c.random, &net),
        1..=4 => make::rough_step(&mut c.random, &net),
        _ => {
            // every action as often as any other
            let (group, station) = (c.random.below(net.plan.groups.len()), c.random.below(net.plan.stations));
            let action = 1 + c.random.below(9) as u8;
            make::likely_operands(&mut c.random, &net, action, group, station)
        }
    };
    c.step(form, &encode(form, &net), one)
}

fn runs(c: &mut Compare, form: Form) -> io::Result<()> {
    let net = some_net(&mut c.random);
    let length = c.random.pick(&[0, 1, 2, 3, 4, 5, 4, 8, 40, 402, 800, 1600]);
    let length =
        if c.random.chance(12) { c.random.pick(&[16_380, 16_384, 16_388, 16_387, 16_385, 20_000]) } else { length };
    // the steps are made for this net, at most so many, and then go round
    let mut script = make::steps(&mut c.random, &mut net.clone(), (length / 4 + 1).min(400)).concat();
    while script.len() < length {
        script.extend_from_within(..);
    }
    script.truncate(length);
    let size = if c.random.chance(8) { c.random.pick(&OTHER_TALLY_SIZES) } else { TALLY_BYTES };
    let tally = stale(&mut c.random, size);
    let mut bytes = encode(form, &net);
    if c.random.chance(8) {
        damage(&mut c.random, &mut bytes);
    }
    c.run(form, &bytes, &script, &tally)
}

/// Every station of every group calls; then stations and groups out of range, and lists of other sizes.
fn calls(c: &mut Compare) -> io::Result<()> {
    let net = if c.random.chance(50) { make::treed(&mut c.random) } else { some_net(&mut c.random) };
    let (stations, groups) = (net.plan.stations as u8, net.plan.groups.len() as u8);
    let bytes = encode(Saved, &net);
    let list = stale(&mut c.random, LIST_BYTES);
    let mut sent = false;
    for group in 0..groups {
        for station in 0..stations {
            c.call(&bytes, sent, group, station, &list)?;
            sent = true;
        }
    }
    for _ in 0..3 {
        let station = c.random.pick(&[stations - 1, stations, 16, 255, 0]);
        let group = c.random.pick(&[groups - 1, groups, 4, 255, 0]);
        let size = c.random.pick(&[LIST_BYTES, LIST_BYTES, 0, 1, 45, 47, 49, 96]);
        let list = stale(&mut c.random, size);
        c.call(&bytes, true, group, station, &list)?;
    }
    Ok(())
}

/// A function for nets in this form, on bytes that may not be one.
pub fn any_function(c: &mut Compare, form: Form, plan: &Plan, bytes: &[u8]) -> io::Result<()> {
    // find and call are for the saved form alone
    match c.random.below(if form == Saved { 5 } else { 3 }) {
        0 => {
            let net = decode(form, bytes).unwrap_or_else(|| fresh::fresh(plan.clone()));
            let one = make::any_step(&mut c.random, &net);
            c.step(form, bytes, one)
        }
        1 => {
            let net = decode(form, bytes).unwrap_or_else(|| fresh::fresh(plan.clone()));
            let mut script = make::steps(&mut c.random, &mut net.clone(), 6).concat();
            script.truncate(c.random.pick(&[24, 24, 24, 23, 0]));
            let size = c.random.pick(&[TALLY_BYTES, TALLY_BYTES, TALLY_BYTES, 20, 35]);
            c.run(form, bytes, &script, &vec![1; size])
        }
        2 => {
            let size = c.random.pick(&[NET_BYTES, NET_BYTES, NET_BYTES, NET_BYTES - 1]);
            c.convert(form, bytes, &vec![1; size])
        }
        3 => {
            let name = plan.groups[c.random.below(plan.groups.len())].name.clone();
            c.find(bytes, false, &name)
        }
        _ => {
            let (group, station) = (c.random.below(plan.groups.len()), c.random.below(plan.stations + 1));
            let size = c.random.pick(&[LIST_BYTES, LIST_BYTES, LIST_BYTES, 47]);
            c.call(bytes, false, group as u8, station as u8, &vec![1; size])
        }
    }
}

fn damaged_nets(c: &mut Compare, form: Form) -> io::Result<()> {
    let net = some_net(&mut c.random);
    let mut bytes = encode(form, &net);
    damage(&mut c.random, &mut bytes);
    any_function(c, form, &net.plan, &bytes)
}

/// Every sentence of "well shaped" is broken by itself; the model must see that, too.
fn net_sentences(c: &mut Compare, form: Form) -> io::Result<()> {
    for breach in BREACHES {
        let net = make::shaped(&mut c.random);
        let mut bytes = encode(form, &net);
        if (breach.make)(&mut c.random, &net.plan, &mut bytes) {
            if decode(form, &bytes).is_some() {
                println!(
                    "compare: the model lets a net pass that breaks the sentence: {}",
                    name_in(form, breach.sentence)
                );
                c.differences += 1;
            }
            *c.broken.entry(name_in(form, breach.sentence)).or_insert(0) += 1;
            any_function(c, form, &net.plan, &bytes)?;
        }
    }
    Ok(())
}

fn net_lengths(c: &mut Compare, form: Form) -> io::Result<()> {
    let net = some_net(&mut c.random);
    let length = c.random.pick(&OTHER_NET_LENGTHS);
    let bytes = of_length(&mut c.random, &encode(form, &net), length);
    any_function(c, form, &net.plan, &bytes)
}
