//! The kinds of scripts, each with a net to run on.

use crate::input::Input;
use crate::nets;
use harness::make;
use harness::random::Random;
use rules::layout::*;
use rules::net::Net;
use rules::outcome::*;
use rules::step::{step, Step};

pub const STEPS: usize = SCRIPT_BYTES_MOST / 4;

/// Eight of a kind, so that no processor learns one script by heart.
pub fn eight(make: impl Fn(&mut Random) -> Input) -> Vec<Input> {
    (3..11).map(|seed| make(&mut Random::new(seed))).collect()
}

/// Steps as they come up in use: routes, members, ticks, asks, deliveries, losses.
pub fn mix(random: &mut Random, stations: usize) -> Input {
    let net = nets::routed(random, stations);
    let script = make::steps(random, &mut net.clone(), STEPS).concat();
    Input { net, script }
}

/// Draws steps, each for the net as the steps before it leave it; not all that are drawn are taken.
fn drawn(net: Net, mut draw: impl FnMut(&mut Net) -> Option<Step>) -> Input {
    let (mut now, mut script) = (net.clone(), Vec::new());
    while script.len() < SCRIPT_BYTES_MOST {
        script.extend(draw(&mut now).into_iter().flatten());
    }
    Input { net, script }
}

/// Members ask, and what is sent is delivered. What would be refused is not taken.
pub fn talk(random: &mut Random) -> Input {
    let mut net = nets::routed(random, MOST_STATIONS);
    for entry in net.entries.iter_mut().flatten() {
        entry.member = true;
    }
    for group in 0..MOST_GROUPS {
        let root = net.root(group);
        net.entries[group][root].clock = 1;
    }
    drawn(net, |now| {
        let (group, station) = (random.below(MOST_GROUPS), random.below(MOST_STATIONS));
        let action = random.pick(&[2, 4, 4]);
        let one = make::likely_operands(random, now, action, group, station);
        step(now, one).is_ok().then_some(one)
    })
}

/// Nine in ten are refused, for each reason that a step can be refused for.
pub fn refused(random: &mut Random) -> Input {
    drawn(nets::stuck(random), |now| {
        let outcome = match random.below(20) {
            0 | 1 => ACCEPTED,
            2..=4 => NO_SUCH_ACTION,
            5..=10 => OPERAND,
            11..=17 => NOT_ENABLED,
            18 => CLOCK_FULL,
            _ => CHANNEL_FULL,
        };
        let one = step_with(random, now, outcome);
        let _ = step(now, one);
        Some(one)
    })
}

/// A step with this outcome, or with another if none comes up.
fn step_with(random: &mut Random, net: &Net, outcome: Outcome) -> Step {
    let mut one = [0; 4];
    for _ in 0..100 {
        one = match outcome {
            NO_SUCH_ACTION => make::wild_step(random, net),
            OPERAND => make::rough_step(random, net),
            CLOCK_FULL => [1, 0, 0, 0],
            _ => make::likely_step(random, net),
        };
        if step(&mut net.clone(), one).err().unwrap_or(ACCEPTED) == outcome {
            break;
        }
    }
    one
}

/// Every channel holds 3 messages or more all along: what would leave fewer is not taken.
pub fn busy(random: &mut Random) -> Input {
    drawn(nets::filled(random, |random| 4 + random.below(4)), |now| {
        let one = make::likely_step(random, now);
        if leaves_few(now, one) {
            return None;
        }
        let _ = step(now, one);
        Some(one)
    })
}

fn leaves_few(net: &Net, [action, from, to, _]: Step) -> bool {
    matches!(action, 4 | 5) && net.channels[usize::from(from)][usize::from(to)].len() <= 3
}

/// A round that ends where it began.
pub fn round(child: u8, parent: u8) -> [Step; 3] {
    [[3, 0, child, 0], [4, child, parent, 0], [4, parent, child, 0]]
}

/// The same three steps over and over.
pub fn rounds() -> Input {
    let (net, child, parent) = nets::to_refresh(&mut Random::new(2));
    let script = round(child, parent).iter().flatten().copied().cycle().take(SCRIPT_BYTES_MOST).collect();
    Input { net, script }
}

pub fn ticks() -> Input {
    let net = nets::routed(&mut Random::new(3), MOST_STATIONS);
    Input { net, script: [1, 0, 0, 0].repeat(STEPS) }
}

/// This action once on each channel of a full net in which all of them hold so many replies, in any order.
pub fn each_channel(random: &mut Random, action: u8, count: usize) -> Input {
    let mut steps: Vec<Step> = nets::channels().map(|(p, q)| [action, p as u8, q as u8, 0]).collect();
    for place in 1..steps.len() {
        steps.swap(place, random.below(place + 1));
    }
    Input { net: nets::replied(random, count), script: steps.concat() }
}
