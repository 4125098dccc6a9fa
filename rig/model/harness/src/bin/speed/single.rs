//! Single calls: the test for well shaped, one step with its test, and the conversions.

use crate::measure::{rounds, Room, Turn};
use crate::nets;
use crate::scripts;
use crate::sides::{Side, ALL};
use crate::tell::{row, say, Done};
use harness::random::Random;
use rules::layout::*;
use rules::net::Net;
use rules::shape::encode;
use std::hint::black_box;
use std::time::Instant;

/// Of a net with every place in use, and of one as the mix leaves it, with few messages.
pub fn well_shaped_test() -> Done {
    say("single calls; one step is the mean of refresh, deliver and deliver, each with its test of a full net")?;
    tested("well-shaped test, full net", &nets::full(&mut Random::new(1)))?;
    let mix = scripts::mix(&mut Random::new(3), MOST_STATIONS);
    let mut net = mix.net;
    rules::run::run(&mut net, &mix.script);
    tested("well-shaped test, ordinary net", &net)
}

fn tested(what: &str, net: &Net) -> Done {
    let net = encode(Form::Saved, net);
    let call = |side: &Side, room: &mut Room| (side.test)(Form::Saved, black_box(&mut room.net));
    measured(what, 1, &net, call, |room| room.net == net)
}

pub fn one_step() -> Done {
    stepped("one step", Form::Saved)?;
    stepped("one step, working form", Form::Working)
}

/// The results of the steps of a round: at its end a reply is heard whose clock is not greater.
const RESULTS: [u32; 3] = [0, 0, 4 << 8];

/// After each round the net is as it was, so that the round can be taken again and again.
fn stepped(what: &str, form: Form) -> Done {
    let (net, child, parent) = nets::to_refresh(&mut Random::new(2));
    let (net, steps) = (encode(form, &net), scripts::round(child, parent));
    let call = |side: &Side, room: &mut Room| {
        steps.map(|one| (side.step)(form, black_box(&mut room.net), black_box(one))) == RESULTS
    };
    measured(what, RESULTS.len(), &net, call, |room| room.net == net)
}

pub fn conversion() -> Done {
    converted("to the working form, full net", Form::Saved)?;
    converted("to the saved form, full net", Form::Working)
}

fn converted(what: &str, from: Form) -> Done {
    let net = nets::full(&mut Random::new(1));
    let (before, after) = (encode(from, &net), encode(from.other(), &net));
    let call = |side: &Side, room: &mut Room| (side.convert)(from, black_box(&room.net), black_box(&mut room.other));
    measured(what, 1, &before, call, |room| room.net == before && room.other == after)
}

/// Measures passes of so many calls from this net on. A pass tells whether it went well; in the end all must be right.
fn measured(
    what: &str,
    calls: usize,
    net: &[u8],
    pass: impl Fn(&Side, &mut Room) -> bool + Copy,
    is_right: impl Fn(&Room) -> bool + Copy,
) -> Done {
    let turn = |side: &'static Side| -> Turn {
        Box::new(move |room, passes| {
            room.net.copy_from_slice(net);
            room.other.fill(0);
            let began = Instant::now();
            let went_well = (0..passes).all(|_| pass(side, room));
            let nanos = began.elapsed().as_nanos() as f64;
            (went_well && is_right(room)).then_some(nanos).ok_or_else(|| format!("{what}: {} is wrong", side.name))
        })
    };
    let turns: Vec<Turn> = ALL.iter().map(turn).collect();
    row(what, &ALL, &rounds(calls, &turns)?)
}
