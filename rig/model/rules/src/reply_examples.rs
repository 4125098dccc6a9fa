//! Examples of the test of a reply: rows on each side of every case, in both forms, by a step and by a run.

use crate::examples::line;
use crate::face;
use crate::fresh::fresh;
use crate::layout::*;
use crate::net::{Message, Net};
use crate::outcome::*;
use crate::shape::encode;
use crate::step::Step;

const ADOPTED: u32 = 1;
const NOT_TENTATIVE: u32 = 2;
const UNCONNECTED: u32 = 3;
const NOT_GREATER: u32 = 4;

const FORMS: [Form; 2] = [Form::Saved, Form::Working];

/// Stations 0-1-2 in a line with the root at 0. Station 1 has this clock, and 0 for its tentative parent.
fn asked(own: u32) -> Net {
    let mut net = fresh(line(3, &[b"A"]));
    let entry = &mut net.entries[0][1];
    (entry.member, entry.clock, entry.tentative) = (true, own, Some(0));
    entry.waiting.add(0);
    entry.waiting.add(2);
    net
}

fn reply(connected: bool, clock: u32) -> Message {
    Message::Reply { group: 0, connected, clock }
}

fn step(form: Form, bytes: &mut [u8], one: Step) -> u32 {
    match form {
        Form::Saved => face::step(bytes, one),
        Form::Working => face::working_step(bytes, one),
    }
}

/// The counts that a run leaves, and the net, in this form.
fn run(form: Form, net: &Net, script: &[Step]) -> (Vec<u32>, Vec<u8>) {
    let (mut bytes, mut tally) = (encode(form, net), [9; TALLY_BYTES]);
    let result = match form {
        Form::Saved => face::run(&mut bytes, &script.concat(), &mut tally),
        Form::Working => face::working_run(&mut bytes, &script.concat(), &mut tally),
    };
    assert_eq!(result, 0);
    (tally.chunks_exact(4).map(|b| u32::from_be_bytes([b[0], b[1], b[2], b[3]])).collect(), bytes)
}

/// Station 1 hears a reply of this case: the step tells it and the tally counts it, and unless it is adopted, nothing
/// comes of it but that the station no longer waits.
fn hears(mut net: Net, from: usize, connected: bool, clock: u32, case: u32) {
    net.channels[from][1].push_back(reply(connected, clock));
    let mut after = net.clone();
    after.channels[from][1].clear();
    after.entries[0][1].waiting.remove(from);
    if case == ADOPTED {
        (after.entries[0][1].parent, after.entries[0][1].clock) = (Some(from), clock);
    }
    let mut counts = vec![1, 0, 0, 1, 0, 0, 0, 0, 0];
    counts[4 + case as usize] = 1;
    let deliver = [4, from as u8, 1, 0];
    for form in FORMS {
        let mut bytes = encode(form, &net);
        let row = format!("{form:?}, from {from}, connected {connected}, clock {clock}");
        assert_eq!(step(form, &mut bytes, deliver), case << 8, "{row}");
        assert!(bytes == encode(form, &after), "{row}");
        assert_eq!(run(form, &net, &[deliver]), (counts.clone(), bytes), "{row}");
    }
}

#[test]
fn own_clock_1() {
    let rows = [
        (0, true, 1, NOT_GREATER),
        (0, true, 2, ADOPTED),
        (0, false, 2, UNCONNECTED),
        (2, true, 2, NOT_TENTATIVE),
        // several wrong at once: the first in the order is told
        (2, false, 2, NOT_TENTATIVE),
        (2, true, 1, NOT_TENTATIVE),
        (2, false, 1, NOT_TENTATIVE),
        (0, false, 1, UNCONNECTED),
        (0, false, 0, UNCONNECTED),
        (0, true, 0, NOT_GREATER),
    ];
    for (from, connected, clock, case) in rows {
        hears(asked(1), from, connected, clock, case);
    }
}

#[test]
fn no_sender_is_a_tentative_parent_that_is_nil() {
    for (from, connected, clock) in [(0, true, 2), (2, true, 2), (0, false, 2), (0, true, 1), (2, false, 0)] {
        let mut net = asked(1);
        net.entries[0][1].tentative = None;
        hears(net, from, connected, clock, NOT_TENTATIVE);
    }
}

#[test]
fn the_parent_counts_only_as_the_tentative_one() {
    let mut net = asked(1);
    net.entries[0][1].parent = Some(2);
    hears(net.clone(), 2, true, 2, NOT_TENTATIVE);
    hears(net.clone(), 0, true, 2, ADOPTED);
    net.entries[0][1].parent = Some(0);
    hears(net.clone(), 0, true, 2, ADOPTED);
    hears(net, 0, true, 1, NOT_GREATER);
}

#[test]
fn the_root_has_no_tentative_parent() {
    let mut net = fresh(line(2, &[b"A"]));
    net.channels[1][0].push_back(reply(true, 5));
    for form in FORMS {
        assert_eq!(step(form, &mut encode(form, &net), [4, 1, 0, 0]), NOT_TENTATIVE << 8);
    }
}

/// Ends of the clock, and pairs that compare otherwise as signed numbers or with their bytes the other way round.
#[test]
fn clocks_at_their_ends() {
    let last = u32::MAX;
    let greater =
        [(0, 1), (0, last), (last - 1, last), (255, 256), (0x7fff_ffff, 0x8000_0000), (0x00ff_ffff, 1 << 24)];
    for (low, high) in greater {
        hears(asked(low), 0, true, high, ADOPTED);
        hears(asked(high), 0, true, low, NOT_GREATER);
        hears(asked(high), 0, true, high, NOT_GREATER);
        hears(asked(low), 0, true, low, NOT_GREATER);
        hears(asked(low), 0, false, high, UNCONNECTED);
        hears(asked(low), 2, true, high, NOT_TENTATIVE);
    }
}

#[test]
fn a_request_has_no_case() {
    let mut net = asked(1);
    net.channels[0][1].push_back(Message::Request { group: 0 });
    for form in FORMS {
        assert_eq!(step(form, &mut encode(form, &net), [4, 0, 1, 0]), 0);
        assert_eq!(run(form, &net, &[[4, 0, 1, 0]]).0, [1, 0, 1, 1, 0, 0, 0, 0, 0]);
    }
}

/// A reply that would be adopted is on its way: only to deliver it is to hear it.
#[test]
fn no_other_action_has_a_case() {
    let mut net = asked(1);
    net.routes[1][0] = Some(0);
    net.channels[0][1].push_back(reply(true, 2));
    net.entries[0][1].waiting.remove(0);
    net.entries[0][1].children.add(2);
    net.entries[0][1].parent = Some(0);
    let others: [Step; 8] = [
        [1, 0, 0, 0],
        [2, 0, 1, 0],
        [3, 0, 1, 0],
        [5, 0, 1, 0],
        [6, 0, 1, 2],
        [7, 0, 1, 2],
        [8, 0, 1, 1],
        [9, 1, 0, 0],
    ];
    for form in FORMS {
        for one in others {
            assert_eq!(step(form, &mut encode(form, &net), one), 0, "{form:?}, step {one:?}");
            assert_eq!(run(form, &net, &[one]).0[5..], [0; 4], "{form:?}, step {one:?}");
        }
    }
}

#[test]
fn a_refused_delivery_has_no_case() {
    let mut net = asked(1);
    net.channels[0][1].push_back(reply(true, 2));
    net.channels[1][0] = (0..8).map(|_| reply(true, 2)).collect();
    net.channels[2][1].push_back(Message::Request { group: 0 });
    net.channels[1][2] = (0..8).map(|_| reply(true, 2)).collect();
    let rows: [(Step, Outcome); 5] = [
        ([4, 0, 1, 1], OPERAND),
        ([4, 0, 2, 0], OPERAND),
        ([4, 3, 1, 0], OPERAND),
        ([4, 2, 1, 0], CHANNEL_FULL),
        ([10, 0, 1, 0], NO_SUCH_ACTION),
    ];
    for form in FORMS {
        for (one, outcome) in rows {
            assert_eq!(step(form, &mut encode(form, &net), one), u32::from(outcome), "{form:?}, step {one:?}");
            assert_eq!(run(form, &net, &[one]).0, [0, 1, 0, 0, 0, 0, 0, 0, 0], "{form:?}, step {one:?}");
        }
        let mut bytes = encode(form.other(), &net);
        assert_eq!(step(form, &mut bytes, [4, 0, 1, 0]), u32::from(NET_NOT_WELL_SHAPED));
        assert_eq!(step(form, &mut encode(form, &asked(1)), [4, 0, 1, 0]), u32::from(NOT_ENABLED));
    }
}

/// No two of the nine are the same, so that none can stand for another.
#[test]
fn a_tally_of_nine_different_counts() {
    let request = Message::Request { group: 0 };
    let mut net = asked(1);
    net.channels[0][1].extend([
        reply(true, 2),
        request,
        reply(true, 2),
        reply(false, 9),
        reply(true, 3),
        reply(true, 1),
        request,
        reply(true, 3),
    ]);
    net.channels[2][1].extend([reply(true, 9), request, request, reply(false, 1), request, request]);
    net.channels[2][1].extend([reply(true, 0), reply(true, 4)]);
    let parts: [&[Step]; 6] = [
        &[[4, 0, 1, 0]; 10], // two of them find the channel empty
        &[[4, 2, 1, 0]; 8],
        &[[5, 1, 2, 0]; 4],
        &[[5, 1, 0, 0]],
        &[[0; 4]; 3],
        &[[4, 2, 1, 0]; 2],
    ];
    for form in FORMS {
        assert_eq!(run(form, &net, &parts.concat()).0, [21, 7, 6, 16, 5, 2, 4, 1, 3]);
    }
}
