//! The cases of replies, heard in a step or a run.

use crate::families::{line, stale};
use crate::functions::Compare;
use harness::make;
use rules::fresh::fresh;
use rules::layout::*;
use rules::net::{Message, Net};
use rules::shape::encode;
use std::io;

const OWN_CLOCKS: [u32; 4] = [0, 1, u32::MAX - 1, u32::MAX];
const REPLY_CLOCKS: [u32; 5] = [0, 1, 2, u32::MAX - 1, u32::MAX];

/// Stations 0-1-2 in a line. Station 1 has this clock and tentative parent, and waits on both its neighbours.
fn asked(own: u32, tentative: Option<usize>) -> Net {
    let mut net = fresh(line(3, &[b"A"]));
    let entry = &mut net.entries[0][1];
    (entry.member, entry.clock, entry.tentative) = (true, own, tentative);
    entry.waiting.add(0);
    entry.waiting.add(2);
    net
}

/// Every way in which a reply is right or wrong, with clocks at both ends and beside each other.
pub fn reply_rows(c: &mut Compare) -> io::Result<()> {
    for own in OWN_CLOCKS {
        for tentative in [Some(0), Some(2), None] {
            for clock in REPLY_CLOCKS {
                for (from, connected) in [(0, true), (0, false), (2, true), (2, false)] {
                    let mut net = asked(own, tentative);
                    net.channels[from][1].push_back(Message::Reply { group: 0, connected, clock });
                    reply_row(c, &net, from)?;
                }
            }
        }
    }
    Ok(())
}

fn reply_row(c: &mut Compare, net: &Net, from: usize) -> io::Result<()> {
    let deliver = [4, from as u8, 1, 0];
    for form in [Form::Saved, Form::Working] {
        let bytes = encode(form, net);
        c.step(form, &bytes, deliver)?;
        c.run(form, &bytes, &deliver, &[9; TALLY_BYTES])?;
    }
    Ok(())
}

pub fn reply(c: &mut Compare, form: Form) -> io::Result<()> {
    let net = make::answered(&mut c.random);
    let one = make::hearing_step(&mut c.random, &net);
    c.step(form, &encode(form, &net), one)
}

pub fn replies(c: &mut Compare, form: Form) -> io::Result<()> {
    let net = make::answered(&mut c.random);
    let steps = make::hearing_steps(&mut c.random, &mut net.clone(), 40);
    c.steps(form, &net, &steps)
}

pub fn runs_of_replies(c: &mut Compare, form: Form) -> io::Result<()> {
    let net = make::answered(&mut c.random);
    let count = c.random.pick(&[1, 2, 5, 40, 150]);
    let script = make::hearing_steps(&mut c.random, &mut net.clone(), count).concat();
    let tally = stale(&mut c.random, TALLY_BYTES);
    c.run(form, &encode(form, &net), &script, &tally)
}
