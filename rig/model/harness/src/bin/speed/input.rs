//! What a run is given, and the check that all sides make the same of it.

use crate::measure::{Room, Turn};
use crate::sides::{Side, MODEL};
use crate::tell::Done;
use rules::layout::Form;
use rules::net::Net;
use rules::outcome::ACCEPTED;
use rules::run::run;
use rules::shape::encode;
use std::hint::black_box;
use std::time::Instant;

pub struct Input {
    pub net: Net,
    pub script: Vec<u8>,
}

impl Input {
    /// The script in pieces of so many steps, each with the net as the pieces before leave it.
    pub fn pieces(&self, steps: usize) -> Vec<Input> {
        let mut net = self.net.clone();
        let piece = |script: &[u8]| {
            let piece = Input { net: net.clone(), script: script.to_vec() };
            run(&mut net, script);
            piece
        };
        self.script.chunks(4 * steps).map(piece).collect()
    }
}

/// The same in one of the forms.
pub struct Given {
    form: Form,
    net: Vec<u8>,
    script: Vec<u8>,
}

impl Given {
    pub fn new(form: Form, input: &Input) -> Given {
        Given { form, net: encode(form, &input.net), script: input.script.clone() }
    }

    /// The same net, and a script of no steps.
    pub fn without_steps(&self) -> Given {
        Given { form: self.form, net: self.net.clone(), script: Vec::new() }
    }
}

/// The net is copied afresh, and the tally cleared.
fn prepare(room: &mut Room, given: &Given) {
    room.net.copy_from_slice(&given.net);
    room.tally.fill(0);
}

fn run_by(side: &Side, room: &mut Room, given: &Given) -> u32 {
    (side.run)(given.form, black_box(&mut room.net), black_box(&given.script), black_box(&mut room.tally))
}

/// Every side accepts each of the runs, and leaves the net and the tally that the model leaves.
pub fn agree(what: &str, sides: &[Side], inputs: &[Given]) -> Done {
    for (place, given) in inputs.iter().enumerate() {
        let (mut wanted, mut room) = (Room::new(), Room::new());
        prepare(&mut wanted, given);
        run_by(&MODEL, &mut wanted, given);
        for side in sides {
            prepare(&mut room, given);
            let outcome = run_by(side, &mut room, given);
            let part = match (outcome == u32::from(ACCEPTED), room.net == wanted.net, room.tally == wanted.tally) {
                (true, true, true) => continue,
                (false, ..) => "outcome",
                (_, false, _) => "net",
                _ => "tally",
            };
            let name = side.name;
            return Err(format!("{what}, script {place}: {name} and model differ in the {part}; it was not timed"));
        }
    }
    Ok(())
}

/// A pass is a run of each of the inputs.
pub fn turn<'a>(side: &'a Side, inputs: &'a [Given]) -> Turn<'a> {
    Box::new(move |room, passes| {
        let mut nanos = 0;
        for _ in 0..passes {
            for given in inputs {
                prepare(room, given);
                let began = Instant::now();
                let outcome = run_by(side, room, given);
                nanos += began.elapsed().as_nanos();
                if outcome != u32::from(ACCEPTED) {
                    return Err(format!("{}: a run is refused that was accepted before", side.name));
                }
            }
        }
        Ok(nanos as f64)
    })
}
