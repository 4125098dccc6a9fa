//! Holds what stands here against the model: the results, and every byte of the net and the tally.

use super::{convert, run, step};
use crate::damage::damage;
use crate::make;
use crate::random::Random;
use rules::layout::*;
use rules::net::Net;
use rules::outcome::ACCEPTED;
use rules::step::Step;
use rules::{face, shape};
use std::collections::VecDeque;

const FORMS: [Form; 2] = [Form::Saved, Form::Working];

/// A net of each kind in turn. Some are without messages: then it is easier to give up and to drop a child.
fn net(random: &mut Random, round: usize) -> Net {
    let mut net = match round % 4 {
        0 => make::grown(random),
        1 => make::shaped(random),
        2 => make::answered(random),
        _ => make::treed(random),
    };
    if random.chance(25) {
        net.channels.iter_mut().flatten().for_each(VecDeque::clear);
    }
    net
}

/// Any action as often as another, or any operands, or a reply to be heard.
fn one_step(random: &mut Random, net: &Net) -> Step {
    let (group, station) = (random.below(net.plan.groups.len()), random.below(net.plan.stations));
    match random.below(10) {
        0 => make::wild_step(random, net),
        1 => make::rough_step(random, net),
        2 => make::hearing_step(random, net),
        _ => {
            let action = 1 + random.below(9) as u8;
            make::likely_operands(random, net, action, group, station)
        }
    }
}

/// The result of both sides, which leave the same bytes.
fn same_step(form: Form, bytes: &mut [u8], one: Step) -> u32 {
    let mut plain = bytes.to_vec();
    let wanted = match form {
        Form::Saved => face::step(&mut plain, one),
        Form::Working => face::working_step(&mut plain, one),
    };
    assert_eq!(step(form, bytes, one), wanted, "{one:?}");
    assert!(plain == bytes, "{one:?}");
    wanted
}

/// The outcome of both sides, which leave the same bytes and the same tally.
fn same_run(form: Form, bytes: &mut [u8], script: &[u8], tally: &mut [u8]) -> u32 {
    let (mut plain, mut plain_tally) = (bytes.to_vec(), tally.to_vec());
    let wanted = match form {
        Form::Saved => face::run(&mut plain, script, &mut plain_tally),
        Form::Working => face::working_run(&mut plain, script, &mut plain_tally),
    };
    assert_eq!(run(form, bytes, script, tally), wanted);
    assert!(plain == bytes && plain_tally == tally);
    wanted
}

/// How often each thing came up.
#[derive(Debug, Default)]
struct Met {
    /// By the action.
    accepted: [u32; 10],
    refused: [u32; 10],
    outcomes: [u32; 7],
    cases: [u32; 5],
}

impl Met {
    fn count(&mut self, one: Step, result: u32) {
        let (outcome, action) = (result & 255, usize::from(one[0]).min(9));
        self.outcomes[outcome as usize] += 1;
        self.cases[(result >> 8) as usize] += 1;
        if outcome == u32::from(ACCEPTED) {
            self.accepted[action] += 1;
        } else {
            self.refused[action] += 1;
        }
    }

    /// Outcome 1 is another test's.
    fn are_often(&self) -> bool {
        let often = |counts: &[u32]| counts.iter().all(|&times| times >= 50);
        let outcomes = [&self.outcomes[..1], &self.outcomes[2..]].concat();
        often(&self.accepted[1..]) && often(&self.refused[1..]) && often(&outcomes) && often(&self.cases)
    }
}

#[test]
fn steps_are_those_of_the_model() {
    let mut random = Random::new(6);
    let mut met = Met::default();
    for round in 0..1_200 {
        let mut net = net(&mut random, round);
        let mut bytes = FORMS.map(|form| shape::encode(form, &net));
        for _ in 0..8 {
            let one = one_step(&mut random, &net);
            let _ = rules::step::step(&mut net, one);
            let [saved, working] = &mut bytes;
            let result = same_step(Form::Saved, saved, one);
            assert_eq!(same_step(Form::Working, working, one), result);
            met.count(one, result);
        }
    }
    assert!(met.are_often(), "{met:?}");
}

#[test]
fn runs_are_those_of_the_model() {
    let mut random = Random::new(7);
    for round in 0..160 {
        let net = net(&mut random, round);
        let steps = random.pick(&[0, 1, 2, 50, 300, SCRIPT_BYTES_MOST / 4]);
        let script = match round / 4 % 3 {
            0 => make::steps(&mut random, &mut net.clone(), steps).concat(),
            1 => make::hearing_steps(&mut random, &mut net.clone(), steps).concat(),
            _ => (0..steps).flat_map(|_| one_step(&mut random, &net)).collect(),
        };
        for form in FORMS {
            let mut tally = random.bytes(TALLY_BYTES);
            assert_eq!(same_run(form, &mut shape::encode(form, &net), &script, &mut tally), 0);
        }
    }
}

#[test]
fn nets_that_are_not_well_shaped_are_refused() {
    let mut random = Random::new(8);
    let mut counts = [0, 0];
    for round in 0..400 {
        let net = net(&mut random, round);
        let (form, marked) = (random.pick(&FORMS), random.pick(&[Form::Saved, Form::Saved, Form::Working]));
        let mut bytes = shape::encode(marked, &net);
        match random.below(8) {
            0 => bytes.truncate(random.pick(&[0, 1, FIRST_CHANNEL, NET_BYTES - 1])),
            1 => bytes.push(0),
            2 => {}
            _ => damage(&mut random, &mut bytes),
        }
        let one = one_step(&mut random, &net);
        let outcome = same_step(form, &mut bytes.clone(), one) & 255;
        counts[usize::from(outcome == 1)] += 1;
        same_run(form, &mut bytes, &one, &mut [7; TALLY_BYTES]);
    }
    assert!(counts.iter().all(|&times| times >= 20), "{counts:?}");
}

#[test]
fn a_run_is_refused_for_the_first_reason() {
    let mut random = Random::new(9);
    let net = shape::encode(Form::Working, &make::shaped(&mut random));
    let mut outcomes = [0; 13];
    for form in FORMS {
        for tally in [0, 20, TALLY_BYTES - 1, TALLY_BYTES, TALLY_BYTES + 1] {
            for script in [0, 1, 2, 3, 4, 16_383, 16_384, 16_385, 16_387, 16_388, 16_389, 20_000] {
                let (script, mut tally) = (random.bytes(script), random.bytes(tally));
                outcomes[same_run(form, &mut net.clone(), &script, &mut tally) as usize] += 1;
            }
        }
    }
    assert!([0, 1, 10, 11, 12].iter().all(|&outcome: &usize| outcomes[outcome] > 0), "{outcomes:?}");
}

#[test]
fn the_conversion_is_that_of_the_model() {
    let mut random = Random::new(10);
    for _ in 0..500 {
        let net = make::shaped(&mut random);
        for form in FORMS {
            let mut other = random.bytes(NET_BYTES);
            assert!(convert(form, &shape::encode(form, &net), &mut other));
            assert!(other == shape::encode(form.other(), &net));
            assert!(!convert(form, &shape::encode(form.other(), &net), &mut other));
        }
    }
}
