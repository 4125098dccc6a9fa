//! The sides that are measured against each other: each has the same functions.

use crate::library;
use harness::fast;
use rules::face;
use rules::layout::Form;
use rules::outcome::NO_SUCH_ACTION;
use rules::shape::decode;
use rules::step::Step;

pub struct Side {
    pub name: &'static str,
    /// Whether the net is well shaped.
    pub test: fn(Form, &mut [u8]) -> bool,
    pub step: fn(Form, &mut [u8], Step) -> u32,
    pub run: fn(Form, &mut [u8], &[u8], &mut [u8]) -> u32,
    /// Into the other form; whether it was accepted.
    pub convert: fn(Form, &[u8], &mut [u8]) -> bool,
}

const LIBRARY: Side = Side {
    name: "library",
    // an action that does not exist is refused once the net is found well shaped, so its time is that of the test
    test: |form, net| library::step(form, net, [0; 4]) == u32::from(NO_SUCH_ACTION),
    step: library::step,
    run: library::run,
    convert: |form, net, other| library::convert(form, net, other) == 0,
};

pub const MODEL: Side = Side {
    name: "model",
    test: |form, net| decode(form, net).is_some(),
    step: |form, net, one| match form {
        Form::Saved => face::step(net, one),
        Form::Working => face::working_step(net, one),
    },
    run: |form, net, script, tally| match form {
        Form::Saved => face::run(net, script, tally),
        Form::Working => face::working_run(net, script, tally),
    },
    convert: |form, net, other| match form {
        Form::Saved => face::to_working(net, other) == 0,
        Form::Working => face::to_saved(net, other) == 0,
    },
};

const IN_PLACE: Side = Side {
    name: "in place",
    test: |form, net| fast::well_shaped(form, net),
    step: fast::step,
    run: fast::run,
    convert: fast::convert,
};

/// The library first.
pub static ALL: [Side; 3] = [LIBRARY, MODEL, IN_PLACE];
pub static WITHOUT_MODEL: [Side; 2] = [LIBRARY, IN_PLACE];
