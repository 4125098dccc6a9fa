//! The cases of conversions, and of one form beside the other.

use crate::families::{any_function, some_net, stale, OTHER_NET_LENGTHS};
use crate::functions::Compare;
use harness::damage::damage;
use harness::make;
use harness::random::Random;
use rules::fresh;
use rules::layout::*;
use rules::net::Net;
use rules::shape::encode;
use std::io;

const FORMS: [Form; 2] = [Form::Saved, Form::Working];

/// More often than others a net of one station or of 16, of one group or of 4: there the places that are in use in both
/// forms are few, or all.
fn some_sized_net(random: &mut Random) -> Net {
    if random.chance(50) {
        return some_net(random);
    }
    let (stations, groups) = (random.pick(&[1, 2, MOST_STATIONS]), random.pick(&[1, 2, MOST_GROUPS]));
    let plan = make::plan_of(random, stations, groups);
    if random.chance(20) {
        fresh::fresh(plan)
    } else {
        make::shaped_over(random, plan)
    }
}

/// From both forms, into buffers that may have another length, and of bytes that may be no net.
pub fn conversions(c: &mut Compare) -> io::Result<()> {
    let net = some_sized_net(&mut c.random);
    for form in FORMS {
        let mut bytes = encode(form, &net);
        if c.random.chance(25) {
            damage(&mut c.random, &mut bytes);
        }
        let length = if c.random.chance(25) { c.random.pick(&OTHER_NET_LENGTHS) } else { NET_BYTES };
        let other = stale(&mut c.random, length);
        c.convert(form, &bytes, &other)?;
    }
    Ok(())
}

/// A net in one form for the functions of both, as it is, with the mark of the other form, or with that of none.
pub fn one_for_the_other(c: &mut Compare) -> io::Result<()> {
    let net = some_sized_net(&mut c.random);
    let form = c.random.pick(&FORMS);
    let mut bytes = encode(form, &net);
    match c.random.below(3) {
        0 => return any_function(c, form.other(), &net.plan, &bytes),
        1 => bytes[MARK_AT] = mark(form.other()),
        _ => bytes[MARK_AT] = c.random.pick(&[2, 3, 128, 255]),
    }
    for form in FORMS {
        any_function(c, form, &net.plan, &bytes)?;
    }
    Ok(())
}

pub fn both_forms(c: &mut Compare) -> io::Result<()> {
    let net = some_sized_net(&mut c.random);
    let count = c.random.pick(&[0, 1, 1, 1, 5, 50]);
    let steps = make::steps(&mut c.random, &mut net.clone(), count);
    c.both_forms(&encode(Form::Saved, &net), &steps)
}
