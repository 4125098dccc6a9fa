//! The nine functions of the C face, over byte slices. A result's lowest byte is the outcome; further values stand
//! above it. A refusal changes no byte. A net is in the saved form, unless the function says otherwise.

use crate::call::{encode_list, flood, is_on_the_tree, reach_list};
use crate::layout::*;
use crate::net::Net;
use crate::outcome::*;
use crate::plan::Plan;
use crate::reply::Case;
use crate::shape::{decode, encode};
use crate::step::{Moved, Step};

pub fn fresh(plan: &[u8], net: &mut [u8]) -> u32 {
    number(try_fresh(plan, net))
}

pub fn step(net: &mut [u8], one: Step) -> u32 {
    step_number(try_step(Form::Saved, net, one))
}

pub fn run(net: &mut [u8], script: &[u8], tally: &mut [u8]) -> u32 {
    number(try_run(Form::Saved, net, script, tally))
}

pub fn find(net: &[u8], name: &[u8]) -> u32 {
    number(try_find(net, name))
}

pub fn call(net: &[u8], group: u8, station: u8, list: &mut [u8]) -> u32 {
    number(try_call(net, group, station, list))
}

pub fn to_working(net: &[u8], work: &mut [u8]) -> u32 {
    number(try_convert(Form::Saved, net, work))
}

pub fn to_saved(work: &[u8], net: &mut [u8]) -> u32 {
    number(try_convert(Form::Working, work, net))
}

/// A step of a net in the working form.
pub fn working_step(work: &mut [u8], one: Step) -> u32 {
    step_number(try_step(Form::Working, work, one))
}

/// A run on a net in the working form.
pub fn working_run(work: &mut [u8], script: &[u8], tally: &mut [u8]) -> u32 {
    number(try_run(Form::Working, work, script, tally))
}

/// The number that tells of a step: its outcome, and above it the case of the reply that it delivered.
pub fn step_number(answer: Result<Moved, Outcome>) -> u32 {
    number(answer.map(|moved| moved.case.map_or(0, Case::number)))
}

fn number(answer: Result<u32, Outcome>) -> u32 {
    match answer {
        Ok(values) => values << 8 | u32::from(ACCEPTED),
        Err(refusal) => u32::from(refusal),
    }
}

/// Tests 10, then 9.
fn try_fresh(plan: &[u8], net: &mut [u8]) -> Result<u32, Outcome> {
    demand(net.len() == NET_BYTES, SIZE)?;
    let plan = Plan::decode(plan).ok_or(PLAN_NOT_WELL_SHAPED)?;
    net.copy_from_slice(&encode(Form::Saved, &crate::fresh::fresh(plan)));
    Ok(0)
}

/// Tests 1, then those of the step.
fn try_step(form: Form, bytes: &mut [u8], one: Step) -> Result<Moved, Outcome> {
    let mut net = decoded(form, bytes)?;
    let moved = crate::step::step(&mut net, one)?;
    bytes.copy_from_slice(&encode(form, &net));
    Ok(moved)
}

/// Tests 1, 10, 11, 12.
fn try_run(form: Form, bytes: &mut [u8], script: &[u8], tally: &mut [u8]) -> Result<u32, Outcome> {
    let mut net = decoded(form, bytes)?;
    demand(tally.len() == TALLY_BYTES, SIZE)?;
    demand(script.len() % 4 == 0, SCRIPT_NOT_FOURS)?;
    demand(script.len() <= SCRIPT_BYTES_MOST, SCRIPT_TOO_LONG)?;
    tally.copy_from_slice(&crate::run::run(&mut net, script).encode());
    bytes.copy_from_slice(&encode(form, &net));
    Ok(0)
}

/// Tests 1, then 7.
fn try_find(bytes: &[u8], name: &[u8]) -> Result<u32, Outcome> {
    let net = decoded(Form::Saved, bytes)?;
    let group = crate::find::find(&net.plan, name).ok_or(NO_SUCH_GROUP)?;
    Ok(group as u32)
}

/// Tests 1, 3, 10, 8.
fn try_call(bytes: &[u8], group: u8, station: u8, list: &mut [u8]) -> Result<u32, Outcome> {
    let net = decoded(Form::Saved, bytes)?;
    let (group, station) = (usize::from(group), usize::from(station));
    demand(group < net.plan.groups.len() && net.plan.is_station(station), OPERAND)?;
    demand(list.len() == LIST_BYTES, SIZE)?;
    demand(is_on_the_tree(&net, group, station), NOT_ON_THE_TREE)?;
    let flood = flood(&net, group, station);
    list.copy_from_slice(&encode_list(&reach_list(&net, group)));
    Ok(flood.reached as u32 | (flood.copies as u32) << 8)
}

/// Into the other form. Tests 1, then 10.
fn try_convert(from: Form, bytes: &[u8], other: &mut [u8]) -> Result<u32, Outcome> {
    let net = decoded(from, bytes)?;
    demand(other.len() == NET_BYTES, SIZE)?;
    other.copy_from_slice(&encode(from.other(), &net));
    Ok(0)
}

fn decoded(form: Form, bytes: &[u8]) -> Result<Net, Outcome> {
    decode(form, bytes).ok_or(NET_NOT_WELL_SHAPED)
}
