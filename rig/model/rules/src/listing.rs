//! What the bench program prints.

use crate::fresh::fresh;
use crate::layout::{PLAN_BYTES, SCRIPT_BYTES_MOST};
use crate::net::{Entry, Net};
use crate::outcome::*;
use crate::plan::{Plan, Stations};
use crate::reply::Replies;
use crate::run::{run, Tally};

/// The answer to the whole of an input, a plan and then a script: the listing, or the number of the refusal.
pub fn answer(input: &[u8]) -> String {
    match try_listing(input) {
        Ok(listing) => listing,
        Err(refusal) => format!("refused {refusal}\n"),
    }
}

/// Tests 9, 11, 12.
fn try_listing(input: &[u8]) -> Result<String, Outcome> {
    let (plan, script) = input.split_at(input.len().min(PLAN_BYTES));
    let plan = Plan::decode(plan).ok_or(PLAN_NOT_WELL_SHAPED)?;
    demand(script.len() % 4 == 0, SCRIPT_NOT_FOURS)?;
    demand(script.len() <= SCRIPT_BYTES_MOST, SCRIPT_TOO_LONG)?;
    let mut net = fresh(plan);
    let tally = run(&mut net, script);
    Ok(listing(&net, &tally))
}

fn listing(net: &Net, tally: &Tally) -> String {
    let mut lines = vec![run_line(tally, net.waiting_messages()), replies_line(&tally.replies)];
    for (k, group) in net.plan.groups.iter().enumerate() {
        let name: String = group.name.iter().map(|byte| format!("{byte:02x}")).collect();
        lines.push(format!("group {k} name {name} root {}", group.root));
        lines.extend(net.entries[k].iter().enumerate().map(|(p, entry)| station_line(p, entry)));
    }
    lines.iter().map(|line| format!("{line}\n")).collect()
}

fn run_line(tally: &Tally, waiting: usize) -> String {
    let Tally { accepted, refused, sent, delivered, lost, .. } = tally;
    format!(
        "run accepted {accepted} refused {refused} sent {sent} delivered {delivered} lost {lost} waiting {waiting}"
    )
}

fn replies_line(replies: &Replies) -> String {
    let Replies { adopted, not_tentative, unconnected, not_greater } = replies;
    format!(
        "replies adopted {adopted} not-tentative {not_tentative} unconnected {unconnected} not-greater {not_greater}"
    )
}

fn station_line(station: usize, entry: &Entry) -> String {
    let parent = entry.parent.map_or("-".to_string(), |parent| parent.to_string());
    let (clock, member) = (entry.clock, u8::from(entry.member));
    format!("{station} parent {parent} clock {clock} member {member} children {}", children(entry.children))
}

/// They rise, split by commas.
fn children(stations: Stations) -> String {
    if stations.is_empty() {
        return "-".to_string();
    }
    stations.each().map(|station| station.to_string()).collect::<Vec<_>>().join(",")
}
