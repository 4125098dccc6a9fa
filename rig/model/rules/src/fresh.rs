//! A fresh net.

use crate::net::{Channel, Entry, Net};
use crate::plan::Plan;

/// Keeps the plan's groups and cables. Routes and parents are nil; members, clocks, children, waiting and channels
/// are zero.
pub fn fresh(plan: Plan) -> Net {
    let (stations, groups) = (plan.stations, plan.groups.len());
    Net {
        plan,
        routes: vec![vec![None; stations]; stations],
        entries: vec![vec![Entry::default(); stations]; groups],
        channels: vec![vec![Channel::new(); stations]; stations],
    }
}
