//! Finding a group by name.

use crate::plan::Plan;

/// The group that has exactly these name bytes.
pub fn find(plan: &Plan, name: &[u8]) -> Option<usize> {
    plan.groups.iter().position(|group| group.name == name)
}
