//! The outcome numbers.

pub type Outcome = u8;

pub const ACCEPTED: Outcome = 0;
pub const NET_NOT_WELL_SHAPED: Outcome = 1;
pub const NO_SUCH_ACTION: Outcome = 2;
pub const OPERAND: Outcome = 3;
pub const NOT_ENABLED: Outcome = 4;
pub const CLOCK_FULL: Outcome = 5;
pub const CHANNEL_FULL: Outcome = 6;
pub const NO_SUCH_GROUP: Outcome = 7;
pub const NOT_ON_THE_TREE: Outcome = 8;
pub const PLAN_NOT_WELL_SHAPED: Outcome = 9;
pub const SIZE: Outcome = 10;
pub const SCRIPT_NOT_FOURS: Outcome = 11;
pub const SCRIPT_TOO_LONG: Outcome = 12;

/// `Ok` if the condition holds, else the refusal with this number.
pub fn demand(condition: bool, refusal: Outcome) -> Result<(), Outcome> {
    if condition {
        Ok(())
    } else {
        Err(refusal)
    }
}
