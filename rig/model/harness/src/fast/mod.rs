//! What the library's speed is measured against: a net's bytes tested, stepped and converted where they stand, as plain
//! and fast as safe Rust can be. Nothing is decoded as a whole, copied or allocated. `step` and `run` have all nine
//! actions and the tally, in either form, with the results of the model's `face`.

mod actions;
mod channel;
mod convert;
mod entry;
mod run;
mod shape;
#[cfg(test)]
mod tests;
mod view;

pub use convert::convert;
pub use run::{run, step};
pub use shape::well_shaped;

type NetBytes = [u8; rules::layout::NET_BYTES];
