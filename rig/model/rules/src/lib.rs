//! An independent model of the talkback net. It is written from the requirements alone and shares nothing with the
//! library that is held against it: bytes are decoded into plain structures, the rules work on those, and the
//! result is encoded back.
//!
//! `face` has the nine functions of the C face over byte slices, with the same results, and `listing` what the bench
//! program prints. The other modules are the rules.

pub mod call;
pub mod face;
pub mod find;
pub mod fresh;
pub mod layout;
pub mod listing;
pub mod net;
pub mod outcome;
pub mod plan;
pub mod reply;
pub mod run;
pub mod shape;
pub mod step;

#[cfg(test)]
mod examples;
#[cfg(test)]
mod form_examples;
#[cfg(test)]
mod reply_examples;
