//! A run of a script, with its tally.

use crate::net::Net;
use crate::reply::Replies;
use crate::step::{step, Step};

#[derive(Clone, Copy, Debug, Default, PartialEq, Eq)]
pub struct Tally {
    pub accepted: u32,
    pub refused: u32,
    pub sent: u32,
    pub delivered: u32,
    pub lost: u32,
    pub replies: Replies,
}

impl Tally {
    /// Nine counts of 4 bytes.
    pub fn encode(&self) -> Vec<u8> {
        let counts = [self.accepted, self.refused, self.sent, self.delivered, self.lost];
        counts.into_iter().chain(self.replies.counts()).flat_map(u32::to_be_bytes).collect()
    }
}

/// Takes every step in turn; a step refused is counted and passed over. The script's length is a multiple of 4.
pub fn run(net: &mut Net, script: &[u8]) -> Tally {
    let mut tally = Tally::default();
    for bytes in script.chunks_exact(4) {
        count_step(net, [bytes[0], bytes[1], bytes[2], bytes[3]], &mut tally);
    }
    tally
}

fn count_step(net: &mut Net, one: Step, tally: &mut Tally) {
    match step(net, one) {
        Ok(moved) => {
            tally.accepted += 1;
            tally.sent += moved.sent;
            tally.delivered += moved.delivered;
            tally.lost += moved.lost;
            if let Some(case) = moved.case {
                tally.replies.count(case);
            }
        }
        Err(_) => tally.refused += 1,
    }
}
