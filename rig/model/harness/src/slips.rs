//! Slips in telling the case of a reply. The comparison counts how often a library with each of them would have
//! answered otherwise than the model: one that never shows could be in the library, and nobody would know.

use crate::replies::{Heard, Reply, Tentative};

pub struct Slip {
    pub name: &'static str,
    /// The case told of a reply, where this one is right; 0 stands for none.
    of_reply: fn(&Reply, u32) -> u32,
    /// What else is told to have a case.
    beside: Option<Heard>,
}

const ADOPTED: u32 = 1;
const NOT_TENTATIVE: u32 = 2;
const UNCONNECTED: u32 = 3;
const NOT_GREATER: u32 = 4;

pub const SLIPS: &[Slip] = &[
    of_reply("unconnected tested first", |reply, right| if reply.connected { right } else { UNCONNECTED }),
    of_reply("not greater tested first", |reply, right| if reply.is_greater() { right } else { NOT_GREATER }),
    of_reply("not greater tested before unconnected", |reply, right| match right {
        UNCONNECTED if !reply.is_greater() => NOT_GREATER,
        _ => right,
    }),
    of_reply("unconnected told as not greater", |_, right| if right == UNCONNECTED { NOT_GREATER } else { right }),
    of_reply("not greater told as unconnected", |_, right| if right == NOT_GREATER { UNCONNECTED } else { right }),
    of_reply("nil taken for the sender", |reply, right| match reply.tentative {
        Tentative::Nil => from_tentative(reply, reply.is_greater()),
        _ => right,
    }),
    of_reply("parent taken for tentative parent", |reply, _| match reply.from_parent {
        true => from_tentative(reply, reply.is_greater()),
        false => NOT_TENTATIVE,
    }),
    of_reply("equal clock told as adopted", |reply, right| match right {
        NOT_GREATER if reply.clock == reply.own => ADOPTED,
        _ => right,
    }),
    of_reply("clocks as signed numbers", |reply, right| match reply.tentative {
        Tentative::Sender => from_tentative(reply, reply.clock as i32 > reply.own as i32),
        _ => right,
    }),
    of_reply("clocks from their lowest bytes", |reply, right| match reply.tentative {
        Tentative::Sender => from_tentative(reply, reply.clock.swap_bytes() > reply.own.swap_bytes()),
        _ => right,
    }),
    of_reply("tested once the clock is taken", |_, right| if right == ADOPTED { NOT_GREATER } else { right }),
    of_reply("told only if adopted", |_, right| if right == ADOPTED { right } else { 0 }),
    of_reply("told only if not adopted", |_, right| if right == ADOPTED { 0 } else { right }),
    of_reply("never told", |_, _| 0),
    beside("a request has a case", Heard::Request),
    beside("a refusal has a case", Heard::Refusal),
    beside("another action has a case", Heard::Nothing),
];

const fn of_reply(name: &'static str, told: fn(&Reply, u32) -> u32) -> Slip {
    Slip { name, of_reply: told, beside: None }
}

const fn beside(name: &'static str, heard: Heard) -> Slip {
    Slip { name, of_reply: |_, right| right, beside: Some(heard) }
}

/// The case, were the sender the tentative parent.
fn from_tentative(reply: &Reply, greater: bool) -> u32 {
    match (reply.connected, greater) {
        (true, true) => ADOPTED,
        (false, _) => UNCONNECTED,
        (true, false) => NOT_GREATER,
    }
}

impl Slip {
    /// The case that a library with this slip tells of a step, where this one is right.
    pub fn told(&self, heard: &Heard, right: u32) -> u32 {
        match heard {
            Heard::Reply(reply) => (self.of_reply)(reply, right),
            other if self.beside == Some(*other) => NOT_TENTATIVE,
            _ => right,
        }
    }
}

#[cfg(test)]
mod tests {
    use super::*;
    use crate::make;
    use crate::random::Random;
    use crate::replies::hear;
    use rules::reply::Case;

    #[test]
    fn every_slip_shows() {
        let mut random = Random::new(9);
        let mut shown = vec![0; SLIPS.len()];
        for _ in 0..500 {
            let mut net = make::answered(&mut random);
            for one in make::hearing_steps(&mut random, &mut net.clone(), 20) {
                let (answer, heard) = hear(&mut net, one);
                let right = answer.ok().and_then(|moved| moved.case).map_or(0, Case::number);
                for (slip, times) in SLIPS.iter().zip(&mut shown) {
                    *times += u32::from(slip.told(&heard, right) != right);
                }
            }
        }
        for (slip, times) in SLIPS.iter().zip(shown) {
            assert!(times > 50, "{}: {times}", slip.name);
        }
    }
}
