//! What a step hears, and the kinds of replies that the comparison must meet.

use rules::net::{Entry, Message, Net};
use rules::outcome::Outcome;
use rules::step::{step, Moved, Step};
use std::cmp::Ordering;

#[derive(Clone, Copy, Debug, PartialEq, Eq)]
pub enum Heard {
    /// The step is refused.
    Refusal,
    /// An action that delivers nothing.
    Nothing,
    Request,
    Reply(Reply),
}

/// A reply, beside what its receiver holds.
#[derive(Clone, Copy, Debug, PartialEq, Eq)]
pub struct Reply {
    pub tentative: Tentative,
    pub from_parent: bool,
    pub connected: bool,
    pub own: u32,
    pub clock: u32,
}

/// Who is the receiver's tentative parent.
#[derive(Clone, Copy, Debug, PartialEq, Eq, PartialOrd, Ord)]
pub enum Tentative {
    Sender,
    Another,
    Nil,
}

/// Takes a step of the model's, and tells what it heard.
pub fn hear(net: &mut Net, one: Step) -> (Result<Moved, Outcome>, Heard) {
    let oldest = oldest(net, one);
    let answer = step(net, one);
    let heard = if answer.is_ok() { oldest } else { Heard::Refusal };
    (answer, heard)
}

/// What the step hears unless it is refused.
fn oldest(net: &Net, one: Step) -> Heard {
    let [action, from, to, _] = one.map(usize::from);
    let channel = net.channels.get(from).and_then(|channels| channels.get(to));
    match channel.and_then(|channel| channel.front()) {
        Some(Message::Request { .. }) if action == 4 => Heard::Request,
        Some(&Message::Reply { group, connected, clock }) if action == 4 => {
            Heard::Reply(Reply::new(&net.entries[group][to], from, connected, clock))
        }
        _ => Heard::Nothing,
    }
}

impl Reply {
    fn new(receiver: &Entry, from: usize, connected: bool, clock: u32) -> Reply {
        let tentative = match receiver.tentative {
            None => Tentative::Nil,
            Some(station) if station == from => Tentative::Sender,
            Some(_) => Tentative::Another,
        };
        Reply { tentative, from_parent: receiver.parent == Some(from), connected, own: receiver.clock, clock }
    }

    pub fn is_greater(&self) -> bool {
        self.clock > self.own
    }

    /// The kinds that it is of, with this case.
    pub fn kinds(&self, case: u32) -> Vec<Kind> {
        let order = self.clock.cmp(&self.own);
        let mut kinds = vec![Kind::Parts { tentative: self.tentative, connected: self.connected, order }];
        if ENDS.contains(&self.own) {
            kinds.push(Kind::OwnClock { clock: self.own, case });
        }
        if ENDS.contains(&self.clock) {
            kinds.push(Kind::ReplyClock { clock: self.clock, case });
        }
        kinds
    }
}

const ENDS: [u32; 2] = [0, u32::MAX];

#[derive(Clone, Copy, Debug, PartialEq, Eq, PartialOrd, Ord)]
pub enum Kind {
    /// By all that the test looks at: one thing can be wrong, or several, or none.
    Parts { tentative: Tentative, connected: bool, order: Ordering },
    /// The receiver's clock is 0 or the last.
    OwnClock { clock: u32, case: u32 },
    /// The reply's clock is.
    ReplyClock { clock: u32, case: u32 },
}

/// Every kind that there is: none is greater than the last clock, and 0 is greater than none.
pub fn kinds() -> Vec<Kind> {
    let mut kinds = Vec::new();
    for tentative in [Tentative::Sender, Tentative::Another, Tentative::Nil] {
        for connected in [false, true] {
            let orders = [Ordering::Less, Ordering::Equal, Ordering::Greater];
            kinds.extend(orders.map(|order| Kind::Parts { tentative, connected, order }));
        }
    }
    for case in 1..=4 {
        kinds.extend([Kind::OwnClock { clock: 0, case }, Kind::ReplyClock { clock: u32::MAX, case }]);
    }
    for case in 2..=4 {
        kinds.extend([Kind::OwnClock { clock: u32::MAX, case }, Kind::ReplyClock { clock: 0, case }]);
    }
    kinds
}

#[cfg(test)]
mod tests {
    use super::*;
    use crate::make;
    use crate::random::Random;
    use rules::reply::Case;
    use std::collections::BTreeMap;

    /// The net as it must be once this reply is heard.
    fn after(net: &Net, from: usize, to: usize, case: Case) -> Net {
        let mut after = net.clone();
        if let Some(Message::Reply { group, clock, .. }) = after.channels[from][to].pop_front() {
            let entry = &mut after.entries[group][to];
            entry.waiting.remove(from);
            if case == Case::Adopted {
                (entry.parent, entry.clock) = (Some(from), clock);
            }
        }
        after
    }

    #[test]
    fn a_reply_not_taken_changes_nothing_but_the_waiting() {
        let mut random = Random::new(8);
        let mut met = BTreeMap::new();
        for _ in 0..500 {
            let mut net = make::answered(&mut random);
            for _ in 0..40 {
                let (before, one) = (net.clone(), make::hearing_step(&mut random, &net));
                let (answer, heard) = hear(&mut net, one);
                match (heard, answer.ok().and_then(|moved| moved.case)) {
                    (Heard::Reply(reply), Some(case)) => {
                        assert_eq!(net, after(&before, usize::from(one[1]), usize::from(one[2]), case));
                        reply.kinds(case.number()).into_iter().for_each(|kind| *met.entry(kind).or_insert(0) += 1);
                    }
                    (_, case) => assert!(case.is_none() && !matches!(heard, Heard::Reply(_)), "{heard:?}"),
                }
            }
        }
        assert_eq!(met.len(), kinds().len());
        assert!(kinds().iter().all(|kind| met.get(kind).copied().unwrap_or(0) > 50), "{met:?}");
    }
}
