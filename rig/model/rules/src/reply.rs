//! The test of a received reply: which case holds, and how often each one came up.

use crate::net::Entry;

/// Tested in this order: the first that holds is the reply's case.
#[derive(Clone, Copy, Debug, PartialEq, Eq)]
pub enum Case {
    /// The sender is the tentative parent, the flag is 1 and the clock is strictly greater.
    Adopted,
    NotTentative,
    Unconnected,
    NotGreater,
}

impl Case {
    /// From 1 on: 0 is the number of a step that heard no reply.
    pub fn number(self) -> u32 {
        match self {
            Case::Adopted => 1,
            Case::NotTentative => 2,
            Case::Unconnected => 3,
            Case::NotGreater => 4,
        }
    }
}

/// The case of a reply from this sender, by what the receiver holds before it hears it.
pub fn case_of(receiver: &Entry, from: usize, connected: bool, clock: u32) -> Case {
    match (receiver.tentative == Some(from), connected, clock > receiver.clock) {
        (true, true, true) => Case::Adopted,
        (false, _, _) => Case::NotTentative,
        (_, false, _) => Case::Unconnected,
        (_, _, false) => Case::NotGreater,
    }
}

/// The replies heard, by their cases.
#[derive(Clone, Copy, Debug, Default, PartialEq, Eq)]
pub struct Replies {
    pub adopted: u32,
    pub not_tentative: u32,
    pub unconnected: u32,
    pub not_greater: u32,
}

impl Replies {
    pub fn count(&mut self, case: Case) {
        *match case {
            Case::Adopted => &mut self.adopted,
            Case::NotTentative => &mut self.not_tentative,
            Case::Unconnected => &mut self.unconnected,
            Case::NotGreater => &mut self.not_greater,
        } += 1;
    }

    /// In the order of the cases.
    pub fn counts(&self) -> [u32; 4] {
        [self.adopted, self.not_tentative, self.unconnected, self.not_greater]
    }
}
