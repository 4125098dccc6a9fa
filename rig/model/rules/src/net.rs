//! A net as plain structures.

use crate::layout::CHANNEL_HOLDS;
use crate::plan::{Plan, Stations};
use std::collections::VecDeque;

/// What one station holds for one group.
#[derive(Clone, Copy, Debug, Default, PartialEq, Eq)]
pub struct Entry {
    pub parent: Option<usize>,
    pub tentative: Option<usize>,
    pub member: bool,
    pub clock: u32,
    pub children: Stations,
    pub waiting: Stations,
}

impl Entry {
    /// "Joins" means member or has a child.
    pub fn joins(&self) -> bool {
        self.member || !self.children.is_empty()
    }
}

#[derive(Clone, Copy, Debug, PartialEq, Eq)]
pub enum Message {
    Request { group: usize },
    Reply { group: usize, connected: bool, clock: u32 },
}

impl Message {
    pub fn group(&self) -> usize {
        match *self {
            Message::Request { group } | Message::Reply { group, .. } => group,
        }
    }

    pub fn is_request_of(&self, wanted: usize) -> bool {
        matches!(*self, Message::Request { group } if group == wanted)
    }

    pub fn is_reply_of(&self, wanted: usize) -> bool {
        matches!(*self, Message::Reply { group, .. } if group == wanted)
    }
}

/// Oldest message first.
pub type Channel = VecDeque<Message>;

#[derive(Clone, Debug, PartialEq, Eq)]
pub struct Net {
    pub plan: Plan,
    /// By station, then destination.
    pub routes: Vec<Vec<Option<usize>>>,
    /// By group, then station.
    pub entries: Vec<Vec<Entry>>,
    /// By sender, then receiver.
    pub channels: Vec<Vec<Channel>>,
}

impl Net {
    pub fn root(&self, group: usize) -> usize {
        self.plan.groups[group].root
    }

    /// "Connected" means is the root or has a parent.
    pub fn is_connected(&self, group: usize, station: usize) -> bool {
        station == self.root(group) || self.entries[group][station].parent.is_some()
    }

    pub fn is_full(&self, from: usize, to: usize) -> bool {
        self.channels[from][to].len() >= CHANNEL_HOLDS
    }

    pub fn has_request(&self, group: usize, from: usize, to: usize) -> bool {
        self.channels[from][to].iter().any(|message| message.is_request_of(group))
    }

    pub fn has_reply(&self, group: usize, from: usize, to: usize) -> bool {
        self.channels[from][to].iter().any(|message| message.is_reply_of(group))
    }

    /// The messages in all channels.
    pub fn waiting_messages(&self) -> usize {
        self.channels.iter().flatten().map(VecDeque::len).sum()
    }
}
