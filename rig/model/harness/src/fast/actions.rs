//! The nine actions, where the bytes stand. Each stops at the first reason to refuse it, and writes only what changes.
//! They are all inlined, so that a run is one loop without a call.

use super::channel::{count, holds, oldest, remove, send_reply, send_request, Message, REPLY, REQUEST};
use super::entry::*;
use super::view::View;
use rules::layout::{CHANNEL_HOLDS, NIL};
use rules::outcome::*;
use rules::reply::Case;
use rules::step::Step;

/// What an accepted step did with messages: nothing, sent one, delivered a request and sent the reply, lost one, or
/// delivered a reply.
pub enum Moved {
    Nothing,
    Sent,
    Answered,
    Lost,
    Heard(Case),
}

impl<const SAVED: bool> View<'_, SAVED> {
    #[inline(always)]
    pub fn step(&mut self, [action, a, b, c]: Step) -> Result<Moved, Outcome> {
        match action {
            1 => self.tick(a, b, c),
            2 => self.ask(a, b, c),
            3 => self.refresh(a, b, c),
            4 => self.deliver(a, b, c),
            5 => self.lose(a, b, c),
            6 => self.give_up(a, b, c),
            7 => self.drop_child(a, b, c),
            8 => self.member(a, b, c),
            9 => self.set_route(a, b, c),
            _ => Err(NO_SUCH_ACTION),
        }
    }

    fn are_group_and_station(&self, group: u8, station: u8) -> bool {
        group < self.groups && station < self.stations
    }

    #[inline(always)]
    fn tick(&mut self, group: u8, b: u8, c: u8) -> Result<Moved, Outcome> {
        demand(group < self.groups && b == 0 && c == 0, OPERAND)?;
        let entry = self.entry(group, self.root(group));
        let clock = clock(entry).checked_add(1).ok_or(CLOCK_FULL)?;
        set_clock(entry, clock);
        Ok(Moved::Nothing)
    }

    #[inline(always)]
    fn ask(&mut self, group: u8, station: u8, c: u8) -> Result<Moved, Outcome> {
        demand(self.are_group_and_station(group, station) && c == 0, OPERAND)?;
        // the root has no route to itself
        let next = *self.route(station, self.root(group));
        let entry = self.entry(group, station);
        let waiting = mask(entry, WAITING);
        demand(joins(entry) && next != NIL && !has(waiting, next), NOT_ENABLED)?;
        send_request(self.channel(station, next), group)?;
        let entry = self.entry(group, station);
        entry[TENTATIVE] = next;
        set_mask(entry, WAITING, waiting | bit(next));
        Ok(Moved::Sent)
    }

    #[inline(always)]
    fn refresh(&mut self, group: u8, station: u8, c: u8) -> Result<Moved, Outcome> {
        demand(self.are_group_and_station(group, station) && c == 0, OPERAND)?;
        let entry = self.entry(group, station);
        let (parent, waiting) = (entry[PARENT], mask(entry, WAITING));
        demand(parent != NIL && !has(waiting, parent), NOT_ENABLED)?;
        send_request(self.channel(station, parent), group)?;
        set_mask(self.entry(group, station), WAITING, waiting | bit(parent));
        Ok(Moved::Sent)
    }

    #[inline(always)]
    fn deliver(&mut self, from: u8, to: u8, c: u8) -> Result<Moved, Outcome> {
        demand(self.are_neighbours(from, to) && c == 0, OPERAND)?;
        let message = oldest(self.channel(from, to)).ok_or(NOT_ENABLED)?;
        let moved = match message.kind {
            REQUEST => self.take_request(from, to, message.group)?,
            _ => Moved::Heard(self.take_reply(from, to, message)),
        };
        remove(self.channel(from, to), 0);
        Ok(moved)
    }

    #[inline(always)]
    fn take_request(&mut self, from: u8, to: u8, group: u8) -> Result<Moved, Outcome> {
        let is_root = self.root(group) == to;
        let entry = self.entry(group, to);
        let (connected, clock) = (is_root | (entry[PARENT] != NIL), clock(entry));
        let children = mask(entry, CHILDREN);
        send_reply(self.channel(to, from), group, connected, clock)?;
        set_mask(self.entry(group, to), CHILDREN, children | bit(from));
        Ok(Moved::Answered)
    }

    #[inline(always)]
    fn take_reply(&mut self, from: u8, to: u8, reply: Message) -> Case {
        let entry = self.entry(reply.group, to);
        let waiting = mask(entry, WAITING);
        set_mask(entry, WAITING, waiting & !bit(from));
        if entry[TENTATIVE] != from {
            return Case::NotTentative;
        }
        if !reply.connected {
            return Case::Unconnected;
        }
        if reply.clock <= clock(entry) {
            return Case::NotGreater;
        }
        entry[PARENT] = from;
        set_clock(entry, reply.clock);
        Case::Adopted
    }

    #[inline(always)]
    fn lose(&mut self, from: u8, to: u8, position: u8) -> Result<Moved, Outcome> {
        demand(self.are_neighbours(from, to) && position < CHANNEL_HOLDS as u8, OPERAND)?;
        let channel = self.channel(from, to);
        demand(position < count(channel), NOT_ENABLED)?;
        remove(channel, position);
        Ok(Moved::Lost)
    }

    #[inline(always)]
    fn give_up(&mut self, group: u8, station: u8, neighbour: u8) -> Result<Moved, Outcome> {
        demand(group < self.groups && self.are_neighbours(station, neighbour), OPERAND)?;
        let waiting = mask(self.entry(group, station), WAITING);
        demand(has(waiting, neighbour) && !self.is_asked(group, station, neighbour), NOT_ENABLED)?;
        set_mask(self.entry(group, station), WAITING, waiting & !bit(neighbour));
        Ok(Moved::Nothing)
    }

    #[inline(always)]
    fn drop_child(&mut self, group: u8, station: u8, child: u8) -> Result<Moved, Outcome> {
        demand(group < self.groups && self.are_neighbours(station, child), OPERAND)?;
        let parent = self.entry(group, child)[PARENT];
        let children = mask(self.entry(group, station), CHILDREN);
        demand(has(children, child) && parent != station && !self.is_asked(group, child, station), NOT_ENABLED)?;
        let entry = self.entry(group, station);
        set_mask(entry, CHILDREN, children & !bit(child));
        leave_unless_joins(entry);
        Ok(Moved::Nothing)
    }

    /// Whether a request from the station to the neighbour, or a reply to it, is in the channels.
    #[inline(always)]
    fn is_asked(&mut self, group: u8, station: u8, neighbour: u8) -> bool {
        holds(self.channel(station, neighbour), REQUEST, group)
            || holds(self.channel(neighbour, station), REPLY, group)
    }

    #[inline(always)]
    fn member(&mut self, group: u8, station: u8, flag: u8) -> Result<Moved, Outcome> {
        demand(self.are_group_and_station(group, station) && flag < 2, OPERAND)?;
        let entry = self.entry(group, station);
        entry[MEMBER] = flag;
        leave_unless_joins(entry);
        Ok(Moved::Nothing)
    }

    #[inline(always)]
    fn set_route(&mut self, station: u8, destination: u8, next: u8) -> Result<Moved, Outcome> {
        demand(station < self.stations && destination < self.stations && station != destination, OPERAND)?;
        demand(next == NIL || self.are_neighbours(station, next), OPERAND)?;
        *self.route(station, destination) = next;
        Ok(Moved::Nothing)
    }
}
