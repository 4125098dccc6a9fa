//! The parts of a well-shaped net, lent one by one: then a change to one part leaves what was read of another good.

use super::shape::{masks, Masks};
use super::NetBytes;
use rules::layout::*;

pub type Entry = [u8; ENTRY_SIZE];
pub type Channel = [u8; CHANNEL_SIZE];

const ROUTES: usize = FIRST_ENTRY - FIRST_ROUTE;
const ENTRIES: usize = FIRST_CHANNEL - FIRST_ENTRY;
const CHANNELS: usize = NET_BYTES - FIRST_CHANNEL;

/// What no action changes is read once. The form is a matter of the type, so that no step asks for it.
pub struct View<'a, const SAVED: bool> {
    pub stations: u8,
    pub groups: u8,
    roots: [u8; MOST_GROUPS],
    masks: Masks,
    routes: &'a mut [u8; ROUTES],
    entries: &'a mut [u8; ENTRIES],
    channels: &'a mut [u8; CHANNELS],
}

/// The array of this length that stands there.
fn array<const N: usize>(bytes: &mut [u8], at: usize) -> &mut [u8; N] {
    (&mut bytes[at..at + N]).try_into().expect("a slice of N bytes")
}

impl<'a, const SAVED: bool> View<'a, SAVED> {
    /// The net is well shaped in this form.
    pub fn of(net: &'a mut NetBytes) -> Self {
        let masks = masks(net);
        let (front, channels) = net.split_at_mut(FIRST_CHANNEL);
        let (front, entries) = front.split_at_mut(FIRST_ENTRY);
        let (front, routes) = front.split_at_mut(FIRST_ROUTE);
        View {
            stations: front[STATIONS_AT],
            groups: front[GROUPS_AT],
            roots: std::array::from_fn(|k| front[root_at(k)]),
            masks,
            routes: array(routes, 0),
            entries: array(entries, 0),
            channels: array(channels, 0),
        }
    }

    /// Whether these are stations, and neighbours: a place that is no station's has an empty mask, and is in no mask.
    pub fn are_neighbours(&self, p: u8, q: u8) -> bool {
        p < 16 && q < 16 && self.masks[usize::from(p)] >> q & 1 == 1
    }
}

// Here numbers that were found in range are cut to it, so that the compiler knows it too, and no place is tested once
// more for being inside its part.
impl<const SAVED: bool> View<'_, SAVED> {
    pub fn root(&self, group: u8) -> u8 {
        self.roots[usize::from(group & 3)]
    }

    pub fn route(&mut self, station: u8, destination: u8) -> &mut u8 {
        &mut self.routes[usize::from(16 * (station & 15) + (destination & 15))]
    }

    pub fn entry(&mut self, group: u8, station: u8) -> &mut Entry {
        let form = if SAVED { Form::Saved } else { Form::Working };
        let at = entry_at(form, usize::from(group & 3), usize::from(station & 15));
        array(self.entries, at - FIRST_ENTRY)
    }

    pub fn channel(&mut self, from: u8, to: u8) -> &mut Channel {
        let at = channel_at(usize::from(from & 15), usize::from(to & 15));
        array(self.channels, at - FIRST_CHANNEL)
    }
}
