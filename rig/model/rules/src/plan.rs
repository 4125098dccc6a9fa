//! A plan: the groups and the cables. It is the first part of a net, too.

use crate::layout::*;

/// A set of stations.
#[derive(Clone, Copy, Debug, Default, PartialEq, Eq)]
pub struct Stations(pub u16);

impl Stations {
    pub fn has(self, station: usize) -> bool {
        station < MOST_STATIONS && self.0 >> station & 1 == 1
    }

    pub fn add(&mut self, station: usize) {
        self.0 |= 1 << station;
    }

    pub fn remove(&mut self, station: usize) {
        self.0 &= !(1 << station);
    }

    pub fn is_empty(self) -> bool {
        self.0 == 0
    }

    pub fn within(self, other: Stations) -> bool {
        self.0 & !other.0 == 0
    }

    /// The stations of the set, lowest first.
    pub fn each(self) -> impl Iterator<Item = usize> {
        (0..MOST_STATIONS).filter(move |&station| self.has(station))
    }
}

#[derive(Clone, Debug, PartialEq, Eq)]
pub struct Group {
    pub name: Vec<u8>,
    pub root: usize,
}

#[derive(Clone, Debug, PartialEq, Eq)]
pub struct Plan {
    pub stations: usize,
    pub groups: Vec<Group>,
    /// By station.
    pub neighbours: Vec<Stations>,
}

impl Plan {
    /// The plan of these bytes, if they are 112 and well shaped.
    pub fn decode(bytes: &[u8]) -> Option<Plan> {
        if bytes.len() != PLAN_BYTES {
            return None;
        }
        let plan = Plan::read(bytes)?;
        // What is written back has the one right length, version, padding and zeros in all unused places.
        (plan.encode() == bytes).then_some(plan)
    }

    pub fn encode(&self) -> Vec<u8> {
        let mut bytes = vec![0; PLAN_BYTES];
        self.write(&mut bytes);
        bytes
    }

    /// Reads the places in use at the front of a plan or a net, and holds them to the rules.
    /// Whether length, version, byte 7, padding and unused places are as they must be is left to the caller.
    pub fn read(bytes: &[u8]) -> Option<Plan> {
        let stations = usize::from(bytes[STATIONS_AT]);
        let groups = usize::from(bytes[GROUPS_AT]);
        if !(1..=MOST_STATIONS).contains(&stations) || !(1..=MOST_GROUPS).contains(&groups) {
            return None;
        }
        let plan = Plan {
            stations,
            groups: (0..groups).map(|k| Group::read(&bytes[group_at(k)..])).collect::<Option<_>>()?,
            neighbours: (0..stations).map(|p| read_stations(&bytes[mask_at(p)..])).collect(),
        };
        (plan.roots_are_stations() && plan.names_are_distinct() && plan.cables_are_sound()).then_some(plan)
    }

    /// Writes the front of a plan or a net into bytes that are all zero; their number is the length written. Byte 7
    /// stays zero.
    pub fn write(&self, bytes: &mut [u8]) {
        let length = bytes.len() as u32;
        bytes[..4].copy_from_slice(&length.to_be_bytes());
        bytes[4] = 1;
        bytes[STATIONS_AT] = self.stations as u8;
        bytes[GROUPS_AT] = self.groups.len() as u8;
        for (k, group) in self.groups.iter().enumerate() {
            group.write(&mut bytes[group_at(k)..]);
        }
        for (p, neighbours) in self.neighbours.iter().enumerate() {
            write_stations(*neighbours, &mut bytes[mask_at(p)..]);
        }
    }

    pub fn is_station(&self, number: usize) -> bool {
        number < self.stations
    }

    pub fn are_neighbours(&self, p: usize, q: usize) -> bool {
        self.is_station(p) && self.neighbours[p].has(q)
    }

    fn roots_are_stations(&self) -> bool {
        self.groups.iter().all(|group| self.is_station(group.root))
    }

    fn names_are_distinct(&self) -> bool {
        (0..self.groups.len()).all(|k| (0..k).all(|j| self.groups[j].name != self.groups[k].name))
    }

    /// Cables join stations below n, both ways, and no station to itself.
    fn cables_are_sound(&self) -> bool {
        (0..self.stations)
            .all(|p| self.neighbours[p].each().all(|q| q != p && self.is_station(q) && self.neighbours[q].has(p)))
    }
}

impl Group {
    fn read(bytes: &[u8]) -> Option<Group> {
        let length = usize::from(bytes[0]);
        if !(1..=NAME_BYTES).contains(&length) {
            return None;
        }
        Some(Group { name: bytes[1..1 + length].to_vec(), root: usize::from(bytes[1 + NAME_BYTES]) })
    }

    fn write(&self, bytes: &mut [u8]) {
        bytes[0] = self.name.len() as u8;
        bytes[1..1 + self.name.len()].copy_from_slice(&self.name);
        bytes[1 + NAME_BYTES] = self.root as u8;
    }
}

pub fn read_stations(bytes: &[u8]) -> Stations {
    Stations(u16::from_be_bytes([bytes[0], bytes[1]]))
}

pub fn write_stations(stations: Stations, bytes: &mut [u8]) {
    bytes[..2].copy_from_slice(&stations.0.to_be_bytes());
}
