//! Damages nets and plans against one sentence of "well shaped" at a time.

use crate::random::Random;
use rules::layout::*;
use rules::plan::{read_stations, write_stations, Plan};

/// A way to break one sentence of "well shaped". `make` breaks well-shaped bytes with this plan, in either form, if
/// they give it the chance to.
pub struct Breach {
    pub sentence: &'static str,
    /// Whether it can be done to a plan, too.
    pub of_plan: bool,
    pub make: fn(&mut Random, &Plan, &mut [u8]) -> bool,
}

pub const BREACHES: &[Breach] = &[
    Breach { sentence: "length", of_plan: true, make: length },
    Breach { sentence: "version", of_plan: true, make: |r, _, b| change(r, b, 4) },
    Breach { sentence: "byte 7 of the head", of_plan: true, make: |r, _, b| change(r, b, MARK_AT) },
    Breach { sentence: "n in range", of_plan: true, make: |r, _, b| set(b, STATIONS_AT, out_of(r, 1, 16)) },
    Breach { sentence: "g in range", of_plan: true, make: |r, _, b| set(b, GROUPS_AT, out_of(r, 1, 4)) },
    Breach { sentence: "name length 1 to 16", of_plan: true, make: name_length },
    Breach { sentence: "padding zero", of_plan: true, make: padding },
    Breach { sentence: "names distinct", of_plan: true, make: same_name },
    Breach { sentence: "root below n", of_plan: true, make: root },
    Breach { sentence: "masks below n", of_plan: true, make: mask_past_the_last },
    Breach { sentence: "neighbours symmetric", of_plan: true, make: one_way_cable },
    Breach { sentence: "no station neighbours itself", of_plan: true, make: own_neighbour },
    Breach { sentence: "unused group zero", of_plan: true, make: unused_group },
    Breach { sentence: "unused mask zero", of_plan: true, make: unused_mask },
    Breach { sentence: "route nil or neighbour", of_plan: false, make: route },
    Breach { sentence: "route to itself nil", of_plan: false, make: route_to_itself },
    Breach { sentence: "parent nil or neighbour", of_plan: false, make: |r, p, b| parent(r, p, b, 0) },
    Breach { sentence: "tentative nil or neighbour", of_plan: false, make: |r, p, b| parent(r, p, b, 1) },
    Breach { sentence: "root's parent nil", of_plan: false, make: |r, p, b| roots_parent(r, p, b, 0) },
    Breach { sentence: "root's tentative nil", of_plan: false, make: |r, p, b| roots_parent(r, p, b, 1) },
    Breach { sentence: "member 0 or 1", of_plan: false, make: member },
    Breach { sentence: "zero byte of an entry", of_plan: false, make: entry_zero },
    Breach { sentence: "children within neighbours", of_plan: false, make: |r, p, b| mask_of_entry(r, p, b, 8) },
    Breach { sentence: "waiting within neighbours", of_plan: false, make: |r, p, b| mask_of_entry(r, p, b, 10) },
    Breach { sentence: "channel holds at most 8", of_plan: false, make: overfull },
    Breach { sentence: "no channel but between neighbours", of_plan: false, make: channel_without_cable },
    Breach { sentence: "kind 1 or 2", of_plan: false, make: kind },
    Breach { sentence: "message group below g", of_plan: false, make: message_group },
    Breach { sentence: "connected 0 or 1", of_plan: false, make: connected },
    Breach { sentence: "request not connected", of_plan: false, make: connected_request },
    Breach { sentence: "request without clock", of_plan: false, make: request_with_clock },
    Breach { sentence: "unused route zero", of_plan: false, make: unused_route },
    Breach { sentence: "unused entry of a group zero", of_plan: false, make: unused_entry_of_group },
    Breach { sentence: "unused entry of a station zero", of_plan: false, make: unused_entry_of_station },
    Breach {
        sentence: "unused entry zero in the place of another form's",
        of_plan: false,
        make: entry_of_other_form,
    },
    Breach { sentence: "channel past the last station zero", of_plan: false, make: unused_channel },
    Breach { sentence: "channel without cable zero", of_plan: false, make: channel_without_cable_filled },
    Breach { sentence: "unused message zero", of_plan: false, make: unused_message },
];

fn set(bytes: &mut [u8], at: usize, value: u8) -> bool {
    bytes[at] = value;
    true
}

/// Sets another value than the byte has.
fn change(random: &mut Random, bytes: &mut [u8], at: usize) -> bool {
    let by = random.pick(&[1, 2, 128, 255]);
    set(bytes, at, bytes[at].wrapping_add(by))
}

/// A value that is not zero; 255, which is nil elsewhere, more often than others.
fn not_zero(random: &mut Random) -> u8 {
    random.pick(&[1, 2, 16, 128, 255, 255])
}

fn out_of(random: &mut Random, first: u8, last: u8) -> u8 {
    random.pick(&[first - 1, last + 1, last + 2, 128, 255])
}

fn a_station(random: &mut Random, plan: &Plan) -> usize {
    random.below(plan.stations)
}

fn a_group(random: &mut Random, plan: &Plan) -> usize {
    random.below(plan.groups.len())
}

/// Before they are broken, the bytes have the mark of their form.
fn form_of(bytes: &[u8]) -> Form {
    if bytes[MARK_AT] == mark(Form::Working) {
        Form::Working
    } else {
        Form::Saved
    }
}

fn an_entry(random: &mut Random, plan: &Plan, bytes: &[u8]) -> usize {
    entry_at(form_of(bytes), a_group(random, plan), a_station(random, plan))
}

fn unused_station(random: &mut Random, plan: &Plan) -> Option<usize> {
    let unused: Vec<usize> = (plan.stations..MOST_STATIONS).collect();
    random.pick_any(&unused)
}

/// A byte that is neither nil nor a neighbour of the station: often a station, often the next number.
fn no_neighbour(random: &mut Random, plan: &Plan, station: usize) -> u8 {
    let strangers: Vec<u8> = (0..NIL).filter(|&b| !plan.neighbours[station].has(usize::from(b))).collect();
    match random.below(2) {
        0 => random.pick(&strangers),
        _ => strangers[random.below(strangers.len().min(4))],
    }
}

fn length(random: &mut Random, _: &Plan, bytes: &mut [u8]) -> bool {
    let at = random.below(4);
    change(random, bytes, at)
}

fn name_length(random: &mut Random, plan: &Plan, bytes: &mut [u8]) -> bool {
    let at = group_at(a_group(random, plan));
    set(bytes, at, out_of(random, 1, 16))
}

fn padding(random: &mut Random, plan: &Plan, bytes: &mut [u8]) -> bool {
    let group = a_group(random, plan);
    let used = plan.groups[group].name.len();
    let free: Vec<usize> = (used..NAME_BYTES).collect();
    random.pick_any(&free).map_or(false, |byte| set(bytes, group_at(group) + 1 + byte, not_zero(random)))
}

fn same_name(random: &mut Random, plan: &Plan, bytes: &mut [u8]) -> bool {
    let (one, other) = (a_group(random, plan), a_group(random, plan));
    bytes.copy_within(group_at(one)..root_at(one), group_at(other));
    one != other
}

fn root(random: &mut Random, plan: &Plan, bytes: &mut [u8]) -> bool {
    let at = root_at(a_group(random, plan));
    set(bytes, at, random.pick(&[plan.stations as u8, 16, 255]))
}

fn flip_cable(bytes: &mut [u8], station: usize, other: usize) -> bool {
    let mut mask = read_stations(&bytes[mask_at(station)..]);
    mask.0 ^= 1 << other;
    write_stations(mask, &mut bytes[mask_at(station)..]);
    true
}

fn mask_past_the_last(random: &mut Random, plan: &Plan, bytes: &mut [u8]) -> bool {
    let station = a_station(random, plan);
    unused_station(random, plan).map_or(false, |other| flip_cable(bytes, station, other))
}

fn one_way_cable(random: &mut Random, plan: &Plan, bytes: &mut [u8]) -> bool {
    let (p, q) = (a_station(random, plan), a_station(random, plan));
    p != q && flip_cable(bytes, p, q)
}

fn own_neighbour(random: &mut Random, plan: &Plan, bytes: &mut [u8]) -> bool {
    let station = a_station(random, plan);
    flip_cable(bytes, station, station)
}

fn unused_group(random: &mut Random, plan: &Plan, bytes: &mut [u8]) -> bool {
    let unused: Vec<usize> = (plan.groups.len()..MOST_GROUPS).collect();
    let byte = random.below(GROUP_SIZE);
    random.pick_any(&unused).map_or(false, |group| set(bytes, group_at(group) + byte, not_zero(random)))
}

fn unused_mask(random: &mut Random, plan: &Plan, bytes: &mut [u8]) -> bool {
    let other = random.below(MOST_STATIONS);
    unused_station(random, plan).map_or(false, |station| {
        // in half of the cases the cable is there from both ends
        if random.chance(50) && other != station {
            flip_cable(bytes, other, station);
        }
        flip_cable(bytes, station, other)
    })
}

fn route(random: &mut Random, plan: &Plan, bytes: &mut [u8]) -> bool {
    let (p, d) = (a_station(random, plan), a_station(random, plan));
    p != d && set(bytes, route_at(p, d), no_neighbour(random, plan, p))
}

fn route_to_itself(random: &mut Random, plan: &Plan, bytes: &mut [u8]) -> bool {
    let p = a_station(random, plan);
    let neighbours: Vec<usize> = plan.neighbours[p].each().collect();
    random.pick_any(&neighbours).map_or(false, |next| set(bytes, route_at(p, p), next as u8))
}

fn parent(random: &mut Random, plan: &Plan, bytes: &mut [u8], byte: usize) -> bool {
    let (group, station) = (a_group(random, plan), a_station(random, plan));
    let at = entry_at(form_of(bytes), group, station) + byte;
    set(bytes, at, no_neighbour(random, plan, station))
}

fn roots_parent(random: &mut Random, plan: &Plan, bytes: &mut [u8], byte: usize) -> bool {
    let group = a_group(random, plan);
    let root = plan.groups[group].root;
    let neighbours: Vec<usize> = plan.neighbours[root].each().collect();
    let at = entry_at(form_of(bytes), group, root) + byte;
    random.pick_any(&neighbours).map_or(false, |next| set(bytes, at, next as u8))
}

fn member(random: &mut Random, plan: &Plan, bytes: &mut [u8]) -> bool {
    let at = an_entry(random, plan, bytes) + 2;
    set(bytes, at, random.pick(&[2, 3, 128, 255]))
}

fn entry_zero(random: &mut Random, plan: &Plan, bytes: &mut [u8]) -> bool {
    let at = an_entry(random, plan, bytes) + 3;
    set(bytes, at, not_zero(random))
}

fn mask_of_entry(random: &mut Random, plan: &Plan, bytes: &mut [u8], byte: usize) -> bool {
    let (group, station) = (a_group(random, plan), a_station(random, plan));
    let strangers: Vec<usize> = (0..MOST_STATIONS).filter(|&q| !plan.neighbours[station].has(q)).collect();
    let at = entry_at(form_of(bytes), group, station) + byte;
    let mut mask = read_stations(&bytes[at..]);
    mask.add(random.pick(&strangers));
    write_stations(mask, &mut bytes[at..]);
    true
}

/// A channel between neighbours, and the count in it.
fn cabled_channel(random: &mut Random, plan: &Plan, bytes: &[u8]) -> Option<(usize, usize, usize)> {
    let p = a_station(random, plan);
    let neighbours: Vec<usize> = plan.neighbours[p].each().collect();
    random.pick_any(&neighbours).map(|q| (p, q, usize::from(bytes[channel_at(p, q)])))
}

/// Where a message in use stands that is of this kind, or of any if the kind is 0.
fn message_in_use(random: &mut Random, plan: &Plan, bytes: &[u8], kind: u8) -> Option<usize> {
    let (p, q, count) = cabled_channel(random, plan, bytes)?;
    let places: Vec<usize> = (0..count).map(|i| message_at(p, q, i)).collect();
    random.pick_any(&places).filter(|&at| kind == 0 || bytes[at] == kind)
}

fn write_request(bytes: &mut [u8], at: usize, group: usize) {
    bytes[at..at + MESSAGE_SIZE].copy_from_slice(&[1, group as u8, 0, 0, 0, 0, 0]);
}

/// All 8 places hold a message, and the count says more.
fn overfull(random: &mut Random, plan: &Plan, bytes: &mut [u8]) -> bool {
    let (p, q, count) = match cabled_channel(random, plan, bytes) {
        Some(found) => found,
        None => return false,
    };
    for i in count..CHANNEL_HOLDS {
        write_request(bytes, message_at(p, q, i), a_group(random, plan));
    }
    set(bytes, channel_at(p, q), random.pick(&[9, 9, 10, 16, 255]))
}

fn uncabled(random: &mut Random, plan: &Plan) -> Option<(usize, usize)> {
    let (p, q) = (a_station(random, plan), a_station(random, plan));
    (!plan.are_neighbours(p, q)).then_some((p, q))
}

fn channel_without_cable(random: &mut Random, plan: &Plan, bytes: &mut [u8]) -> bool {
    let (p, q) = match uncabled(random, plan) {
        Some(found) => found,
        None => return false,
    };
    write_request(bytes, message_at(p, q, 0), a_group(random, plan));
    set(bytes, channel_at(p, q), 1)
}

fn channel_without_cable_filled(random: &mut Random, plan: &Plan, bytes: &mut [u8]) -> bool {
    let (p, q) = match uncabled(random, plan) {
        Some(found) => found,
        None => return false,
    };
    let byte = random.below(CHANNEL_SIZE - 1);
    set(bytes, message_at(p, q, 0) + byte, not_zero(random))
}

fn kind(random: &mut Random, plan: &Plan, bytes: &mut [u8]) -> bool {
    let value = out_of(random, 1, 2);
    message_in_use(random, plan, bytes, 0).map_or(false, |at| set(bytes, at, value))
}

fn message_group(random: &mut Random, plan: &Plan, bytes: &mut [u8]) -> bool {
    let value = random.pick(&[plan.groups.len() as u8, 4, 255]);
    message_in_use(random, plan, bytes, 0).map_or(false, |at| set(bytes, at + 1, value))
}

fn connected(random: &mut Random, plan: &Plan, bytes: &mut [u8]) -> bool {
    let value = random.pick(&[2, 3, 128, 255]);
    message_in_use(random, plan, bytes, 2).map_or(false, |at| set(bytes, at + 2, value))
}

fn connected_request(random: &mut Random, plan: &Plan, bytes: &mut [u8]) -> bool {
    message_in_use(random, plan, bytes, 1).map_or(false, |at| set(bytes, at + 2, 1))
}

fn request_with_clock(random: &mut Random, plan: &Plan, bytes: &mut [u8]) -> bool {
    let byte = 3 + random.below(4);
    message_in_use(random, plan, bytes, 1).map_or(false, |at| set(bytes, at + byte, not_zero(random)))
}

/// A station past the last with any other, either way round.
fn unused_pair(random: &mut Random, plan: &Plan) -> Option<(usize, usize)> {
    let other = random.below(MOST_STATIONS);
    let unused = unused_station(random, plan)?;
    Some(if random.chance(50) { (unused, other) } else { (other, unused) })
}

fn unused_route(random: &mut Random, plan: &Plan, bytes: &mut [u8]) -> bool {
    unused_pair(random, plan).map_or(false, |(p, d)| set(bytes, route_at(p, d), not_zero(random)))
}

fn unused_channel(random: &mut Random, plan: &Plan, bytes: &mut [u8]) -> bool {
    let byte = random.pick(&[0, 1, 2, 3, 4, 5, 6, 7, 8, 50, 55, 56]);
    unused_pair(random, plan).map_or(false, |(p, q)| set(bytes, channel_at(p, q) + byte, not_zero(random)))
}

fn unused_entry_of_group(random: &mut Random, plan: &Plan, bytes: &mut [u8]) -> bool {
    let unused: Vec<usize> = (plan.groups.len()..MOST_GROUPS).collect();
    let (form, station, byte) = (form_of(bytes), random.below(MOST_STATIONS), random.below(ENTRY_SIZE));
    random
        .pick_any(&unused)
        .map_or(false, |group| set(bytes, entry_at(form, group, station) + byte, not_zero(random)))
}

fn unused_entry_of_station(random: &mut Random, plan: &Plan, bytes: &mut [u8]) -> bool {
    let (form, group, byte) = (form_of(bytes), random.below(MOST_GROUPS), random.below(ENTRY_SIZE));
    unused_station(random, plan).map_or(false, |p| set(bytes, entry_at(form, group, p) + byte, not_zero(random)))
}

/// Where the entries in use stand in this form.
fn entries_in_use(form: Form, plan: &Plan) -> Vec<usize> {
    let groups = 0..plan.groups.len();
    groups.flat_map(|k| (0..plan.stations).map(move |p| entry_at(form, k, p))).collect()
}

fn entry_of_other_form(random: &mut Random, plan: &Plan, bytes: &mut [u8]) -> bool {
    let form = form_of(bytes);
    let in_use = entries_in_use(form, plan);
    let mut places = entries_in_use(form.other(), plan);
    places.retain(|at| !in_use.contains(at));
    let byte = random.below(ENTRY_SIZE);
    random.pick_any(&places).map_or(false, |at| set(bytes, at + byte, not_zero(random)))
}

fn unused_message(random: &mut Random, plan: &Plan, bytes: &mut [u8]) -> bool {
    let (p, q, count) = match cabled_channel(random, plan, bytes) {
        Some(found) => found,
        None => return false,
    };
    let places: Vec<usize> = (message_at(p, q, count)..message_at(p, q, CHANNEL_HOLDS)).collect();
    random.pick_any(&places).map_or(false, |at| set(bytes, at, not_zero(random)))
}

#[cfg(test)]
mod tests {
    use super::*;
    use crate::make;
    use rules::shape;

    #[test]
    fn every_sentence_is_broken_in_either_form() {
        let mut random = Random::new(5);
        for form in [Form::Saved, Form::Working] {
            for breach in BREACHES {
                let mut hits = 0;
                for _ in 0..300 {
                    let net = make::shaped(&mut random);
                    let mut bytes = shape::encode(form, &net);
                    if (breach.make)(&mut random, &net.plan, &mut bytes) {
                        assert!(shape::decode(form, &bytes).is_none(), "{form:?}: {}", breach.sentence);
                        hits += 1;
                    }
                }
                assert!(hits > 20, "{form:?}: {}: {hits}", breach.sentence);
            }
        }
    }
}
