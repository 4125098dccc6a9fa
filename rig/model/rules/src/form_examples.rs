//! Examples of the two forms. Offsets are written out, so that they do not rest on `layout`.

use crate::examples::{line, LISTING, OTHER_TALLY_SIZES};
use crate::face;
use crate::fresh::fresh;
use crate::layout::*;
use crate::net::{Entry, Message, Net};
use crate::outcome::*;
use crate::plan::Stations;
use crate::shape::{decode, encode};
use crate::step::Step;

const NAMES: [&[u8]; 4] = [b"A", b"B", b"C", b"D"];

/// Sizes at which one of the two strides, both or neither matter.
const SIZES: [(usize, usize); 6] = [(1, 1), (1, 4), (16, 1), (16, 4), (3, 2), (4, 4)];

const OTHER_LENGTHS: [usize; 5] = [0, 1, 112, 15_727, 15_729];

/// A tag for each group and station: no two are the same, and none is that of the exchanged pair.
fn tag(group: usize, station: usize) -> u8 {
    (16 * group + station + 1) as u8
}

/// A net in which every entry has another clock, so that an entry in a wrong place shows.
fn tagged(stations: usize, groups: usize) -> Net {
    let mut net = fresh(line(stations, &NAMES[..groups]));
    for group in 0..groups {
        for station in 0..stations {
            net.entries[group][station].clock = u32::from(tag(group, station));
        }
    }
    net
}

/// The same with routes, a full entry and messages of both kinds.
fn busy() -> Net {
    let mut net = tagged(3, 2);
    net.routes[2][0] = Some(1);
    net.entries[1][2] = Entry {
        parent: Some(1),
        tentative: Some(1),
        member: true,
        clock: 0x0102_0304,
        children: Stations(0),
        waiting: Stations(2),
    };
    net.channels[2][1].push_back(Message::Request { group: 1 });
    net.channels[1][2].push_back(Message::Reply { group: 0, connected: true, clock: 7 });
    net
}

/// What a function that writes into `other` gives back and leaves there; the buffer held 9s before.
fn converted(function: fn(&[u8], &mut [u8]) -> u32, bytes: &[u8], length: usize) -> (u32, Vec<u8>) {
    let mut other = vec![9; length];
    let result = function(bytes, &mut other);
    assert!(result == 0 || other.iter().all(|&byte| byte == 9), "a refusal changes nothing");
    (result, other)
}

fn working(net: &Net) -> Vec<u8> {
    let (result, work) = converted(face::to_working, &encode(Form::Saved, net), NET_BYTES);
    assert_eq!(result, 0);
    work
}

/// The results of a tick, of a run of it and of the conversion, of a net that is no net in this form.
fn refused(form: Form, bytes: &[u8]) -> [u32; 3] {
    let (mut net, mut tally) = (bytes.to_vec(), [9; TALLY_BYTES]);
    let tick = [1, 0, 0, 0];
    let results = match form {
        Form::Saved => [
            face::step(&mut net, tick),
            face::run(&mut net, &tick, &mut tally),
            converted(face::to_working, bytes, NET_BYTES).0,
        ],
        Form::Working => [
            face::working_step(&mut net, tick),
            face::working_run(&mut net, &tick, &mut tally),
            converted(face::to_saved, bytes, NET_BYTES).0,
        ],
    };
    assert!(net == bytes && tally == [9; TALLY_BYTES], "a refusal changes nothing");
    results
}

#[test]
fn entries_stand_by_group_or_by_station() {
    for (stations, groups) in SIZES {
        let (saved, work) = (encode(Form::Saved, &tagged(stations, groups)), working(&tagged(stations, groups)));
        for group in 0..4 {
            for station in 0..16 {
                let used = group < groups && station < stations;
                let clock = if used { tag(group, station) } else { 0 };
                let nil = if used { 255 } else { 0 };
                let entry = [nil, nil, 0, 0, 0, 0, 0, clock, 0, 0, 0, 0];
                let (by_group, by_station) = (368 + 192 * group + 12 * station, 368 + 48 * station + 12 * group);
                assert_eq!(saved[by_group..by_group + 12], entry, "saved, group {group}, station {station}");
                assert_eq!(work[by_station..by_station + 12], entry, "working, group {group}, station {station}");
            }
        }
    }
}

#[test]
fn a_full_entry_moves_as_a_whole() {
    let (saved, work) = (encode(Form::Saved, &busy()), working(&busy()));
    let entry = [1, 1, 1, 0, 1, 2, 3, 4, 0, 0, 0, 2];
    assert_eq!(saved[584..596], entry);
    assert_eq!(work[476..488], entry);
}

#[test]
fn only_the_mark_and_the_entries_differ() {
    let (saved, work) = (encode(Form::Saved, &busy()), working(&busy()));
    assert_eq!((saved.len(), work.len()), (15_728, 15_728));
    assert_eq!((saved[7], work[7]), (0, 1));
    assert_eq!(saved[..7], work[..7]);
    assert_eq!(saved[8..368], work[8..368]);
    assert_eq!(saved[1136..], work[1136..]);
}

#[test]
fn there_and_back() {
    for (stations, groups) in SIZES {
        let net = tagged(stations, groups);
        let saved = encode(Form::Saved, &net);
        let work = working(&net);
        assert_eq!(decode(Form::Working, &work), Some(net));
        assert_eq!(converted(face::to_saved, &work, NET_BYTES), (0, saved));
    }
}

#[test]
fn a_conversion_tests_the_net_and_then_the_size() {
    let (saved, work) = (encode(Form::Saved, &busy()), working(&busy()));
    for length in OTHER_LENGTHS {
        assert_eq!(converted(face::to_working, &saved, length).0, u32::from(SIZE));
        assert_eq!(converted(face::to_saved, &work, length).0, u32::from(SIZE));
        assert_eq!(converted(face::to_working, &work, length).0, u32::from(NET_NOT_WELL_SHAPED));
        assert_eq!(converted(face::to_saved, &saved, length).0, u32::from(NET_NOT_WELL_SHAPED));
    }
}

#[test]
fn nets_of_other_lengths() {
    for form in [Form::Saved, Form::Working] {
        for length in OTHER_LENGTHS {
            let mut bytes = encode(form, &busy());
            bytes.resize(length, 0);
            assert_eq!(refused(form, &bytes), [1; 3]);
        }
    }
}

/// Even where the entries of both forms stand in the same places.
#[test]
fn neither_form_passes_for_the_other() {
    for net in [tagged(1, 1), tagged(16, 4), busy()] {
        let (saved, work) = (encode(Form::Saved, &net), working(&net));
        assert_eq!(refused(Form::Working, &saved), [1; 3]);
        assert_eq!(refused(Form::Saved, &work), [1; 3]);
        assert_eq!(face::find(&work, b"A"), 1);
        let mut list = [9; LIST_BYTES];
        assert_eq!(face::call(&work, 0, 0, &mut list), 1);
        assert_eq!(list, [9; LIST_BYTES]);
    }
}

#[test]
fn another_mark_is_that_of_no_form() {
    for form in [Form::Saved, Form::Working] {
        for mark in [2, 3, 128, 255] {
            let mut bytes = encode(form, &busy());
            bytes[7] = mark;
            assert_eq!((refused(Form::Saved, &bytes), refused(Form::Working, &bytes)), ([1; 3], [1; 3]));
            assert_eq!(face::find(&bytes, b"A"), 1);
        }
    }
}

/// The mark of one form over the entries of the other.
#[test]
fn the_mark_alone_does_not_make_the_form() {
    let (mut saved, mut work) = (encode(Form::Saved, &busy()), working(&busy()));
    (saved[7], work[7]) = (1, 0);
    assert_eq!((refused(Form::Saved, &saved), refused(Form::Working, &saved)), ([1; 3], [1; 3]));
    assert_eq!((refused(Form::Saved, &work), refused(Form::Working, &work)), ([1; 3], [1; 3]));
}

/// Each byte of the entries that, of three stations and two groups, the other form alone has in use.
#[test]
fn an_unused_entry_is_zero_where_the_other_form_has_one() {
    for (form, places) in [(Form::Working, [392, 560, 572, 584]), (Form::Saved, [416, 428, 464, 476])] {
        for at in places.into_iter().flat_map(|at| at..at + 12) {
            let mut bytes = encode(form, &tagged(3, 2));
            assert_eq!(bytes[at], 0);
            bytes[at] = 1;
            assert_eq!(refused(form, &bytes), [1; 3], "{form:?}, byte {at}");
        }
    }
}

/// The offsets at which a step, accepted, changes the net in the working form.
fn changed(net: &Net, one: Step) -> Vec<usize> {
    let before = working(net);
    let mut after = before.clone();
    assert_eq!(face::working_step(&mut after, one), 0, "step {one:?}");
    (0..NET_BYTES).filter(|&at| after[at] != before[at]).collect()
}

#[test]
fn a_step_writes_its_own_entry() {
    let mut net = tagged(3, 2);
    net.entries[1][1].member = true;
    net.routes[1][0] = Some(0);
    assert_eq!(changed(&net, [1, 1, 0, 0]), [368 + 12 + 7]);
    assert_eq!(changed(&net, [8, 1, 2, 1]), [368 + 96 + 12 + 2]);
    assert_eq!(changed(&net, [8, 0, 2, 1]), [368 + 96 + 2]);
    assert_eq!(changed(&net, [9, 2, 1, 1]), [112 + 32 + 1]);
    // ask: tentative parent, waiting, and the channel from 1 to 0
    let channel = 1136 + 912;
    let entry = 368 + 48 + 12;
    assert_eq!(changed(&net, [2, 1, 1, 0]), [entry + 1, entry + 11, channel, channel + 1, channel + 2]);
}

#[test]
fn a_step_has_the_same_outcome_in_both_forms() {
    let mut net = busy();
    net.entries[0][0].clock = u32::MAX;
    net.entries[1][1].member = true;
    net.routes[1][0] = Some(0);
    net.channels[1][0] = (0..8).map(|_| Message::Request { group: 0 }).collect();
    let rows: [(Step, Outcome); 10] = [
        ([0, 0, 0, 0], NO_SUCH_ACTION),
        ([10, 0, 0, 0], NO_SUCH_ACTION),
        ([1, 2, 0, 0], OPERAND),
        ([8, 1, 3, 1], OPERAND),
        ([3, 0, 2, 0], NOT_ENABLED),
        ([1, 0, 0, 0], CLOCK_FULL),
        ([2, 1, 1, 0], CHANNEL_FULL),
        ([1, 1, 0, 0], ACCEPTED),
        ([4, 1, 2, 0], ACCEPTED),
        ([7, 1, 1, 2], NOT_ENABLED),
    ];
    for (one, outcome) in rows {
        let (mut saved, mut work) = (encode(Form::Saved, &net), working(&net));
        // the one message delivered is a reply, and not from the tentative parent
        let result = u32::from(outcome) | if one[0] == 4 { 2 << 8 } else { 0 };
        assert_eq!(face::step(&mut saved, one), result, "step {one:?}");
        assert_eq!(face::working_step(&mut work, one), result, "step {one:?}");
        assert_eq!(converted(face::to_saved, &work, NET_BYTES), (0, saved));
    }
}

#[test]
fn the_listing_in_the_working_form() {
    let net = fresh(line(3, &[b"A"]));
    let (mut saved, mut work) = (encode(Form::Saved, &net), working(&net));
    let (mut tally, mut working_tally) = ([8; TALLY_BYTES], [9; TALLY_BYTES]);
    assert_eq!(face::run(&mut saved, &LISTING.concat(), &mut tally), 0);
    assert_eq!(face::working_run(&mut work, &LISTING.concat(), &mut working_tally), 0);
    assert_eq!(working_tally, tally);
    // stations 0, 1 and 2: one row each of 48 bytes
    assert_eq!(work[368..380], [255, 255, 0, 0, 0, 0, 0, 1, 0, 2, 0, 0]);
    assert_eq!(work[416..428], [0, 0, 0, 0, 0, 0, 0, 1, 0, 4, 0, 0]);
    assert_eq!(work[464..476], [1, 1, 1, 0, 0, 0, 0, 1, 0, 0, 0, 0]);
    assert_eq!(converted(face::to_saved, &work, NET_BYTES), (0, saved));
}

#[test]
fn scripts_of_every_kind_of_length_in_the_working_form() {
    let before = working(&busy());
    let result = |length: usize, size: usize| {
        let (mut work, mut tally) = (before.clone(), vec![9; size]);
        let result = face::working_run(&mut work, &vec![0; length], &mut tally);
        assert!(result == 0 || (work == before && tally.iter().all(|&byte| byte == 9)));
        (result, tally)
    };
    assert_eq!(result(0, 36), (0, vec![0; 36]));
    assert_eq!(result(3, 36).0, u32::from(SCRIPT_NOT_FOURS));
    assert_eq!(result(16_384, 36).1[4..8], [0, 0, 16, 0]);
    assert_eq!(result(16_387, 36).0, u32::from(SCRIPT_NOT_FOURS));
    assert_eq!(result(16_388, 36).0, u32::from(SCRIPT_TOO_LONG));
    for size in OTHER_TALLY_SIZES {
        assert_eq!(result(16_387, size).0, u32::from(SIZE));
    }
    let mut saved = encode(Form::Saved, &busy());
    assert_eq!(face::working_run(&mut saved, &[0; 3], &mut [9; 35]), u32::from(NET_NOT_WELL_SHAPED));
}
