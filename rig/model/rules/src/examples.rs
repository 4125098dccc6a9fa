//! The examples of the requirements, and the listing.

use crate::call::{flood, reach_list, Flood};
use crate::face;
use crate::layout::*;
use crate::listing;
use crate::net::{Message, Net};
use crate::outcome::*;
use crate::plan::{Group, Plan, Stations};
use crate::shape::{decode, encode};
use crate::step::{step, Step};

/// Stations in a line, one group for each name, all with root 0.
pub fn line(stations: usize, names: &[&[u8]]) -> Plan {
    let mut neighbours = vec![Stations::default(); stations];
    for p in 1..stations {
        neighbours[p].add(p - 1);
        neighbours[p - 1].add(p);
    }
    let groups = names.iter().map(|name| Group { name: name.to_vec(), root: 0 }).collect();
    Plan { stations, groups, neighbours }
}

fn fresh_line(stations: usize) -> Net {
    crate::fresh::fresh(line(stations, &[b"A"]))
}

fn outcome(net: &mut Net, one: Step) -> Outcome {
    let before = net.clone();
    match step(net, one) {
        Ok(_) => ACCEPTED,
        Err(refusal) => {
            assert_eq!(*net, before, "a refusal changes nothing");
            refusal
        }
    }
}

fn take_all(net: &mut Net, steps: &[Step]) {
    for &one in steps {
        assert_eq!(outcome(net, one), ACCEPTED, "step {one:?}");
    }
}

/// 20 was the size before the replies were counted by their cases.
pub const OTHER_TALLY_SIZES: [usize; 7] = [0, 1, 20, 35, 37, 40, 72];

pub const LISTING: [Step; 13] = [
    [9, 2, 0, 1],
    [9, 1, 0, 0],
    [1, 0, 0, 0],
    [8, 0, 2, 1],
    [2, 0, 2, 0],
    [4, 2, 1, 0],
    [4, 1, 2, 0],
    [2, 0, 1, 0],
    [4, 1, 0, 0],
    [4, 0, 1, 0],
    [2, 0, 2, 0],
    [4, 2, 1, 0],
    [4, 1, 2, 0],
];

#[test]
fn the_listing() {
    let mut bytes = vec![0; NET_BYTES];
    assert_eq!(face::fresh(&line(3, &[b"A"]).encode(), &mut bytes), 0);
    let mut tally = vec![9; TALLY_BYTES];
    assert_eq!(face::run(&mut bytes, &LISTING.concat(), &mut tally), 0);
    let counts = [13, 0, 6, 6, 0, 2, 0, 1, 0];
    assert_eq!(tally, counts.map(|count| [0, 0, 0, count]).concat());
    let net = decode(Form::Saved, &bytes).unwrap();
    assert_eq!(net.waiting_messages(), 0);
    let lines: Vec<_> = net.entries[0].iter().map(|e| (e.parent, e.clock, e.member, e.children.0)).collect();
    assert_eq!(lines, [(None, 1, false, 2), (Some(0), 1, false, 4), (Some(1), 1, true, 0)]);
    let mut list = vec![7; LIST_BYTES];
    assert_eq!(face::call(&bytes, 0, 2, &mut list), 3 << 8 | 2 << 16);
    assert_eq!(list[..12], [0, 255, 0, 1, 0, 1, 2, 1, 2, 255, 255, 255]);
}

#[test]
fn the_lines_of_the_listing() {
    let wanted = "\
run accepted 13 refused 0 sent 6 delivered 6 lost 0 waiting 0
replies adopted 2 not-tentative 0 unconnected 1 not-greater 0
group 0 name 41 root 0
0 parent - clock 1 member 0 children 1
1 parent 0 clock 1 member 0 children 2
2 parent 1 clock 1 member 1 children -
";
    let input = [line(3, &[b"A"]).encode(), LISTING.concat()].concat();
    assert_eq!(listing::answer(&input), wanted);
    assert_eq!(listing::answer(&input[..111]), "refused 9\n");
    assert_eq!(listing::answer(&input[..163]), "refused 11\n");
    assert_eq!(listing::answer(&[&input[..], &[0; 16_384]].concat()), "refused 12\n");
    assert_eq!(listing::answer(&[&input[..], &[0; 16_383]].concat()), "refused 11\n");
}

#[test]
fn children_are_split_by_commas() {
    let mut plan = line(4, &[b"A", b"\x00\xffz"]);
    plan.groups[1].root = 1;
    // stations 0 and 2 both ask 1 in the second group, which then lists them
    let steps: [Step; 6] = [[8, 1, 0, 1], [9, 0, 1, 1], [2, 1, 0, 0], [4, 0, 1, 0], [8, 1, 2, 1], [9, 2, 1, 1]];
    let more: [Step; 2] = [[2, 1, 2, 0], [4, 2, 1, 0]];
    let answer = listing::answer(&[plan.encode(), steps.concat(), more.concat()].concat());
    let lines: Vec<&str> = answer.lines().collect();
    assert_eq!(lines[0], "run accepted 8 refused 0 sent 4 delivered 2 lost 0 waiting 2");
    assert_eq!(lines[1], "replies adopted 0 not-tentative 0 unconnected 0 not-greater 0");
    assert_eq!(lines[7], "group 1 name 00ff7a root 1");
    assert_eq!(lines[9], "1 parent - clock 0 member 0 children 0,2");
}

#[test]
fn a_root_never_ticked_is_not_adopted() {
    let mut net = fresh_line(2);
    take_all(&mut net, &[[9, 1, 0, 0], [8, 0, 1, 1], [2, 0, 1, 0], [4, 1, 0, 0]]);
    assert_eq!(net.channels[0][1][0], Message::Reply { group: 0, connected: true, clock: 0 });
    take_all(&mut net, &[[4, 0, 1, 0]]);
    assert_eq!(net.entries[0][1].parent, None);
    assert!(net.entries[0][1].waiting.is_empty());
}

#[test]
fn the_clock_ends_at_its_top() {
    let mut net = fresh_line(1);
    net.entries[0][0].clock = 4_294_967_294;
    assert_eq!(outcome(&mut net, [1, 0, 0, 0]), ACCEPTED);
    assert_eq!(outcome(&mut net, [1, 0, 0, 0]), CLOCK_FULL);
}

#[test]
fn a_child_is_not_dropped_while_a_reply_is_on_its_way() {
    let mut net = fresh_line(3);
    take_all(&mut net, &[[9, 2, 0, 1], [8, 0, 2, 1], [2, 0, 2, 0], [4, 2, 1, 0]]);
    assert_eq!(outcome(&mut net, [7, 0, 1, 2]), NOT_ENABLED);
    take_all(&mut net, &[[5, 1, 2, 0]]);
    let mut other = net.clone();
    assert_eq!(outcome(&mut net, [7, 0, 1, 2]), ACCEPTED);
    // not while a request of its own is under way, nor while it is the parent
    take_all(&mut other, &[[6, 0, 2, 1], [2, 0, 2, 0]]);
    assert_eq!(outcome(&mut other, [7, 0, 1, 2]), NOT_ENABLED);
    take_all(&mut other, &[[5, 2, 1, 0]]);
    other.entries[0][2].parent = Some(1);
    assert_eq!(outcome(&mut other, [7, 0, 1, 2]), NOT_ENABLED);
}

#[test]
fn sister_names_find_themselves() {
    let bytes = encode(Form::Saved, &crate::fresh::fresh(line(2, &[b"H21", b"H210"])));
    assert_eq!(face::find(&bytes, b"H21"), 0);
    assert_eq!(face::find(&bytes, b"H210"), 1 << 8);
    for name in [&b"H2"[..], b"", b"H2100", b"H21\0", &[b'H'; 17]] {
        assert_eq!(face::find(&bytes, name), u32::from(NO_SUCH_GROUP));
    }
}

#[test]
fn scripts_of_every_kind_of_length() {
    let bytes = encode(Form::Saved, &fresh_line(2));
    let result = |length: usize, size: usize| {
        let (mut net, mut tally) = (bytes.clone(), vec![9; size]);
        let result = face::run(&mut net, &vec![0; length], &mut tally);
        assert!(result == 0 || tally.iter().all(|&byte| byte == 9));
        (result, tally)
    };
    assert_eq!(result(0, 36), (0, vec![0; 36]));
    assert_eq!(result(3, 36).0, 11);
    assert_eq!(result(16_384, 36).0, 0);
    assert_eq!(result(16_384, 36).1[4..8], [0, 0, 16, 0]);
    assert_eq!(result(16_387, 36).0, 11);
    assert_eq!(result(16_388, 36).0, 12);
    for size in OTHER_TALLY_SIZES {
        assert_eq!(result(16_387, size).0, 10);
    }
}

#[test]
fn asking_at_the_root_and_past_the_last_station() {
    let mut net = fresh_line(3);
    take_all(&mut net, &[[8, 0, 0, 1]]);
    assert_eq!(outcome(&mut net, [2, 0, 0, 0]), NOT_ENABLED);
    assert_eq!(outcome(&mut net, [2, 0, 3, 0]), OPERAND);
}

#[test]
fn a_sole_station_calls() {
    let bytes = encode(Form::Saved, &fresh_line(1));
    let mut list = vec![0; LIST_BYTES];
    assert_eq!(face::call(&bytes, 0, 0, &mut list), 1 << 8);
    assert_eq!(list[..6], [0, 255, 0, 255, 255, 255]);
}

#[test]
fn membership_off_with_and_without_a_child() {
    let mut net = fresh_line(3);
    let entry = &mut net.entries[0][1];
    (entry.parent, entry.tentative, entry.member) = (Some(0), Some(0), true);
    entry.waiting.add(0);
    entry.clock = 5;
    let mut with_child = net.clone();
    with_child.entries[0][1].children.add(2);
    take_all(&mut with_child, &[[8, 0, 1, 0]]);
    assert_eq!(with_child.entries[0][1].parent, Some(0));
    take_all(&mut net, &[[8, 0, 1, 0]]);
    let left = &net.entries[0][1];
    assert_eq!((left.parent, left.tentative, left.clock, left.waiting), (None, None, 5, Stations(1)));
}

#[test]
fn a_call_goes_round_the_agreed_tree_only() {
    let mut net = fresh_line(5);
    for p in 1..5 {
        net.entries[0][p].parent = Some(p - 1);
        net.entries[0][p - 1].children.add(p);
    }
    assert_eq!(flood(&net, 0, 2), Flood { reached: 5, copies: 4 });
    net.entries[0][2].children.remove(3);
    assert_eq!(flood(&net, 0, 0), Flood { reached: 3, copies: 2 });
    assert_eq!(reach_list(&net, 0).len(), 3);
    let bytes = encode(Form::Saved, &net);
    let mut list = vec![0; LIST_BYTES];
    assert_eq!(face::call(&bytes, 0, 4, &mut list), u32::from(NOT_ON_THE_TREE));
    assert_eq!(face::call(&bytes, 0, 4, &mut list[..47]), u32::from(SIZE));
    assert_eq!(face::call(&bytes, 0, 5, &mut list[..47]), u32::from(OPERAND));
    assert_eq!(list, vec![0; LIST_BYTES]);
}

#[test]
fn messages_of_other_groups_keep_their_order() {
    let mut net = crate::fresh::fresh(line(2, &[b"A", b"B"]));
    net.channels[0][1].extend([
        Message::Request { group: 1 },
        Message::Reply { group: 0, connected: true, clock: 3 },
        Message::Request { group: 0 },
    ]);
    take_all(&mut net, &[[5, 0, 1, 1]]);
    assert_eq!(net.channels[0][1], [Message::Request { group: 1 }, Message::Request { group: 0 }]);
    assert_eq!(outcome(&mut net, [5, 0, 1, 2]), NOT_ENABLED);
    assert_eq!(outcome(&mut net, [5, 0, 1, 8]), OPERAND);
    let bytes = encode(Form::Saved, &net);
    assert!(bytes[message_at(0, 1, 2)..channel_at(0, 2)].iter().all(|&byte| byte == 0));
}
