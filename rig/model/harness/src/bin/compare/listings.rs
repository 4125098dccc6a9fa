//! What the bench program prints, held against the model byte by byte: the program is run once for each input.

use crate::Score;
use harness::damage::damage_plan;
use harness::make;
use harness::random::Random;
use rules::fresh::fresh;
use rules::layout::*;
use rules::listing;
use rules::plan::Plan;
use rules::step::Step;
use std::collections::BTreeMap;
use std::io::{self, Read, Write};
use std::process::{Command, Stdio};
use std::time::Duration;

/// An input, and how many bytes of it are written at a time.
struct Input {
    bytes: Vec<u8>,
    piece: usize,
}

struct Family {
    name: &'static str,
    number: u64,
    cases: usize,
    one: fn(&mut Random) -> Input,
}

const FAMILIES: &[Family] = &[
    Family { name: "listings", number: 101, cases: 400, one: |r| whole(valid(r)) },
    Family { name: "listings of damaged plans", number: 102, cases: 200, one: |r| whole(damaged(r)) },
    Family { name: "listings of short inputs", number: 103, cases: 100, one: |r| whole(short(r)) },
    Family { name: "listings at the longest script", number: 104, cases: 60, one: |r| whole(longest(r)) },
    Family { name: "listings beyond it", number: 105, cases: 80, one: |r| whole(beyond(r)) },
    Family { name: "listings by pieces", number: 106, cases: 40, one: by_pieces },
];

/// What must have come up in the answers, each so often.
const WANTED: &[&str] = &[
    "refused 9",
    "refused 11",
    "refused 12",
    "a listing",
    "two children",
    "three and more",
    "a parent",
    "a member",
    "a clock of two digits",
    "messages waiting",
    "messages lost",
    "steps refused",
    "adopted",
    "not-tentative",
    "unconnected",
    "not-greater",
    "replies of every case",
    "sixteen stations",
    "four groups",
    "a name of sixteen bytes",
];
const CASES: [&str; 4] = ["adopted", "not-tentative", "unconnected", "not-greater"];
const HITS_WANTED: u64 = 20;
const MOST_PRINTED: usize = 5;

pub fn compare(seed: u64, program: &[String], score: &mut Score) {
    let (mut hits, mut printed) = (BTreeMap::new(), 0);
    for family in FAMILIES {
        let mut random = Random::of_family(seed, family.number);
        let mut differences = 0;
        for case in 0..family.cases {
            let input = (family.one)(&mut random);
            let ours = listing::answer(&input.bytes);
            count_kinds(&ours, &mut hits);
            let theirs = run(program, &input);
            if !matches!(&theirs, Ok(text) if text == ours.as_bytes()) {
                differences += 1;
                printed += 1;
                if printed <= MOST_PRINTED {
                    println!(
                        "compare: DIFFERENCE in case {case} of {} (--seed {seed}): an input of {} bytes",
                        family.name,
                        input.bytes.len()
                    );
                    tell(&theirs, &ours);
                }
            }
        }
        match differences {
            0 => println!("compare: {} ok ({} cases)", family.name, family.cases),
            many => println!("compare: {} FAILED ({many} differences in {} cases)", family.name, family.cases),
        }
        score.count(differences == 0);
    }
    let seen = |kind: &str| hits.get(kind).copied().unwrap_or(0);
    let cells: Vec<String> = WANTED.iter().map(|kind| format!("{kind}: {}", seen(kind))).collect();
    let ok = WANTED.iter().all(|kind| seen(kind) >= HITS_WANTED);
    println!("compare: kinds of lines {} ({})", if ok { "ok" } else { "FAILED" }, cells.join(", "));
    score.count(ok);
}

/// Runs the program on an input. All that it prints comes after the end of the input and fits into a pipe, so that neither waits
/// for the other.
fn run(program: &[String], input: &Input) -> io::Result<Vec<u8>> {
    let mut child =
        Command::new(&program[0]).args(&program[1..]).stdin(Stdio::piped()).stdout(Stdio::piped()).spawn()?;
    let mut to = child.stdin.take().ok_or(io::ErrorKind::BrokenPipe)?;
    for piece in input.bytes.chunks(input.piece.max(1)) {
        to.write_all(piece)?;
        if piece.len() < input.bytes.len() {
            std::thread::sleep(Duration::from_micros(500));
        }
    }
    drop(to);
    let mut printed = Vec::new();
    child.stdout.take().ok_or(io::ErrorKind::BrokenPipe)?.read_to_end(&mut printed)?;
    match child.wait()?.success() {
        true => Ok(printed),
        false => Err(io::Error::new(io::ErrorKind::Other, "the program does not end well")),
    }
}

/// The first line in which they differ.
fn tell(theirs: &io::Result<Vec<u8>>, ours: &str) {
    match theirs {
        Err(error) => println!("  {error}"),
        Ok(bytes) => {
            let text = String::from_utf8_lossy(bytes);
            let (theirs, ours): (Vec<&str>, Vec<&str>) = (text.split('\n').collect(), ours.split('\n').collect());
            let line = (0..ours.len()).find(|&i| theirs.get(i) != ours.get(i)).unwrap_or(ours.len());
            let shown = |lines: &[&str]| lines.get(line).map_or("nothing".to_string(), |line| format!("{line:?}"));
            println!("  line {}: program {}, model {}", line + 1, shown(&theirs), shown(&ours));
        }
    }
}

/// Counts what kinds of lines an answer of the model has.
fn count_kinds(answer: &str, hits: &mut BTreeMap<&'static str, u64>) {
    let mut hit = |kind, holds| *hits.entry(kind).or_insert(0) += u64::from(holds);
    let head: Vec<&str> = answer.lines().take(2).flat_map(|line| line.split(' ')).collect();
    hit("a listing", head[0] == "run");
    for refusal in ["refused 9", "refused 11", "refused 12"] {
        hit(refusal, answer == format!("{refusal}\n"));
    }
    let count = |word: &str| head.iter().position(|it| *it == word).map_or(false, |at| head[at + 1] != "0");
    hit("steps refused", head[0] == "run" && count("refused"));
    hit("messages lost", count("lost"));
    hit("messages waiting", count("waiting"));
    CASES.into_iter().for_each(|case| hit(case, count(case)));
    hit("replies of every case", CASES.into_iter().all(count));
    hit("four groups", answer.contains("\ngroup 3 "));
    hit("sixteen stations", answer.contains("\n15 parent "));
    for line in answer.lines().skip(2) {
        let words: Vec<&str> = line.split(' ').collect();
        match words[..] {
            ["group", _, _, name, ..] => hit("a name of sixteen bytes", name.len() == 32),
            [_, "parent", parent, _, clock, _, member, _, children] => {
                hit("a parent", parent != "-");
                hit("a clock of two digits", clock.len() == 2);
                hit("a member", member == "1");
                hit("two children", children.split(',').count() == 2);
                hit("three and more", children.split(',').count() > 2);
            }
            _ => {}
        }
    }
}

// ---- the inputs

fn whole(bytes: Vec<u8>) -> Input {
    let piece = bytes.len();
    Input { bytes, piece }
}

/// A plan and a script of so many steps at least: routes to the roots first, so that trees come up.
fn input(random: &mut Random, plan: &Plan, count: usize) -> Vec<u8> {
    let mut net = fresh(plan.clone());
    let mut routed = net.clone();
    make::set_routes(&mut routed);
    let mut steps: Vec<Step> = Vec::new();
    for p in 0..plan.stations {
        for d in 0..plan.stations {
            if let Some(next) = routed.routes[p][d] {
                steps.push([9, p as u8, d as u8, next as u8]);
            }
        }
    }
    net.routes = routed.routes;
    steps.extend(make::steps(random, &mut net, count));
    [plan.encode(), steps.concat()].concat()
}

/// Any plan, but more often than others one of a full net.
fn plan(random: &mut Random) -> Plan {
    if random.chance(20) {
        make::plan_of(random, MOST_STATIONS, MOST_GROUPS)
    } else {
        make::plan(random)
    }
}

fn valid(random: &mut Random) -> Vec<u8> {
    let plan = plan(random);
    let count = random.pick(&[0, 1, 10, 100, 400, 1_000, 2_000]);
    input(random, &plan, count)
}

/// A damaged plan may still be one, for another net.
fn damaged(random: &mut Random) -> Vec<u8> {
    let plan = make::plan(random);
    let mut bytes = input(random, &plan, 20);
    damage_plan(random, &mut bytes[..PLAN_BYTES]);
    if random.chance(20) {
        bytes.pop();
    }
    bytes
}

fn short(random: &mut Random) -> Vec<u8> {
    let plan = make::plan(random);
    let mut bytes = input(random, &plan, 3);
    bytes.truncate(random.pick(&[0, 1, 4, 7, 8, 80, 110, 111, 112, 113, 114, 115, 116, 117]));
    bytes
}

/// The script goes round up to the length.
fn of_length(random: &mut Random, length: usize) -> Vec<u8> {
    let plan = make::plan(random);
    let mut bytes = input(random, &plan, 300);
    if random.chance(15) {
        damage_plan(random, &mut bytes[..PLAN_BYTES]);
    }
    while bytes.len() < length {
        bytes.extend_from_within(PLAN_BYTES..);
    }
    bytes.truncate(length);
    bytes
}

const LONGEST: usize = PLAN_BYTES + SCRIPT_BYTES_MOST;

fn longest(random: &mut Random) -> Vec<u8> {
    let length = LONGEST - 5 + random.below(12);
    of_length(random, length)
}

/// The program reads what is beyond by 4,096 bytes. Half of the lengths are a multiple of 4.
fn beyond(random: &mut Random) -> Vec<u8> {
    let near = 4_096 * random.pick(&[1, 2, 3, 20]) - 3 + random.below(7);
    let far = 1 + random.below(100_000);
    let more = if random.chance(50) { near } else { far };
    let length = LONGEST + if random.chance(50) { more - more % 4 + 4 } else { more };
    of_length(random, length)
}

fn by_pieces(random: &mut Random) -> Input {
    let bytes = match random.below(3) {
        0 => valid(random),
        1 => longest(random),
        _ => beyond(random),
    };
    let piece = 1 + bytes.len() / random.pick(&[2, 3, 7, 30]);
    Input { bytes, piece }
}
