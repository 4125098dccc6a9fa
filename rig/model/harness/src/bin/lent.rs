//! Cases for runs and calls into lent records, and what must come of them: `lent SEED INPUT OUTPUT` writes two files, what
//! tests/lent.rattle reads and what it has to print. The form of a case is written down there.

use harness::make;
use harness::random::Random;
use rules::face;
use rules::layout::Form;
use rules::shape::encode;
use std::process::ExitCode;

/// The program lends a part of a list of so many entries.
const LIST_ENTRIES: usize = 20;

/// What is special about a case.
#[derive(Clone, Copy)]
enum Kind {
    Plain,
    Replies,
    NetLength(usize),
    NetDamaged,
    ScriptLength(usize),
    ListEntries(usize),
    StationPastTheLast,
}

/// Few enough for an interpreter.
const KINDS: [Kind; 10] = [
    Kind::Plain,
    Kind::Plain,
    Kind::Replies,
    Kind::NetLength(100),
    Kind::NetDamaged,
    Kind::ScriptLength(39),
    Kind::ScriptLength(16_388),
    Kind::ListEntries(0),
    Kind::ListEntries(17),
    Kind::StationPastTheLast,
];

fn main() -> ExitCode {
    let words: Vec<String> = std::env::args().skip(1).collect();
    let seed = words.first().and_then(|word| word.parse::<u32>().ok());
    let (seed, input, output) = match (seed, &words[..]) {
        (Some(seed), [_, input, output]) => (u64::from(seed), input, output),
        _ => {
            eprintln!("usage: lent SEED INPUT OUTPUT");
            return ExitCode::from(2);
        }
    };
    let mut random = Random::of_family(seed, 201);
    let (mut cases, mut lines) = (Vec::new(), String::new());
    for kind in KINDS {
        one(&mut random, kind, &mut cases, &mut lines);
    }
    match std::fs::write(input, cases).and_then(|()| std::fs::write(output, lines)) {
        Ok(()) => ExitCode::SUCCESS,
        Err(error) => {
            eprintln!("lent: {error}");
            ExitCode::FAILURE
        }
    }
}

fn one(random: &mut Random, kind: Kind, cases: &mut Vec<u8>, lines: &mut String) {
    let before = if let Kind::Replies = kind { make::answered(random) } else { make::treed(random) };
    let group = random.below(before.plan.groups.len());
    let mut station = random.below(before.plan.stations);
    let steps = if let Kind::Replies = kind { make::hearing_steps } else { make::steps };
    let mut script = steps(random, &mut before.clone(), 40).concat();
    let mut net = encode(Form::Saved, &before);
    let mut entries = 16;
    match kind {
        Kind::Plain | Kind::Replies => {}
        Kind::NetLength(length) => net.truncate(length),
        Kind::NetDamaged => net[4] = 2,
        Kind::ScriptLength(length) => script.resize(length, 0),
        Kind::ListEntries(number) => entries = number,
        Kind::StationPastTheLast => station = before.plan.stations,
    }
    cases.extend((net.len() as u16).to_be_bytes());
    cases.extend((script.len() as u16).to_be_bytes());
    cases.extend([group as u8, station as u8, entries as u8]);
    cases.extend(&net);
    cases.extend(&script);

    let mut tally = [0, 0, 0, 9].repeat(9);
    let outcome = face::run(&mut net, &script, &mut tally);
    let counts = tally.chunks_exact(4).map(|b| u32::from_be_bytes([b[0], b[1], b[2], b[3]]));
    put_line(lines, std::iter::once(outcome).chain(counts).chain([sum(&net)]));

    let mut list = vec![7; 3 * LIST_ENTRIES];
    let result = face::call(&net, group as u8, station as u8, &mut list[..3 * entries]);
    let told = [result & 255, result >> 8 & 255, result >> 16];
    put_line(lines, told.into_iter().chain(list.iter().map(|&byte| u32::from(byte))));
}

fn put_line(lines: &mut String, numbers: impl Iterator<Item = u32>) {
    lines.extend(numbers.map(|number| format!("{number} ")));
    lines.push('\n');
}

fn sum(bytes: &[u8]) -> u32 {
    bytes.iter().fold(0, |sum, &byte| (sum * 31 + u32::from(byte)) % 1_000_003)
}
