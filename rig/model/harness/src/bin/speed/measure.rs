//! Rounds in which the sides take turns, and what comes of their times.

use rules::layout::{NET_BYTES, TALLY_BYTES};

pub const ROUNDS: usize = 101;
const TURN_NANOS: f64 = 3_000_000.0;

/// The buffers that all sides work on, so that they stand in the same place for each.
pub struct Room {
    pub net: Vec<u8>,
    pub other: Vec<u8>,
    pub tally: Vec<u8>,
}

impl Room {
    pub fn new() -> Room {
        Room { net: vec![0; NET_BYTES], other: vec![0; NET_BYTES], tally: vec![0; TALLY_BYTES] }
    }
}

/// A side's turn of so many passes: the nanoseconds that its calls took, or why it ended.
pub type Turn<'a> = Box<dyn Fn(&mut Room, usize) -> Result<f64, String> + 'a>;

/// The nanoseconds of a call, for each side by the round, where a pass has so many calls.
pub fn rounds(calls: usize, turns: &[Turn]) -> Result<Vec<Vec<f64>>, String> {
    let mut room = Room::new();
    let mut passes = Vec::new();
    for turn in turns {
        passes.push(passes_in_a_turn(turn, &mut room)?);
    }
    let mut times = vec![Vec::with_capacity(ROUNDS); turns.len()];
    for round in 0..ROUNDS {
        for place in 0..turns.len() {
            // each begins as often as the others
            let side = (round + place) % turns.len();
            times[side].push(turns[side](&mut room, passes[side])? / (calls * passes[side]) as f64);
        }
    }
    Ok(times)
}

/// Warms up, and finds how many passes fill a turn.
fn passes_in_a_turn(turn: &Turn, room: &mut Room) -> Result<usize, String> {
    turn(room, 3)?;
    let one = turn(room, 5)? / 5.0;
    Ok(1 + (TURN_NANOS / one.max(1.0)) as usize)
}

/// The median, and the 10th and the 90th percentile.
pub struct Spread {
    pub low: f64,
    pub median: f64,
    pub high: f64,
}

pub fn spread(mut values: Vec<f64>) -> Spread {
    values.sort_by(f64::total_cmp);
    let at = |percent: usize| values[(values.len() - 1) * percent / 100];
    Spread { low: at(10), median: at(50), high: at(90) }
}

pub fn median(values: &[f64]) -> f64 {
    spread(values.to_vec()).median
}

/// Of the first to the second, by the round.
pub fn ratio(first: &[f64], second: &[f64]) -> Spread {
    spread(first.iter().zip(second).map(|(a, b)| a / b).collect())
}
