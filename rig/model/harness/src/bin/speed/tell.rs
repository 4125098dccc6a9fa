//! What is printed, a line as soon as it is known.

use crate::measure::{median, ratio, Spread};
use crate::sides::Side;
use std::io::Write;

/// Why it ended before its end, if it did.
pub type Done = Result<(), String>;

pub fn say(line: &str) -> Done {
    let mut out = std::io::stdout();
    writeln!(out, "speed: {line}")
        .and_then(|()| out.flush())
        .map_err(|error| format!("standard output cannot be written: {error}"))
}

pub fn ratio_text(ratio: &Spread) -> String {
    format!("ratio {:>5.2} ({:.2}-{:.2})", ratio.median, ratio.low, ratio.high)
}

/// The times of the sides, the library's first, and its ratio to each of the others.
pub fn row(what: &str, sides: &[Side], times: &[Vec<f64>]) -> Done {
    let mut line = format!("{what:<30}");
    for (place, (side, time)) in sides.iter().zip(times).enumerate() {
        line += &format!("   {} {:>7.0}", side.name, median(time));
        if place > 0 {
            line += &format!("  {}", ratio_text(&ratio(&times[0], time)));
        }
    }
    say(&line)
}
