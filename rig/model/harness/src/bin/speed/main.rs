//! Measures the library, linked from the archive, beside Rust on the same machine in the same run: the model, which
//! decodes, steps and encodes, and `fast`, which works on the bytes. `speed` measures everything, `speed --runs` the
//! runs alone, in the saved form. Nothing is timed before all sides agree on it.

mod growth;
mod input;
mod library;
mod measure;
mod nets;
mod runs;
mod scripts;
mod sides;
mod single;
mod tell;

use std::io::Write;
use std::process::ExitCode;
use tell::{say, Done};

fn main() -> ExitCode {
    let words: Vec<String> = std::env::args().skip(1).collect();
    let done = match words.iter().map(String::as_str).collect::<Vec<_>>()[..] {
        [] => everything(),
        ["--runs"] => how_it_measures().and_then(|()| runs::saved()),
        _ => return ended(2, "usage: speed [--runs]"),
    };
    match done {
        Ok(()) => ExitCode::SUCCESS,
        Err(why) => ended(1, &why),
    }
}

/// Ends with this status, whether or not anyone can be told why.
fn ended(status: u8, why: &str) -> ExitCode {
    let _ = writeln!(std::io::stderr(), "speed: {why}");
    ExitCode::from(status)
}

fn everything() -> Done {
    how_it_measures()?;
    runs::saved()?;
    runs::working()?;
    single::well_shaped_test()?;
    single::one_step()?;
    single::conversion()?;
    growth::by_steps()?;
    growth::by_stations()?;
    growth::by_messages()
}

fn how_it_measures() -> Done {
    say(&format!(
        "nanoseconds of a call: the median of {} rounds, in which all sides take turns of 3 ms",
        measure::ROUNDS
    ))?;
    say("ratio: the library's time to the other's, the median of the rounds' ratios; behind it their 10th and 90th percentile")?;
    say("before each timed run the net is copied afresh from the same start and the tally cleared, for each side alike;")?;
    say("that is not timed, all sides work in the same buffers, and nothing else is cleared")?;
    say("model: decodes the net, steps and encodes it; in place: plain Rust on the bytes, which copies and allocates nothing")
}
