//! Holds the library and the bench program against the model: `compare SEED DRIVER.. -- PROGRAM..` runs the driver, which
//! serves the library, and the program by these words. Each family of cases is one test; a seed always has the same
//! cases. The last line is `N passed, M failed`.

mod cases;
mod families;
mod forms;
mod functions;
mod listings;
mod outcomes;
mod replies;

use std::process::ExitCode;

/// How many tests passed and failed.
#[derive(Default)]
pub struct Score {
    passed: u32,
    failed: u32,
}

impl Score {
    pub fn count(&mut self, ok: bool) {
        if ok {
            self.passed += 1;
        } else {
            self.failed += 1;
        }
    }
}

/// The seed, the driver's words and the program's.
fn asked(words: &[String]) -> Option<(u64, &[String], &[String])> {
    let seed: u32 = words.first()?.parse().ok()?;
    let between = words.iter().position(|word| word == "--")?;
    let (driver, program) = (&words[1..between], &words[between + 1..]);
    (!driver.is_empty() && !program.is_empty()).then_some((u64::from(seed), driver, program))
}

fn main() -> ExitCode {
    let words: Vec<String> = std::env::args().skip(1).collect();
    let (seed, driver, program) = match asked(&words) {
        Some(found) => found,
        None => {
            eprintln!("usage: compare SEED DRIVER.. -- PROGRAM..   (a seed is a number below 2^32)");
            return ExitCode::from(2);
        }
    };
    let mut score = Score::default();
    println!("compare: seed {seed}");
    functions::compare(seed, driver, &mut score);
    listings::compare(seed, program, &mut score);
    println!("{} passed, {} failed", score.passed, score.failed);
    ExitCode::from(u8::from(score.failed > 0))
}
