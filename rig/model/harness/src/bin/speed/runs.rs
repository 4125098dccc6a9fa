//! Runs of 4,096 steps, by the kind of the script.

use crate::input::{agree, turn, Given, Input};
use crate::measure::rounds;
use crate::scripts::{self, eight};
use crate::sides::ALL;
use crate::tell::{row, say, Done};
use rules::layout::{Form, MOST_STATIONS};
use rules::step::{step, Moved};

/// All kinds, in the saved form.
pub fn saved() -> Done {
    say("runs of 4,096 steps, 16 stations: of each kind eight scripts in turn, each on its own net; one if predictable")?;
    measured("mix as in use", Form::Saved, &mix())?;
    measured("deliveries and asks", Form::Saved, &eight(scripts::talk))?;
    measured("mostly refused", Form::Saved, &eight(scripts::refused))?;
    measured("all channels busy", Form::Saved, &eight(scripts::busy))?;
    measured("predictable: three steps", Form::Saved, &[scripts::rounds()])?;
    measured("predictable: ticks alone", Form::Saved, &[scripts::ticks()])
}

pub fn working() -> Done {
    measured("mix as in use, working form", Form::Working, &mix())
}

fn mix() -> Vec<Input> {
    eight(|random| scripts::mix(random, MOST_STATIONS))
}

fn measured(what: &str, form: Form, inputs: &[Input]) -> Done {
    let given: Vec<_> = inputs.iter().map(|input| Given::new(form, input)).collect();
    agree(what, &ALL, &given)?;
    let turns: Vec<_> = ALL.iter().map(|side| turn(side, &given)).collect();
    row(what, &ALL, &rounds(given.len(), &turns)?)?;
    let mut did = Did::default();
    inputs.iter().for_each(|input| did.add(input));
    did.tell(inputs.len())
}

/// What scripts do.
#[derive(Default)]
struct Did {
    accepted: usize,
    /// By the outcome.
    refused: [usize; 7],
    sent: u32,
    delivered: u32,
    lost: u32,
    heard: usize,
    /// Messages in the channels.
    before: usize,
    after: usize,
}

impl Did {
    fn add(&mut self, input: &Input) {
        let mut net = input.net.clone();
        self.before += net.waiting_messages();
        for one in input.script.chunks_exact(4) {
            match step(&mut net, [one[0], one[1], one[2], one[3]]) {
                Ok(moved) => self.add_accepted(moved),
                Err(outcome) => self.refused[usize::from(outcome)] += 1,
            }
        }
        self.after += net.waiting_messages();
    }

    fn add_accepted(&mut self, moved: Moved) {
        self.accepted += 1;
        self.sent += moved.sent;
        self.delivered += moved.delivered;
        self.lost += moved.lost;
        self.heard += usize::from(moved.case.is_some());
    }

    /// The means of so many scripts.
    fn tell(&self, scripts: usize) -> Done {
        let mean = |sum: usize| (sum + scripts / 2) / scripts;
        let [accepted, heard, before, after] = [self.accepted, self.heard, self.before, self.after].map(mean);
        let [sent, delivered, lost] = [self.sent, self.delivered, self.lost].map(|sum| mean(sum as usize));
        let refused = mean(self.refused.iter().sum());
        let met = (0..self.refused.len()).filter(|&outcome| self.refused[outcome] > 0);
        let reasons: Vec<String> = met.map(|outcome| format!("{outcome}: {}", mean(self.refused[outcome]))).collect();
        let reasons = if refused == 0 { String::new() } else { format!(" ({})", reasons.join(", ")) };
        say(&format!(
            "  accepted {accepted}, refused {refused}{reasons}, sent {sent}, delivered {delivered}, lost {lost}, \
             heard {heard}; messages {before} to {after}"
        ))
    }
}
