//! How the time of a run grows: with its steps, with the stations, and with the messages in a channel.

use crate::input::{agree, turn, Given, Input};
use crate::measure::{median, ratio, rounds};
use crate::scripts::{each_channel, eight, mix, STEPS};
use crate::sides::WITHOUT_MODEL;
use crate::tell::{ratio_text, row, say, Done};
use rules::layout::{Form, MOST_STATIONS};

/// Shorter runs are pieces of the longest, so that all of them take the same steps together.
pub fn by_steps() -> Done {
    say("growth: the time of a run, and of a step of it once that of a run of no steps is taken off; the ratio is of steps")?;
    let inputs = eight(|random| mix(random, MOST_STATIONS));
    no_steps("mix, no steps", &inputs)?;
    for (steps, what) in [(256, "mix, 256 steps"), (1_024, "mix, 1,024 steps"), (STEPS, "mix, 4,096 steps")] {
        let pieces: Vec<Input> = inputs.iter().flat_map(|input| input.pieces(steps)).collect();
        grown(what, "a step", &pieces)?;
    }
    Ok(())
}

pub fn by_stations() -> Done {
    for stations in [2, 8, MOST_STATIONS] {
        let inputs = eight(|random| mix(random, stations));
        grown(&format!("mix, 4,096 steps, {stations} stations"), "a step", &inputs)?;
    }
    Ok(())
}

pub fn by_messages() -> Done {
    say("delivered and lost: one reply from each of the 240 channels of 16 stations, all joined; the channels hold so many")?;
    for (action, what, unit) in [(4, "delivered", "a delivery"), (5, "lost", "a loss")] {
        for count in [1, 2, 4, 8] {
            let inputs = eight(|random| each_channel(random, action, count));
            grown(&format!("{what}, the first of {count}"), unit, &inputs)?;
        }
    }
    Ok(())
}

fn no_steps(what: &str, inputs: &[Input]) -> Done {
    let none: Vec<_> = inputs.iter().map(|input| Given::new(Form::Saved, input).without_steps()).collect();
    agree(what, &WITHOUT_MODEL, &none)?;
    let turns: Vec<_> = WITHOUT_MODEL.iter().map(|side| turn(side, &none)).collect();
    row(what, &WITHOUT_MODEL, &rounds(none.len(), &turns)?)
}

/// On each side the runs take turns with runs of no steps. The scripts are of one length.
fn grown(what: &str, unit: &str, inputs: &[Input]) -> Done {
    let all: Vec<_> = inputs.iter().map(|input| Given::new(Form::Saved, input)).collect();
    let none: Vec<_> = all.iter().map(Given::without_steps).collect();
    agree(what, &WITHOUT_MODEL, &none)?;
    agree(what, &WITHOUT_MODEL, &all)?;
    let turns: Vec<_> = WITHOUT_MODEL.iter().flat_map(|side| [turn(side, &none), turn(side, &all)]).collect();
    let times = rounds(inputs.len(), &turns)?;
    let steps = (inputs[0].script.len() / 4) as f64;
    let each = |side: usize| -> Vec<f64> {
        times[2 * side + 1].iter().zip(&times[2 * side]).map(|(all, none)| (all - none) / steps).collect()
    };
    let mut line = format!("{what:<30}");
    for (place, side) in WITHOUT_MODEL.iter().enumerate() {
        let (all, one) = (median(&times[2 * place + 1]), median(&each(place)));
        line += &format!("   {} {all:>7.0}  {one:>5.1} {unit:<10}", side.name);
    }
    say(&format!("{line}   {}", ratio_text(&ratio(&each(0), &each(1)))))
}
