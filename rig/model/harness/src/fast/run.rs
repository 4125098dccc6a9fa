//! One step and a run on the bytes, after one test of the net.

use super::actions::Moved;
use super::view::View;
use super::{well_shaped, NetBytes};
use rules::layout::*;
use rules::outcome::*;
use rules::reply::Case;
use rules::step::Step;

/// The outcome, and above it the case of the reply that was delivered: as of the model's `face::step` or
/// `face::working_step`.
pub fn step(form: Form, bytes: &mut [u8], one: Step) -> u32 {
    match try_step(form, bytes, one) {
        Ok(Moved::Heard(case)) => case.number() << 8 | u32::from(ACCEPTED),
        Ok(_) => u32::from(ACCEPTED),
        Err(refusal) => u32::from(refusal),
    }
}

/// The outcome, as of the model's `face::run` or `face::working_run`.
pub fn run(form: Form, bytes: &mut [u8], script: &[u8], tally: &mut [u8]) -> u32 {
    u32::from(try_run(form, bytes, script, tally).err().unwrap_or(ACCEPTED))
}

fn try_step(form: Form, bytes: &mut [u8], one: Step) -> Result<Moved, Outcome> {
    let net = tested(form, bytes)?;
    match form {
        Form::Saved => View::<true>::of(net).step(one),
        Form::Working => View::<false>::of(net).step(one),
    }
}

fn try_run(form: Form, bytes: &mut [u8], script: &[u8], tally: &mut [u8]) -> Result<(), Outcome> {
    let net = tested(form, bytes)?;
    demand(tally.len() == TALLY_BYTES, SIZE)?;
    demand(script.len() % 4 == 0, SCRIPT_NOT_FOURS)?;
    demand(script.len() <= SCRIPT_BYTES_MOST, SCRIPT_TOO_LONG)?;
    let counts = match form {
        Form::Saved => View::<true>::of(net).run(script),
        Form::Working => View::<false>::of(net).run(script),
    };
    counts.write(tally);
    Ok(())
}

fn tested(form: Form, bytes: &mut [u8]) -> Result<&mut NetBytes, Outcome> {
    demand(well_shaped(form, bytes), NET_NOT_WELL_SHAPED)?;
    bytes.try_into().map_err(|_| NET_NOT_WELL_SHAPED)
}

#[derive(Default)]
struct Counts {
    accepted: u32,
    refused: u32,
    sent: u32,
    delivered: u32,
    lost: u32,
    adopted: u32,
    not_tentative: u32,
    unconnected: u32,
    not_greater: u32,
}

impl Counts {
    #[inline(always)]
    fn add(&mut self, moved: Moved) {
        self.accepted += 1;
        match moved {
            Moved::Nothing => {}
            Moved::Sent => self.sent += 1,
            Moved::Answered => {
                self.sent += 1;
                self.delivered += 1;
            }
            Moved::Lost => self.lost += 1,
            Moved::Heard(case) => {
                self.delivered += 1;
                *self.of(case) += 1;
            }
        }
    }

    #[inline(always)]
    fn of(&mut self, case: Case) -> &mut u32 {
        match case {
            Case::Adopted => &mut self.adopted,
            Case::NotTentative => &mut self.not_tentative,
            Case::Unconnected => &mut self.unconnected,
            Case::NotGreater => &mut self.not_greater,
        }
    }

    fn write(&self, tally: &mut [u8]) {
        let moved = [self.accepted, self.refused, self.sent, self.delivered, self.lost];
        let replies = [self.adopted, self.not_tentative, self.unconnected, self.not_greater];
        for (place, count) in tally.chunks_exact_mut(4).zip(moved.iter().chain(&replies)) {
            place.copy_from_slice(&count.to_be_bytes());
        }
    }
}

impl<const SAVED: bool> View<'_, SAVED> {
    // the loop by itself comes out faster than inside the functions above
    #[inline(never)]
    fn run(&mut self, script: &[u8]) -> Counts {
        let mut counts = Counts::default();
        for one in script.chunks_exact(4) {
            match self.step([one[0], one[1], one[2], one[3]]) {
                Ok(moved) => counts.add(moved),
                Err(_) => counts.refused += 1,
            }
        }
        counts
    }
}
