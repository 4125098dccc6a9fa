//! The functions of the archive, as `rig/kepalumbi.h` declares them, over slices.

use rules::layout::Form;
use rules::step::Step;

extern "C" {
    fn kep_step(net: *mut u8, net_len: usize, action: u8, a: u8, b: u8, c: u8) -> u32;
    fn kep_run(
        net: *mut u8,
        net_len: usize,
        script: *const u8,
        script_len: usize,
        tally: *mut u8,
        tally_len: usize,
    ) -> u32;
    fn kep_to_working(net: *const u8, net_len: usize, work: *mut u8, work_len: usize) -> u32;
    fn kep_to_saved(work: *const u8, work_len: usize, net: *mut u8, net_len: usize) -> u32;
    fn kep_working_step(work: *mut u8, work_len: usize, action: u8, a: u8, b: u8, c: u8) -> u32;
    fn kep_working_run(
        work: *mut u8,
        work_len: usize,
        script: *const u8,
        script_len: usize,
        tally: *mut u8,
        tally_len: usize,
    ) -> u32;
}

pub fn step(form: Form, net: &mut [u8], one: Step) -> u32 {
    let step = if form == Form::Saved { kep_step } else { kep_working_step };
    // the pointer is to as many bytes as said, and lent for this call alone
    unsafe { step(net.as_mut_ptr(), net.len(), one[0], one[1], one[2], one[3]) }
}

pub fn run(form: Form, net: &mut [u8], script: &[u8], tally: &mut [u8]) -> u32 {
    let run = if form == Form::Saved { kep_run } else { kep_working_run };
    // as above, and the three do not overlap
    unsafe { run(net.as_mut_ptr(), net.len(), script.as_ptr(), script.len(), tally.as_mut_ptr(), tally.len()) }
}

pub fn convert(from: Form, net: &[u8], other: &mut [u8]) -> u32 {
    let convert = if from == Form::Saved { kep_to_working } else { kep_to_saved };
    // as above, and the two do not overlap
    unsafe { convert(net.as_ptr(), net.len(), other.as_mut_ptr(), other.len()) }
}
