//! The cases of replies that came up, by steps and by runs in each form: all of them, and all kinds of replies. And how
//! often an answer would have been another if the library had a slip.

use crate::outcomes::{name_in, HITS_WANTED};
use harness::replies::{hear, kinds, Heard, Kind};
use harness::slips::SLIPS;
use rules::layout::Form;
use rules::net::Net;
use rules::reply::Case;
use std::collections::BTreeMap;

const FUNCTIONS: [(&str, Form); 4] =
    [("step", Form::Saved), ("step", Form::Working), ("run", Form::Saved), ("run", Form::Working)];

/// How often one function told each case, met each kind of reply, and would have shown each slip, by the model.
#[derive(Default)]
struct Hits {
    cases: [u64; 5],
    kinds: BTreeMap<Kind, u64>,
    slips: [u64; SLIPS.len()],
}

#[derive(Default)]
pub struct Cases {
    hits: [Hits; FUNCTIONS.len()],
}

impl Cases {
    /// The case is that of the step's result.
    pub fn hit_step(&mut self, form: Form, heard: Heard, case: u32) {
        let hits = self.hits_of("step", form);
        hits.cases[case as usize] += 1;
        hits.hit_kinds(heard, case);
        for (slip, times) in SLIPS.iter().zip(&mut hits.slips) {
            *times += u64::from(slip.told(&heard, case) != case);
        }
    }

    /// A run that was accepted. A case counts once for each tally that has it.
    pub fn hit_run(&mut self, form: Form, mut net: Net, script: &[u8]) {
        let hits = self.hits_of("run", form);
        // by case, 0 included: it stands in no tally
        let (mut right, mut slipped) = ([0; 5], [[0; 5]; SLIPS.len()]);
        for bytes in script.chunks_exact(4) {
            let (answer, heard) = hear(&mut net, [bytes[0], bytes[1], bytes[2], bytes[3]]);
            let case = answer.ok().and_then(|moved| moved.case).map_or(0, Case::number);
            right[case as usize] += 1;
            hits.hit_kinds(heard, case);
            for (slip, counts) in SLIPS.iter().zip(&mut slipped) {
                counts[slip.told(&heard, case) as usize] += 1;
            }
        }
        for (times, count) in hits.cases.iter_mut().zip(right) {
            *times += u64::from(count > 0);
        }
        for (times, counts) in hits.slips.iter_mut().zip(slipped) {
            *times += u64::from(counts[1..] != right[1..]);
        }
    }

    fn hits_of(&mut self, name: &str, form: Form) -> &mut Hits {
        let at = FUNCTIONS.iter().position(|&function| function == (name, form));
        &mut self.hits[at.expect("a function that tells cases")]
    }

    /// Prints the table of cases; true if each was told often enough.
    pub fn tell(&self) -> bool {
        let mut ok = true;
        for ((name, form), hits) in FUNCTIONS.iter().zip(&self.hits) {
            let cells: Vec<String> = (1..=4).map(|case| format!("{case}: {}", hits.cases[case])).collect();
            println!("compare: cases of {:27} {}", name_in(*form, name), cells.join("  "));
            ok &= hits.cases[1..].iter().all(|&times| times >= HITS_WANTED);
        }
        println!("compare: cases {}", if ok { "ok" } else { "FAILED" });
        ok
    }

    /// True if each kind of reply was met often enough by each function.
    pub fn tell_kinds(&self) -> bool {
        let times = |hits: &Hits, kind: &Kind| hits.kinds.get(kind).copied().unwrap_or(0);
        self.often_enough("kinds of replies", |hits| {
            kinds().iter().map(|kind| (format!("{kind:?}"), times(hits, kind))).collect()
        })
    }

    /// True if each slip would have shown often enough in each function.
    pub fn tell_slips(&self) -> bool {
        self.often_enough("slips that would have shown", |hits| {
            SLIPS.iter().zip(hits.slips).map(|(slip, times)| (slip.name.to_string(), times)).collect()
        })
    }

    fn often_enough(&self, what: &str, counted: impl Fn(&Hits) -> Vec<(String, u64)>) -> bool {
        let (mut least, mut rows) = (u64::MAX, 0);
        for ((name, form), hits) in FUNCTIONS.iter().zip(&self.hits) {
            let counted = counted(hits);
            rows = counted.len();
            for (row, times) in counted {
                least = least.min(times);
                if times < HITS_WANTED {
                    println!("compare: too few of {}: {row} ({times} times)", name_in(*form, name));
                }
            }
        }
        let verdict = if least >= HITS_WANTED { "ok" } else { "FAILED" };
        println!(
            "compare: {what} {verdict} ({rows} in each of {} functions, each at least {least} times)",
            FUNCTIONS.len()
        );
        least >= HITS_WANTED
    }
}

impl Hits {
    fn hit_kinds(&mut self, heard: Heard, case: u32) {
        if let Heard::Reply(reply) = heard {
            for kind in reply.kinds(case) {
                *self.kinds.entry(kind).or_insert(0) += 1;
            }
        }
    }
}
