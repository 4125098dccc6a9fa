//! The library, served by the driver, held against the model: each function, called as the families have it.

use crate::cases::Cases;
use crate::families::FAMILIES;
use crate::outcomes::{conversion, name_in, Outcomes, HITS_WANTED};
use crate::Score;
use harness::breaches::BREACHES;
use harness::parts::part_at;
use harness::random::Random;
use harness::replies::{hear, Heard};
use harness::served::{lent_as, Answer, Driver, Lent};
use rules::layout::{Form, NET_BYTES, TALLY_BYTES};
use rules::net::Net;
use rules::shape::{decode, encode};
use rules::step::Step;
use rules::{face, step};
use std::collections::BTreeMap;
use std::io;

/// So many differences are printed in all, so many differing bytes in one.
const MOST_PRINTED: usize = 5;
const MOST_BYTES_PRINTED: usize = 4;

/// What the output of a conversion holds before.
const STALE: [u8; NET_BYTES] = [165; NET_BYTES];

pub fn compare(seed: u64, driver: &[String], score: &mut Score) {
    match Compare::start(seed, driver) {
        Ok(compare) => compare.all(score),
        Err(error) => {
            println!("compare: the driver does not start: {error}");
            score.count(false);
        }
    }
}

/// A family of cases. Its number makes its own seed of the one that was asked for.
pub struct Family {
    pub name: &'static str,
    pub number: u64,
    pub cases: usize,
    pub one: fn(&mut Compare) -> io::Result<()>,
}

pub struct Compare {
    driver: Driver,
    pub random: Random,
    /// The seed asked for; the family, the case in it, and the calls compared in it.
    seed: u64,
    family: &'static str,
    case: usize,
    calls: u64,
    /// Differences in the family, and all that were printed.
    pub differences: u64,
    printed: usize,
    outcomes: Outcomes,
    cases: Cases,
    /// How often each sentence of "well shaped" was broken in a net, in each form.
    pub broken: BTreeMap<String, u64>,
}

impl Compare {
    fn start(seed: u64, command: &[String]) -> io::Result<Compare> {
        Ok(Compare {
            driver: Driver::start(command)?,
            random: Random::new(0),
            seed,
            family: "",
            case: 0,
            calls: 0,
            differences: 0,
            printed: 0,
            outcomes: Outcomes::default(),
            cases: Cases::default(),
            broken: sentences().map(|sentence| (sentence, 0)).collect(),
        })
    }

    fn all(mut self, score: &mut Score) {
        let mut calls = 0;
        for family in FAMILIES {
            score.count(self.family(family));
            calls += self.calls;
        }
        score.count(self.outcomes.tell());
        score.count(self.cases.tell());
        score.count(self.cases.tell_kinds());
        score.count(self.cases.tell_slips());
        score.count(self.sentences());
        score.count(self.ends_well());
        println!("compare: {calls} calls compared");
    }

    fn family(&mut self, family: &Family) -> bool {
        self.random = Random::of_family(self.seed, family.number);
        self.family = family.name;
        self.calls = 0;
        self.differences = 0;
        for case in 0..family.cases {
            self.case = case;
            if let Err(error) = (family.one)(self) {
                println!("compare: the driver fails in case {case} of {}: {error}", family.name);
                self.differences += 1;
                break;
            }
        }
        match self.differences {
            0 => println!("compare: {} ok ({} cases)", family.name, self.calls),
            many => println!("compare: {} FAILED ({many} differences in {} cases)", family.name, self.calls),
        }
        self.differences == 0
    }

    /// True if each sentence was broken often enough.
    fn sentences(&self) -> bool {
        let least = self.broken.values().copied().min().unwrap_or(0);
        let ok = least >= HITS_WANTED;
        let verdict = if ok { "ok" } else { "FAILED" };
        println!("compare: sentences broken {verdict} ({}, each at least {least} times)", self.broken.len());
        ok
    }

    fn ends_well(self) -> bool {
        let ok = self.driver.end().unwrap_or(false);
        println!("compare: driver {}", if ok { "ok" } else { "FAILED" });
        ok
    }

    // ---- one call of each function, held to the model

    pub fn fresh(&mut self, plan: &[u8], net: &[u8]) -> io::Result<()> {
        let theirs = self.driver.fresh(plan, net)?;
        let mut after = net.to_vec();
        let result = face::fresh(plan, &mut after);
        let words = || format!("fresh of a plan of {} bytes, net of {}", plan.len(), net.len());
        self.hold(Some("fresh"), words, theirs, Answer::of(vec![result], vec![("net", after)]));
        Ok(())
    }

    pub fn step(&mut self, form: Form, net: &[u8], one: Step) -> io::Result<()> {
        let theirs = self.driver.steps(form, net, &[one])?;
        let mut after = net.to_vec();
        let result = match form {
            Form::Saved => face::step(&mut after, one),
            Form::Working => face::working_step(&mut after, one),
        };
        let heard = decode(form, net).map_or(Heard::Refusal, |mut net| hear(&mut net, one).1);
        self.hit_step(form, one, heard, result);
        let words = || format!("{} {one:?} of a net of {} bytes", name_in(form, "step"), net.len());
        self.hold(None, words, theirs, Answer::of(vec![result], vec![(lent_as(form), after)]));
        Ok(())
    }

    /// Many steps on one net. If they differ, they are taken again one by one, to find the first that does.
    pub fn steps(&mut self, form: Form, before: &Net, steps: &[Step]) -> io::Result<()> {
        let mut net = before.clone();
        let mut results = Vec::new();
        for &one in steps {
            let (answer, heard) = hear(&mut net, one);
            let result = face::step_number(answer);
            self.hit_step(form, one, heard, result);
            results.push(result);
        }
        self.calls += steps.len() as u64;
        let theirs = self.driver.steps(form, &encode(form, before), steps)?;
        let ours = Answer::of(results, vec![(lent_as(form), encode(form, &net))]);
        if theirs == ours || self.step_that_differs(form, before, steps)? {
            return Ok(());
        }
        self.hold(None, || format!("{} times {} on one net", steps.len(), name_in(form, "step")), theirs, ours);
        Ok(())
    }

    fn step_that_differs(&mut self, form: Form, before: &Net, steps: &[Step]) -> io::Result<bool> {
        let mut net = before.clone();
        for &one in steps {
            let differences = self.differences;
            self.step(form, &encode(form, &net), one)?;
            if self.differences > differences {
                return Ok(true);
            }
            let _ = step::step(&mut net, one);
        }
        Ok(false)
    }

    pub fn run(&mut self, form: Form, net: &[u8], script: &[u8], tally: &[u8]) -> io::Result<()> {
        let theirs = self.driver.run(form, net, script, tally)?;
        let (mut after, mut counts) = (net.to_vec(), tally.to_vec());
        let result = match form {
            Form::Saved => face::run(&mut after, script, &mut counts),
            Form::Working => face::working_run(&mut after, script, &mut counts),
        };
        if let (0, Some(net)) = (result, decode(form, net)) {
            self.cases.hit_run(form, net, script);
        }
        let name = name_in(form, "run");
        let words = || format!("{name} of {} bytes, net of {}, tally of {}", script.len(), net.len(), tally.len());
        let ours = Answer::of(vec![result], vec![(lent_as(form), after), ("tally", counts)]);
        self.hold(Some(&name), words, theirs, ours);
        Ok(())
    }

    /// Into the other form.
    pub fn convert(&mut self, from: Form, net: &[u8], other: &[u8]) -> io::Result<()> {
        let theirs = self.driver.convert(from, net, other)?;
        let mut after = other.to_vec();
        let result = match from {
            Form::Saved => face::to_working(net, &mut after),
            Form::Working => face::to_saved(net, &mut after),
        };
        let name = conversion(from);
        let words = || format!("{name} of a net of {} bytes, into {}", net.len(), other.len());
        self.hold(Some(name), words, theirs, Answer::of(vec![result], vec![(lent_as(from.other()), after)]));
        Ok(())
    }

    /// The net is sent only if the driver does not have it yet.
    pub fn find(&mut self, net: &[u8], sent: bool, name: &[u8]) -> io::Result<()> {
        let theirs = self.driver.find((!sent).then_some(net), name)?;
        let result = face::find(net, name);
        let words = || format!("find of {name:?} in a net of {} bytes", net.len());
        self.hold(Some("find"), words, theirs, Answer::of(vec![result], vec![]));
        Ok(())
    }

    /// The net is sent only if the driver does not have it yet.
    pub fn call(&mut self, net: &[u8], sent: bool, group: u8, station: u8, list: &[u8]) -> io::Result<()> {
        let theirs = self.driver.call((!sent).then_some(net), group, station, list)?;
        let mut after = list.to_vec();
        let result = face::call(net, group, station, &mut after);
        let words =
            || format!("call group {group} station {station}, net of {} bytes, list of {}", net.len(), list.len());
        self.hold(Some("call"), words, theirs, Answer::of(vec![result], vec![("list", after)]));
        Ok(())
    }

    // ---- one form held to the other

    /// What the library makes of a net in the saved form by these steps, one by one and in a run, and what it makes of
    /// it in the working form, there and back by its own conversions. No model has a part in it.
    pub fn both_forms(&mut self, net: &[u8], steps: &[Step]) -> io::Result<()> {
        let work = self.driver.convert(Form::Saved, net, &STALE)?;
        let there_and_back = self.saved_again(work.clone())?;
        let given = Answer::of(vec![0], vec![("net", net.to_vec())]);
        self.agree("there and back", there_and_back, given);

        let work = &work.lent[0].bytes;
        let working = self.driver.steps(Form::Working, work, steps)?;
        let (working, saved) = (self.saved_again(working)?, self.driver.steps(Form::Saved, net, steps)?);
        self.agree("steps", working, saved);

        let (script, tally) = (steps.concat(), [9; TALLY_BYTES]);
        let working = self.driver.run(Form::Working, work, &script, &tally)?;
        let (working, saved) = (self.saved_again(working)?, self.driver.run(Form::Saved, net, &script, &tally)?);
        self.agree("run", working, saved);
        Ok(())
    }

    /// The answer with its net as the library converts it to the saved form.
    fn saved_again(&mut self, mut answer: Answer) -> io::Result<Answer> {
        let mut back = self.driver.convert(Form::Working, &answer.lent[0].bytes, &STALE)?;
        answer.fared = answer.fared.max(back.fared);
        answer.lent[0] = back.lent.remove(0);
        Ok(answer)
    }

    fn agree(&mut self, what: &str, working: Answer, saved: Answer) {
        self.judge(|| format!("{what} in both forms"), ["working form", "saved form"], working, saved);
    }

    // ---- counting and telling

    fn hit_step(&mut self, form: Form, one: Step, heard: Heard, result: u32) {
        self.outcomes.hit_step(form, one, result);
        self.cases.hit_step(form, heard, result >> 8);
    }

    /// Holds the library's answer to the model's. Steps are counted elsewhere: then the function has no name here.
    fn hold(&mut self, function: Option<&str>, words: impl Fn() -> String, theirs: Answer, ours: Answer) {
        if let Some(name) = function {
            self.outcomes.hit(name, ours.results[0]);
        }
        self.judge(words, ["library", "model"], theirs, ours);
    }

    fn judge(&mut self, words: impl Fn() -> String, sides: [&str; 2], one: Answer, other: Answer) {
        self.calls += 1;
        if one != other {
            self.differences += 1;
            if self.printed < MOST_PRINTED {
                self.printed += 1;
                self.tell(&words(), sides, &one, &other);
            }
        }
    }

    fn tell(&self, words: &str, sides: [&str; 2], one: &Answer, other: &Answer) {
        println!("compare: DIFFERENCE in case {} of {} (--seed {}): {words}", self.case, self.family, self.seed);
        for (side, answer) in sides.iter().zip([one, other]) {
            match answer.fared {
                0 => {}
                1 => println!("  {side}: a byte changed beside a buffer"),
                _ => println!("  {side}: a byte changed that was lent for reading"),
            }
        }
        if let Some(i) = (0..other.results.len()).find(|&i| one.results[i] != other.results[i]) {
            println!("  result {i}: {} {:#x}, {} {:#x}", sides[0], one.results[i], sides[1], other.results[i]);
        }
        for (one, other) in one.lent.iter().zip(&other.lent) {
            tell_bytes(sides, one, other);
        }
    }
}

fn tell_bytes(sides: [&str; 2], one: &Lent, other: &Lent) {
    let differing: Vec<usize> = (0..other.bytes.len()).filter(|&i| one.bytes[i] != other.bytes[i]).collect();
    for &at in differing.iter().take(MOST_BYTES_PRINTED) {
        let form = [Form::Saved, Form::Working].into_iter().find(|&form| lent_as(form) == other.what);
        let part = form.map_or_else(|| format!("byte {at}"), |form| part_at(form, at));
        println!("  {}: {part}: {} {}, {} {}", other.what, sides[0], one.bytes[at], sides[1], other.bytes[at]);
    }
    if differing.len() > MOST_BYTES_PRINTED {
        println!("  {}: {} bytes differ in all", other.what, differing.len());
    }
}

/// Every sentence of "well shaped", in each form.
fn sentences() -> impl Iterator<Item = String> {
    let in_form = |form| BREACHES.iter().map(move |breach| name_in(form, breach.sentence));
    in_form(Form::Saved).chain(in_form(Form::Working))
}
