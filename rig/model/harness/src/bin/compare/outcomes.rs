//! The outcomes that came up: all that a function may have, often enough, and no other.

use rules::layout::Form;
use rules::step::Step;
use std::collections::BTreeMap;

/// So often each outcome that a function may have must have come up.
pub const HITS_WANTED: u64 = 20;

/// The outcomes that each function may have.
const PERMITTED: &[(&str, &[u32])] = &[
    ("fresh", &[0, 9, 10]),
    ("find", &[0, 1, 7]),
    ("call", &[0, 1, 3, 8, 10]),
    ("to working", &[0, 1, 10]),
    ("to saved", &[0, 1, 10]),
];

/// The same for what there is in either form, and for a known action those that come once the net is well shaped.
const PERMITTED_IN_EITHER_FORM: &[(&str, &[u32])] = &[
    ("step", &[0, 1, 2, 3, 4, 5, 6]),
    ("step tick", &[0, 3, 5]),
    ("step ask", &[0, 3, 4, 6]),
    ("step refresh", &[0, 3, 4, 6]),
    ("step deliver", &[0, 3, 4, 6]),
    ("step lose", &[0, 3, 4]),
    ("step give up", &[0, 3, 4]),
    ("step drop child", &[0, 3, 4]),
    ("step member", &[0, 3]),
    ("step route", &[0, 3]),
    ("run", &[0, 1, 10, 11, 12]),
];

const ACTIONS: [&str; 9] = ["tick", "ask", "refresh", "deliver", "lose", "give up", "drop child", "member", "route"];

/// The name of what there is in either form.
pub fn name_in(form: Form, name: &str) -> String {
    match form {
        Form::Saved => name.to_string(),
        Form::Working => format!("working {name}"),
    }
}

/// The conversion from this form.
pub fn conversion(from: Form) -> &'static str {
    match from {
        Form::Saved => "to working",
        Form::Working => "to saved",
    }
}

fn permitted() -> Vec<(String, &'static [u32])> {
    let in_form = |form| PERMITTED_IN_EITHER_FORM.iter().map(move |row| (name_in(form, row.0), row.1));
    let others = PERMITTED.iter().map(|row| (row.0.to_string(), row.1));
    others.chain(in_form(Form::Saved)).chain(in_form(Form::Working)).collect()
}

/// How often each function had each outcome, by the model.
#[derive(Default)]
pub struct Outcomes {
    hits: BTreeMap<(String, u32), u64>,
}

impl Outcomes {
    pub fn hit(&mut self, function: &str, result: u32) {
        *self.hits.entry((function.to_string(), result & 255)).or_insert(0) += 1;
    }

    pub fn hit_step(&mut self, form: Form, one: Step, result: u32) {
        self.hit(&name_in(form, "step"), result);
        if let (1..=9, 0 | 2..) = (one[0], result & 255) {
            let action = format!("step {}", ACTIONS[usize::from(one[0]) - 1]);
            self.hit(&name_in(form, &action), result);
        }
    }

    /// Prints the table of outcomes; true if each one permitted came up often enough, and no other.
    pub fn tell(&self) -> bool {
        let (mut ok, permitted) = (true, permitted());
        for (function, outcomes) in &permitted {
            let hits = |outcome| self.hits.get(&(function.clone(), outcome)).copied().unwrap_or(0);
            let cells: Vec<String> =
                outcomes.iter().map(|&outcome| format!("{outcome}: {}", hits(outcome))).collect();
            println!("compare: outcomes of {function:24} {}", cells.join("  "));
            ok &= outcomes.iter().all(|&outcome| hits(outcome) >= HITS_WANTED);
        }
        ok &= self.hits.keys().all(|(name, outcome)| {
            permitted.iter().any(|(function, outcomes)| function == name && outcomes.contains(outcome))
        });
        println!("compare: outcomes {}", if ok { "ok" } else { "FAILED" });
        ok
    }
}
