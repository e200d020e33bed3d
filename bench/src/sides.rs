//! One job on every side: the shipped archive, the model, the Rust with our functions,
//! and the unmodified Rust.

use crate::compare::*;
use crate::door;
use crate::job::*;
use crate::model::{self, Beyond, Situations, Wrong};
use crate::oracle::{hooked, plain};
use recorder::LIBRARY;

/// The functions under test: the shipped ones, or their stand-in without an archive.
pub use crate::door::OURS;

/// The pairs that are held against each other.
pub const PAIRS: [&str; 5] = [
    "shipped against the model",
    "shipped against the Rust with our functions",
    "model against the Rust with our functions",
    "model with the library's functions against the unmodified Rust",
    "our functions against the unmodified Rust with the library's",
];

/// The first four pairs must agree; the last is counted.
pub const MUST_AGREE: usize = 4;

pub struct Outcome {
    /// The model's answer with our functions.
    pub answer: Answer,
    /// Its passes that waited for a diode, its patterns that the option moved, and its steps with a coil: where there is one the Rust,
    /// which knows neither option nor coils, has no answer. At DC it has: there a coil is a V of 0.
    pub beyond: Beyond,
    /// How often a diode of it was in each situation.
    pub situations: Situations,
    /// Demand 2's domain: not refused, nothing beyond the Rust and no coil, the Rust's own numbers, verdict 0, 20, 21 or 23.
    pub domain: bool,
    /// Per pair: None where it was not compared.
    pub pairs: [Option<Vec<Difference>>; 5],
}

fn in_domain(verdict: u64) -> bool {
    matches!(verdict, 0 | 20 | 21 | 23)
}

pub fn run(job: &Job) -> Outcome {
    let (answer, beyond, situations) = model::run_counted(job, &OURS, Wrong::Nothing);
    let door = door::run(job);
    let mut pairs = [None, None, None, None, None];
    pairs[0] = door.as_ref().map(|d| compare(job, d, &answer, ALL));
    let mut domain = false;
    if answer.refusal == 0 && beyond.none() {
        let (rust, stopped) = hooked::run(job, &OURS);
        let scope = Scope { end: !stopped, elimination: false };
        pairs[1] = door.as_ref().map(|d| compare(job, d, &rust, scope));
        pairs[2] = Some(compare(job, &answer, &rust, scope));
        if job.own_numbers() {
            domain = in_domain(answer.verdict) && beyond.coils.present == 0;
            let (library, further) = model::run_beyond(job, &LIBRARY, Wrong::Nothing);
            if in_domain(library.verdict) && further.none() {
                let (seen, vector) = plain::run(job);
                pairs[3] = Some(compare_seen(job, &seen, &vector, &library));
                let ours = door.as_ref().unwrap_or(&answer);
                pairs[4] = Some(compare_seen(job, &seen, &vector, ours));
            }
        }
    }
    Outcome { answer, beyond, situations, domain, pairs }
}
