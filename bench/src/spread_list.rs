//! The fixed lists of calls of spreads and of sound spreads: each with the report that single runs of the Rust add up to, for a
//! replay without any Rust.

use crate::exact;
use crate::form::{calls_file, sound_file, Form};
use crate::job::*;
use crate::list;
use crate::spread_calls::{self, *};
use crate::spread_rules::{refusal, report, Slip, BEHIND, REJECTED};
use crate::tally::Tally;

/// No call of the list lends more than these, nor has more bytes of sheets or of words that its report holds: the replay has room for so many.
const MOST_FLOATS: [usize; 5] = [2360, 2360, 2360, 264, 2048];
const MOST_WORDS: [usize; 8] = [264; 8];
const MOST_BYTES: usize = 60_000;

/// A random call and its report are small, but for one call of 256 jobs.
const SMALL: usize = 6_000;

/// How many random calls of a kind the list takes, if they bring nothing else.
const EACH: u64 = 3;

/// The single runs of a call: the Rust's own answers where it has them, else the model's.
fn runs(call: &Call) -> Vec<Answer> {
    (0..call.jobs).map(|k| list::answer(&call.single(k))).collect()
}

/// The report of a call, and what the call brings to the list.
fn answered(call: &Call) -> (Report, Vec<String>) {
    let refused = refusal(call);
    if refused != 0 {
        return (Report::refused(call, refused), vec![format!("call refused by {}", refused)]);
    }
    let runs = runs(call);
    let made = report(call, &runs, exact::judge, Slip::Nothing);
    let mut kinds: Vec<String> = runs.iter().map(|r| r.outcome()).collect();
    if call.sound {
        kinds.extend(sound_kinds(call, &made));
    }
    kinds.sort();
    kinds.dedup();
    if made.answer.settled == 0 {
        kinds.push("none settled".to_string());
    } else {
        kinds.extend(settled_kinds(call, &runs, &made));
    }
    (made, kinds)
}

/// What a sound call brings: causes, with the option off or on, and reports that differ.
fn sound_kinds(call: &Call, made: &Report) -> Vec<String> {
    let a = &made.answer;
    let on = if call.options.catchup != 0 { ", on" } else { "" };
    let causes = made.words[NUMBER][..call.jobs].iter().filter(|c| [11, BEHIND, REJECTED].contains(c));
    let mut kinds: Vec<String> = causes.map(|c| format!("cause {}{}", c, on)).collect();
    let found = [
        (a.settled > 0 && a.sound == 0, "none sound"),
        (a.sound > 0 && a.sound_smallest_at != a.smallest_at, "another smallest"),
        (a.sound > 0 && a.sound_largest_at != a.largest_at, "another largest"),
        (a.sound > 0 && !call.tolerances.is_empty(), "judged and sound"),
    ];
    kinds.extend(found.iter().filter(|f| f.0).map(|f| format!("{}{}", f.1, on)));
    kinds
}

/// What a call with settled jobs brings: ties, and the kinds of records that need more than stamps.
fn settled_kinds(call: &Call, runs: &[Answer], made: &Report) -> Vec<String> {
    let at = call.unknown as usize;
    let settled = runs.iter().filter(|r| r.refusal == 0 && r.verdict == 0).map(|r| r.buffers[VECTOR][at]);
    let often = |x: f64| x != 0.0 && settled.clone().filter(|v| *v == x).count() > 1;
    let elements = call.single(0).elements();
    let has = |kinds: &[u8]| elements.iter().any(|e| kinds.contains(&e.kind));
    let several = made.answer.smallest < made.answer.largest;
    let found = [
        (several && often(made.answer.smallest), "tie of smallest"),
        (several && often(made.answer.largest), "tie of largest"),
        (several && has(&[4]), "diodes"),
        (several && has(&[7]), "points"),
        (several && has(&[5, 6]), "sines"),
        (several && has(&[COIL]), "coils"),
    ];
    found.iter().filter(|f| f.0).map(|f| f.1.to_string()).collect()
}

/// Whether the replay has room for a call.
fn fits(call: &Call) -> bool {
    let within = |lent: &[usize], most: &[usize]| lent.iter().zip(most).all(|(l, m)| l <= m);
    within(&call.floats, &MOST_FLOATS) && within(&call.words, &MOST_WORDS) && call.sheets.len() <= MOST_BYTES
}

/// Lends no more than the replay has room for, where the call is refused all the same.
fn tighten(call: &mut Call) {
    let mut less = call.clone();
    less.floats.iter_mut().zip(MOST_FLOATS).for_each(|(l, m)| *l = (*l).min(m));
    less.words.iter_mut().zip(MOST_WORDS).for_each(|(l, m)| *l = (*l).min(m));
    if refusal(&less) != 0 && refusal(&less) == refusal(call) {
        *call = less;
    }
}

/// Writes the directed calls with coils in them.
pub fn write_coils(path: &str) -> u64 {
    let mut taken: Vec<(Call, Report)> = Vec::new();
    let mut kinds = Tally::default();
    for call in spread_calls::coil_calls(false) {
        take(&mut taken, &mut kinds, call);
    }
    let bytes = calls_file(Form::Two, &taken);
    println!("{}: {} calls, {} bytes; {}", path, taken.len(), bytes.len(), list::stored(path, &bytes));
    println!("  calls with: {}", kinds.line());
    0
}

/// Writes the list made from a seed.
pub fn write(seed: u64, path: &str) -> u64 {
    let (taken, kinds) = taken(seed, spread_calls::directed(), spread_calls::call);
    let bytes = calls_file(Form::Two, &taken);
    println!("{}: {} calls, {} bytes, seed {}; {}", path, taken.len(), bytes.len(), seed, list::stored(path, &bytes));
    println!("  calls with: {}", kinds.line());
    0
}

/// Writes the list of sound calls.
pub fn write_sound(seed: u64, path: &str) -> u64 {
    let (taken, kinds) = taken(seed, spread_calls::sound_directed(), spread_calls::sound_call);
    let bytes = sound_file(&taken);
    println!("{}: {} calls, {} bytes, seed {}; {}", path, taken.len(), bytes.len(), seed, list::stored(path, &bytes));
    println!("  calls with: {}", kinds.line());
    0
}

/// Takes a directed call.
fn take(taken: &mut Vec<(Call, Report)>, kinds: &mut Tally, mut call: Call) {
    tighten(&mut call);
    assert!(fits(&call), "a directed call lends too much");
    let (made, brings) = answered(&call);
    brings.iter().for_each(|k| kinds.add(k));
    taken.push((call, made));
}

/// The directed calls, and of the random ones those that bring something.
fn taken(seed: u64, directed: Vec<Call>, draw: fn(u64, u64) -> Call) -> (Vec<(Call, Report)>, Tally) {
    let mut taken: Vec<(Call, Report)> = Vec::new();
    let mut kinds = Tally::default();
    for call in directed {
        take(&mut taken, &mut kinds, call);
    }
    let mut long = false;
    for place in 0..20_000 {
        let call = draw(seed, place);
        let bytes = call.sheets.len() + call.points.len();
        let largest = !long && call.jobs == MOST_JOBS && refusal(&call) == 0 && call.unknowns() <= 5;
        if !fits(&call) || !(bytes <= SMALL || largest) {
            continue;
        }
        let (made, brings) = answered(&call);
        if !(largest || brings.iter().any(|k| kinds.get(k) < EACH)) {
            continue;
        }
        long = long || largest;
        brings.iter().for_each(|k| kinds.add(k));
        taken.push((call, made));
    }
    (taken, kinds)
}
