//! Times 212 spreads of a detector amplifier: one shipped call, 212 runs of the unmodified Rust, and ngspice's loop of `alter` and `op`.
//! The first two run in one loop in processor time; ngspice is a program of its own, timed as one, less its start.

use crate::directed::Build;
use crate::door;
use crate::job::*;
use crate::netlist::{self, Times};
use crate::oracle::{quiet, timed};
use crate::random::Random;
use crate::sides::OURS;
use crate::speed::{Stopwatch, ROUNDS};
use crate::spread_calls::{Call, VECTORS};
use recorder::Record;

const SPREADS: usize = 212;

/// The output's node.
const OUTPUT: usize = 8;

/// A part within so many parts of one of its value.
fn off(r: &mut Random, value: f64, by: f64) -> f64 {
    value * (1.0 + by * r.between(-1.0, 1.0))
}

/// One amplifier out of the box. Node 1 is the supply, 2 a bias across a diode, 3 the detector with its clamp, 4 the first
/// stage into a load with a clamp, 5 a buffer, 6 and 7 either side of a diode, 8 the output stage.
fn amplifier(r: &mut Random) -> Job {
    let mut saturation = || 1e-14 * 2f64.powf(r.between(-1.0, 1.0));
    let sat = [saturation(), saturation(), saturation(), saturation()];
    let ohms = |r: &mut Random, value| off(r, value, 0.01);
    let mut job = Build::dc(9, 3)
        .v(1, 0, off(r, 5.0, 0.02), 0)
        .r(1, 2, ohms(r, 47e3))
        .d(2, 0, sat[0], 27.0)
        .r(2, 3, ohms(r, 100e3))
        .i(0, 3, off(r, 2e-6, 0.2))
        .d(3, 0, sat[1], 27.0)
        .r(3, 0, ohms(r, 1e6))
        .vccs([4, 0, 3, 0], off(r, 0.002, 0.03))
        .r(1, 4, ohms(r, 2200.0))
        .d(0, 4, sat[2], 27.0)
        .vcvs([5, 0, 4, 0], off(r, 0.95, 0.01), 1)
        .r(5, 6, ohms(r, 1000.0))
        .d(6, 7, sat[3], 27.0)
        .r(7, 0, ohms(r, 4700.0))
        .vcvs([8, 0, 7, 0], off(r, 2.0, 0.03), 2)
        .r(8, 0, ohms(r, 2000.0))
        .job();
    job.options.reltol = 1e-9;
    job.options.vntol = 1e-9;
    job.options.abstol = 1e-12;
    job.options.itl1 = 100;
    job
}

/// All jobs in one call, watching one unknown.
fn one_call(jobs: &[Job], unknown: usize) -> Call {
    let job = &jobs[0];
    let mut call = Call {
        jobs: jobs.len(),
        nodes: job.nodes,
        sources: job.sources,
        unknown: unknown as u64,
        options: job.options,
        sheets: jobs.iter().flat_map(|j| j.sheet.clone()).collect(),
        points: job.points.clone(),
        ..Call::empty()
    };
    call.fit();
    call
}

/// All spreads of the amplifier, watching its output.
pub fn amplifiers() -> Call {
    let mut r = Random::new(212, 0);
    let jobs: Vec<Job> = (0..SPREADS).map(|_| amplifier(&mut r)).collect();
    one_call(&jobs, OUTPUT)
}

/// The table of the amplifier above and, unless it is "-", of a file of spreads. `folder` takes ngspice's netlists, and is "-"
/// where ngspice is not to be run.
pub fn run(folder: &str, file: &str) -> u64 {
    let mut bad = table("the bench's amplifier", &amplifiers(), folder);
    if file != "-" {
        match std::fs::read(file).ok().and_then(|b| Call::read(&b)) {
            Some(call) => bad += table(file, &call, folder),
            None => {
                println!("{}: no file of spreads", file);
                bad += 1;
            }
        }
    }
    println!("ratio: a time over that of the shipped one call; above 1 the one call is faster");
    bad
}

/// What was run, before any timing.
struct Runs {
    call: Call,
    /// The jobs that the Rust has an answer for: not refused, and no panic.
    jobs: Vec<Job>,
    /// Which of these settled, and the watched unknown.
    settled: Vec<(bool, f64)>,
    passes: u64,
}

/// Runs the call once and says what came of it.
fn once(name: &str, call: &Call) -> Runs {
    let (mut floats, mut words) = (call.lent_floats(), call.lent_words());
    let report = door::call_spreads(call, &mut floats, &mut words);
    let n = call.unknowns() as usize;
    let (numbers, passes) = (&words[0][..call.jobs], &words[2][..call.jobs]);
    let mut runs = Runs { call: call.clone(), jobs: Vec::new(), settled: Vec::new(), passes: 0 };
    for (k, number) in numbers.iter().enumerate() {
        if matches!(number, 0 | 20 | 21) {
            runs.jobs.push(call.single(k));
            runs.settled.push((*number == 0, floats[VECTORS][k * n + call.unknown as usize]));
            runs.passes += passes[k];
        }
    }
    println!("{}: {} jobs, N {}, {} records each", name, call.jobs, n, call.sheet_length() / RECORD);
    println!(
        "  {} settled; smallest {:.6} at {}, largest {:.6} at {}; {} with an answer of the Rust, {} passes in them",
        report.settled,
        report.smallest,
        report.smallest_at,
        report.largest,
        report.largest_at,
        runs.jobs.len(),
        runs.passes
    );
    runs
}

/// One line: milliseconds for so many jobs, microseconds for one, and the ratio.
fn row(name: &str, seconds: f64, jobs: usize, ours: f64) {
    let (ms, us) = (seconds * 1e3, seconds * 1e6 / jobs as f64);
    println!("  {:56} {:>5} {:>9.2} {:>9.2} {:>7.2}", name, jobs, ms, us, seconds / ours);
}

fn table(name: &str, call: &Call, folder: &str) -> u64 {
    let Runs { call, jobs, settled, passes } = once(name, call);
    let configuration = quiet::configuration(&call.options);
    let circuits: Vec<_> = jobs.iter().map(quiet::circuit).collect();
    let all: Vec<Job> = (0..call.jobs).map(|k| call.single(k)).collect();
    let (mut floats, mut words, mut lent) = (call.lent_floats(), call.lent_words(), jobs[0].lent());
    let mut all_in_one = || door::call_spreads(&call, &mut floats, &mut words).settled;
    let mut one_by_one = || all.iter().map(|j| door::call(j, &mut lent).passes).sum();
    let mut rust_made = || {
        recorder::begin(Record::new());
        jobs.iter().map(|j| quiet::run(false, &quiet::circuit(j), &configuration)).sum()
    };
    let mut rust_ready = || {
        recorder::begin(Record::new());
        circuits.iter().map(|c| quiet::run(false, c, &configuration)).sum()
    };
    recorder::time_with(OURS);
    let with_ours = timed::configuration(&call.options);
    let mut rust_ours = || {
        recorder::begin(Record::new());
        jobs.iter().map(|j| timed::run(false, &timed::circuit(j), &with_ours)).sum()
    };
    let mut bad = 0;
    let rust_passes: [u64; 3] = [rust_made(), rust_ready(), rust_ours()];
    if rust_passes != [passes; 3] {
        println!("  passes differ: the Rust has {:?}", rust_passes);
        bad += 1;
    }
    let mut runs: [&mut dyn FnMut() -> u64; 5] =
        [&mut all_in_one, &mut one_by_one, &mut rust_made, &mut rust_ready, &mut rust_ours];
    let mut watches: Vec<Stopwatch> = runs.iter_mut().map(|f| Stopwatch::new(*f)).collect();
    let mut round = || {
        for _ in 0..ROUNDS {
            for (watch, run) in watches.iter_mut().zip(runs.iter_mut()) {
                watch.round(*run);
            }
        }
    };
    round();
    let spice =
        if folder == "-" { None } else { Some(netlist::time(folder, &jobs, call.unknown as usize, &mut round)) };
    recorder::end();
    println!("  {:56} {:>5} {:>9} {:>9} {:>7}", "processor time", "jobs", "ms", "us a job", "ratio");
    let ours = watches[0].best;
    row("shipped, one call", ours, call.jobs, ours);
    row("shipped, single calls", watches[1].best, call.jobs, ours);
    row("Rust, circuit and engine made for each run", watches[2].best, jobs.len(), ours);
    row("Rust, circuits made beforehand, engine for each run", watches[3].best, jobs.len(), ours);
    row("Rust with our functions, circuit and engine for each run", watches[4].best, jobs.len(), ours);
    bad + spice.map_or(0, |times| tell_spice(times, &settled, ours))
}

/// ngspice's lines, and how far its settled outputs are from ours.
fn tell_spice(times: Result<Times, String>, settled: &[(bool, f64)], ours: f64) -> u64 {
    let times = match times {
        Ok(times) => times,
        Err(why) => {
            println!("  ngspice: {}", why);
            return 1;
        }
    };
    let jobs = settled.len();
    let [same, own, alter] = times.loops;
    row("ngspice, loop of alter and op, less its start", same, jobs, ours);
    row("ngspice, the same with its own wider tolerances", own, jobs, ours);
    row("ngspice, op alone: the loop less one of alter alone", same - alter, jobs, ours);
    let both = settled.iter().zip(&times.outputs).filter(|(s, _)| s.0);
    let far = both.map(|((_, a), b)| (a - b).abs() / a.abs()).fold(0.0, f64::max);
    println!("  {}: its outputs are within {:.1e} of the settled ones here, relatively", times.version, far);
    (times.outputs.len() != jobs || !(far < 1e-3)) as u64
}
