//! Times the shipped code against the Rust, unmodified and with our functions: the same circuits, the same loop,
//! one run, in processor time. With our functions the bits are the shipped code's, and are held against them here.
//! The Rust's prints are gone and its rows go to memory, which favours it.

use crate::compare::{compare, Scope};
use crate::directed::Build;
use crate::door;
use crate::form::{plain, Form};
use crate::job::*;
use crate::oracle::{hooked, quiet, timed};
use crate::sides::OURS;
use crate::spread_calls::{Call, Report, MINUS, VECTORS};
use crate::spreads_speed;
use recorder::Record;
use std::convert::TryInto;

const SIZES: [usize; 4] = [2, 8, 24, 48];
const STEPS: usize = 1000;
pub const ROUNDS: usize = 9;
const LEAST: f64 = 0.03;

/// A ladder of N unknowns: driven at its first node, a capacitor at each node, and with
/// diodes one at every second node.
fn ladder(n: usize, transient: bool, diodes: bool) -> Job {
    let sources = if n > 2 { 1 } else { 0 };
    let nodes = n - sources;
    let mut b = if transient {
        Build::transient(nodes as u64, sources as u64, 0.0)
    } else {
        Build::dc(nodes as u64, sources as u64)
    };
    b = if sources == 1 { b.vsin(1, 0, 2.0, 3.0, 50.0, 0) } else { b.isin(0, 1, 0.002, 0.003, 50.0).r(1, 0, 1000.0) };
    for k in 1..nodes {
        if k + 1 < nodes {
            b = b.r(k, k + 1, 1000.0 + k as f64);
        }
        b = b.r(k, 0, 10_000.0 + k as f64).c(k, 0, 1e-7);
        if diodes && k % 2 == 1 {
            b = b.d(k, 0, 1e-12, 27.0);
        }
    }
    let mut job = b
        .set(|o| {
            o.abstol = 1e-9;
            o.tstep = 1e-5;
            o.itl1 = 200;
            o.itl4 = 100;
            o.rmin = 1e-6;
            o.budget = 1_000_000;
        })
        .job();
    job.options.tstop = job.options.tstep * (STEPS as f64 - 0.5);
    job.fit(STEPS + 2);
    job
}

extern "C" {
    fn clock_gettime(clock: i32, time: *mut [i64; 2]) -> i32;
}

const CPU_TIME_OF_THE_THREAD: i32 = 3;

/// Seconds of processor time that this thread has had; other programs do not count.
fn now() -> f64 {
    let mut time = [0i64; 2];
    unsafe { clock_gettime(CPU_TIME_OF_THE_THREAD, &mut time) };
    time[0] as f64 + time[1] as f64 * 1e-9
}

/// Seconds of one run: the shortest of several rounds, each long enough to be read off a clock.
pub struct Stopwatch {
    repeats: usize,
    pub best: f64,
    /// Kept so that no run can be left out.
    passes: u64,
}

impl Stopwatch {
    pub fn new(run: &mut dyn FnMut() -> u64) -> Stopwatch {
        let begun = now();
        run();
        let once = now() - begun;
        Stopwatch { repeats: ((LEAST / once.max(1e-9)) as usize).clamp(1, 100_000), best: f64::INFINITY, passes: 0 }
    }

    pub fn round(&mut self, run: &mut dyn FnMut() -> u64) {
        let begun = now();
        for _ in 0..self.repeats {
            self.passes += run();
        }
        self.best = self.best.min((now() - begun) / self.repeats as f64);
    }
}

fn shipped(job: &Job, buffers: &mut [Vec<f64>; 6]) -> (u64, u64) {
    let a = door::call(job, buffers);
    (a.passes, a.verdict + a.refusal)
}

/// In how many fields and floats the shipped answer differs from the Rust's with our functions.
fn differences(job: &Job) -> usize {
    let (rust, stopped) = hooked::run(job, &OURS);
    let scope = Scope { end: !stopped, elimination: false };
    door::run(job).map_or(0, |ours| compare(job, &ours, &rust, scope).len())
}

/// One row of the table; answers how much is amiss.
fn row(transient: bool, n: usize, diodes: bool) -> u64 {
    let job = ladder(n, transient, diodes);
    let (circuit, ours_circuit) = (quiet::circuit(&job), timed::circuit(&job));
    let (configuration, ours_configuration) = (quiet::configuration(&job.options), timed::configuration(&job.options));
    let differ = differences(&job);
    let mut buffers = job.lent();
    let (passes, verdict) = shipped(&job, &mut buffers);
    let mut ours = || shipped(&job, &mut buffers).0;
    let mut theirs = || {
        recorder::begin(Record::new());
        quiet::run(transient, &circuit, &configuration)
    };
    let mut with_ours = || {
        recorder::begin(Record::new());
        timed::run(transient, &ours_circuit, &ours_configuration)
    };
    let rust_passes = theirs();
    let mut runs: [&mut dyn FnMut() -> u64; 3] = [&mut ours, &mut theirs, &mut with_ours];
    let mut watches: Vec<Stopwatch> = runs.iter_mut().map(|f| Stopwatch::new(*f)).collect();
    for _ in 0..ROUNDS {
        for (watch, run) in watches.iter_mut().zip(runs.iter_mut()) {
            watch.round(*run);
        }
    }
    recorder::end();
    let both = if passes == rust_passes { format!("{}", passes) } else { format!("{}/{}", passes, rust_passes) };
    let (kind, word) = (if transient { "transient" } else { "DC" }, if diodes { "yes" } else { "no" });
    let us = |k: usize| watches[k].best * 1e6;
    println!(
        "{:>10} {:>3} {:>8} {:>9} {:>12.2} {:>12.2} {:>7.2} {:>12.2} {:>7.2} {:>7}",
        kind,
        n,
        word,
        both,
        us(0),
        us(1),
        us(1) / us(0),
        us(2),
        us(2) / us(0),
        differ
    );
    let idle = watches.iter().any(|w| w.passes == 0);
    if verdict != 0 || idle {
        println!("  not settled: verdict or refusal {}", verdict);
    }
    (verdict != 0 || idle || differ != 0) as u64
}

/// What is timed without the Rust, by place: the rows of the table, the amplifier's spreads, and a file of spreads.
fn timed_alone(place: usize, file: &str) -> Option<(String, Timed)> {
    let ladders = 4 * SIZES.len();
    if place < ladders {
        let (transient, diodes, n) = (place / 8 == 1, place / 4 % 2 == 1, SIZES[place % 4]);
        let name =
            format!("{} {}{}", if transient { "transient" } else { "DC" }, n, if diodes { ", diodes" } else { "" });
        return Some((name, Timed::Run(ladder(n, transient, diodes))));
    }
    match place - ladders {
        0 => Some(("spreads: the amplifier".to_string(), Timed::Spreads(spreads_speed::amplifiers()))),
        1 => Some(("spreads: a file".to_string(), Timed::Spreads(Call::read(&std::fs::read(file).ok()?)?))),
        _ => None,
    }
}

enum Timed {
    Run(Job),
    Spreads(Call),
}

/// The words of a run's answer as a file has it: all its numbers and every buffer but the scratch one. The diode that is behind
/// follows from the buffers and is left out, so that an archive which does not tell it can be held against one that does.
fn run_words(job: &Job, answer: &Answer) -> Vec<u64> {
    let answer = Answer { behind: None, ..answer.clone() };
    answer.bytes(job, Form::Two).chunks_exact(8).map(|w| u64::from_le_bytes(w.try_into().unwrap())).collect()
}

/// The words of a report of `savrunte_spreads`: its numbers, the vectors and every buffer of words that it is lent. The other
/// floats are scratch.
fn report_words(report: &Report) -> Vec<u64> {
    let a = &report.answer;
    let numbers = [a.refusal, a.settled, plain(a.smallest), plain(a.largest), a.smallest_at, a.largest_at];
    let vectors = report.floats[VECTORS].iter().map(|x| plain(*x));
    numbers.iter().copied().chain(vectors).chain(report.words[..MINUS + 1].iter().flatten().copied()).collect()
}

/// All the words of an answer in one, so that two programs can be held against each other.
fn checksum(words: &[u64]) -> u64 {
    words.iter().fold(0xcbf2_9ce4_8422_2325, |sum, w| (sum ^ w).wrapping_mul(0x0000_0100_0000_01b3).rotate_left(23))
}

/// Times the shipped code of one place alone, for bench/pair: name, microseconds and the answer's bits in one word.
/// Without a place: how many there are.
pub fn time(place: Option<usize>, file: &str) -> u64 {
    let place = match place {
        Some(place) => place,
        None => {
            println!("{}", 4 * SIZES.len() + 2);
            return 0;
        }
    };
    let (name, what) = match timed_alone(place, file) {
        Some(timed) => timed,
        None => {
            println!("nothing to time at {}", place);
            return 1;
        }
    };
    let watched = |run: &mut dyn FnMut() -> u64| {
        let mut watch = Stopwatch::new(run);
        for _ in 0..3 {
            watch.round(run);
        }
        watch.best * 1e6
    };
    let (us, bits) = match &what {
        Timed::Run(job) => {
            let mut buffers = job.lent();
            let us = watched(&mut || shipped(job, &mut buffers).0);
            let numbers = door::call(job, &mut buffers);
            (us, checksum(&run_words(job, &Answer { buffers, ..numbers })))
        }
        Timed::Spreads(call) => {
            let (mut floats, mut words) = (call.lent_floats(), call.lent_words());
            let us = watched(&mut || door::call_spreads(call, &mut floats, &mut words).settled);
            let answer = door::call_spreads(call, &mut floats, &mut words);
            (us, checksum(&report_words(&Report { answer, floats, words })))
        }
    };
    println!("{}\t{:.4}\t{:016x}", name, us, bits);
    0
}

pub fn run() -> u64 {
    if !door::LINKED {
        println!("no archive linked: the plain model is timed in its place");
    }
    recorder::time_with(OURS);
    println!(
        "{:>10} {:>3} {:>8} {:>9} {:>12} {:>12} {:>7} {:>12} {:>7} {:>7}",
        "analysis", "N", "diodes", "passes", "shipped, us", "Rust, us", "ratio", "ours in it", "ratio", "differ"
    );
    let mut bad = 0;
    for transient in [false, true] {
        for diodes in [false, true] {
            for n in SIZES {
                bad += row(transient, n, diodes);
            }
        }
    }
    println!("ratio: the Rust's time over the shipped code's; above 1 the shipped code is faster");
    println!("ours in it: the Rust with our exp, ln and sin, as bits can only be equal; differ: fields and floats of the whole answer that are not");
    bad
}

#[cfg(test)]
mod tests {
    use super::*;
    use crate::model::{self, Wrong};

    /// Whether a change of the whole shows in its checksum.
    fn shows<T: Clone>(whole: &T, sum: &dyn Fn(&T) -> u64, change: &dyn Fn(&mut T)) -> bool {
        let mut other = whole.clone();
        change(&mut other);
        sum(&other) != sum(whole)
    }

    #[test]
    fn the_checksum_of_a_run_has_all_but_scratch() {
        let job = ladder(8, true, true);
        let answer = model::run(&job, &OURS, Wrong::Nothing);
        assert!(answer.refusal == 0 && answer.rows > 0);
        let sum = |a: &Answer| checksum(&run_words(&job, a));
        let numbers: [fn(&mut Answer); 7] = [
            |a| a.refusal = 1,
            |a| a.place += 1,
            |a| a.verdict += 1,
            |a| a.dc_verdict += 1,
            |a| a.passes += 1,
            |a| a.rows -= 1,
            |a| a.end += 1.0,
        ];
        assert!(numbers.iter().all(|change| shows(&answer, &sum, change)));
        for b in 0..BUFFERS.len() {
            assert_eq!(shows(&answer, &sum, &|a| a.buffers[b][0] = 7.5), b != ELIMINATION, "{}", BUFFERS[b]);
        }
    }

    #[test]
    fn the_checksum_of_spreads_has_all_but_scratch() {
        let report = Report::refused(&spreads_speed::amplifiers(), 0);
        let sum = |r: &Report| checksum(&report_words(r));
        let numbers: [fn(&mut Report); 6] = [
            |r| r.answer.refusal += 1,
            |r| r.answer.settled += 1,
            |r| r.answer.smallest += 1.0,
            |r| r.answer.largest += 1.0,
            |r| r.answer.smallest_at += 1,
            |r| r.answer.largest_at += 1,
        ];
        assert!(numbers.iter().all(|change| shows(&report, &sum, change)));
        for b in 0..report.floats.len() {
            assert_eq!(shows(&report, &sum, &|r| r.floats[b][0] = 7.5), b == VECTORS);
        }
        for b in 0..MINUS + 1 {
            assert!(shows(&report, &sum, &|r| r.words[b][0] += 1));
        }
    }
}
