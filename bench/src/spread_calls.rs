//! A call of all spreads, what it answers and leaves, and random calls from a seed and a place.

use crate::directed::Build;
use crate::generate::{self, Sort};
use crate::job::{lent, Element, Job, Options, POINT, RECORD, VECTOR};
use crate::model::{self, Wrong};
use crate::random::Random;
use crate::raw::SoundAnswer;
use crate::sides::OURS;
use crate::spread_rules::refusal;

pub const MOST_JOBS: usize = 256;
/// Numbers 0 to 26 are counted; in a sound call causes 0 to 28.
pub const NUMBERS: usize = 27;
pub const CAUSES: usize = 29;
/// Limbs of each half of an exact sum.
pub const LIMBS: usize = 66;

/// Floats and words behind each lent buffer, not lent: they must stay.
const GUARD: usize = 4;

/// The lent floats, then the lent words, in the order of the C door. The numbers of a sound call are causes; the last two are
/// lent to no other.
pub const FLOATS: [&str; 5] = ["base", "system", "elimination", "memory", "vectors"];
pub const WORDS: [&str; 8] = ["numbers", "places", "passes", "counts", "plus", "minus", "sound plus", "sound minus"];
pub const NUMBER: usize = 0;
pub const MEMORY: usize = 3;
pub const VECTORS: usize = 4;
pub const COUNTS: usize = 3;
pub const PLUS: usize = 4;
pub const MINUS: usize = 5;
pub const SOUND_PLUS: usize = 6;
pub const SOUND_MINUS: usize = 7;

#[derive(Clone)]
pub struct Call {
    /// Of `savrunte_sound_spreads`; else of `savrunte_spreads`.
    pub sound: bool,
    pub jobs: usize,
    pub nodes: u64,
    pub sources: u64,
    pub unknown: u64,
    pub options: Options,
    pub sheets: Vec<u8>,
    pub points: Vec<u8>,
    /// The judge's, in a sound call.
    pub tolerances: Vec<f64>,
    /// Lengths of the lent floats and of the lent words.
    pub floats: [usize; 5],
    pub words: [usize; 8],
}

/// What came back: the answer, and every lent buffer afterwards.
#[derive(Clone)]
pub struct Report {
    /// Of a call that is no sound one the last five fields stay 0.
    pub answer: SoundAnswer,
    pub floats: [Vec<f64>; 5],
    pub words: [Vec<u64>; 8],
}

impl Report {
    /// The report of a call that changed nothing.
    pub fn refused(call: &Call, refusal: u64) -> Report {
        let answer = SoundAnswer { refusal, ..SoundAnswer::default() };
        Report { answer, floats: call.lent_floats(), words: call.lent_words() }
    }
}

impl Call {
    /// No job, and nothing lent.
    pub fn empty() -> Call {
        Call {
            sound: false,
            jobs: 0,
            nodes: 0,
            sources: 0,
            unknown: 0,
            options: Options::usual(),
            sheets: Vec::new(),
            points: Vec::new(),
            tolerances: Vec::new(),
            floats: [0; 5],
            words: [0; 8],
        }
    }

    pub fn unknowns(&self) -> u128 {
        self.nodes as u128 + self.sources as u128
    }

    /// Bytes of one sheet, where the sheets are even.
    pub fn sheet_length(&self) -> usize {
        self.sheets.len() / self.jobs.max(1)
    }

    /// How long each lent buffer must be.
    pub fn needed(&self) -> ([usize; 5], [usize; 8]) {
        let n = self.unknowns() as usize;
        let (cells, jobs) = (n * (n + 1), self.jobs);
        let (counts, more) = if self.sound { (CAUSES, LIMBS) } else { (NUMBERS, 0) };
        let words = [jobs, jobs, jobs, counts, LIMBS, LIMBS, more, more];
        ([cells, cells, cells, self.sheet_length() / RECORD, jobs * n], words)
    }

    /// Lends exactly what the call needs.
    pub fn fit(&mut self) {
        let (floats, words) = self.needed();
        self.floats = floats;
        self.words = words;
    }

    /// The floats as they are lent, and a guard behind: numbers that no run writes, no two alike.
    pub fn lent_floats(&self) -> [Vec<f64>; 5] {
        let mut b = 0;
        self.floats.map(|length| {
            b += 1;
            lent(b - 1, length + GUARD)
        })
    }

    pub fn lent_words(&self) -> [Vec<u64>; 8] {
        let mut b = 0;
        self.words.map(|length| {
            b += 1;
            (0..length + GUARD).map(|i| 0x5a5a_0000_0000_0000 + (b << 32) + i as u64).collect()
        })
    }

    /// How many buffers are lent, floats and words.
    fn buffers(&self) -> usize {
        if self.sound {
            FLOATS.len() + WORDS.len()
        } else {
            FLOATS.len() + MINUS + 1
        }
    }

    /// The length lent of one buffer, floats first.
    fn length(&mut self, which: usize) -> &mut usize {
        match which {
            0..=4 => &mut self.floats[which],
            _ => &mut self.words[which - 5],
        }
    }

    /// One job of the call as a DC job of its own, in buffers that fit.
    pub fn single(&self, place: usize) -> Job {
        let length = self.sheet_length();
        let mut job = Job {
            transient: false,
            nodes: self.nodes,
            sources: self.sources,
            options: self.options,
            sheet: self.sheets[place * length..(place + 1) * length].to_vec(),
            points: self.points.clone(),
            lengths: [0; 6],
        };
        job.fit(0);
        job
    }

    /// The call with one job left out.
    pub fn without(&self, place: usize) -> Call {
        let length = self.sheet_length();
        let mut call = self.clone();
        call.sheets.drain(place * length..(place + 1) * length);
        call.jobs -= 1;
        call.fit();
        call
    }
}

/// The limits from both sides: each buffer as long as it must be and one short, jobs, unknown, N, records and points.
pub fn directed() -> Vec<Call> {
    limits(false)
}

/// The same of a sound call, and its own: tolerances from both sides, and every cause.
pub fn sound_directed() -> Vec<Call> {
    let mut calls = limits(true);
    let (one, n) = (mixed(), 4);
    let nan = f64::NAN;
    let lists: [&[f64]; 9] = [
        &[],
        &[1e-6; 4],
        &[1e-6; 3],
        &[1e-6],
        &[0.0; 4],
        &[1e-6, 1e-6, 1e-6, 1e-6, nan],
        &[1e-6, 1e-6, nan, 1e-6],
        &[1e-6, 1e-6, 1e-6, -5e-324],
        &[f64::MAX, f64::MAX, f64::MAX, 5.0, 0.0],
    ];
    for tolerances in lists {
        for (catchup, counts) in [(0, CAUSES), (1, CAUSES), (1 << 63, CAUSES), (0, CAUSES - 1), (0, NUMBERS)] {
            let mut call = Call { tolerances: tolerances.to_vec(), ..one.clone() };
            call.options.catchup = catchup;
            call.words[COUNTS] = counts;
            calls.push(call);
        }
        // 20 and 24 while a diode is behind
        for (itl1, budget) in [(0, 2000), (50, 1)] {
            let mut call = Call { tolerances: tolerances.to_vec(), ..one.clone() };
            call.options.itl1 = itl1;
            call.options.budget = budget;
            calls.push(call);
        }
    }
    // 13, 1, 2, 3 and 4 go before 5
    let faults: [fn(&mut Call); 5] =
        [|c| c.unknown = 4, |c| c.nodes = 0, |c| c.jobs -= 1, |c| c.points.push(0), |c| c.options.budget = 0];
    for fault in faults {
        let mut call = Call { tolerances: vec![0.0; n - 1], ..one.clone() };
        fault(&mut call);
        calls.push(call);
    }
    calls
}

/// One job of each cause: sound ones, one with its second diode behind, one refused, one by each verdict that a job can end with
/// while the others settle, one that the judge is refused for, one that it rejects.
fn mixed() -> Call {
    let first = || Build::dc(3, 1).d(0, 1, 1e-12, 27.0);
    let diode = |volt: f64, i_sat: f64| first().v(1, 0, volt, 0).r(1, 2, 1000.0).d(2, 0, i_sat, 27.0).job();
    let mut refused = diode(0.5, 1e-12);
    refused.sheet[80 + 4] = 9;
    let jobs = [
        diode(0.5, 1e-12),
        diode(5.0, 1e-12),
        refused,
        diode(0.5, f64::INFINITY),
        Build::dc(3, 1).c(1, 0, 1.0).r(2, 0, 1.0).i(0, 2, 1.0).d(2, 0, 1e-12, 27.0).job(),
        first().i(0, 1, 1.0).r(1, 0, 0.0).v(2, 0, 1.0, 0).job(),
        first().r(1, 0, 1.0).r(2, 0, 1.0).v(0, 0, 5.0, 0).job(),
        diode(-0.5, 1e-12),
        diode(0.5, 1e-12),
    ];
    let sheets = jobs.iter().flat_map(|j| j.sheet.clone()).collect();
    let mut call = Call { sound: true, jobs: jobs.len(), nodes: 3, sources: 1, unknown: 2, sheets, ..Call::empty() };
    call.fit();
    call
}

fn limits(sound: bool) -> Vec<Call> {
    let sheet = Build::dc(2, 1).v(1, 0, 1.0, 0).r(1, 0, 1.0).job().sheet;
    let with = |jobs: usize, nodes: u64, unknown: u64, sheet: &[u8], points: usize| {
        let points = vec![0; POINT * points];
        let sheets = sheet.repeat(jobs);
        let mut call = Call { sound, jobs, nodes, sources: 1, unknown, sheets, points, ..Call::empty() };
        call.fit();
        call
    };
    let long = sheet.repeat(129);
    let mut calls: Vec<Call> =
        [0, 1, 2, MOST_JOBS, MOST_JOBS + 1].iter().map(|jobs| with(*jobs, 2, 1, &sheet, 0)).collect();
    calls.extend([2, 3].iter().map(|unknown| with(3, 2, *unknown, &sheet, 0)));
    calls.extend([0, 47, 48].iter().map(|nodes| with(3, *nodes, 0, &sheet, 0)));
    calls.extend([0, 256, 257].iter().map(|records| with(2, 2, 1, &long[..RECORD * records], 0)));
    calls.extend([1024, 1025].iter().map(|points| with(3, 2, 1, &sheet, *points)));
    for which in 0..calls[0].buffers() {
        let mut call = with(3, 2, 1, &sheet, 0);
        *call.length(which) -= 1;
        calls.push(call);
    }
    calls
}

/// The call of a seed and a place; one in six is damaged as a whole.
pub fn call(seed: u64, place: u64) -> Call {
    drawn(&mut Random::new(seed ^ 0x5350_5245_4144_5321, place), false, generate::make)
}

/// The sound call of a seed and a place: likewise, with tolerances of every sort, and mostly circuits in which diodes are behind.
pub fn sound_call(seed: u64, place: u64) -> Call {
    drawn(&mut Random::new(seed ^ 0x534f_554e_4443_414c, place), true, generate::make)
}

/// The call of a seed and a place with coils in its circuit; at odd places it is a sound call.
pub fn coil_call(seed: u64, place: u64) -> Call {
    drawn(&mut Random::new(seed ^ 0x5350_5245_434f_494c, place), place % 2 == 1, generate::wound)
}

/// The same two as the bench runs them. In one of three the option for patterns is on, and sources have become patterns that start
/// away from zero; it is drawn from a stream of its own, so that the calls above, which are stored, stay what they are.
pub fn every_call(seed: u64, place: u64) -> Call {
    with_patterns(call(seed, place), &mut Random::new(seed ^ 0x5350_5241_5741_5921, place))
}

pub fn every_sound_call(seed: u64, place: u64) -> Call {
    with_patterns(sound_call(seed, place), &mut Random::new(seed ^ 0x534f_554e_4157_4159, place))
}

fn with_patterns(mut call: Call, r: &mut Random) -> Call {
    if !r.one_in(3) {
        return call;
    }
    call.options.pattern_first = generate::on(r);
    if refusal(&call) != 0 {
        return call;
    }
    let first = call.single(0);
    let mut points = first.pattern();
    let length = call.sheet_length();
    for (place, sort) in first.elements().iter().map(|e| e.kind).enumerate() {
        if !matches!(sort, 3 | 6 | 7) || r.one_in(3) {
            continue;
        }
        let pattern = generate::away(r, &[0.0, 0.25, 0.5, 0.75, 1.0, 1.25, 1.5, 1.75, 2.0], &mut points);
        for sheet in call.sheets.chunks_exact_mut(length) {
            let record = &mut sheet[place * RECORD..(place + 1) * RECORD];
            let mut e = Element::read(record);
            // one that is damaged stays so
            if e.kind != sort {
                continue;
            }
            pattern.put(&mut e);
            if r.one_in(3) {
                e.value[0] = r.pick(&[0.0, -0.0, 0.25, -0.25, -1.0, f64::NAN]);
            }
            record.copy_from_slice(&e.bytes());
        }
    }
    call.points = points.iter().flat_map(|p| [p.0.to_le_bytes(), p.1.to_le_bytes()].concat()).collect();
    call
}

/// The directed calls, and those about patterns that start away from zero, which are not stored.
pub fn every_directed() -> Vec<Call> {
    [directed(), away(false)].concat()
}

pub fn every_sound_directed() -> Vec<Call> {
    [sound_directed(), away(true)].concat()
}

/// One job for each delay, repeat and part of the points that matters at time 0; with every sort of word.
fn away(sound: bool) -> Vec<Call> {
    let points = [(0.0, 3.0), (1.0, 4.0), (1.0, 3.0), (2.0, 5.0), (-2.0, 7.0), (0.0, 6.0), (0.0, 8.0)];
    let one = |first: u16, count: u16, delay: f64, repeat: f64| {
        let mut job = Build::dc(3, 1).vpwl(1, 0, &points, repeat, 0).r(1, 2, 1.0).r(2, 0, 1.0).job();
        let mut elements = job.elements();
        let e = &mut elements[0];
        (e.first, e.count, e.value[0]) = (first, count, delay);
        job.set_elements(&elements);
        job
    };
    let mut jobs = Vec::new();
    for (first, count) in [(0, 0), (0, 1), (0, 2), (2, 2), (4, 1), (5, 2), (0, 7), (4, 2), (6, 2)] {
        for delay in [0.0, -0.0, 0.5, -0.5, -1.0, f64::NAN] {
            for repeat in [-1.0, -0.0, 1.0, f64::NAN] {
                jobs.push(one(first, count, delay, repeat));
            }
        }
    }
    let sheets: Vec<u8> = jobs.iter().flat_map(|j| j.sheet.clone()).collect();
    let tolerances = if sound { vec![1e-6; 4] } else { Vec::new() };
    let base = Call { sound, jobs: jobs.len(), nodes: 3, sources: 1, unknown: 2, sheets, tolerances, ..Call::empty() };
    let words = [0, 1, 2, 1 << 32, 1 << 63, u64::MAX];
    let with = |word: u64| {
        let mut call = Call { points: jobs[0].points.clone(), ..base.clone() };
        call.options.pattern_first = word;
        call.fit();
        call
    };
    words.iter().map(|word| with(*word)).collect()
}

/// Directed calls with coils, of both kinds: stored are those that are not sound calls.
pub fn coil_directed() -> Vec<Call> {
    [false, true].iter().flat_map(|sound| coil_calls(*sound)).collect()
}

/// One job of every sort that a coil can be in; a diode at the place of a coil that had a current; 256 coils; no coil but in the last
/// job.
pub fn coil_calls(sound: bool) -> Vec<Call> {
    let of = |jobs: Vec<Job>, unknown: u64| {
        let (nodes, sources) = (jobs[0].nodes, jobs[0].sources);
        let (options, points) = (jobs[0].options, jobs[0].points.clone());
        let sheets = jobs.iter().flat_map(|j| j.sheet.clone()).collect();
        let tolerances = if sound { vec![1e-6; (nodes + sources) as usize] } else { Vec::new() };
        let base = Call { sound, tolerances, ..Call::empty() };
        let mut call = Call { jobs: jobs.len(), nodes, sources, unknown, options, sheets, points, ..base };
        call.fit();
        call
    };
    let with = |change: fn(&mut Options)| {
        let mut jobs = coil_jobs();
        jobs.iter_mut().for_each(|j| change(&mut j.options));
        jobs
    };
    let last = |k: usize| Build::dc(2, 1).i(0, 1, 1.0).r(1, 0, 1.0 + k as f64);
    let alone = |k: usize| if k == 8 { last(k).l(1, 0, 1.0, 0).job() } else { last(k).v(1, 0, k as f64, 0).job() };
    let many = |k: usize| Build::dc(2, 1).i(0, 1, k as f64).r(1, 0, 1.0).l(1, 0, 0.5 * k as f64, 0).job();
    vec![
        of(coil_jobs(), 3),
        of(coil_jobs(), 4),
        of(coil_jobs(), 1),
        of(with(|o| o.itl1 = 0), 3),
        of(with(|o| o.budget = 1), 3),
        of(with(|o| (o.catchup, o.pattern_first) = (1, 1)), 3),
        of(after_coils(), 2),
        of((0..MOST_JOBS).map(many).collect(), 2),
        of((0..9).map(alone).collect(), 2),
        of((0..9).rev().map(alone).collect(), 2),
    ]
}

/// Nodes 3, sources 2, four records: coils that run, that are turned, in loops, at one node, at ground; sources in their place; coils
/// that share a number in either order, or are damaged otherwise.
fn coil_jobs() -> Vec<Job> {
    let sheet = || Build::dc(3, 2).i(0, 1, 1.0).r(1, 2, 2.0);
    let mut dirty = sheet().l(1, 0, 1.0, 0).l(2, 0, 1.0, 1).job();
    dirty.sheet[3 * RECORD + 33] = 1;
    let mut unknown = sheet().l(1, 0, 1.0, 0).l(2, 0, 1.0, 1).job();
    unknown.sheet[2 * RECORD] = 13;
    vec![
        sheet().l(2, 0, 0.5, 0).r(2, 0, 1.0).job(),
        sheet().l(0, 2, 0.5, 0).v(1, 0, 3.0, 1).job(),
        sheet().v(2, 0, 0.25, 0).l(1, 0, 3.0, 1).job(),
        sheet().l(1, 2, 1.0, 1).l(2, 0, 1.0, 0).job(),
        sheet().l(1, 0, 1.0, 0).l(1, 0, 1.0, 1).job(),
        sheet().l(1, 1, 1.0, 0).l(2, 0, 1.0, 1).job(),
        sheet().l(0, 0, 1.0, 0).v(2, 0, 1.0, 1).job(),
        sheet().v(2, 0, 1.0, 0).l(0, 0, 1.0, 1).job(),
        sheet().v(2, 0, 1.0, 0).l(2, 0, 1.0, 1).job(),
        sheet().l(2, 0, 1.0, 0).v(2, 0, 1.0, 1).job(),
        sheet().v(2, 0, 1.0, 0).l(1, 0, 1.0, 0).job(),
        sheet().l(2, 0, 1.0, 1).v(1, 0, 1.0, 1).job(),
        sheet().l(2, 0, 1.0, 1).l(1, 0, 1.0, 1).job(),
        sheet().l(2, 0, 1.0, 2).r(1, 0, 1.0).job(),
        sheet().l(2, 3, 1.0, 0).r(1, 0, 1.0).job(),
        sheet().v(2, 0, 1.0, 0).v(1, 0, 1.0, 0).job(),
        dirty,
        unknown,
        sheet().l(2, 0, f64::NAN, 0).v(1, 0, 4.0, 1).job(),
        sheet().l(2, 0, 0.0, 1).v(1, 0, 4.0, 0).job(),
        sheet().d(2, 0, 1e-12, 27.0).l(1, 0, 1.0, 0).job(),
    ]
}

/// A diode at the place where the job before it had a coil with 9 A. With a memory of 9 V it would settle a pass later, which is one
/// too late.
fn after_coils() -> Vec<Job> {
    let of = |b: Build| {
        let mut job = b.job();
        (job.options.boltzmann, job.options.charge, job.options.itl1) = (1.0, 363.0, 2);
        job
    };
    let coil = || of(Build::dc(2, 1).i(0, 1, 9.0).l(1, 0, 1.0, 0));
    let diode = || of(Build::dc(2, 1).v(1, 0, 1.0, 0).d(1, 0, 10.0, 0.0));
    vec![coil(), diode(), coil(), coil(), diode(), diode()]
}

/// A job of one sort, with coils or without.
type Make = fn(&mut Random, Sort) -> Job;

fn drawn(r: &mut Random, sound: bool, make: Make) -> Call {
    let sort = match r.below(20) {
        0..=7 => Sort::Sound,
        8..=12 => Sort::Round,
        13..=15 => Sort::Wild,
        16 => Sort::Counts,
        17 => Sort::OddOptions,
        18 => Sort::Short,
        _ => Sort::HotDiodes,
    };
    let sort = if sound && !r.one_in(3) { Sort::Clamped } else { sort };
    let plain = r.one_in(10);
    let (job, unknown) = if plain { source(r) } else { circuit(r, sort, sound, make) };
    let jobs = count(r, job.nodes + job.sources);
    let sheets = if plain { levels(r, &job, jobs) } else { sheets(r, &job, jobs) };
    let (nodes, sources, options, points) = (job.nodes, job.sources, job.options, job.points);
    let mut call = Call { sound, jobs, nodes, sources, unknown, options, sheets, points, ..Call::empty() };
    if sound {
        call.tolerances = tolerances(r, call.unknowns() as usize);
    }
    call.fit();
    if r.one_in(4) {
        for which in 0..call.buffers() {
            *call.length(which) += r.below(4);
        }
    }
    if r.one_in(6) {
        for _ in 0..1 + r.below(2) {
            damage(r, &mut call);
        }
    }
    call
}

/// The judge's tolerances: none, loose, tight or none at all, of one size or of any, now and then one that it is refused for, now and
/// then more than there are rows.
fn tolerances(r: &mut Random, n: usize) -> Vec<f64> {
    if r.one_in(4) {
        return Vec::new();
    }
    let one = match r.below(4) {
        0 => 0.0,
        1 => r.decades(-19.0, -12.0),
        _ => r.decades(-12.0, 0.0),
    };
    let even = r.one_in(2);
    let each = |r: &mut Random| if even { one } else { r.decades(-18.0, -2.0) };
    let mut list: Vec<f64> = (0..n).map(|_| each(r)).collect();
    if r.one_in(8) {
        list[r.below(n)] = r.pick(&[f64::NAN, f64::INFINITY, -1.0, -5e-324, -0.0]);
    }
    if r.one_in(6) {
        list.push(r.pick(&[f64::NAN, 0.0, 1.0]));
    }
    list
}

/// A circuit and an unknown of it: mostly one that settles, and there away from zero, so that sums and ties say something.
fn circuit(r: &mut Random, sort: Sort, sound: bool, make: Make) -> (Job, u64) {
    loop {
        let mut job = make(r, sort);
        job.transient = false;
        if sound && !r.one_in(4) {
            generate::loosen(r, &mut job.options);
        }
        if sound && r.one_in(3) {
            job.options.catchup = generate::on(r);
        }
        let n = (job.nodes + job.sources) as usize;
        let unknown = r.below(n);
        let run = model::run(&job, &OURS, Wrong::Nothing);
        let plain = run.verdict == 0 && run.buffers[VECTOR][unknown] != 0.0;
        let small = n <= 16 || r.one_in(6);
        if small && (plain || r.one_in(8)) {
            return (job, unknown as u64);
        }
    }
}

/// How many jobs: the limits often, fewer where the circuit is large.
fn count(r: &mut Random, unknowns: u64) -> usize {
    match r.below(8) {
        _ if unknowns > 16 => 1 + r.below(24),
        0 => MOST_JOBS - r.below(2),
        1 => 1 + r.below(2),
        2 => 212,
        _ => 1 + r.below(MOST_JOBS),
    }
}

/// The jobs' sheets end to end: the first as it is, then spreads of it, twins, other circuits and damaged ones.
fn sheets(r: &mut Random, job: &Job, jobs: usize) -> Vec<u8> {
    let faults = r.pick(&[0, 0, 4, 12, 40]);
    let wide = r.pick(&[0.0, 0.01, 0.2, 2.0]);
    let mut all: Vec<u8> = Vec::new();
    let mut before: Vec<Vec<u8>> = Vec::new();
    for k in 0..jobs {
        let mut other = job.clone();
        match r.below(16) {
            _ if k == 0 => {}
            0 | 1 => other.sheet = before[r.below(k)].clone(),
            2 => rewire(r, &mut other),
            _ => spread(r, &mut other, wide),
        }
        // in a circuit without coils nothing is drawn for them
        let coils = job.elements().iter().any(|e| e.is_coil());
        if faults > 0 && r.one_in(faults) {
            for _ in 0..1 + r.below(2) {
                if coils && r.one_in(2) && generate::damage_coil(r, &mut other) {
                    continue;
                }
                generate::damage_record(r, &mut other);
            }
        }
        all.extend_from_slice(&other.sheet);
        before.push(other.sheet);
    }
    all
}

/// A source across a resistor: its level, or that with the other sign, is the unknown to the last bit.
fn source(r: &mut Random) -> (Job, u64) {
    (Build::dc(2, 1).v(1, 0, 1.0, 0).r(1, 0, 1.0).job(), 1 + r.below(2) as u64)
}

/// Levels for exact sums: any finite bits, or all bits of long rows of limbs filled so that a carry runs through them.
fn levels(r: &mut Random, job: &Job, jobs: usize) -> Vec<u8> {
    let carries = r.one_in(2);
    let lowest = r.below(2046);
    let mut all = Vec::new();
    for k in 0..jobs {
        let field = if carries { (lowest + 53 * k) % 2046 } else { r.below(2047) } as u64;
        let digits = if carries && !r.one_in(60) { u64::MAX } else { r.next() } >> 12;
        let sign = if carries { 0 } else { r.next() << 63 };
        let mut elements = job.elements();
        elements[0].value[0] = f64::from_bits(sign | field << 52 | digits);
        if carries && r.one_in(20) {
            elements[0].value[0] = f64::from_bits((lowest as u64) << 52);
        }
        all.extend(elements.iter().flat_map(|e| e.bytes()));
    }
    all
}

/// Every number a little off, now and then another one.
fn spread(r: &mut Random, job: &mut Job, wide: f64) {
    let mut elements = job.elements();
    for e in elements.iter_mut() {
        let used = match e.kind {
            4 | 7 => 2,
            5 | 6 => 3,
            _ => 1,
        };
        for v in e.value.iter_mut().take(used) {
            *v *= 1.0 + wide * r.between(-1.0, 1.0);
            if r.one_in(200) {
                *v = r.any();
            }
        }
    }
    job.set_elements(&elements);
}

/// Other nodes here and there, and two records exchanged.
fn rewire(r: &mut Random, job: &mut Job) {
    let mut elements = job.elements();
    if elements.is_empty() {
        return;
    }
    for _ in 0..1 + r.below(3) {
        let k = r.below(elements.len());
        elements[k].b = r.below(job.nodes as usize) as u16;
    }
    let (i, k) = (r.below(elements.len()), r.below(elements.len()));
    elements.swap(i, k);
    job.set_elements(&elements);
}

/// A fault of the whole call: 13 and 1 to 5.
fn damage(r: &mut Random, call: &mut Call) {
    if call.sound && r.one_in(4) {
        // too few tolerances, but some; or too few counts
        match (r.one_in(3), call.tolerances.len()) {
            (false, length @ 2..) => call.tolerances.truncate((length - 1).min(1 + r.below(length))),
            _ => call.words[COUNTS] = CAUSES - 1 - r.below(2),
        }
        return;
    }
    match r.below(9) {
        0 => call.jobs = r.pick(&[0, MOST_JOBS + 1, 1 << 63, usize::MAX, 512]),
        1 => call.unknown = r.pick(&[call.nodes.wrapping_add(call.sources), 48, 1 << 32, u64::MAX]),
        2 => match r.below(5) {
            0 => call.nodes = 0,
            1 => call.nodes = 49 - call.sources.min(48),
            2 => call.nodes = u64::MAX,
            3 => call.sources = u64::MAX - r.below(3) as u64,
            _ => call.sources = 49,
        },
        3 => uneven(r, call),
        4 => {
            let add = if r.one_in(3) { 16 * 1025 } else { 1 + r.below(15) };
            call.points.extend(vec![0u8; add]);
        }
        5 => {
            let o = &mut call.options;
            match r.below(5) {
                0 => o.itl1 = 10_001,
                1 => o.itl3 = 10_001 + r.below(9) as u64,
                2 => o.itl4 = u64::MAX,
                3 => o.budget = 0,
                _ => o.budget = r.pick(&[1_000_001, u64::MAX]),
            }
        }
        _ => {
            let which = r.below(call.buffers());
            let short = 1 + r.below(3);
            let l = call.length(which);
            *l = if r.one_in(5) { 0 } else { l.saturating_sub(short) };
        }
    }
}

/// Sheets that are not whole, not of one length, or too long.
fn uneven(r: &mut Random, call: &mut Call) {
    match r.below(4) {
        0 => {
            let cut = call.sheets.len().saturating_sub(1 + r.below(39));
            call.sheets.truncate(cut);
        }
        1 => call.sheets.extend(vec![0u8; RECORD]),
        2 => {
            let (jobs, records) = (call.jobs.min(4), 256 + r.below(3));
            call.jobs = jobs;
            call.sheets = Element::new(2, 0, 0).bytes().repeat(jobs * records);
            call.floats[MEMORY] = records;
        }
        _ => call.jobs = call.jobs.wrapping_add(1),
    }
}
