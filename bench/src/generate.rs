//! Jobs from a seed and a place: all ten kinds of document 01 and coils, N from 1 to 48, sound circuits and wild ones,
//! odd options, short budgets and buffers, damaged calls.

use crate::job::*;
use crate::random::Random;

/// A kind that is none. It was 11 until that became a coil, and stands in its place, so that all else is drawn as before.
pub const UNKNOWN_KIND: u8 = 13;

/// Sorts of jobs, by what they are meant to reach.
#[derive(Clone, Copy, PartialEq, Debug)]
pub enum Sort {
    Sound,
    Round,
    Wild,
    Counts,
    OddOptions,
    Short,
    HotDiodes,
    FastSines,
    Damaged,
    /// Sources, and behind resistors nodes that diodes clamp, for the jobs that wait.
    Clamped,
    /// Patterns as sources, and behind resistors nodes with capacitors and a few diodes.
    Patterned,
    /// Sources, and behind resistors nodes with capacitors and a few diodes, for coils among them.
    Coiled,
}

fn sort(r: &mut Random) -> Sort {
    match r.below(100) {
        0..=34 => Sort::Sound,
        35..=54 => Sort::Round,
        55..=66 => Sort::Wild,
        67..=72 => Sort::Counts,
        73..=80 => Sort::OddOptions,
        81..=86 => Sort::Short,
        87..=90 => Sort::HotDiodes,
        91..=93 => Sort::FastSines,
        _ => Sort::Damaged,
    }
}

/// Mostly small, now and then up to the greatest.
fn size(r: &mut Random) -> usize {
    match r.below(24) {
        0 => 1,
        1..=12 => 2 + r.below(4),
        13..=19 => 4 + r.below(7),
        20..=22 => 10 + r.below(15),
        _ => 24 + r.below(25),
    }
}

struct Maker<'a> {
    r: &'a mut Random,
    sort: Sort,
    nodes: usize,
    points: Vec<(f64, f64)>,
}

impl<'a> Maker<'a> {
    fn node(&mut self) -> usize {
        if self.r.one_in(4) {
            0
        } else {
            self.r.below(self.nodes)
        }
    }

    fn level(&mut self) -> f64 {
        match self.sort {
            Sort::Wild => self.r.any(),
            Sort::Round => self.r.round(),
            Sort::HotDiodes => self.r.decades(-1.0, 4.0) * self.r.sign(),
            Sort::Clamped => self.r.between(1.0, 12.0) * self.r.sign(),
            _ => match self.r.below(4) {
                0 => self.r.round(),
                1 => self.r.between(-1.0, 1.0),
                _ => self.r.between(-12.0, 12.0),
            },
        }
    }

    fn ohms(&mut self) -> f64 {
        match self.sort {
            Sort::Wild => self.r.any(),
            Sort::Round => self.r.pick(&[0.5, 1.0, 1.0, 2.0, 4.0, 10.0, -1.0]),
            Sort::Clamped => self.r.decades(2.0, 6.0),
            _ => self.r.decades(-1.0, 6.0),
        }
    }

    fn pattern(&mut self) -> (usize, usize) {
        // sometimes the points of an earlier source again
        if !self.points.is_empty() && self.r.one_in(4) {
            return part(self.r, self.points.len());
        }
        let first = self.points.len();
        let count = match self.r.below(10) {
            0 => 0,
            1 => 1,
            _ => 2 + self.r.below(5),
        };
        let mut t = if self.r.one_in(3) { self.r.between(0.0, 0.5) } else { 0.0 };
        for i in 0..count {
            let v = match self.r.below(8) {
                0 => self.r.any(),
                1..=4 => self.r.round(),
                _ => self.r.between(-5.0, 5.0),
            };
            let level = if i == 0 && !self.r.one_in(3) { 0.0 } else { v };
            self.points.push((t, level));
            t += match self.r.below(12) {
                0 => 0.0,
                1 => -self.r.unit(),
                2..=6 => self.r.pick(&[0.1, 0.25, 0.5, 1.0]),
                _ => self.r.between(0.0, 1.0),
            };
            if self.r.one_in(60) {
                t = self.r.special();
            }
        }
        (first, count)
    }

    fn element(&mut self, kind: u8) -> Element {
        let a = self.node();
        let mut b = self.node();
        if a == b && !self.r.one_in(4) {
            b = if a == 0 { self.r.below(self.nodes) } else { 0 };
        }
        let mut e = Element::new(kind, a, b);
        match kind {
            1 => e.value[0] = self.ohms(),
            2 | 3 => e.value[0] = self.level(),
            4 => {
                e.value[0] = match self.sort {
                    Sort::Wild => self.r.any(),
                    Sort::HotDiodes => self.r.decades(-20.0, 3.0),
                    _ => match self.r.below(4) {
                        0 => 1e-12,
                        1 => 1.0,
                        _ => self.r.decades(-16.0, -6.0),
                    },
                };
                e.value[1] = match self.r.below(12) {
                    0 => self.r.between(-500.0, 500.0),
                    1 => self.r.pick(&[-363.0, 0.0, 27.0, -400.0]),
                    2 => self.r.any(),
                    _ => self.r.between(-60.0, 150.0),
                };
            }
            5 | 6 => {
                e.value[0] = if self.r.one_in(2) { 0.0 } else { self.level() };
                e.value[1] = self.level();
                e.value[2] = match self.sort {
                    Sort::FastSines => self.r.decades(4.0, 9.0),
                    Sort::Wild => self.r.any(),
                    _ => self.r.decades(-2.0, 4.0),
                };
            }
            7 => {
                let (first, count) = self.pattern();
                e.first = first as u16;
                e.count = count as u16;
                e.value[0] = match self.r.below(6) {
                    0 => self.r.between(-1.0, 1.0),
                    1 => self.r.any(),
                    _ => self.r.pick(&[0.0, 0.0, 0.1, 0.5]),
                };
                e.value[1] = match self.r.below(8) {
                    0 => self.r.any(),
                    1 => -0.0,
                    _ => self.r.pick(&[-1.0, 0.0, 1.0]),
                };
            }
            8 => {
                e.value[0] = match self.sort {
                    Sort::Wild => self.r.any(),
                    Sort::Round => self.r.pick(&[0.25, 0.5, 1.0, 2.0, 0.0]),
                    _ => self.r.decades(-12.0, 0.0),
                }
            }
            _ => {
                e.cp = self.node() as u16;
                e.cn = self.node() as u16;
                e.value[0] = match self.sort {
                    Sort::Wild => self.r.any(),
                    Sort::Round => self.r.round(),
                    _ => self.r.between(-10.0, 10.0),
                };
            }
        }
        e
    }
}

/// The first of some points that follow each other, of so many that there are, and their count.
fn part(r: &mut Random, points: usize) -> (usize, usize) {
    let first = r.below(points + 1);
    (first, r.below(points - first + 1))
}

/// Every node stands in a record: a bare one gets a resistor.
fn tie(m: &mut Maker, elements: &mut Vec<Element>) {
    for node in 1..m.nodes {
        let named = elements.iter().any(|e| {
            let n = node as u16;
            e.a == n || e.b == n || (e.has_controls() && (e.cp == n || e.cn == n))
        });
        if !named || m.r.one_in(2) {
            let mut e = m.element(1);
            e.a = node as u16;
            if m.r.one_in(2) {
                e.b = 0;
            }
            let at = m.r.below(elements.len() + 1);
            elements.insert(at, e);
        }
    }
}

/// Driven nodes, and behind a resistor each other node, with a diode to an earlier one or to ground.
fn clamps(m: &mut Maker, sources: usize, elements: &mut Vec<Element>) {
    let driven = sources.min(m.nodes.saturating_sub(1));
    for k in 0..driven {
        let kinds = match m.sort {
            Sort::Patterned => [7, 7, 7, 7, 3],
            Sort::Coiled => [3, 6, 7, 7, 7],
            _ => [3, 3, 3, 6, 7],
        };
        let kind = m.r.pick(&kinds);
        let mut e = m.element(kind);
        (e.a, e.b) = (1 + k as u16, 0);
        elements.push(e);
    }
    for k in driven + 1..m.nodes {
        let mut put = |m: &mut Maker, kind: u8, to: usize, turned: bool| {
            let mut e = m.element(kind);
            (e.a, e.b) = if turned { (to as u16, k as u16) } else { (k as u16, to as u16) };
            elements.push(e);
        };
        let before = m.r.below(k);
        put(m, 1, if driven > 0 { before.max(1) } else { before }, false);
        let to = if m.r.one_in(3) { m.r.below(k) } else { 0 };
        let turned = m.r.one_in(3);
        let clamp = match m.sort {
            Sort::Patterned => m.r.pick(&[1, 1, 8, 4]),
            Sort::Coiled => m.r.pick(&[1, 1, 1, 8, 8, 4]),
            _ => 4,
        };
        put(m, clamp, to, turned);
        for kind in [1, 8, 2] {
            if m.r.one_in(4) {
                put(m, kind, 0, false);
            }
        }
    }
}

fn options(r: &mut Random, sort: Sort) -> Options {
    let mut o = Options::usual();
    if r.one_in(3) {
        o.reltol = r.pick(&[1e-4, 1e-3, 1e-6, 0.0, 0.1]);
        o.vntol = r.pick(&[1e-6, 1e-9, 0.0, 1e-3]);
        o.abstol = r.pick(&[1e-9, 1e-12, 0.0, 1e-6]);
    }
    o.itl1 = r.pick(&[0, 1, 2, 5, 10, 50, 50, 100]);
    o.itl3 = r.pick(&[0, 1, 2, 3, 6, 6, 10]);
    o.itl4 = r.pick(&[0, 1, 2, 3, 5, 10, 10, 50]);
    o.tstep = match r.below(3) {
        0 => r.pick(&[1.0, 0.5, 0.1, 0.25]),
        _ => r.decades(-6.0, 0.0),
    };
    o.fs = r.pick(&[1.0, 1.0, 0.25, 0.5, 0.1]);
    o.ft = r.pick(&[0.25, 0.5, 0.125, 0.9, 1.0]);
    o.rmin = r.pick(&[0.1, 0.01, 1e-3, 1e-6, 1e-9, 0.5, 1e3]);
    o.rmax = r.pick(&[1.0, 2.0, 5.0, 5.0, 0.5, 10.0]);
    let steps = match r.below(8) {
        0 => 0.5,
        1..=5 => r.between(1.0, 12.0),
        _ => r.between(10.0, 40.0),
    };
    o.tstop = o.tstep * steps;
    o.tstart = match r.below(6) {
        0 => o.tstop * r.unit(),
        1 => o.tstop * r.between(0.5, 1.5),
        _ => 0.0,
    };
    o.budget = r.pick(&[300, 300, 600, 1000]);
    if sort == Sort::OddOptions {
        let mut w = o.words();
        for _ in 0..1 + r.below(3) {
            let i = r.below(COUNTS_AT);
            w[i] = match r.below(4) {
                0 => r.special().to_bits(),
                1 => r.round().to_bits(),
                2 => r.bits().to_bits(),
                _ => (-f64::from_bits(w[i])).to_bits(),
            };
        }
        if r.one_in(4) {
            w[COUNTS_AT + r.below(3)] = r.pick(&[0, 1, 9_999, 10_000]);
        }
        o = Options::of_words(w);
        o.budget = r.pick(&[1, 7, 40, 200]);
    }
    o
}

fn numbers(r: &mut Random, elements: &mut [Element]) -> usize {
    let sources = elements.iter().filter(|e| e.has_source()).count();
    let mut order: Vec<usize> = (0..sources).collect();
    match r.below(6) {
        0 => {
            for i in (1..sources).rev() {
                order.swap(i, r.below(i + 1));
            }
        }
        1 => order = (0..sources).map(|_| r.below(sources)).collect(),
        _ => {}
    }
    let mut next = 0;
    for e in elements.iter_mut().filter(|e| e.has_source()) {
        e.source = order[next] as u16;
        next += 1;
    }
    sources
}

/// The job of a seed and a place.
pub fn job(seed: u64, place: u64) -> (Job, Sort) {
    let mut r = Random::new(seed, place);
    let sort = sort(&mut r);
    (make(&mut r, sort), sort)
}

/// The job of a seed and a place with the option on: half of them the sorts above, half with diodes everywhere.
pub fn waiting(seed: u64, place: u64) -> (Job, Sort) {
    let mut r = Random::new(seed ^ 0x4341_5443_4855_5021, place);
    let sort = if r.one_in(2) { sort(&mut r) } else { Sort::Clamped };
    let mut job = make(&mut r, sort);
    if sort == Sort::Clamped {
        job.options.itl1 = r.pick(&[0, 1, 2, 5, 10, 50, 100]);
        job.options.itl4 = r.pick(&[1, 2, 3, 5, 10, 50]);
    }
    if !r.one_in(4) {
        loosen(&mut r, &mut job.options);
    }
    job.options.catchup = on(&mut r);
    (job, sort)
}

/// The job of a seed and a place with the option for patterns on, the other one on in one of four: one job in four is of the sorts
/// above, the others drive their nodes by patterns. Their patterns start away from zero, and steps meet points and ends.
pub fn first(seed: u64, place: u64) -> (Job, Sort) {
    let mut r = Random::new(seed ^ 0x5041_5454_4552_4e31, place);
    let sort = if r.one_in(4) { sort(&mut r) } else { Sort::Patterned };
    let mut job = make(&mut r, sort);
    if sort == Sort::Patterned {
        clock(&mut r, &mut job.options);
    }
    if sort != Sort::Damaged {
        let times = instants(&job.options);
        patterns(&mut r, &mut job, &times);
    }
    if r.one_in(4) {
        if r.one_in(2) {
            loosen(&mut r, &mut job.options);
        }
        job.options.catchup = on(&mut r);
    }
    job.options.pattern_first = on(&mut r);
    (job, sort)
}

/// The job of a seed and a place with coils in it: half of them ladders in which steps are cut and grow, half the sorts above. Either
/// option is on in one of four.
pub fn coils(seed: u64, place: u64) -> (Job, Sort) {
    let mut r = Random::new(seed ^ 0x494e_4455_4354_4f52, place);
    let sort = match r.below(12) {
        0..=5 => Sort::Coiled,
        6 | 7 => Sort::Round,
        8 => Sort::Wild,
        9 | 10 => sort(&mut r),
        _ => Sort::Damaged,
    };
    let whole = if sort == Sort::Damaged { r.pick(&[Sort::Coiled, Sort::Round, Sort::Sound]) } else { sort };
    let mut job = wound(&mut r, whole);
    if sort == Sort::Damaged {
        damage_coils(&mut r, &mut job);
    }
    (job, sort)
}

/// A job of one sort with coils in it.
pub fn wound(r: &mut Random, sort: Sort) -> Job {
    let mut job = make(r, sort);
    if sort == Sort::Coiled {
        rough(r, &mut job.options);
        quiet(r, &mut job);
    }
    if r.one_in(4) {
        job.options.pattern_first = on(r);
        if r.one_in(2) {
            let times = instants(&job.options);
            patterns(r, &mut job, &times);
        }
    }
    if r.one_in(4) {
        loosen(r, &mut job.options);
        job.options.catchup = on(r);
    }
    wind(r, &mut job, sort);
    job
}

/// Steps that are often cut and seldom become too small, and that grow.
fn rough(r: &mut Random, o: &mut Options) {
    o.itl1 = r.pick(&[0, 1, 2, 5, 10, 50, 100]);
    o.itl3 = r.pick(&[0, 2, 3, 6, 10]);
    o.itl4 = r.pick(&[1, 1, 1, 2, 3, 10, 50]);
    o.ft = r.pick(&[0.5, 0.5, 0.25, 0.9]);
    o.rmin = r.pick(&[1e-2, 1e-4, 1e-6, 1e-9]);
    if !r.one_in(3) {
        o.reltol = r.pick(&[0.01, 0.1, 0.5, 0.9, 0.9]);
        o.vntol = r.pick(&[1e-6, 1e-3, 0.1, 2.0]);
        o.abstol = r.pick(&[1e-6, 1e-3, 0.1, 2.0]);
    }
}

/// Patterns that mostly start at 0 V, so that DC has a level.
fn quiet(r: &mut Random, job: &mut Job) {
    let mut points = job.pattern();
    for e in job.elements().iter().filter(|e| e.kind == 7 && e.count > 0) {
        if !r.one_in(8) {
            points[e.first as usize].1 = 0.0;
        }
    }
    job.set_pattern(&points);
}

/// Puts coils into a job, mostly one to three, and gives all sources numbers anew: those of coils are last, first or anywhere.
fn wind(r: &mut Random, job: &mut Job, sort: Sort) {
    let mut elements = job.elements();
    let (before, mut coils) = (job.sources as usize, 0);
    let wanted = if r.one_in(8) { 1 + r.below(12) } else { 1 + r.below(3) };
    for _ in 0..wanted {
        if job.nodes + (before + coils) as u64 + 2 <= 48 && elements.len() < 255 {
            let mut coil = place_coil(r, job, &mut elements);
            coil.value[0] = henries(r, &job.options, sort);
            coil.source = (before + coils) as u16;
            let at = r.below(elements.len() + 1);
            elements.insert(at, coil);
            coils += 1;
        }
    }
    let all = before + coils;
    let mut order: Vec<u16> = (0..all as u16).collect();
    match r.below(4) {
        0 => {}
        1 => order.rotate_right(coils),
        _ => (1..all).rev().for_each(|i| order.swap(i, r.below(i + 1))),
    }
    for e in elements.iter_mut().filter(|e| e.has_source()) {
        e.source = order[e.source as usize];
    }
    job.sources = all as u64;
    job.set_elements(&elements);
    lend(r, job, sort);
}

/// A coil in series with an earlier record, at a node of its own; or beside one; or in place of one; or anywhere.
fn place_coil(r: &mut Random, job: &mut Job, elements: &mut Vec<Element>) -> Element {
    let some: Vec<usize> = (0..elements.len()).filter(|k| matches!(elements[*k].kind, 1 | 2 | 4 | 5 | 8)).collect();
    let (a, b) = (r.below(job.nodes as usize), r.below(job.nodes as usize));
    if some.is_empty() {
        return Element::new(COIL, a, b);
    }
    let k = r.pick(&some);
    let beside = Element { kind: COIL, value: [0.0; 3], ..elements[k] };
    // beside a source, or between two, DC has no one answer
    let driven = |n: u16| n == 0 || elements.iter().any(|e| e.has_source() && (e.a == n || e.b == n));
    let loops = driven(beside.a) && driven(beside.b);
    match r.below(12) {
        6 | 7 if !loops => beside,
        8 if !loops => {
            elements.remove(k);
            beside
        }
        9 => beside,
        10 => Element { b: 0, ..beside },
        11 => Element::new(COIL, a, b),
        _ => {
            let own = job.nodes as u16;
            job.nodes += 1;
            elements[k].b = own;
            Element { a: own, ..beside }
        }
    }
}

/// Henries that make a step's conductance one of the circuit's sizes, now and then any.
fn henries(r: &mut Random, o: &Options, sort: Sort) -> f64 {
    match sort {
        Sort::Wild => r.any(),
        Sort::Round => r.pick(&[0.25, 0.5, 0.5, 1.0, 2.0, 3.0, 4.0, 0.0, -1.0]),
        _ => match r.below(16) {
            0 => r.any(),
            1 => r.decades(-12.0, 3.0),
            _ => o.tstep * o.fs * r.decades(-2.0, 4.0),
        },
    }
}

/// A fault of a coil, and now and then another record's; or any fault of a job.
fn damage_coils(r: &mut Random, job: &mut Job) {
    if r.one_in(4) || !damage_coil(r, job) {
        damage(r, job);
    } else if r.one_in(4) {
        damage_record(r, job);
    }
}

/// A fault of a coil: mostly a number that it shares with some source, else one of its bytes. Says whether there is a coil.
pub fn damage_coil(r: &mut Random, job: &mut Job) -> bool {
    let elements = job.elements();
    let coils: Vec<usize> = (0..elements.len()).filter(|k| elements[*k].is_coil()).collect();
    let sources: Vec<usize> = (0..elements.len()).filter(|k| elements[*k].has_source()).collect();
    if coils.is_empty() {
        return false;
    }
    let coil = r.pick(&coils);
    match r.below(8) {
        0..=4 => {
            let (from, to) = if r.one_in(2) { (coil, r.pick(&sources)) } else { (r.pick(&sources), coil) };
            let number = elements[from].source.to_le_bytes();
            job.sheet[to * RECORD + 10..to * RECORD + 12].copy_from_slice(&number);
        }
        fault => damage_bytes(r, job, coil * RECORD, fault + 1),
    }
    true
}

/// Steps that mostly do not grow, so that their times are known beforehand.
fn clock(r: &mut Random, o: &mut Options) {
    o.tstep = r.pick(&[1.0, 0.5, 0.25, 0.1, 0.3, 1e-3]);
    o.fs = r.pick(&[1.0, 1.0, 1.0, 0.5, 0.1]);
    o.tstop = o.tstep * o.fs * (1 + r.below(10)) as f64;
    o.tstart = if r.one_in(6) { o.tstop * r.unit() } else { 0.0 };
    o.itl1 = r.pick(&[1, 2, 5, 10, 50]);
    o.itl3 = r.pick(&[0, 0, 0, 6]);
    o.itl4 = r.pick(&[2, 3, 5, 10, 10, 50]);
}

/// The times of steps that do not grow.
pub fn instants(o: &Options) -> Vec<f64> {
    let mut times = vec![0.0];
    for k in 0..12 {
        times.push(times[k] + o.tstep * o.fs);
    }
    times
}

/// A pattern's part of the points, its delay and its repeat.
pub struct Pattern {
    pub first: usize,
    pub count: usize,
    pub delay: f64,
    pub repeat: f64,
}

impl Pattern {
    /// A record of a source made one of this pattern.
    pub fn put(&self, e: &mut Element) {
        e.kind = 7;
        e.first = self.first as u16;
        e.count = self.count as u16;
        e.value = [self.delay, self.repeat, 0.0];
    }
}

/// Every pattern drawn anew, and half of the other sources made one.
fn patterns(r: &mut Random, job: &mut Job, times: &[f64]) {
    let mut elements = job.elements();
    let mut points = Vec::new();
    for e in elements.iter_mut() {
        if e.kind == 7 || matches!(e.kind, 3 | 6) && r.one_in(2) {
            away(r, times, &mut points).put(e);
        }
    }
    job.set_elements(&elements);
    job.set_pattern(&points);
}

/// A pattern that starts away from zero, its points and ends among the times given; the points are added to those there are.
pub fn away(r: &mut Random, times: &[f64], points: &mut Vec<(f64, f64)>) -> Pattern {
    let delay = away_delay(r, times);
    let repeat = away_repeat(r);
    // sometimes points of an earlier one again
    if !points.is_empty() && r.one_in(6) {
        let (first, count) = part(r, points.len());
        return Pattern { first, count, delay, repeat };
    }
    let first = points.len();
    away_points(r, times, points);
    let count = points.len() - first;
    if count > 0 {
        away_end(r, times, delay, &mut points[first..]);
    }
    Pattern { first, count, delay, repeat }
}

/// Often none, or a time that a step meets.
fn away_delay(r: &mut Random, times: &[f64]) -> f64 {
    let step = times[1];
    match r.below(12) {
        0..=4 => 0.0,
        5 => -0.0,
        6..=8 => times[1 + r.below(4)],
        9 => r.pick(&[f64::NAN, -step, step * 0.5, -0.5]),
        10 => step * r.between(0.0, 3.0),
        _ => r.any(),
    }
}

/// Mostly below 0 or above it, else at the edge between them.
fn away_repeat(r: &mut Random) -> f64 {
    match r.below(12) {
        0..=4 => -1.0,
        5 | 6 => 1.0,
        7 => 0.0,
        8 => -0.0,
        9 => f64::NAN,
        10 => r.pick(&[-5e-324, 5e-324, f64::NEG_INFINITY]),
        _ => r.any(),
    }
}

/// None to six points, mostly a step apart and rising.
fn away_points(r: &mut Random, times: &[f64], points: &mut Vec<(f64, f64)>) {
    let step = times[1];
    let count = match r.below(12) {
        0 => 0,
        1 | 2 => 1,
        3..=5 => 2,
        _ => 3 + r.below(4),
    };
    let mut t = match r.below(12) {
        0..=3 => 0.0,
        4..=6 => times[1 + r.below(3)],
        7 => -step * r.pick(&[1.0, 2.0, 0.5]),
        8 => step * r.unit(),
        9 => -0.0,
        10 => r.any(),
        _ => step * 0.5,
    };
    for _ in 0..count {
        let level = match r.below(12) {
            0 => 0.0,
            1 => r.any(),
            2..=6 => r.round(),
            _ => r.between(-5.0, 5.0),
        };
        points.push((t, level));
        t = match r.below(14) {
            0 => t,
            1 => t - step,
            2..=7 => t + step,
            8 => t + 2.0 * step,
            9 => t + step * 0.5,
            10 => t + step * r.unit(),
            11 => t - step * r.unit(),
            _ => times[r.below(8)],
        };
    }
}

/// Another last time now and then: 0, below 0, the first one's, one that is odd, or one that puts the end at a step.
fn away_end(r: &mut Random, times: &[f64], delay: f64, points: &mut [(f64, f64)]) {
    let start = points[0].0;
    let last = &mut points[points.len() - 1].0;
    match r.below(12) {
        0 => *last = r.pick(&[0.0, -0.0, start]),
        1 => *last = -times[1] * r.unit(),
        2 | 3 => *last = times[1 + r.below(8)] - delay,
        4 if r.one_in(3) => *last = r.special(),
        _ => {}
    }
}

/// The option on: any word but 0.
pub fn on(r: &mut Random) -> u64 {
    match r.below(8) {
        0 => r.next().max(1),
        1 => r.pick(&[2, 1 << 32, 1 << 63, u64::MAX]),
        _ => 1,
    }
}

/// Tolerances so wide that vectors agree before diodes have caught up. VNTOL, which these are asked by too, is wide less often.
pub fn loosen(r: &mut Random, o: &mut Options) {
    o.reltol = r.pick(&[1e-3, 1e-3, 0.01, 0.1, 0.5]);
    o.vntol = r.pick(&[1e-6, 1e-6, 1e-3, 0.05, 1.0]);
    o.abstol = r.pick(&[1e-6, 1e-3, 0.1, 10.0]);
}

/// A job of one sort.
pub fn make(r: &mut Random, sort: Sort) -> Job {
    // a pattern needs a node and a source
    let (least, driver) = if matches!(sort, Sort::Patterned | Sort::Coiled) { (3, 1) } else { (1, 0) };
    let unknowns = size(r).max(least);
    let most_sources = r.below((unknowns / 2).min(8) + 1).max(driver);
    let most_sources = if sort == Sort::Coiled { most_sources.min(2) } else { most_sources };
    let nodes = unknowns - most_sources.min(unknowns - 1);
    let options = options(r, sort);
    let transient = !r.one_in(4);
    let mut m = Maker { r, sort, nodes, points: Vec::new() };
    let mut elements = Vec::new();
    let count = match m.r.below(16) {
        0 => 0,
        1 => m.r.below(3 * nodes + 20),
        _ => 1 + m.r.below(2 * nodes + 2),
    };
    let mut sources = 0;
    let driven = matches!(sort, Sort::Clamped | Sort::Patterned | Sort::Coiled);
    if driven {
        clamps(&mut m, most_sources, &mut elements);
        sources = most_sources;
    }
    let count = if driven { m.r.below(3) } else { count };
    for _ in 0..count {
        let mut kind = match sort {
            Sort::HotDiodes if m.r.one_in(3) => 4,
            Sort::FastSines if m.r.one_in(3) => 5 + m.r.below(2) as u8,
            _ => m.r.pick(&[1, 1, 1, 2, 3, 3, 4, 4, 5, 6, 7, 7, 8, 8, 9, 10]),
        };
        if matches!(kind, 3 | 6 | 7 | 9) {
            if sources == most_sources {
                kind = m.r.pick(&[1, 2, 4, 5, 8, 10]);
            } else {
                sources += 1;
            }
        }
        let e = m.element(kind);
        elements.push(e);
    }
    if !m.r.one_in(40) {
        tie(&mut m, &mut elements);
    }
    let points = m.points.clone();
    // a job may repeat a record
    if !elements.is_empty() && r.one_in(12) {
        let mut e = elements[r.below(elements.len())];
        if e.has_source() {
            e = Element::new(1, e.a as usize, e.b as usize);
            e.value[0] = 1.0;
        }
        elements.push(e);
    }
    elements.truncate(256);
    let sources = numbers(r, &mut elements);
    let mut job = Job {
        transient,
        nodes: nodes as u64,
        sources: sources as u64,
        options,
        sheet: Vec::new(),
        points: Vec::new(),
        lengths: [0; 6],
    };
    job.set_elements(&elements);
    job.set_pattern(&points);
    if sort == Sort::Counts {
        counts(r, &mut job);
    }
    lend(r, &mut job, sort);
    if sort == Sort::Damaged {
        damage(r, &mut job);
    }
    job
}

/// Lends what the job needs, now and then a little more, or little.
fn lend(r: &mut Random, job: &mut Job, sort: Sort) {
    job.fit(200);
    if r.one_in(5) {
        for l in job.lengths.iter_mut() {
            *l += r.below(4);
        }
    }
    if sort == Sort::Short {
        shorten(r, job);
    }
}

/// Counts and constants that are not the Rust's own.
fn counts(r: &mut Random, job: &mut Job) {
    let spare = 48 - (job.nodes + job.sources);
    if spare > 0 && r.one_in(2) {
        job.nodes += 1 + r.below(spare.min(3) as usize) as u64;
    }
    let spare = 48 - (job.nodes + job.sources);
    if spare > 0 && r.one_in(2) {
        job.sources += 1 + r.below(spare.min(3) as usize) as u64;
    }
    if r.one_in(2) {
        let o = &mut job.options;
        match r.below(4) {
            0 => o.gmin = r.any(),
            1 => o.boltzmann = o.boltzmann * r.round(),
            2 => o.charge = r.any(),
            _ => {
                o.boltzmann = r.round();
                o.charge = r.round();
            }
        }
    }
}

/// A small budget, or room for few rows.
fn shorten(r: &mut Random, job: &mut Job) {
    let n = (job.nodes + job.sources) as usize;
    if r.one_in(2) {
        job.options.budget = 1 + r.below(20) as u64;
    }
    if job.transient && !r.one_in(4) {
        job.lengths[ROWS] = (n + 1) * (1 + r.below(8)) + r.below(n + 1);
    }
}

/// One or two faults, of every refusal from 1 to 10.
fn damage(r: &mut Random, job: &mut Job) {
    for _ in 0..1 + r.below(2) {
        damage_once(r, job);
    }
}

fn damage_once(r: &mut Random, job: &mut Job) {
    let byte = some_record(r, job);
    match r.below(10) {
        0 => match r.below(5) {
            0 => job.nodes = 0,
            1 => job.nodes = 49 - job.sources.min(48),
            2 => job.nodes = u64::MAX,
            3 => job.sources = u64::MAX - r.below(3) as u64,
            _ => job.sources = 49,
        },
        1 => {
            if r.one_in(3) {
                let mut e = Element::new(1, 0, 0);
                e.value[0] = 1.0;
                job.set_elements(&vec![e; 256 + r.below(3)]);
                job.lengths[MEMORY] = 260;
            } else {
                let cut = job.sheet.len().saturating_sub(1 + r.below(39));
                job.sheet.truncate(cut);
            }
        }
        2 => {
            if r.one_in(3) {
                job.set_pattern(&vec![(0.0, 1.0); 1024 + r.below(3)]);
            } else {
                let add = 1 + r.below(15);
                job.points.extend(vec![0u8; add]);
            }
        }
        3 => {
            let o = &mut job.options;
            match r.below(6) {
                0 => o.itl1 = 10_001,
                1 => o.itl3 = 10_001 + r.below(9) as u64,
                2 => o.itl4 = u64::MAX,
                3 => o.budget = 0,
                4 => o.budget = 1_000_001,
                _ => o.budget = u64::MAX,
            }
        }
        4 => {
            let which = r.below(6);
            let l = job.lengths[which];
            let n = (job.nodes.wrapping_add(job.sources)) as usize;
            job.lengths[which] = if which == ROWS { l.min(n.min(48)) } else { l.saturating_sub(1 + r.below(3)) };
        }
        fault => damage_bytes(r, job, byte, fault),
    }
}

/// Where a record begins.
fn some_record(r: &mut Random, job: &Job) -> usize {
    match job.sheet.len() / RECORD {
        0 => 0,
        records => RECORD * r.below(records),
    }
}

/// One fault in a record, of every refusal from 6 to 10.
pub fn damage_record(r: &mut Random, job: &mut Job) {
    let byte = some_record(r, job);
    let fault = 5 + r.below(5);
    damage_bytes(r, job, byte, fault);
}

fn damage_bytes(r: &mut Random, job: &mut Job, byte: usize, fault: usize) {
    if job.sheet.len() < RECORD {
        return;
    }
    match fault {
        5 => job.sheet[byte] = r.pick(&[0, UNKNOWN_KIND, 12, 99, 255]),
        6 => {
            let at = byte + 1 + r.below(39);
            job.sheet[at] = job.sheet[at].wrapping_add(1 + r.below(255) as u8);
        }
        7 => {
            let at = byte + r.pick(&[2, 4, 6, 8]);
            let node = r.pick(&[job.nodes.min(65535) as u16, 48, 255, 65535]);
            job.sheet[at..at + 2].copy_from_slice(&node.to_le_bytes());
        }
        8 => {
            let source = r.pick(&[job.sources.min(65535) as u16, 47, 65535]);
            job.sheet[byte + 10..byte + 12].copy_from_slice(&source.to_le_bytes());
        }
        _ => {
            let field = byte + r.pick(&[12, 14]);
            let x = r.pick(&[1u16, 2, 1025, 65535]);
            job.sheet[field..field + 2].copy_from_slice(&x.to_le_bytes());
            if r.one_in(2) {
                job.sheet[byte] = 7;
            }
        }
    }
}

#[cfg(test)]
mod tests {
    use super::*;
    use crate::model;
    use crate::spread_calls;

    fn kinds(sheet: &[u8]) -> Vec<u8> {
        sheet.chunks_exact(RECORD).map(|r| r[0]).collect()
    }

    #[test]
    fn streams_from_before_coils_draw_none() {
        let mut drawn = Vec::new();
        for place in 0..6_000 {
            drawn.extend([job, waiting, first].iter().flat_map(|draw| kinds(&draw(1, place).0.sheet)));
        }
        for place in 0..60 {
            drawn.extend(
                [spread_calls::call, spread_calls::sound_call].iter().flat_map(|draw| kinds(&draw(1, place).sheets)),
            );
        }
        assert!(drawn.contains(&UNKNOWN_KIND));
        assert!(!drawn.contains(&COIL));
    }

    #[test]
    fn a_job_with_coils_is_refused_only_where_it_is_damaged() {
        let (mut with, mut shared) = (0, 0);
        for place in 0..6_000 {
            let (job, sort) = coils(1, place);
            let elements = job.elements();
            let (number, at) = model::refusal(&job);
            assert!(number == 0 || sort == Sort::Damaged, "job {}", place);
            with += elements.iter().any(|e| e.is_coil()) as u64;
            shared += (number == 9 && (elements[at as usize].source as u64) < job.sources) as u64;
        }
        assert!(with > 5_700, "{}", with);
        assert!(shared > 60, "{}", shared);
    }

    #[test]
    fn coils_have_the_last_number_and_others() {
        let mut last = [0; 2];
        for place in 0..2_000 {
            let (job, _) = coils(2, place);
            for e in job.elements().iter().filter(|e| e.is_coil()) {
                last[(e.source as u64 + 1 == job.sources) as usize] += 1;
            }
        }
        assert!(last.iter().all(|count| *count > 500), "{:?}", last);
    }
}
