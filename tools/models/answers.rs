//! Asks the published Rust's element models and writes what they answer, in the form that crates/models_replay reads.
//! An entry is a row of eight-byte little-endian numbers:
//!   patterns    first, count, t_delay, repeat, t, level, then six points of time and level
//!   patterns_first  the same by the rule of the option pattern_first, which the Rust has not: its sentences are written out here
//!   capacitors  value, v_prev, t_delta, g, i
//!   diodes      gmin, boltzmann, charge, i_sat, tdegc, v_hat, v_d_prev, verdict, g, i, memory
//!   situations  the same, then the situation of the limiting rule, 1 to 5 in the order in which they are asked for
//!   sines       vo, va, freq, t, verdict, level
//! Counts and verdicts are whole numbers, all others floats; every NaN is written as one.

macro_rules! println { ($($arg:tt)*) => {}; }

mod capacitor;
mod diode;
mod functions;
mod isine;
mod vpwl;
mod vsine;

/// The form in which the file of functions offers them.
mod recorder {
    pub struct Functions {
        pub exp: fn(f64) -> f64,
        pub ln: fn(f64) -> f64,
        pub sin: fn(f64) -> Option<f64>,
    }
}

/// What the element files take from their circuit; the three constants are handed in.
#[allow(non_snake_case)]
mod circuit {
    use std::cell::Cell;
    pub type NodeId = usize;
    thread_local!(pub static CONSTANTS: Cell<[f64; 3]> = Cell::new([0.0; 3]));
    pub fn GMIN() -> f64 {
        CONSTANTS.with(|c| c.get()[0])
    }
    pub fn BOLTZMANN() -> f64 {
        CONSTANTS.with(|c| c.get()[1])
    }
    pub fn CHARGE() -> f64 {
        CONSTANTS.with(|c| c.get()[2])
    }
}

pub trait Proved {
    fn proved_exp(self) -> f64;
    fn proved_ln(self) -> f64;
    fn proved_sin(self) -> f64;
}

impl Proved for f64 {
    fn proved_exp(self) -> f64 {
        functions::exp(self)
    }
    fn proved_ln(self) -> f64 {
        functions::ln(self)
    }
    fn proved_sin(self) -> f64 {
        functions::sin(self).expect("refused")
    }
}

use std::collections::HashSet;
use std::convert::TryInto;
use std::fs;
use std::panic;

const PATTERNS: usize = 1200;
const PATTERNS_FIRST: usize = 900;
const CAPACITORS: usize = 600;
const DIODES: usize = 1000;
const SITUATIONS: usize = 1200;
const SINES: usize = 600;

/// A row of numbers, as it is written.
struct Row(Vec<u8>);

impl Row {
    fn new() -> Row {
        Row(vec![])
    }
    fn count(mut self, n: u64) -> Row {
        self.0.extend_from_slice(&n.to_le_bytes());
        self
    }
    fn float(self, x: f64) -> Row {
        let bits = if x.is_nan() { 0x7ff8000000000000 } else { x.to_bits() };
        self.count(bits)
    }
    fn floats(self, xs: &[f64]) -> Row {
        xs.iter().fold(self, |r, x| r.float(*x))
    }
}

/// Numbers that a model may meet: ordinary ones, round ones, the ends of the floats, any bits.
struct Source(u64);

impl Source {
    fn next(&mut self) -> u64 {
        self.0 = self.0.wrapping_add(0x9e3779b97f4a7c15);
        let mut z = self.0;
        z = (z ^ (z >> 30)).wrapping_mul(0xbf58476d1ce4e5b9);
        z = (z ^ (z >> 27)).wrapping_mul(0x94d049bb133111eb);
        z ^ (z >> 31)
    }
    fn below(&mut self, n: u64) -> u64 {
        self.next() % n
    }
    fn of(&mut self, xs: &[f64]) -> f64 {
        xs[self.below(xs.len() as u64) as usize]
    }
    fn between(&mut self, a: f64, b: f64) -> f64 {
        a + (b - a) * (self.next() >> 11) as f64 / (1u64 << 53) as f64
    }
    /// A small whole number of quarters.
    fn round(&mut self) -> f64 {
        (self.below(33) as f64 - 16.0) / 4.0
    }
    fn special(&mut self) -> f64 {
        let x = self.of(&[
            0.0,
            1.0,
            2.0,
            0.5,
            f64::INFINITY,
            f64::NAN,
            f64::MIN_POSITIVE,
            f64::from_bits(1),
            f64::from_bits(0x000f_ffff_ffff_ffff),
            f64::MAX,
            1e300,
            1e-300,
            3.0,
            1e-12,
        ]);
        if self.below(2) == 0 {
            -x
        } else {
            x
        }
    }
    fn any(&mut self) -> f64 {
        match self.below(4) {
            0 => f64::from_bits(self.next()),
            1 => self.special(),
            2 => self.round(),
            _ => self.between(-10.0, 10.0),
        }
    }
    /// x, or one float above or below it.
    fn near(&mut self, x: f64) -> f64 {
        match self.below(4) {
            0 => f64::from_bits(x.to_bits().wrapping_add(1)),
            1 => f64::from_bits(x.to_bits().wrapping_sub(1)),
            _ => x,
        }
    }
}

// ---- patterns

/// A way to make a row: first, count, delay, repeat, time and points.
type Made = fn(usize, usize, f64, f64, f64, &[(f64, f64); 6]) -> Row;

fn source(first: usize, count: usize, delay: f64, repeat: f64, points: &[(f64, f64); 6]) -> vpwl::VoltageSourcePwl {
    let at = |k: usize| if k < 6 { points[k] } else { (0.0, 0.0) };
    vpwl::VoltageSourcePwl {
        p: 0,
        n: 0,
        pat: (first..first + count).map(at).collect(),
        t_delay: delay,
        repeat: repeat,
        idx: 0,
    }
}

fn row(first: usize, count: usize, numbers: &[f64; 4], points: &[(f64, f64); 6]) -> Row {
    let row = Row::new().count(first as u64).count(count as u64).floats(numbers);
    points.iter().fold(row, |r, p| r.floats(&[p.0, p.1]))
}

fn pattern(first: usize, count: usize, delay: f64, repeat: f64, t: f64, points: &[(f64, f64); 6]) -> Row {
    let level = source(first, count, delay, repeat, points).evaluate(t);
    row(first, count, &[delay, repeat, t, level], points)
}

/// With the option on: the request's sentences in their order, then the Rust.
fn pattern_first(first: usize, count: usize, delay: f64, repeat: f64, t: f64, points: &[(f64, f64); 6]) -> Row {
    let s = source(first, count, delay, repeat, points);
    let level = if count == 0 || t < delay {
        0.0
    } else {
        let (start, end) = (s.pat[0], s.pat[count - 1]);
        if repeat < 0.0 && t >= delay + end.0 {
            end.1
        } else if count == 1 || !((t - delay) % end.0 > start.0) {
            start.1
        } else {
            s.evaluate(t)
        }
    };
    row(first, count, &[delay, repeat, t, level], points)
}

/// What the option is about: first points away from zero, single points, delays, ends as sums, last times of 0 and below.
fn known_first() -> Vec<Row> {
    let z = (0.0, 0.0);
    let mut rows = known_patterns(pattern_first);
    let lists = [
        (2, [(0.0, 3.0), (1.0, 4.0), z, z, z, z]),
        (2, [(1.0, 3.0), (2.0, 5.0), z, z, z, z]),
        (3, [(1.0, 3.0), (0.0, 5.0), (2.0, 7.0), z, z, z]),
        (2, [(-2.0, 3.0), (-1.0, 5.0), z, z, z, z]),
        (2, [(-1.0, 3.0), (0.0, 5.0), z, z, z, z]),
        (1, [(1.0, 7.0), z, z, z, z, z]),
        (1, [(-2.0, 7.0), z, z, z, z, z]),
        (1, [(f64::NAN, 7.0), z, z, z, z, z]),
    ];
    for &(count, points) in &lists {
        for &repeat in &[-1.0, 1.0] {
            for &(delay, t) in &[(0.0, 0.0), (0.0, 0.5), (0.0, 2.0), (0.0, 2.5), (1.0, 0.5), (1.0, 1.0), (1.0, 3.0), (f64::NAN, 0.5)] {
                rows.push(pattern_first(0, count, delay, repeat, t, &points));
            }
        }
    }
    let sum = [(0.0, 3.0), (1.4, 4.0), z, z, z, z];
    for &bits in &[0x3ffc_a3d7_0a3d_70a3, 0x3ffc_a3d7_0a3d_70a4] {
        rows.push(pattern_first(0, 2, 0.39, -1.0, f64::from_bits(bits), &sum));
    }
    rows
}

/// Cases g and h, and the ends that a pattern seldom meets.
fn known_patterns(pattern: Made) -> Vec<Row> {
    let z = (0.0, 0.0);
    let ramp = [(0.0, 0.0), (1.0, 4.0), z, z, z, z];
    let high = [(0.0, 3.0), (1.0, 4.0), z, z, z, z];
    let back = [(0.0, 3.0), (-1.0, 4.0), z, z, z, z];
    let lone = [(0.0, 3.0), z, z, z, z, z];
    let mut rows = vec![];
    for repeat in &[-1.0, 0.0, -0.0, 1.0, f64::NAN, f64::NEG_INFINITY] {
        for t in &[0.5, 1.0, 2.0, -0.5, 0.0, -0.0, 2.5, -1.0, 1e300, f64::INFINITY, f64::NAN] {
            rows.push(pattern(0, 2, 0.0, *repeat, *t, &ramp));
            rows.push(pattern(0, 2, 0.0, *repeat, *t, &high));
            rows.push(pattern(0, 2, 0.0, *repeat, *t, &back));
            rows.push(pattern(0, 1, 0.0, *repeat, *t, &lone));
            rows.push(pattern(1, 0, 0.0, *repeat, *t, &ramp));
        }
    }
    rows.push(pattern(4, 4, 0.0, 1.0, 0.5, &ramp));
    rows.push(pattern(6, 2, 0.0, 1.0, 0.5, &ramp));
    rows
}

fn some_pattern(s: &mut Source) -> Row {
    drawn(s, pattern)
}

fn some_first(s: &mut Source) -> Row {
    drawn(s, pattern_first)
}

fn drawn(s: &mut Source, pattern: Made) -> Row {
    let wild = s.below(4);
    let mut points = [(0.0, 0.0); 6];
    let mut t = if s.below(2) == 0 { 0.0 } else { s.between(0.0, 1.0) };
    for p in points.iter_mut() {
        *p = (t, if s.below(2) == 0 { s.round() } else { s.between(-5.0, 5.0) });
        t += if s.below(3) == 0 { s.of(&[0.0, 0.25, 0.5, 1.0]) } else { s.between(0.0, 1.0) };
        if wild == 0 {
            *p = (s.any(), s.any());
        }
    }
    if wild == 1 {
        points[s.below(6) as usize].0 = s.special();
    }
    let first = s.below(4) as usize;
    let beyond = (s.below(8) == 0) as u64;
    let count = 1 + s.below(6 - first as u64 + beyond) as usize;
    let last = points[(first + count - 1).min(5)].0;
    let delay = if s.below(2) == 0 { 0.0 } else { s.round() };
    let delay = if wild == 0 { s.any() } else { delay };
    let repeat = s.of(&[-1.0, -1.0, 1.0, 0.0, -0.0, f64::NAN]);
    let t = match s.below(6) {
        0 => delay + last,
        1 => delay + points[s.below(6) as usize].0,
        2 => delay + last * s.below(5) as f64,
        3 => s.any(),
        _ => s.between(-1.0, 8.0),
    };
    let t = s.near(t);
    pattern(first, count, delay, repeat, t, &points)
}

// ---- capacitors

fn capacitor(value: f64, v: f64, step: f64) -> Row {
    let (g, i) = capacitor::Capacitor::new("C", 0, 0, value).linearize(v, step);
    Row::new().floats(&[value, v, step, g, i])
}

fn some_capacitor(s: &mut Source) -> Row {
    if s.below(2) == 0 {
        return capacitor(s.between(0.0, 1e-3), s.between(-10.0, 10.0), s.between(0.0, 1e-3));
    }
    capacitor(s.any(), s.any(), s.any())
}

// ---- diodes

fn diode(constants: [f64; 3], i_sat: f64, tdegc: f64, v: f64, memory: f64) -> Row {
    circuit::CONSTANTS.with(|c| c.set(constants));
    let d = diode::Diode::new("D", 0, 0, i_sat, tdegc);
    d.v_d_prev.set(memory);
    let row = Row::new().floats(&constants).floats(&[i_sat, tdegc, v, memory]);
    match panic::catch_unwind(panic::AssertUnwindSafe(|| d.linearize(v, 0.0))) {
        Ok((g, i)) => row.count(0).floats(&[g, i, d.v_d_prev.get()]),
        Err(_) => row.count(22).floats(&[0.0, 0.0, d.v_d_prev.get()]),
    }
}

const PUBLISHED: [f64; 3] = [1e-12, 1.3806488e-23, 1.603e-19];

/// A thermal voltage of vt exactly.
fn exactly(gmin: f64, vt: f64) -> [f64; 3] {
    [gmin, vt, 1.0]
}

/// The edges of the five situations, with a thermal voltage that is a round number, the critical voltage among them; a conductance that is a NaN; a current that is not finite
/// beside a conductance that is, and the other way round.
fn known_diodes() -> Vec<Row> {
    let mut rows = vec![];
    for vt in &[1.0, -1.0, 0.5, -4.0, 0.0, f64::INFINITY] {
        for memory in &[0.0, -0.0, 1.0, -1.0, 0.25, f64::NAN] {
            for v in &[0.0, 1.0, 2.0, 3.0, -1.0, -3.0, 0.5, 1.25, f64::NAN] {
                rows.push(diode(exactly(1e-12, *vt), 1.0, -362.0, *v, *memory));
            }
        }
    }
    for i_sat in &[1e-3, 1e-12, 0.25] {
        let critical = functions::ln(1.0 / (2.0_f64.sqrt() * i_sat));
        for v in &[critical, f64::from_bits(critical.to_bits() - 1), f64::from_bits(critical.to_bits() + 1)] {
            rows.push(diode(exactly(1e-12, 1.0), *i_sat, -362.0, *v, -5.0));
        }
    }
    rows.push(diode(exactly(0.5, 1.0), 0.0, -362.0, f64::INFINITY, 0.0));
    rows.push(diode(exactly(0.5, 0.0), 1.0, -362.0, 0.0, 0.0));
    rows.push(diode(exactly(f64::NAN, 1.0), 1e-3, -362.0, 0.5, 0.5));
    rows.push(diode(exactly(f64::INFINITY, 1.0), 1e-3, -362.0, 0.5, 0.5));
    rows.push(diode(exactly(1.0, 1e-300), 1e10, -362.0, 1e-300, 0.0));
    rows.push(diode(exactly(1.0, 1.0), 1e300, -362.0, 300.0, 300.0));
    rows
}

fn some_diode(s: &mut Source) -> Row {
    let i_sat = s.of(&[1e-12, 1e-14, 1e-15, 1e-9]) * s.between(0.5, 2.0);
    let tdegc = s.of(&[27.0, -62.85, 25.0, 100.0]);
    match s.below(4) {
        0 => diode([s.any(), s.any(), s.any()], s.any(), s.any(), s.any(), s.any()),
        1 => diode(exactly(s.between(0.0, 1.0), s.of(&[1.0, 0.5, 0.25, -1.0, -0.5])), s.between(0.0, 2.0), -362.0, s.round(), s.round()),
        2 => diode(PUBLISHED, i_sat, tdegc, s.between(-20.0, 20.0), s.between(-1.0, 1.0)),
        _ => diode(PUBLISHED, i_sat, tdegc, s.between(0.3, 1.2), s.between(0.3, 1.0)),
    }
}

// ---- the situations of a diode

const SITUATION_NAMES: [&str; 5] = ["a small step", "below critical", "a turn-on", "a fall back", "a climb"];

/// Which situation holds, and the voltage that its formula takes, by the Rust's own thermal and critical voltage.
fn situation(d: &diode::Diode, v: f64, memory: f64) -> (u64, f64) {
    let (vt, delta) = (d.v_thermal, v - memory);
    let arg = 1.0 + delta / vt;
    if delta.abs() <= 2.0 * vt {
        (1, v)
    } else if v < d.v_crit {
        (2, v)
    } else if memory <= 0.0 {
        (3, vt * functions::ln(v / vt))
    } else if arg <= 0.0 {
        (4, d.v_crit)
    } else {
        (5, memory + vt * functions::ln(arg))
    }
}

/// A diode's row with its situation. Where the Rust has a model, the voltage that it took must be that of the situation's formula.
fn situated(constants: [f64; 3], i_sat: f64, tdegc: f64, v: f64, memory: f64) -> Row {
    let row = diode(constants, i_sat, tdegc, v, memory);
    let d = diode::Diode::new("D", 0, 0, i_sat, tdegc);
    let (number, taken) = situation(&d, v, memory);
    d.v_d_prev.set(memory);
    if panic::catch_unwind(panic::AssertUnwindSafe(|| d.linearize(v, 0.0))).is_ok() {
        assert_eq!(d.v_d_prev.get().to_bits(), taken.to_bits());
    }
    row.count(number)
}

/// The float next to x, up or down; an infinity and a NaN have none.
fn next(x: f64, up: bool) -> f64 {
    let least = f64::from_bits(1);
    if !x.is_finite() {
        return x;
    }
    if x == 0.0 {
        return if up { least } else { -least };
    }
    let away = (x > 0.0) == up;
    f64::from_bits(if away { x.to_bits() + 1 } else { x.to_bits() - 1 })
}

/// Every edge from both sides: steps of two thermal voltages up and down, an argument of 0, the critical voltage, and memories beside either zero; then infinities and NaN.
/// With a saturation current of `level` the critical voltage is 0 at a thermal voltage of 1; negated it is so at -1, where alone an argument can be 0.
fn known_situations() -> Vec<Row> {
    let level = f64::from_bits(0x3fe6a09e667f3bcc);
    let least = f64::from_bits(1);
    let mut rows = vec![];
    let diodes = [(1.0, level), (1.0, 10.0), (0.03125, 1e-12), (-1.0, -level), (-1.0, level), (1.0, 0.0), (1.0, f64::INFINITY)];
    for &(vt, i_sat) in &diodes {
        circuit::CONSTANTS.with(|c| c.set(exactly(1e-12, vt)));
        let critical = diode::Diode::new("D", 0, 0, i_sat, -362.0).v_crit;
        for &memory in &[0.0, -0.0, least, -least, 1.0, 5.0, -1.0, f64::INFINITY, f64::NAN] {
            let edges = [memory + 2.0 * vt, memory - 2.0 * vt, memory - vt, critical];
            let near = edges.iter().flat_map(|x| vec![*x, next(*x, true), next(*x, false)]);
            let far = vec![2.0, 3.0, 9.0, -2.5, f64::INFINITY, f64::NEG_INFINITY, f64::NAN];
            rows.extend(near.chain(far).map(|v| situated(exactly(1e-12, vt), i_sat, -362.0, v, memory)));
        }
    }
    for &vt in &[0.0, -0.0, f64::INFINITY, f64::NAN] {
        for &i_sat in &[1e-12, 0.0, f64::NAN] {
            for &(v, memory) in &[(0.0, 0.0), (1.0, 0.0), (1.0, 0.5), (0.5, 1.0), (-1.0, 0.5)] {
                rows.push(situated(exactly(1e-12, vt), i_sat, -362.0, v, memory));
            }
        }
    }
    let mut seen = HashSet::new();
    rows.into_iter().filter(|r| seen.insert(r.0.clone())).collect()
}

/// A usual diode at voltages that reach every situation.
fn some_situation(s: &mut Source) -> Row {
    let i_sat = s.of(&[1e-12, 1e-14, 1e-15, 1e-9]) * s.between(0.5, 2.0);
    let memory = if s.below(3) == 0 { 0.0 } else { s.between(-0.2, 2.0) };
    situated(PUBLISHED, i_sat, s.of(&[27.0, -62.85, 25.0, 100.0]), s.between(-1.0, 3.0), memory)
}

/// Every situation must be met, with a model and not 22.
fn well_met(rows: &[Row]) {
    let word = |r: &Row, at: usize| u64::from_le_bytes(r.0[8 * at..8 * at + 8].try_into().unwrap());
    for (k, name) in SITUATION_NAMES.iter().enumerate() {
        let met = rows.iter().filter(|r| word(r, 11) == k as u64 + 1 && word(r, 7) == 0).count();
        assert!(met >= 20, "{} is met by {} rows", name, met);
    }
}

// ---- sines

fn sine(vo: f64, va: f64, freq: f64, t: f64) -> Row {
    let i = isine::CurrentSourceSine { p: 0, n: 0, vo: vo, va: va, freq: freq };
    let v = vsine::VoltageSourceSine { p: 0, n: 0, vo: vo, va: va, freq: freq, idx: 0 };
    let row = Row::new().floats(&[vo, va, freq, t]);
    match (panic::catch_unwind(|| i.evaluate(t)), panic::catch_unwind(|| v.evaluate(t))) {
        (Ok(x), Ok(y)) => {
            assert!(x.to_bits() == y.to_bits() || (x.is_nan() && y.is_nan()));
            row.count(0).float(x)
        }
        (Err(_), Err(_)) => row.count(26).float(0.0),
        _ => panic!("the two sines differ"),
    }
}

fn some_sine(s: &mut Source) -> Row {
    let far = 1048576.0 / (2.0 * std::f64::consts::PI);
    match s.below(4) {
        0 => sine(s.any(), s.any(), s.any(), s.any()),
        1 => {
            let freq = s.near(far);
            sine(s.round(), s.round(), freq, 1.0)
        }
        2 => sine(s.round(), s.round(), s.between(0.0, 1e6), s.between(0.0, 0.2)),
        _ => sine(s.between(-5.0, 5.0), s.between(-5.0, 5.0), s.between(0.0, 1000.0), s.between(0.0, 1.0)),
    }
}

/// Zeros, infinities and NaNs, and frequencies so small that the order of the products shows.
fn known_sines() -> Vec<Row> {
    let mut rows = vec![];
    for t in &[0.0, -0.0, 1.0, f64::INFINITY, f64::NAN, 1e300] {
        for freq in &[0.0, -0.0, 50.0, f64::INFINITY, f64::NAN] {
            for va in &[1.0, 0.0, -0.0, f64::INFINITY] {
                rows.push(sine(-0.0, *va, *freq, *t));
            }
        }
    }
    for units in 1..9 {
        rows.push(sine(0.0, 1.0, f64::from_bits(units), 1e308));
    }
    rows
}

// ---- files

fn write(folder: &str, name: &str, rows: Vec<Row>) {
    let bytes: Vec<u8> = rows.iter().flat_map(|r| r.0.iter().cloned()).collect();
    fs::write(format!("{}/{}", folder, name), bytes).unwrap();
    print!("{}: {} answers, 0 differ\n", name, rows.len());
}

fn filled(mut rows: Vec<Row>, n: usize, seed: u64, one: fn(&mut Source) -> Row) -> Vec<Row> {
    let mut s = Source(seed);
    while rows.len() < n {
        rows.push(one(&mut s));
    }
    rows
}

fn main() {
    panic::set_hook(Box::new(|_| {}));
    let folder = std::env::args().nth(1).expect("the folder to write to");
    write(&folder, "patterns", filled(known_patterns(pattern), PATTERNS, 1, some_pattern));
    write(&folder, "patterns_first", filled(known_first(), PATTERNS_FIRST, 5, some_first));
    write(&folder, "capacitors", filled(vec![capacitor(1.0, 3.0, 0.5)], CAPACITORS, 2, some_capacitor));
    write(&folder, "diodes", filled(known_diodes(), DIODES, 3, some_diode));
    let situations = filled(known_situations(), SITUATIONS, 6, some_situation);
    well_met(&situations);
    write(&folder, "situations", situations);
    write(&folder, "sines", filled(known_sines(), SINES, 4, some_sine));
}
