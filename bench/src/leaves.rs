//! The leaves at scale: solve, convergence, pattern, capacitor, diode and sines, each on the
//! shipped code, the model and the Rust; functions, the judge, diodes behind and patterns with the option on on the shipped code and
//! a second writing.

use crate::behind;
use crate::compare::same;
use crate::directed::Build;
use crate::door;
use crate::exact;
use crate::functions::STANDING_IN;
use crate::generate;
use crate::job::*;
use crate::limits::{self, Call};
use crate::model::{self, Asked, Matrix, Sentence, State, Wrong, SENTENCES, WRONG_PATTERN};
use crate::oracle::{hooked, plain};
use crate::random::Random;
use crate::sides::OURS;
use crate::tally::{Progress, Tally};

/// One leaf's input in words, and what each side answered; the sides must agree.
struct Trial {
    input: String,
    /// Named answers; floats as they are, other numbers as whole floats.
    answers: Vec<(&'static str, Vec<f64>)>,
    sort: String,
    /// Wrong readings that it would tell.
    tells: Vec<Wrong>,
}

impl Trial {
    fn new(input: String, answers: Vec<(&'static str, Vec<f64>)>, sort: String) -> Trial {
        Trial { input, answers, sort, tells: Vec::new() }
    }
}

type Draw = fn(&mut Random) -> Trial;

/// A leaf's place is part of its seed: a new one goes to the end.
const LEAVES: [(&str, Draw); 12] = [
    ("solve", solve),
    ("convergence", convergence),
    ("pattern", pattern),
    ("capacitor", capacitor),
    ("diode", diode),
    ("sines", sines),
    ("functions", functions),
    ("judge", judge),
    ("behind", late),
    ("patterns away from zero, off", away_off),
    ("patterns away from zero, on", away_on),
    ("diode at its edges", diode_at_edges),
];

fn agree(a: &[f64], b: &[f64]) -> bool {
    a.len() == b.len() && a.iter().zip(b).all(|(x, y)| same(*x, *y))
}

/// Runs `count` of each leaf; answers how many differ.
pub fn run(seed: u64, count: u64) -> u64 {
    let mut all = 0;
    for (which, (name, draw)) in LEAVES.iter().enumerate() {
        let mut progress = Progress::new(name, count);
        let mut sorts = Tally::default();
        let mut told = Tally::default();
        let mut differ = 0;
        let mut sides = String::new();
        for place in 0..count {
            let trial = draw(&mut Random::new(seed + 1000 * (which as u64 + 1), place));
            sorts.add(&trial.sort);
            trial.tells.iter().for_each(|wrong| told.add(&format!("{:?}", wrong)));
            let first = &trial.answers[0];
            if trial.answers.iter().any(|a| !agree(&a.1, &first.1)) {
                differ += 1;
                if differ == 1 {
                    println!("DIFFERENCE in {}: {}", name, trial.input);
                    for (side, a) in &trial.answers {
                        println!("  {}: {:?}", side, a);
                    }
                }
            }
            if place == 0 {
                sides = trial.answers.iter().map(|a| a.0).collect::<Vec<_>>().join(", ");
            }
            progress.at(place + 1, &format!(", {} differ", differ));
        }
        progress.end();
        println!("{}: {} in {:.0} s ({}), {} differ; {}", name, count, progress.seconds(), sides, differ, sorts.line());
        if !told.0.is_empty() {
            println!("  so many would tell a wrong reading: {}", told.line());
        }
        all += differ;
    }
    all
}

/// An entry of a system: often zero or one, so that pivots tie and columns die.
fn entry(r: &mut Random, wild: bool) -> f64 {
    match r.below(12) {
        0..=3 => 0.0,
        4..=5 => r.pick(&[1.0, -1.0]),
        6..=7 => r.round(),
        8 if wild => r.special(),
        9 if wild => r.bits(),
        _ => r.decades(-3.0, 3.0) * r.sign(),
    }
}

fn solve(r: &mut Random) -> Trial {
    let n = match r.below(12) {
        0 => 1,
        1..=8 => 2 + r.below(7),
        9..=10 => 8 + r.below(16),
        _ => 24 + r.below(25),
    };
    let wild = r.one_in(3);
    let dense = r.one_in(3);
    let mut m: Vec<f64> = (0..n * (n + 1)).map(|_| if dense || r.one_in(2) { entry(r, wild) } else { 0.0 }).collect();
    if r.one_in(2) {
        // a run's row and column 0
        for k in 0..n {
            m[k] = 0.0;
            m[k * (n + 1)] = 0.0;
        }
        m[n] = 0.0;
    }
    let mut s = Matrix { n, m: m.clone() };
    let x = model::solve(&mut s, Wrong::Nothing);
    let sort = if x.iter().all(|v| v.is_finite()) { "finite" } else { "not finite" };
    let mut answers = vec![("model", x), ("Rust", hooked::solve(n, &m))];
    answers.extend(shipped_solve(n, &m).map(|x| ("shipped", x)));
    answers.extend(refused_solve(r, n).map(|x| ("shipped, refused", x)));
    Trial::new(format!("N {}, {:?}", n, m), answers, sort.to_string())
}

/// The shipped vector; a refusal or a change past the lengths named spoils it.
fn shipped_solve(n: usize, m: &[f64]) -> Option<Vec<f64>> {
    let mut matrix = m.to_vec();
    matrix.extend(lent(0, 3));
    let mut vector = lent(1, n + 2);
    let refusal = door::solve(n, &mut matrix, &mut vector)?;
    let rest = same(vector[n], untouched(1, n)) && same(vector[n + 1], untouched(1, n + 1));
    let rest = rest && agree(&matrix[m.len()..], &lent(0, 3));
    vector.truncate(n);
    if refusal != 0 || !rest {
        vector.push(refusal as f64);
    }
    Some(vector)
}

/// What is amiss in a call that must be refused, by 1 or 5, with nothing changed; None if all is well.
fn refused_solve(r: &mut Random, n: usize) -> Option<Vec<f64>> {
    let (rows, matrix, vector, number) = match r.below(40) {
        0 => (0, 4, 4, 1),
        1 => (49 + r.below(3), 3000, 60, 1),
        2 => (usize::MAX - r.below(2), 3000, 60, 1),
        3 => (n, n * (n + 1) - 1, n, 5),
        4 => (n, n * (n + 1), n - 1, 5),
        _ => return None,
    };
    let (mut m, mut v) = (lent(0, matrix), lent(1, vector));
    let refusal = door::solve(rows, &mut m, &mut v)?;
    let kept = agree(&m, &lent(0, matrix)) && agree(&v, &lent(1, vector));
    if refusal == number && kept {
        return None;
    }
    Some(vec![rows as f64, matrix as f64, vector as f64, refusal as f64])
}

fn convergence(r: &mut Random) -> Trial {
    let n = r.below(9);
    let nodes = r.below(12) as u64;
    let mut o = Options::usual();
    if r.one_in(3) {
        o.reltol = r.any();
        o.vntol = r.any();
        o.abstol = r.any();
    }
    let wild = r.one_in(2);
    let x: Vec<f64> = (0..n).map(|_| if wild { r.any() } else { r.between(-2.0, 2.0) }).collect();
    let mut y: Vec<f64> = x
        .iter()
        .map(|v| match r.below(8) {
            0 => r.any(),
            1 => v + o.vntol,
            2 => v * (1.0 + o.reltol),
            3 => v - (v.abs() * o.reltol + o.abstol),
            4 => f64::NAN,
            _ => *v,
        })
        .collect();
    for _ in 0..r.below(2) {
        y.push(r.any());
    }
    let state = |s: State| match s {
        State::Yes => 0.0,
        State::No => 1.0,
        State::Error => 2.0,
    };
    let a = state(model::convergence(&x, &y, nodes, &o, Wrong::Nothing));
    let b = state(hooked::convergence(&x, &y, nodes, &o));
    let mut answers = vec![("model", vec![0.0, a]), ("Rust", vec![0.0, b])];
    let numbers = |(refusal, state): (u64, u64)| vec![refusal as f64, state as f64];
    answers.extend(door::convergence(&x, &y, nodes, &o).map(|c| ("shipped", numbers(c))));
    if let Some(c) = if x.is_empty() { None } else { door::convergence(&x, &y[..x.len() - 1], nodes, &o) } {
        // a shorter y is refused by 5
        if c != (5, 0) {
            answers.push(("shipped, y too short", numbers(c)));
        }
    }
    Trial::new(
        format!("x {:?}, y {:?}, nodes {}, tolerances {:?} {:?} {:?}", x, y, nodes, o.reltol, o.vntol, o.abstol),
        answers,
        ["yes", "no", "error"][a as usize].to_string(),
    )
}

fn pattern(r: &mut Random) -> Trial {
    let count = r.below(7);
    let mut t = if r.one_in(4) { r.any() } else { 0.0 };
    let mut points = Vec::new();
    for _ in 0..count {
        points.push((t, if r.one_in(4) { r.any() } else { r.round() }));
        t += match r.below(8) {
            0 => r.any(),
            1 => 0.0,
            2 => -0.5,
            _ => r.pick(&[0.25, 0.5, 1.0, 0.1]),
        };
    }
    let delay = if r.one_in(4) { r.any() } else { r.pick(&[0.0, -0.0, 0.25, 1.0, -1.0]) };
    let repeat = if r.one_in(6) { r.any() } else { r.pick(&[-1.0, 0.0, -0.0, 1.0]) };
    let last = points.last().map_or(1.0, |p| p.0);
    let at = match r.below(8) {
        0 => r.any(),
        1 => delay,
        2 => delay + last,
        3 => f64::from_bits((delay + last).to_bits().wrapping_add(1)),
        4 => points.get(r.below(count.max(1))).map_or(0.0, |p: &(f64, f64)| p.0 + delay),
        5 => r.pick(&[0.0, -0.5, 0.5, 1.0, 2.0, 1.5]),
        _ => r.between(-1.0, 10.0),
    };
    let a = model::pattern(&points, delay, repeat, at, Wrong::Nothing);
    let mut answers = vec![("model", vec![a]), ("Rust", vec![plain::pattern(&points, delay, repeat, at)])];
    answers.extend(door::pattern(&point_bytes(&points), delay, repeat, at).map(|x| ("shipped", vec![x])));
    let input = format!("points {:?}, delay {:?}, repeat {:?}, time {:?}", points, delay, repeat, at);
    Trial::new(input, answers, sort_of(a))
}

/// Once in `n` the float next to it, on either side.
fn beside(r: &mut Random, x: f64, n: usize) -> f64 {
    let step = if r.one_in(n) { r.pick(&[1, u64::MAX]) } else { 0 };
    f64::from_bits(x.to_bits().wrapping_add(step))
}

pub fn point_bytes(points: &[(f64, f64)]) -> Vec<u8> {
    points.iter().flat_map(|p| [p.0.to_le_bytes(), p.1.to_le_bytes()].concat()).collect()
}

/// A pattern that the option is about, and a time that meets its delay, a point, its end or a later cycle, or one float beside.
struct Away {
    points: Vec<(f64, f64)>,
    delay: f64,
    repeat: f64,
    at: f64,
    /// Bytes behind the points that make no whole one.
    spare: usize,
}

impl Away {
    fn draw(r: &mut Random) -> Away {
        let mut points = Vec::new();
        let step = if r.one_in(3) { r.pick(&[0.1, 0.3, 1.4]) } else { r.pick(&[0.25, 0.5, 1.0]) };
        let times = generate::instants(&Options { tstep: step, fs: 1.0, ..Options::usual() });
        let generate::Pattern { delay, repeat, .. } = generate::away(r, &times, &mut points);
        let last = points.last().map_or(step, |p| p.0);
        let point = if points.is_empty() { 0.0 } else { points[r.below(points.len())].0 };
        let start = points.first().map_or(0.0, |p| p.0);
        let cycles = (1 + r.below(3)) as f64;
        let at = match r.below(14) {
            0 => r.any(),
            1 => delay,
            2 | 3 => delay + last,
            4 => delay + point,
            5 => delay + start,
            6 => delay + last * cycles + start,
            7 => delay + last * cycles + point,
            8 => delay + last * cycles,
            9 => delay + last * r.unit(),
            10 => delay + start * r.unit(),
            11 => delay - step * r.unit(),
            12 => r.pick(&[0.0, -0.0, f64::NAN, f64::INFINITY, -0.5]),
            _ => times[r.below(8)],
        };
        let at = beside(r, at, 5);
        let spare = if r.one_in(8) { 1 + r.below(15) } else { 0 };
        Away { points, delay, repeat, at, spare }
    }

    fn bytes(&self) -> Vec<u8> {
        [point_bytes(&self.points), vec![0x3f; self.spare]].concat()
    }

    fn words(&self) -> String {
        let Away { points, delay, repeat, at, spare } = self;
        let bits = at.to_bits();
        format!(
            "points {:?}, {} bytes behind, delay {:?}, repeat {:?}, time {:?} ({:016x})",
            points, spare, delay, repeat, at, bits
        )
    }

    /// By the rule with the option on, the sentence too.
    fn first(&self, wrong: Wrong) -> (Sentence, f64) {
        model::pattern_first(&self.points, self.delay, self.repeat, self.at, wrong)
    }

    fn plain(&self) -> f64 {
        model::pattern(&self.points, self.delay, self.repeat, self.at, Wrong::Nothing)
    }
}

/// Such patterns by the rule without the option.
fn away_off(r: &mut Random) -> Trial {
    let a = Away::draw(r);
    let level = a.plain();
    let rust = plain::pattern(&a.points, a.delay, a.repeat, a.at);
    let mut answers = vec![("model", vec![level]), ("Rust", vec![rust])];
    answers.extend(door::pattern(&a.bytes(), a.delay, a.repeat, a.at).map(|x| ("shipped", vec![x])));
    Trial::new(a.words(), answers, sort_of(level))
}

/// Every sentence of the rule with the option on.
fn away_on(r: &mut Random) -> Trial {
    let a = Away::draw(r);
    let (sentence, level) = a.first(Wrong::Nothing);
    let mut answers = vec![("second writing", vec![level])];
    answers.extend(door::pattern_first(&a.bytes(), a.delay, a.repeat, a.at).map(|x| ("shipped", vec![x])));
    let place = SENTENCES.iter().position(|s| s.0 == sentence).unwrap();
    let moved = if same(level, a.plain()) { "same as off" } else { "another than off" };
    let mut trial = Trial::new(a.words(), answers, format!("{}. {}, {}", place + 1, SENTENCES[place].1, moved));
    trial.tells = WRONG_PATTERN.iter().map(|w| w.0).filter(|wrong| !same(a.first(*wrong).1, level)).collect();
    trial
}

fn sort_of(x: f64) -> String {
    (if x.is_nan() {
        "NaN"
    } else if x == 0.0 {
        "zero"
    } else if x.is_finite() {
        "finite"
    } else {
        "infinite"
    })
    .to_string()
}

fn capacitor(r: &mut Random) -> Trial {
    let (value, v, step) = (r.any(), r.any(), r.any());
    let (g, i) = model::capacitor(value, v, step);
    let (h, j) = plain::capacitor(value, v, step);
    let mut answers = vec![("model", vec![g, i]), ("Rust", vec![h, j])];
    answers.extend(door::capacitor(value, v, step).map(|(g, i)| ("shipped", vec![g, i])));
    Trial::new(format!("value {:?}, v {:?}, step {:?}", value, v, step), answers, sort_of(i))
}

fn diode(r: &mut Random) -> Trial {
    let wild = r.one_in(4);
    let i_sat = if wild { r.any() } else { r.decades(-20.0, 2.0) };
    let tdegc = match r.below(8) {
        0 => r.any(),
        1 => r.pick(&[-363.0, -400.0, f64::from_bits((-363.0f64).to_bits() - 1)]),
        _ => r.between(-100.0, 150.0),
    };
    let mut o = Options::usual();
    if r.one_in(8) {
        o.gmin = r.any();
        o.boltzmann *= r.round();
        o.charge *= r.round();
    }
    let vt = o.boltzmann * (363.0 + tdegc) / o.charge;
    let memory = match r.below(6) {
        0 => 0.0,
        1 => r.any(),
        2 => -0.0,
        _ => vt * r.between(-5.0, 40.0),
    };
    let v = match r.below(8) {
        0 => r.any(),
        1 => memory + 2.0 * vt,
        2 => memory - 2.0 * vt,
        3 => memory - vt,
        4 => memory + vt,
        _ => memory + vt * r.between(-900.0, 900.0) * r.unit(),
    };
    diode_trial(Call { asked: Asked { i_sat, tdegc, v, memory }, o })
}

/// The same where situations meet: steps of two thermal voltages, an arg of 0, a memory of 0, the critical voltage, and the floats
/// beside them. Thermal voltages are mostly 1 or -1, so that these come out exactly.
fn diode_at_edges(r: &mut Random) -> Trial {
    let mut o = Options::usual();
    o.boltzmann = match r.below(12) {
        0 => r.special(),
        1 => r.decades(-3.0, 3.0),
        2 | 3 => r.pick(&[0.5, 0.25, 4.0]),
        _ => 1.0,
    };
    o.charge = r.pick(&[1.0, 1.0, 1.0, -1.0]);
    let tdegc = r.pick(&[-362.0, -362.0, -362.0, -362.0, -364.0]);
    let vt = o.boltzmann * (363.0 + tdegc) / o.charge;
    let i_sat = match r.below(10) {
        0 => r.special(),
        1 => -vt,
        2 | 3 => 10.0 * vt,
        4..=6 => limits::ROOT_HALF * vt,
        _ => r.decades(-14.0, 0.0) * vt,
    };
    let critical = limits::critical(vt, i_sat);
    let memory = edge_memory(r, vt, critical);
    let v = edge_voltage(r, vt, critical, memory);
    diode_trial(Call { asked: Asked { i_sat, tdegc, v: beside(r, v, 3), memory }, o })
}

const ABOUT_ZERO: [f64; 4] = [0.0, -0.0, 5e-324, -5e-324];

fn edge_memory(r: &mut Random, vt: f64, critical: f64) -> f64 {
    match r.below(12) {
        0..=3 => r.pick(&ABOUT_ZERO),
        4 => r.special(),
        5 => critical,
        6..=8 => vt * r.between(-5.0, 20.0),
        _ => r.below(17) as f64 - 4.0,
    }
}

fn edge_voltage(r: &mut Random, vt: f64, critical: f64, memory: f64) -> f64 {
    match r.below(12) {
        0 => r.special(),
        1 => r.pick(&ABOUT_ZERO),
        2 | 3 => memory + 2.0 * vt,
        4 | 5 => memory - 2.0 * vt,
        6 => memory - vt,
        7 | 8 => critical,
        9 | 10 => memory + r.below(25) as f64 - 12.0,
        _ => memory + vt * r.between(-30.0, 60.0),
    }
}

/// A call of a diode by the situation that it is in.
fn diode_trial(call: Call) -> Trial {
    let sides = call.sides();
    let ended = if sides[0].1[0] == 22.0 { "verdict 22" } else { "linearized" };
    let sort = format!("{}, {}", call.situation_text(), ended);
    let answers = sides.into_iter().map(|(side, numbers)| (side, numbers.to_vec())).collect();
    Trial { input: call.words(), answers, sort, tells: call.tells() }
}

/// A sine source alone, in one step of a transient: its value stands on the system's right side.
fn sines(r: &mut Random) -> Trial {
    let (vo, va) = (r.any(), r.any());
    let (freq, t) = match r.below(4) {
        0 => (r.any(), r.any()),
        1 => {
            // an argument near a multiple of a quarter turn
            let turns = r.below(600_000) as f64 / 4.0;
            (1.0, turns + r.pick(&[0.0, 1e-12, -1e-12]))
        }
        2 => (r.decades(-3.0, 6.0), r.unit()),
        _ => (r.between(150_000.0, 170_000.0), 1.0),
    };
    let current = r.one_in(2);
    let mut job = if current {
        Build::transient(2, 0, f64::NEG_INFINITY).r(1, 0, 1.0).isin(0, 1, vo, va, freq).job()
    } else {
        Build::transient(1, 1, f64::NEG_INFINITY).vsin(0, 0, vo, va, freq, 0).job()
    };
    job.options.tstep = t;
    job.options.vntol = f64::INFINITY;
    job.options.budget = 2;
    job.fit(2);
    // 0.0 + step is the time of the first step; the value is added to 0.0 in a current's row
    let time = 0.0 + t;
    let value = |x: Option<f64>| x.map_or(vec![26.0], |v| vec![0.0, if current { 0.0 + v } else { v }]);
    let a = value(model::sine(vo, va, freq, time, &OURS));
    let mut answers = vec![("model", a.clone()), ("Rust", value(hooked::sine(vo, va, freq, time, &OURS)))];
    let read = |x: &Answer| {
        if x.verdict == 26 {
            vec![26.0]
        } else {
            vec![0.0, x.buffers[SYSTEM][5]]
        }
    };
    answers.push(("model's run", read(&model::run(&job, &OURS, Wrong::Nothing))));
    if let Some(x) = door::run(&job) {
        answers.push(("shipped run", read(&x)));
    }
    let sort = if a.len() == 1 { "refused".to_string() } else { sort_of(a[1]) };
    Trial::new(format!("vo {:?}, va {:?}, freq {:?}, t {:?}", vo, va, freq, t), answers, sort)
}

/// exp, ln and sin against their definitions written out a second time.
fn functions(r: &mut Random) -> Trial {
    let near = |r: &mut Random, x: f64| f64::from_bits(x.to_bits().wrapping_add(r.below(5) as u64).wrapping_sub(2));
    let which = r.pick(&["exp", "ln", "sin"]);
    let x = match r.below(6) {
        0 => r.special(),
        1 => r.bits(),
        2 => {
            let edge = r.pick(&[709.0, -708.0, 1.0, 0.75, 1.5, 1048576.0, -1048576.0, 0.5, 2.2250738585072014e-308]);
            near(r, edge)
        }
        3 => {
            // about the half-way points of the reduction
            let half = (r.below(2000) as f64 - 1000.0 + 0.5)
                * if which == "exp" { std::f64::consts::LN_2 } else { std::f64::consts::FRAC_PI_2 };
            near(r, half)
        }
        4 => r.decades(-20.0, 6.0) * r.sign(),
        _ => r.between(-710.0, 710.0),
    };
    let value = |f: &recorder::Functions| match which {
        "exp" => vec![0.0, (f.exp)(x)],
        "ln" => vec![0.0, (f.ln)(x)],
        _ => (f.sin)(x).map_or(vec![12.0], |y| vec![0.0, y]),
    };
    let answers = vec![("second writing", value(&STANDING_IN)), ("functions under test", value(&OURS))];
    Trial::new(format!("{} of {:?} ({:016x})", which, x, x.to_bits()), answers, which.to_string())
}

/// The judge against exact whole numbers: systems that cancel to the last bit, and tolerances at the edge.
fn judge(r: &mut Random) -> Trial {
    let n = match r.below(8) {
        0 => 1,
        1..=5 => 2 + r.below(4),
        6 => 6 + r.below(10),
        _ => 16 + r.below(33),
    };
    let wild = r.one_in(3);
    let number = |r: &mut Random| match r.below(if wild { 6 } else { 4 }) {
        0 | 1 => r.round(),
        2 => 0.0,
        3 => r.decades(-9.0, 9.0) * r.sign(),
        4 => f64::from_bits(r.next() & 0x800f_ffff_ffff_ffff | ((r.below(2046) as u64) << 52)),
        _ => r.pick(&[f64::MAX, 5e-324, -f64::MIN_POSITIVE, 1e-308]),
    };
    let mut system: Vec<f64> = (0..n * (n + 1)).map(|_| number(r)).collect();
    let x: Vec<f64> = (0..n).map(|_| number(r)).collect();
    let mut tolerances = Vec::new();
    for k in 0..n {
        let row = &mut system[k * (n + 1)..(k + 1) * (n + 1)];
        let sum: f64 = (0..n).map(|c| row[c] * x[c]).sum();
        if !r.one_in(3) && sum.is_finite() {
            row[n] = sum;
        }
        // the rounded residual, or a neighbour of it, or none
        let left = (sum - row[n]).abs();
        tolerances.push(match r.below(6) {
            0 => 0.0,
            1 => -0.0,
            2 => r.decades(-18.0, 3.0),
            3 if left.is_finite() && left > 0.0 => f64::from_bits(left.to_bits() - 1),
            _ if left.is_finite() => left,
            _ => f64::MAX,
        });
    }
    if r.one_in(4) {
        // all but one row far inside, so that a later row is the first to fail
        let keep = r.below(n);
        for (k, t) in tolerances.iter_mut().enumerate() {
            if k != keep {
                *t = f64::MAX;
            }
        }
    }
    let rows = damaged(r, n, &mut system, &mut tolerances);
    let a = exact::judge(&system, &x, &tolerances, rows);
    let numbers = |(refusal, row): (u64, u64)| vec![refusal as f64, row as f64];
    let mut answers = vec![("exact", numbers(a))];
    answers.extend(door::judge(&system, &x, &tolerances, rows).map(|j| ("shipped", numbers(j))));
    let sort = if a.0 != 0 {
        format!("refusal {}", a.0)
    } else {
        (if a.1 == rows as u64 { "accepted" } else { "a row named" }).to_string()
    };
    Trial::new(format!("rows {}, system {:?}, x {:?}, tolerances {:?}", rows, system, x, tolerances), answers, sort)
}

/// Diodes that are behind: memories at the tolerance and next to it, odd options, short vectors and memories, damaged records.
fn late(r: &mut Random) -> Trial {
    let mut o = Options::usual();
    if r.one_in(2) {
        o.reltol = r.pick(&[0.0, 0.5, 0.1, 0.25, 1.0, -0.5]);
        o.vntol = r.pick(&[0.0, 0.125, 1e-3, 1.0, -1e-3]);
    }
    if r.one_in(8) {
        o.reltol = r.any();
        o.vntol = r.any();
    }
    o.abstol = r.any();
    o.catchup = r.next();
    let nodes = 1 + r.below(6);
    let wild = r.one_in(4);
    let vector: Vec<f64> = (0..nodes).map(|_| if wild { r.any() } else { r.round() }).collect();
    let (mut sheet, mut memory) = (Vec::new(), Vec::new());
    for _ in 0..r.below(7) {
        let kind = r.pick(&[4, 4, 4, 4, 1, 8, 9]);
        let mut e = Element::new(kind, r.below(nodes), r.below(nodes));
        e.value[0] = r.any();
        if r.one_in(12) {
            e.a = r.pick(&[nodes as u16, 48, 65535]);
        }
        memory.push(remembered(r, &e, &vector, &o));
        let mut record = e.bytes();
        match r.below(24) {
            0 => record[r.below(RECORD)] ^= 1 << r.below(8),
            1 => record[r.pick(&[1, 6, 8, 10, 12, 14, 32, 39])] = 1,
            _ => {}
        }
        sheet.extend_from_slice(&record);
    }
    let cut = if r.one_in(8) { r.below(50) } else { 0 };
    sheet.truncate(sheet.len().saturating_sub(cut));
    let short = |r: &mut Random, list: Vec<f64>| match r.below(10) {
        0 => list[..list.len().saturating_sub(1)].to_vec(),
        1 => [list, vec![0.0]].concat(),
        _ => list,
    };
    let (vector, memory) = (short(r, vector), short(r, memory));
    let a = behind::first(&sheet, &vector, &memory, &o, Wrong::Nothing);
    let mut answers = vec![("second writing", vec![a as f64])];
    answers.extend(door::behind(&sheet, &vector, &memory, &o).map(|b| ("shipped", vec![b as f64])));
    Trial::new(
        format!(
            "sheet {:?}, vector {:?}, memory {:?}, RELTOL {:?}, VNTOL {:?}",
            sheet, vector, memory, o.reltol, o.vntol
        ),
        answers,
        (if a == 0 { "none" } else { "a record named" }).to_string(),
    )
}

/// What a record remembers: mostly within its tolerance of the voltage across it, often just so, now and then anything.
fn remembered(r: &mut Random, e: &Element, vector: &[f64], o: &Options) -> f64 {
    let number = |at: u16| vector.get(at as usize).copied().unwrap_or(0.0);
    let v = number(e.a) - number(e.b);
    let limit = (v.abs() * o.reltol + o.vntol) * r.sign();
    match r.below(12) {
        0 => r.any(),
        1 | 2 => v + limit,
        3 => f64::from_bits((v + limit).to_bits().wrapping_add(1)),
        4 => f64::from_bits((v + limit).to_bits().wrapping_sub(1)),
        5 => v + limit * r.between(0.0, 1.2),
        _ => v,
    }
}

/// Now and then a call that must be refused by 1, 5 or 11; the row count to call with.
fn damaged(r: &mut Random, n: usize, system: &mut Vec<f64>, tolerances: &mut Vec<f64>) -> usize {
    match r.below(60) {
        0 => return r.pick(&[0, 49, usize::MAX, 1 << 63]),
        1 => {
            system.pop();
        }
        2 => {
            tolerances.pop();
        }
        3 => {
            let at = r.below(system.len());
            system[at] = r.pick(&[f64::NAN, f64::INFINITY, f64::NEG_INFINITY]);
        }
        4 => {
            let at = r.below(n);
            tolerances[at] = r.pick(&[f64::NAN, -1.0, -5e-324, f64::INFINITY]);
        }
        5 => system.push(f64::NAN),
        _ => {}
    }
    n
}
