//! Calls of a diode: on every side, and those about its limiting rule written by hand, each with the situation that holds and the
//! voltage that the diode then stands at. Some of them again as whole runs, in which a diode climbs and falls along stairs. These jobs
//! are a list of their own, and no file has them.

use crate::compare::same;
use crate::directed::{thermal, untold_by_calls, Build, Directed};
use crate::door;
use crate::job::*;
use crate::model::{self, Asked, Companion, Diode, Situation, Situation::*, Wrong, SITUATIONS, WRONG_LIMIT};
use crate::oracle::hooked;
use crate::sides::OURS;
use crate::tally::Tally;

/// One call of a diode.
pub struct Call {
    pub asked: Asked,
    pub o: Options,
}

/// Verdict, conductance, current and memory.
pub type Numbers = [f64; 4];

impl Call {
    fn diode(&self, wrong: Wrong) -> Diode<'_> {
        Diode::new(self.asked, &self.o, &OURS, wrong)
    }

    /// With 22 there is no companion model, and the memory stays the one handed in.
    fn numbers(&self, c: Companion) -> Numbers {
        c.map_or([22.0, 0.0, 0.0, self.asked.memory], |(g, i, memory)| [0.0, g, i, memory])
    }

    pub fn model(&self, wrong: Wrong) -> Numbers {
        self.numbers(self.diode(wrong).companion())
    }

    pub fn sides(&self) -> Vec<(&'static str, Numbers)> {
        let Asked { i_sat, tdegc, v, memory } = self.asked;
        let rust = match hooked::diode(i_sat, tdegc, v, memory, &self.o, &OURS) {
            Ok((g, i, memory)) => [0.0, g, i, memory],
            Err(kept) => [22.0, 0.0, 0.0, kept],
        };
        let turned = self.diode(Wrong::Nothing).companion_small_step_first();
        let model = self.model(Wrong::Nothing);
        let mut sides = vec![("model", model), ("model, a small step first", self.numbers(turned)), ("Rust", rust)];
        let shipped = door::diode(i_sat, tdegc, v, memory, &self.o);
        sides.extend(shipped.map(|(verdict, [g, i, memory])| ("shipped", [verdict as f64, g, i, memory])));
        sides
    }

    pub fn situation(&self) -> Situation {
        self.diode(Wrong::Nothing).named()
    }

    /// The situation in words, and where two hold both.
    pub fn situation_text(&self) -> String {
        let both = self.diode(Wrong::Nothing).named_otherwise();
        format!("{}{}", title(self.situation()), if both { " and below critical" } else { "" })
    }

    /// The wrong readings that it would tell: those that change a number.
    pub fn tells(&self) -> Vec<Wrong> {
        let right = self.model(Wrong::Nothing);
        WRONG_LIMIT.iter().map(|w| w.0).filter(|wrong| !alike(&self.model(*wrong), &right)).collect()
    }

    pub fn words(&self) -> String {
        let Asked { i_sat, tdegc, v, memory } = self.asked;
        let Diode { vt, critical, .. } = self.diode(Wrong::Nothing);
        format!(
            "i_sat {:?}, tdegc {:?}, v {:?}, memory {:?}, gmin {:?}, thermal voltage {:?}, critical voltage {:?}",
            i_sat, tdegc, v, memory, self.o.gmin, vt, critical
        )
    }
}

fn alike(a: &[f64], b: &[f64]) -> bool {
    a.iter().zip(b).all(|(x, y)| same(*x, *y))
}

/// Its place in the order in which situations are named, and its name.
fn title(s: Situation) -> String {
    let place = SITUATIONS.iter().position(|known| known.0 == s).unwrap();
    format!("{}. {}", place + 1, SITUATIONS[place].1)
}

/// A diode, with the two constants that its thermal voltage is made of.
#[derive(Clone, Copy)]
struct Part {
    boltzmann: f64,
    charge: f64,
    tdegc: f64,
    i_sat: f64,
}

impl Part {
    fn set(&self, o: &mut Options) {
        (o.boltzmann, o.charge) = (self.boltzmann, self.charge);
    }

    fn call(&self, v: f64, memory: f64) -> Call {
        let mut o = Options::usual();
        self.set(&mut o);
        Call { asked: Asked { i_sat: self.i_sat, tdegc: self.tdegc, v, memory }, o }
    }
}

/// A thermal voltage of vt exactly.
const fn exactly(vt: f64, i_sat: f64) -> Part {
    Part { boltzmann: vt, charge: 1.0, tdegc: -362.0, i_sat }
}

/// The Rust's constants, at 27 degrees.
fn published(i_sat: f64) -> Part {
    Part { boltzmann: f64::from_bits(BOLTZMANN), charge: f64::from_bits(CHARGE), tdegc: 27.0, i_sat }
}

const NAN: f64 = f64::NAN;
const INF: f64 = f64::INFINITY;
const LEAST: f64 = 5e-324;
const ROOT_TWO: f64 = std::f64::consts::SQRT_2;

/// Root two times this is 1.0: at a thermal voltage of 1 the critical voltage is 0.
pub const ROOT_HALF: f64 = 0.7071067811865475;
const ZERO: Part = exactly(1.0, ROOT_HALF);

/// A critical voltage below zero: -2.65.
const LOW: Part = exactly(1.0, 10.0);

/// A critical voltage of -0.0, below absolute zero.
const COLD: Part = exactly(-1.0, -ROOT_HALF);

/// The critical voltage at a thermal voltage.
pub fn critical(vt: f64, i_sat: f64) -> f64 {
    vt * ln(vt / (ROOT_TWO * i_sat))
}

fn ln(x: f64) -> f64 {
    (OURS.ln)(x)
}

/// The next float away from zero.
fn next(x: f64) -> f64 {
    f64::from_bits(x.to_bits() + 1)
}

/// The next float towards zero.
fn last(x: f64) -> f64 {
    f64::from_bits(x.to_bits() - 1)
}

/// Verdict 22.
const OVER: Option<f64> = None;

/// Voltage, memory, the situation, and the memory afterwards.
type Line = (f64, f64, Situation, Option<f64>);

type Case = (&'static str, Part, Vec<Line>);

fn table() -> Vec<Case> {
    let lists = [situations(), steps(), zeros(), criticals(), colds(), odd_voltages(), odd_currents(), odd_thermals()];
    lists.into_iter().flatten().collect()
}

/// Each situation by round numbers, and with the Rust's constants.
#[rustfmt::skip]
fn situations() -> Vec<Case> {
    let (vt, i_sat) = (thermal(27.0), 1e-12);
    let climbed = 0.8 + vt * ln(1.0 + (5.0 - 0.8) / vt);
    vec![
        ("a small step", ZERO, vec![
            (1.0, 0.0, SmallStep, Some(1.0)), (1.0, 2.0, SmallStep, Some(1.0)), (0.5, 2.0, SmallStep, Some(0.5)), (0.0, 0.0, SmallStep, Some(0.0)), (-0.0, 0.0, SmallStep, Some(-0.0))]),
        ("a small step below critical", ZERO, vec![(-1.0, 0.0, SmallStep, Some(-1.0)), (-2.0, -3.0, SmallStep, Some(-2.0))]),
        ("below critical", ZERO, vec![
            (-5.0, 5.0, BelowCritical, Some(-5.0)), (-5.0, 0.0, BelowCritical, Some(-5.0)), (-1.0, -4.0, BelowCritical, Some(-1.0)), (-1e3, 1.0, BelowCritical, Some(-1e3))]),
        ("a turn-on", ZERO, vec![(9.0, 0.0, TurnOn, Some(ln(9.0))), (5.0, -1.0, TurnOn, Some(ln(5.0))), (3.0, -1e3, TurnOn, Some(ln(3.0)))]),
        ("a turn-on at 0 V", LOW, vec![(0.0, -2.5, TurnOn, Some(-INF)), (-0.0, -2.5, TurnOn, Some(-INF))]),
        ("a fall back", ZERO, vec![(1.0, 5.0, FallBack, Some(0.0)), (0.5, 3.0, FallBack, Some(0.0)), (1.0, 1e300, FallBack, Some(0.0))]),
        ("a fall back below zero", LOW, vec![(-2.5, 1.0, FallBack, Some(critical(1.0, 10.0))), (0.0, 5.0, FallBack, Some(critical(1.0, 10.0)))]),
        ("a climb", ZERO, vec![
            (9.0, 1.0, Climb, Some(1.0 + ln(9.0))), (4.5, 0.5, Climb, Some(0.5 + ln(5.0))), (1e3, 1.0, Climb, Some(1.0 + ln(1e3)))]),
        ("half a volt for one", exactly(0.5, 0.5 * ROOT_HALF), vec![
            (1.0, 0.0, SmallStep, Some(1.0)), (-2.0, 0.0, BelowCritical, Some(-2.0)), (1.5, 0.0, TurnOn, Some(0.5 * ln(3.0))),
            (0.5, 2.5, FallBack, Some(0.0)), (5.0, 0.5, Climb, Some(0.5 + 0.5 * ln(10.0)))]),
        ("the Rust's constants", published(i_sat), vec![
            (0.85, 0.82, SmallStep, Some(0.85)), (0.5, 0.0, BelowCritical, Some(0.5)), (5.0, 0.0, TurnOn, Some(vt * ln(5.0 / vt))),
            (1.0, 2.0, FallBack, Some(critical(vt, i_sat))), (5.0, 0.8, Climb, Some(climbed))]),
    ]
}

/// Steps of two thermal voltages, up and down, and beside.
#[rustfmt::skip]
fn steps() -> Vec<Case> {
    let (vt, two) = (thermal(27.0), 2.0 * thermal(27.0));
    // a step that is more than two, but not after it is rounded; and the first that is
    let (rounded, beyond) = (1.0 - f64::EPSILON, 1.0 - 2.0 * f64::EPSILON);
    vec![
        ("two thermal voltages up from 0 V", ZERO, vec![
            (last(2.0), 0.0, SmallStep, Some(last(2.0))), (2.0, 0.0, SmallStep, Some(2.0)), (next(2.0), 0.0, TurnOn, Some(ln(next(2.0))))]),
        ("two thermal voltages up from -0.0 V", ZERO, vec![(2.0, -0.0, SmallStep, Some(2.0)), (next(2.0), -0.0, TurnOn, Some(ln(next(2.0))))]),
        ("two thermal voltages up from 1 V", ZERO, vec![
            (last(3.0), 1.0, SmallStep, Some(last(3.0))), (3.0, 1.0, SmallStep, Some(3.0)), (next(3.0), 1.0, Climb, Some(1.0 + ln(next(3.0))))]),
        ("two thermal voltages down from 3 V", ZERO, vec![
            (next(1.0), 3.0, SmallStep, Some(next(1.0))), (1.0, 3.0, SmallStep, Some(1.0)), (rounded, 3.0, SmallStep, Some(rounded)), (beyond, 3.0, FallBack, Some(0.0))]),
        ("two thermal voltages down from 0 V", LOW, vec![
            (last(-2.0), 0.0, SmallStep, Some(last(-2.0))), (-2.0, 0.0, SmallStep, Some(-2.0)), (next(-2.0), 0.0, TurnOn, OVER)]),
        ("two thermal voltages of the Rust's constants", published(0.01), vec![
            (last(two), 0.0, SmallStep, Some(last(two))), (two, 0.0, SmallStep, Some(two)), (next(two), 0.0, TurnOn, Some(vt * ln(next(two) / vt)))]),
    ]
}

/// Memories of zero, by either sign, and beside.
#[rustfmt::skip]
fn zeros() -> Vec<Case> {
    vec![
        ("3 V from about 0 V", ZERO, vec![
            (3.0, 0.0, TurnOn, Some(ln(3.0))), (3.0, -0.0, TurnOn, Some(ln(3.0))), (3.0, -LEAST, TurnOn, Some(ln(3.0))), (3.0, LEAST, Climb, Some(ln(4.0)))]),
        ("-2.5 V from about 0 V: arg is below zero too, and a turn-on's logarithm has no value", LOW, vec![
            (-2.5, 0.0, TurnOn, OVER), (-2.5, -0.0, TurnOn, OVER), (-2.5, -LEAST, TurnOn, OVER), (-2.5, LEAST, FallBack, Some(critical(1.0, 10.0)))]),
        ("-5 V from about 0 V", ZERO, vec![(-5.0, LEAST, BelowCritical, Some(-5.0)), (-5.0, -LEAST, BelowCritical, Some(-5.0))]),
    ]
}

/// Voltages at the critical one, and beside.
#[rustfmt::skip]
fn criticals() -> Vec<Case> {
    let high = exactly(1.0, 1e-12);
    let c = critical(1.0, 1e-12);
    vec![
        ("about a critical voltage of 0 from 5 V", ZERO, vec![
            (0.0, 5.0, FallBack, Some(0.0)), (-0.0, 5.0, FallBack, Some(0.0)), (-LEAST, 5.0, BelowCritical, Some(-LEAST)), (LEAST, 5.0, FallBack, Some(0.0))]),
        ("about a critical voltage of 0 from -3 V", ZERO, vec![
            (0.0, -3.0, TurnOn, Some(-INF)), (-0.0, -3.0, TurnOn, Some(-INF)), (-LEAST, -3.0, BelowCritical, Some(-LEAST)), (LEAST, -3.0, TurnOn, Some(ln(LEAST)))]),
        ("about a critical voltage of 27.28 from 0 V", high, vec![
            (last(c), 0.0, BelowCritical, Some(last(c))), (c, 0.0, TurnOn, Some(ln(c))), (next(c), 0.0, TurnOn, Some(ln(next(c))))]),
        ("about it from 1 V", high, vec![(last(c), 1.0, BelowCritical, Some(last(c))), (c, 1.0, Climb, Some(1.0 + ln(1.0 + (c - 1.0))))]),
        ("about it from 40 V", high, vec![
            (last(c), 40.0, BelowCritical, Some(last(c))), (c, 40.0, FallBack, Some(c)), (next(c), 40.0, FallBack, Some(c))]),
        ("about it from 26 V", high, vec![
            (last(c), 26.0, SmallStep, Some(last(c))), (c, 26.0, SmallStep, Some(c)), (next(c), 26.0, SmallStep, Some(next(c)))]),
        ("a zero below it keeps its sign", high, vec![(-0.0, 5.0, BelowCritical, Some(-0.0)), (0.0, 5.0, BelowCritical, Some(0.0))]),
        ("from below it to above, and back", high, vec![(30.0, 5.0, Climb, Some(5.0 + ln(26.0))), (5.0, 30.0, BelowCritical, Some(5.0))]),
    ]
}

/// Below absolute zero no step is small, and arg can be 0.
#[rustfmt::skip]
fn colds() -> Vec<Case> {
    let by_charge = Part { boltzmann: 1.0, charge: -363.0, tdegc: 0.0, i_sat: -ROOT_HALF };
    let by_degrees = Part { boltzmann: 1.0, charge: 1.0, tdegc: -364.0, i_sat: -ROOT_HALF };
    let zero = (2.0, 1.0, FallBack, Some(-0.0));
    vec![
        ("arg about 0", COLD, vec![zero, (next(2.0), 1.0, FallBack, Some(-0.0)), (last(2.0), 1.0, Climb, Some(1.0 - ln(f64::EPSILON)))]),
        ("arg 0 by the charge", by_charge, vec![zero]),
        ("arg 0 by the temperature", by_degrees, vec![zero]),
        ("arg of 0.5, 1, 1.5 and -3", COLD, vec![
            (1.5, 1.0, Climb, Some(1.0 - ln(0.5))), (1.0, 1.0, Climb, Some(1.0)), (0.5, 1.0, Climb, Some(1.0 - ln(1.5))), (5.0, 1.0, FallBack, Some(-0.0))]),
        ("a turn-on below absolute zero", COLD, vec![(0.5, 0.0, TurnOn, OVER), (0.0, 0.0, TurnOn, Some(INF)), (-0.0, 0.0, TurnOn, Some(INF))]),
        ("a turn-on to -0.0 V", exactly(-1.0, 1.0), vec![(-1.0, 0.0, TurnOn, Some(-0.0))]),
        ("below critical below absolute zero", COLD, vec![(-1.0, 1.0, BelowCritical, Some(-1.0)), (-LEAST, 1.0, BelowCritical, Some(-LEAST))]),
    ]
}

/// Voltages and memories that are NaN, infinite or the largest.
#[rustfmt::skip]
fn odd_voltages() -> Vec<Case> {
    vec![
        ("a NaN voltage", ZERO, vec![(NAN, 0.0, TurnOn, OVER), (NAN, -1.0, TurnOn, OVER), (NAN, 1.0, Climb, OVER), (NAN, NAN, Climb, OVER)]),
        ("an infinite voltage", ZERO, vec![
            (INF, 0.0, TurnOn, OVER), (INF, 1.0, Climb, OVER), (-INF, 0.0, BelowCritical, Some(-INF)), (-INF, 1.0, BelowCritical, Some(-INF))]),
        ("the largest voltage", ZERO, vec![
            (f64::MAX, 0.0, TurnOn, OVER), (f64::MAX, 1.0, Climb, OVER), (f64::MIN, 0.0, BelowCritical, Some(f64::MIN)), (1e300, 0.0, TurnOn, Some(ln(1e300))),
            (f64::MAX, f64::MIN, TurnOn, OVER)]),
        ("a NaN memory", ZERO, vec![(1.0, NAN, Climb, OVER), (0.0, NAN, Climb, OVER), (-1.0, NAN, BelowCritical, Some(-1.0))]),
        ("an infinite memory", ZERO, vec![
            (1.0, INF, FallBack, Some(0.0)), (-1.0, INF, BelowCritical, Some(-1.0)), (INF, INF, Climb, OVER),
            (1.0, -INF, TurnOn, Some(0.0)), (9.0, -INF, TurnOn, Some(ln(9.0))), (-1.0, -INF, BelowCritical, Some(-1.0)), (-INF, -INF, BelowCritical, Some(-INF))]),
        ("the largest memory", ZERO, vec![(1.0, f64::MAX, FallBack, Some(0.0)), (9.0, f64::MIN, TurnOn, Some(ln(9.0)))]),
    ]
}

/// Saturation currents with no critical voltage, an infinite one, or none that leaves a finite current.
#[rustfmt::skip]
fn odd_currents() -> Vec<Case> {
    let at = |i_sat| exactly(1.0, i_sat);
    // in the four situations that need no critical voltage
    let four = |x: [Option<f64>; 4]| vec![(1.0, 0.0, SmallStep, x[0]), (3.0, 0.0, TurnOn, x[1]), (1.0, 5.0, FallBack, x[2]), (9.0, 1.0, Climb, x[3])];
    let known = [Some(1.0), Some(ln(3.0)), OVER, Some(1.0 + ln(9.0))];
    vec![
        ("saturation current -1: no critical voltage", at(-1.0), four(known)),
        ("the same down from 0 V", at(-1.0), vec![(-5.0, 0.0, TurnOn, OVER), (-5.0, -4.0, SmallStep, Some(-5.0))]),
        ("saturation current -0.0: no critical voltage", at(-0.0), four(known)),
        ("saturation current NaN", at(NAN), four([OVER; 4])),
        ("saturation current infinite: the critical voltage is -infinite", at(INF), four([OVER; 4])),
        ("saturation current -infinite", at(-INF), four([OVER; 4])),
        ("saturation current 0: the critical voltage is infinite", at(0.0), vec![
            (100.0, 0.0, BelowCritical, Some(100.0)), (1.0, 0.0, SmallStep, Some(1.0)), (INF, 0.0, TurnOn, OVER), (100.0, NAN, BelowCritical, Some(100.0))]),
        ("the least saturation current", at(LEAST), vec![(100.0, 0.0, BelowCritical, Some(100.0)), (1.0, 500.0, BelowCritical, Some(1.0))]),
        ("the largest saturation current", at(f64::MAX), vec![(0.5, 0.0, SmallStep, Some(0.5)), (1.0, 0.0, SmallStep, OVER), (3.0, 0.0, TurnOn, OVER), (1.0, 5.0, FallBack, Some(-INF))]),
    ]
}

/// Thermal voltages that are zero, infinite, NaN, the least, or so large or small that two of them or a quotient overflow.
#[rustfmt::skip]
fn odd_thermals() -> Vec<Case> {
    let at = |vt| exactly(vt, 1.0);
    vec![
        ("thermal voltage 0", at(0.0), vec![
            (0.0, 0.0, SmallStep, OVER), (1.0, 1.0, SmallStep, OVER), (-1.0, -1.0, SmallStep, Some(-1.0)), (1.0, 0.0, TurnOn, OVER), (1.0, 2.0, FallBack, OVER), (2.0, 1.0, Climb, OVER)]),
        ("thermal voltage -0.0", at(-0.0), vec![(-1.0, -1.0, SmallStep, OVER), (1.0, 1.0, SmallStep, Some(1.0))]),
        ("an infinite thermal voltage", at(INF), vec![
            (1.0, 0.0, SmallStep, Some(1.0)), (f64::MAX, f64::MIN, SmallStep, Some(f64::MAX)), (1.0, NAN, BelowCritical, Some(1.0)), (INF, 0.0, SmallStep, OVER), (INF, INF, Climb, OVER)]),
        ("a thermal voltage of minus infinity", at(-INF), vec![(1.0, 0.0, TurnOn, OVER), (2.0, 1.0, Climb, OVER)]),
        ("a NaN thermal voltage", at(NAN), vec![(0.0, 0.0, TurnOn, OVER), (1.0, 0.0, TurnOn, OVER), (1.0, 1.0, Climb, OVER)]),
        ("the least thermal voltage", at(LEAST), vec![(2.0 * LEAST, 0.0, SmallStep, Some(2.0 * LEAST)), (3.0 * LEAST, 0.0, TurnOn, Some(LEAST))]),
        ("two thermal voltages overflow", at(1e308), vec![(1.7e308, -1.7e308, SmallStep, Some(1.7e308))]),
        ("a quotient overflows", at(1e-300), vec![(1e10, 0.0, TurnOn, OVER), (1e10, 1.0, Climb, OVER), (1.0, 1e10, FallBack, Some(critical(1e-300, 1.0)))]),
    ]
}

/// What is amiss with a call: a side that answers otherwise than the line says, or than the model, or another situation.
fn amiss(call: &Call, line: &Line) -> Vec<String> {
    let (_, kept, situation, stands) = *line;
    let expected = stands.map_or([22.0, kept], |x| [0.0, x]);
    let sides = call.sides();
    let whole = sides[0].1;
    let bad = |n: &Numbers| !alike(&[n[0], n[3]], &expected) || !alike(n, &whole);
    let mut list: Vec<String> = sides
        .into_iter()
        .filter(|(_, n)| bad(n))
        .map(|(side, n)| {
            format!("{}: {:?}; verdict and memory must be {:?}, the others the model's", side, n, expected)
        })
        .collect();
    if call.situation() != situation {
        list.push(format!("{} and not {}", title(call.situation()), title(situation)));
    }
    list
}

/// Makes every call of the table on every side; says which are amiss, and answers how many, with the readings that no call tells.
pub fn run_calls() -> u64 {
    let (mut calls, mut bad) = (0, 0);
    let mut met = Tally::default();
    let mut told = Vec::new();
    for (name, part, lines) in table() {
        for line in lines {
            let call = part.call(line.0, line.1);
            calls += 1;
            met.add(&title(line.2));
            told.extend(call.tells());
            for text in amiss(&call, &line) {
                bad += 1;
                println!("DIRECTED CALL AMISS: {}, from {:?} to {:?} V: {}", name, line.1, line.0, text);
            }
        }
    }
    let untold = untold_by_calls(&told, WRONG_LIMIT);
    let all = WRONG_LIMIT.len() as u64;
    println!(
        "directed calls of a diode: {}; wrong readings told: {} of {}; {} amiss; {}",
        calls,
        all - untold,
        all,
        bad,
        met.line()
    );
    bad + untold
}

/// A diode across a source that has one level after the other, so that each level is asked for twice: in the second pass of its
/// own step and in the first of the next. Before them it has 0 V. The memory afterwards is that of the last level.
fn stairs(part: Part, levels: &[f64]) -> Job {
    let mut points: Vec<(f64, f64)> = [0.0].iter().chain(levels).enumerate().map(|(k, x)| (k as f64, *x)).collect();
    let steps = levels.len() as f64;
    // the pattern is not over in the last step
    points.push((steps + 1.0, levels[levels.len() - 1]));
    across(part, Build::transient(2, 1, steps - 0.5).vpwl(1, 0, &points, -1.0, 0))
}

/// The diode between node 1 and ground. The source's current, which changes with the diode, makes no further pass.
fn across(part: Part, source: Build) -> Job {
    let mut job = source.d(1, 0, part.i_sat, part.tdegc).set(|o| o.abstol = 1e300).job();
    part.set(&mut job.options);
    job
}

/// Below absolute zero, with a critical voltage of 0.24 V, so that 0 V passes.
const COLD_AND_HIGH: Part = exactly(-1.0, -0.9);

/// A run along stairs: its levels, the situation of the last, and the memory afterwards.
type Run = (&'static str, Part, Vec<f64>, Situation, Option<f64>);

/// Each situation in a run, and its edges as far as a run has them exactly.
#[rustfmt::skip]
fn runs() -> Vec<Run> {
    let c = critical(1.0, 1e-12);
    vec![
        ("two thermal voltages", ZERO, vec![2.0], SmallStep, Some(2.0)),
        ("below critical from above", ZERO, vec![2.0, 4.0, 5.0, -5.0], BelowCritical, Some(-5.0)),
        ("below critical from below", ZERO, vec![-1.0, -5.0], BelowCritical, Some(-5.0)),
        ("a turn-on", ZERO, vec![3.0], TurnOn, Some(ln(3.0))),
        ("a turn-on from below", ZERO, vec![-1.0, 5.0], TurnOn, Some(ln(5.0))),
        ("a turn-on whose logarithm has no value", LOW, vec![-2.5], TurnOn, OVER),
        ("a turn-on without a critical voltage", exactly(1.0, -1.0), vec![3.0], TurnOn, Some(ln(3.0))),
        ("a turn-on to the critical voltage", exactly(1.0, 1e-12), vec![c], TurnOn, Some(ln(c))),
        ("a fall back", ZERO, vec![2.0, 4.0, 5.0, 1.0], FallBack, Some(0.0)),
        ("a fall back below zero", LOW, vec![1.0, -2.5], FallBack, Some(critical(1.0, 10.0))),
        ("a fall back with arg 0", COLD_AND_HIGH, vec![0.125, 1.125], FallBack, Some(critical(-1.0, -0.9))),
        ("a climb", ZERO, vec![1.0, 9.0], Climb, Some(1.0 + ln(9.0))),
        ("a climb with arg 0.5", COLD_AND_HIGH, vec![0.125, 0.625], Climb, Some(0.125 - ln(0.5))),
    ]
}

/// A level straight across the cold diode, which stands at plus infinity after the first pass. DC ends with 21, and the first step
/// asks for the level again.
fn cold(level: f64) -> Job {
    across(COLD, Build::transient(2, 1, 0.5).v(1, 0, level, 0))
}

/// One job for each wrong reading that a run can show and that has none among those of document 01.
fn tellers() -> Vec<(Wrong, Job)> {
    let falls = || stairs(ZERO, &[2.0, 4.0, 5.0, 1.0]);
    let falls_low = || stairs(LOW, &[1.0, -2.5]);
    let (turns, no_value) = (|| stairs(ZERO, &[3.0]), || stairs(LOW, &[-2.5]));
    let climbs = || stairs(ZERO, &[1.0, 9.0]);
    vec![
        (Wrong::LimitOneThermal, stairs(ZERO, &[2.0])),
        (Wrong::LimitStepWithoutSize, falls()),
        (Wrong::LimitTwoThermalOfVoltage, falls()),
        (Wrong::LimitNanStepSmall, cold(INF)),
        (Wrong::LimitCriticalAtMost, stairs(exactly(1.0, 1e-12), &[critical(1.0, 1e-12)])),
        (Wrong::LimitCriticalOfMemory, stairs(ZERO, &[-1.0, 5.0])),
        (Wrong::LimitNanCriticalPasses, stairs(exactly(1.0, -1.0), &[3.0])),
        (Wrong::LimitMemoryBelow, turns()),
        (Wrong::LimitMemoryBySign, turns()),
        (Wrong::LimitTurnOnOfVoltage, turns()),
        (Wrong::LimitNanArgFallsBack, cold(NAN)),
        (Wrong::LimitChoiceWithoutOne, stairs(COLD_AND_HIGH, &[0.125, 0.625])),
        (Wrong::LimitArgOfSize, falls()),
        (Wrong::LimitTurnOnBeforeSmall, stairs(ZERO, &[2.0])),
        (Wrong::LimitTurnOnBeforeCritical, stairs(ZERO, &[-1.0, -5.0])),
        (Wrong::LimitFallBackBeforeSmall, stairs(ZERO, &[2.0, 0.5])),
        (Wrong::LimitFallBackBeforeCritical, stairs(ZERO, &[2.0, 4.0, 5.0, -5.0])),
        (Wrong::LimitFallBackBeforeTurnOn, no_value()),
        (Wrong::LimitTurnOnPlusOne, turns()),
        (Wrong::LimitTurnOnFromMemory, stairs(ZERO, &[-1.0, 5.0])),
        (Wrong::LimitFallBackToMemory, falls()),
        (Wrong::LimitFallBackToVoltage, falls()),
        (Wrong::LimitFallBackToZero, falls_low()),
        (Wrong::LimitClimbFromCritical, climbs()),
        (Wrong::LimitClimbWithoutOne, climbs()),
        (Wrong::LimitTurnOnFallBackExchanged, no_value()),
        (Wrong::LimitTurnOnClimbExchanged, climbs()),
        (Wrong::LimitFallBackClimbExchanged, climbs()),
        (Wrong::LimitMemoryAsked, climbs()),
    ]
}

/// The readings that a run can show. In a run no memory is NaN: it starts at 0 V, and a limited voltage that is NaN ends the run by 22.
pub fn shown_by_runs() -> Vec<(Wrong, &'static str)> {
    WRONG_LIMIT.iter().copied().filter(|w| w.0 != Wrong::LimitNanMemoryTurnsOn).collect()
}

pub fn all() -> Vec<Directed> {
    let stair = |(name, part, levels, ..): Run| (format!("stairs: {}", name), stairs(part, &levels), Wrong::Nothing);
    let reading = |w: Wrong| WRONG_LIMIT.iter().find(|known| known.0 == w).unwrap().1;
    let teller = |(wrong, job): (Wrong, Job)| (format!("not: {}", reading(wrong)), job, wrong);
    let list = runs().into_iter().map(stair).chain(tellers().into_iter().map(teller));
    list.map(|(name, job, tells)| Directed { name, job, expected: None, tells }).collect()
}

/// Holds the runs along stairs against the verdict and the memory that they must end with, and asks whether the situation was met;
/// answers how many are amiss. What the sides say of them is compared with all the other jobs.
pub fn run_stairs() -> u64 {
    let mut bad = 0;
    for (name, part, levels, situation, stands) in runs() {
        let job = stairs(part, &levels);
        let (a, _, situations) = model::run_counted(&job, &OURS, Wrong::Nothing);
        let diode = job.elements().iter().position(|e| e.kind == 4).unwrap();
        let ended = [a.verdict as f64, a.buffers[MEMORY][diode]];
        // with 22 the memory is that of the level before, 0 V
        let expected = stands.map_or([22.0, 0.0], |x| [0.0, x]);
        if !alike(&ended, &expected) || situations[situation as usize] == 0 {
            bad += 1;
            println!("STAIRS AMISS: {}: {:?} and not {:?}; situations {:?}", name, ended, expected, situations);
        }
    }
    println!("runs of a diode along stairs: {}, {} amiss", runs().len(), bad);
    bad
}
