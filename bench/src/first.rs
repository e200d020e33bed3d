//! Patterns that start away from zero, written by hand: calls with their levels by the rule without the option and with it, the same
//! as runs, and one job or two for each reading of the option that is easy to get wrong. The jobs are a list of their own, stored in
//! a file of their own.

use crate::compare::same;
use crate::directed::{untold_by_calls, Build, Directed, Expected};
use crate::door;
use crate::job::*;
use crate::leaves::point_bytes;
use crate::model::{self, Sentence, Wrong, SENTENCES, WRONG_PATTERN, WRONG_WORD};
use crate::oracle::plain;
use crate::tally::Tally;

/// One evaluation: its pattern, the time, and the levels with the option on and off.
struct Case {
    name: &'static str,
    points: &'static [(f64, f64)],
    delay: f64,
    repeat: f64,
    /// Time, level with the option on, level with it off.
    levels: &'static [(f64, f64, f64)],
}

const NAN: f64 = f64::NAN;

/// Document 01's cases g and h, and that whose first point has a time of its own.
const G: &[(f64, f64)] = &[(0.0, 0.0), (1.0, 4.0)];
const H: &[(f64, f64)] = &[(0.0, 3.0), (1.0, 4.0)];
const LATER: &[(f64, f64)] = &[(1.0, 3.0), (2.0, 5.0)];

/// A time that is a float below 0.39 + 1.4, and from which 0.39 leaves 1.4: the bits 3ffca3d70a3d70a3.
const NEAR_END: f64 = 1.7899999999999998;

/// v / t * t is no v.
const UNEVEN: (f64, f64) = (0.1, 1.9);

fn case(
    name: &'static str,
    points: &'static [(f64, f64)],
    delay: f64,
    repeat: f64,
    levels: &'static [(f64, f64, f64)],
) -> Case {
    Case { name, points, delay, repeat, levels }
}

fn table() -> Vec<Case> {
    cases_g_and_h().into_iter().chain(other_cases()).collect()
}

/// Cases g and h, and these with other delays, repeats and times.
#[rustfmt::skip]
fn cases_g_and_h() -> Vec<Case> {
    vec![
        case("case g", G, 0.0, -1.0, &[(0.0, 0.0, 0.0), (0.5, 2.0, 2.0), (1.0, 4.0, 0.0), (2.0, 4.0, 4.0), (-0.5, 0.0, 0.0)]),
        case("case h", H, 0.0, -1.0, &[(0.0, 3.0, NAN), (0.5, 3.5, 3.5), (1.0, 4.0, NAN), (2.0, 4.0, 4.0), (-0.5, 0.0, 0.0)]),
        case("case h at -0.0, NaN and infinity", H, 0.0, -1.0, &[(-0.0, 3.0, NAN), (NAN, 3.0, NAN), (f64::INFINITY, 4.0, 4.0)]),
        case("case h, repeat 1", H, 0.0, 1.0, &[(0.0, 3.0, NAN), (1.0, 3.0, NAN), (1.5, 3.5, 3.5), (2.0, 3.0, NAN)]),
        case("case h, repeat 1, at infinity", H, 0.0, 1.0, &[(f64::INFINITY, 3.0, NAN)]),
        case("case h, repeat 0", H, 0.0, 0.0, &[(1.0, 3.0, NAN), (1.5, 3.5, 3.5)]),
        case("case h, repeat -0.0", H, 0.0, -0.0, &[(1.0, 3.0, NAN), (1.5, 3.5, 3.5)]),
        case("case h, repeat NaN", H, 0.0, NAN, &[(1.0, 3.0, NAN), (1.5, 3.5, 3.5)]),
        case("case h, repeat the least below 0", H, 0.0, -5e-324, &[(1.0, 4.0, NAN), (1.5, 4.0, 4.0)]),
        case("case h, delay 1", H, 1.0, -1.0, &[(0.0, 0.0, NAN), (0.5, 0.0, 0.0), (1.0, 3.0, NAN), (1.5, 3.5, 3.5), (2.0, 4.0, NAN), (3.0, 4.0, 4.0)]),
        case("case h, delay -0.0", H, -0.0, -1.0, &[(0.0, 3.0, NAN), (1.0, 4.0, NAN)]),
        case("case h, delay -0.5", H, -0.5, -1.0, &[(0.0, 3.5, 3.5), (0.5, 4.0, NAN), (1.0, 4.0, 4.0), (-0.5, 3.0, NAN), (-0.75, 0.0, 0.0)]),
        case("case h, delay -1: over at 0", H, -1.0, -1.0, &[(0.0, 4.0, NAN)]),
        case("case h, delay 0.25, repeat 1", H, 0.25, 1.0, &[(0.25, 3.0, NAN), (0.5, 3.25, 3.25), (1.25, 3.0, NAN), (1.5, 3.25, 3.25)]),
        case("case h, delay NaN", H, NAN, -1.0, &[(0.0, 3.0, NAN), (5.0, 3.0, NAN)]),
        case("case h, an infinite delay", H, f64::INFINITY, -1.0, &[(0.0, 0.0, NAN), (5.0, 0.0, NAN), (f64::INFINITY, 4.0, NAN)]),
    ]
}

/// Points that are later or earlier, few, out of order or odd.
#[rustfmt::skip]
fn other_cases() -> Vec<Case> {
    vec![
        case("a later first point", LATER, 0.0, -1.0, &[(0.0, 3.0, 0.0), (0.5, 3.0, 1.5), (1.0, 3.0, 3.0), (1.5, 4.0, 4.0), (2.0, 5.0, 0.0), (3.0, 5.0, 5.0)]),
        case("a later first point, repeat 1", LATER, 0.0, 1.0, &[(2.0, 3.0, 0.0), (2.5, 3.0, 1.5), (3.0, 3.0, 3.0), (3.5, 4.0, 4.0), (4.0, 3.0, 0.0)]),
        case("an earlier first point", &[(-1.0, 2.0), (1.0, 4.0)], 0.0, -1.0, &[(0.0, 3.0, 3.0), (0.5, 3.5, 3.5), (1.0, 4.0, 3.0)]),
        case("no points", &[], 0.0, -1.0, &[(0.0, 0.0, 0.0), (1.0, 0.0, 0.0), (NAN, 0.0, 0.0)]),
        case("no points, delay NaN", &[], NAN, 1.0, &[(0.0, 0.0, 0.0)]),
        case("one point", &[(1.0, 7.0)], 0.0, -1.0, &[(0.0, 7.0, 0.0), (0.5, 7.0, 3.5), (1.0, 7.0, 0.0), (2.0, 7.0, 7.0)]),
        case("one point, delay 1", &[(1.0, 7.0)], 1.0, -1.0, &[(0.0, 0.0, 0.0), (0.5, 0.0, 0.0), (1.0, 7.0, 0.0), (1.5, 7.0, 3.5)]),
        case("one point, repeat 1", &[(1.0, 7.0)], 0.0, 1.0, &[(1.0, 7.0, 0.0), (1.5, 7.0, 3.5)]),
        case("one point at 0", &[(0.0, 7.0)], 0.0, -1.0, &[(0.0, 7.0, NAN), (1.0, 7.0, 7.0)]),
        case("one point at 0, repeat 1", &[(0.0, 7.0)], 0.0, 1.0, &[(0.0, 7.0, NAN), (1.0, 7.0, NAN)]),
        case("one point at -2, repeat 1", &[(-2.0, 7.0)], 0.0, 1.0, &[(0.0, 7.0, 0.0), (0.5, 7.0, -1.75)]),
        case("one point at NaN, repeat 1", &[(NAN, 7.0)], 0.0, 1.0, &[(0.0, 7.0, NAN), (0.5, 7.0, NAN)]),
        case("two points at 0, repeat 1", &[(0.0, 3.0), (0.0, 4.0)], 0.0, 1.0, &[(0.0, 3.0, NAN), (0.5, 3.0, NAN)]),
        case("two points at 0", &[(0.0, 3.0), (0.0, 4.0)], 0.0, -1.0, &[(0.0, 4.0, NAN), (0.5, 4.0, 4.0)]),
        case("the end is a sum, rounded", &[(0.0, 3.0), (1.4, 4.0)], 0.39, -1.0, &[(NEAR_END, 3.0, NAN), (1.79, 4.0, NAN)]),
        case("the last time is 0, repeat 1", &[(-1.0, 3.0), (0.0, 5.0)], 0.0, 1.0, &[(0.0, 3.0, NAN), (0.5, 3.0, NAN)]),
        case("the last time is below 0, repeat 1", &[(-2.0, 3.0), (-1.0, 5.0)], 0.0, 1.0, &[(0.0, 0.0, 0.0), (0.5, -2.5, -2.5)]),
        case("the last time is below 0", &[(-2.0, 3.0), (-1.0, 5.0)], 0.0, -1.0, &[(0.0, 5.0, 5.0), (0.5, 5.0, 5.0)]),
        case("the last time is infinite", &[(1.0, 3.0), (f64::INFINITY, 5.0)], 0.0, -1.0, &[(0.0, 3.0, 0.0), (0.5, 3.0, 1.5), (2.0, 3.0, 3.0)]),
        case("the last time is NaN", &[(0.0, 3.0), (NAN, 5.0)], 0.0, -1.0, &[(0.0, 3.0, NAN), (0.5, 3.0, NAN)]),
        case("the first time is NaN", &[(NAN, 3.0), (2.0, 5.0)], 0.0, -1.0, &[(0.0, 3.0, 0.0), (1.0, 3.0, 0.0), (2.0, 5.0, 0.0)]),
        case("times out of order", &[(1.0, 3.0), (0.0, 5.0), (2.0, 7.0)], 0.0, -1.0, &[(0.5, 3.0, 1.5), (1.0, 3.0, 3.0), (1.5, 6.5, 6.5), (2.0, 7.0, 0.0)]),
        case("equal times", &[(1.0, 3.0), (1.0, 6.0), (2.0, 8.0)], 0.0, -1.0, &[(0.0, 3.0, 0.0), (1.0, 3.0, 3.0), (1.5, 7.0, 7.0)]),
        case("an infinite first level", &[(0.0, f64::INFINITY), (1.0, 4.0)], 0.0, -1.0, &[(0.0, f64::INFINITY, NAN), (1.0, 4.0, NAN)]),
        case("a first level of NaN", &[(0.0, NAN), (1.0, 4.0)], 0.0, -1.0, &[(0.0, NAN, 0.0), (1.0, 4.0, 0.0)]),
        case("a first level of -0.0", &[(0.0, -0.0), (1.0, 4.0)], 0.0, -1.0, &[(0.0, -0.0, 0.0), (1.0, 4.0, 0.0)]),
        case("the first point's own time", &[UNEVEN, (1.0, 2.0)], 0.0, -1.0, &[(0.1, 1.9, 1.8999999999999997)]),
    ]
}

/// A pattern alone, evaluated at a time: in DC at 0, else in one step of that length.
fn alone(points: &[(f64, f64)], delay: f64, repeat: f64, t: f64) -> Job {
    let dc = t.to_bits() == 0;
    let b = if dc { Build::dc(2, 1) } else { Build::transient(2, 1, f64::NEG_INFINITY) };
    let mut job = b.r(1, 0, 1.0).vpwl(1, 0, points, repeat, 0).delayed(delay).rows(2).job();
    job.options.tstep = if dc { 1.0 } else { t };
    job.options.budget = 8;
    job
}

/// The same with a source behind it, so that a level that is NaN is no last unknown's.
fn behind_it(points: &[(f64, f64)], delay: f64, repeat: f64, t: f64) -> Job {
    let mut job = alone(points, delay, repeat, t);
    let mut elements = job.elements();
    elements.push(Element { source: 1, value: [1.0, 0.0, 0.0], ..Element::new(3, 2, 0) });
    elements.push(Element { value: [1.0, 0.0, 0.0], ..Element::new(1, 2, 0) });
    job.set_elements(&elements);
    (job.nodes, job.sources) = (3, 2);
    job.fit(2);
    job
}

fn on(job: Job) -> Job {
    by(job, 1)
}

fn by(mut job: Job, word: u64) -> Job {
    job.options.pattern_first = word;
    job
}

/// A run that settles with a level at node 1.
fn level(x: f64) -> Option<Expected> {
    ended(0, x)
}

fn ended(verdict: u64, x: f64) -> Option<Expected> {
    let vector = vec![0.0, x];
    Some(Expected { verdict, behind: Some(0), vector, ..Expected::default() })
}

/// A transient that ends with 0 and has these times and levels of node 1.
fn rows(list: &[(f64, f64)]) -> Option<Expected> {
    let rows = list.iter().map(|(t, x)| (*t, 1, *x)).collect();
    Some(Expected { rows, ..Expected::default() })
}

type Named = (String, Job, Option<Expected>);

/// Every evaluation of the table whose time a run can reach, with the option off and on.
fn evaluations() -> Vec<Named> {
    let mut list = Vec::new();
    for c in table() {
        for (t, first, before) in c.levels.iter().copied().filter(|l| l.0.is_finite()) {
            // the option moves nothing: on is enough
            let both = !same(first, before);
            for (word, x) in [(1, first), (0, before)].into_iter().filter(|w| w.0 == 1 || both) {
                let job = by(alone(c.points, c.delay, c.repeat, t), word);
                let text = format!("{} at {:?}, {}", c.name, t, if word == 1 { "on" } else { "off" });
                // a level that is not finite hides behind the last unknown, which becomes 0; and the solve makes -0.0 a 0.0
                list.push((text, job, if x.is_finite() { level(x + 0.0) } else { level(0.0) }));
            }
        }
    }
    list
}

/// Cases g and h with a source behind them, at DC and in a step, off and on, by every sort of word.
fn words() -> Vec<Named> {
    let mut list: Vec<Named> = Vec::new();
    let at = |points, t| behind_it(points, 0.0, -1.0, t);
    for (name, points, t, first, before) in [
        ("case h in DC", H, 0.0, 3.0, NAN),
        ("case h in a step", H, 1.0, 4.0, NAN),
        ("case g in a step", G, 1.0, 4.0, 0.0),
    ] {
        for word in [0, 1, 2, 1 << 32, 1 << 63, u64::MAX] {
            let expected = match word {
                0 if before.is_nan() => ended(21, before),
                0 => level(before),
                _ => level(first),
            };
            list.push((format!("{}, the word {:#x}", name, word), by(at(points, t), word), expected));
        }
    }
    list
}

/// A bias that ramps up from a level of its own.
fn bias() -> Build {
    Build::transient(3, 1, 4.0)
        .vpwl(1, 0, &[(1.0, 3.0), (2.0, 5.0), (4.0, 5.0)], -1.0, 0)
        .r(1, 2, 1.0)
        .c(2, 0, 1.0)
        .r(2, 0, 1.0)
}

/// A saw of period 1 in steps of a quarter.
fn saw(delay: f64) -> Build {
    Build::transient(2, 1, 1.5).vpwl(1, 0, H, 1.0, 0).delayed(delay).r(1, 0, 1.0).set(|o| o.tstep = 0.25)
}

/// 5 V from the start, 1 kOhm and a diode: with both options on the run waits for the diode.
fn clamped(b: Build) -> Build {
    b.vpwl(1, 0, &[(0.0, 5.0), (1.0, 5.0)], -1.0, 0).r(1, 2, 1000.0).d(2, 0, 1e-12, 27.0)
}

fn both(o: &mut Options) {
    (o.catchup, o.pattern_first) = (1, 1)
}

/// 25 V from the start across a diode whose current overflows.
fn overflowing() -> Build {
    Build::dc(2, 1).vpwl(1, 0, &[(0.0, 25.0), (1.0, 25.0)], -1.0, 0).d(1, 0, 1e-320, 27.0)
}

type Run = (&'static str, Job, Option<Expected>);

fn runs() -> Vec<Named> {
    let list = shapes().into_iter().chain(endings()).chain(diodes()).chain(limits());
    list.map(|(name, job, expected)| (name.to_string(), job, expected)).collect()
}

/// Ramps and saws, one or two at a time.
fn shapes() -> Vec<Run> {
    let quarter = |k: u64| (k as f64 * 0.25, [3.0, 3.25, 3.5, 3.75][k as usize % 4]);
    let mut saws: Vec<(f64, f64)> = (0..7).map(quarter).collect();
    saws.push((1.5, 3.75));
    let ramp = [(0.0, 3.0), (1.0, 3.0), (2.0, 5.0), (3.0, 5.0), (4.0, 5.0), (4.0, 5.0)];
    let before = [(0.0, 0.0), (1.0, 3.0), (2.0, 5.0), (3.0, 5.0), (4.0, 0.0), (4.0, 5.0)];
    let two = |b: Build| {
        b.vpwl(1, 0, LATER, -1.0, 0).vpwl(2, 0, LATER, 1.0, 1).delayed(0.5).r(1, 2, 1.0).r(2, 3, 2.0).r(3, 0, 1.0)
    };
    vec![
        ("a bias ramp, on", on(bias().job()), rows(&ramp)),
        ("a bias ramp, off", bias().job(), rows(&before)),
        ("a saw, on", on(saw(0.0).job()), rows(&saws)),
        ("a saw, off", saw(0.0).job(), None),
        ("a saw, delay 0.5, on", on(saw(0.5).job()), None),
        ("two patterns, one delayed, on, DC", on(two(Build::dc(4, 2)).job()), None),
        ("two patterns, one delayed, on", on(two(Build::transient(4, 2, 5.0)).job()), None),
        ("two patterns, one delayed, off", two(Build::transient(4, 2, 5.0)).job(), None),
        (
            "two patterns that share a number, on",
            on(Build::dc(3, 2).vpwl(1, 0, H, -1.0, 0).vpwl(2, 0, LATER, -1.0, 0).r(1, 2, 1.0).job()),
            None,
        ),
    ]
}

/// A ramp in steps that grow or are cut, and runs of it that end early.
fn endings() -> Vec<Run> {
    vec![
        ("steps that grow past points, on", on(bias().set(|o| (o.itl3, o.rmax, o.tstep) = (6, 4.0, 0.25)).job()), None),
        ("a step that is cut, on", on(bias().set(|o| (o.itl4, o.ft, o.rmin) = (1, 0.5, 0.1)).job()), None),
        ("a step too small, on", on(bias().set(|o| (o.itl4, o.ft, o.rmin) = (1, 0.5, 0.9)).job()), None),
        ("budget spent, on", on(bias().set(|o| o.budget = 5).job()), None),
        ("no room, on", on(bias().rows(2).job()), None),
        ("ITL1 0, on", on(bias().set(|o| o.itl1 = 0).job()), None),
    ]
}

/// A diode that is behind, by either option and by both, and one whose current overflows.
fn diodes() -> Vec<Run> {
    vec![
        ("a diode is behind, pattern_first on", on(clamped(Build::dc(3, 1)).job()), None),
        ("a diode is waited for, both on", clamped(Build::dc(3, 1)).set(both).job(), None),
        ("the same in a transient", clamped(Build::transient(3, 1, 2.0)).set(both).job(), None),
        ("catchup on, pattern_first off", clamped(Build::dc(3, 1)).set(|o| o.catchup = 1).job(), None),
        ("22 by a first level, on", on(overflowing().job()), None),
        ("the same off", overflowing().job(), None),
    ]
}

/// Odd levels and steps, runs without a pattern, and calls that are refused or just not.
fn limits() -> Vec<Run> {
    vec![
        (
            "an infinite first level with a source behind, on",
            on(behind_it(&[(0.0, f64::INFINITY), (1.0, 4.0)], 0.0, -1.0, 0.0)),
            None,
        ),
        ("TSTEP NaN, on", on(alone(H, 0.0, -1.0, NAN)), None),
        ("TSTEP infinite, on", on(alone(H, 0.0, 1.0, f64::INFINITY)), None),
        ("no pattern, on", on(Build::dc(3, 1).v(1, 0, 4.0, 0).r(1, 2, 1.0).r(2, 0, 1.0).job()), None),
        ("no record, on", on(Build::dc(1, 0).job()), None),
        (
            "first point past the end, on: refused",
            on(Build::dc(2, 1).vpwl(1, 0, H, -1.0, 0).with(|j| j.sheet[12] = 1)),
            None,
        ),
        (
            "first point at the end, count 0, on",
            on(Build::dc(2, 1).r(1, 0, 1.0).vpwl(1, 0, &[], -1.0, 0).with(|j| {
                j.points = vec![0; 32];
                j.sheet[52] = 2
            })),
            None,
        ),
        ("refused by its budget, by the largest word", by(bias().set(|o| o.budget = 0).job(), u64::MAX), None),
    ]
}

/// A pattern alone with the option on.
fn at(points: &[(f64, f64)], delay: f64, repeat: f64, t: f64) -> Job {
    on(alone(points, delay, repeat, t))
}

/// Jobs for each wrong reading of the rule.
fn tellers() -> Vec<(Wrong, Job)> {
    let below = [(-2.0, 3.0), (-1.0, 5.0)];
    vec![
        (Wrong::FirstSingleBeforeDelay, at(&[(1.0, 7.0)], 1.0, -1.0, 0.0)),
        (Wrong::FirstSingleBeforeDelay, at(&[(1.0, 7.0)], 1.0, -1.0, 0.5)),
        (Wrong::FirstSingleLeftOut, at(&[(-2.0, 7.0)], 0.0, 1.0, 0.0)),
        (Wrong::FirstSingleLeftOut, at(&[(-2.0, 7.0)], 0.0, 1.0, 0.5)),
        (Wrong::FirstEndStrict, at(H, -1.0, -1.0, 0.0)),
        (Wrong::FirstEndStrict, at(G, 0.0, -1.0, 1.0)),
        (Wrong::FirstEndByDifference, at(&[(0.0, 3.0), (1.4, 4.0)], 0.39, -1.0, NEAR_END)),
        (Wrong::FirstEndWithoutDelay, at(H, 1.0, -1.0, 1.5)),
        (Wrong::FirstEndWithoutDelay, at(H, -1.0, -1.0, 0.0)),
        (Wrong::FirstEndIgnored, at(H, -1.0, -1.0, 0.0)),
        (Wrong::FirstEndIgnored, at(H, 0.0, -1.0, 1.0)),
        (Wrong::FirstEndRepeats, at(H, -1.0, 1.0, 0.0)),
        (Wrong::FirstEndRepeats, at(H, 0.0, 1.0, 1.0)),
        (Wrong::FirstLastZero, at(H, -1.0, -1.0, 0.0)),
        (Wrong::FirstLastZero, at(H, 0.0, -1.0, 2.0)),
        (Wrong::FirstRepeatAtMostZero, at(H, -1.0, -0.0, 0.0)),
        (Wrong::FirstRepeatAtMostZero, at(H, 0.0, -0.0, 1.0)),
        (Wrong::FirstNanRepeatOnce, at(H, -1.0, NAN, 0.0)),
        (Wrong::FirstNanRepeatOnce, at(H, 0.0, NAN, 1.0)),
        (Wrong::FirstDelayAtMost, at(H, 0.0, -1.0, 0.0)),
        (Wrong::FirstDelayAtMost, at(H, 0.5, -1.0, 0.5)),
        (Wrong::FirstHeldBeforeDelay, at(H, 1.0, -1.0, 0.0)),
        (Wrong::FirstHeldBeforeDelay, at(H, 1.0, -1.0, 0.5)),
        (Wrong::FirstNoPointNan, at(&[], 0.0, -1.0, 0.0)),
        (Wrong::FirstNoPointNan, at(&[], 0.0, -1.0, 1.0)),
        (Wrong::FirstLevelBeforeEnd, at(H, -1.0, -1.0, 0.0)),
        (Wrong::FirstLevelBeforeEnd, at(H, 0.0, -1.0, 1.0)),
        (Wrong::FirstEqualRamped, at(H, 0.0, -1.0, 0.0)),
        (Wrong::FirstEqualRamped, at(&[UNEVEN, (1.0, 2.0)], 0.0, -1.0, 0.1)),
        (Wrong::FirstNanThrough, at(&[(0.0, 3.0), (0.0, 4.0)], 0.0, 1.0, 0.0)),
        (Wrong::FirstNanThrough, at(&[(0.0, 3.0), (0.0, 4.0)], 0.0, 1.0, 0.5)),
        (Wrong::FirstLevelAbove, at(H, -0.5, -1.0, 0.0)),
        (Wrong::FirstLevelAbove, at(H, 0.0, -1.0, 0.5)),
        (Wrong::FirstLevelZero, at(H, 0.0, -1.0, 0.0)),
        (Wrong::FirstLevelZero, at(LATER, 0.0, -1.0, 0.5)),
        (Wrong::FirstInFirstCycleOnly, at(LATER, -2.5, 1.0, 0.0)),
        (Wrong::FirstInFirstCycleOnly, at(LATER, 0.0, 1.0, 2.5)),
        (Wrong::FirstCycleWithoutDelay, at(H, -0.25, 1.0, 0.0)),
        (Wrong::FirstCycleWithoutDelay, at(H, 0.25, 1.0, 0.5)),
        (Wrong::FirstPastAllHeld, at(&below, -0.5, 1.0, 0.0)),
        (Wrong::FirstPastAllHeld, at(&below, 0.0, 1.0, 0.5)),
    ]
}

/// Jobs for each wrong reading of the option's word.
fn word_tellers() -> Vec<(Wrong, Job)> {
    vec![
        (Wrong::FirstInTransientOnly, at(H, 0.0, -1.0, 0.0)),
        (Wrong::FirstInTransientOnly, on(bias().job())),
        (Wrong::FirstInDcOnly, at(G, 0.0, -1.0, 1.0)),
        (Wrong::FirstInDcOnly, on(bias().job())),
        (Wrong::FirstIfOdd, by(alone(H, 0.0, -1.0, 0.0), 2)),
        (Wrong::FirstIfOdd, by(alone(G, 0.0, -1.0, 1.0), 1 << 63)),
        (Wrong::FirstAlways, alone(H, 0.0, -1.0, 0.0)),
        (Wrong::FirstAlways, alone(G, 0.0, -1.0, 1.0)),
        (Wrong::FirstByCatchup, at(H, 0.0, -1.0, 0.0)),
        (Wrong::FirstByCatchup, clamped(Build::dc(3, 1)).set(|o| o.catchup = 1).job()),
        (Wrong::CatchupByFirst, on(clamped(Build::dc(3, 1)).job())),
        (
            Wrong::CatchupByFirst,
            Build::dc(3, 1).v(1, 0, 5.0, 0).r(1, 2, 1000.0).d(2, 0, 1e-12, 27.0).set(|o| o.pattern_first = 1).job(),
        ),
    ]
}

pub fn all() -> Vec<Directed> {
    let named = |(name, job, expected): Named| Directed { name, job, expected, tells: Wrong::Nothing };
    let mut list: Vec<Directed> = evaluations().into_iter().chain(words()).chain(runs()).map(named).collect();
    for (wrong, job) in tellers().into_iter().chain(word_tellers()) {
        let text = WRONG_PATTERN.iter().chain(WRONG_WORD).find(|w| w.0 == wrong).unwrap().1;
        list.push(Directed { name: format!("not: {}", text), job, expected: None, tells: wrong });
    }
    list
}

/// Makes every call of the table on every side that has an answer; says which are amiss, and answers how many, with the readings
/// that no call tells.
pub fn run_calls() -> u64 {
    let (mut calls, mut bad) = (0, 0);
    let mut sentences = Tally::default();
    let mut told = Vec::new();
    for c in table() {
        for (t, first, before) in c.levels.iter().copied() {
            let bytes = point_bytes(c.points);
            let (delay, repeat) = (c.delay, c.repeat);
            let by = |wrong| model::pattern_first(c.points, delay, repeat, t, wrong);
            let off = model::pattern(c.points, delay, repeat, t, Wrong::Nothing);
            let mut sides = vec![
                ("the model, on", by(Wrong::Nothing).1, first),
                ("the model, off", off, before),
                ("the Rust, off", plain::pattern(c.points, delay, repeat, t), before),
            ];
            sides.extend(door::pattern_first(&bytes, delay, repeat, t).map(|x| ("shipped, on", x, first)));
            sides.extend(door::pattern(&bytes, delay, repeat, t).map(|x| ("shipped, off", x, before)));
            calls += 1;
            sentences.add(text(by(Wrong::Nothing).0));
            told.extend(WRONG_PATTERN.iter().map(|w| w.0).filter(|wrong| !same(by(*wrong).1, first)));
            for (side, x, expected) in sides.into_iter().filter(|s| !same(s.1, s.2)) {
                bad += 1;
                println!("DIRECTED CALL AMISS: {} at {:?}, {}: {:?} and not {:?}", c.name, t, side, x, expected);
            }
        }
    }
    let untold = untold_by_calls(&told, WRONG_PATTERN);
    println!(
        "directed: {} calls of a pattern, each with pattern_first off and on, {} amiss; they tell {} of {} wrong readings; {}",
        calls,
        bad,
        WRONG_PATTERN.len() as u64 - untold,
        WRONG_PATTERN.len(),
        sentences.line()
    );
    bad + untold
}

fn text(s: Sentence) -> &'static str {
    SENTENCES.iter().find(|known| known.0 == s).unwrap().1
}
