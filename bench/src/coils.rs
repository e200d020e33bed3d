//! Jobs written by hand about coils: the request's sentences with answers worked out by hand, every way in which DC and a step can end
//! with a coil in them, and one job or two for each reading that is easy to get wrong. They are a list of their own, stored in a file
//! of their own.

use crate::compare::{compare, show, ALL};
use crate::directed::{Build, Directed, Expected};
use crate::door;
use crate::job::*;
use crate::model::{self, wrong_coils, Wrong};
use crate::oracle::hooked;
use crate::sides::OURS;

const NAN: f64 = f64::NAN;

/// The level from a time on, where it was 0 before.
type Points = [(f64, f64); 3];

const UP: Points = [(0.0, 0.0), (1.0, 8.0), (100.0, 8.0)];
const UP_AT_A_QUARTER: Points = [(0.0, 0.0), (0.25, 8.0), (100.0, 8.0)];

/// 8 V until time 0, and none from 1 on.
const DOWN: [(f64, f64); 4] = [(-1.0, 8.0), (0.0, 8.0), (1.0, 0.0), (100.0, 0.0)];

/// 8 V come with the first step, through half an ohm into a coil of half a henry, in steps of 1: half of what is missing to 16 A
/// comes with each. The coil is not the last unknown.
fn charged() -> Build {
    charged_by(&UP, 0.5)
}

fn charged_by(points: &[(f64, f64)], henries: f64) -> Build {
    Build::transient(3, 2, 2.0).vpwl(1, 0, points, -1.0, 1).r(1, 2, 0.5).l(2, 0, henries, 0).set(|o| o.rmax = 5.0)
}

/// The same the other way round: the coil stands first in the sheet, has the last number, and is turned.
fn turned() -> Build {
    Build::transient(3, 2, 2.0).l(0, 2, 0.5, 1).vpwl(1, 0, &UP, -1.0, 0).r(1, 2, 0.5)
}

/// A step of 1 is cut to a half and is easy then.
fn cut() -> Build {
    charged_by(&UP_AT_A_QUARTER, 0.25).set(|o| (o.reltol, o.itl4, o.ft, o.tstop) = (0.9, 1, 0.5, 0.25))
}

/// 16 A at DC, of which half is left after each step.
fn discharged() -> Build {
    charged_by(&DOWN, 0.5)
}

/// 1 A through a resistor beside a coil: at DC the coil takes all of it.
fn beside(b: Build) -> Build {
    b.i(0, 1, 1.0).r(1, 0, 1.0).l(1, 0, 1.0, 0)
}

/// 5 V through 1 kOhm and a coil into a diode; with the option a diode holds steps open.
fn clamped(b: Build) -> Build {
    b.r(1, 2, 1000.0).l(2, 3, 100.0, 0).d(3, 0, 1e-12, 27.0)
}

fn pulse() -> Build {
    clamped(Build::transient(4, 2, 2.0).vpwl(1, 0, &[(0.0, 0.0), (1.0, 5.0), (9.0, 5.0)], -1.0, 1))
        .set(|o| o.rmin = 1e-3)
}

fn waiting(b: Build) -> Build {
    b.set(|o| o.catchup = 1)
}

/// The coil that is charged, and beside it a diode that has no part in its circuit but holds the steps open.
fn held_elsewhere() -> Build {
    let b = Build::transient(5, 3, 2.0).vpwl(1, 0, &UP, -1.0, 1).r(1, 2, 0.5).l(2, 0, 0.5, 0);
    waiting(b.vpwl(3, 0, &[(0.0, 0.0), (1.0, 5.0), (9.0, 5.0)], -1.0, 2).r(3, 4, 1000.0).d(4, 0, 1e-12, 27.0))
}

/// Entry (1, 1) holds 2^53 from the base, where 1 and then 2 makes another sum than 2 and then 1.
fn grain(b: Build) -> Build {
    b.r(1, 0, 1.0 / GRAIN)
}

const GRAIN: f64 = 9007199254740992.0;

/// A diode with a conductance of 2 at 0 V.
fn unit_diode(b: Build) -> Build {
    b.d(1, 0, 2.0, 0.0).set(|o| (o.boltzmann, o.charge) = (1.0, 363.0))
}

/// Minus 1 A at DC, and then 49 V across 49 H: the product, which is a float below 1, is rounded before the sum.
fn rounded() -> Build {
    Build::transient(2, 2, 0.5)
        .vpwl(1, 0, &[(0.0, 0.0), (1.0, 49.0), (9.0, 49.0)], -1.0, 1)
        .i(1, 0, 1.0)
        .l(1, 0, 49.0, 0)
}

/// A node that overflows in the second step: with these its voltage alone is NaN, and later unknowns are not.
const BIG: [(f64, f64); 4] = [(0.0, 0.0), (1.0, 1.0), (2.0, 2e200), (9.0, 2e200)];

fn error_in_a_step() -> Build {
    Build::transient(6, 4, 3.0)
        .r(1, 0, 1.0)
        .vccs([1, 0, 2, 3], 1e200)
        .vpwl(2, 0, &BIG, -1.0, 0)
        .vpwl(3, 0, &BIG, -1.0, 1)
        .vpwl(4, 0, &UP, -1.0, 2)
        .r(4, 5, 0.5)
        .l(5, 0, 0.5, 3)
}

/// A DC run that ends with 21 for its bare node 2, which has a capacitor, and leaves the coil 1 A.
fn error_at_dc() -> Build {
    Build::transient(3, 1, 2.0).i(0, 1, 1.0).r(1, 0, 1.0).l(1, 0, 1.0, 0).c(2, 0, 1.0)
}

/// A diode whose current overflows in DC's second pass, where the coil has had its current in the first.
fn overflow_at_dc(b: Build) -> Build {
    b.v(1, 0, 25.0, 1).r(1, 2, 1.0).l(2, 0, 1.0, 0).d(1, 0, 1e-320, 27.0)
}

/// A coil straight across a source: its current comes back to 0 at time 2, and then the step is cut so far that time stands still.
fn standing() -> Build {
    Build::transient(2, 2, 9.0)
        .vpwl(1, 0, &[(0.0, 0.0), (1.0, 4.0), (2.0, -4.0), (3.0, 100.0), (9.0, 100.0)], -1.0, 0)
        .l(1, 0, 1.0, 1)
        .set(|o| {
            (o.reltol, o.vntol, o.abstol) = (0.0, 50.0, 50.0);
            (o.itl4, o.ft, o.rmin, o.budget) = (1, 2f64.powi(-54), 1e-40, 12)
        })
}

/// Steps of 3 and 49 H between two nodes: inverted twice the quotient is another float.
fn uneven() -> Build {
    Build::transient(3, 2, 30.0)
        .vpwl(1, 0, &[(0.0, 0.0), (3.0, 8.0), (100.0, 8.0)], -1.0, 1)
        .r(2, 0, 1.0)
        .l(1, 2, 49.0, 0)
        .set(|o| o.tstep = 3.0)
}

/// A circuit of two coils, capacitors and a diode, driven by a sine.
fn choke_input() -> Build {
    Build::transient(6, 3, 0.2)
        .vsin(1, 0, 0.0, 12.0, 5.0, 1)
        .d(1, 2, 1e-9, 27.0)
        .l(2, 3, 0.1, 0)
        .c(3, 0, 1e-3)
        .r(3, 4, 10.0)
        .l(4, 5, 0.02, 2)
        .c(5, 0, 1e-3)
        .r(5, 0, 100.0)
        .set(|o| (o.tstep, o.itl4, o.rmin) = (0.01, 20, 1e-6))
}

/// A verdict and the memory of some records.
fn left(verdict: u64, memory: &[(usize, f64)]) -> Option<Expected> {
    Some(Expected { verdict, memory: memory.to_vec(), ..Expected::default() })
}

/// The same with the vector.
fn ended(verdict: u64, vector: &[f64], memory: &[(usize, f64)]) -> Option<Expected> {
    left(verdict, memory).map(|e| Expected { vector: vector.to_vec(), ..e })
}

/// The same of a transient, with its DC verdict.
fn after(dc: u64, verdict: u64, memory: &[(usize, f64)]) -> Option<Expected> {
    left(verdict, memory).map(|e| Expected { dc_verdict: Some(dc), ..e })
}

/// A transient that settles with these whole rows.
fn rows(passes: Option<u64>, whole: Vec<Vec<f64>>, memory: &[(usize, f64)]) -> Option<Expected> {
    left(0, memory).map(|e| Expected { passes, whole, ..e })
}

fn refused(number: u64, place: u64) -> Option<Expected> {
    Some(Expected { refusal: (number, place), ..Expected::default() })
}

type Case = (&'static str, Job, Option<Expected>);

/// Whole rows, worked out by hand.
#[rustfmt::skip]
fn by_hand() -> Vec<Case> {
    let row = |x: &[f64]| x.to_vec();
    let up = vec![row(&[0.0, 0.0, 0.0, 0.0, 0.0, -0.0]), row(&[1.0, 0.0, 8.0, 4.0, 0.0, -8.0]), row(&[2.0, 0.0, 8.0, 2.0, 0.0, -12.0]), row(&[2.0, 0.0, 8.0, 1.0, 0.0, -14.0])];
    let down = vec![row(&[0.0, 0.0, 8.0, 0.0, 16.0, -16.0]), row(&[1.0, 0.0, 0.0, -4.0, 0.0, -8.0]), row(&[2.0, 0.0, 0.0, -2.0, 0.0, -4.0]), row(&[2.0, 0.0, 0.0, -1.0, 0.0, -2.0])];
    let still = vec![row(&[0.0, 0.0, 0.0, 1.0]), row(&[1.0, 0.0, 0.0, 0.0]), row(&[2.0, 0.0, 0.0, 0.0]), row(&[2.0, 0.0, 0.0, 0.0])];
    let tied = vec![row(&[0.0, 0.0, 0.0, -1.0]), row(&[1.0, 0.0, 1.0, 0.0]), row(&[2.0, 0.0, 1.0, 0.0]), row(&[2.0, 0.0, 1.0, 0.0])];
    let cut_rows = vec![row(&[0.0, 0.0, 0.0, 0.0, 0.0, -0.0]), row(&[0.25, 0.0, 8.0, 4.0, 0.0, -8.0])];
    vec![
        ("8 V through half an ohm into half a henry", charged().job(), rows(Some(7), up, &[(2, 14.0)])),
        ("the current of DC runs on and halves", discharged().job(), rows(None, down, &[(2, 2.0)])),
        ("a step that is cut", cut().job(), rows(Some(3), cut_rows, &[(2, 8.0)])),
        ("a step that is doubled afterwards", charged().set(|o| (o.itl3, o.tstop) = (5, 1.0)).job(), left(0, &[(2, 8.0)])),
        ("beside a resistor, DC", beside(Build::dc(2, 1)).job(), ended(0, &[0.0, 0.0, 1.0], &[(2, 1.0)])),
        ("beside a resistor", beside(Build::transient(2, 1, 2.0)).job(), rows(Some(5), still, &[(2, 1.0)])),
        ("equal nodes: tied to ground at DC, nothing in a step", Build::transient(2, 1, 2.0).i(0, 1, 1.0).r(1, 0, 1.0).l(1, 1, 1.0, 0).job(), rows(None, tied, &[(2, -1.0)])),
        ("turned, first in the sheet, with the last number", turned().job(), left(0, &[(0, -14.0)])),
        ("a 49th of 49 V, rounded, less 1 A", rounded().job(), left(0, &[(2, -f64::EPSILON / 2.0)])),
        ("no diode, so none behind", beside(Build::dc(2, 1)).set(|o| o.itl1 = 5).job(), left(0, &[]).map(|e| Expected { behind: Some(0), ..e })),
    ]
}

/// Entries of the last system, worked out by hand: the order of sums, the conductance as it is, a row and a column with a 1.0 alone, and
/// the current of the step before.
#[rustfmt::skip]
fn entries() -> Vec<Case> {
    let step = || Build::transient(2, 1, 0.5);
    let at = |verdict, system: &[(usize, usize, f64)]| Some(Expected { verdict, system: system.to_vec(), ..Expected::default() });
    let g = 3.0 / 49.0;
    let alone = [(1, 2, -g), (2, 1, -g), (1, 1, g), (2, 2, 1.0 + g), (3, 3, 1.0), (1, 3, 0.0), (2, 3, 0.0), (3, 1, 0.0), (3, 2, 0.0), (3, 4, 0.0), (3, 5, 0.0), (4, 3, 0.0)];
    vec![
        ("2^53, 1 of a coil, 2 of a capacitor", grain(step()).l(1, 0, 1.0, 0).c(1, 0, 2.0).job(), at(0, &[(1, 1, GRAIN + 2.0)])),
        ("2^53, 2 of a capacitor, 1 of a coil", grain(step()).c(1, 0, 2.0).l(1, 0, 1.0, 0).job(), at(0, &[(1, 1, GRAIN + 4.0)])),
        ("2^53, 2 of a dependent source, 1 of a coil that stands before it", grain(step()).l(1, 0, 1.0, 0).vccs([1, 0, 1, 0], 2.0).job(), at(0, &[(1, 1, GRAIN + 4.0)])),
        ("2^53, 1 of a coil, 2 of a diode that stands before it", unit_diode(grain(step())).l(1, 0, 1.0, 0).job(), at(0, &[(1, 1, GRAIN + 2.0)])),
        ("3 over 49, as it is", uneven().job(), at(0, &alone)),
        ("the current of the step before, at the same time", standing().job(), at(24, &[(1, 4, 24.0 * 2f64.powi(-108))])),
    ]
}

/// Backward Euler's recurrences with numbers that leave every operation exact, so that the rows are the same whatever way the
/// system is solved.
fn recurrences() -> Vec<Case> {
    let steps = 20;
    let time = |k: usize| (k as f64).min(steps as f64);
    let half = |k: usize| 0.5f64.powi(k as i32);
    // after k steps 8 / 2^k volts are left across the coil
    let charging = |k: usize| vec![time(k), 0.0, 8.0, 8.0 * half(k), 0.0, -16.0 * (1.0 - half(k))];
    let mut up: Vec<Vec<f64>> = (0..steps + 2).map(charging).collect();
    up[0] = vec![0.0, 0.0, 0.0, 0.0, 0.0, -0.0];
    let last = 16.0 * (1.0 - half(steps + 1));
    // 8 A of DC ring in 1 H beside 1 F: v' = (v - i) / 2, i' = i + v'
    let (mut v, mut i) = (0.0, 8.0);
    let mut ringing = vec![(0.0, 2, 0.0)];
    for k in 1..steps + 2 {
        v = (v - i) / 2.0;
        i += v;
        ringing.push((time(k), 2, v));
    }
    let resonant =
        Build::transient(3, 2, 20.0).vpwl(1, 0, &DOWN, -1.0, 1).vccs([0, 2, 1, 0], 1.0).l(2, 0, 1.0, 0).c(2, 0, 1.0);
    let rings = Expected { rows: ringing, memory: vec![(2, i)], ..Expected::default() };
    vec![
        (
            "half of what is missing with each step",
            charged().set(|o| o.tstop = 20.0).job(),
            rows(None, up, &[(2, last)]),
        ),
        ("1 H and 1 F ring", resonant.job(), Some(rings)),
    ]
}

/// How DC can end, and what a coil has then.
#[rustfmt::skip]
fn dc_ends() -> Vec<Case> {
    let dc = || Build::dc(2, 1).i(0, 1, 1.0).r(1, 0, 5.0).l(1, 0, 3.0, 0);
    let run = || Build::transient(2, 1, 2.0).i(0, 1, 1.0).r(1, 0, 5.0).l(1, 0, 3.0, 0);
    let ground = |b: Build| b.l(0, 0, 1.0, 0).v(1, 0, 1.0, 1).r(1, 0, 1.0);
    vec![
        ("DC 0", dc().job(), ended(0, &[0.0, 0.0, 1.0], &[(2, 1.0)])),
        ("DC 20", dc().set(|o| o.itl1 = 0).job(), ended(20, &[0.0, 0.0, 1.0], &[(2, 1.0)])),
        ("DC 24: a vector, but no current yet", dc().set(|o| o.budget = 1).job(), ended(24, &[0.0, 0.0, 1.0], &[(2, 0.0)])),
        ("ITL1 and the budget used up at once: 20", dc().set(|o| (o.itl1, o.budget) = (0, 1)).job(), left(20, &[(2, 1.0)])),
        ("DC 21 with a current", error_at_dc().with(|j| (j.transient, j.lengths[ROWS]) = (false, 0)), left(21, &[(2, 1.0)])),
        ("DC 21 with NaN", ground(Build::dc(2, 2)).job(), left(21, &[(0, NAN)])),
        ("DC 22 in its first pass", Build::dc(2, 1).l(1, 0, 1.0, 0).i(0, 1, 1.0).d(1, 0, f64::INFINITY, 27.0).job(), left(22, &[(0, 0.0)])),
        ("DC 22 in its second pass", overflow_at_dc(Build::dc(3, 2)).job(), left(22, &[(2, 0.0)])),
        ("a transient after DC 20", run().set(|o| o.itl1 = 0).job(), after(20, 0, &[(2, 1.0)])),
        ("a transient's DC 24", run().set(|o| o.budget = 1).job(), after(24, 24, &[(2, 0.0)])),
        ("a transient's DC 22", overflow_at_dc(Build::transient(3, 2, 1.0)).job(), after(22, 22, &[(2, 0.0)])),
        ("a transient after DC 21 with a current", error_at_dc().job(), after(21, 0, &[(2, 1.0)])),
        ("a transient after DC 21 with NaN in a coil from ground to ground", ground(Build::transient(2, 2, 2.0)).job(), after(21, 0, &[(0, NAN)])),
        ("the budget ends with DC 20: 24 in the first step", run().set(|o| (o.itl1, o.budget) = (0, 1)).job(), after(20, 24, &[(2, 1.0)])),
        ("from ground to ground, the last unknown", Build::transient(2, 1, 2.0).i(0, 1, 1.0).r(1, 0, 1.0).l(0, 0, 1.0, 0).job(), after(0, 0, &[(2, 0.0)])),
        ("ground alone", Build::transient(1, 1, 2.0).l(0, 0, 1.0, 0).job(), after(0, 0, &[(0, 0.0)])),
    ]
}

/// How steps can end: a coil moves where its step is accepted, and nowhere else.
#[rustfmt::skip]
fn step_ends() -> Vec<Case> {
    vec![
        ("no room for the row of an accepted step", charged().rows(1).job(), left(25, &[(2, 8.0)])),
        ("no room for the third row", charged().rows(2).job(), left(25, &[(2, 12.0)])),
        ("no room and no budget left", charged().rows(1).set(|o| o.budget = 3).job(), left(25, &[(2, 8.0)])),
        ("times below TSTART need no room", charged().rows(1).set(|o| o.tstart = 5.0).job(), left(0, &[(2, 14.0)])),
        ("the budget ends within a step", charged().set(|o| o.budget = 4).job(), left(24, &[(2, 8.0)])),
        ("the budget ends in the first step", charged().set(|o| o.budget = 2).job(), left(24, &[(2, 0.0)])),
        ("the budget ends with a cut", cut().set(|o| o.budget = 2).job(), left(24, &[(2, 0.0)])),
        ("a step too small", charged().set(|o| (o.itl4, o.ft) = (1, 0.05)).job(), left(23, &[(2, 0.0)])),
        ("a step too small after cuts", charged().set(|o| (o.itl4, o.ft, o.rmin) = (1, 0.25, 0.01)).job(), left(23, &[(2, 0.0)])),
        ("an error in a step", error_in_a_step().job(), left(21, &[(6, 8.0)])),
        ("a diode's current overflows in a step", overflow_in_a_step().job(), left(22, &[(3, 8.0)])),
        ("a sine is refused in a step", charged().isin(2, 0, 0.0, 0.0, 1e5).job(), left(26, &[(2, 8.0)])),
        ("every step is cut once", charged().set(|o| (o.reltol, o.itl4, o.ft, o.rmin) = (0.6, 1, 0.5, 1e-6)).job(), None),
        ("time stands still and steps go on", standing().job(), left(24, &[(1, -28.0 * 2f64.powi(-108))])),
        ("steps that double", charged().set(|o| (o.itl3, o.tstop) = (5, 20.0)).job(), None),
        ("steps that double and are cut", discharged().set(|o| (o.itl3, o.itl4, o.ft, o.rmin, o.tstop) = (5, 2, 0.5, 1e-6, 20.0)).job(), None),
    ]
}

fn overflow_in_a_step() -> Build {
    Build::transient(4, 3, 3.0)
        .vpwl(1, 0, &UP, -1.0, 1)
        .vpwl(3, 0, &[(0.0, 0.0), (1.0, 1.0), (2.0, 25.0), (9.0, 25.0)], -1.0, 2)
        .r(1, 2, 0.5)
        .l(2, 0, 0.5, 0)
        .d(3, 0, 1e-320, 27.0)
}

/// Henries of every sort, in a step and at DC.
fn henries() -> Vec<(String, Job, Option<Expected>)> {
    let odd = [0.0, -0.0, -0.5, NAN, f64::INFINITY, f64::NEG_INFINITY, 5e-324, -5e-324, f64::MAX, 1e-300, 1e300, 3.0];
    let name = |what: &str, henries: f64| format!("{:?} H {}", henries, what);
    let mut list = Vec::new();
    for henries in odd {
        list.push((name("behind a resistor", henries), charged_by(&UP, henries).job(), None));
        list.push((name("beside a resistor", henries), steady(henries).job(), None));
        let dc = Build::dc(2, 1).i(0, 1, 1.0).r(1, 0, 1.0).l(1, 0, henries, 0).job();
        list.push((name("at DC, where they do not matter", henries), dc, ended(0, &[0.0, 0.0, 1.0], &[(2, 1.0)])));
    }
    for step in [0.0, -1.0, NAN, f64::INFINITY, 5e-324] {
        let mut job = discharged().set(|o| o.budget = 12).job();
        job.options.tstep = step;
        list.push((format!("TSTEP {:?}", step), job, None));
    }
    list
}

fn steady(henries: f64) -> Build {
    Build::transient(2, 1, 2.0).i(0, 1, 1.0).r(1, 0, 1.0).l(1, 0, henries, 0)
}

/// Several coils, loops of them, and coils with sources, capacitors and diodes.
#[rustfmt::skip]
fn circuits() -> Vec<Case> {
    let pair = |b: Build| b.i(0, 1, 1.0).r(1, 0, 1.0).l(1, 0, 1.0, 0).l(1, 0, 1.0, 1);
    let across = |v: usize, l: usize| Build::dc(2, 2).v(1, 0, 5.0, v).l(1, 0, 1.0, l);
    let series = |b: Build| b.v(1, 0, 4.0, 2).l(1, 2, 0.5, 1).r(2, 3, 1.0).l(3, 0, 0.25, 0).c(3, 0, 2.0);
    vec![
        ("of two coils side by side the first takes all at DC", pair(Build::dc(2, 2)).job(), ended(0, &[0.0, 0.0, 1.0, 0.0], &[(2, 1.0), (3, 0.0)])),
        ("two coils side by side", pair(Build::transient(2, 2, 3.0)).job(), left(0, &[(2, 1.0), (3, 0.0)])),
        ("straight across a source, the coil's number last", across(0, 1).job(), left(0, &[])).near(1, 5.0),
        ("straight across a source, the source's number last", across(1, 0).job(), left(0, &[])).near(1, 0.0),
        ("two in series, DC", series(Build::dc(4, 3)).job(), ended(0, &[0.0, 4.0, 4.0, 0.0, 4.0, 4.0, -4.0], &[(1, 4.0), (3, 4.0)])),
        ("two in series with a capacitor", series(Build::transient(4, 3, 6.0)).job(), None),
        ("a rectifier with a choke", choke_input().job(), None),
        ("a rectifier with a choke, waiting", waiting(choke_input()).job(), None),
        ("a diode in series, off", pulse().job(), None),
        ("a diode in series holds steps open", waiting(pulse()).job(), None),
        ("a diode holds a step open until it is cut", waiting(pulse()).set(|o| (o.itl4, o.ft, o.tstop) = (3, 0.25, 0.02)).job(), None),
        ("a diode holds a step open until it is too small", waiting(pulse()).set(|o| (o.itl4, o.ft, o.rmin) = (3, 0.25, 0.3)).job(), None),
        ("a diode of another circuit holds steps open", held_elsewhere().job(), left(0, &[(2, 14.0)])),
        ("a diode holds DC open", waiting(clamped(Build::dc(4, 2).v(1, 0, 5.0, 1))).job(), None),
        ("a diode beside a coil that is switched off", flyback().job(), None),
        ("the same, waiting", waiting(flyback()).job(), None),
        ("a pattern that starts away from zero, off", ramp().job(), None),
        ("a pattern that starts away from zero, on", ramp().set(|o| o.pattern_first = 1).job(), after(0, 0, &[(2, 13.0)])),
        ("both options on", waiting(choke_input()).set(|o| o.pattern_first = 1).job(), None),
        ("with dependent sources", amplifier().job(), None),
        ("as record 255", far(255), None),
        ("as record 0 of 256", far(0), None),
        ("48 unknowns, 23 of them coils'", ladder(24, 23).job(), None),
        ("1 V through 1 ohm into 1 H, in steps of a thousandth", thousand().job(), left(0, &[])).near(2, 0.3681),
    ]
}

/// A case whose vector is known to half a unit of its fourth decimal.
trait Near {
    fn near(self, unknown: usize, x: f64) -> Case;
}

impl Near for Case {
    fn near(self, unknown: usize, x: f64) -> Case {
        (self.0, self.1, self.2.map(|e| Expected { near: Some((unknown, x)), ..e }))
    }
}

/// A coil that is switched off, and a diode that takes its current.
fn flyback() -> Build {
    discharged().d(0, 2, 1e-9, 27.0).set(|o| (o.tstop, o.itl4, o.rmin) = (4.0, 20, 1e-6))
}

/// 6 V at time 0 and 7 V from 1 on, which half an ohm and half a henry see from the start with the option on.
fn ramp() -> Build {
    charged_by(&[(0.0, 6.0), (1.0, 7.0), (100.0, 7.0)], 0.5).set(|o| o.tstop = 0.5)
}

fn amplifier() -> Build {
    Build::transient(5, 4, 3.0)
        .vpwl(1, 0, &UP, -1.0, 3)
        .r(1, 2, 3.0)
        .l(2, 0, 0.7, 2)
        .vcvs([3, 0, 2, 0], -2.5, 1)
        .r(3, 4, 1.3)
        .vccs([4, 0, 2, 1], 0.3)
        .l(4, 0, 1.1, 0)
        .c(4, 0, 0.4)
}

/// A coil at a place among 256 records.
fn far(place: usize) -> Job {
    let b = |b: Build, k: usize| if k == place { b.l(2, 0, 0.5, 0) } else { b.r(2, 0, 1e6) };
    let first = (0..1).fold(Build::transient(3, 2, 2.0), b);
    (3..256).fold(first.vpwl(1, 0, &UP, -1.0, 1).r(1, 2, 0.5), b).job()
}

/// A ladder of coils and capacitors, with a source before it and a resistor behind it.
fn ladder(nodes: usize, coils: usize) -> Build {
    let mut b = Build::transient(nodes as u64, coils as u64 + 1, 4.0).vpwl(1, 0, &UP, -1.0, coils);
    for k in 0..coils - 1 {
        b = b.l(k + 1, k + 2, 0.3 + k as f64, k).c(k + 2, 0, 0.7);
    }
    b.l(nodes - 1, 0, 2.0, coils - 1).r(nodes - 1, 0, 2.0)
}

fn thousand() -> Build {
    Build::transient(3, 2, 1.0)
        .vpwl(1, 0, &[(0.0, 0.0), (0.001, 1.0), (9.0, 1.0)], -1.0, 1)
        .r(1, 2, 1.0)
        .l(2, 0, 1.0, 0)
        .set(|o| (o.tstep, o.tstart, o.budget) = (0.001, 5.0, 10_000))
}

/// One of each kind with a source number, on node 1.
fn source(b: Build, kind: u8, number: usize) -> Build {
    match kind {
        3 => b.v(1, 0, 1.0, number),
        6 => b.vsin(1, 0, 0.0, 1.0, 1.0, number),
        7 => b.vpwl(1, 0, &UP, -1.0, number),
        9 => b.vcvs([1, 0, 2, 0], 2.0, number),
        _ => b.l(1, 0, 1.0, number),
    }
}

/// A coil's number, shared and not, in both orders and with every kind.
fn numbers() -> Vec<(String, Job, Option<Expected>)> {
    let sheet = |numbers: &[(u8, usize)]| {
        let b = Build::dc(3, 3).r(1, 2, 1.0).r(2, 0, 1.0);
        numbers.iter().fold(b, |b, (kind, number)| source(b, *kind, *number)).job()
    };
    let mut list = Vec::new();
    for kind in [3, 6, 7, 9, COIL] {
        for (first, second) in [(kind, COIL), (COIL, kind)] {
            let name = |what: &str| format!("kinds {} and {} {}", first, second, what);
            list.push((name("share a number"), sheet(&[(first, 1), (second, 1)]), refused(9, 3)));
            list.push((name("have numbers of their own"), sheet(&[(first, 1), (second, 0)]), None));
        }
    }
    let three = [
        ("V, V and L share", [(3, 0), (3, 0), (COIL, 0)], refused(9, 4)),
        ("V and V share, L does not", [(3, 0), (3, 0), (COIL, 1)], None),
        ("V and L share, and another V", [(3, 0), (COIL, 0), (3, 0)], refused(9, 3)),
        ("the first and the last share", [(COIL, 2), (3, 0), (7, 2)], refused(9, 4)),
        ("L and V share, and two V do", [(3, 1), (3, 1), (COIL, 1)], refused(9, 4)),
        ("the number is beyond the count, and shared", [(COIL, 3), (3, 3), (3, 0)], refused(9, 2)),
    ];
    list.extend(three.map(|(name, numbers, expected)| (name.to_string(), sheet(&numbers), expected)));
    list
}

/// What is refused, and at which record; several faults at one record count by the lowest number.
#[rustfmt::skip]
fn refusals() -> Vec<(String, Job, Option<Expected>)> {
    let two = || Build::dc(2, 2).r(1, 0, 1.0).l(1, 0, 1.0, 1);
    let mut list: Vec<(String, Job, Option<Expected>)> = Vec::new();
    for byte in [1, 6, 9, 12, 13, 14, 15, 24, 31, 32, 39] {
        let mut job = two().job();
        job.sheet[RECORD + byte] = 1;
        list.push((format!("byte {} of a coil is unused", byte), job, refused(7, 1)));
    }
    for kind in [0, 12, 13, 255] {
        let mut job = two().job();
        job.sheet[RECORD] = kind;
        list.push((format!("kind {}", kind), job, refused(6, 1)));
    }
    let cases: Vec<Case> = vec![
        ("first node beyond the count", Build::dc(2, 2).r(1, 0, 1.0).l(2, 0, 1.0, 1).job(), refused(8, 1)),
        ("second node beyond the count", Build::dc(2, 2).r(1, 0, 1.0).l(0, 65535, 1.0, 1).job(), refused(8, 1)),
        ("source number beyond the count", Build::dc(2, 1).r(1, 0, 1.0).l(1, 0, 1.0, 1).job(), refused(9, 1)),
        ("the largest source number", Build::dc(2, 1).r(1, 0, 1.0).l(1, 0, 1.0, 65535).job(), refused(9, 1)),
        ("a coil and no source", Build::dc(2, 0).r(1, 0, 1.0).l(1, 0, 1.0, 0).job(), refused(9, 1)),
        ("an unused byte before a bad node and a shared number", Build::dc(2, 1).v(1, 0, 1.0, 0).l(7, 0, 1.0, 0).with(|j| j.sheet[RECORD + 39] = 1), refused(7, 1)),
        ("a bad node before a shared number", Build::dc(2, 1).v(1, 0, 1.0, 0).l(7, 0, 1.0, 0).job(), refused(8, 1)),
        ("a shared number before bad points", Build::dc(2, 1).l(1, 0, 1.0, 0).vpwl(1, 0, &UP, -1.0, 0).with(|j| j.points.clear()), refused(9, 1)),
        ("a bad record before a shared number", Build::dc(2, 1).v(1, 0, 1.0, 0).r(1, 9, 1.0).l(1, 0, 1.0, 0).job(), refused(8, 1)),
        ("a shared number before a bad record", Build::dc(2, 1).v(1, 0, 1.0, 0).l(1, 0, 1.0, 0).r(1, 9, 1.0).job(), refused(9, 1)),
        ("an unknown record before a shared number", Build::dc(2, 1).v(1, 0, 1.0, 0).r(1, 0, 1.0).l(1, 0, 1.0, 0).with(|j| j.sheet[RECORD] = 13), refused(6, 1)),
        ("memory one float short", Build::dc(2, 1).r(1, 0, 1.0).l(1, 0, 1.0, 0).with(|j| j.lengths[MEMORY] -= 1), refused(5, 0)),
        ("N 49 with coils", Build::dc(2, 2).l(1, 0, 1.0, 0).with(|j| j.sources = 47), refused(1, 0)),
        ("records without a number are none with number 0", Build::dc(2, 1).r(1, 0, 1.0).i(0, 1, 1.0).c(1, 0, 1.0).vccs([1, 0, 1, 0], 0.5).d(0, 1, 1e-12, 27.0).isin(1, 0, 0.0, 1.0, 1.0).l(1, 0, 1.0, 0).job(), None),
    ];
    list.extend(cases.into_iter().map(|(name, job, expected)| (name.to_string(), job, expected)));
    list
}

/// One job or two for each wrong reading of a coil's refusals.
fn sheet_tellers() -> Vec<(Wrong, Job)> {
    let pair = |first: u8, second: u8| source(source(Build::dc(3, 2).r(2, 0, 1.0), first, 0), second, 0).job();
    let three = |last: usize| Build::dc(3, 2).v(1, 0, 1.0, 0).v(2, 0, 1.0, 0).l(1, 2, 1.0, last).r(1, 2, 1.0).job();
    let dirty = || beside(Build::dc(2, 1)).with(|j| j.sheet[2 * RECORD + 24] = 1);
    vec![
        (Wrong::CoilUnknownKind, beside(Build::dc(2, 1)).job()),
        (Wrong::CoilSourceUnused, turned().job()),
        (Wrong::CoilUnusedNotAsked, dirty()),
        (Wrong::CoilSharedEarlierCoil, pair(3, COIL)),
        (Wrong::CoilSharedEarlierCoil, pair(9, COIL)),
        (Wrong::CoilSharedLaterCoil, pair(COIL, 3)),
        (Wrong::CoilSharedLaterCoil, pair(COIL, 6)),
        (Wrong::CoilSharedOfCoils, pair(7, COIL)),
        (Wrong::CoilSharedOfCoils, pair(COIL, 9)),
        (Wrong::CoilSharedPlain, three(1)),
        (Wrong::CoilSharedAtEarlier, pair(COIL, COIL)),
        (Wrong::CoilSharedByLetter, three(0)),
        (Wrong::CoilSharedByBytes, beside(Build::dc(2, 1)).job()),
        (Wrong::CoilSharedBeforeNodes, Build::dc(2, 1).v(1, 0, 1.0, 0).l(7, 0, 1.0, 0).job()),
        (
            Wrong::CoilSharedAfterPoints,
            Build::dc(2, 1).l(1, 0, 1.0, 0).vpwl(1, 0, &UP, -1.0, 0).with(|j| j.points.clear()),
        ),
    ]
}

/// Of what it stamps.
fn stamp_tellers() -> Vec<(Wrong, Job)> {
    let step = || Build::transient(2, 1, 0.5);
    let equal = || Build::dc(2, 1).i(0, 1, 1.0).r(1, 0, 1.0).l(1, 1, 1.0, 0);
    vec![
        (Wrong::CoilHenriesOverStep, charged().job()),
        (Wrong::CoilInverted, uneven().job()),
        (Wrong::CoilTurned, discharged().job()),
        (Wrong::CoilTurned, beside(Build::transient(2, 1, 2.0)).job()),
        (Wrong::CoilRowEmpty, charged().job()),
        (Wrong::CoilRowEmpty, turned().job()),
        (Wrong::CoilDcRowStays, charged().job()),
        (Wrong::CoilDcColumnStays, charged().job()),
        (Wrong::CoilOpenAtDc, beside(Build::dc(2, 1)).job()),
        (Wrong::CoilOpenAtDc, discharged().job()),
        (Wrong::CoilShortAdded, equal().job()),
        (Wrong::CoilInBase, beside(Build::dc(2, 1)).job()),
        (Wrong::CoilAfterCapacitors, grain(step()).l(1, 0, 1.0, 0).c(1, 0, 2.0).job()),
        (Wrong::CoilBeforeCapacitors, grain(step()).c(1, 0, 2.0).l(1, 0, 1.0, 0).job()),
        (Wrong::CoilBeforeDependent, grain(step()).l(1, 0, 1.0, 0).vccs([1, 0, 1, 0], 2.0).job()),
        (Wrong::CoilAfterDiodes, unit_diode(grain(step()).l(1, 0, 1.0, 0)).job()),
    ]
}

/// Of its memory.
fn memory_tellers() -> Vec<(Wrong, Job)> {
    let dc = || beside(Build::dc(2, 1));
    vec![
        (Wrong::CoilStale, dc().set(|o| o.budget = 1).job()),
        (Wrong::CoilStale, overflow_at_dc(Build::dc(3, 2)).job()),
        (Wrong::CoilSetAfterFailure, dc().set(|o| o.budget = 1).job()),
        (Wrong::CoilSetAfterFailure, overflow_at_dc(Build::transient(3, 2, 1.0)).job()),
        (Wrong::CoilZeroAfter20, dc().set(|o| o.itl1 = 0).job()),
        (Wrong::CoilZeroAfter20, discharged().set(|o| o.itl1 = 0).job()),
        (Wrong::CoilZeroAfter21, error_at_dc().job()),
        (Wrong::CoilZeroAfter21, Build::dc(2, 2).l(0, 0, 1.0, 0).v(1, 0, 1.0, 1).r(1, 0, 1.0).job()),
        (Wrong::CoilNanZero, Build::dc(2, 2).l(0, 0, 1.0, 0).v(1, 0, 1.0, 1).r(1, 0, 1.0).job()),
        (Wrong::CoilNotInDcCalls, dc().job()),
        (Wrong::CoilDcTurned, dc().job()),
        (Wrong::CoilDcTurned, discharged().job()),
        (Wrong::CoilDcUnknown, dc().job()),
        (Wrong::CoilFromZero, discharged().job()),
        (Wrong::CoilEveryPass, charged().job()),
        (Wrong::CoilEveryPass, cut().job()),
        (Wrong::CoilRejected, cut().job()),
        (Wrong::CoilRejected, cut().set(|o| o.budget = 2).job()),
        (Wrong::CoilWhenHeld, waiting(pulse()).job()),
        (Wrong::CoilAtError, error_in_a_step().job()),
        (Wrong::CoilTooSmall, charged().set(|o| (o.itl4, o.ft) = (1, 0.05)).job()),
        (Wrong::CoilDoubledStep, charged().set(|o| (o.itl3, o.tstop) = (5, 1.0)).job()),
        (Wrong::CoilUncutStep, cut().job()),
        (Wrong::CoilOldVoltage, charged().job()),
        (Wrong::CoilRegrouped, uneven().job()),
        (Wrong::CoilRegrouped, rounded().job()),
        (Wrong::CoilFused, uneven().job()),
        (Wrong::CoilFused, rounded().job()),
        (Wrong::CoilAfterRow, charged().rows(1).job()),
        (Wrong::CoilWithRow, charged().set(|o| o.tstart = 5.0).job()),
        (Wrong::CoilWithRow, charged().rows(1).job()),
        (Wrong::CoilAtNode, uneven().job()),
        (Wrong::CoilAtNode, Build::dc(2, 1).l(1, 0, 1.0, 0).i(0, 1, 1.0).r(1, 0, 1.0).job()),
        (Wrong::CoilAtSource, charged().job()),
        (Wrong::CoilShown, charged().job()),
        (Wrong::CoilReused, standing().job()),
        (Wrong::CoilAskedBehind, dc().job()),
        (Wrong::CoilAskedBehind, waiting(dc()).job()),
    ]
}

pub fn all() -> Vec<Directed> {
    let named = |(name, job, expected)| Directed { name, job, expected, tells: Wrong::Nothing };
    let short = [by_hand(), entries(), recurrences(), dc_ends(), step_ends(), circuits()].into_iter().flatten();
    let short = short.map(|(name, job, expected): Case| (name.to_string(), job, expected));
    let long = [henries(), numbers(), refusals()].into_iter().flatten();
    let mut list: Vec<Directed> = short.chain(long).map(named).collect();
    for (wrong, job) in [sheet_tellers(), stamp_tellers(), memory_tellers()].into_iter().flatten() {
        let text = wrong_coils().into_iter().find(|w| w.0 == wrong).unwrap().1;
        list.push(Directed { name: format!("not: {}", text), job, expected: None, tells: wrong });
    }
    list
}

/// What a caller may leave in the memory.
const STALE: [f64; 6] = [NAN, f64::INFINITY, -0.0, 1e300, -7.0, 5e-324];

/// Runs the jobs again with other floats in the lent memory. Answers how many differ: between the shipped code and the model, or from
/// the run with the usual floats in anything but the memory of records that are neither diode nor coil, which must stay.
pub fn run_lent() -> u64 {
    let (mut runs, mut bad) = (0, 0);
    for d in all() {
        for (k, stale) in STALE.iter().enumerate() {
            let mut buffers = d.job.lent();
            buffers[MEMORY].fill(if k % 2 == 0 { *stale } else { -*stale });
            let of_model = model::run_lent(&d.job, buffers.clone(), &OURS, Wrong::Nothing).0;
            let mut usual = model::run(&d.job, &OURS, Wrong::Nothing);
            let kept = |place: usize| d.job.elements().get(place).map_or(true, |e| e.kind != 4 && !e.is_coil());
            for (place, x) in usual.buffers[MEMORY].iter_mut().enumerate() {
                if usual.refusal != 0 || kept(place) {
                    *x = buffers[MEMORY][place];
                }
            }
            let shipped = door::run_lent(&d.job, buffers);
            let mut found = compare(&d.job, &of_model, &usual, ALL);
            found.extend(shipped.iter().flat_map(|s| compare(&d.job, s, &of_model, ALL)));
            runs += 1;
            bad += !found.is_empty() as u64;
            // the first are enough
            for x in found.iter().take(if bad > 5 { 0 } else { 4 }) {
                println!("STALE MEMORY SHOWS: {}, {:?}: {}", d.name, stale, show(x));
            }
        }
    }
    println!("directed jobs with coils on a memory that holds other floats: {} runs, {} differ", runs, bad);
    bad
}

/// A coil as the Rust can step it: a gyrator on a capacitor of as many farads as it has henries, at a node of its own whose voltage is
/// the current. By backward Euler that is the same recurrence, in other floats. It starts from 0, and so must the coil.
fn gyrated(job: &Job) -> Job {
    let (mut elements, mut nodes) = (Vec::new(), job.nodes as usize);
    let coils: Vec<u16> = job.elements().iter().filter(|e| e.is_coil()).map(|e| e.source).collect();
    for mut e in job.elements() {
        if !e.is_coil() {
            e.source -= coils.iter().filter(|number| e.has_source() && **number < e.source).count() as u16;
            elements.push(e);
            continue;
        }
        let (a, b, own) = (e.a as usize, e.b as usize, nodes);
        let gain = |ends: [usize; 4]| {
            let controls = (ends[2] as u16, ends[3] as u16);
            let element = Element { value: [1.0, 0.0, 0.0], ..Element::new(10, ends[0], ends[1]) };
            Element { cp: controls.0, cn: controls.1, ..element }
        };
        elements.extend([gain([a, b, own, 0]), gain([0, own, a, b])]);
        elements.push(Element { value: e.value, ..Element::new(8, own, 0) });
        nodes += 1;
    }
    let mut other = Job { nodes: nodes as u64, sources: job.sources - coils.len() as u64, ..job.clone() };
    other.set_elements(&elements);
    other.fit(40);
    other
}

/// Circuits in which all is 0 at DC, with tolerances so narrow that diodes settle alike.
fn from_zero() -> Vec<(&'static str, Job)> {
    let narrow =
        |b: Build| b.set(|o| (o.reltol, o.vntol, o.abstol, o.itl3, o.itl4) = (1e-12, 1e-13, 1e-13, 0, 100)).job();
    vec![
        ("8 V through half an ohm into half a henry", narrow(charged().set(|o| o.tstop = 12.0))),
        ("the same, turned", narrow(turned().set(|o| o.tstop = 12.0))),
        ("steps of 3 and 49 H", narrow(uneven())),
        ("with dependent sources", narrow(amplifier().set(|o| o.tstop = 12.0))),
        ("a ladder of 23 coils", narrow(ladder(24, 23).set(|o| o.tstop = 20.0))),
        ("a rectifier with a choke", narrow(choke_input())),
        ("a diode in series", narrow(pulse().set(|o| o.tstop = 6.0))),
    ]
}

/// How far a float may be from the Rust's, by the larger of the two and 1.
const APART: f64 = 1e-9;

/// Holds the steps of coils against those of the Rust with gyrators; answers how many circuits differ.
pub fn run_gyrators() -> u64 {
    let (mut rows, mut bad, mut worst) = (0, 0, 0.0f64);
    let circuits = from_zero();
    for (name, job) in &circuits {
        let other = gyrated(job);
        let (ours, rust) = (model::run(job, &OURS, Wrong::Nothing), hooked::run(&other, &OURS).0);
        let (w, v) = ((job.nodes + job.sources) as usize + 1, (other.nodes + other.sources) as usize + 1);
        let apart = |x: f64, y: f64| (x - y).abs() / x.abs().max(y.abs()).max(1.0);
        let mut most = 0.0f64;
        for k in 0..ours.rows as usize {
            // the time and the nodes
            for i in 0..=job.nodes as usize {
                most = most.max(apart(ours.buffers[ROWS][k * w + i], rust.buffers[ROWS][k * v + i]));
            }
        }
        let places = job.elements().into_iter().enumerate().filter(|(_, e)| e.is_coil());
        for (own, (place, _)) in places.enumerate() {
            most = most.max(apart(ours.buffers[MEMORY][place], rust.buffers[VECTOR][job.nodes as usize + own]));
        }
        rows += ours.rows;
        worst = worst.max(most);
        let shipped = door::run(job).map_or(0, |shipped| compare(job, &shipped, &ours, ALL).len());
        if shipped > 0 {
            println!("STEPS OTHERWISE: {}: shipped and model differ in {} fields", name, shipped);
        }
        if shipped > 0
            || !(most <= APART)
            || ours.verdict != 0
            || (ours.verdict, ours.rows) != (rust.verdict, rust.rows)
        {
            bad += 1;
            println!("STEPS APART: {}: {:e}; {} and {} rows", name, most, ours.rows, rust.rows);
        }
    }
    println!(
        "steps of coils against the Rust's of gyrators: {} circuits, {} rows, {} apart; worst {:.1e}",
        circuits.len(),
        rows,
        bad,
        worst
    );
    bad
}

#[cfg(test)]
mod tests {
    use super::*;
    use crate::directed::meets;

    #[test]
    fn the_model_answers_what_is_worked_out_by_hand() {
        let list = all();
        assert!(list.iter().filter(|d| d.expected.is_some()).count() > 90);
        for d in list {
            let answer = model::run(&d.job, &OURS, Wrong::Nothing);
            assert!(meets(&d, &answer), "{}", d.name);
        }
    }

    #[test]
    fn each_reading_is_told() {
        let told = |d: &&Directed| {
            let run = |wrong| model::run(&d.job, &OURS, wrong);
            d.tells != Wrong::Nothing && !compare(&d.job, &run(d.tells), &run(Wrong::Nothing), ALL).is_empty()
        };
        let list = all();
        let told: Vec<Wrong> = list.iter().filter(told).map(|d| d.tells).collect();
        for (wrong, text) in wrong_coils() {
            assert!(told.contains(&wrong), "{}", text);
        }
    }

    #[test]
    fn a_wrong_model_misses_what_is_worked_out_by_hand() {
        let list = all();
        for (wrong, text) in wrong_coils() {
            let misses = |d: &Directed| d.expected.is_some() && !meets(d, &model::run(&d.job, &OURS, wrong));
            assert!(list.iter().any(misses), "{}", text);
        }
    }

    /// What the 1.0 is added to is always 0: nobody else writes into a coil's row and column.
    #[test]
    fn nothing_stands_in_a_coils_row_and_column() {
        for place in 0..2_000 {
            let (job, _) = crate::generate::coils(7, place);
            let a = model::run(&job, &OURS, Wrong::Nothing);
            // a run's last system is that of a step if there is a second row or a pass more than DC's
            if a.refusal != 0 || a.rows < 2 {
                continue;
            }
            let n = (job.nodes + job.sources) as usize;
            for e in job.elements().iter().filter(|e| e.is_coil()) {
                let row = job.nodes as usize + e.source as usize;
                for k in 1..=n {
                    let expected = if k == row { 1.0f64 } else { 0.0 };
                    assert_eq!(a.buffers[SYSTEM][row * (n + 1) + k].to_bits(), expected.to_bits());
                    if k < n {
                        assert_eq!(a.buffers[SYSTEM][k * (n + 1) + row].to_bits(), expected.to_bits());
                    }
                }
            }
        }
    }

    #[test]
    fn stale_floats_do_not_show() {
        assert_eq!(run_lent(), 0);
    }

    #[test]
    fn steps_are_those_of_a_gyrator_on_a_capacitor() {
        assert_eq!(run_gyrators(), 0);
    }
}
