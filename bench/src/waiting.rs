//! Jobs written by hand about diodes that are behind and the option that waits for them: the smallest input, every way in which
//! such a run can end, and one job for each reading that is easy to get wrong. They are a list of their own, stored in a file of
//! their own.

use crate::directed::{Build, Directed, Expected};
use crate::job::*;
use crate::model::{Wrong, WRONG_BEHIND};

/// 5 V, 1 kOhm and a diode: settled falsely after 2 passes, and truly after 7.
fn smallest() -> Build {
    Build::dc(3, 1).v(1, 0, 5.0, 0).r(1, 2, 1000.0).d(2, 0, 1e-12, 27.0).set(|o| o.itl1 = 100)
}

fn on(b: Build) -> Build {
    b.set(|o| o.catchup = 1)
}

/// The same in a transient that its DC run begins at 0 V: the level comes with the first step.
fn pulse() -> Build {
    Build::transient(3, 1, 2.0)
        .vpwl(1, 0, &[(0.0, 0.0), (1.0, 5.0), (9.0, 5.0)], -1.0, 0)
        .r(1, 2, 1000.0)
        .d(2, 0, 1e-12, 27.0)
        .set(|o| o.rmin = 1e-3)
}

/// The same with too few passes for a step that waits.
fn cut() -> Build {
    pulse().set(|o| (o.itl4, o.ft, o.tstop) = (3, 0.25, 0.02))
}

/// The same with a sine that is refused in the second step.
fn sine() -> Build {
    pulse().isin(2, 0, 0.0, 0.0, 1e5)
}

/// The same with the level there from the start: DC settles falsely, and the steps catch up.
fn steady() -> Build {
    Build::transient(3, 1, 3.0).v(1, 0, 5.0, 0).r(1, 2, 1000.0).d(2, 0, 1e-12, 27.0)
}

/// A level straight across a diode: after the first pass the voltage across it is the level, and its memory 0.
fn across(volts: f64) -> Build {
    Build::dc(2, 1).v(1, 0, volts, 0).d(1, 0, 1e-12, 27.0).set(|o| o.abstol = 1e300)
}

/// A diode that follows at once before the one that does not, or after it.
fn pair(late_first: bool) -> Build {
    let b = Build::dc(3, 1);
    let b = if late_first { b } else { b.d(0, 1, 1e-12, 27.0) };
    let b = b.v(1, 0, 5.0, 0).r(1, 2, 1000.0).d(2, 0, 1e-12, 27.0);
    if late_first {
        b.d(0, 1, 1e-12, 27.0)
    } else {
        b
    }
}

/// Two diodes behind resistors of their own.
fn two_late() -> Build {
    Build::dc(4, 1).v(1, 0, 5.0, 0).r(1, 2, 1000.0).d(2, 0, 1e-12, 27.0).r(1, 3, 1000.0).d(3, 0, 1e-12, 27.0)
}

/// Verdict, passes and the diode that is behind.
fn ended(verdict: u64, passes: u64, behind: u64) -> Option<Expected> {
    Some(Expected { verdict, passes: Some(passes), behind: Some(behind), ..Expected::default() })
}

/// The same with a number of the vector, to half a unit of its fourth decimal.
fn ended_near(verdict: u64, passes: u64, behind: u64, near: (usize, f64)) -> Option<Expected> {
    ended(verdict, passes, behind).map(|e| Expected { near: Some(near), ..e })
}

type Case = (&'static str, Job, Option<Expected>);

/// DC runs.
fn cases() -> Vec<Case> {
    let nan = f64::NAN;
    vec![
        ("5 V, 1 kOhm, diode: off", smallest().job(), ended_near(0, 2, 3, (2, 5.0))),
        ("5 V, 1 kOhm, diode: on", on(smallest()).job(), ended_near(0, 7, 0, (2, 0.7447))),
        ("on by 2^63", smallest().set(|o| o.catchup = 1 << 63).job(), ended_near(0, 7, 0, (2, 0.7447))),
        ("on by the largest word", smallest().set(|o| o.catchup = u64::MAX).job(), ended_near(0, 7, 0, (2, 0.7447))),
        ("the very passes it needs", on(smallest()).set(|o| o.itl1 = 6).job(), ended(0, 7, 0)),
        ("ITL1 used up by waiting", on(smallest()).set(|o| o.itl1 = 1).job(), ended(20, 2, 3)),
        ("budget spent by waiting", on(smallest()).set(|o| o.budget = 2).job(), ended(24, 2, 3)),
        ("the very budget it needs", on(smallest()).set(|o| o.budget = 7).job(), ended(0, 7, 0)),
        (
            "ITL1 and the budget used up by waiting",
            on(smallest()).set(|o| (o.itl1, o.budget) = (1, 2)).job(),
            ended(20, 2, 3),
        ),
        ("at VNTOL alone, on", on(across(0.5)).set(|o| (o.reltol, o.vntol) = (0.0, 0.5)).job(), ended(0, 1, 0)),
        ("at the tolerance, on", on(at()).job(), ended(0, 1, 0)),
        ("at the tolerance, off", at().job(), ended(0, 1, 0)),
        ("at the tolerance, the other way round, off", turned(at()), ended(0, 1, 0)),
        ("at the tolerance, the other way round, on", turned(on(at())), ended(0, 1, 0)),
        ("a float beyond it, the other way round, off", turned(beyond()), ended(0, 1, 3)),
        ("a float beyond the tolerance, on", on(beyond()).job(), ended(0, 2, 0)),
        ("a float beyond the tolerance, off", beyond().job(), ended(0, 1, 3)),
        ("no tolerance at all, on", on(smallest()).set(|o| (o.reltol, o.vntol) = (0.0, 0.0)).job(), None),
        ("a tolerance below zero, on", on(smallest()).set(|o| o.vntol = -1.0).job(), None),
        ("infinite tolerances, on", on(smallest()).set(|o| o.vntol = f64::INFINITY).job(), None),
        ("RELTOL infinite and 0 V: NaN, on", on(across(0.0)).set(|o| o.reltol = f64::INFINITY).job(), ended(20, 51, 2)),
        ("VNTOL NaN, off", smallest().set(|o| o.vntol = f64::NAN).job(), None),
        ("VNTOL NaN, on: never", on(smallest()).set(|o| (o.vntol, o.itl1) = (f64::NAN, 20)).job(), ended(20, 21, 3)),
        ("RELTOL NaN, on: never", on(smallest()).set(|o| (o.reltol, o.itl1) = (f64::NAN, 20)).job(), ended(20, 21, 3)),
        ("a level that is NaN, off", nan_level().job(), ended(21, 1, 3)),
        ("a level that is NaN, on", on(nan_level()).job(), ended(21, 1, 3)),
        (
            "an infinite level, on",
            on(Build::dc(3, 1).v(1, 0, -f64::INFINITY, 0).r(1, 2, 1.0).d(2, 0, 1.0, 27.0)).job(),
            None,
        ),
        ("no diode, on", on(Build::dc(3, 1).v(1, 0, 4.0, 0).r(1, 2, 1.0).r(2, 0, 1.0)).job(), ended(0, 2, 0)),
        ("no record, on", on(Build::dc(1, 0)).job(), ended(0, 1, 0)),
        (
            "a diode with both ends at one node, on",
            on(Build::dc(2, 1).v(1, 0, 5.0, 0).d(1, 1, 1e-12, 27.0)).job(),
            None,
        ),
        ("the second diode is behind, off", pair(false).job(), ended(0, 2, 4)),
        ("the second diode is behind, on", on(pair(false)).job(), None),
        ("the first diode is behind, off", pair(true).job(), ended(0, 2, 3)),
        ("two diodes are behind, off", two_late().job(), ended(0, 2, 3)),
        ("two diodes are behind, on", on(two_late()).job(), None),
        ("diodes past record 200", on(far()).job(), None),
        ("22 at the second diode: the first has moved, off", moved().job(), ended(22, 1, 2)),
        ("22 at the second diode: the first has moved, on", on(moved()).job(), ended(22, 1, 2)),
        ("22 in the first pass, on", on(Build::dc(2, 0).d(1, 0, f64::INFINITY, 27.0)).job(), ended(22, 0, 0)),
        (
            "the same with VNTOL NaN",
            Build::dc(2, 0).d(1, 0, nan, 27.0).set(|o| o.vntol = f64::NAN).job(),
            ended(22, 0, 1),
        ),
        ("refused, on", on(smallest()).with(|j| j.sheet[44] = 7), None),
        ("refused by its budget, on", on(smallest()).set(|o| o.budget = 0).job(), None),
    ]
}

/// Transients.
fn transients() -> Vec<Case> {
    vec![
        ("a step settles falsely, off", pulse().job(), None),
        ("a step waits, on", on(pulse()).job(), None),
        ("a step is cut by waiting", on(cut()).job(), None),
        ("the step is too small by waiting", on(pulse()).set(|o| (o.itl4, o.ft, o.rmin) = (3, 0.25, 0.3)).job(), None),
        ("budget spent by waiting in a step", on(pulse()).set(|o| o.budget = 4).job(), ended(24, 4, 3)),
        ("no room after waiting", on(pulse()).rows(1).job(), None),
        ("ITL4 0, on", on(pulse()).set(|o| (o.itl4, o.ft) = (0, 0.5)).job(), None),
        ("DC waits, and the steps need not", on(steady()).job(), None),
        ("DC has settled falsely, the last vector has not", steady().job(), None),
        ("DC has not settled falsely, the last vector has", pulse().set(|o| o.tstop = 0.5).job(), None),
        ("DC has used up its passes by waiting, and the steps go on", on(steady()).set(|o| o.itl1 = 1).job(), None),
        ("26 while a diode is behind, off", sine().job(), None),
        ("26 after waiting, on", on(sine()).job(), None),
        ("an empty transient, on", on(Build::transient(1, 0, 3.0)).job(), None),
    ]
}

/// A quarter of a volt either way, so that half a volt is across the diode: the nodes are within their tolerance of 0 V after the
/// first pass, the diode is at its own.
fn at() -> Build {
    Build::dc(3, 2).v(1, 0, 0.25, 0).v(2, 0, -0.25, 1).d(1, 2, 1e-12, 27.0).set(|o| {
        o.reltol = 0.75;
        o.vntol = 0.125;
        o.abstol = 1e300
    })
}

/// The same, and the diode a float beyond its tolerance.
fn beyond() -> Build {
    at().set(|o| o.reltol = f64::from_bits(0.75f64.to_bits() - 1))
}

/// With the ends of its last record, the diode, exchanged.
fn turned(b: Build) -> Job {
    b.with(|j| {
        let mut elements = j.elements();
        if let Some(e) = elements.last_mut() {
            (e.a, e.b) = (e.b, e.a);
        }
        j.set_elements(&elements)
    })
}

fn nan_level() -> Build {
    Build::dc(3, 1).v(1, 0, f64::NAN, 0).r(1, 2, 1000.0).d(2, 0, 1e-12, 27.0)
}

/// The first diode has its memory moved by the pass that ends at the second.
fn moved() -> Build {
    Build::dc(2, 1).v(1, 0, 25.0, 0).d(1, 0, 1e-12, 27.0).d(1, 0, 1e-320, 27.0)
}

/// A sheet of 256 records with its diodes at the end.
fn far() -> Build {
    let mut b = Build::dc(3, 1).v(1, 0, 5.0, 0).r(1, 2, 1000.0);
    for _ in 0..252 {
        b = b.r(1, 0, 1e6);
    }
    b.d(0, 1, 1e-12, 27.0).d(2, 0, 1e-12, 27.0)
}

/// One job for each wrong reading.
fn tellers() -> Vec<(Wrong, Job)> {
    let short = || smallest().set(|o| o.itl1 = 0);
    vec![
        (Wrong::VectorBefore, short().job()),
        (Wrong::AcrossBefore, smallest().job()),
        (Wrong::MemoryBefore, on(smallest()).job()),
        (Wrong::LastDiodeAsked, pair(true).job()),
        (Wrong::FirstDiodeAsked, pair(false).job()),
        (Wrong::LastBehindNamed, two_late().job()),
        (Wrong::BelowTolerance, on(across(0.5)).set(|o| (o.reltol, o.vntol) = (0.0, 0.5)).job()),
        (Wrong::NanCaughtUp, on(smallest()).set(|o| o.vntol = f64::NAN).job()),
        (Wrong::ToleranceOfMemory, on(across(0.5)).set(|o| o.reltol = 1.0).job()),
        (Wrong::AbstolForDiodes, on(smallest()).set(|o| o.abstol = 10.0).job()),
        (Wrong::CatchupOverError, on(nan_level()).job()),
        (Wrong::CatchupInDcOnly, on(pulse()).job()),
        (Wrong::CatchupInTransientOnly, on(smallest()).job()),
        (Wrong::CatchupIfOdd, smallest().set(|o| o.catchup = 1 << 63).job()),
        (Wrong::CatchupAlways, smallest().job()),
        (Wrong::WaitingIsFree, on(smallest()).set(|o| o.itl1 = 1).job()),
        (Wrong::BehindOfDc, steady().job()),
        (Wrong::BehindOfSettledOnly, short().job()),
        // each a second way
        (Wrong::VectorBefore, on(beyond()).job()),
        (Wrong::AcrossBefore, on(smallest()).job()),
        (Wrong::MemoryBefore, on(beyond()).job()),
        (Wrong::LastDiodeAsked, on(pair(true)).job()),
        (Wrong::FirstDiodeAsked, on(pair(false)).job()),
        (Wrong::BelowTolerance, at().job()),
        (Wrong::NanCaughtUp, nan_level().job()),
        (Wrong::AbstolForDiodes, on(pulse()).set(|o| o.abstol = 10.0).job()),
        (Wrong::WaitingIsFree, on(cut()).job()),
        (Wrong::BehindOfDc, pulse().set(|o| o.tstop = 0.5).job()),
    ]
}

pub fn all() -> Vec<Directed> {
    let named = |(name, job, expected): Case| Directed { name: name.to_string(), job, expected, tells: Wrong::Nothing };
    let mut list: Vec<Directed> = cases().into_iter().chain(transients()).map(named).collect();
    for (wrong, job) in tellers() {
        let text = WRONG_BEHIND.iter().find(|w| w.0 == wrong).unwrap().1;
        list.push(Directed { name: format!("not: {}", text), job, expected: None, tells: wrong });
    }
    list
}
