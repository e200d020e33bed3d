//! Document 01 written out a second time, plainly: refusals, passes, verdicts, every buffer; the two options that are ours: one
//! waits for diodes, the other lets a pattern start away from zero; and the record that is ours, a coil. It decides wherever the
//! Rust has no answer, and is compared with the Rust wherever it has.
//!
//! `Wrong` holds readings that are easy to take and wrong; a model with one of them shows
//! whether a job would tell it apart.

use crate::behind;
use crate::compare::same;
use crate::inductor;
use crate::job::*;
use recorder::Functions;

#[derive(Clone, Copy, PartialEq, Debug)]
pub enum Wrong {
    Nothing,
    NanInYCounts,
    NanPivotWins,
    DependentFirst,
    VcvsOrder,
    GminOverNan,
    RepeatAtMostZero,
    PatternEndAtLeast,
    ArgBelowZero,
    ConductanceMustBeFinite,
    CurrentMustBeFinite,
    ErrorKept,
    CapacitorsFromDc,
    TimeBySolvedStep,
    InvertedOnce,
    LastOfEqualPivots,
    TwoThermalBelow,
    LastUnknownKept,
    SignAfterSecondNode,
    YFromLastStep,
    MemoryAnew,
    StepComparedFirst,
    NoStopAtZeroPivot,
    MaxBeforeDoubling,
    RowAtZero,
    SumFromRight,
    // of diodes that are behind, and of the option
    VectorBefore,
    AcrossBefore,
    MemoryBefore,
    LastDiodeAsked,
    FirstDiodeAsked,
    LastBehindNamed,
    BelowTolerance,
    NanCaughtUp,
    ToleranceOfMemory,
    AbstolForDiodes,
    CatchupOverError,
    CatchupInDcOnly,
    CatchupInTransientOnly,
    CatchupIfOdd,
    CatchupAlways,
    WaitingIsFree,
    BehindOfDc,
    BehindOfSettledOnly,
    // of patterns that start away from zero, and of their option
    FirstSingleBeforeDelay,
    FirstSingleLeftOut,
    FirstEndStrict,
    FirstEndByDifference,
    FirstEndWithoutDelay,
    FirstEndIgnored,
    FirstEndRepeats,
    FirstLastZero,
    FirstRepeatAtMostZero,
    FirstNanRepeatOnce,
    FirstDelayAtMost,
    FirstHeldBeforeDelay,
    FirstNoPointNan,
    FirstLevelBeforeEnd,
    FirstEqualRamped,
    FirstNanThrough,
    FirstLevelAbove,
    FirstLevelZero,
    FirstInFirstCycleOnly,
    FirstCycleWithoutDelay,
    FirstPastAllHeld,
    FirstInTransientOnly,
    FirstInDcOnly,
    FirstIfOdd,
    FirstAlways,
    FirstByCatchup,
    CatchupByFirst,
    // of the diode's limiting rule: which situation holds, in which order they are asked, and each one's formula
    LimitOneThermal,
    LimitStepWithoutSize,
    LimitTwoThermalOfVoltage,
    LimitNanStepSmall,
    LimitCriticalAtMost,
    LimitCriticalOfMemory,
    LimitNanCriticalPasses,
    LimitMemoryBelow,
    LimitMemoryBySign,
    LimitTurnOnOfVoltage,
    LimitNanMemoryTurnsOn,
    LimitNanArgFallsBack,
    LimitChoiceWithoutOne,
    LimitArgOfSize,
    LimitTurnOnBeforeSmall,
    LimitTurnOnBeforeCritical,
    LimitFallBackBeforeSmall,
    LimitFallBackBeforeCritical,
    LimitFallBackBeforeTurnOn,
    LimitTurnOnPlusOne,
    LimitTurnOnFromMemory,
    LimitFallBackToMemory,
    LimitFallBackToVoltage,
    LimitFallBackToZero,
    LimitClimbFromCritical,
    LimitClimbWithoutOne,
    LimitTurnOnFallBackExchanged,
    LimitTurnOnClimbExchanged,
    LimitFallBackClimbExchanged,
    LimitMemoryAsked,
    // of coils: when one is refused, what it stamps, and when and by how much its memory moves
    CoilUnknownKind,
    CoilSourceUnused,
    CoilUnusedNotAsked,
    CoilSharedEarlierCoil,
    CoilSharedLaterCoil,
    CoilSharedOfCoils,
    CoilSharedPlain,
    CoilSharedAtEarlier,
    CoilSharedByLetter,
    CoilSharedByBytes,
    CoilSharedBeforeNodes,
    CoilSharedAfterPoints,
    CoilHenriesOverStep,
    CoilInverted,
    CoilTurned,
    CoilRowEmpty,
    CoilDcRowStays,
    CoilDcColumnStays,
    CoilOpenAtDc,
    CoilShortAdded,
    CoilInBase,
    CoilAfterCapacitors,
    CoilBeforeCapacitors,
    CoilBeforeDependent,
    CoilAfterDiodes,
    CoilStale,
    CoilSetAfterFailure,
    CoilZeroAfter20,
    CoilZeroAfter21,
    CoilNanZero,
    CoilNotInDcCalls,
    CoilDcTurned,
    CoilDcUnknown,
    CoilFromZero,
    CoilEveryPass,
    CoilRejected,
    CoilWhenHeld,
    CoilAtError,
    CoilTooSmall,
    CoilDoubledStep,
    CoilUncutStep,
    CoilOldVoltage,
    CoilRegrouped,
    CoilFused,
    CoilAfterRow,
    CoilWithRow,
    CoilAtNode,
    CoilAtSource,
    CoilShown,
    CoilReused,
    CoilAskedBehind,
}

pub const WRONG: &[(Wrong, &str)] = &[
    (Wrong::NanInYCounts, "a NaN in y counts as a difference"),
    (Wrong::NanPivotWins, "a NaN is taken as the largest pivot"),
    (Wrong::DependentFirst, "dependent sources stamped before independent ones"),
    (Wrong::VcvsOrder, "a Vcvs's output entries written before its controls"),
    (Wrong::GminOverNan, "GMIN replaces a NaN conductance"),
    (Wrong::RepeatAtMostZero, "repeat <= 0 ends a pattern"),
    (Wrong::PatternEndAtLeast, "a pattern ends at t >= its end"),
    (Wrong::ArgBelowZero, "arg < 0 for arg <= 0 in the limiting"),
    (Wrong::ConductanceMustBeFinite, "22 also for a conductance that is not finite"),
    (Wrong::CurrentMustBeFinite, "22 also for a companion current that is not finite"),
    (Wrong::ErrorKept, "a convergence error stands over a later no"),
    (Wrong::CapacitorsFromDc, "capacitors start from the DC vector"),
    (Wrong::TimeBySolvedStep, "time moves by the step solved, not the doubled one"),
    (Wrong::InvertedOnce, "a companion conductance is stamped without being inverted twice"),
    (Wrong::LastOfEqualPivots, "the last of equal pivots is taken"),
    (Wrong::TwoThermalBelow, "a step of exactly two thermal voltages is limited"),
    (Wrong::LastUnknownKept, "the last unknown stays as it is when not finite"),
    (Wrong::SignAfterSecondNode, "equal nodes of a V leave 1.0"),
    (Wrong::YFromLastStep, "a step's first pass is compared with the last solved vector"),
    (Wrong::MemoryAnew, "diode memory starts anew in the transient"),
    (Wrong::StepComparedFirst, "the step is compared with the least before it is cut"),
    (Wrong::NoStopAtZeroPivot, "a zero pivot skips its column only"),
    (Wrong::MaxBeforeDoubling, "the step is capped before it is doubled"),
    (Wrong::RowAtZero, "a later time of exactly 0 gets a row"),
    (Wrong::SumFromRight, "back substitution sums in falling column order"),
];

/// Readings of when a diode is behind and of what the option does.
pub const WRONG_BEHIND: &[(Wrong, &str)] = &[
    (Wrong::VectorBefore, "the voltage across a diode is that of the vector that the pass began from"),
    (Wrong::AcrossBefore, "compared with the voltage across it in the vector that the pass began from"),
    (Wrong::MemoryBefore, "compared with the memory of the pass before"),
    (Wrong::LastDiodeAsked, "only the last diode is asked"),
    (Wrong::FirstDiodeAsked, "only the first diode is asked"),
    (Wrong::LastBehindNamed, "the last diode that is behind is named"),
    (Wrong::BelowTolerance, "`<` for `<=`"),
    (Wrong::NanCaughtUp, "with a NaN a diode has caught up"),
    (Wrong::ToleranceOfMemory, "RELTOL times the memory, not times the voltage"),
    (Wrong::AbstolForDiodes, "ABSTOL for VNTOL"),
    (Wrong::CatchupOverError, "with the option an error is a \"no\" too"),
    (Wrong::CatchupInDcOnly, "the option counts in DC alone"),
    (Wrong::CatchupInTransientOnly, "the option counts in the transient alone"),
    (Wrong::CatchupIfOdd, "an even option is off"),
    (Wrong::CatchupAlways, "the option is on when it is 0"),
    (Wrong::WaitingIsFree, "a pass that waits does not count against ITL1 and ITL4"),
    (Wrong::BehindOfDc, "a transient's diode is that of its DC vector"),
    (Wrong::BehindOfSettledOnly, "no diode is named where the verdict is not 0"),
];

/// Readings of a pattern's rule with the option on: what a single evaluation shows.
pub const WRONG_PATTERN: &[(Wrong, &str)] = &[
    (Wrong::FirstSingleBeforeDelay, "a single point is asked before the delay"),
    (Wrong::FirstSingleLeftOut, "a single point is no case of its own"),
    (Wrong::FirstEndStrict, "it ends at t > its end"),
    (Wrong::FirstEndByDifference, "the end is compared as t - delay >= the last time"),
    (Wrong::FirstEndWithoutDelay, "the end is compared as t >= the last time"),
    (Wrong::FirstEndIgnored, "its end is left to the rule before"),
    (Wrong::FirstEndRepeats, "with repeat it has its last level at the end too"),
    (Wrong::FirstLastZero, "past its end it is 0"),
    (Wrong::FirstRepeatAtMostZero, "repeat <= 0 is without repeat"),
    (Wrong::FirstNanRepeatOnce, "a NaN repeat is without repeat"),
    (Wrong::FirstDelayAtMost, "before the delay is t <= delay"),
    (Wrong::FirstHeldBeforeDelay, "the first level is held before the delay too, as in SPICE"),
    (Wrong::FirstNoPointNan, "no points give NaN"),
    (Wrong::FirstLevelBeforeEnd, "the first level is asked before the end"),
    (Wrong::FirstEqualRamped, "a cycle time equal to the first point's is ramped"),
    (Wrong::FirstNanThrough, "a NaN cycle time is let through (`<=`)"),
    (Wrong::FirstLevelAbove, "the first level is that of cycle times above the first point's"),
    (Wrong::FirstLevelZero, "up to the first point it is 0"),
    (Wrong::FirstInFirstCycleOnly, "the time since the delay is compared with the first point's, not the cycle time"),
    (Wrong::FirstCycleWithoutDelay, "the cycle time counts from 0, not from the delay"),
    (Wrong::FirstPastAllHeld, "past all points the last level is held, where it was ramped to (0, 0) before"),
];

/// Readings of the option's word and of where it counts.
pub const WRONG_WORD: &[(Wrong, &str)] = &[
    (Wrong::FirstInTransientOnly, "the option is ignored in DC"),
    (Wrong::FirstInDcOnly, "the option is ignored in the transient"),
    (Wrong::FirstIfOdd, "an even word is off"),
    (Wrong::FirstAlways, "the option is on when it is 0"),
    (Wrong::FirstByCatchup, "the word of the other option is read"),
    (Wrong::CatchupByFirst, "the other option reads this one's word"),
];

/// Readings of the diode's limiting rule: what a single call of a diode shows. The first two are document 01's too.
pub const WRONG_LIMIT: &[(Wrong, &str)] = &[
    (Wrong::TwoThermalBelow, "a step of exactly two thermal voltages is limited"),
    (Wrong::ArgBelowZero, "arg < 0 for arg <= 0"),
    (Wrong::LimitOneThermal, "a small step is within one thermal voltage"),
    (Wrong::LimitStepWithoutSize, "a small step is asked without its size, so that every step down is small"),
    (Wrong::LimitTwoThermalOfVoltage, "the voltage itself is asked for two thermal voltages, not the step"),
    (Wrong::LimitNanStepSmall, "a NaN step is small"),
    (Wrong::LimitCriticalAtMost, "v <= the critical voltage is below it"),
    (Wrong::LimitCriticalOfMemory, "the memory is asked whether it is below critical, not v"),
    (Wrong::LimitNanCriticalPasses, "without a critical voltage every v passes"),
    (Wrong::LimitMemoryBelow, "a turn-on is memory < 0"),
    (Wrong::LimitMemoryBySign, "the sign bit of the memory decides: 0.0 is no turn-on, -0.0 is one"),
    (Wrong::LimitTurnOnOfVoltage, "v is asked whether it is above zero, not the memory"),
    (Wrong::LimitNanMemoryTurnsOn, "a NaN memory is a turn-on"),
    (Wrong::LimitNanArgFallsBack, "a NaN arg falls back"),
    (Wrong::LimitChoiceWithoutOne, "a fall back is asked of the step in thermal voltages, without the one"),
    (Wrong::LimitArgOfSize, "arg has the step's size"),
    (Wrong::LimitTurnOnBeforeSmall, "a turn-on is asked before a small step"),
    (Wrong::LimitTurnOnBeforeCritical, "a turn-on is asked before below critical"),
    (Wrong::LimitFallBackBeforeSmall, "a fall back is asked before a small step"),
    (Wrong::LimitFallBackBeforeCritical, "a fall back is asked before below critical"),
    (Wrong::LimitFallBackBeforeTurnOn, "a fall back is asked before a turn-on"),
    (Wrong::LimitTurnOnPlusOne, "a turn-on takes vt ln(1 + v / vt), as in SPICE"),
    (Wrong::LimitTurnOnFromMemory, "a turn-on starts from the memory"),
    (Wrong::LimitFallBackToMemory, "a fall back takes the memory"),
    (Wrong::LimitFallBackToVoltage, "a fall back takes v"),
    (Wrong::LimitFallBackToZero, "a fall back takes 0"),
    (Wrong::LimitClimbFromCritical, "a climb starts from the critical voltage"),
    (Wrong::LimitClimbWithoutOne, "a climb's logarithm is without the one"),
    (Wrong::LimitTurnOnFallBackExchanged, "the formulas of turn-on and fall back are exchanged"),
    (Wrong::LimitTurnOnClimbExchanged, "the formulas of turn-on and climb are exchanged"),
    (Wrong::LimitFallBackClimbExchanged, "the formulas of fall back and climb are exchanged"),
    (Wrong::LimitMemoryAsked, "the memory is the voltage asked for, not the limited one"),
];

/// Readings of a coil's refusals.
pub const WRONG_COIL_SHEET: &[(Wrong, &str)] = &[
    (Wrong::CoilUnknownKind, "kind 11 is refused by 6"),
    (Wrong::CoilSourceUnused, "a coil's source number must be zero bytes"),
    (Wrong::CoilUnusedNotAsked, "a coil's unused bytes are not asked"),
    (Wrong::CoilSharedEarlierCoil, "a number is asked for among earlier coils alone"),
    (Wrong::CoilSharedLaterCoil, "a number is asked for where the later record is the coil alone"),
    (Wrong::CoilSharedOfCoils, "only two coils must not share"),
    (Wrong::CoilSharedPlain, "two sources without a coil must not share either"),
    (Wrong::CoilSharedAtEarlier, "the earlier of the two is refused"),
    (Wrong::CoilSharedByLetter, "two sources that share the number of a coil behind them are refused"),
    (Wrong::CoilSharedByBytes, "records without a source number are taken for ones with number 0"),
    (Wrong::CoilSharedBeforeNodes, "a shared number is asked for before 8"),
    (Wrong::CoilSharedAfterPoints, "a shared number is asked for after 10"),
];

/// Readings of what a coil stamps.
pub const WRONG_COIL_STAMP: &[(Wrong, &str)] = &[
    (Wrong::CoilHenriesOverStep, "the conductance is henries over step, as a capacitor's"),
    (Wrong::CoilInverted, "the conductance is inverted twice, as a capacitor's"),
    (Wrong::CoilTurned, "the current is stamped from the second node to the first, as a capacitor's"),
    (Wrong::CoilRowEmpty, "in the transient its row is empty"),
    (Wrong::CoilDcRowStays, "in the transient its row and column are those of DC"),
    (Wrong::CoilDcColumnStays, "in the transient its column is that of DC too"),
    (Wrong::CoilOpenAtDc, "at DC it stamps nothing, as a capacitor does"),
    (Wrong::CoilShortAdded, "the short is added and not assigned"),
    (Wrong::CoilInBase, "the short stands in the base"),
    (Wrong::CoilAfterCapacitors, "coils are stamped after capacitors, not in list order"),
    (Wrong::CoilBeforeCapacitors, "coils are stamped before capacitors, not in list order"),
    (Wrong::CoilBeforeDependent, "coils are stamped before dependent sources"),
    (Wrong::CoilAfterDiodes, "coils are stamped after diodes"),
];

/// Readings of a coil's memory.
pub const WRONG_COIL_MEMORY: &[(Wrong, &str)] = &[
    (Wrong::CoilStale, "what the caller left in the memory stays at the start"),
    (Wrong::CoilSetAfterFailure, "the memory is the DC vector's current after 22 and 24 too"),
    (Wrong::CoilZeroAfter20, "the memory is still 0 after DC 20"),
    (Wrong::CoilZeroAfter21, "the memory is still 0 after DC 21"),
    (Wrong::CoilNanZero, "a DC current that is not finite is remembered as 0"),
    (Wrong::CoilNotInDcCalls, "the memory is not set in DC calls"),
    (Wrong::CoilDcTurned, "the memory is the DC current with the other sign"),
    (Wrong::CoilDcUnknown, "the DC current is read at the source number, without the nodes before it"),
    (Wrong::CoilFromZero, "the transient starts from a memory of 0, as capacitors start from zeros"),
    (Wrong::CoilEveryPass, "the memory moves in every solved pass of a step"),
    (Wrong::CoilRejected, "the memory moves when a step is cut"),
    (Wrong::CoilWhenHeld, "the memory moves when the vectors agree, though a diode holds the step open"),
    (Wrong::CoilAtError, "the memory moves in a step that ends with 21"),
    (Wrong::CoilTooSmall, "the memory moves in a step that ends with 23"),
    (Wrong::CoilDoubledStep, "the memory moves by the doubled step"),
    (Wrong::CoilUncutStep, "the memory moves by the step before it was cut"),
    (Wrong::CoilOldVoltage, "the memory moves by the voltage before the step"),
    (Wrong::CoilRegrouped, "the current added is step times voltage over henries"),
    (Wrong::CoilFused, "the product is not rounded before the sum"),
    (Wrong::CoilAfterRow, "the memory moves after the row is written, so not before a 25"),
    (Wrong::CoilWithRow, "the memory moves only where a row is written"),
    (Wrong::CoilAtNode, "the memory stands at the first node's number"),
    (Wrong::CoilAtSource, "the memory stands at the source number"),
    (Wrong::CoilShown, "the rows of the transient show the current"),
    (Wrong::CoilReused, "a pass at the time and with the step of the pass before is stamped with that one's memory"),
    (Wrong::CoilAskedBehind, "a coil is asked whether it is behind"),
];

/// All readings of coils.
pub fn wrong_coils() -> Vec<(Wrong, &'static str)> {
    [WRONG_COIL_SHEET, WRONG_COIL_STAMP, WRONG_COIL_MEMORY].concat()
}

pub const MOST_UNKNOWNS: u128 = 48;
pub const MOST_RECORDS: usize = 256;
pub const MOST_POINTS: usize = 1024;
pub const MOST_PASSES: u64 = 10_000;
pub const MOST_BUDGET: u64 = 1_000_000;

/// Which bytes a kind uses, from 2 on; the others must be zero.
fn used(kind: u8) -> Vec<std::ops::Range<usize>> {
    match kind {
        1 | 2 | 8 => vec![2..6, 16..24],
        3 => vec![2..6, 10..12, 16..24],
        4 => vec![2..6, 16..32],
        5 => vec![2..6, 16..40],
        6 => vec![2..6, 10..12, 16..40],
        7 => vec![2..6, 10..16, 16..32],
        9 => vec![2..12, 16..24],
        10 => vec![2..10, 16..24],
        COIL => vec![2..6, 10..12, 16..24],
        _ => vec![],
    }
}

/// The same by a wrong reading of a coil's.
fn misused(kind: u8, wrong: Wrong) -> Option<Vec<std::ops::Range<usize>>> {
    match wrong {
        Wrong::CoilSourceUnused if kind == COIL => Some(vec![2..6, 16..24]),
        Wrong::CoilUnusedNotAsked if kind == COIL => Some(vec![1..40]),
        _ => None,
    }
}

/// A sheet that is checked record by record.
struct Checked<'a> {
    job: &'a Job,
    elements: Vec<Element>,
    wrong: Wrong,
}

impl Checked<'_> {
    /// The lowest fault of the record at a place, 0 if it has none.
    fn fault(&self, place: usize) -> u64 {
        let shared = (9, inductor::shares(&self.elements, place, self.wrong));
        let mut faults = vec![(6, self.unknown(place)), (7, self.dirty(place)), (8, self.strange_node(place))];
        faults.push((9, self.strange_source(place)));
        faults.push((10, self.strange_points(place)));
        let asked = match self.wrong {
            Wrong::CoilSharedBeforeNodes => 2,
            Wrong::CoilSharedAfterPoints => 5,
            _ => 4,
        };
        faults.insert(asked, shared);
        faults.iter().find(|f| f.1).map_or(0, |f| f.0)
    }

    fn unknown(&self, place: usize) -> bool {
        let known = if self.wrong == Wrong::CoilUnknownKind { 1..=COIL - 1 } else { 1..=COIL };
        !known.contains(&self.elements[place].kind)
    }

    fn dirty(&self, place: usize) -> bool {
        let kind = self.elements[place].kind;
        let ranges = misused(kind, self.wrong).unwrap_or_else(|| used(kind));
        let record = &self.job.sheet[place * RECORD..(place + 1) * RECORD];
        let unused = |i: &usize| !ranges.iter().any(|u| u.contains(i));
        (1..RECORD).filter(unused).any(|i| record[i] != 0)
    }

    fn strange_node(&self, place: usize) -> bool {
        let e = &self.elements[place];
        let mut named = vec![e.a, e.b];
        if e.has_controls() {
            named.extend_from_slice(&[e.cp, e.cn]);
        }
        named.iter().any(|n| *n as u64 >= self.job.nodes)
    }

    fn strange_source(&self, place: usize) -> bool {
        let e = &self.elements[place];
        e.has_source() && e.source as u64 >= self.job.sources
    }

    fn strange_points(&self, place: usize) -> bool {
        let e = &self.elements[place];
        e.kind == 7 && e.first as usize + e.count as usize > self.job.points.len() / POINT
    }
}

/// The refusal and its place; 0 if the job runs.
pub fn refusal(job: &Job) -> (u64, u64) {
    refusal_by(job, Wrong::Nothing)
}

fn refusal_by(job: &Job, wrong: Wrong) -> (u64, u64) {
    let unknowns = job.nodes as u128 + job.sources as u128;
    if job.nodes == 0 || unknowns > MOST_UNKNOWNS {
        return (1, 0);
    }
    let records = job.sheet.len() / RECORD;
    if job.sheet.len() % RECORD != 0 || records > MOST_RECORDS {
        return (2, 0);
    }
    let points = job.points.len() / POINT;
    if job.points.len() % POINT != 0 || points > MOST_POINTS {
        return (3, 0);
    }
    let o = &job.options;
    if o.itl1 > MOST_PASSES || o.itl3 > MOST_PASSES || o.itl4 > MOST_PASSES || o.budget == 0 || o.budget > MOST_BUDGET {
        return (4, 0);
    }
    let n = unknowns as usize;
    let rows = if job.transient { n + 1 } else { 0 };
    let needed = [n * (n + 1), n * (n + 1), n * (n + 1), n, records, rows];
    if needed.iter().zip(job.lengths.iter()).any(|(need, given)| given < need) {
        return (5, 0);
    }
    let checked = Checked { job, elements: job.elements(), wrong };
    let faults = (0..records).map(|place| (checked.fault(place), place as u64));
    faults.into_iter().find(|f| f.0 != 0).unwrap_or((0, 0))
}

/// Level of a piecewise-linear pattern at a time.
pub fn pattern(points: &[(f64, f64)], t_delay: f64, repeat: f64, t: f64, wrong: Wrong) -> f64 {
    let last = match points.last() {
        None => return 0.0,
        Some(p) => *p,
    };
    let once = if wrong == Wrong::RepeatAtMostZero { repeat <= 0.0 } else { repeat < 0.0 };
    let end = t_delay + last.0;
    let over = if wrong == Wrong::PatternEndAtLeast { t >= end } else { t > end };
    if once && over {
        return last.1;
    }
    let cycle = (t - t_delay) % last.0;
    if cycle < 0.0 {
        return 0.0;
    }
    // the point at or after, and the one before it; a side without a point is (0, 0)
    let at = points.iter().position(|p| !(cycle > p.0));
    let (t2, v2) = at.map_or((0.0, 0.0), |i| points[i]);
    let before = at.unwrap_or(points.len());
    let (t1, v1) = if before == 0 { (0.0, 0.0) } else { points[before - 1] };
    let slope = (v2 - v1) / (t2 - t1);
    let slope = if slope.is_nan() { 0.0 } else { slope };
    slope * (cycle - t1) + v1
}

/// The sentence of the request at which a pattern is answered with the option on.
#[derive(Clone, Copy, PartialEq, Debug)]
pub enum Sentence {
    NoPoint,
    BeforeDelay,
    Ended,
    Single,
    FirstLevel,
    AsBefore,
}

pub const SENTENCES: [(Sentence, &str); 6] = [
    (Sentence::NoPoint, "no points"),
    (Sentence::BeforeDelay, "before the delay"),
    (Sentence::Ended, "at or past its end"),
    (Sentence::Single, "a single point"),
    (Sentence::FirstLevel, "up to the first point"),
    (Sentence::AsBefore, "as before"),
];

/// Level of a pattern with the option on, in the request's order: "no points, or a time before the delay: 0; without repeat and at
/// or past its end: the last level; a single point: its level; a cycle time not above the first point's: the first level; then as
/// before". With it the sentence that answered.
pub fn pattern_first(points: &[(f64, f64)], t_delay: f64, repeat: f64, t: f64, wrong: Wrong) -> (Sentence, f64) {
    let (first, last) = match (points.first(), points.last()) {
        (Some(first), Some(last)) => (*first, *last),
        _ => return (Sentence::NoPoint, if wrong == Wrong::FirstNoPointNan { f64::NAN } else { 0.0 }),
    };
    let e = Evaluation { points, first, last, t_delay, repeat, t, wrong };
    let before_delay = (Sentence::BeforeDelay, e.before_delay());
    let ended = (Sentence::Ended, e.ended());
    let single = (Sentence::Single, e.single());
    let first_level = (Sentence::FirstLevel, e.first_level());
    let order = match wrong {
        Wrong::FirstSingleBeforeDelay => [single, before_delay, ended, first_level],
        Wrong::FirstLevelBeforeEnd => [before_delay, first_level, ended, single],
        _ => [before_delay, ended, single, first_level],
    };
    let answered = order.iter().find_map(|(sentence, level)| level.map(|x| (*sentence, x)));
    answered.unwrap_or_else(|| (Sentence::AsBefore, e.as_before()))
}

/// One evaluation of a pattern that has points. Each sentence has a level where it answers, and its wrong readings beside it.
struct Evaluation<'a> {
    points: &'a [(f64, f64)],
    first: (f64, f64),
    last: (f64, f64),
    t_delay: f64,
    repeat: f64,
    t: f64,
    wrong: Wrong,
}

impl Evaluation<'_> {
    /// "A time before the delay: 0".
    fn before_delay(&self) -> Option<f64> {
        let at_most = self.wrong == Wrong::FirstDelayAtMost;
        let before = if at_most { self.t <= self.t_delay } else { self.t < self.t_delay };
        let level = if self.wrong == Wrong::FirstHeldBeforeDelay { self.first.1 } else { 0.0 };
        before.then_some(level)
    }

    /// "Without repeat and at or past its end: the last level".
    fn ended(&self) -> Option<f64> {
        let level = if self.wrong == Wrong::FirstLastZero { 0.0 } else { self.last.1 };
        (self.once() && self.over()).then_some(level)
    }

    fn once(&self) -> bool {
        match self.wrong {
            Wrong::FirstRepeatAtMostZero => self.repeat <= 0.0,
            Wrong::FirstNanRepeatOnce => !(self.repeat >= 0.0),
            Wrong::FirstEndIgnored => false,
            Wrong::FirstEndRepeats => true,
            _ => self.repeat < 0.0,
        }
    }

    fn over(&self) -> bool {
        let (t, end) = (self.t, self.t_delay + self.last.0);
        match self.wrong {
            Wrong::FirstEndStrict => t > end,
            Wrong::FirstEndByDifference => self.since() >= self.last.0,
            Wrong::FirstEndWithoutDelay => t >= self.last.0,
            Wrong::FirstEndRepeats => t == end || self.repeat < 0.0 && t >= end,
            _ => t >= end,
        }
    }

    /// "A single point: its level".
    fn single(&self) -> Option<f64> {
        let single = self.points.len() == 1 && self.wrong != Wrong::FirstSingleLeftOut;
        single.then_some(self.first.1)
    }

    /// "A cycle time not above the first point's: the first level".
    fn first_level(&self) -> Option<f64> {
        let asked = if self.wrong == Wrong::FirstInFirstCycleOnly { self.since() } else { self.cycle() };
        let up_to_first = match self.wrong {
            Wrong::FirstEqualRamped => !(asked >= self.first.0),
            Wrong::FirstNanThrough => asked <= self.first.0,
            Wrong::FirstLevelAbove => asked > self.first.0,
            _ => !(asked > self.first.0),
        };
        let level = if self.wrong == Wrong::FirstLevelZero { 0.0 } else { self.first.1 };
        up_to_first.then_some(level)
    }

    /// "Then as before".
    fn as_before(&self) -> f64 {
        let cycle = self.cycle();
        let past_all = self.points.iter().all(|p| cycle > p.0);
        if past_all && self.wrong == Wrong::FirstPastAllHeld {
            return self.last.1;
        }
        let from = if self.wrong == Wrong::FirstCycleWithoutDelay { 0.0 } else { self.t_delay };
        pattern(self.points, from, self.repeat, self.t, Wrong::Nothing)
    }

    /// The time since the delay.
    fn since(&self) -> f64 {
        self.t - self.t_delay
    }

    /// The time in its cycle.
    fn cycle(&self) -> f64 {
        let from = if self.wrong == Wrong::FirstCycleWithoutDelay { self.t } else { self.since() };
        from % self.last.0
    }
}

/// A capacitor's conductance and current.
pub fn capacitor(value: f64, v: f64, step: f64) -> (f64, f64) {
    let g = value / step;
    (g, g * v)
}

/// What a diode is asked: its saturation current and temperature, the voltage that it is to stand at, and its memory, the voltage
/// that it last stood at.
#[derive(Clone, Copy)]
pub struct Asked {
    pub i_sat: f64,
    pub tdegc: f64,
    pub v: f64,
    pub memory: f64,
}

/// The situations of the limiting rule.
#[derive(Clone, Copy, PartialEq, Debug)]
pub enum Situation {
    BelowCritical,
    SmallStep,
    TurnOn,
    FallBack,
    Climb,
}

use Situation::*;

/// As they are named and counted: the first that holds, a small step before all others.
pub const SITUATIONS: [(Situation, &str); 5] = [
    (SmallStep, "small step"),
    (BelowCritical, "below critical"),
    (TurnOn, "turn-on"),
    (FallBack, "fall back"),
    (Climb, "climb"),
];

/// So many of each, by its place in the type.
pub type Situations = [u64; 5];

/// The order in which the shipped code asks.
const SMALL_STEP_FIRST: [Situation; 4] = [SmallStep, BelowCritical, TurnOn, FallBack];

/// The order in which the Rust asks, and so the model. Below critical and within a small step v passes alike.
const BELOW_CRITICAL_FIRST: [Situation; 4] = [BelowCritical, SmallStep, TurnOn, FallBack];

/// A diode's conductance, current and limited voltage; None where its current is not finite.
pub type Companion = Option<(f64, f64, f64)>;

/// One call of a diode: "choose first which of the five situations holds, then work out one formula for it".
pub struct Diode<'a> {
    pub vt: f64,
    pub critical: f64,
    asked: Asked,
    delta: f64,
    o: &'a Options,
    f: &'a Functions,
    wrong: Wrong,
}

impl<'a> Diode<'a> {
    pub fn new(asked: Asked, o: &'a Options, f: &'a Functions, wrong: Wrong) -> Diode<'a> {
        let vt = o.boltzmann * (363.0 + asked.tdegc) / o.charge;
        let root2 = f64::from_bits(0x3FF6A09E667F3BCD);
        let critical = vt * (f.ln)(vt / (root2 * asked.i_sat));
        Diode { vt, critical, asked, delta: asked.v - asked.memory, o, f, wrong }
    }

    /// The situation as it is named.
    pub fn named(&self) -> Situation {
        self.first(SMALL_STEP_FIRST)
    }

    /// A small step that is below critical too: the only calls that the two orders name otherwise.
    pub fn named_otherwise(&self) -> bool {
        self.named() != self.first(BELOW_CRITICAL_FIRST)
    }

    /// The companion model by the Rust's order, or by a wrong reading's.
    pub fn companion(&self) -> Companion {
        self.companion_by(match self.wrong {
            Wrong::LimitTurnOnBeforeSmall => [BelowCritical, TurnOn, SmallStep, FallBack],
            Wrong::LimitTurnOnBeforeCritical => [SmallStep, TurnOn, BelowCritical, FallBack],
            Wrong::LimitFallBackBeforeSmall => [BelowCritical, FallBack, SmallStep, TurnOn],
            Wrong::LimitFallBackBeforeCritical => [SmallStep, FallBack, BelowCritical, TurnOn],
            Wrong::LimitFallBackBeforeTurnOn => [BelowCritical, SmallStep, FallBack, TurnOn],
            _ => BELOW_CRITICAL_FIRST,
        })
    }

    /// The same by the shipped code's order; nobody can tell them apart.
    pub fn companion_small_step_first(&self) -> Companion {
        self.companion_by(SMALL_STEP_FIRST)
    }

    fn companion_by(&self, order: [Situation; 4]) -> Companion {
        let situation = self.first(order);
        self.companion_at(self.misread(situation).unwrap_or_else(|| self.voltage(situation)))
    }

    /// The first that holds, and a climb where none of the others does.
    fn first(&self, order: [Situation; 4]) -> Situation {
        let holds = |s: &Situation| self.misheld(*s).unwrap_or_else(|| self.holds(*s));
        order.into_iter().find(holds).unwrap_or(Climb)
    }

    fn holds(&self, situation: Situation) -> bool {
        match situation {
            BelowCritical => self.asked.v < self.critical,
            SmallStep => self.delta.abs() <= 2.0 * self.vt,
            TurnOn => self.asked.memory <= 0.0,
            FallBack => self.arg() <= 0.0,
            Climb => true,
        }
    }

    /// Whether a situation holds by a wrong reading of it.
    fn misheld(&self, situation: Situation) -> Option<bool> {
        let Diode { vt, critical, delta, asked: Asked { v, memory, .. }, .. } = *self;
        Some(match (situation, self.wrong) {
            (SmallStep, Wrong::TwoThermalBelow) => delta.abs() < 2.0 * vt,
            (SmallStep, Wrong::LimitOneThermal) => delta.abs() <= vt,
            (SmallStep, Wrong::LimitStepWithoutSize) => delta <= 2.0 * vt,
            (SmallStep, Wrong::LimitTwoThermalOfVoltage) => v.abs() <= 2.0 * vt,
            (SmallStep, Wrong::LimitNanStepSmall) => !(delta.abs() > 2.0 * vt),
            (BelowCritical, Wrong::LimitCriticalAtMost) => v <= critical,
            (BelowCritical, Wrong::LimitCriticalOfMemory) => memory < critical,
            (BelowCritical, Wrong::LimitNanCriticalPasses) => !(v >= critical),
            (TurnOn, Wrong::LimitMemoryBelow) => memory < 0.0,
            (TurnOn, Wrong::LimitMemoryBySign) => memory <= 0.0 && memory.is_sign_negative(),
            (TurnOn, Wrong::LimitTurnOnOfVoltage) => v <= 0.0,
            (TurnOn, Wrong::LimitNanMemoryTurnsOn) => !(memory > 0.0),
            (FallBack, Wrong::ArgBelowZero) => self.arg() < 0.0,
            (FallBack, Wrong::LimitNanArgFallsBack) => !(self.arg() > 0.0),
            (FallBack, Wrong::LimitChoiceWithoutOne) => delta / vt <= 0.0,
            _ => return None,
        })
    }

    /// The limited voltage of a situation.
    fn voltage(&self, situation: Situation) -> f64 {
        let Diode { vt, asked: Asked { v, memory, .. }, .. } = *self;
        match situation {
            BelowCritical | SmallStep => v,
            TurnOn => vt * (self.f.ln)(v / vt),
            FallBack => self.critical,
            Climb => memory + vt * (self.f.ln)(self.arg()),
        }
    }

    /// The limited voltage by a wrong reading of the situation's formula.
    fn misread(&self, situation: Situation) -> Option<f64> {
        let Diode { vt, critical, delta, asked: Asked { v, memory, .. }, .. } = *self;
        let ln = self.f.ln;
        Some(match (situation, self.wrong) {
            (TurnOn, Wrong::LimitTurnOnPlusOne) => vt * ln(1.0 + v / vt),
            (TurnOn, Wrong::LimitTurnOnFromMemory) => memory + vt * ln(v / vt),
            (FallBack, Wrong::LimitFallBackToMemory) => memory,
            (FallBack, Wrong::LimitFallBackToVoltage) => v,
            (FallBack, Wrong::LimitFallBackToZero) => 0.0,
            (Climb, Wrong::LimitClimbFromCritical) => critical + vt * ln(self.arg()),
            (Climb, Wrong::LimitClimbWithoutOne) => memory + vt * ln(delta / vt),
            (TurnOn, Wrong::LimitTurnOnFallBackExchanged) => self.voltage(FallBack),
            (FallBack, Wrong::LimitTurnOnFallBackExchanged) => self.voltage(TurnOn),
            (TurnOn, Wrong::LimitTurnOnClimbExchanged) => self.voltage(Climb),
            (Climb, Wrong::LimitTurnOnClimbExchanged) => self.voltage(TurnOn),
            (FallBack, Wrong::LimitFallBackClimbExchanged) => self.voltage(Climb),
            (Climb, Wrong::LimitFallBackClimbExchanged) => self.voltage(FallBack),
            _ => return None,
        })
    }

    /// One and the step in thermal voltages: what a climb takes the logarithm of.
    fn arg(&self) -> f64 {
        let step = if self.wrong == Wrong::LimitArgOfSize { self.delta.abs() } else { self.delta };
        1.0 + step / self.vt
    }

    /// The companion model at the limited voltage.
    fn companion_at(&self, limited: f64) -> Companion {
        let Diode { vt, o, wrong, asked: Asked { i_sat, v, .. }, .. } = *self;
        let power = (self.f.exp)(limited / vt);
        let current = i_sat * (power - 1.0);
        if !current.is_finite() {
            return None;
        }
        let mut g = (i_sat / vt) * power;
        if g < o.gmin || (wrong == Wrong::GminOverNan && g.is_nan()) {
            g = o.gmin;
        }
        let i = current - g * limited;
        if wrong == Wrong::ConductanceMustBeFinite && !g.is_finite() {
            return None;
        }
        if wrong == Wrong::CurrentMustBeFinite && !i.is_finite() {
            return None;
        }
        Some((g, i, if wrong == Wrong::LimitMemoryAsked { v } else { limited }))
    }
}

/// A sine source's value; None where the sine is refused.
pub fn sine(vo: f64, va: f64, freq: f64, t: f64, f: &Functions) -> Option<f64> {
    let argument = ((2.0 * std::f64::consts::PI) * freq) * t;
    (f.sin)(argument).map(|s| vo + va * s)
}

/// A square system with its right side, row after row.
#[derive(Clone)]
pub struct Matrix {
    pub n: usize,
    pub m: Vec<f64>,
}

impl Matrix {
    pub fn zeros(n: usize) -> Matrix {
        Matrix { n, m: vec![0.0; n * (n + 1)] }
    }

    fn get(&self, r: usize, c: usize) -> f64 {
        self.m[r * (self.n + 1) + c]
    }

    /// Entries for ground are skipped.
    pub fn add(&mut self, r: usize, c: usize, x: f64) {
        if r != 0 && c != 0 {
            self.m[r * (self.n + 1) + c] += x;
        }
    }

    pub fn assign(&mut self, r: usize, c: usize, x: f64) {
        if r != 0 && c != 0 {
            self.m[r * (self.n + 1) + c] = x;
        }
    }

    pub fn current(&mut self, first: usize, second: usize, i: f64) {
        let right = self.n;
        self.add(first, right, -i);
        self.add(second, right, i);
    }

    pub fn resistor(&mut self, a: usize, b: usize, value: f64) {
        self.conductance(a, b, 1.0 / value);
    }

    pub fn conductance(&mut self, a: usize, b: usize, g: f64) {
        self.add(a, a, g);
        self.add(a, b, -g);
        self.add(b, b, g);
        self.add(b, a, -g);
    }

    fn companion(&mut self, a: usize, b: usize, g: f64, wrong: Wrong) {
        if wrong == Wrong::InvertedOnce {
            self.conductance(a, b, g);
        } else {
            self.resistor(a, b, 1.0 / g);
        }
    }

    /// A source's row is never 0: it is node count plus source number, and there is always a node.
    pub fn voltage(&mut self, row: usize, a: usize, b: usize, v: f64, wrong: Wrong) {
        let right = self.n;
        self.assign(row, right, v);
        let mut ends = [(a, 1.0), (b, -1.0)];
        if wrong == Wrong::SignAfterSecondNode {
            ends.reverse();
        }
        for (node, one) in ends.iter() {
            self.assign(row, *node, *one);
            self.assign(*node, row, *one);
        }
    }

    fn vcvs(&mut self, row: usize, e: &Element, wrong: Wrong) {
        let (a, b, cp, cn) = (e.a as usize, e.b as usize, e.cp as usize, e.cn as usize);
        let k = e.value[0];
        self.add(a, row, 1.0);
        self.add(b, row, -1.0);
        let mut writes = [(cp, k), (cn, -k), (a, -1.0), (b, 1.0)];
        if wrong == Wrong::VcvsOrder {
            writes.rotate_left(2);
        }
        for (node, x) in writes.iter() {
            self.add(row, *node, *x);
        }
    }

    fn vccs(&mut self, e: &Element) {
        let (a, b, cp, cn) = (e.a as usize, e.b as usize, e.cp as usize, e.cn as usize);
        let k = e.value[0];
        self.add(a, cp, k);
        self.add(a, cn, -k);
        self.add(b, cp, -k);
        self.add(b, cn, k);
    }
}

/// Row of the largest absolute entry at or below the diagonal, the earliest on a tie.
fn pivot(s: &Matrix, c: usize, wrong: Wrong) -> usize {
    let mut row = c;
    let mut largest = 0.0;
    for r in c..s.n {
        let size = s.get(r, c).abs();
        let more = if wrong == Wrong::LastOfEqualPivots { size >= largest && size > 0.0 } else { size > largest };
        if more || (wrong == Wrong::NanPivotWins && size.is_nan()) {
            row = r;
            largest = size;
        }
    }
    row
}

/// The solved vector; the matrix is eliminated in place.
pub fn solve(s: &mut Matrix, wrong: Wrong) -> Vec<f64> {
    let n = s.n;
    let w = n + 1;
    for c in 1..n.saturating_sub(1) {
        let p = pivot(s, c, wrong);
        if s.get(p, c) == 0.0 {
            if wrong == Wrong::NoStopAtZeroPivot {
                continue;
            }
            break;
        }
        for k in 0..w {
            s.m.swap(p * w + k, c * w + k);
        }
        for r in c + 1..n {
            if s.get(r, c) == 0.0 {
                continue;
            }
            let ratio = s.get(r, c) / s.get(c, c);
            for k in c..w {
                s.m[r * w + k] = s.get(r, k) - s.get(c, k) * ratio;
            }
        }
    }
    let mut x = vec![0.0; n];
    let last = s.get(n - 1, n) / s.get(n - 1, n - 1);
    x[n - 1] = if last.is_finite() || wrong == Wrong::LastUnknownKept { last } else { 0.0 };
    for r in (1..n.saturating_sub(1)).rev() {
        let mut sum = 0.0;
        if wrong == Wrong::SumFromRight {
            for c in (r + 1..n).rev() {
                sum += s.get(r, c) * x[c];
            }
        } else {
            for c in r + 1..n {
                sum += s.get(r, c) * x[c];
            }
        }
        x[r] = (s.get(r, n) - sum) / s.get(r, r);
    }
    x
}

#[derive(Clone, Copy, PartialEq, Debug)]
pub enum State {
    Yes,
    No,
    Error,
}

/// Document 01, "Convergence".
pub fn convergence(x: &[f64], y: &[f64], nodes: u64, o: &Options, wrong: Wrong) -> State {
    let mut state = State::Yes;
    for i in 0..x.len() {
        if !x[i].is_finite() {
            state = State::Error;
            continue;
        }
        let floor = if (i as u64) < nodes { o.vntol } else { o.abstol };
        let limit = x[i].abs() * o.reltol + floor;
        let difference = (x[i] - y[i]).abs();
        let exceeds = difference > limit || (wrong == Wrong::NanInYCounts && y[i].is_nan());
        if exceeds && !(wrong == Wrong::ErrorKept && state == State::Error) {
            state = State::No;
        }
    }
    state
}

/// What a run did that the Rust never does. Where it is none the options have changed nothing.
#[derive(Clone, Copy, Default, PartialEq, Debug)]
pub struct Beyond {
    /// Passes that said "no" for a diode that is behind.
    pub held: u64,
    /// Evaluations of a pattern that gave other bits than the rule without the option; a NaN is one NaN.
    pub moved: u64,
    /// The Rust has no coils, but at DC they are Vs of 0.
    pub coils: Coils,
}

impl Beyond {
    pub fn none(&self) -> bool {
        self.held == 0 && self.moved == 0 && self.coils.stepped == 0
    }
}

/// What a run did with its coils.
#[derive(Clone, Copy, Default, PartialEq, Debug)]
pub struct Coils {
    pub present: u64,
    /// Passes of steps, with a coil in them.
    pub stepped: u64,
    /// Memories that the end of DC, and that accepted steps, gave other bits; a NaN is one NaN.
    pub set: u64,
    pub moved: u64,
    /// Times that a step was cut, with a coil in it.
    pub cut: u64,
}

/// What storage elements look back at: the last accepted vector and the step.
struct Storage<'a> {
    accepted: &'a [f64],
    step: f64,
}

struct Run<'a> {
    o: Options,
    f: &'a Functions,
    wrong: Wrong,
    nodes: usize,
    n: usize,
    sheet: Vec<u8>,
    elements: Vec<Element>,
    points: Vec<(f64, f64)>,
    units: u64,
    base: Matrix,
    system: Matrix,
    vector: Vec<f64>,
    memory: Vec<f64>,
    /// Vector and memory that the last pass began from.
    before: (Vec<f64>, Vec<f64>),
    /// Of a wrong reading: time, step and memory that coils are stamped with.
    stamped: Option<(f64, f64, Vec<f64>)>,
    passes: u64,
    beyond: Beyond,
    situations: Situations,
    rows: Vec<f64>,
    row_count: u64,
    room: u64,
}

impl<'a> Run<'a> {
    fn row(&self, e: &Element) -> usize {
        self.nodes + e.source as usize
    }

    fn make_base(&mut self) {
        for e in self.elements.clone() {
            let (a, b) = (e.a as usize, e.b as usize);
            match e.kind {
                1 => self.base.resistor(a, b, e.value[0]),
                2 => self.base.current(a, b, e.value[0]),
                3 => {
                    let row = self.row(&e);
                    self.base.voltage(row, a, b, e.value[0], self.wrong)
                }
                COIL if self.wrong == Wrong::CoilInBase => {
                    let row = self.row(&e);
                    inductor::short(&mut self.base, &e, row, self.wrong)
                }
                _ => {}
            }
        }
    }

    /// Whether patterns are evaluated with the option on.
    fn first(&self, in_step: bool) -> bool {
        let word = self.o.pattern_first;
        match self.wrong {
            Wrong::FirstInDcOnly if in_step => false,
            Wrong::FirstInTransientOnly if !in_step => false,
            Wrong::FirstIfOdd => word % 2 == 1,
            Wrong::FirstAlways => true,
            Wrong::FirstByCatchup => self.o.catchup != 0,
            _ => word != 0,
        }
    }

    /// The level of the Vpwl at a place.
    fn level(&mut self, place: usize, t: f64, in_step: bool) -> f64 {
        let e = &self.elements[place];
        let part = &self.points[e.first as usize..e.first as usize + e.count as usize];
        let plain = pattern(part, e.value[0], e.value[1], t, self.wrong);
        if !self.first(in_step) {
            return plain;
        }
        let (_, level) = pattern_first(part, e.value[0], e.value[1], t, self.wrong);
        self.beyond.moved += !same(level, plain) as u64;
        level
    }

    fn independent(&mut self, m: &mut Matrix, t: f64, in_step: bool) -> Result<(), u64> {
        for k in 0..self.elements.len() {
            let e = &self.elements[k];
            let (a, b) = (e.a as usize, e.b as usize);
            let [p, q, r] = e.value;
            match e.kind {
                5 => m.current(a, b, sine(p, q, r, t, self.f).ok_or(26u64)?),
                6 => m.voltage(self.row(e), a, b, sine(p, q, r, t, self.f).ok_or(26u64)?, self.wrong),
                7 => {
                    let (row, level) = (self.row(e), self.level(k, t, in_step));
                    m.voltage(row, a, b, level, self.wrong)
                }
                _ => {}
            }
        }
        Ok(())
    }

    fn dependent(&self, m: &mut Matrix) {
        for e in &self.elements {
            match e.kind {
                9 => m.vcvs(self.row(e), e, self.wrong),
                10 => m.vccs(e),
                _ => {}
            }
        }
    }

    /// Storage elements in list order: at DC coils alone stamp something.
    fn storage(&self, m: &mut Matrix, s: &Option<Storage>, kinds: &[u8]) {
        for (k, e) in self.elements.iter().enumerate().filter(|(_, e)| kinds.contains(&e.kind)) {
            match (e.kind, s) {
                (8, Some(s)) => self.capacitor(m, e, s),
                (COIL, Some(s)) => {
                    let memory = self.stamped.as_ref().map_or(&self.memory, |old| &old.2)[self.memory_of(k)];
                    inductor::companion(m, e, self.row(e), s.step, memory, self.wrong)
                }
                (COIL, None) if self.wrong != Wrong::CoilInBase => inductor::short(m, e, self.row(e), self.wrong),
                _ => {}
            }
        }
    }

    fn capacitor(&self, m: &mut Matrix, e: &Element, s: &Storage) {
        let (a, b) = (e.a as usize, e.b as usize);
        let (g, i) = capacitor(e.value[0], s.accepted[a] - s.accepted[b], s.step);
        m.current(b, a, i);
        m.companion(a, b, g, self.wrong);
    }

    /// Where the memory of a record stands.
    fn memory_of(&self, place: usize) -> usize {
        inductor::memory_of(&self.elements[place], place, self.memory.len(), self.wrong)
    }

    /// Puts a current into the memory of each coil, and counts those that it changes.
    fn remember(&mut self, current: impl Fn(&Run, usize) -> f64) -> u64 {
        let mut changed = 0;
        for k in (0..self.elements.len()).filter(|k| self.elements[*k].is_coil()).collect::<Vec<usize>>() {
            let (at, i) = (self.memory_of(k), current(self, k));
            changed += !same(self.memory[at], i) as u64;
            self.memory[at] = i;
        }
        changed
    }

    /// DC is over: "set to the DC vector's current when DC ends with 0, 20 or 21, and still 0.0 if DC ends otherwise".
    fn remember_dc(&mut self, dc: Result<u64, u64>, transient: bool) {
        let set = match (self.wrong, dc) {
            (Wrong::CoilSetAfterFailure, _) => self.passes > 0,
            (Wrong::CoilZeroAfter20, Ok(20)) | (Wrong::CoilZeroAfter21, Ok(21)) => false,
            (Wrong::CoilNotInDcCalls, _) if !transient => false,
            _ => dc.is_ok(),
        };
        if set {
            let (nodes, wrong) = (self.nodes, self.wrong);
            self.beyond.coils.set +=
                self.remember(|run, k| inductor::current_of_dc(&run.elements[k], &run.vector, nodes, wrong));
        }
    }

    /// A vector is taken, in a pass with this step: each coil's current moves.
    fn remember_step(&mut self, step: f64, v: &[f64]) {
        let wrong = self.wrong;
        self.beyond.coils.moved += self.remember(|run, k| run.current_after(k, step, v, wrong));
    }

    /// The same where a wrong reading takes the vector solved last.
    fn misremember(&mut self, reading: Wrong, step: f64) {
        if self.wrong == reading {
            let v = self.vector.clone();
            self.remember_step(step, &v);
        }
    }

    fn current_after(&self, k: usize, step: f64, v: &[f64], wrong: Wrong) -> f64 {
        let e = &self.elements[k];
        let across = v[e.a as usize] - v[e.b as usize];
        inductor::current_after(e.value[0], step, across, self.memory[self.memory_of(k)], wrong)
    }

    fn diodes(&mut self, m: &mut Matrix) -> Result<(), u64> {
        for k in 0..self.elements.len() {
            let e = self.elements[k];
            if e.kind != 4 {
                continue;
            }
            let (a, b) = (e.a as usize, e.b as usize);
            let v = self.vector[a] - self.vector[b];
            let asked = Asked { i_sat: e.value[0], tdegc: e.value[1], v, memory: self.memory[k] };
            let d = Diode::new(asked, &self.o, self.f, self.wrong);
            self.situations[d.named() as usize] += 1;
            let (g, i, limited) = d.companion().ok_or(22u64)?;
            self.memory[k] = limited;
            m.current(a, b, i);
            m.companion(a, b, g, self.wrong);
        }
        Ok(())
    }

    /// One pass: a unit of the budget, the stamps, the solve.
    fn pass(&mut self, t: f64, storage: Option<Storage>) -> Result<(), u64> {
        if self.units == 0 {
            return Err(24);
        }
        self.units -= 1;
        self.before = (self.vector.clone(), self.memory.clone());
        if self.wrong == Wrong::CoilReused {
            let step = storage.as_ref().map_or(0.0, |s| s.step);
            let again = self.stamped.take().filter(|old| (old.0, old.1) == (t, step));
            self.stamped = again.or(Some((t, step, self.memory.clone())));
        }
        let mut m = self.base.clone();
        let in_step = storage.is_some();
        self.beyond.coils.stepped += (in_step && self.beyond.coils.present > 0) as u64;
        if self.wrong == Wrong::DependentFirst {
            self.dependent(&mut m);
            self.independent(&mut m, t, in_step)?;
        } else {
            self.independent(&mut m, t, in_step)?;
            if self.wrong == Wrong::CoilBeforeDependent {
                self.storage(&mut m, &storage, &[COIL]);
            }
            self.dependent(&mut m);
        }
        for kinds in self.storage_order() {
            self.storage(&mut m, &storage, kinds);
        }
        self.diodes(&mut m)?;
        if self.wrong == Wrong::CoilAfterDiodes {
            self.storage(&mut m, &storage, &[COIL]);
        }
        self.system = m.clone();
        self.vector = solve(&mut m, self.wrong);
        self.passes += 1;
        Ok(())
    }

    /// The kinds of one walk over the storage elements after another: there is one for both.
    fn storage_order(&self) -> &'static [&'static [u8]] {
        match self.wrong {
            Wrong::CoilAfterCapacitors => &[&[8], &[COIL]],
            Wrong::CoilBeforeCapacitors => &[&[COIL], &[8]],
            Wrong::CoilBeforeDependent | Wrong::CoilAfterDiodes => &[&[8]],
            _ => &[&[8, COIL]],
        }
    }

    /// The number of the first diode that is behind in the last solved vector.
    fn behind(&self) -> u64 {
        let (vector, memory) = (&self.before.0, &self.before.1);
        let first = |vector: &[f64], memory: &[f64]| behind::first(&self.sheet, vector, memory, &self.o, self.wrong);
        match self.wrong {
            Wrong::VectorBefore => first(vector, &self.memory),
            Wrong::MemoryBefore => first(&self.vector, memory),
            Wrong::AcrossBefore => {
                let across = |e: &Element| vector[e.a as usize] - vector[e.b as usize];
                let across: Vec<f64> = self.elements.iter().map(across).collect();
                first(&self.vector, &across)
            }
            _ => first(&self.vector, &self.memory),
        }
    }

    /// Whether the option is on.
    fn waits(&self, in_step: bool) -> bool {
        match self.wrong {
            Wrong::CatchupInDcOnly if in_step => false,
            Wrong::CatchupInTransientOnly if !in_step => false,
            Wrong::CatchupIfOdd => self.o.catchup % 2 == 1,
            Wrong::CatchupAlways => true,
            Wrong::CatchupByFirst => self.o.pattern_first != 0,
            _ => self.o.catchup != 0,
        }
    }

    /// What the pass says: with the option "no" for "yes" while a diode is behind.
    fn state(&mut self, y: &[f64], in_step: bool) -> State {
        let state = convergence(&self.vector, y, self.nodes as u64, &self.o, self.wrong);
        let asked = state == State::Yes || (state == State::Error && self.wrong == Wrong::CatchupOverError);
        if asked && self.waits(in_step) && self.behind() != 0 {
            self.beyond.held += 1;
            return State::No;
        }
        state
    }

    /// What a pass takes from ITL1 or ITL4: 1, also if it waits.
    fn cost(&self, held_before: u64) -> u64 {
        !(self.wrong == Wrong::WaitingIsFree && self.beyond.held > held_before) as u64
    }

    /// The DC verdict; Err where the run cannot go on after it.
    fn dc(&mut self) -> Result<u64, u64> {
        let mut y = vec![0.0; self.n];
        let mut count = 0;
        while count < self.o.itl1 + 1 {
            let held = self.beyond.held;
            self.pass(0.0, None)?;
            match self.state(&y, false) {
                State::Yes => return Ok(0),
                State::Error => return Ok(21),
                State::No => y = self.vector.clone(),
            }
            count += self.cost(held);
        }
        Ok(20)
    }

    fn write_row(&mut self, t: f64) -> Result<(), u64> {
        if self.row_count == self.room {
            return Err(25);
        }
        let mut shown = self.vector.clone();
        if self.wrong == Wrong::CoilShown && self.row_count > 0 {
            for (k, e) in self.elements.iter().enumerate().filter(|(_, e)| e.is_coil()) {
                shown[self.row(e)] = self.memory[k];
            }
        }
        self.rows.push(t);
        self.rows.extend(shown);
        self.row_count += 1;
        Ok(())
    }

    /// Passes of one step until it is accepted, or cut too far, or in error.
    /// Answers whether the step was cut and the count of its last passes.
    fn step(&mut self, now: f64, step: &mut f64, accepted: &[f64]) -> Result<Step, u64> {
        let mut y = if self.wrong == Wrong::YFromLastStep { self.vector.clone() } else { vec![0.0; self.n] };
        let mut count = 0;
        let mut cut = false;
        let uncut = *step;
        let least = self.o.tstep * self.o.rmin;
        loop {
            let held = self.beyond.held;
            self.pass(now + *step, Some(Storage { accepted, step: *step }))?;
            let state = self.state(&y, true);
            self.misremember(Wrong::CoilEveryPass, *step);
            count += self.cost(held);
            match state {
                State::Yes => return Ok(Step::Accepted { cut, count, uncut }),
                State::Error => {
                    self.misremember(Wrong::CoilAtError, *step);
                    return Ok(Step::Failed(21));
                }
                State::No if self.beyond.held > held => self.misremember(Wrong::CoilWhenHeld, *step),
                State::No => {}
            }
            if count >= self.o.itl4 {
                let before = *step;
                *step *= self.o.ft;
                let compared = if self.wrong == Wrong::StepComparedFirst { before } else { *step };
                if compared < least {
                    self.misremember(Wrong::CoilTooSmall, before);
                    return Ok(Step::Failed(23));
                }
                self.misremember(Wrong::CoilRejected, before);
                self.beyond.coils.cut += (self.beyond.coils.present > 0) as u64;
                cut = true;
                count = 0;
            }
            y = self.vector.clone();
        }
    }

    /// A step is accepted with its vector, and its coils move by the very step that was solved. Readings that move them elsewhere do not here.
    fn take(&mut self, step: f64, uncut: f64, accepted: &mut Vec<f64>) {
        let before = std::mem::replace(accepted, self.vector.clone());
        match self.wrong {
            Wrong::CoilEveryPass | Wrong::CoilDoubledStep | Wrong::CoilAfterRow | Wrong::CoilWithRow => {}
            Wrong::CoilUncutStep => self.remember_step(uncut, accepted),
            Wrong::CoilOldVoltage => self.remember_step(step, &before),
            _ => self.remember_step(step, accepted),
        }
    }

    /// The verdict, with the time left in `now`.
    fn transient(&mut self, now: &mut f64) -> Result<u64, u64> {
        if self.wrong == Wrong::MemoryAnew {
            for k in 0..self.elements.len() {
                if self.elements[k].kind == 4 {
                    self.memory[k] = 0.0;
                }
            }
        }
        if self.wrong == Wrong::CoilFromZero {
            self.remember(|_, _| 0.0);
        }
        let mut step = self.o.tstep * self.o.fs;
        let mut accepted = vec![0.0; self.n];
        if self.wrong == Wrong::CapacitorsFromDc {
            accepted = self.vector.clone();
        }
        self.write_row(0.0)?;
        loop {
            let solved_step;
            match self.step(*now, &mut step, &accepted)? {
                Step::Failed(verdict) => {
                    *now += step;
                    if *now > self.o.tstop {
                        *now = self.o.tstop;
                    }
                    return Ok(verdict);
                }
                Step::Accepted { cut, count, uncut } => {
                    solved_step = step;
                    self.take(step, uncut, &mut accepted);
                    if !cut && count < self.o.itl3 {
                        let most = self.o.tstep * self.o.rmax;
                        if self.wrong == Wrong::MaxBeforeDoubling {
                            step = if step > most { most } else { step } * 2.0;
                        } else {
                            step *= 2.0;
                            if step > most {
                                step = most;
                            }
                        }
                    }
                }
            }
            self.misremember(Wrong::CoilDoubledStep, step);
            *now += if self.wrong == Wrong::TimeBySolvedStep { solved_step } else { step };
            let last = *now > self.o.tstop;
            if last {
                *now = self.o.tstop;
            }
            if *now >= self.o.tstart && (*now != 0.0 || self.wrong == Wrong::RowAtZero) {
                self.write_row(*now)?;
                self.misremember(Wrong::CoilWithRow, solved_step);
            }
            self.misremember(Wrong::CoilAfterRow, solved_step);
            if last {
                return Ok(0);
            }
        }
    }
}

enum Step {
    /// Whether it was cut, the count of its last passes, and its length before it was cut.
    Accepted {
        cut: bool,
        count: u64,
        uncut: f64,
    },
    Failed(u64),
}

fn either(r: Result<u64, u64>) -> u64 {
    match r {
        Ok(v) => v,
        Err(v) => v,
    }
}

/// The whole call.
pub fn run(job: &Job, f: &Functions, wrong: Wrong) -> Answer {
    run_beyond(job, f, wrong).0
}

/// The whole call, and what it did that the Rust never does.
pub fn run_beyond(job: &Job, f: &Functions, wrong: Wrong) -> (Answer, Beyond) {
    let (answer, beyond, _) = run_counted(job, f, wrong);
    (answer, beyond)
}

/// The same, and how often a diode was in each situation.
pub fn run_counted(job: &Job, f: &Functions, wrong: Wrong) -> (Answer, Beyond, Situations) {
    run_lent(job, job.lent(), f, wrong)
}

/// The same on buffers that hold something else when they are lent.
pub fn run_lent(job: &Job, buffers: [Vec<f64>; 6], f: &Functions, wrong: Wrong) -> (Answer, Beyond, Situations) {
    let (number, place) = refusal_by(job, wrong);
    let mut answer = Answer { buffers, ..Answer::refused(job, number, place) };
    if number != 0 {
        return (answer, Beyond::default(), [0; 5]);
    }
    let n = (job.nodes + job.sources) as usize;
    let elements = job.elements();
    let mut memory = answer.buffers[MEMORY].clone();
    for (k, e) in elements.iter().enumerate() {
        if e.kind == 4 || e.is_coil() && wrong != Wrong::CoilStale {
            memory[k] = 0.0;
        }
    }
    let present = elements.iter().filter(|e| e.is_coil()).count() as u64;
    let mut run = Run {
        o: job.options,
        f,
        wrong,
        nodes: job.nodes as usize,
        n,
        sheet: job.sheet.clone(),
        elements,
        points: job.pattern(),
        units: job.options.budget,
        base: Matrix::zeros(n),
        system: Matrix::zeros(n),
        vector: vec![0.0; n],
        before: (vec![0.0; n], memory.clone()),
        stamped: None,
        memory,
        passes: 0,
        beyond: Beyond { coils: Coils { present, ..Coils::default() }, ..Beyond::default() },
        situations: [0; 5],
        rows: Vec::new(),
        row_count: 0,
        room: (job.lengths[ROWS] / (n + 1)) as u64,
    };
    run.make_base();
    let dc = run.dc();
    run.remember_dc(dc, job.transient);
    let of_dc = run.behind();
    answer.verdict = either(dc);
    if job.transient {
        answer.dc_verdict = answer.verdict;
        if dc.is_ok() {
            let mut now = 0.0;
            answer.verdict = either(run.transient(&mut now));
            answer.end = now;
        }
    }
    answer.passes = run.passes;
    answer.rows = run.row_count;
    answer.behind = Some(match wrong {
        Wrong::BehindOfDc => of_dc,
        Wrong::BehindOfSettledOnly if answer.verdict != 0 => 0,
        _ => run.behind(),
    });
    let parts =
        [(BASE, &run.base.m), (SYSTEM, &run.system.m), (VECTOR, &run.vector), (MEMORY, &run.memory), (ROWS, &run.rows)];
    for (buffer, part) in parts.iter() {
        answer.buffers[*buffer][..part.len()].copy_from_slice(part);
    }
    (answer, run.beyond, run.situations)
}
