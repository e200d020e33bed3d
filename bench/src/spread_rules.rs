//! The rules of all spreads in one call, written out a second time: when it is refused, what single runs add up to, and in a sound
//! call why a job is not sound.
//!
//! `Slip` holds readings that are easy to take and wrong; a report made with one shows whether a call would tell it apart.

use crate::exact::Sum;
use crate::job::*;
use crate::model;
use crate::spread_calls::*;

#[derive(Clone, Copy, PartialEq, Debug)]
pub enum Slip {
    Nothing,
    LatestOnATie,
    SumOverAll,
    ExtremesOverAll,
    RefusedKeepsVector,
    RefusedNotCounted,
    RefusedEndsTheCall,
    UnsettledVectorZero,
    SumRounded,
    SignsInOneHalf,
    ExtremesFromZero,
    // of a sound call
    JudgeBeforeBehind,
    BehindBeforeVerdict,
    BehindIgnored,
    RejectedIsSound,
    NotJudgedIsSound,
    NotJudgedIsRejected,
    SoundOverSettled,
    SettledOverSound,
    NodeForRecord,
    NumberForPlace,
    RejectedPlaceZero,
    FirstDiodeAlone,
    TolerancesIgnored,
    LastSystemForgotten,
    ToleranceOfTheFirstRow,
}

pub const SLIPS: [Slip; 10] = [
    Slip::LatestOnATie,
    Slip::SumOverAll,
    Slip::ExtremesOverAll,
    Slip::RefusedKeepsVector,
    Slip::RefusedNotCounted,
    Slip::RefusedEndsTheCall,
    Slip::UnsettledVectorZero,
    Slip::SumRounded,
    Slip::SignsInOneHalf,
    Slip::ExtremesFromZero,
];

/// Those of a sound call; the ones above can be taken there too.
pub const SOUND_SLIPS: [Slip; 15] = [
    Slip::JudgeBeforeBehind,
    Slip::BehindBeforeVerdict,
    Slip::BehindIgnored,
    Slip::RejectedIsSound,
    Slip::NotJudgedIsSound,
    Slip::NotJudgedIsRejected,
    Slip::SoundOverSettled,
    Slip::SettledOverSound,
    Slip::NodeForRecord,
    Slip::NumberForPlace,
    Slip::RejectedPlaceZero,
    Slip::FirstDiodeAlone,
    Slip::TolerancesIgnored,
    Slip::LastSystemForgotten,
    Slip::ToleranceOfTheFirstRow,
];

/// The refusal of the whole call, 0 if it runs: 13 first, then 1 to 5.
pub fn refusal(call: &Call) -> u64 {
    if call.jobs == 0 || call.jobs > MOST_JOBS || call.unknown as u128 >= call.unknowns() {
        return 13;
    }
    if call.nodes == 0 || call.unknowns() > model::MOST_UNKNOWNS {
        return 1;
    }
    let sheet = RECORD * call.jobs;
    if call.sheets.len() % sheet != 0 || call.sheets.len() / sheet > model::MOST_RECORDS {
        return 2;
    }
    // points and counts by the rule of a single run, the first job's
    let (number, _) = model::refusal(&call.single(0));
    if number == 3 || number == 4 {
        return number;
    }
    let (floats, words) = call.needed();
    let short = |need: &[usize], given: &[usize]| need.iter().zip(given).any(|(n, g)| g < n);
    let few = call.sound && !call.tolerances.is_empty() && call.tolerances.len() < call.unknowns() as usize;
    if few || short(&floats, &call.floats) || short(&words, &call.words) {
        return 5;
    }
    0
}

/// What the judge says of a run: refusal and row, the row count where it accepts. None without tolerances.
fn judged(call: &Call, run: &Answer, judge: Judge, slip: Slip) -> Option<(u64, u64)> {
    let n = call.unknowns() as usize;
    if call.tolerances.is_empty() || slip == Slip::TolerancesIgnored {
        return None;
    }
    let mut tolerances = call.tolerances[..n].to_vec();
    if slip == Slip::ToleranceOfTheFirstRow {
        tolerances = vec![tolerances[0]; n];
    }
    let base = if slip == Slip::LastSystemForgotten { BASE } else { SYSTEM };
    Some(judge(&run.buffers[base][..n * (n + 1)], &run.buffers[VECTOR][..n], &tolerances, n))
}

/// The number of the diode that is behind, as a job tells it.
fn behind(call: &Call, run: &Answer, k: usize, slip: Slip) -> u64 {
    let number = run.behind.expect("a run tells its diode");
    if slip != Slip::FirstDiodeAlone {
        return number;
    }
    let first = call.single(k).elements().iter().position(|e| e.kind == 4);
    if number != 0 && first == Some(number as usize - 1) {
        number
    } else {
        0
    }
}

/// Whether a job is sound (0), or the first cause why it is not, and its place.
fn cause(call: &Call, run: &Answer, k: usize, judge: Judge, slip: Slip) -> (u64, u64) {
    if run.refusal != 0 {
        return (run.refusal, run.place);
    }
    let number = behind(call, run, k, slip);
    let late = match slip {
        Slip::NodeForRecord if number != 0 => call.single(k).elements()[number as usize - 1].a as u64,
        Slip::NumberForPlace => number,
        _ => number.wrapping_sub(1),
    };
    if number != 0 && slip == Slip::BehindBeforeVerdict {
        return (BEHIND, late);
    }
    if run.verdict != 0 {
        return (run.verdict, 0);
    }
    let n = call.unknowns() as u64;
    let said = match judged(call, run, judge, slip) {
        None => (0, 0),
        Some((0, row)) if row == n || slip == Slip::RejectedIsSound => (0, 0),
        Some((0, _)) if slip == Slip::RejectedPlaceZero => (REJECTED, 0),
        Some((0, row)) => (REJECTED, row),
        Some(_) if slip == Slip::NotJudgedIsSound => (0, 0),
        Some(_) if slip == Slip::NotJudgedIsRejected => (REJECTED, 0),
        Some((refusal, _)) => (refusal, 0),
    };
    let waits = number != 0 && slip != Slip::BehindIgnored;
    if waits && !(slip == Slip::JudgeBeforeBehind && said.0 != 0) {
        return (BEHIND, late);
    }
    said
}

/// The causes that are no refusal and no verdict.
pub const BEHIND: u64 = 27;
pub const REJECTED: u64 = 28;

/// A judge of a system, a vector, tolerances and a row count: the bench's own, or the shipped one.
pub type Judge = fn(&[f64], &[f64], &[f64], usize) -> (u64, u64);

/// A job's number and place: its verdict or refusal, or in a sound call its cause.
fn numbered(call: &Call, run: &Answer, k: usize, judge: Judge, slip: Slip) -> (u64, u64) {
    if call.sound {
        return cause(call, run, k, judge, slip);
    }
    (if run.refusal != 0 { run.refusal } else { run.verdict }, run.place)
}

/// The report that single runs add up to, given in the order of the jobs. Scratch stays as lent.
pub fn report(call: &Call, runs: &[Answer], judge: Judge, slip: Slip) -> Report {
    let mut report = Report::refused(call, 0);
    let n = call.unknowns() as usize;
    let at = call.unknown as usize;
    let mut values: Vec<(usize, f64)> = Vec::new();
    let mut every: Vec<(usize, f64)> = Vec::new();
    let mut sound: Vec<(usize, f64)> = Vec::new();
    report.words[COUNTS][..call.needed().1[COUNTS]].fill(0);
    let mut over = false;
    for (k, run) in runs.iter().enumerate() {
        let (number, place) = numbered(call, run, k, judge, slip);
        over = over || (slip == Slip::RefusedEndsTheCall && run.refusal != 0);
        for (word, x) in [number, place, run.passes].into_iter().enumerate() {
            report.words[word][k] = if over { 0 } else { x };
        }
        report.words[COUNTS][number as usize] += !(slip == Slip::RefusedNotCounted && run.refusal != 0) as u64;
        let zero = run.refusal != 0 || over || (slip == Slip::UnsettledVectorZero && run.verdict != 0);
        let vector = if zero { vec![0.0; n] } else { run.buffers[VECTOR][..n].to_vec() };
        if !(slip == Slip::RefusedKeepsVector && run.refusal != 0) {
            report.floats[VECTORS][k * n..(k + 1) * n].copy_from_slice(&vector);
        }
        if run.refusal == 0 && run.verdict == 0 && !over {
            values.push((k, vector[at]));
            sound.extend(if number == 0 { Some((k, vector[at])) } else { None });
        }
        if vector[at].is_finite() {
            every.push((k, vector[at]));
        }
    }
    if slip == Slip::SettledOverSound {
        values = sound.clone();
    }
    let answer = &mut report.answer;
    answer.settled = values.len() as u64;
    (answer.smallest, answer.smallest_at, answer.largest, answer.largest_at) =
        extremes(if slip == Slip::ExtremesOverAll { &every } else { &values }, slip);
    let sum = sums(if slip == Slip::SumOverAll { &every } else { &values }, slip);
    rows(&mut report, [PLUS, MINUS], sum);
    if call.sound {
        let over = if slip == Slip::SoundOverSettled { &values } else { &sound };
        let answer = &mut report.answer;
        answer.sound = sound.len() as u64;
        (answer.sound_smallest, answer.sound_smallest_at, answer.sound_largest, answer.sound_largest_at) =
            extremes(over, slip);
        rows(&mut report, [SOUND_PLUS, SOUND_MINUS], sums(over, slip));
    }
    report
}

/// Smallest and largest with their jobs, the earliest on a tie; zeros where there is none.
fn extremes(values: &[(usize, f64)], slip: Slip) -> (f64, u64, f64, u64) {
    if values.is_empty() {
        return (0.0, 0, 0.0, 0);
    }
    let (mut low, mut high) = (values[0], values[0]);
    if slip == Slip::ExtremesFromZero {
        (low, high) = ((0, 0.0), (0, 0.0));
    }
    for (k, x) in &values[1..] {
        let tie = slip == Slip::LatestOnATie;
        if *x < low.1 || (tie && *x == low.1) {
            low = (*k, *x);
        }
        if *x > high.1 || (tie && *x == high.1) {
            high = (*k, *x);
        }
    }
    (low.1, low.0 as u64, high.1, high.0 as u64)
}

/// Both halves of a sum written to their rows.
fn rows(report: &mut Report, to: [usize; 2], sum: [Sum; 2]) {
    for (row, half) in to.into_iter().zip(&sum) {
        report.words[row][..LIMBS].copy_from_slice(half.limbs());
    }
}

/// The exact sum's two halves: what is above zero, and what is below.
fn sums(values: &[(usize, f64)], slip: Slip) -> [Sum; 2] {
    let (mut plus, mut minus) = (Sum::zero(), Sum::zero());
    if slip == Slip::SumRounded {
        let side =
            |negative: bool| values.iter().map(|v| v.1).filter(|x| x.is_sign_negative() == negative).sum::<f64>();
        plus.add_product(side(false).min(f64::MAX), 1.0);
        minus.add_product(side(true).max(f64::MIN), 1.0);
    } else {
        for (_, x) in values {
            let side = if *x < 0.0 && slip != Slip::SignsInOneHalf { &mut minus } else { &mut plus };
            side.add_product(*x, 1.0);
        }
    }
    [plus, minus]
}
