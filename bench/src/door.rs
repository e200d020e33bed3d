//! The shipped archive through its C door. `no_door.rs` has the same names for a bench without one.

use crate::job::*;
use crate::raw::*;
use crate::spread_calls::{Call, Report};
use recorder::Functions;

/// A call of the door: slices that are only read, numbers, then each lent buffer and how much of it is lent.
macro_rules! lend {
    ($call:ident, [$($read:expr),*], [$($number:expr),*], $($buffer:ident: $length:expr),*) => {
        unsafe { $call($($read.as_ptr(), $read.len(),)* $($number,)* $($buffer.as_mut_ptr(), $length,)*) }
    };
}

/// The call, on buffers already lent: numbers only.
pub fn call(job: &Job, b: &mut [Vec<f64>; 6]) -> Answer {
    let [base, system, elimination, vector, memory, rows] = b;
    let n = [base.len(), system.len(), elimination.len(), vector.len(), memory.len(), rows.len()];
    let (nodes, sources, o) = (job.nodes as usize, job.sources as usize, job.options);
    let (sheet, points) = (&job.sheet, &job.points);
    let buffers = [Vec::new(), Vec::new(), Vec::new(), Vec::new(), Vec::new(), Vec::new()];
    if job.transient {
        let a = lend!(savrunte_transient, [sheet, points], [nodes, sources, o],
            base: n[0], system: n[1], elimination: n[2], vector: n[3], memory: n[4], rows: n[5]);
        let TransientAnswer { refusal, place, verdict, dc_verdict, passes, rows, end, behind } = a;
        Answer { refusal, place, verdict, dc_verdict, passes, rows, end, behind: Some(behind), buffers }
    } else {
        let a = lend!(savrunte_dc, [sheet, points], [nodes, sources, o],
            base: n[0], system: n[1], elimination: n[2], vector: n[3], memory: n[4]);
        let DcAnswer { refusal, place, verdict, passes, behind } = a;
        Answer { refusal, place, verdict, dc_verdict: 0, passes, rows: 0, end: 0.0, behind: Some(behind), buffers }
    }
}

/// The whole answer, buffers included.
pub fn run(job: &Job) -> Option<Answer> {
    run_lent(job, job.lent())
}

/// The same on buffers that hold something else when they are lent.
pub fn run_lent(job: &Job, mut buffers: [Vec<f64>; 6]) -> Option<Answer> {
    let mut answer = call(job, &mut buffers);
    answer.buffers = buffers;
    Some(answer)
}

/// All spreads in one call, on buffers already lent: numbers only.
pub fn call_spreads(call: &Call, floats: &mut [Vec<f64>; 5], words: &mut [Vec<u64>; 8]) -> SoundAnswer {
    let [base, system, elimination, memory, vectors] = floats;
    let [numbers, places, passes, counts, plus, minus, sound_plus, sound_minus] = words;
    let (nodes, sources, unknown) = (call.nodes as usize, call.sources as usize, call.unknown as usize);
    // the buffers have a guard behind what is lent
    let (f, w) = (call.floats, call.words);
    if call.sound {
        let t = &call.tolerances;
        return lend!(savrunte_sound_spreads,
            [call.sheets, call.points, t], [call.jobs, nodes, sources, unknown, call.options],
            base: f[0], system: f[1], elimination: f[2], memory: f[3], vectors: f[4],
            numbers: w[0], places: w[1], passes: w[2], counts: w[3], plus: w[4], minus: w[5],
            sound_plus: w[6], sound_minus: w[7]);
    }
    let a = lend!(savrunte_spreads, [call.sheets, call.points], [call.jobs, nodes, sources, unknown, call.options],
        base: f[0], system: f[1], elimination: f[2], memory: f[3], vectors: f[4],
        numbers: w[0], places: w[1], passes: w[2], counts: w[3], plus: w[4], minus: w[5]);
    let SpreadsAnswer { refusal, settled, smallest, largest, smallest_at, largest_at } = a;
    SoundAnswer { refusal, settled, smallest, largest, smallest_at, largest_at, ..SoundAnswer::default() }
}

/// All spreads in one call: the whole report, buffers included.
pub fn spreads(call: &Call) -> Option<Report> {
    let (mut floats, mut words) = (call.lent_floats(), call.lent_words());
    let answer = call_spreads(call, &mut floats, &mut words);
    Some(Report { answer, floats, words })
}

/// The refusal; the matrix is scratch, the vector holds the solution.
pub fn solve(n: usize, matrix: &mut [f64], vector: &mut [f64]) -> Option<u64> {
    Some(unsafe { savrunte_solve(matrix.as_mut_ptr(), matrix.len(), vector.as_mut_ptr(), vector.len(), n) })
}

/// Refusal and state (0 yes, 1 no, 2 error).
pub fn convergence(x: &[f64], y: &[f64], nodes: u64, o: &Options) -> Option<(u64, u64)> {
    let a = unsafe { savrunte_convergence(x.as_ptr(), x.len(), y.as_ptr(), y.len(), nodes as usize, *o) };
    Some((a.refusal, a.state))
}

/// 0, or 1 + the place of the first diode that is behind.
pub fn behind(sheet: &[u8], vector: &[f64], memory: &[f64], o: &Options) -> Option<u64> {
    let (s, v, m) = (sheet.as_ptr(), vector.as_ptr(), memory.as_ptr());
    Some(unsafe { savrunte_behind(s, sheet.len(), v, vector.len(), m, memory.len(), *o) })
}

/// Refusal and row.
pub fn judge(system: &[f64], x: &[f64], tolerances: &[f64], rows: usize) -> Option<(u64, u64)> {
    let (s, v, t) = (system.as_ptr(), x.as_ptr(), tolerances.as_ptr());
    let a = unsafe { savrunte_judge(s, system.len(), v, x.len(), t, tolerances.len(), rows) };
    Some((a.refusal, a.row))
}

pub fn pattern(points: &[u8], t_delay: f64, repeat: f64, t: f64) -> Option<f64> {
    Some(unsafe { savrunte_pattern(points.as_ptr(), points.len(), t_delay, repeat, t) })
}

/// The same by the rule of the option on.
pub fn pattern_first(points: &[u8], t_delay: f64, repeat: f64, t: f64) -> Option<f64> {
    Some(unsafe { savrunte_pattern_first(points.as_ptr(), points.len(), t_delay, repeat, t) })
}

pub fn capacitor(value: f64, v: f64, step: f64) -> Option<(f64, f64)> {
    let a = unsafe { savrunte_capacitor(value, v, step) };
    Some((a.g, a.i))
}

/// Verdict, then conductance, current and memory.
pub fn diode(i_sat: f64, tdegc: f64, v: f64, memory: f64, o: &Options) -> Option<(u64, [f64; 3])> {
    let a = unsafe { savrunte_diode(i_sat, tdegc, v, memory, *o) };
    Some((a.verdict, [a.g, a.i, a.memory]))
}

fn exp(x: f64) -> f64 {
    unsafe { savrunte_exp(x) }
}

fn ln(x: f64) -> f64 {
    unsafe { savrunte_ln(x) }
}

fn sin(x: f64) -> Option<f64> {
    let a = unsafe { savrunte_sin(x) };
    if a.refusal == 0 {
        Some(a.value)
    } else {
        None
    }
}

pub const LINKED: bool = true;

/// The shipped exp, ln and sin.
pub const OURS: Functions = Functions { exp, ln, sin };
