//! Safe calls into Savrunte, a proved circuit engine.
//!
//! Slices go in, an enum comes out. A call refuses with a [`Refusal`] and changes nothing that was lent to it, or it runs and
//! ends with exactly one [`Verdict`].
//!
//! What is assumed; where it does not hold, nothing is promised:
//!
//! - The default floating-point environment, as a program starts: round to nearest, no exception traps, subnormal numbers kept
//!   (neither flush-to-zero nor denormals-are-zero, which C code linked with `-ffast-math` can set for the whole process). The
//!   archive is x86-64 code, for a processor of level x86-64-v2 or above, with SSE2 doubles: no x87, so no excess precision, and no fused multiply-add.
//! - Stack. A run (DC, transient, spreads) takes up to 26 KiB, every other call less than 2 KiB. Where the dynamic linker binds
//!   `memcpy` and `memset` at their first call, that call takes a few KiB more. Leave 32 KiB.
//!
//! Calls from several threads are safe: there is no global state. That lent buffers overlap neither each other nor what is read,
//! which the header asks of a C caller, the borrow checker sees to.
//!
//! A divider: 4 V at node 1, two resistors of 1 ohm in a row.
//!
//! ```
//! use savrunte::{dc_operating_point, Dc, Lent, Options, Record, Verdict};
//!
//! let sheet = Record::sheet(&[
//!     Record::V { p: 1, n: 0, value: 4.0, source: 0 },
//!     Record::R { p: 1, n: 2, value: 1.0 },
//!     Record::R { p: 2, n: 0, value: 1.0 },
//! ]);
//! let mut lent = Lent::new(3, 1, 3);
//! let answer = dc_operating_point(&sheet, &[], 3, 1, Options::bench(), &mut lent.buffers());
//! assert_eq!(answer, Dc::Ended { verdict: Verdict::Settled, passes: 2, behind: None });
//! assert_eq!(lent.vector, [0.0, 4.0, 2.0, -2.0]);
//! ```
//!
//! A diode is *behind* when the voltage v across it in the last solved vector is not within |v| RELTOL + VNTOL of what it remembers,
//! the voltage that its limiting let through last. A run can settle with a diode behind, at a vector that is no solution for it, as the
//! Rust engine does. Answers name the first such record; with the option `catchup` a run waits until there is none:
//!
//! ```
//! use savrunte::{dc_operating_point, Dc, Lent, Options, Record, Verdict};
//!
//! let sheet = Record::sheet(&[
//!     Record::V { p: 1, n: 0, value: 5.0, source: 0 },
//!     Record::R { p: 1, n: 2, value: 1000.0 },
//!     Record::D { p: 2, n: 0, i_sat: 1e-12, tdegc: 27.0 },
//! ]);
//! let run = |catchup| {
//!     let mut lent = Lent::new(3, 1, 3);
//!     let options = Options { catchup, ..Options::bench() };
//!     (dc_operating_point(&sheet, &[], 3, 1, options, &mut lent.buffers()), lent.vector[2])
//! };
//! let (answer, volt) = run(0);
//! assert_eq!(answer, Dc::Ended { verdict: Verdict::Settled, passes: 2, behind: Some(2) });
//! assert!((volt - 4.99998).abs() < 1e-5);
//! let (answer, volt) = run(1);
//! assert_eq!(answer, Dc::Ended { verdict: Verdict::Settled, passes: 7, behind: None });
//! assert!((volt - 0.7447).abs() < 1e-4);
//! ```
//!
//! A pattern whose first point is at time 0 with a level other than 0, as a bias ramp's, has a NaN for its level there, as in the Rust
//! engine. With the option `pattern_first` it has its first level there, and without repeat its last level from its end on:
//!
//! ```
//! use savrunte::{pattern, pattern_first, points};
//!
//! let ramp = points(&[(0.0, 3.0), (1.0, 4.0)]);
//! assert!(pattern(&ramp, 0.0, -1.0, 0.0).is_nan());
//! assert_eq!([0.0, 0.5, 1.0, 7.0].map(|t| pattern_first(&ramp, 0.0, -1.0, t)), [3.0, 3.5, 4.0, 4.0]);
//! ```
//!
//! An inductor is a short at DC. Its current is its float of the memory, after the DC run and after every accepted step of a transient.
//! Here 8 V come on in the first second, through half an ohm into half a henry:
//!
//! ```
//! use savrunte::{points, transient_analysis, Lent, Options, Record};
//!
//! let sheet = Record::sheet(&[
//!     Record::Vpwl { p: 1, n: 0, t_delay: 0.0, repeat: -1.0, first: 0, count: 3, source: 1 },
//!     Record::R { p: 1, n: 2, value: 0.5 },
//!     Record::L { p: 2, n: 0, value: 0.5, source: 0 },
//! ]);
//! let level = points(&[(0.0, 0.0), (1.0, 8.0), (100.0, 8.0)]);
//! let (mut lent, mut rows) = (Lent::new(3, 2, 3), [0.0; 4 * 6]);
//! transient_analysis(&sheet, &level, 3, 2, Options::bench(), &mut lent.buffers(), &mut rows);
//! assert_eq!([9, 15, 21].map(|at| rows[at]), [4.0, 2.0, 1.0]); // volts across the inductor, step by step
//! assert_eq!(lent.memory[2], 14.0); // amperes through it in the end
//! ```

mod raw;
mod record;
mod sound;
mod spreads;
mod words;

pub use raw::Options;
pub use record::{points, Record};
pub use sound::{sound_spreads, Cause, Sound, SoundBuffers, SoundLent, SoundReport, SoundSpread};
pub use spreads::{spreads, ExactSum, Extreme, Outcome, Report, Spread, Spreads, SpreadsBuffers, SpreadsLent, Values};
pub use words::{Refusal, Verdict};

/// What a run is lent: the buffers of the header's `savrunte_dc`, of any length. Too short a buffer is refused by 5. The memory has a float for
/// each record: a diode's last limited voltage, an inductor's current. A run first sets those of diodes and inductors to 0.0; the others stay.
pub struct Buffers<'a> {
    pub base: &'a mut [f64],
    pub system: &'a mut [f64],
    pub elimination: &'a mut [f64],
    pub vector: &'a mut [f64],
    pub memory: &'a mut [f64],
}

/// Buffers of the very lengths that a run of these counts asks for.
#[derive(Clone, Debug, PartialEq)]
pub struct Lent {
    pub base: Vec<f64>,
    pub system: Vec<f64>,
    pub elimination: Vec<f64>,
    pub vector: Vec<f64>,
    pub memory: Vec<f64>,
}

impl Lent {
    /// Buffers for so many nodes (ground included), sources and records.
    pub fn new(nodes: usize, sources: usize, records: usize) -> Lent {
        let n = nodes + sources;
        let cells = n * (n + 1);
        Lent {
            base: vec![0.0; cells],
            system: vec![0.0; cells],
            elimination: vec![0.0; cells],
            vector: vec![0.0; n],
            memory: vec![0.0; records],
        }
    }

    pub fn buffers(&mut self) -> Buffers<'_> {
        Buffers {
            base: &mut self.base,
            system: &mut self.system,
            elimination: &mut self.elimination,
            vector: &mut self.vector,
            memory: &mut self.memory,
        }
    }
}

/// How a DC run went.
#[derive(Clone, Copy, Debug, PartialEq)]
pub enum Dc {
    /// Nothing was changed. `place` is the faulty record, counted from 0, for the refusals of a record, else 0.
    Refused { refusal: Refusal, place: usize },
    /// `behind` is the first diode, as a record counted from 0, that is behind in the last solved vector, whatever the verdict.
    Ended { verdict: Verdict, passes: u64, behind: Option<usize> },
}

/// How a transient run went.
#[derive(Clone, Copy, Debug, PartialEq)]
pub enum Transient {
    Refused { refusal: Refusal, place: usize },
    /// `behind` as of [`Dc`]: it speaks of the last vector alone, not of those before it.
    Ended { verdict: Verdict, dc_verdict: Verdict, passes: u64, rows: usize, end: f64, behind: Option<usize> },
}

/// What two vectors say of each other. The last place that is not finite (error) or differs by more than its tolerance (no)
/// decides; without one it is yes.
#[derive(Clone, Copy, Debug, PartialEq, Eq)]
pub enum Convergence {
    Refused(Refusal),
    Yes,
    No,
    Error,
}

/// What the judge says of a vector.
#[derive(Clone, Copy, Debug, PartialEq, Eq)]
pub enum Judgement {
    Refused(Refusal),
    Accepted,
    /// The first row, counted from 0, whose exact residual is not within its tolerance.
    Rejected { row: usize },
}

/// The companion model of a diode, and what it remembers.
#[derive(Clone, Copy, Debug, PartialEq)]
pub enum Diode {
    Linear { g: f64, i: f64, memory: f64 },
    /// The current is not finite (verdict 22): there is no model, and the diode keeps what it remembers.
    NotFinite,
}

/// The DC operating point of a sheet.
pub fn dc_operating_point(sheet: &[u8], points: &[u8], nodes: usize, sources: usize, options: Options, lent: &mut Buffers) -> Dc {
    let r = unsafe {
        raw::savrunte_dc(
            sheet.as_ptr(), sheet.len(), points.as_ptr(), points.len(), nodes, sources, options,
            lent.base.as_mut_ptr(), lent.base.len(),
            lent.system.as_mut_ptr(), lent.system.len(),
            lent.elimination.as_mut_ptr(), lent.elimination.len(),
            lent.vector.as_mut_ptr(), lent.vector.len(),
            lent.memory.as_mut_ptr(), lent.memory.len(),
        )
    };
    match Refusal::of(r.refusal) {
        Some(refusal) => Dc::Refused { refusal, place: r.place as usize },
        None => Dc::Ended { verdict: Verdict::of(r.verdict), passes: r.passes, behind: named(r.behind) },
    }
}

/// The transient of a sheet. `rows` takes rows of N + 1 floats, the time and then the vector.
pub fn transient_analysis(sheet: &[u8], points: &[u8], nodes: usize, sources: usize, options: Options, lent: &mut Buffers, rows: &mut [f64]) -> Transient {
    let r = unsafe {
        raw::savrunte_transient(
            sheet.as_ptr(), sheet.len(), points.as_ptr(), points.len(), nodes, sources, options,
            lent.base.as_mut_ptr(), lent.base.len(),
            lent.system.as_mut_ptr(), lent.system.len(),
            lent.elimination.as_mut_ptr(), lent.elimination.len(),
            lent.vector.as_mut_ptr(), lent.vector.len(),
            lent.memory.as_mut_ptr(), lent.memory.len(),
            rows.as_mut_ptr(), rows.len(),
        )
    };
    match Refusal::of(r.refusal) {
        Some(refusal) => Transient::Refused { refusal, place: r.place as usize },
        None => Transient::Ended {
            verdict: Verdict::of(r.verdict),
            dc_verdict: Verdict::of(r.dc_verdict),
            passes: r.passes,
            rows: r.rows as usize,
            end: r.end,
            behind: named(r.behind),
        },
    }
}

/// A record by its number, which is 1 + its place; 0 is none.
fn named(number: u64) -> Option<usize> {
    number.checked_sub(1).map(|place| place as usize)
}

/// Elimination and back substitution of `rows` rows by `rows` + 1 columns, to the bits of the Rust engine.
pub fn solve(matrix: &mut [f64], vector: &mut [f64], rows: usize) -> Result<(), Refusal> {
    let r = unsafe { raw::savrunte_solve(matrix.as_mut_ptr(), matrix.len(), vector.as_mut_ptr(), vector.len(), rows) };
    match Refusal::of(r) {
        Some(refusal) => Err(refusal),
        None => Ok(()),
    }
}

/// Compares two vectors, places below `nodes` as voltages and the others as currents.
pub fn convergence_check(x: &[f64], y: &[f64], nodes: usize, options: Options) -> Convergence {
    let r = unsafe { raw::savrunte_convergence(x.as_ptr(), x.len(), y.as_ptr(), y.len(), nodes, options) };
    match (Refusal::of(r.refusal), r.state) {
        (Some(refusal), _) => Convergence::Refused(refusal),
        (None, 0) => Convergence::Yes,
        (None, 1) => Convergence::No,
        (None, _) => Convergence::Error,
    }
}

/// The first diode of a sheet, as a record counted from 0, that is behind in a vector with this memory; RELTOL and VNTOL of the options
/// count. A number past the end of the vector or the memory is a NaN, and with a NaN a diode is behind. A record that is no diode, or
/// that a run would refuse by 6 or 7, is never behind.
pub fn behind(sheet: &[u8], vector: &[f64], memory: &[f64], options: Options) -> Option<usize> {
    named(unsafe {
        raw::savrunte_behind(sheet.as_ptr(), sheet.len(), vector.as_ptr(), vector.len(), memory.as_ptr(), memory.len(), options)
    })
}

/// The exact judge: accepts when every row's residual, added up without rounding, is within its tolerance.
pub fn judge(system: &[f64], vector: &[f64], tolerances: &[f64], rows: usize) -> Judgement {
    let r = unsafe {
        raw::savrunte_judge(system.as_ptr(), system.len(), vector.as_ptr(), vector.len(), tolerances.as_ptr(), tolerances.len(), rows)
    };
    match Refusal::of(r.refusal) {
        Some(refusal) => Judgement::Refused(refusal),
        None if r.row == rows as u64 => Judgement::Accepted,
        None => Judgement::Rejected { row: r.row as usize },
    }
}

/// The exponential: 0 below -708, infinity above 709.
pub fn exp(x: f64) -> f64 {
    unsafe { raw::savrunte_exp(x) }
}

/// The natural logarithm.
pub fn ln(x: f64) -> f64 {
    unsafe { raw::savrunte_ln(x) }
}

/// The sine; refused when the argument is finite and beyond 2^20 in size.
pub fn sin(x: f64) -> Result<f64, Refusal> {
    let r = unsafe { raw::savrunte_sin(x) };
    match Refusal::of(r.refusal) {
        Some(refusal) => Err(refusal),
        None => Ok(r.value),
    }
}

/// The level at time `t` of a pattern over all the points given.
pub fn pattern(points: &[u8], t_delay: f64, repeat: f64, t: f64) -> f64 {
    unsafe { raw::savrunte_pattern(points.as_ptr(), points.len(), t_delay, repeat, t) }
}

/// The same where the option `pattern_first` is on: up to the first point's own time that point's level, without repeat from the last
/// point's time on the last level, before the delay 0.
pub fn pattern_first(points: &[u8], t_delay: f64, repeat: f64, t: f64) -> f64 {
    unsafe { raw::savrunte_pattern_first(points.as_ptr(), points.len(), t_delay, repeat, t) }
}

/// The companion model of a capacitor: conductance and current.
pub fn capacitor(value: f64, v: f64, step: f64) -> (f64, f64) {
    let r = unsafe { raw::savrunte_capacitor(value, v, step) };
    (r.g, r.i)
}

/// The companion model of a diode at voltage `v`, from what it remembers. It stands at `v` or at a voltage limited from it, which is
/// the new memory: by one formula for each of five situations, which docs/DIODE.md explains.
pub fn diode(i_sat: f64, tdegc: f64, v: f64, memory: f64, options: Options) -> Diode {
    let r = unsafe { raw::savrunte_diode(i_sat, tdegc, v, memory, options) };
    if r.verdict != 0 {
        return Diode::NotFinite;
    }
    Diode::Linear { g: r.g, i: r.i, memory: r.memory }
}

#[cfg(test)]
mod tests {
    use super::{raw, Options};

    /// With 22 there is no model, and the memory is the one handed in.
    #[test]
    fn a_failed_diode_keeps_its_memory() {
        let r = unsafe { raw::savrunte_diode(f64::INFINITY, 27.0, 0.5, 0.25, Options::bench()) };
        assert_eq!((r.verdict, r.g, r.i, r.memory), (22, 0.0, 0.0, 0.25));
    }
}
