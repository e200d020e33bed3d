//! Spreads told apart into sound jobs and others, each other one by its cause.

use crate::spreads::{Lists, LIMBS};
use crate::{raw, Options, Outcome, Refusal, SpreadsBuffers, SpreadsLent, Values, Verdict};

/// Causes 0 to 28 are counted.
const CAUSES: usize = 29;
/// The causes of jobs that settled, beside the judge's refusal.
const BEHIND: u64 = 27;
const REJECTED: u64 = 28;

/// What the call is lent: the buffers of [`spreads`](crate::spreads), of which `numbers` takes the causes and `counts` 29 words, and
/// the two rows of the sum over the sound jobs. Too short a buffer is refused by 5.
pub struct SoundBuffers<'a> {
    pub spreads: SpreadsBuffers<'a>,
    pub sound_plus: &'a mut [u64],
    pub sound_minus: &'a mut [u64],
}

/// Buffers of the very lengths that a call of these counts asks for.
#[derive(Clone, Debug, PartialEq)]
pub struct SoundLent {
    pub spreads: SpreadsLent,
    pub sound_plus: Vec<u64>,
    pub sound_minus: Vec<u64>,
}

impl SoundLent {
    /// Buffers for so many jobs, nodes (ground included), sources and records in each sheet.
    pub fn new(jobs: usize, nodes: usize, sources: usize, records: usize) -> SoundLent {
        let mut spreads = SpreadsLent::new(jobs, nodes, sources, records);
        spreads.counts = vec![0; CAUSES];
        SoundLent { spreads, sound_plus: vec![0; LIMBS], sound_minus: vec![0; LIMBS] }
    }

    pub fn buffers(&mut self) -> SoundBuffers<'_> {
        SoundBuffers { spreads: self.spreads.buffers(), sound_plus: &mut self.sound_plus, sound_minus: &mut self.sound_minus }
    }
}

/// How the call went. There is one for each call, so its size does not matter.
#[allow(clippy::large_enum_variant)]
#[derive(Clone, Debug, PartialEq)]
pub enum Sound<'a> {
    /// The whole call was refused, and nothing was changed.
    Refused(Refusal),
    Ran(SoundReport<'a>),
}

/// What the jobs came to, read from the buffers that were lent.
#[derive(Clone, Debug, PartialEq)]
pub struct SoundReport<'a> {
    /// The chosen unknown over the jobs that settled, sound or not: what [`spreads`](crate::spreads) reports.
    pub settled: Values<'a>,
    /// The chosen unknown over the sound jobs.
    pub sound: Values<'a>,
    /// How many jobs have each cause, 0 to 28; they add up to the jobs given.
    pub counts: &'a [u64],
    /// The jobs' vectors end to end.
    pub vectors: &'a [f64],
    lists: Lists<'a>,
}

/// Whether a job is sound, or the one cause why it is not: of those that hold, the first in this order.
#[derive(Clone, Copy, Debug, PartialEq, Eq)]
pub enum Cause {
    /// It settled, no diode is behind and, where tolerances are given, the judge accepts its vector.
    Sound,
    /// A record is faulty.
    Refused { refusal: Refusal, place: usize },
    /// It did not settle.
    Ended { verdict: Verdict },
    /// It settled, but this record, a diode, is behind.
    Behind { place: usize },
    /// It settled, but the judge refuses: a number is not finite, or a tolerance is below zero.
    NotJudged,
    /// It settled, but the exact residual of this row is not within its tolerance.
    Rejected { row: usize },
}

impl Cause {
    fn of(number: u64, place: u64) -> Cause {
        match (number, Outcome::of(number, place, 0)) {
            (0, _) => Cause::Sound,
            (BEHIND, _) => Cause::Behind { place: place as usize },
            (REJECTED, _) => Cause::Rejected { row: place as usize },
            (_, Outcome::Refused { refusal, place }) => Cause::Refused { refusal, place },
            _ if Refusal::of(number) == Some(Refusal::Number) => Cause::NotJudged,
            (_, Outcome::Ended { verdict, .. }) => Cause::Ended { verdict },
        }
    }

    /// The number, as the tables have it.
    pub fn number(self) -> u64 {
        match self {
            Cause::Sound => 0,
            Cause::Refused { refusal, .. } => refusal.number(),
            Cause::Ended { verdict } => verdict.number(),
            Cause::Behind { .. } => BEHIND,
            Cause::NotJudged => Refusal::Number.number(),
            Cause::Rejected { .. } => REJECTED,
        }
    }

    /// Whether the job's run settled, as [`spreads`](crate::spreads) counts it.
    pub fn settled(self) -> bool {
        matches!(self, Cause::Sound | Cause::Behind { .. } | Cause::NotJudged | Cause::Rejected { .. })
    }
}

/// One job of the call.
#[derive(Clone, Copy, Debug, PartialEq)]
pub struct SoundSpread<'a> {
    pub cause: Cause,
    /// Passes solved to the end; 0 where the job is refused.
    pub passes: u64,
    /// The last solved vector; zeros where the job is refused.
    pub vector: &'a [f64],
}

impl<'a> SoundReport<'a> {
    /// The jobs in the order given.
    pub fn jobs(&self) -> impl Iterator<Item = SoundSpread<'a>> + 'a {
        self.lists.jobs().map(|(number, place, passes, vector)| SoundSpread { cause: Cause::of(number, place), passes, vector })
    }

    /// How many jobs have the cause of this number.
    pub fn count(&self, number: u64) -> u64 {
        self.counts.get(number as usize).copied().unwrap_or(0)
    }
}

/// The jobs of [`spreads`](crate::spreads), each sound or with the one cause why it is not, and a report over the settled and one
/// over the sound ones.
///
/// `tolerances` are the judge's, one for each row, the same for every job; empty, nothing is judged. Fewer than N are refused by 5, of
/// more the first N count. All else is refused as there.
///
/// A diode behind 1 kOhm, under 5 V and under 0.5 V. Both settle, but the first at 4.99998 V, where its diode cannot be:
///
/// ```
/// use savrunte::{sound_spreads, Cause, Options, Record, Sound, SoundLent};
///
/// let job = |volt: f64| {
///     Record::sheet(&[
///         Record::V { p: 1, n: 0, value: volt, source: 0 },
///         Record::R { p: 1, n: 2, value: 1000.0 },
///         Record::D { p: 2, n: 0, i_sat: 1e-12, tdegc: 27.0 },
///     ])
/// };
/// let sheets = [job(5.0), job(0.5)].concat();
/// let mut lent = SoundLent::new(2, 3, 1, 3);
/// let report = match sound_spreads(&sheets, &[], &[1e-9; 4], 2, 3, 1, 2, Options::bench(), lent.buffers()) {
///     Sound::Ran(report) => report,
///     Sound::Refused(why) => panic!("{why}"),
/// };
/// assert_eq!((report.settled.jobs, report.sound.jobs), (2, 1));
/// let causes: Vec<Cause> = report.jobs().map(|job| job.cause).collect();
/// assert_eq!(causes, [Cause::Behind { place: 2 }, Cause::Sound]);
/// assert!(report.settled.mean() > 2.7 && report.sound.mean() < 0.5);
/// ```
#[allow(clippy::too_many_arguments)]
pub fn sound_spreads<'a>(sheets: &[u8], points: &[u8], tolerances: &[f64], jobs: usize, nodes: usize, sources: usize, unknown: usize, options: Options, lent: SoundBuffers<'a>) -> Sound<'a> {
    let SoundBuffers { spreads: lent, sound_plus, sound_minus } = lent;
    let r = unsafe {
        raw::savrunte_sound_spreads(
            sheets.as_ptr(), sheets.len(), points.as_ptr(), points.len(), tolerances.as_ptr(), tolerances.len(),
            jobs, nodes, sources, unknown, options,
            lent.base.as_mut_ptr(), lent.base.len(),
            lent.system.as_mut_ptr(), lent.system.len(),
            lent.elimination.as_mut_ptr(), lent.elimination.len(),
            lent.memory.as_mut_ptr(), lent.memory.len(),
            lent.vectors.as_mut_ptr(), lent.vectors.len(),
            lent.numbers.as_mut_ptr(), lent.numbers.len(),
            lent.places.as_mut_ptr(), lent.places.len(),
            lent.passes.as_mut_ptr(), lent.passes.len(),
            lent.counts.as_mut_ptr(), lent.counts.len(),
            lent.plus.as_mut_ptr(), lent.plus.len(),
            lent.minus.as_mut_ptr(), lent.minus.len(),
            sound_plus.as_mut_ptr(), sound_plus.len(),
            sound_minus.as_mut_ptr(), sound_minus.len(),
        )
    };
    if let Some(refusal) = Refusal::of(r.refusal) {
        return Sound::Refused(refusal);
    }
    let lists = Lists::of(lent.numbers, lent.places, lent.passes, lent.vectors, jobs, nodes + sources);
    Sound::Ran(SoundReport {
        settled: Values::new(r.settled, (r.smallest, r.smallest_at), (r.largest, r.largest_at), lent.plus, lent.minus),
        sound: Values::new(r.sound, (r.sound_smallest, r.sound_smallest_at), (r.sound_largest, r.sound_largest_at), sound_plus, sound_minus),
        counts: &lent.counts[..CAUSES],
        vectors: lists.vectors,
        lists,
    })
}
