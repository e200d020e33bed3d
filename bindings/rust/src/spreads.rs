//! All spreads in one call: up to 256 DC jobs of one circuit, and a report over them.

use crate::{raw, Dc, Options, Refusal, Verdict};

/// Numbers 0 to 26 are counted.
const NUMBERS: usize = 27;
/// Limbs in each half of the exact sum.
pub(crate) const LIMBS: usize = 66;

/// What the call is lent: the buffers of the header's `savrunte_spreads`, of any length. Too short a buffer is refused by 5.
pub struct SpreadsBuffers<'a> {
    pub base: &'a mut [f64],
    pub system: &'a mut [f64],
    pub elimination: &'a mut [f64],
    pub memory: &'a mut [f64],
    pub vectors: &'a mut [f64],
    pub numbers: &'a mut [u64],
    pub places: &'a mut [u64],
    pub passes: &'a mut [u64],
    pub counts: &'a mut [u64],
    pub plus: &'a mut [u64],
    pub minus: &'a mut [u64],
}

/// Buffers of the very lengths that a call of these counts asks for.
#[derive(Clone, Debug, PartialEq)]
pub struct SpreadsLent {
    pub base: Vec<f64>,
    pub system: Vec<f64>,
    pub elimination: Vec<f64>,
    pub memory: Vec<f64>,
    pub vectors: Vec<f64>,
    pub numbers: Vec<u64>,
    pub places: Vec<u64>,
    pub passes: Vec<u64>,
    pub counts: Vec<u64>,
    pub plus: Vec<u64>,
    pub minus: Vec<u64>,
}

impl SpreadsLent {
    /// Buffers for so many jobs, nodes (ground included), sources and records in each sheet.
    pub fn new(jobs: usize, nodes: usize, sources: usize, records: usize) -> SpreadsLent {
        let n = nodes + sources;
        let cells = n * (n + 1);
        SpreadsLent {
            base: vec![0.0; cells],
            system: vec![0.0; cells],
            elimination: vec![0.0; cells],
            memory: vec![0.0; records],
            vectors: vec![0.0; jobs * n],
            numbers: vec![0; jobs],
            places: vec![0; jobs],
            passes: vec![0; jobs],
            counts: vec![0; NUMBERS],
            plus: vec![0; LIMBS],
            minus: vec![0; LIMBS],
        }
    }

    pub fn buffers(&mut self) -> SpreadsBuffers<'_> {
        SpreadsBuffers {
            base: &mut self.base,
            system: &mut self.system,
            elimination: &mut self.elimination,
            memory: &mut self.memory,
            vectors: &mut self.vectors,
            numbers: &mut self.numbers,
            places: &mut self.places,
            passes: &mut self.passes,
            counts: &mut self.counts,
            plus: &mut self.plus,
            minus: &mut self.minus,
        }
    }
}

/// How the call went.
#[derive(Clone, Debug, PartialEq)]
pub enum Spreads<'a> {
    /// The whole call was refused, and nothing was changed.
    Refused(Refusal),
    Ran(Report<'a>),
}

/// What the jobs came to, read from the buffers that were lent.
#[derive(Clone, Debug, PartialEq)]
pub struct Report<'a> {
    /// Jobs that settled: the count behind smallest, largest and sum.
    pub settled: u64,
    /// Of the chosen unknown over the settled jobs, the earliest on a tie; none where no job settled.
    pub smallest: Option<Extreme>,
    pub largest: Option<Extreme>,
    /// The exact sum of the chosen unknown over the settled jobs.
    pub sum: ExactSum<'a>,
    /// How many jobs have each number, 0 to 26; they add up to the jobs given.
    pub counts: &'a [u64],
    /// The jobs' vectors end to end.
    pub vectors: &'a [f64],
    lists: Lists<'a>,
}

/// The chosen unknown over some of the jobs.
#[derive(Clone, Debug, PartialEq)]
pub struct Values<'a> {
    /// The jobs that count.
    pub jobs: u64,
    /// The earliest on a tie; none where no job counts.
    pub smallest: Option<Extreme>,
    pub largest: Option<Extreme>,
    pub sum: ExactSum<'a>,
}

impl<'a> Values<'a> {
    /// Of a count, the smallest and the largest with their jobs, and the two rows of the sum.
    pub(crate) fn new(jobs: u64, smallest: (f64, u64), largest: (f64, u64), plus: &'a [u64], minus: &'a [u64]) -> Values<'a> {
        let some = |(value, job): (f64, u64)| if jobs == 0 { None } else { Some(Extreme { value, job: job as usize }) };
        let sum = ExactSum { plus: &plus[..LIMBS], minus: &minus[..LIMBS] };
        Values { jobs, smallest: some(smallest), largest: some(largest), sum }
    }

    /// The exact mean, rounded once; 0.0 where no job counts.
    pub fn mean(&self) -> f64 {
        self.sum.over(self.jobs)
    }
}

/// What is returned for each job, list by list.
#[derive(Clone, Copy, Debug, PartialEq)]
pub(crate) struct Lists<'a> {
    pub numbers: &'a [u64],
    pub places: &'a [u64],
    pub passes: &'a [u64],
    pub vectors: &'a [f64],
    pub unknowns: usize,
}

impl<'a> Lists<'a> {
    /// Of a call that ran, so that the buffers are at least this long.
    pub fn of(numbers: &'a [u64], places: &'a [u64], passes: &'a [u64], vectors: &'a [f64], jobs: usize, unknowns: usize) -> Lists<'a> {
        Lists { numbers: &numbers[..jobs], places: &places[..jobs], passes: &passes[..jobs], vectors: &vectors[..jobs * unknowns], unknowns }
    }

    /// Number, place, passes and vector of each job.
    pub fn jobs(self) -> impl Iterator<Item = (u64, u64, u64, &'a [f64])> + 'a {
        let vectors = self.vectors.chunks_exact(self.unknowns);
        vectors.enumerate().map(move |(k, vector)| (self.numbers[k], self.places[k], self.passes[k], vector))
    }
}

/// A value of the chosen unknown, and the job where it stands.
#[derive(Clone, Copy, Debug, PartialEq)]
pub struct Extreme {
    pub value: f64,
    pub job: usize,
}

/// How one job went: what [`dc_operating_point`](crate::dc_operating_point) answers for it alone, less the diode that is behind, which
/// [`sound_spreads`](crate::sound_spreads) tells.
#[derive(Clone, Copy, Debug, PartialEq, Eq)]
pub enum Outcome {
    Refused { refusal: Refusal, place: usize },
    Ended { verdict: Verdict, passes: u64 },
}

impl From<Dc> for Outcome {
    fn from(answer: Dc) -> Outcome {
        match answer {
            Dc::Refused { refusal, place } => Outcome::Refused { refusal, place },
            Dc::Ended { verdict, passes, .. } => Outcome::Ended { verdict, passes },
        }
    }
}

impl Outcome {
    /// A job's number is its verdict, or its refusal by 6 to 10.
    pub(crate) fn of(number: u64, place: u64, passes: u64) -> Outcome {
        match Refusal::of(number) {
            Some(refusal @ (Refusal::Kind | Refusal::Unused | Refusal::Node | Refusal::Source | Refusal::Range)) => Outcome::Refused { refusal, place: place as usize },
            _ => Outcome::Ended { verdict: Verdict::of(number), passes },
        }
    }
}

/// One job of the call.
#[derive(Clone, Copy, Debug, PartialEq)]
pub struct Spread<'a> {
    pub answer: Outcome,
    /// The last solved vector; zeros where the job is refused.
    pub vector: &'a [f64],
}

impl<'a> Report<'a> {
    /// The jobs in the order given.
    pub fn jobs(&self) -> impl Iterator<Item = Spread<'a>> + 'a {
        self.lists.jobs().map(|(number, place, passes, vector)| Spread { answer: Outcome::of(number, place, passes), vector })
    }

    /// How many jobs ended so.
    pub fn ended(&self, verdict: Verdict) -> u64 {
        self.count(verdict.number())
    }

    /// How many jobs were refused so.
    pub fn refused(&self, refusal: Refusal) -> u64 {
        self.count(refusal.number())
    }

    /// The exact mean of the chosen unknown over the settled jobs, rounded once; 0.0 where no job settled.
    pub fn mean(&self) -> f64 {
        self.sum.over(self.settled)
    }

    fn count(&self, number: u64) -> u64 {
        self.counts.get(number as usize).copied().unwrap_or(0)
    }
}

/// A sum without any rounding: `plus` less `minus`, each 66 limbs of 64 bits, the lowest first, in units of 2^-2148.
#[derive(Clone, Copy, Debug, PartialEq, Eq)]
pub struct ExactSum<'a> {
    pub plus: &'a [u64],
    pub minus: &'a [u64],
}

impl ExactSum<'_> {
    /// The sum over a count, rounded once to the nearest float, ties to even; 0.0 for a count of 0 or from 2^32 on.
    pub fn over(&self, count: u64) -> f64 {
        unsafe { raw::savrunte_mean(self.plus.as_ptr(), self.plus.len(), self.minus.as_ptr(), self.minus.len(), count) }
    }
}

/// Up to 256 DC jobs in one call: the same counts, options and points for each, sheets of one length end to end.
///
/// `unknown` is the place in the vector that the report watches. Each job's answer and vector equal those of
/// [`dc_operating_point`](crate::dc_operating_point) on its own sheet. A job with a faulty record is counted under its refusal
/// and stops nothing. What is wrong with the whole call is refused: by 13 first (no job, more than 256, an unknown outside the
/// vector), then by 1 to 5.
///
/// Three spreads of a divider, and one whose second record names a node that is not there:
///
/// ```
/// use savrunte::{spreads, Options, Outcome, Record, Refusal, Spreads, SpreadsLent};
///
/// let divider = |ohm: f64, node: u16| {
///     Record::sheet(&[
///         Record::V { p: 1, n: 0, value: 4.0, source: 0 },
///         Record::R { p: 1, n: node, value: 1.0 },
///         Record::R { p: 2, n: 0, value: ohm },
///     ])
/// };
/// let sheets = [divider(3.0, 2), divider(1.0, 2), divider(1.0, 9), divider(7.0, 2)].concat();
/// let mut lent = SpreadsLent::new(4, 3, 1, 3);
/// let report = match spreads(&sheets, &[], 4, 3, 1, 2, Options::bench(), lent.buffers()) {
///     Spreads::Ran(report) => report,
///     Spreads::Refused(why) => panic!("{why}"),
/// };
/// assert_eq!(report.settled, 3);
/// assert_eq!(report.refused(Refusal::Node), 1);
/// assert_eq!(report.counts.iter().sum::<u64>(), 4);
/// assert_eq!(report.smallest.map(|e| (e.value, e.job)), Some((2.0, 1)));
/// assert_eq!(report.largest.map(|e| (e.value, e.job)), Some((3.5, 3)));
/// assert_eq!(report.mean(), 8.5 / 3.0);
/// for job in report.jobs() {
///     match job.answer {
///         Outcome::Ended { verdict, passes } => println!("{verdict} after {passes} passes: {:?}", job.vector),
///         Outcome::Refused { refusal, place } => println!("{refusal}, record {place}"),
///     }
/// }
/// ```
#[allow(clippy::too_many_arguments)]
pub fn spreads<'a>(sheets: &[u8], points: &[u8], jobs: usize, nodes: usize, sources: usize, unknown: usize, options: Options, lent: SpreadsBuffers<'a>) -> Spreads<'a> {
    let r = unsafe {
        raw::savrunte_spreads(
            sheets.as_ptr(), sheets.len(), points.as_ptr(), points.len(), jobs, nodes, sources, unknown, options,
            lent.base.as_mut_ptr(), lent.base.len(),
            lent.system.as_mut_ptr(), lent.system.len(),
            lent.elimination.as_mut_ptr(), lent.elimination.len(),
            lent.memory.as_mut_ptr(), lent.memory.len(),
            lent.vectors.as_mut_ptr(), lent.vectors.len(),
            lent.numbers.as_mut_ptr(), lent.numbers.len(),
            lent.places.as_mut_ptr(), lent.places.len(),
            lent.passes.as_mut_ptr(), lent.passes.len(),
            lent.counts.as_mut_ptr(), lent.counts.len(),
            lent.plus.as_mut_ptr(), lent.plus.len(),
            lent.minus.as_mut_ptr(), lent.minus.len(),
        )
    };
    if let Some(refusal) = Refusal::of(r.refusal) {
        return Spreads::Refused(refusal);
    }
    let values = Values::new(r.settled, (r.smallest, r.smallest_at), (r.largest, r.largest_at), lent.plus, lent.minus);
    let lists = Lists::of(lent.numbers, lent.places, lent.passes, lent.vectors, jobs, nodes + sources);
    Spreads::Ran(Report {
        settled: values.jobs,
        smallest: values.smallest,
        largest: values.largest,
        sum: values.sum,
        counts: &lent.counts[..NUMBERS],
        vectors: lists.vectors,
        lists,
    })
}
