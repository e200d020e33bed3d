//! A job and its answer. form.rs has their bytes.

pub use crate::raw::{Options, BOLTZMANN, CHARGE, GMIN};
use std::convert::TryInto;

pub const RECORD: usize = 40;
/// The kind that the Rust has not: an inductor, here called a coil.
pub const COIL: u8 = 11;
pub const POINT: usize = 16;

/// How many words the options have. The floats come first, then the counts, of which the budget cannot be 0.
pub const OPTIONS: usize = std::mem::size_of::<Options>() / 8;
pub const COUNTS_AT: usize = 13;
pub const BUDGET: usize = 16;

pub const OPTION_NAMES: [&str; OPTIONS] = [
    "reltol",
    "vntol",
    "abstol",
    "tstart",
    "tstop",
    "tstep",
    "fs",
    "ft",
    "rmin",
    "rmax",
    "gmin",
    "boltzmann",
    "charge",
    "itl1",
    "itl3",
    "itl4",
    "budget",
    "catchup",
    "pattern_first",
];

impl Options {
    /// The bench's usual numbers: those that the Rust crate starts from, with another clock and other counts.
    pub fn usual() -> Options {
        Options {
            tstop: 1.0,
            tstep: 0.1,
            rmin: 0.001,
            rmax: 5.0,
            itl1: 50,
            itl3: 6,
            itl4: 50,
            budget: 2000,
            ..Options::bench()
        }
    }

    /// The fields in their order, floats by their bits.
    pub fn words(&self) -> [u64; OPTIONS] {
        // every field is a float or a word of 8 bytes, and any bits are one of either
        unsafe { std::mem::transmute(*self) }
    }

    pub fn of_words(words: [u64; OPTIONS]) -> Options {
        unsafe { std::mem::transmute(words) }
    }
}

/// The lent buffers, in the order of the C door.
pub const BUFFERS: [&str; 6] = ["base", "system", "elimination", "vector", "memory", "rows"];
pub const BASE: usize = 0;
pub const SYSTEM: usize = 1;
pub const ELIMINATION: usize = 2;
pub const VECTOR: usize = 3;
pub const MEMORY: usize = 4;
pub const ROWS: usize = 5;

/// What float `index` of a buffer holds before the call: finite, and no two alike.
pub fn untouched(buffer: usize, index: usize) -> f64 {
    f64::from_bits(0x4000_0000_0000_0000 + ((buffer as u64 + 1) << 40) + index as u64)
}

/// A buffer as it is lent.
pub fn lent(buffer: usize, length: usize) -> Vec<f64> {
    (0..length).map(|i| untouched(buffer, i)).collect()
}

#[derive(Clone, Debug)]
pub struct Job {
    pub transient: bool,
    pub nodes: u64,
    pub sources: u64,
    pub options: Options,
    pub sheet: Vec<u8>,
    pub points: Vec<u8>,
    /// Lengths of the lent buffers in floats.
    pub lengths: [usize; 6],
}

/// What came back: the numbers, and every lent buffer afterwards.
#[derive(Clone, Debug)]
pub struct Answer {
    pub refusal: u64,
    pub place: u64,
    pub verdict: u64,
    pub dc_verdict: u64,
    pub passes: u64,
    pub rows: u64,
    pub end: f64,
    /// 0, or 1 + the place of the first diode that is behind; None in a stored answer that does not tell it.
    pub behind: Option<u64>,
    pub buffers: [Vec<f64>; 6],
}

impl Answer {
    /// The answer of a call that changed nothing.
    pub fn refused(job: &Job, refusal: u64, place: u64) -> Answer {
        let (verdict, dc_verdict, passes, rows, behind) = (0, 0, 0, 0, Some(0));
        Answer { refusal, place, verdict, dc_verdict, passes, rows, end: 0.0, behind, buffers: job.lent() }
    }

    /// A word for tables: the refusal or the verdict.
    pub fn outcome(&self) -> String {
        if self.refusal != 0 {
            format!("refusal {}", self.refusal)
        } else {
            format!("verdict {}", self.verdict)
        }
    }
}

/// One record's fields, as document 01 places them.
#[derive(Clone, Copy, Debug, PartialEq)]
pub struct Element {
    pub kind: u8,
    pub zero: u8,
    pub a: u16,
    pub b: u16,
    pub cp: u16,
    pub cn: u16,
    pub source: u16,
    pub first: u16,
    pub count: u16,
    pub value: [f64; 3],
}

impl Element {
    pub fn new(kind: u8, a: usize, b: usize) -> Element {
        Element {
            kind,
            zero: 0,
            a: a as u16,
            b: b as u16,
            cp: 0,
            cn: 0,
            source: 0,
            first: 0,
            count: 0,
            value: [0.0; 3],
        }
    }

    pub fn read(r: &[u8]) -> Element {
        let u = |at: usize| u16::from_le_bytes(r[at..at + 2].try_into().unwrap());
        let f = |at: usize| f64::from_le_bytes(r[at..at + 8].try_into().unwrap());
        Element {
            kind: r[0],
            zero: r[1],
            a: u(2),
            b: u(4),
            cp: u(6),
            cn: u(8),
            source: u(10),
            first: u(12),
            count: u(14),
            value: [f(16), f(24), f(32)],
        }
    }

    pub fn bytes(&self) -> [u8; RECORD] {
        let mut r = [0u8; RECORD];
        r[0] = self.kind;
        r[1] = self.zero;
        for (i, x) in [self.a, self.b, self.cp, self.cn, self.source, self.first, self.count].iter().enumerate() {
            r[2 + 2 * i..4 + 2 * i].copy_from_slice(&x.to_le_bytes());
        }
        for (i, x) in self.value.iter().enumerate() {
            r[16 + 8 * i..24 + 8 * i].copy_from_slice(&x.to_le_bytes());
        }
        r
    }

    pub fn has_source(&self) -> bool {
        matches!(self.kind, 3 | 6 | 7 | 9) || self.is_coil()
    }

    pub fn is_coil(&self) -> bool {
        self.kind == COIL
    }

    pub fn has_controls(&self) -> bool {
        matches!(self.kind, 9 | 10)
    }
}

impl Job {
    pub fn lent(&self) -> [Vec<f64>; 6] {
        let l = &self.lengths;
        [lent(0, l[0]), lent(1, l[1]), lent(2, l[2]), lent(3, l[3]), lent(4, l[4]), lent(5, l[5])]
    }

    /// The whole records of the sheet.
    pub fn elements(&self) -> Vec<Element> {
        self.sheet.chunks_exact(RECORD).map(Element::read).collect()
    }

    pub fn set_elements(&mut self, elements: &[Element]) {
        self.sheet = elements.iter().flat_map(|e| e.bytes().to_vec()).collect();
    }

    /// The whole points.
    pub fn pattern(&self) -> Vec<(f64, f64)> {
        let f = |b: &[u8]| f64::from_le_bytes(b.try_into().unwrap());
        self.points.chunks_exact(POINT).map(|p| (f(&p[..8]), f(&p[8..]))).collect()
    }

    pub fn set_pattern(&mut self, points: &[(f64, f64)]) {
        self.points = points.iter().flat_map(|p| [p.0.to_le_bytes(), p.1.to_le_bytes()].concat()).collect();
    }

    /// Lends exactly what the call needs, with room for so many rows.
    pub fn fit(&mut self, rows: usize) {
        let n = (self.nodes + self.sources) as usize;
        let records = self.sheet.len() / RECORD;
        let rows = if self.transient { rows * (n + 1) } else { 0 };
        self.lengths = [n * (n + 1), n * (n + 1), n * (n + 1), n, records, rows];
    }

    /// Whether counts and constants are the Rust's own.
    pub fn own_numbers(&self) -> bool {
        let elements = self.elements();
        let mut seen = [false; 65536];
        seen[0] = true;
        let mut sources = 0;
        for e in &elements {
            seen[e.a as usize] = true;
            seen[e.b as usize] = true;
            if e.has_controls() {
                seen[e.cp as usize] = true;
                seen[e.cn as usize] = true;
            }
            if e.has_source() {
                sources += 1;
            }
        }
        self.nodes == seen.iter().filter(|s| **s).count() as u64
            && self.sources == sources
            && self.options.gmin.to_bits() == GMIN
            && self.options.boltzmann.to_bits() == BOLTZMANN
            && self.options.charge.to_bits() == CHARGE
    }
}
