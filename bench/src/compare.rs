//! Two answers held side by side, field by field.

use crate::job::*;
use crate::oracle::Seen;

#[derive(Clone, Debug)]
pub struct Difference {
    pub field: &'static str,
    pub place: usize,
    pub left: u64,
    pub right: u64,
    pub float: bool,
}

/// Equal bits, or a NaN beside a NaN.
pub fn same(a: f64, b: f64) -> bool {
    a.to_bits() == b.to_bits() || (a.is_nan() && b.is_nan())
}

/// What the two sides can be held to.
#[derive(Clone, Copy)]
pub struct Scope {
    pub end: bool,
    pub elimination: bool,
}

pub const ALL: Scope = Scope { end: true, elimination: true };

pub struct Differences(pub Vec<Difference>);

impl Differences {
    fn number(&mut self, field: &'static str, left: u64, right: u64) {
        if left != right {
            self.0.push(Difference { field, place: 0, left, right, float: false });
        }
    }

    fn float(&mut self, field: &'static str, place: usize, left: f64, right: f64) {
        if !same(left, right) {
            self.0.push(Difference { field, place, left: left.to_bits(), right: right.to_bits(), float: true });
        }
    }

    fn floats(&mut self, field: &'static str, left: &[f64], right: &[f64]) {
        self.number(field, left.len() as u64, right.len() as u64);
        for (place, (l, r)) in left.iter().zip(right).enumerate() {
            self.float(field, place, *l, *r);
        }
    }
}

/// Every field in which two whole answers differ.
pub fn compare(job: &Job, left: &Answer, right: &Answer, scope: Scope) -> Vec<Difference> {
    let mut d = Differences(Vec::new());
    d.number("refusal", left.refusal, right.refusal);
    d.number("place", left.place, right.place);
    d.number("verdict", left.verdict, right.verdict);
    d.number("DC verdict", left.dc_verdict, right.dc_verdict);
    d.number("passes", left.passes, right.passes);
    d.number("row count", left.rows, right.rows);
    if scope.end {
        d.float("end", 0, left.end, right.end);
    }
    if let (Some(left), Some(right)) = (left.behind, right.behind) {
        d.number("behind", left, right);
    }
    for buffer in [BASE, SYSTEM, VECTOR, MEMORY, ROWS] {
        d.floats(BUFFERS[buffer], &left.buffers[buffer], &right.buffers[buffer]);
    }
    if scope.elimination {
        // scratch, but its rest stays, and all of it on a refusal
        let n = job.nodes.wrapping_add(job.sources) as usize;
        let scratch = if right.refusal != 0 { 0 } else { n * (n + 1) };
        d.floats("elimination", &left.buffers[ELIMINATION][scratch..], &right.buffers[ELIMINATION][scratch..]);
    }
    d.0
}

/// What the unmodified Rust tells, held beside a whole answer: statistics, verdicts, DC vector, rows.
pub fn compare_seen(job: &Job, seen: &Seen, vector: &[f64], right: &Answer) -> Vec<Difference> {
    let mut d = Differences(Vec::new());
    d.number("verdict", seen.verdict, right.verdict);
    d.number("passes", seen.passes, right.passes);
    let n = (job.nodes + job.sources) as usize;
    if job.transient {
        d.number("DC verdict", seen.dc_verdict, right.dc_verdict);
        d.number("row count", seen.record.row_count as u64, right.rows);
        d.float("end", 0, seen.end.unwrap_or(f64::NAN), right.end);
        let rows = &right.buffers[ROWS][..right.rows as usize * (n + 1)];
        let shorter = rows.len().min(seen.record.rows.len());
        d.floats("rows", &seen.record.rows[..shorter], &rows[..shorter]);
        if !rows.is_empty() {
            d.floats("vector", vector, &rows[1..n + 1]);
        }
    } else {
        d.floats("vector", vector, &right.buffers[VECTOR][..n]);
    }
    d.0
}

/// Steps from float to next float; None beside a NaN.
pub fn distance(a: f64, b: f64) -> Option<u64> {
    if a.is_nan() || b.is_nan() {
        return None;
    }
    let place = |x: f64| {
        let size = (x.to_bits() & (u64::MAX >> 1)) as i128;
        if x.is_sign_negative() {
            -size
        } else {
            size
        }
    };
    Some((place(a) - place(b)).abs() as u64)
}

pub fn show(d: &Difference) -> String {
    if d.float {
        let (l, r) = (f64::from_bits(d.left), f64::from_bits(d.right));
        format!("{}[{}]: {:e} ({:016x}) against {:e} ({:016x})", d.field, d.place, l, d.left, r, d.right)
    } else {
        format!("{}: {} against {}", d.field, d.left, d.right)
    }
}

fn float(x: f64) -> String {
    if x == x.trunc() && x.abs() < 1e15 {
        format!("{}", x)
    } else {
        format!("{:e}", x)
    }
}

/// The job in words, as short as may be.
pub fn describe(job: &Job) -> String {
    let mut s = format!(
        "{}, nodes {}, sources {}, lent {:?}",
        if job.transient { "transient" } else { "DC" },
        job.nodes,
        job.sources,
        job.lengths
    );
    let usual = Options::usual().words();
    for (i, w) in job.options.words().iter().enumerate() {
        if *w != usual[i] {
            let text = if i < COUNTS_AT { float(f64::from_bits(*w)) } else { format!("{}", w) };
            s += &format!(", {} {}", OPTION_NAMES[i], text);
        }
    }
    if job.sheet.len() % RECORD != 0 || job.points.len() % POINT != 0 {
        s += &format!(", sheet of {} bytes, points of {} bytes", job.sheet.len(), job.points.len());
    }
    let names = ["?", "R", "I", "V", "D", "Isin", "Vsin", "Vpwl", "C", "Vcvs", "Vccs", "L"];
    for e in job.elements().iter().take(60) {
        let name = names.get(e.kind as usize).unwrap_or(&"?");
        s += &format!("\n    {} ({}) {} {}", name, e.kind, e.a, e.b);
        if e.cp != 0 || e.cn != 0 {
            s += &format!(" controls {} {}", e.cp, e.cn);
        }
        if e.source != 0 {
            s += &format!(" source {}", e.source);
        }
        if e.first != 0 || e.count != 0 {
            s += &format!(" points {}+{}", e.first, e.count);
        }
        for v in e.value {
            s += &format!(" {}", float(v));
        }
    }
    if job.elements().len() > 60 {
        s += &format!("\n    .. {} records in all", job.elements().len());
    }
    let points = job.pattern();
    if !points.is_empty() {
        s += "\n    points";
        for (t, v) in points.iter().take(12) {
            s += &format!(" ({}, {})", float(*t), float(*v));
        }
    }
    s
}
