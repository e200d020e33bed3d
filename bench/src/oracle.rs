//! The published Rust as an oracle: `plain` is unmodified, `hooked` takes counts, constants
//! and functions from outside and tells its buffers, `quiet` and `timed` are for timing,
//! the one unmodified, the other with our functions.

use recorder::Record;

/// What a run of the Rust told.
pub struct Seen {
    pub verdict: u64,
    pub dc_verdict: u64,
    /// Passes as its statistics count them.
    pub passes: u64,
    /// None where the run was stopped.
    pub end: Option<f64>,
    /// Ended by a panic: its own (22) or one from outside (24, 25, 26).
    pub stopped: bool,
    pub record: Record,
}

pub mod plain {
    use spice_plain as spice;
    include!("driver.rs");

    /// Rows, statistics and, for DC, the vector.
    pub fn run(job: &Job) -> (Seen, Vec<f64>) {
        let (seen, engine) = drive(job, Record::new());
        (seen, engine.dc().unwrap_or_default())
    }

    /// The DC vector of an engine that has run the job before.
    pub fn second_time(job: &Job) -> Vec<f64> {
        recorder::begin(Record::new());
        let (circuit, configuration) = (circuit(job), configuration(&job.options));
        let mut engine = Engine::new();
        engine.dc_operating_point(&circuit, &configuration);
        engine.dc_operating_point(&circuit, &configuration);
        recorder::end();
        engine.dc().unwrap_or_default()
    }

    pub fn pattern(points: &[(f64, f64)], t_delay: f64, repeat: f64, t: f64) -> f64 {
        VoltageSourcePwl { p: 0, n: 0, pat: points.to_vec(), t_delay, repeat, idx: 0 }.evaluate(t)
    }

    pub fn capacitor(value: f64, v: f64, step: f64) -> (f64, f64) {
        Capacitor::new("", 0, 0, value).linearize(v, step)
    }
}

pub mod quiet {
    use spice_quiet as spice;
    include!("driver.rs");
    include!("timing.rs");
}

pub mod timed {
    use spice_timed as spice;
    include!("driver.rs");
    include!("timing.rs");
}

pub mod hooked {
    use spice_hooked as spice;
    include!("driver.rs");
    use crate::behind;
    use crate::model::{State, Wrong};
    use recorder::Functions;

    fn record(o: &Options, f: &Functions) -> Record {
        let mut r = Record::new();
        r.functions = *f;
        r.gmin = o.gmin;
        r.boltzmann = o.boltzmann;
        r.charge = o.charge;
        r
    }

    /// The answer of a job that is not refused. After a stop the end time is not known.
    pub fn run(job: &Job, f: &Functions) -> (Answer, bool) {
        let mut r = record(&job.options, f);
        let n = (job.nodes + job.sources) as usize;
        r.nodes = job.nodes as usize;
        r.sources = job.sources as usize;
        r.budget = job.options.budget;
        r.room = job.lengths[ROWS] / (n + 1);
        let (seen, engine) = drive(job, r);
        let mut a = Answer::refused(job, 0, 0);
        a.verdict = seen.verdict;
        if job.transient {
            // a stop before the first row is one in DC
            a.dc_verdict = if seen.stopped && seen.record.row_count == 0 { seen.verdict } else { seen.dc_verdict };
            a.end = seen.end.unwrap_or(0.0);
        }
        a.passes = if seen.stopped { seen.record.passes } else { seen.passes };
        a.rows = seen.record.row_count as u64;
        let zeros = |v: Vec<f64>, l: usize| if v.is_empty() { vec![0.0; l] } else { v };
        let system = zeros(seen.record.system, n * (n + 1));
        let solved = zeros(seen.record.solved, n);
        let diodes = engine.memories();
        a.buffers[BASE][..n * (n + 1)].copy_from_slice(&engine.base());
        a.buffers[SYSTEM][..n * (n + 1)].copy_from_slice(&system);
        a.buffers[VECTOR][..n].copy_from_slice(&solved);
        let places = job.elements().into_iter().enumerate().filter(|(_, e)| e.kind == 4);
        for ((k, _), v) in places.zip(diodes) {
            a.buffers[MEMORY][k] = v;
        }
        if job.elements().iter().any(|e| e.is_coil()) {
            with_coils(job, f, &mut a);
        }
        a.buffers[ROWS][..seen.record.rows.len()].copy_from_slice(&seen.record.rows);
        // the Rust does not ask, but it has the vector and the memory
        let behind =
            behind::first(&job.sheet, &a.buffers[VECTOR][..n], &a.buffers[MEMORY], &job.options, Wrong::Nothing);
        a.behind = Some(behind);
        (a, seen.stopped)
    }

    /// What a run of Vs of 0 lacks to one of coils, that ends before a step: the base, which they have no part in, is that of a run
    /// with capacitors in their place; and their memory is the current that DC leaves them.
    fn with_coils(job: &Job, f: &Functions, a: &mut Answer) {
        let mut open = job.clone();
        let elements: Vec<Element> = job.elements();
        let opened = |e: &Element| Element { value: e.value, ..Element::new(8, e.a as usize, e.b as usize) };
        open.set_elements(&elements.iter().map(|e| if e.is_coil() { opened(e) } else { *e }).collect::<Vec<Element>>());
        a.buffers[BASE] = run(&open, f).0.buffers[BASE].clone();
        let dc = if job.transient { a.dc_verdict } else { a.verdict };
        for (k, e) in elements.iter().enumerate().filter(|(_, e)| e.is_coil()) {
            let i = a.buffers[VECTOR][job.nodes as usize + e.source as usize];
            a.buffers[MEMORY][k] = if matches!(dc, 0 | 20 | 21) { i } else { 0.0 };
        }
    }

    /// The Rust's private `solve`.
    pub fn solve(n: usize, system: &[f64]) -> Vec<f64> {
        let rows = system.chunks(n + 1).map(|r| r.to_vec()).collect();
        Engine::with_counts(n, 0).solve_system(rows)
    }

    pub fn convergence(x: &[f64], y: &[f64], nodes: u64, o: &Options) -> State {
        match Engine::with_counts(nodes as usize, 0).convergence_check(x, y, &configuration(o)) {
            Ok(true) => State::Yes,
            Ok(false) => State::No,
            Err(_) => State::Error,
        }
    }

    /// Conductance, current and new memory; the memory alone where the Rust panics.
    pub fn diode(
        i_sat: f64,
        tdegc: f64,
        v: f64,
        memory: f64,
        o: &Options,
        f: &Functions,
    ) -> Result<(f64, f64, f64), f64> {
        recorder::begin(record(o, f));
        let d = Diode::new("", 0, 0, i_sat, tdegc);
        d.set_memory(memory);
        let r = std::panic::catch_unwind(std::panic::AssertUnwindSafe(|| d.linearize(v, 0.0)));
        recorder::end();
        r.map(|(g, i)| (g, i, d.memory())).map_err(|_| d.memory())
    }

    /// A sine source's value; None where the sine is refused.
    pub fn sine(vo: f64, va: f64, freq: f64, t: f64, f: &Functions) -> Option<f64> {
        recorder::begin(record(&Options::usual(), f));
        let s = CurrentSourceSine { p: 0, n: 0, vo, va, freq };
        let r = std::panic::catch_unwind(|| s.evaluate(t));
        recorder::end();
        r.ok()
    }
}
