//! What stands between the published Rust and the bench: it keeps the rows and the
//! prints that tell a verdict, and hands in counts, constants, budget and functions.

use std::cell::RefCell;

/// Why a run of the hooked build was stopped from outside.
#[derive(Clone, Copy, PartialEq, Debug)]
pub enum Stop {
    Budget,
    Room,
    Sine,
}

/// The functions that the hooked build calls in place of the library's.
#[derive(Clone, Copy)]
pub struct Functions {
    pub exp: fn(f64) -> f64,
    pub ln: fn(f64) -> f64,
    /// None where the sine is refused.
    pub sin: fn(f64) -> Option<f64>,
}

/// One run's record.
#[derive(Clone)]
pub struct Record {
    // handed in
    pub functions: Functions,
    pub nodes: usize,
    pub sources: usize,
    pub gmin: f64,
    pub boltzmann: f64,
    pub charge: f64,
    pub budget: u64,
    /// Rows that fit; the plain build is never stopped.
    pub room: usize,
    // kept
    pub rows: Vec<f64>,
    pub row_count: usize,
    pub dc_divergent: bool,
    pub dc_error: bool,
    pub step_error: bool,
    pub step_too_small: bool,
    pub passes: u64,
    pub system: Vec<f64>,
    pub solved: Vec<f64>,
}

fn library_sin(x: f64) -> Option<f64> {
    Some(x.sin())
}

/// The library's own functions.
pub const LIBRARY: Functions = Functions { exp: f64::exp, ln: f64::ln, sin: library_sin };

impl Record {
    pub fn new() -> Record {
        Record {
            functions: LIBRARY,
            nodes: 0,
            sources: 0,
            gmin: 0.0,
            boltzmann: 0.0,
            charge: 0.0,
            budget: u64::MAX,
            room: usize::MAX,
            rows: Vec::new(),
            row_count: 0,
            dc_divergent: false,
            dc_error: false,
            step_error: false,
            step_too_small: false,
            passes: 0,
            system: Vec::new(),
            solved: Vec::new(),
        }
    }
}

thread_local! {
    static NOW: RefCell<Record> = RefCell::new(Record::new());
}

/// Begins a run.
pub fn begin(record: Record) {
    NOW.with(|r| *r.borrow_mut() = record);
}

/// Ends a run and gives its record.
pub fn end() -> Record {
    NOW.with(|r| r.replace(Record::new()))
}

/// A print of the Rust, by its format text; four of them tell a verdict.
pub fn note(text: &str) {
    if !text.starts_with("*ERROR*") {
        return;
    }
    NOW.with(|r| {
        let mut r = r.borrow_mut();
        match text {
            "*ERROR* Divergent" => r.dc_divergent = true,
            "*ERROR* math gone bad during DC solve" => r.dc_error = true,
            "*ERROR* There was a numerical error" => r.step_error = true,
            "*ERROR* Internal timestep too small" => r.step_too_small = true,
            _ => {}
        }
    })
}

/// A row of the wave writer, bit for bit.
pub fn row(time: f64, vars: &[f64]) {
    let full = NOW.with(|r| {
        let mut r = r.borrow_mut();
        if r.row_count >= r.room {
            return true;
        }
        r.row_count += 1;
        r.rows.push(time);
        r.rows.extend_from_slice(vars);
        false
    });
    if full {
        std::panic::panic_any(Stop::Room);
    }
}

/// One unit of the budget, asked for before a pass.
pub fn pass() {
    let spent = NOW.with(|r| {
        let mut r = r.borrow_mut();
        if r.budget == 0 {
            return true;
        }
        r.budget -= 1;
        false
    });
    if spent {
        std::panic::panic_any(Stop::Budget);
    }
}

/// The system as stamped, before elimination.
pub fn system(rows: &[Vec<f64>]) {
    NOW.with(|r| {
        let mut r = r.borrow_mut();
        r.system.clear();
        for row in rows {
            r.system.extend_from_slice(row);
        }
    })
}

/// The solved vector.
pub fn solved(x: &[f64]) {
    NOW.with(|r| {
        let mut r = r.borrow_mut();
        r.passes += 1;
        r.solved.clear();
        r.solved.extend_from_slice(x);
    })
}

pub fn nodes() -> usize {
    NOW.with(|r| r.borrow().nodes)
}

pub fn sources() -> usize {
    NOW.with(|r| r.borrow().sources)
}

pub fn gmin() -> f64 {
    NOW.with(|r| r.borrow().gmin)
}

pub fn boltzmann() -> f64 {
    NOW.with(|r| r.borrow().boltzmann)
}

pub fn charge() -> f64 {
    NOW.with(|r| r.borrow().charge)
}

/// exp, ln and sin by the functions handed in.
pub trait Ours {
    fn our_exp(self) -> f64;
    fn our_ln(self) -> f64;
    fn our_sin(self) -> f64;
}

impl Ours for f64 {
    fn our_exp(self) -> f64 {
        let f = NOW.with(|r| r.borrow().functions.exp);
        f(self)
    }

    fn our_ln(self) -> f64 {
        let f = NOW.with(|r| r.borrow().functions.ln);
        f(self)
    }

    fn our_sin(self) -> f64 {
        let f = NOW.with(|r| r.borrow().functions.sin);
        match f(self) {
            Some(y) => y,
            None => std::panic::panic_any(Stop::Sine),
        }
    }
}

/// The functions of the timed build. They are set before its runs and called without a look at the record.
static mut TIMED: Functions = LIBRARY;

/// Sets the functions of the timed build; the bench has one thread.
pub fn time_with(functions: Functions) {
    unsafe { TIMED = functions }
}

/// exp, ln and sin in the timed build; a refused sine, which no timed job has, is NaN.
pub trait Timed {
    fn our_exp(self) -> f64;
    fn our_ln(self) -> f64;
    fn our_sin(self) -> f64;
}

impl Timed for f64 {
    fn our_exp(self) -> f64 {
        unsafe { (TIMED.exp)(self) }
    }

    fn our_ln(self) -> f64 {
        unsafe { (TIMED.ln)(self) }
    }

    fn our_sin(self) -> f64 {
        unsafe { (TIMED.sin)(self) }.unwrap_or(f64::NAN)
    }
}
