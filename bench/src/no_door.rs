//! The C door's names without an archive: no answers, and a second writing of exp, ln and sin.

use crate::functions::STANDING_IN;
use crate::job::*;
use crate::model::{self, Wrong};
use crate::raw::SoundAnswer;
use crate::spread_calls::{Call, Report};
use recorder::Functions;

pub const LINKED: bool = false;
pub const OURS: Functions = STANDING_IN;

/// For timing alone: the model's numbers.
pub fn call(job: &Job, _: &mut [Vec<f64>; 6]) -> Answer {
    model::run(job, &OURS, Wrong::Nothing)
}

pub fn run(_: &Job) -> Option<Answer> {
    None
}

pub fn run_lent(_: &Job, _: [Vec<f64>; 6]) -> Option<Answer> {
    None
}

pub fn spreads(_: &Call) -> Option<Report> {
    None
}

/// Never timed without an archive.
pub fn call_spreads(_: &Call, _: &mut [Vec<f64>; 5], _: &mut [Vec<u64>; 8]) -> SoundAnswer {
    SoundAnswer::default()
}

pub fn solve(_: usize, _: &mut [f64], _: &mut [f64]) -> Option<u64> {
    None
}

pub fn convergence(_: &[f64], _: &[f64], _: u64, _: &Options) -> Option<(u64, u64)> {
    None
}

pub fn behind(_: &[u8], _: &[f64], _: &[f64], _: &Options) -> Option<u64> {
    None
}

pub fn judge(_: &[f64], _: &[f64], _: &[f64], _: usize) -> Option<(u64, u64)> {
    None
}

pub fn pattern(_: &[u8], _: f64, _: f64, _: f64) -> Option<f64> {
    None
}

pub fn pattern_first(_: &[u8], _: f64, _: f64, _: f64) -> Option<f64> {
    None
}

pub fn capacitor(_: f64, _: f64, _: f64) -> Option<(f64, f64)> {
    None
}

pub fn diode(_: f64, _: f64, _: f64, _: f64, _: &Options) -> Option<(u64, [f64; 3])> {
    None
}
