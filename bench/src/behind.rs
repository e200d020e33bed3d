//! When a diode is behind, written out a second time: the voltage across it in the last solved vector is not within
//! |v| RELTOL + VNTOL of its memory, the voltage that its limiting let through last.

use crate::job::*;
use crate::model::Wrong;

/// Whether a diode has caught up: `<=`, so that with a NaN it has not.
fn caught_up(v: f64, memory: f64, o: &Options, wrong: Wrong) -> bool {
    let sized = if wrong == Wrong::ToleranceOfMemory { memory } else { v };
    let floor = if wrong == Wrong::AbstolForDiodes { o.abstol } else { o.vntol };
    let apart = (v - memory).abs();
    let limit = sized.abs() * o.reltol + floor;
    match wrong {
        Wrong::BelowTolerance => apart < limit,
        Wrong::NanCaughtUp => !(apart > limit),
        _ => apart <= limit,
    }
}

/// The diodes among the whole records of a sheet, with their places. A record that must be refused by 7 is none.
fn diodes(sheet: &[u8], wrong: Wrong) -> Vec<(usize, Element)> {
    let unused = |r: &[u8]| r[1] == 0 && r[6..16].iter().chain(&r[32..]).all(|byte| *byte == 0);
    let asked = |r: &[u8]| r[0] == 4 && unused(r) || r[0] == COIL && wrong == Wrong::CoilAskedBehind;
    let records = sheet.chunks_exact(RECORD).enumerate().filter(|(_, r)| asked(r));
    records.map(|(place, r)| (place, Element::read(r))).collect()
}

/// 0, or 1 + the place of the first diode that is behind. What lies past the end of the vector or the memory is a NaN.
pub fn first(sheet: &[u8], vector: &[f64], memory: &[f64], o: &Options, wrong: Wrong) -> u64 {
    let number = |list: &[f64], at: usize| list.get(at).copied().unwrap_or(f64::NAN);
    let mut asked = diodes(sheet, wrong);
    match wrong {
        Wrong::LastDiodeAsked => asked.drain(..asked.len().saturating_sub(1)),
        Wrong::FirstDiodeAsked => asked.drain(asked.len().min(1)..),
        _ => asked.drain(..0),
    };
    if wrong == Wrong::LastBehindNamed {
        asked.reverse();
    }
    let behind = asked.iter().find(|(place, e)| {
        let v = number(vector, e.a as usize) - number(vector, e.b as usize);
        !caught_up(v, number(memory, *place), o, wrong)
    });
    behind.map_or(0, |(place, _)| *place as u64 + 1)
}
