//! Element records of 40 bytes, as the engine reads them.

/// One element, by value. Nodes count from 0, the ground; sources from 0. Two sources may share a number, but an inductor, `L`, shares its
/// own with no record: the later of the two is refused by [`Refusal::Source`](crate::Refusal::Source).
#[derive(Clone, Copy, Debug, PartialEq)]
pub enum Record {
    R { p: u16, n: u16, value: f64 },
    I { p: u16, n: u16, value: f64 },
    V { p: u16, n: u16, value: f64, source: u16 },
    D { p: u16, n: u16, i_sat: f64, tdegc: f64 },
    Isin { p: u16, n: u16, vo: f64, va: f64, freq: f64 },
    Vsin { p: u16, n: u16, vo: f64, va: f64, freq: f64, source: u16 },
    Vpwl { p: u16, n: u16, t_delay: f64, repeat: f64, first: u16, count: u16, source: u16 },
    C { p: u16, n: u16, value: f64 },
    Vcvs { p: u16, n: u16, cp: u16, cn: u16, k: f64, source: u16 },
    Vccs { p: u16, n: u16, cp: u16, cn: u16, k: f64 },
    /// An inductor of so many henries. At DC it is a short whose current from `p` to `n` is the unknown of its source number; in a
    /// transient its current is in its float of the memory alone, and that unknown is 0.0.
    L { p: u16, n: u16, value: f64, source: u16 },
}

impl Record {
    /// The record's 40 bytes.
    pub fn bytes(self) -> [u8; 40] {
        use Record::*;
        match self {
            R { p, n, value } => laid(1, [p, n, 0, 0, 0, 0, 0], [value, 0.0, 0.0]),
            I { p, n, value } => laid(2, [p, n, 0, 0, 0, 0, 0], [value, 0.0, 0.0]),
            V { p, n, value, source } => laid(3, [p, n, 0, 0, source, 0, 0], [value, 0.0, 0.0]),
            D { p, n, i_sat, tdegc } => laid(4, [p, n, 0, 0, 0, 0, 0], [i_sat, tdegc, 0.0]),
            Isin { p, n, vo, va, freq } => laid(5, [p, n, 0, 0, 0, 0, 0], [vo, va, freq]),
            Vsin { p, n, vo, va, freq, source } => laid(6, [p, n, 0, 0, source, 0, 0], [vo, va, freq]),
            Vpwl { p, n, t_delay, repeat, first, count, source } => laid(7, [p, n, 0, 0, source, first, count], [t_delay, repeat, 0.0]),
            C { p, n, value } => laid(8, [p, n, 0, 0, 0, 0, 0], [value, 0.0, 0.0]),
            Vcvs { p, n, cp, cn, k, source } => laid(9, [p, n, cp, cn, source, 0, 0], [k, 0.0, 0.0]),
            Vccs { p, n, cp, cn, k } => laid(10, [p, n, cp, cn, 0, 0, 0], [k, 0.0, 0.0]),
            L { p, n, value, source } => laid(11, [p, n, 0, 0, source, 0, 0], [value, 0.0, 0.0]),
        }
    }

    /// A sheet of these records.
    pub fn sheet(records: &[Record]) -> Vec<u8> {
        records.iter().flat_map(|r| r.bytes()).collect()
    }
}

/// A pattern's points as bytes: time and level of each.
pub fn points(pairs: &[(f64, f64)]) -> Vec<u8> {
    pairs.iter().flat_map(|p| [p.0.to_le_bytes(), p.1.to_le_bytes()].concat()).collect()
}

fn laid(kind: u8, fields: [u16; 7], floats: [f64; 3]) -> [u8; 40] {
    let mut out = [0; 40];
    out[0] = kind;
    for (i, field) in fields.iter().enumerate() {
        out[2 + 2 * i..4 + 2 * i].copy_from_slice(&field.to_le_bytes());
    }
    for (i, float) in floats.iter().enumerate() {
        out[16 + 8 * i..24 + 8 * i].copy_from_slice(&float.to_le_bytes());
    }
    out
}
