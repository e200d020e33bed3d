//! A coil, which is record kind 11, written out from the request's sentences: when its source number is refused, what it stamps, and
//! how its memory moves. The Rust has none.

use crate::job::*;
use crate::model::{Matrix, Wrong};

/// Whether 9 is given at a record because of a number that it shares: "9 is also given at the later of two records that share a
/// coil's source number". One of the two is the coil, either of them; sources without a coil may share as before.
pub fn shares(elements: &[Element], place: usize, wrong: Wrong) -> bool {
    let e = &elements[place];
    let (before, after) = (&elements[..place], &elements[place + 1..]);
    let numbered = |e: &Element| e.has_source() || wrong == Wrong::CoilSharedByBytes;
    let alike = |other: &Element| numbered(e) && numbered(other) && other.source == e.source;
    let forbidden = |other: &&Element| match wrong {
        Wrong::CoilSharedEarlierCoil => other.is_coil(),
        Wrong::CoilSharedLaterCoil => e.is_coil(),
        Wrong::CoilSharedOfCoils => e.is_coil() && other.is_coil(),
        Wrong::CoilSharedPlain => true,
        Wrong::CoilSharedByLetter => elements.iter().any(|coil| coil.is_coil() && coil.source == e.source),
        _ => e.is_coil() || other.is_coil(),
    };
    let asked = if wrong == Wrong::CoilSharedAtEarlier { after } else { before };
    asked.iter().filter(|other| alike(other)).any(|other| forbidden(&other))
}

/// "A conductance, step over henries".
fn conductance(henries: f64, step: f64, wrong: Wrong) -> f64 {
    if wrong == Wrong::CoilHenriesOverStep {
        henries / step
    } else {
        step / henries
    }
}

/// "An accepted step's current is that conductance times the new voltage plus the old current": a product and a sum, each rounded.
pub fn current_after(henries: f64, step: f64, v: f64, before: f64, wrong: Wrong) -> f64 {
    let g = conductance(henries, step, wrong);
    match wrong {
        Wrong::CoilFused => g.mul_add(v, before),
        Wrong::CoilRegrouped => step * v / henries + before,
        _ => g * v + before,
    }
}

/// "At DC it is a short, stamped as a V of 0 with a source number".
pub fn short(m: &mut Matrix, e: &Element, row: usize, wrong: Wrong) {
    let (a, b) = (e.a as usize, e.b as usize);
    match wrong {
        Wrong::CoilOpenAtDc => {}
        Wrong::CoilShortAdded => {
            for (node, one) in [(a, 1.0), (b, -1.0)] {
                m.add(row, node, one);
                m.add(node, row, one);
            }
        }
        _ => m.voltage(row, a, b, 0.0, wrong),
    }
}

/// A step's stamps: the conductance, "added without inverting", and the current from the first node to the second, "equal to the
/// last accepted current". "That row and column hold only a 1.0 on the diagonal."
pub fn companion(m: &mut Matrix, e: &Element, row: usize, step: f64, memory: f64, wrong: Wrong) {
    let (a, b) = (e.a as usize, e.b as usize);
    let g = conductance(e.value[0], step, wrong);
    if wrong == Wrong::CoilInverted {
        m.resistor(a, b, 1.0 / g);
    } else {
        m.conductance(a, b, g);
    }
    let (from, to) = if wrong == Wrong::CoilTurned { (b, a) } else { (a, b) };
    m.current(from, to, memory);
    match wrong {
        Wrong::CoilRowEmpty => {}
        Wrong::CoilDcRowStays => m.voltage(row, a, b, 0.0, wrong),
        Wrong::CoilDcColumnStays => {
            m.assign(a, row, 1.0);
            m.assign(b, row, -1.0);
            m.assign(row, row, 1.0);
        }
        _ => m.assign(row, row, 1.0),
    }
}

/// Where the memory of the record at a place stands: "one float of memory per record".
pub fn memory_of(e: &Element, place: usize, lent: usize, wrong: Wrong) -> usize {
    match wrong {
        Wrong::CoilAtNode => e.a as usize % lent,
        Wrong::CoilAtSource => e.source as usize % lent,
        _ => place,
    }
}

/// A coil's current in the DC vector, which is the unknown of its source number.
pub fn current_of_dc(e: &Element, vector: &[f64], nodes: usize, wrong: Wrong) -> f64 {
    let source = e.source as usize;
    let i = vector[if wrong == Wrong::CoilDcUnknown { source } else { nodes + source }];
    match wrong {
        Wrong::CoilDcTurned => -i,
        Wrong::CoilNanZero if !i.is_finite() => 0.0,
        _ => i,
    }
}

#[cfg(test)]
mod tests {
    use super::*;

    fn coil(a: usize, b: usize, henries: f64) -> Element {
        Element { value: [henries, 0.0, 0.0], ..Element::new(COIL, a, b) }
    }

    /// Kinds and source numbers as a sheet.
    fn sheet(records: &[(u8, u16)]) -> Vec<Element> {
        records.iter().map(|(kind, source)| Element { source: *source, ..Element::new(*kind, 1, 0) }).collect()
    }

    /// The first place at which a number is shared.
    fn refused(records: &[(u8, u16)]) -> Option<usize> {
        let elements = sheet(records);
        (0..elements.len()).find(|place| shares(&elements, *place, Wrong::Nothing))
    }

    #[test]
    fn the_later_of_two_records_is_refused_if_one_is_a_coil() {
        for kind in [3, 6, 7, 9, COIL] {
            assert_eq!(refused(&[(kind, 1), (COIL, 1)]), Some(1));
            assert_eq!(refused(&[(COIL, 1), (kind, 1)]), Some(1));
            assert_eq!(refused(&[(COIL, 1), (kind, 0)]), None);
        }
        assert_eq!(refused(&[(3, 0), (3, 0), (COIL, 1)]), None);
        assert_eq!(refused(&[(3, 0), (3, 0), (COIL, 0)]), Some(2));
        assert_eq!(refused(&[(COIL, 0), (3, 1), (3, 1), (9, 0)]), Some(3));
        // those without a number have zeros where it would stand
        assert_eq!(refused(&[(1, 0), (2, 0), (4, 0), (5, 0), (8, 0), (10, 0), (COIL, 0), (1, 0)]), None);
    }

    #[test]
    fn the_current_moves_by_a_product_and_a_sum_each_rounded() {
        assert_eq!(current_after(0.5, 1.0, 4.0, 8.0, Wrong::Nothing), 16.0);
        let (g, v): (f64, f64) = (3.0 / 49.0, 7.0);
        assert_eq!(current_after(49.0, 3.0, v, 0.1, Wrong::Nothing), g * v + 0.1);
        assert!(current_after(0.0, 1.0, 0.0, 1.0, Wrong::Nothing).is_nan());
        assert!(current_after(1.0, 1.0, 1.0, f64::NAN, Wrong::Nothing).is_nan());
        assert_eq!(current_after(f64::INFINITY, 1.0, 4.0, 8.0, Wrong::Nothing), 8.0);
        // a third times three is 1 when it is rounded, and a little less when it is not
        assert_eq!(current_after(3.0, 1.0, 3.0, -1.0, Wrong::Nothing), 0.0);
        assert_eq!(current_after(3.0, 1.0, 3.0, -1.0, Wrong::CoilFused), -f64::EPSILON / 4.0);
    }

    /// The rows of a system from row 1 on, without column 0.
    fn rows(m: &Matrix) -> Vec<Vec<f64>> {
        m.m.chunks(m.n + 1).skip(1).map(|row| row[1..].to_vec()).collect()
    }

    #[test]
    fn a_step_stamps_a_conductance_a_current_and_a_one() {
        let mut m = Matrix::zeros(4);
        companion(&mut m, &coil(1, 2, 0.5), 3, 1.0, 5.0, Wrong::Nothing);
        assert_eq!(rows(&m), [[2.0, -2.0, 0.0, -5.0], [-2.0, 2.0, 0.0, 5.0], [0.0, 0.0, 1.0, 0.0]]);
        let mut equal = Matrix::zeros(3);
        companion(&mut equal, &coil(1, 1, 0.5), 2, 1.0, 5.0, Wrong::Nothing);
        assert_eq!(rows(&equal), [[0.0, 0.0, 0.0], [0.0, 1.0, 0.0]]);
    }

    #[test]
    fn dc_stamps_a_v_of_0() {
        let mut m = Matrix::zeros(4);
        short(&mut m, &coil(1, 2, f64::NAN), 3, Wrong::Nothing);
        assert_eq!(rows(&m), [[0.0, 0.0, 1.0, 0.0], [0.0, 0.0, -1.0, 0.0], [1.0, -1.0, 0.0, 0.0]]);
        assert!(m.m.iter().all(|x| x.to_bits() != (-0.0f64).to_bits()));
        let mut equal = Matrix::zeros(3);
        short(&mut equal, &coil(1, 1, 1.0), 2, Wrong::Nothing);
        assert_eq!(rows(&equal), [[0.0, -1.0, 0.0], [-1.0, 0.0, 0.0]]);
    }
}
