//! The judge's rule in plain whole numbers: finite floats are multiples of 2^-1074, products of 2^-2148.

use crate::compare::same;
use crate::model::MOST_UNKNOWNS;

const LIMBS: usize = 70;
const KEPT: usize = 66;

/// A sum of sizes, in units of 2^-2148.
#[derive(Clone)]
pub struct Sum([u64; LIMBS]);

/// Mantissa and shift of a finite size: size = m * 2^(shift - 1074).
fn parts(x: f64) -> (u64, usize) {
    let bits = x.to_bits() & (u64::MAX >> 1);
    let (field, low) = ((bits >> 52) as usize, bits & ((1 << 52) - 1));
    if field == 0 {
        (low, 0)
    } else {
        (low + (1 << 52), field - 1)
    }
}

impl Sum {
    pub fn zero() -> Sum {
        Sum([0; LIMBS])
    }

    /// The limbs that are lent for a sum, lowest first; the others are spare here and must be zero.
    pub fn limbs(&self) -> &[u64] {
        let (kept, spare) = self.0.split_at(KEPT);
        assert!(spare.iter().all(|l| *l == 0));
        kept
    }

    /// Adds m * 2^shift.
    fn add(&mut self, m: u128, shift: usize) {
        let (limb, bit) = (shift / 64, shift % 64);
        let low = m << bit;
        let high = if bit == 0 { 0 } else { m >> (128 - bit) };
        let words = [low as u64, (low >> 64) as u64, high as u64];
        let mut carry = false;
        for k in limb..LIMBS {
            let word = words.get(k - limb).copied().unwrap_or(0);
            let (a, over) = self.0[k].overflowing_add(word);
            let (b, more) = a.overflowing_add(carry as u64);
            self.0[k] = b;
            carry = over || more;
        }
    }

    /// Adds the size of a product.
    pub fn add_product(&mut self, a: f64, b: f64) {
        let ((m, s), (n, t)) = (parts(a), parts(b));
        self.add(m as u128 * n as u128, s + t);
    }

    fn at_most(&self, other: &Sum) -> bool {
        self.0.iter().rev().le(other.0.iter().rev())
    }
}

/// Whether a row's sum less its right side is within the tolerance, exactly.
fn within(row: &[f64], x: &[f64], tolerance: f64) -> bool {
    let n = x.len();
    let (mut over, mut under) = (Sum::zero(), Sum::zero());
    for c in 0..n {
        let side = if row[c].is_sign_negative() == x[c].is_sign_negative() { &mut over } else { &mut under };
        side.add_product(row[c], x[c]);
    }
    let side = if row[n].is_sign_negative() { &mut over } else { &mut under };
    side.add_product(row[n], 1.0);
    // |over - under| <= tolerance: neither side exceeds the other by more
    let (mut a, mut b) = (over.clone(), under.clone());
    a.add_product(tolerance, 1.0);
    b.add_product(tolerance, 1.0);
    over.at_most(&b) && under.at_most(&a)
}

/// Refusal and the first row that is not within its tolerance, the row count if there is none.
pub fn judge(system: &[f64], x: &[f64], tolerances: &[f64], rows: usize) -> (u64, u64) {
    let n = rows;
    if n == 0 || n as u128 > MOST_UNKNOWNS {
        return (1, 0);
    }
    if system.len() < n * (n + 1) || x.len() < n || tolerances.len() < n {
        return (5, 0);
    }
    let (system, x, tolerances) = (&system[..n * (n + 1)], &x[..n], &tolerances[..n]);
    let finite = |list: &[f64]| list.iter().all(|v| v.is_finite());
    if !finite(system) || !finite(x) || !finite(tolerances) || tolerances.iter().any(|t| *t < 0.0) {
        return (11, 0);
    }
    let first = (0..n).find(|r| !within(&system[r * (n + 1)..(r + 1) * (n + 1)], x, tolerances[*r]));
    (0, first.unwrap_or(n) as u64)
}

/// Document 01's cases k and l.
pub fn cases() -> bool {
    let b = [0.0, 0.0, 0.0, 0.0, 0.0, 0.0, 1.0, -1.0, 1.0, 0.0, 0.0, -1.0, 2.0, 0.0, 0.0, 0.0, 1.0, 0.0, 0.0, 4.0];
    let (small, large) = (f64::from_bits(23 << 52), f64::from_bits(2023 << 52));
    let mut l = [0.0; 20];
    l[6] = small;
    l[7] = large;
    l[8] = large;
    assert!(same(small * large, 1.0));
    judge(&b, &[0.0, 4.0, 2.0, -2.0], &[0.0; 4], 4) == (0, 4)
        && judge(&b, &[0.0, 4.0, 2.0, -1.0], &[0.5; 4], 4) == (0, 1)
        && judge(&b, &[0.0, 4.0, 2.0, -1.0], &[1.0; 4], 4) == (0, 4)
        && judge(&l, &[0.0, 1.0, 1.0, -1.0], &[0.0; 4], 4) == (0, 1)
}
