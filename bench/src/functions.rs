//! exp, ln and sin in whole numbers, written out a second time: they stand in for the
//! shipped ones where no archive is linked, and are compared with them where one is.

use recorder::Functions;

const L: u128 = 0xB17217F7D1CF79AC;
const Q4: u128 = 4 * 0x6487ED5110B4611A;
const ONE: u64 = 1 << 62;

/// Stands for 1 / 19 and for the terms past it, in units of 2^-62.
const LAST_OF_LN: u64 = 251578777698996783;

/// The upper half of a product of two words.
fn up(a: u64, b: u64) -> u64 {
    ((a as u128 * b as u128) >> 64) as u64
}

fn factorial(n: u64) -> u64 {
    (1..=n).product()
}

/// The sum of words[i] * y^i, y in units of 2^-64.
fn rising(words: &[u64], y: u64) -> u64 {
    words.iter().rev().fold(0, |r, c| c + up(r, y))
}

/// The same with signs in turn.
fn falling(words: &[u64], y: u64) -> u64 {
    words.iter().rev().fold(0, |r, c| c.saturating_sub(up(r, y)))
}

/// 2^62 over the factorials of every second number from `first` to `last`.
fn over_factorials(first: u64, last: u64) -> Vec<u64> {
    (first..=last).step_by(2).map(|i| ONE / factorial(i)).collect()
}

/// The float p * 2^(b - 1085), rounded to 53 digits.
fn packed(b: u64, p: u64) -> f64 {
    if p == 0 {
        return 0.0;
    }
    let z = p.leading_zeros() as u64;
    f64::from_bits(((b - z) << 52) + ((((p << z) >> 10) + 1) >> 1))
}

fn signed(minus: bool, size: f64) -> f64 {
    if minus {
        -size
    } else {
        size
    }
}

/// Mantissa and exponent of a finite size: size = m * 2^e.
fn parts(x: f64) -> (u64, i32) {
    let bits = x.to_bits() & (u64::MAX >> 1);
    let (field, low) = ((bits >> 52) as i32, bits & ((1 << 52) - 1));
    if field == 0 {
        (low, -1074)
    } else {
        (low + (1 << 52), field - 1075)
    }
}

/// The nearest multiple of m / 2^64, the rest in 2^-64, and whether the rest is below zero.
fn reduced(m: u128, x: f64) -> (u64, u64, bool) {
    let (a, e) = parts(x);
    if e < -64 {
        let s = -64 - e;
        return (0, if s > 63 { 0 } else { a >> s }, false);
    }
    let n = (a as u128) << (e + 64);
    let k = (2 * n + m) / (2 * m);
    let near = k * m;
    (k as u64, if n < near { near - n } else { n - near } as u64, n < near)
}

pub fn exp(x: f64) -> f64 {
    if x.is_nan() {
        return x;
    }
    if x > 709.0 {
        return f64::INFINITY;
    }
    if x < -708.0 {
        return 0.0;
    }
    let minus = x.is_sign_negative();
    let (k, f, below) = reduced(L, x);
    let y = up(f, f);
    let even = rising(&over_factorials(0, 12), y);
    let odd = up(f, rising(&over_factorials(1, 13), y));
    let sum = if minus != below { even - odd } else { even + odd };
    packed(if minus { 1023 - k } else { 1023 + k }, sum)
}

pub fn sin(x: f64) -> Option<f64> {
    if x.is_nan() || x.is_infinite() {
        return Some(f64::NAN);
    }
    if x.abs() > 1048576.0 {
        return None;
    }
    if x.abs() < 0.25 {
        return Some(small_sin(x));
    }
    let (k, f, below) = reduced(Q4, x);
    let y = up(f, f);
    let even = k % 2 == 0;
    let size = if even { up(f, falling(&over_factorials(1, 17), y)) } else { falling(&over_factorials(0, 16), y) };
    let side = (k % 4 >= 2) != (even && below);
    Some(signed(x.is_sign_negative() != side, packed(1023, size)))
}

/// Below 1/4 the sum is taken times the 64 leading digits of x; below 2^-64 it is x itself.
fn small_sin(x: f64) -> f64 {
    let (a, exponent) = parts(x);
    let digits = 64 - a.leading_zeros() as i32;
    let c = digits + exponent + 1074;
    if c <= 1010 {
        return x;
    }
    let (_, f, _) = reduced(Q4, x);
    let sum = falling(&over_factorials(1, 17), up(f, f));
    signed(x.is_sign_negative(), packed(c as u64 - 51, up(a << a.leading_zeros(), sum)))
}

pub fn ln(x: f64) -> f64 {
    if x.is_nan() {
        return x;
    }
    if x == 0.0 {
        return f64::NEG_INFINITY;
    }
    if x < 0.0 {
        return f64::NAN;
    }
    if x.is_infinite() {
        return x;
    }
    // x = q * 2^(c - 1127) with a q of 53 digits
    let (a, exponent) = parts(x);
    let digits = 64 - a.leading_zeros() as i32;
    let q = a << (53 - digits);
    let c = digits + exponent + 1074;
    // m is q / one, below 1 where q is high
    let high = q >= 3 << 51;
    let one: u64 = if high { 1 << 53 } else { 1 << 52 };
    let e = if high { c + 1 } else { c } - 1075;
    let minus = if e == 0 { high } else { e < 0 };
    let apart = if q < one { one - q } else { q - one };
    let f = 2 * (((apart as u128) << 63) / (q + one) as u128) as u64;
    let mut words: Vec<u64> = (1..18).step_by(2).map(|i| ONE / i).collect();
    words.push(LAST_OF_LN);
    let w = up(f, rising(&words, up(f, f)));
    let k = e.abs() as u128;
    let t = if k < 12 { 4 } else { 10 };
    let (whole, series) = (((k * L) >> t) as u64, w >> (t - 3));
    let size = if minus == high { whole + series } else { whole - series };
    signed(minus, packed(1021 + t as u64, size))
}

pub const STANDING_IN: Functions = Functions { exp, ln, sin };
