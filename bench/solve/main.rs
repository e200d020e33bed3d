// Times `solve` against the Rust's own `solve`, text as published, in one run over the same systems, and compares the bits of every answer.
#![allow(unused_macros, unused_variables)]
use std::time::Instant;

macro_rules! trace { ($($t:tt)*) => {} }

mod published {
    macro_rules! println { ($($t:tt)*) => {} }
    include!(env!("PUBLISHED"));
    pub fn solve(n: usize, v: Vec<Vec<f64>>) -> Vec<f64> {
        Engine { c_nodes: n, c_vsrcs: 0 }.solve(v)
    }
}

extern "C" {
    fn door_solve(m: *mut f64, ml: usize, x: *mut f64, xl: usize, n: usize) -> u8;
}

fn proved(m: &mut [f64], x: &mut [f64], n: usize) -> u8 {
    unsafe { door_solve(m.as_mut_ptr(), m.len(), x.as_mut_ptr(), x.len(), n) }
}

struct Draw(u64);

impl Draw {
    fn bits(&mut self) -> u64 {
        self.0 ^= self.0 << 13;
        self.0 ^= self.0 >> 7;
        self.0 ^= self.0 << 17;
        self.0
    }
    fn unit(&mut self) -> f64 {
        (self.bits() >> 11) as f64 / (1u64 << 52) as f64 - 1.0
    }
    // a number, or now and then a zero of either sign, an infinity, a NaN, a subnormal, a small whole number
    fn odd(&mut self) -> f64 {
        match self.bits() % 24 {
            0...7 => 0.0,
            8 => -0.0,
            9 => 1.0 / 0.0,
            10 => 0.0 / 0.0,
            11 => f64::from_bits(self.bits() % 4096),
            12...15 => (self.bits() % 5) as f64 - 2.0,
            _ => self.unit(),
        }
    }
}

fn rows(m: &[f64], n: usize) -> Vec<Vec<f64>> {
    m.chunks(n + 1).map(|r| r.to_vec()).collect()
}

fn same(a: f64, b: f64) -> bool {
    a.to_bits() == b.to_bits() || (a.is_nan() && b.is_nan())
}

// dense, or three diagonals and a full right side; row and column 0 are zero, as a stamped matrix has them
fn system(d: &mut Draw, n: usize, dense: bool) -> Vec<f64> {
    let w = n + 1;
    let mut m = vec![0.0; n * w];
    for r in 1..n {
        for c in 1..w {
            let x = d.unit();
            if dense || c == n || r + 1 == c || c + 1 == r {
                m[r * w + c] = x;
            } else if r == c {
                m[r * w + c] = 2.0 + x;
            }
        }
    }
    m
}

// nanoseconds a call, the least of many rounds
fn least<F: FnMut() -> f64>(rounds: usize, mut f: F) -> f64 {
    let mut best = 1e99;
    for _ in 0..rounds {
        let t = f();
        if t < best {
            best = t;
        }
    }
    best
}

fn table(dense: bool) {
    println!("{}", if dense { "dense" } else { "tridiagonal, full right side" });
    println!("  N   solve alone: published   proved  ratio    with its copy: published   proved  ratio");
    for &n in &[4usize, 8, 16, 24, 48] {
        let batch = 16;
        let mut d = Draw(0x9E3779B97F4A7C15 + n as u64);
        let systems: Vec<Vec<f64>> = (0..batch).map(|_| system(&mut d, n, dense)).collect();
        let nested: Vec<Vec<Vec<f64>>> = systems.iter().map(|m| rows(m, n)).collect();
        let rounds = 1500;
        let reps = 3000 / (n * n * n + 300) + 1;
        let per = |t: u128| t as f64 / (reps * batch) as f64;
        let mut x = vec![vec![0.0; n]; batch];
        let mut work = systems.clone();
        let mut flat = vec![0.0; n * (n + 1)];
        for b in 0..batch {
            let want = published::solve(n, nested[b].clone());
            assert_eq!(proved(&mut work[b], &mut x[b], n), 0);
            assert!((0..n).all(|i| same(want[i], x[b][i])), "bits differ at N {}", n);
        }
        let (mut a, mut p, mut ac, mut pc) = (1e99f64, 1e99f64, 1e99f64, 1e99f64);
        for _ in 0..rounds {
            a = a.min(least(1, || {
                let mut t = 0;
                for _ in 0..reps {
                    let given = nested.clone();
                    let mut out = Vec::with_capacity(batch);
                    let s = Instant::now();
                    for v in given {
                        out.push(published::solve(n, v));
                    }
                    t += s.elapsed().as_nanos();
                }
                per(t)
            }));
            p = p.min(least(1, || {
                let mut t = 0;
                for _ in 0..reps {
                    for b in 0..batch {
                        work[b].copy_from_slice(&systems[b]);
                    }
                    let s = Instant::now();
                    for b in 0..batch {
                        proved(&mut work[b], &mut x[b], n);
                    }
                    t += s.elapsed().as_nanos();
                }
                per(t)
            }));
            ac = ac.min(least(1, || {
                let s = Instant::now();
                for _ in 0..reps {
                    for v in &nested {
                        published::solve(n, v.clone());
                    }
                }
                per(s.elapsed().as_nanos())
            }));
            pc = pc.min(least(1, || {
                let s = Instant::now();
                for _ in 0..reps {
                    for b in 0..batch {
                        flat.copy_from_slice(&systems[b]);
                        proved(&mut flat, &mut x[b], n);
                    }
                }
                per(s.elapsed().as_nanos())
            }));
        }
        println!("{:3}   {:22.1} {:8.1} {:6.2} {:28.1} {:8.1} {:6.2}", n, a, p, a / p, ac, pc, ac / pc);
    }
}

fn main() {
    let mut d = Draw(20261115);
    let mut compared = 0;
    for n in 1..49 {
        for _ in 0..400 {
            let m: Vec<f64> = (0..n * (n + 1)).map(|_| d.odd()).collect();
            let want = published::solve(n, rows(&m, n));
            let mut f = m.clone();
            let mut x = vec![7.0; n];
            assert_eq!(proved(&mut f, &mut x, n), 0);
            for i in 0..n {
                assert!(same(want[i], x[i]), "N {} unknown {}: {:e} {:e}", n, i, want[i], x[i]);
                compared += 1;
            }
        }
    }
    println!("{} unknowns of 19,200 odd systems: all bits equal", compared);
    table(true);
    table(false);
}
