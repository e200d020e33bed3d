//! A small seedable generator of numbers, and of floats worth trying.

pub struct Random(u64);

impl Random {
    /// The stream of one job: the same seed and place always give the same job.
    pub fn new(seed: u64, place: u64) -> Random {
        let mut r = Random(seed.wrapping_mul(0x9E37_79B9_7F4A_7C15) ^ place.wrapping_mul(0xD1B5_4A32_D192_ED03));
        r.next();
        r.next();
        r
    }

    pub fn next(&mut self) -> u64 {
        self.0 = self.0.wrapping_add(0x9E37_79B9_7F4A_7C15);
        let mut z = self.0;
        z = (z ^ (z >> 30)).wrapping_mul(0xBF58_476D_1CE4_E5B9);
        z = (z ^ (z >> 27)).wrapping_mul(0x94D0_49BB_1331_11EB);
        z ^ (z >> 31)
    }

    /// A whole number below `n`.
    pub fn below(&mut self, n: usize) -> usize {
        (self.next() % n.max(1) as u64) as usize
    }

    /// True once in `n`.
    pub fn one_in(&mut self, n: usize) -> bool {
        self.below(n) == 0
    }

    pub fn unit(&mut self) -> f64 {
        (self.next() >> 11) as f64 / (1u64 << 53) as f64
    }

    pub fn between(&mut self, a: f64, b: f64) -> f64 {
        a + (b - a) * self.unit()
    }

    pub fn pick<T: Copy>(&mut self, list: &[T]) -> T {
        list[self.below(list.len())]
    }

    /// Log-uniform between 10^a and 10^b.
    pub fn decades(&mut self, a: f64, b: f64) -> f64 {
        10f64.powf(self.between(a, b))
    }

    pub fn sign(&mut self) -> f64 {
        if self.one_in(2) {
            -1.0
        } else {
            1.0
        }
    }

    /// Floats at the edges: zeros, infinities, NaN, subnormals, extremes.
    pub fn special(&mut self) -> f64 {
        self.pick(&[
            0.0,
            -0.0,
            f64::INFINITY,
            f64::NEG_INFINITY,
            f64::NAN,
            f64::MIN_POSITIVE,
            5e-324,
            1e-320,
            f64::MAX,
            f64::MIN,
            1e308,
            -1e-308,
            1e154,
            1e-154,
            f64::EPSILON,
        ])
    }

    /// Round numbers, on which ties and cancellations happen.
    pub fn round(&mut self) -> f64 {
        let x = self.pick(&[0.0, 0.125, 0.25, 0.5, 1.0, 1.0, 2.0, 3.0, 4.0, 5.0, 8.0, 10.0, 16.0, 100.0, 1000.0]);
        x * self.sign()
    }

    pub fn bits(&mut self) -> f64 {
        f64::from_bits(self.next())
    }

    /// Any float, mostly tame.
    pub fn any(&mut self) -> f64 {
        match self.below(20) {
            0 => self.special(),
            1 => self.bits(),
            2..=9 => self.round(),
            _ => self.decades(-6.0, 6.0) * self.sign(),
        }
    }
}
