//! The inputs that are drawn: splitmix64 from one seed, a stream for each family of inputs, so that
//! a change to one family moves no other.

pub const SEED: u64 = 0x4F52_4254_2D46_4C54;

pub struct Random(u64);

impl Random {
    pub fn stream(number: u64) -> Random {
        let mut random = Random(SEED.wrapping_add(number));
        Random(random.bits())
    }

    pub fn bits(&mut self) -> u64 {
        self.0 = self.0.wrapping_add(0x9E37_79B9_7F4A_7C15);
        let mut z = self.0;
        z = (z ^ (z >> 30)).wrapping_mul(0xBF58_476D_1CE4_E5B9);
        z = (z ^ (z >> 27)).wrapping_mul(0x94D0_49BB_1331_11EB);
        z ^ (z >> 31)
    }

    pub fn below(&mut self, n: u64) -> u64 {
        self.bits() % n
    }

    /// From 0 to 1.
    pub fn unit(&mut self) -> f64 {
        (self.bits() >> 11) as f64 / 9007199254740992.0
    }

    /// From -limit to limit, evenly.
    pub fn within(&mut self, limit: f64) -> f64 {
        (2.0 * self.unit() - 1.0) * limit
    }

    pub fn signed(&mut self, x: f64) -> f64 {
        if self.bits() >> 63 == 0 {
            x
        } else {
            -x
        }
    }

    /// Any 64 bits: every exponent as often as another, NaNs and infinities among them.
    pub fn any(&mut self) -> f64 {
        f64::from_bits(self.bits())
    }

    pub fn finite(&mut self) -> f64 {
        loop {
            let x = self.any();
            if x.is_finite() {
                return x;
            }
        }
    }

    /// A subnormal of either sign, every number of leading zeros as often as another.
    pub fn subnormal(&mut self) -> f64 {
        let zeros = 12 + self.below(52);
        let x = f64::from_bits(self.bits() >> zeros);
        self.signed(x)
    }

    /// A magnitude from 2^low to 2^high, every exponent as often as another, of either sign.
    pub fn scaled(&mut self, low: i32, high: i32) -> f64 {
        let power = low + self.below((high - low) as u64) as i32;
        let x = (1.0 + self.unit()) * 2f64.powi(power);
        self.signed(x)
    }
}
