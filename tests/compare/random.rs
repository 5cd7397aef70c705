//! splitmix64: small, seeded, the same on every machine.

pub struct Random {
    state: u64,
}

impl Random {
    pub fn new(seed: u64) -> Random {
        Random { state: seed }
    }

    /// 64 uniform bits.
    pub fn bits(&mut self) -> u64 {
        self.state = self.state.wrapping_add(0x9e37_79b9_7f4a_7c15);
        let mut z = self.state;
        z = (z ^ (z >> 30)).wrapping_mul(0xbf58_476d_1ce4_e5b9);
        z = (z ^ (z >> 27)).wrapping_mul(0x94d0_49bb_1331_11eb);
        z ^ (z >> 31)
    }

    /// A whole number below `limit`. The bias of the remainder is of no account here.
    pub fn below(&mut self, limit: u64) -> u64 {
        self.bits() % limit
    }

    /// A whole number from `least` to `greatest`, both included.
    pub fn between(&mut self, least: u16, greatest: u16) -> u16 {
        least + self.below(u64::from(greatest - least) + 1) as u16
    }

    /// True in `percent` of 100 cases.
    pub fn chance(&mut self, percent: u64) -> bool {
        self.below(100) < percent
    }

    /// Uniform from 0 (included) to 1 (not).
    pub fn unit(&mut self) -> f64 {
        (self.bits() >> 11) as f64 / (1u64 << 53) as f64
    }

    /// Between `least` and `greatest`, both above zero, uniform in the logarithm.
    pub fn log_uniform(&mut self, least: f64, greatest: f64) -> f64 {
        least * (greatest / least).powf(self.unit())
    }

    pub fn sign(&mut self) -> f64 {
        if self.chance(50) { 1.0 } else { -1.0 }
    }

    pub fn pick<T: Copy>(&mut self, choices: &[T]) -> T {
        choices[self.below(choices.len() as u64) as usize]
    }

    /// One of the choices, each with its weight.
    pub fn weighted<T: Copy>(&mut self, choices: &[(u64, T)]) -> T {
        let total = choices.iter().map(|&(weight, _)| weight).sum();
        let mut left = self.below(total);
        for &(weight, choice) in choices {
            if left < weight {
                return choice;
            }
            left -= weight;
        }
        unreachable!("the weights add up to the total");
    }

    /// A double of any bits, NaN and the infinities included.
    pub fn any_double(&mut self) -> f64 {
        f64::from_bits(self.bits())
    }

    pub fn any_finite(&mut self) -> f64 {
        loop {
            let value = self.any_double();
            if value.is_finite() {
                return value;
            }
        }
    }
}
