//! Inputs beside the uniform ones: those on which a wrong root, truncation or power is likely to show.

use crate::random::Random;

const TWO_TO_31: f64 = 2_147_483_648.0;

/// Each of both signs.
const SIZES: [f64; 26] = [
    0.0,
    5e-324,
    1.5e-323,
    2.225_073_858_507_201e-308,
    f64::MIN_POSITIVE,
    1e-300,
    1e-30,
    1e-10,
    0.25,
    0.499_999_999_999_999_94,
    0.5,
    0.999_999_999_999_999_9,
    1.0,
    1.000_000_000_000_000_2,
    1.5,
    2.0,
    2.5,
    3.0,
    4.0,
    TWO_TO_31 - 1.0,
    TWO_TO_31 - 0.5,
    TWO_TO_31,
    TWO_TO_31 + 1.0,
    1e300,
    f64::MAX,
    f64::INFINITY,
];

/// NaNs of both signs, quiet and signalling.
const NANS: [u64; 4] = [
    0x7ff8_0000_0000_0000,
    0xfff8_0000_0000_0000,
    0x7ff0_0000_0000_0001,
    0xffff_ffff_ffff_ffff,
];

pub fn specials() -> impl Iterator<Item = f64> {
    let signed = SIZES.into_iter().flat_map(|size| [size, -size]);
    signed.chain(NANS.into_iter().map(f64::from_bits))
}

pub trait Draw {
    fn root_edge(&mut self) -> f64;
    fn truncation_edge(&mut self) -> f64;
    fn power_base(&mut self) -> f64;
    fn pair(&mut self) -> (f64, f64);
    /// The value or a double next to it.
    fn at_or_beside(&mut self, value: f64) -> f64;
    fn power_of_two(&mut self, least: i32, greatest: i32) -> f64;
}

impl Draw for Random {
    fn root_edge(&mut self) -> f64 {
        match self.below(6) {
            0 => f64::from_bits(self.bits() >> 12),
            1 => {
                // Of 26 bits, so that the square is exact at every scale.
                let root = (self.bits() >> 38) as f64 * self.power_of_two(-530, 485);
                self.at_or_beside(root * root)
            }
            2 => {
                let power = self.power_of_two(-1074, 1023);
                self.at_or_beside(power)
            }
            3 => (self.bits() >> self.below(64)) as f64,
            4 => f64::from_bits(1.0_f64.to_bits() - 500 + self.below(1000)),
            // Between exact squares, where the root lies next to a midpoint.
            _ => {
                let root = f64::from_bits(1.0_f64.to_bits() + (self.bits() >> 12));
                self.at_or_beside(root * root)
            }
        }
    }

    fn truncation_edge(&mut self) -> f64 {
        let whole = (self.bits() >> (32 + self.below(32))) as f64;
        let size = match self.below(6) {
            0 => self.at_or_beside(whole),
            1 => whole + 0.5,
            2 => self.at_or_beside(whole + 0.5),
            3 => whole + self.unit(),
            4 => TWO_TO_31 + (self.unit() - 0.5) * 4.0,
            _ => self.unit() * 2.0 * TWO_TO_31,
        };
        self.sign() * size
    }

    fn power_base(&mut self) -> f64 {
        match self.below(10) {
            0 => self.any_double(),
            1 => self.sign() * self.unit() * 4.0,
            2 => {
                let power = self.power_of_two(-4, 4);
                self.at_or_beside(power)
            }
            3..6 => 1.0 - self.unit() * self.unit() * self.unit(),
            _ => self.unit(),
        }
    }

    fn pair(&mut self) -> (f64, f64) {
        let a = self.any_double();
        match self.below(4) {
            0 => (a, a),
            1 => (a, self.at_or_beside(a)),
            2 => (a, -a),
            _ => (a, self.any_double()),
        }
    }

    fn at_or_beside(&mut self, value: f64) -> f64 {
        match self.below(3) {
            0 => value,
            1 => value.next_down(),
            _ => value.next_up(),
        }
    }

    fn power_of_two(&mut self, least: i32, greatest: i32) -> f64 {
        let exponent = least + self.below((greatest - least) as u64 + 1) as i32;
        f64::from(exponent).exp2()
    }
}
