//! Document 01's power rule, with the negative powers of document 02's Card 5.

/// `y` to a whole `k`: 1 multiplied `k` times by `y`, each product rounded.
pub fn whole_power(y: f64, k: u32) -> f64 {
    (0..k).fold(1.0, |product, _| product * y)
}

/// `y` to `k` + 1/2: the square root times the finished whole power, one product.
pub fn half_power(y: f64, k: u32) -> f64 {
    y.sqrt() * whole_power(y, k)
}

/// Stands in for `f64::powf` in `aswfa`, `rmn1`, `sckb`, `rmn2l` and `gmn`, whose exponents are whole or
/// half-odd. A negative power is 1 divided by the positive one (Card 5); −0 is not negative.
pub fn powf(y: f64, exponent: f64) -> f64 {
    if exponent < 0.0 {
        1.0 / positive_power(y, -exponent)
    } else {
        positive_power(y, exponent)
    }
}

fn positive_power(y: f64, exponent: f64) -> f64 {
    let whole = exponent.floor();
    if exponent == whole {
        whole_power(y, whole as u32)
    } else {
        assert!(
            exponent - whole == 0.5,
            "the power rule has no exponent {exponent}"
        );
        half_power(y, whole as u32)
    }
}
