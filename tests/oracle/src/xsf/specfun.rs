//! What `sphd.rs` and `bessel.rs` take from their parent module, and their two builds.

pub(crate) mod served;
pub(crate) mod unaltered;

pub(crate) const SPECFUN_INF: f64 = 1e300;

#[derive(Clone, Copy, Debug, PartialEq, Eq)]
pub(crate) enum Status {
    Ok,
    NoMemory,
    Other,
}

pub(crate) fn try_zeroed(n: usize) -> Option<Vec<f64>> {
    Some(vec![0.0; n])
}

// No operation reaches the next two.

fn lpmns(_: i32, _: i32, _: f64, _: &mut [f64], _: &mut [f64]) {
    panic!("lpmns is not part of the oracle");
}

fn lqmns(_: i32, _: i32, _: f64, _: &mut [f64], _: &mut [f64]) {
    panic!("lqmns is not part of the oracle");
}
