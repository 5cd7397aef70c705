//! The little of the Rust original that `sphd.rs` leans on, under the module names it expects.

pub mod specfun;

pub mod tools {
    /// `(int)x` as an x86-64 compiler gives it, for the digits that `rmn2l` says it lost.
    pub(crate) fn int_x86(x: f64) -> i32 {
        let truncated = x.trunc();
        if (-2_147_483_648.0..2_147_483_648.0).contains(&truncated) {
            truncated as i32
        } else {
            i32::MIN
        }
    }
}
