//! `sphd.rs`, and `msta1`, `msta2`, `sphj` and `sphy` of `bessel.rs`, as they stand. tests/oracle/build
//! writes both files.

use super::{SPECFUN_INF, Status, lpmns, lqmns, try_zeroed};

#[allow(warnings)]
#[path = "../../../../../target/oracle/unaltered/bessel.rs"]
mod bessel;
#[allow(warnings)]
#[path = "../../../../../target/oracle/unaltered/sphd.rs"]
mod sphd;

pub(crate) use bessel::{msta1, msta2, sphj, sphy};
pub(crate) use sphd::{
    aswfa, cbk_places, kmn_factor, qstar_pair, rmn2l_route, rswfo, sckb_places, sdmn_places, segv,
};
