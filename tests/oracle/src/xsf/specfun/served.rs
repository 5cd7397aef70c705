//! The same with powers by the power rule and with our sine, cosine, decimal logarithm and arctangent.
//! tests/oracle/build writes both files.

use super::{SPECFUN_INF, Status, lpmns, lqmns, try_zeroed};

#[allow(warnings)]
#[path = "../../../../../target/oracle/served/bessel.rs"]
mod bessel;
#[allow(warnings)]
#[path = "../../../../../target/oracle/served/sphd.rs"]
mod sphd;

pub(crate) use bessel::{msta1, msta2, sphj, sphy};
pub(crate) use sphd::{aswfa, rmn2l_route, rswfo};
