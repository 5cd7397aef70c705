// Appended by tests/oracle/build to its copy of sphd.rs, whose own text stays as it is: the routines
// below are private there.

pub(crate) fn sdmn_places(m: i32, n: i32, c: f64, cv: f64, kd: i32) -> [f64; 200] {
    let mut df = [0.0; 200];
    sdmn(m, n, c, cv, kd, &mut df);
    df
}

pub(crate) fn sckb_places(m: i32, n: i32, c: f64, df: &[f64]) -> [f64; 200] {
    let mut ck = [0.0; 200];
    sckb(m, n, c, df, &mut ck);
    ck
}

/// The joining factor that the disc uses, as `rmn2so` calls `kmn` for it.
pub(crate) fn kmn_factor(m: i32, n: i32, c: f64, cv: f64, df: &[f64]) -> f64 {
    let (mut dn, mut ck1, mut ck2) = ([0.0; 200], 0.0, 0.0);
    kmn(m, n, c, cv, -1, df, &mut dn, &mut ck1, &mut ck2);
    ck1
}

pub(crate) fn qstar_pair(m: i32, n: i32, c: f64, ck1: f64, ck: &[f64]) -> (f64, f64) {
    let (mut qs, mut qt) = (0.0, 0.0);
    qstar(m, n, c, ck1, ck, &mut qs, &mut qt);
    (qs, qt)
}

pub(crate) fn cbk_places(m: i32, n: i32, c: f64, cv: f64, qt: f64, ck: &[f64]) -> [f64; 200] {
    let mut bk = [0.0; 200];
    cbk(m, n, c, cv, qt, ck, &mut bk);
    bk
}

/// The digits by which `rswfo` chooses, and whether `rmn2l` came to an order that `sphy` has not.
pub(crate) fn rmn2l_route(m: i32, n: i32, c: f64, x: f64, cv: f64) -> (i32, bool) {
    let mut df = [0.0; 200];
    sdmn(m, n, c, cv, -1, &mut df);
    let (mut value, mut derivative, mut id) = (0.0, 0.0, 10);
    let status = rmn2l(m, n, c, x, -1, &df, &mut value, &mut derivative, &mut id);
    (id, status == Status::Other)
}
