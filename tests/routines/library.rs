//! The ported routines as `routines_c` exports them. They are declared safe, so whoever calls them
//! keeps what their contracts ask (crates/routines_c/src/lib.rt): a mode that document 01 accepts.

pub type Places = [f64; 200];
pub type BesselPlaces = [f64; 252];
pub type Entries = [f64; 300];

unsafe extern "C" {
    pub safe fn routines_fill(
        m: u32,
        parity: u32,
        cs: f64,
        entries: u32,
        d: &mut Entries,
        e: &mut Entries,
    );
    pub safe fn routines_sdmn(m: u32, n: u32, c: f64, cv: f64, kd: f64, df: &mut Places);
    pub safe fn routines_sckb(df: &Places, m: u32, n: u32, c: f64, ck: &mut Places);
    pub safe fn routines_aswfa(
        m: u32,
        n: u32,
        c: f64,
        cv: f64,
        kd: f64,
        x: f64,
        value: &mut f64,
        derivative: &mut f64,
    );
    pub safe fn routines_kmn(df: &Places, m: u32, n: u32, c: f64) -> f64;
    pub safe fn routines_qstar(
        ck: &Places,
        m: u32,
        n: u32,
        c: f64,
        ck1: f64,
        qs: &mut f64,
        qt: &mut f64,
    );
    pub safe fn routines_cbk(
        ck: &Places,
        m: u32,
        n: u32,
        c: f64,
        cv: f64,
        qt: f64,
        bk: &mut Places,
    );
    /// 0 where a trial order is not from 1 to 100,000, as in the next two.
    pub safe fn routines_msta1(x: f64, mp: u32) -> u32;
    pub safe fn routines_msta2(x: f64, n: u32, mp: u32) -> u32;
    pub safe fn routines_sphj(x: f64, n: u32, sj: &mut BesselPlaces, dj: &mut BesselPlaces) -> u32;
    /// The highest order computed.
    pub safe fn routines_sphy(x: f64, n: u32, sy: &mut BesselPlaces, dy: &mut BesselPlaces) -> u32;
}
