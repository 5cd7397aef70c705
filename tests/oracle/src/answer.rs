//! The lines that a record or a stream must print.

use std::fmt::Write;

use crate::reading;
use crate::record::{Form, Kind, Record, Request, hex, same};
use crate::xsf::specfun::{served, unaltered};

/// Which build gives the angular pair and the radial functions; all else is by the unaltered text.
#[derive(Clone, Copy, Debug, PartialEq, Eq)]
pub enum Build {
    /// The Rust as it stands.
    Unaltered,
    /// Powers by the power rule, and our sine, cosine, decimal logarithm and arctangent.
    PowerRule,
}

/// The characteristic values of modes m to n by `segv`.
pub fn segv(kind: Kind, m: u16, n: u16, c: f64) -> Vec<f64> {
    let mut last = 0.0;
    let mut row = vec![0.0; 200];
    unaltered::segv(
        i32::from(m),
        i32::from(n),
        c,
        kind.sign(),
        &mut last,
        &mut row,
    );
    row.truncate(usize::from(n - m) + 1);
    row
}

/// The angular pair by `aswfa`, at an x that need not be the record's.
pub fn aswfa(build: Build, kind: Kind, record: &Record, x: f64) -> [f64; 2] {
    let (m, n) = (i32::from(record.m), i32::from(record.n));
    let [mut value, mut derivative] = [0.0; 2];
    let aswfa = match build {
        Build::Unaltered => unaltered::aswfa,
        Build::PowerRule => served::aswfa,
    };
    aswfa(
        x,
        m,
        n,
        record.c,
        kind.sign(),
        record.cv,
        &mut value,
        &mut derivative,
    );
    [value, derivative]
}

/// Both oblate radial kinds by `rswfo` with kf = 3.
pub fn both_kinds(build: Build, record: &Record) -> [f64; 4] {
    rswfo(build, record, 3)
}

/// The oblate first kind by `rswfo` with kf = 1.
pub fn first_kind(build: Build, record: &Record) -> [f64; 2] {
    let [r1f, r1d, _, _] = rswfo(build, record, 1);
    [r1f, r1d]
}

fn rswfo(build: Build, record: &Record, kf: i32) -> [f64; 4] {
    let (m, n) = (i32::from(record.m), i32::from(record.n));
    let [mut r1f, mut r1d, mut r2f, mut r2d] = [0.0; 4];
    let Record { c, x, cv, .. } = *record;
    let rswfo = match build {
        Build::Unaltered => unaltered::rswfo,
        Build::PowerRule => served::rswfo,
    };
    rswfo(m, n, c, x, cv, kf, &mut r1f, &mut r1d, &mut r2f, &mut r2d);
    [r1f, r1d, r2f, r2d]
}

/// How `rswfo` comes to the second kind off the disc.
#[derive(Clone, Copy, Debug, PartialEq, Eq)]
pub enum Route {
    /// By `rmn2l`.
    Large,
    /// By `rmn2so`, as x is not above 1e-8.
    Small,
    /// By `rmn2so`, as `rmn2l` came to an order that `sphy` has not.
    Order,
    /// By `rmn2so`, as `rmn2l` lost its digits.
    Digits,
}

/// The route of an accepted record of operation 5 with x above zero.
pub fn route(build: Build, record: &Record) -> Route {
    let (m, n) = (i32::from(record.m), i32::from(record.n));
    let Record { c, x, cv, .. } = *record;
    if x <= LARGEST_SMALL_ARGUMENT {
        return Route::Small;
    }
    let rmn2l_route = match build {
        Build::Unaltered => unaltered::rmn2l_route,
        Build::PowerRule => served::rmn2l_route,
    };
    match rmn2l_route(m, n, c, x, cv) {
        (_, true) => Route::Order,
        (id, false) if id > -1 => Route::Digits,
        _ => Route::Large,
    }
}

/// Up to it `rswfo` does not ask `rmn2l`.
const LARGEST_SMALL_ARGUMENT: f64 = 1e-8;

/// Places for Bessel functions.
pub type BesselPlaces = [f64; 252];

/// Spherical Bessel functions up to order n and their derivatives by `sphj`, and the highest order
/// computed; places above it are zero.
pub fn sphj(build: Build, x: f64, n: i32) -> (i32, BesselPlaces, BesselPlaces) {
    let (mut highest, mut sj, mut dj) = (0, [0.0; 252], [0.0; 252]);
    let sphj = match build {
        Build::Unaltered => unaltered::sphj,
        Build::PowerRule => served::sphj,
    };
    sphj(x, n, &mut highest, &mut sj, &mut dj);
    (highest, sj, dj)
}

/// Spherical Bessel functions of the second kind by `sphy`, likewise; above the highest order the place
/// of one more may be written.
pub fn sphy(build: Build, x: f64, n: i32) -> (i32, BesselPlaces, BesselPlaces) {
    let (mut highest, mut sy, mut dy) = (0, [0.0; 252], [0.0; 252]);
    let sphy = match build {
        Build::Unaltered => unaltered::sphy,
        Build::PowerRule => served::sphy,
    };
    sphy(x, n, &mut highest, &mut sy, &mut dy);
    (highest, sy, dy)
}

/// The order by `msta1`; with refusal 12 applying it may panic.
pub fn msta1(build: Build, x: f64, mp: i32) -> i32 {
    match build {
        Build::Unaltered => unaltered::msta1(x, mp),
        Build::PowerRule => served::msta1(x, mp),
    }
}

/// The order by `msta2`; with refusal 12 applying it may panic.
pub fn msta2(build: Build, x: f64, n: i32, mp: i32) -> i32 {
    match build {
        Build::Unaltered => unaltered::msta2(x, n, mp),
        Build::PowerRule => served::msta2(x, n, mp),
    }
}

/// The expansion coefficients by `sdmn`.
pub fn sdmn(kind: Kind, record: &Record) -> [f64; 200] {
    let (m, n) = (i32::from(record.m), i32::from(record.n));
    unaltered::sdmn_places(m, n, record.c, record.cv, kind.sign())
}

/// The power coefficients by `sckb`, from expansion coefficients.
pub fn sckb(record: &Record, df: &[f64]) -> [f64; 200] {
    unaltered::sckb_places(i32::from(record.m), i32::from(record.n), record.c, df)
}

/// The joining factor of the disc by `kmn`.
pub fn kmn(record: &Record, df: &[f64]) -> f64 {
    let (m, n) = (i32::from(record.m), i32::from(record.n));
    unaltered::kmn_factor(m, n, record.c, record.cv, df)
}

/// qs and qt by `qstar`.
pub fn qstar(record: &Record, ck1: f64, ck: &[f64]) -> [f64; 2] {
    let (m, n) = (i32::from(record.m), i32::from(record.n));
    unaltered::qstar_pair(m, n, record.c, ck1, ck).into()
}

/// The disc's coefficients by `cbk`.
pub fn cbk(record: &Record, qt: f64, ck: &[f64]) -> [f64; 200] {
    let (m, n) = (i32::from(record.m), i32::from(record.n));
    unaltered::cbk_places(m, n, record.c, record.cv, qt, ck)
}

/// The next record of a stream, or the refusal that stops it; none at its end. A mark that is not
/// there in full comes first, then a wrong mark, then what the right one's record lacks.
pub fn next_record(stream: &mut &[u8]) -> Option<Result<Record, u8>> {
    let rest = std::mem::take(stream);
    if rest.is_empty() {
        return None;
    }
    let Some(&mark) = rest.first_chunk() else {
        return Some(Err(1));
    };
    let Some(form) = Form::of_mark(mark) else {
        return Some(Err(2));
    };
    let Some((bytes, after)) = rest.split_at_checked(form.length()) else {
        return Some(Err(1));
    };
    *stream = after;
    Some(Ok(Record::from_bytes(form, bytes)))
}

/// The lines of a whole stream.
pub fn stream_lines(build: Build, stream: &[u8]) -> String {
    each_record(stream, |number, record| record_lines(build, number, record))
}

/// The coefficients of a whole stream's records.
pub fn stream_coefficients(stream: &[u8]) -> String {
    each_record(stream, coefficient_lines)
}

fn each_record(mut stream: &[u8], lines: impl Fn(usize, &Record) -> String) -> String {
    let mut out = String::new();
    let mut number = 0;
    while let Some(next) = next_record(&mut stream) {
        match next {
            Ok(record) => out += &lines(number, &record),
            Err(refusal) => out += &refusal_line(number, refusal),
        }
        number += 1;
    }
    out
}

fn refusal_line(number: usize, refusal: u8) -> String {
    format!("R {number} {refusal}\n")
}

/// The lines of one record. A line `X` record, mode, value by `segv`, value by the reading stands
/// before a row in which the two differ: then the reading or the document is wrong.
pub fn record_lines(build: Build, number: usize, record: &Record) -> String {
    if let Some(refusal) = reading::refusal(record) {
        return refusal_line(number, refusal);
    }
    let _named = NameOnPanic(record);
    let Record { m, n, x, .. } = *record;
    match Request::of_operation(record.operation).expect("an operation from 1 to 8") {
        Request::Row(kind) => row_lines(number, kind, record, v_and_z_lines),
        Request::DlmfRow(kind) => row_lines(number, kind, record, d_line),
        Request::Angular(kind) => mode_line('A', number, m, n, &aswfa(build, kind, record, x)),
        Request::Radial => mode_line('F', number, m, n, &both_kinds(build, record)),
        Request::FirstKind => mode_line('G', number, m, n, &first_kind(build, record)),
    }
}

/// Writes the lines of one mode of a row from the record's number, the mode, the kind, the record's
/// c, the value by `segv` and what the reading found.
type LinesOfMode = fn(usize, u16, Kind, f64, f64, &reading::RowValue) -> String;

fn row_lines(number: usize, kind: Kind, record: &Record, lines_of_mode: LinesOfMode) -> String {
    let Record {
        m, n, c, allowance, ..
    } = *record;
    let Ok(row) = reading::row(kind, m, n, c, allowance) else {
        return refusal_line(number, 10);
    };
    let mut disagreements = String::new();
    let mut lines = String::new();
    for ((mode, value), read) in (m..=n).zip(segv(kind, m, n, c)).zip(&row) {
        if !same(value, read.value) {
            disagreements += &format!("X {number} {mode} {} {}\n", hex(value), hex(read.value));
        }
        lines += &lines_of_mode(number, mode, kind, c, value, read);
    }
    disagreements + &lines
}

fn v_and_z_lines(
    number: usize,
    mode: u16,
    _kind: Kind,
    _c: f64,
    value: f64,
    read: &reading::RowValue,
) -> String {
    let (steps, substituted) = (read.steps, u8::from(read.substituted));
    let [value, lower, upper] = [value, read.lower, read.upper].map(hex);
    format!("V {number} {mode} {steps} {value} {lower} {upper}\nZ {number} {mode} {substituted}\n")
}

fn d_line(
    number: usize,
    mode: u16,
    kind: Kind,
    c: f64,
    value: f64,
    _read: &reading::RowValue,
) -> String {
    let eigenvalue = reading::eigenvalue(kind, value, c);
    format!("D {number} {mode} {}\n", hex(eigenvalue))
}

fn mode_line(letter: char, number: usize, m: u16, n: u16, values: &[f64]) -> String {
    format!("{letter} {number} {m} {n}{}\n", words(values))
}

fn words(values: &[f64]) -> String {
    values.iter().fold(String::new(), |mut words, &value| {
        let _ = write!(words, " {}", hex(value));
        words
    })
}

/// The coefficients behind an angular or radial record, one line for each routine; x is not tested,
/// and a row prints nothing.
fn coefficient_lines(number: usize, record: &Record) -> String {
    let Some(request) = Request::of_operation(record.operation) else {
        return refusal_line(number, 3);
    };
    if let Some(refusal) = reading::coefficient_refusal(record, request) {
        return refusal_line(number, refusal);
    }
    if request.is_row() {
        return String::new();
    }
    let df = sdmn(request.kind(), record);
    let ck = sckb(record, &df);
    let mut lines = format!("sdmn {number}{}\nsckb {number}{}\n", words(&df), words(&ck));
    if request == Request::Radial {
        let ck1 = kmn(record, &df);
        let [qs, qt] = qstar(record, ck1, &ck);
        let bk = cbk(record, qt, &ck);
        lines += &format!("kmn {number}{}\n", words(&[ck1]));
        lines += &format!("qstar {number}{}\n", words(&[qs, qt]));
        lines += &format!("cbk {number}{}\n", words(&bk));
    }
    lines
}

/// Names the record where the Rust panics, so that it can be run again alone.
struct NameOnPanic<'a>(&'a Record);

impl Drop for NameOnPanic<'_> {
    fn drop(&mut self) {
        if std::thread::panicking() {
            eprintln!("the Rust original stopped at {}", self.0);
        }
    }
}
