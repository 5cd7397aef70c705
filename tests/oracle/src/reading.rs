//! A plain reading of document 01, with the cards of document 02 that have landed: the refusals, and
//! the row by bisection.
//!
//! Written from the documents' words and not from `sphd.rs`, so that the two can be held against
//! each other. What refusal 12 asks for stands in `orders.rs`.

use crate::orders::{self, OutOfRange, Search};
use crate::record::{Kind, Record, Request};

const LARGEST_ORDER: u16 = 199;
const LARGEST_OFFSET: u16 = 199;
const ROW_LIMIT: f64 = 291.0;
const COEFFICIENT_LIMIT: f64 = 175.0;
const COEFFICIENT_PLACES: i32 = 200;
/// Off the disc: the highest Bessel order that there is a place for, and the greatest argument.
const GREATEST_BESSEL_ORDER: i32 = 251;
const GREATEST_BESSEL_ARGUMENT: f64 = 200.0;
/// Below it `sphj` searches for no order.
const LEAST_SEARCHED_ARGUMENT: f64 = 1e-100;
const ZERO_PARAMETER: f64 = 1e-10;
const TOLERANCE: f64 = 1e-14;
const PIVOT_SUBSTITUTE: f64 = 1e-30;
/// More steps than any place is known to take.
const ENOUGH_STEPS: u32 = 65_535;

/// H: (n - m)/2 + c in doubles.
pub fn half_offset_plus_c(m: u16, n: u16, c: f64) -> f64 {
    f64::from(n - m) / 2.0 + c
}

/// N: 25 + H truncated, for an H below the limits.
pub fn terms(m: u16, n: u16, c: f64) -> i32 {
    25 + half_offset_plus_c(m, n, c) as i32
}

/// Refusals 3 to 8, 11 and 12, the first that applies.
///
/// Refusals 1 and 2 belong to the stream, 9 to the buffers of a library caller (a record lends
/// none), 10 to the row.
pub fn refusal(record: &Record) -> Option<u8> {
    let Some(request) = Request::of_operation(record.operation) else {
        return Some(3);
    };
    coefficient_refusal(record, request)
        .or_else(|| x_refused(record.x, request).then_some(8))
        .or_else(|| off_disc_refused(record, request).then_some(11))
        .or_else(|| matches!(order_search(record), Some(Err(_))).then_some(12))
}

/// Refusals 4 to 7, those that coefficients share with the angular pair.
pub fn coefficient_refusal(record: &Record, request: Request) -> Option<u8> {
    let Record { m, n, c, cv, .. } = *record;
    if m > LARGEST_ORDER || n < m || n - m > LARGEST_OFFSET {
        Some(4)
    } else if c.is_nan() || c.is_infinite() || c < 0.0 {
        Some(5)
    } else if too_large(m, n, c, request) {
        Some(6)
    } else if !request.is_row() && !cv.is_finite() {
        Some(7)
    } else {
        None
    }
}

fn too_large(m: u16, n: u16, c: f64, request: Request) -> bool {
    let h = half_offset_plus_c(m, n, c);
    match request {
        Request::Row(_) | Request::DlmfRow(_) => h >= ROW_LIMIT,
        Request::Angular(_) => h >= COEFFICIENT_LIMIT,
        // H is tested first: 25 + H truncated is a small number only below the limit.
        Request::Radial | Request::FirstKind => {
            h >= COEFFICIENT_LIMIT || terms(m, n, c) + i32::from(m) > COEFFICIENT_PLACES
        }
    }
}

fn x_refused(x: f64, request: Request) -> bool {
    match request {
        Request::Row(_) | Request::DlmfRow(_) => false,
        Request::Angular(_) => x.is_nan() || x.abs() > 1.0,
        Request::Radial | Request::FirstKind => x.is_nan() || x.is_infinite() || x < 0.0,
    }
}

/// Refusal 11, for a record that none before it turns back.
pub fn off_disc_refused(record: &Record, request: Request) -> bool {
    let Record { m, n, c, x, .. } = *record;
    request.is_radial()
        && x > 0.0
        && (2 * terms(m, n, c) + i32::from(m) > GREATEST_BESSEL_ORDER
            || c * x > GREATEST_BESSEL_ARGUMENT)
}

/// The search for a Bessel order in a record of operation 5 or 8 that no refusal to 11 turns back; none
/// where `sphj` makes none. The order up to which it is asked for Bessel functions is by the limit of
/// `rmn1`, which truncates (n - m)/2 and c apart.
pub fn order_search(record: &Record) -> Option<Result<Search, OutOfRange>> {
    let Record { m, n, c, x, .. } = *record;
    let radial = Request::of_operation(record.operation).is_some_and(Request::is_radial);
    let searched = radial && x > 0.0 && c * x >= LEAST_SEARCHED_ARGUMENT;
    searched.then(|| orders::search(c * x, highest_order(m, n, c)))
}

/// The order up to which `rmn1` asks for Bessel functions, and `rmn2l` for those of the second kind.
pub fn highest_order(m: u16, n: u16, c: f64) -> i32 {
    2 * (25 + i32::from((n - m) / 2) + c as i32) + i32::from(m)
}

/// A characteristic value with the bracket that its stopping test used, its step number, and
/// whether the substitute was put in during any count for its place.
#[derive(Clone, Copy, Debug)]
pub struct RowValue {
    pub steps: u32,
    pub value: f64,
    pub lower: f64,
    pub upper: f64,
    pub substituted: bool,
}

/// Refusal 10.
#[derive(Debug)]
pub struct OutOfSteps;

/// The row of modes m to n, for a mode that no refusal from 3 to 8 turns back.
pub fn row(
    kind: Kind,
    m: u16,
    n: u16,
    c: f64,
    allowance: u32,
) -> Result<Vec<RowValue>, OutOfSteps> {
    if c < ZERO_PARAMETER {
        return Ok((m..=n).map(zero_parameter_value).collect());
    }
    let [even, odd] = families(kind, m, n, c, allowance)?;
    let at_offset = |j: usize| if j % 2 == 0 { even[j / 2] } else { odd[j / 2] };
    Ok((0..=usize::from(n - m)).map(at_offset).collect())
}

/// A value in DLMF's form, by Card 4. DLMF's eigenvalue plus γ² is the value, and γ² is c² for
/// prolate modes and −c² for oblate ones; the square is rounded, and so is the result.
pub fn eigenvalue(kind: Kind, value: f64, c: f64) -> f64 {
    let square = c * c;
    match kind {
        Kind::Prolate => value - square,
        Kind::Oblate => value + square,
    }
}

/// The least allowance with which a row is not refused 10, for choosing records at that edge.
pub fn needed_allowance(kind: Kind, m: u16, n: u16, c: f64) -> u32 {
    if c < ZERO_PARAMETER {
        return 0;
    }
    let places = families(kind, m, n, c, ENOUGH_STEPS).expect("enough steps");
    let most = places.iter().flatten().map(|place| place.steps).max();
    most.expect("at least one place")
}

fn families(
    kind: Kind,
    m: u16,
    n: u16,
    c: f64,
    allowance: u32,
) -> Result<[Vec<RowValue>; 2], OutOfSteps> {
    let even = family(kind, Parity::Even, m, n, c, allowance)?;
    let odd = family(kind, Parity::Odd, m, n, c, allowance)?;
    Ok([even, odd])
}

fn zero_parameter_value(mode: u16) -> RowValue {
    let value = f64::from(u32::from(mode) * (u32::from(mode) + 1));
    RowValue {
        steps: 0,
        value,
        lower: value,
        upper: value,
        substituted: false,
    }
}

#[derive(Clone, Copy)]
enum Parity {
    Even,
    Odd,
}

/// What the count and the bounds use of a matrix entry.
struct Entry {
    d: f64,
    e: f64,
}

/// The K entries of one parity.
fn entries(kind: Kind, parity: Parity, m: u16, n: u16, c: f64) -> Vec<Entry> {
    let cs = c * c * f64::from(kind.sign());
    let size = 10 + half_offset_plus_c(m, n, c) as i64;
    let mut a_before = None;
    let mut entries = Vec::new();
    for i in 1..=size {
        let k = match parity {
            Parity::Even => 2 * (i - 1),
            Parity::Odd => 2 * i - 1,
        };
        let (a, d, g) = matrix_terms(i64::from(m), k, cs);
        let e = a_before.map_or(0.0, |before: f64| (before * g).sqrt());
        entries.push(Entry { d, e });
        a_before = Some(a);
    }
    entries
}

/// a, d and g of document 01. The whole-number parts are exact, so they are formed as such.
pub fn matrix_terms(m: i64, k: i64, cs: f64) -> (f64, f64, f64) {
    let degree = m + k;
    let twice = 2 * degree;
    let quotient = |above: i64, below: i64| above as f64 / below as f64;
    let a = quotient((2 * m + k + 2) * (2 * m + k + 1), (twice + 3) * (twice + 5)) * cs;
    let d = (degree * (degree + 1)) as f64
        + quotient(
            2 * degree * (degree + 1) - 2 * m * m - 1,
            (twice - 1) * (twice + 3),
        ) * cs;
    let g = quotient(k * (k - 1), (twice - 3) * (twice - 1)) * cs;
    (a, d, g)
}

#[derive(Clone, Copy)]
struct Bracket {
    lower: f64,
    upper: f64,
}

fn gershgorin_bounds(entries: &[Entry]) -> Bracket {
    let last = entries.last().expect("at least ten entries");
    let mut bounds = Bracket {
        lower: last.d - last.e.abs(),
        upper: last.d + last.e.abs(),
    };
    for pair in entries.windows(2) {
        let t = pair[0].e.abs() + pair[1].e.abs();
        if pair[0].d + t > bounds.upper {
            bounds.upper = pair[0].d + t;
        }
        if pair[0].d - t < bounds.lower {
            bounds.lower = pair[0].d - t;
        }
    }
    bounds
}

/// What a count at a shift gives: how many pivots are negative, and whether the substitute was put
/// in during this count.
#[derive(Clone, Copy)]
struct PivotCount {
    negative: usize,
    substituted: bool,
}

/// A zero pivot of either sign is replaced as the next entry begins, so that the last one never is.
fn count_pivots(entries: &[Entry], shift: f64) -> PivotCount {
    let mut s = 1.0;
    let mut count = PivotCount {
        negative: 0,
        substituted: false,
    };
    for entry in entries {
        if s == 0.0 {
            s = PIVOT_SUBSTITUTE;
            count.substituted = true;
        }
        let f = entry.e * entry.e;
        s = (entry.d - f / s) - shift;
        if s < 0.0 {
            count.negative += 1;
        }
    }
    count
}

/// A place that is to be bisected: its bracket, which the counts of other places may tighten too,
/// and whether the substitute was put in during a count of its own.
#[derive(Clone, Copy)]
struct Place {
    bracket: Bracket,
    substituted: bool,
}

/// All places of one parity, the odd place beyond n included.
fn family(
    kind: Kind,
    parity: Parity,
    m: u16,
    n: u16,
    c: f64,
    allowance: u32,
) -> Result<Vec<RowValue>, OutOfSteps> {
    let entries = entries(kind, parity, m, n, c);
    let fresh = Place {
        bracket: gershgorin_bounds(&entries),
        substituted: false,
    };
    let mut places = vec![fresh; usize::from((n - m + 2) / 2)];
    (1..=places.len())
        .map(|number| {
            open(&mut places, number);
            bisect(&entries, &mut places, number, allowance)
        })
        .collect()
}

/// What a place takes over from its neighbours before it is bisected. Places count from 1.
fn open(places: &mut [Place], number: usize) {
    let own = places[number - 1].bracket;
    let mut later = places[number..].iter().map(|place| place.bracket.upper);
    if let Some(upper) = later.find(|&upper| upper < own.upper) {
        places[number - 1].bracket.upper = upper;
    }
    if number > 1 && places[number - 2].bracket.lower > own.lower {
        places[number - 1].bracket.lower = places[number - 2].bracket.lower;
    }
}

fn bisect(
    entries: &[Entry],
    places: &mut [Place],
    number: usize,
    allowance: u32,
) -> Result<RowValue, OutOfSteps> {
    for steps in 1..=allowance {
        let Place {
            bracket: Bracket { lower, upper },
            substituted,
        } = places[number - 1];
        let value = (upper + lower) / 2.0;
        if ((upper - lower) / value).abs() < TOLERANCE {
            return Ok(RowValue {
                steps,
                value,
                lower,
                upper,
                substituted,
            });
        }
        tighten(places, number, value, count_pivots(entries, value));
    }
    Err(OutOfSteps)
}

/// What a count at a place's midpoint says: its number tightens this place and others, its flag is
/// this place's alone.
fn tighten(places: &mut [Place], number: usize, midpoint: f64, count: PivotCount) {
    let own = &mut places[number - 1];
    own.substituted |= count.substituted;
    if count.negative < number {
        own.bracket.lower = midpoint;
        return;
    }
    own.bracket.upper = midpoint;
    let last = places.len();
    if count.negative >= last {
        places[last - 1].bracket.upper = midpoint;
        return;
    }
    let after = &mut places[count.negative].bracket;
    if after.lower < midpoint {
        after.lower = midpoint;
    }
    let counted = &mut places[count.negative - 1].bracket;
    if midpoint < counted.upper {
        counted.upper = midpoint;
    }
}
