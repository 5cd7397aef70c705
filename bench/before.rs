//! Times rows and radial functions of two builds of the library side by side: another checkout's, which
//! is called before, and this one's, after. Each is a shared library made of `rows.rs`, and both are
//! loaded into one process; their answers are held against each other bit for bit.

#[allow(dead_code)]
mod measure;
mod row;

use std::ffi::{CStr, CString, c_char, c_int, c_void};
use std::hint::black_box;

use measure::{Measured, ROUNDS, seconds, time};
use row::{RadialFunction, Row, RowFunction};

/// How long a round of one side takes, about, where one call does not take longer.
const ROUND: f64 = 0.01;
const RTLD_NOW: c_int = 2;

unsafe extern "C" {
    fn dlopen(file: *const c_char, flags: c_int) -> *mut c_void;
    fn dlsym(library: *mut c_void, symbol: *const c_char) -> *mut c_void;
}

/// What one build has.
#[derive(Clone, Copy)]
struct Build {
    row: RowFunction,
    dlmf_row: RowFunction,
    radial: RadialFunction,
    first_kind: RadialFunction,
}

/// The functions of the shared library at this path.
fn load(path: &str) -> Build {
    let file = CString::new(path).expect("a path");
    // SAFETY: the name ends with a zero.
    let library = unsafe { dlopen(file.as_ptr(), RTLD_NOW) };
    assert!(!library.is_null(), "{path} was not loaded");
    let named = |name: &CStr| {
        // SAFETY: the name ends with a zero.
        let function = unsafe { dlsym(library, name.as_ptr()) };
        assert!(!function.is_null(), "{path} has no {name:?}");
        function
    };
    // SAFETY: `rows.rs` holds the functions to these types.
    unsafe {
        let row = |name| std::mem::transmute::<*mut c_void, RowFunction>(named(name));
        let radial = |name| std::mem::transmute::<*mut c_void, RadialFunction>(named(name));
        Build {
            row: row(c"bench_row"),
            dlmf_row: row(c"bench_dlmf_row"),
            radial: radial(c"bench_radial"),
            first_kind: radial(c"bench_first_kind"),
        }
    }
}

#[derive(Clone, Copy, Debug)]
enum Kind {
    Prolate,
    Oblate,
}
use Kind::{Oblate, Prolate};

struct Mode {
    dlmf: bool,
    kind: Kind,
    m: u16,
    n: u16,
    c: f64,
}

const fn mode(kind: Kind, m: u16, n: u16, c: f64) -> Mode {
    let dlmf = false;
    Mode {
        dlmf,
        kind,
        m,
        n,
        c,
    }
}

const fn dlmf(m: u16, n: u16, c: f64) -> Mode {
    let dlmf = true;
    Mode {
        dlmf,
        ..mode(Prolate, m, n, c)
    }
}

/// The rows of `modes.rs`, the other kind of the small ones, and small c, where pivots are replaced;
/// the last order with factors from Card 7's table and the first without, and the row with the most
/// entries for its places; then DLMF's form, prolate only: Card 4 gave oblate ones other numbers, and
/// the time is the same.
const ROWS: [Mode; 16] = [
    mode(Prolate, 0, 0, 1.0),
    mode(Oblate, 0, 0, 1.0),
    mode(Prolate, 0, 5, 5.0),
    mode(Oblate, 0, 5, 5.0),
    mode(Oblate, 0, 40, 20.0),
    mode(Oblate, 40, 80, 50.0),
    mode(Prolate, 0, 199, 190.0),
    mode(Oblate, 199, 398, 90.0),
    mode(Prolate, 0, 4, 1e-8),
    mode(Oblate, 4, 4, 1e-4),
    mode(Prolate, 3, 3, 1.0),
    mode(Prolate, 4, 4, 1.0),
    mode(Prolate, 0, 0, 280.0),
    dlmf(0, 0, 1.0),
    dlmf(0, 5, 5.0),
    dlmf(0, 199, 190.0),
];

impl Mode {
    /// c of the call with this number. They differ in the sixth digit, so that branch prediction
    /// does not learn the steps of one row by heart.
    fn c_of(&self, call: usize) -> f64 {
        self.c * (1.0 + (call % 1000) as f64 * 1e-6)
    }

    fn row(&self, build: Build, c: f64) -> Row {
        let mut row = Row::new();
        let oblate = matches!(self.kind, Oblate);
        let function = if self.dlmf { build.dlmf_row } else { build.row };
        let accepted = function(oblate, self.m, self.n, c, &mut row);
        assert!(accepted, "{} is refused", self.name());
        row
    }

    fn name(&self) -> String {
        let kind = format!("{:?}", self.kind).to_lowercase();
        let c = match self.c {
            1e-3.. => format!("{}", self.c),
            _ => format!("{:e}", self.c),
        };
        let form = if self.dlmf { "DLMF " } else { "" };
        format!("{form}{kind} m {} n {} c {c}", self.m, self.n)
    }

    /// One line of the table.
    fn measure(&self, before: Build, after: Build) {
        let row = |build: Build, call: usize| self.row(build, self.c_of(call));
        measure(&self.name(), before, after, row);
    }
}

/// A radial function of oblate modes with their characteristic values.
struct Radial {
    first_alone: bool,
    mode: Mode,
    x: f64,
}

const fn radial(m: u16, n: u16, c: f64) -> Radial {
    Radial {
        first_alone: false,
        mode: mode(Oblate, m, n, c),
        x: 0.0,
    }
}

const fn first_kind(m: u16, n: u16, c: f64, x: f64) -> Radial {
    Radial {
        first_alone: true,
        x,
        ..radial(m, n, c)
    }
}

/// The disc of `modes.rs`, and first kinds on it and off it.
const RADIALS: [Radial; 11] = [
    radial(0, 0, 1.0),
    radial(0, 5, 5.0),
    radial(10, 40, 20.0),
    radial(40, 80, 40.0),
    radial(0, 199, 75.0),
    radial(100, 150, 50.0),
    radial(170, 175, 1.0),
    first_kind(0, 0, 1.0, 0.0),
    first_kind(0, 0, 1.0, 1.0),
    first_kind(0, 5, 5.0, 1.0),
    first_kind(0, 170, 15.0, 1.0),
];

impl Radial {
    fn measure(&self, before: Build, after: Build) {
        let Mode { m, n, .. } = self.mode;
        let places = usize::from(n - m);
        let modes: Vec<(f64, f64)> = (0..200)
            .map(|call| {
                let c = self.mode.c_of(call);
                (c, f64::from_bits(self.mode.row(after, c).values[places]))
            })
            .collect();
        let call = |build: Build, call: usize| {
            let (c, cv) = modes[call % modes.len()];
            let function = if self.first_alone {
                build.first_kind
            } else {
                build.radial
            };
            let mut numbers = [0; 4];
            let x = self.x;
            let accepted = function(&row::Radial { m, n, c, cv, x }, &mut numbers);
            assert!(accepted, "{} is refused", self.name());
            numbers
        };
        measure(&self.name(), before, after, call);
    }

    fn name(&self) -> String {
        let Mode { m, n, c, .. } = self.mode;
        let call = if self.first_alone {
            "first kind"
        } else {
            "radial"
        };
        format!("{call} m {m} n {n} c {c} x {}", self.x)
    }
}

/// One line of the table. `answer` is what a build answers to the call with a number.
fn measure<A: PartialEq>(
    name: &str,
    before: Build,
    after: Build,
    answer: impl Fn(Build, usize) -> A,
) {
    let once = seconds(|| (0..8).for_each(|call| drop(answer(before, call)))) / 8.0;
    let calls = (ROUND / once).ceil() as usize;
    for call in 0..calls.min(1000) {
        let equal = answer(before, call) == answer(after, call);
        assert!(equal, "{name}: in call {call} the answers differ");
    }
    let run =
        |build: Build| seconds(|| (0..calls).for_each(|call| drop(black_box(answer(build, call)))));
    let measured = Measured::rounds(ROUNDS, || run(after), || run(before));
    let each = calls as f64;
    println!(
        "| {:<30} | {:>8} | {:>8} | {:.3} | {:.3} |",
        name,
        time(measured.rust / each),
        time(measured.ours / each),
        measured.ratio(),
        measured.median(),
    );
}

fn main() {
    let mut paths = std::env::args().skip(1);
    let [before, after] = [(); 2].map(|()| load(&paths.next().expect("two libraries")));
    println!(
        "Answers of two builds, in turn, {ROUNDS} rounds, equal bit for bit. Time of a call in the best"
    );
    println!(
        "round; ratio of these times, after to before, and the median of the rounds' ratios.\n"
    );
    println!("| call | before | after | ratio | median |");
    println!("|---|---|---|---|---|");
    for mode in &ROWS {
        mode.measure(before, after);
    }
    for radial in &RADIALS {
        radial.measure(before, after);
    }
}
