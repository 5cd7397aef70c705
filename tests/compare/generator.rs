//! Seeded records. The README's table gives the distribution that the weights here make.

use oracle::answer::segv;
use oracle::reading::{
    coefficient_refusal, half_offset_plus_c, matrix_terms, needed_allowance, off_disc_refused,
};
use oracle::record::{Form, Record, Request, Written};

use crate::random::Random;

const OPERATIONS: [(u64, u8); 8] = [
    (11, 1),
    (11, 2),
    (20, 3),
    (20, 4),
    (18, 5),
    (5, 6),
    (5, 7),
    (10, 8),
];

/// How large a mode is: this bounds the cost of a record.
#[derive(Clone, Copy)]
pub enum Size {
    Small,
    Medium,
    HighOrder,
    Large,
    Edge,
}

pub type Sizes = &'static [(u64, Size)];

const SIZES: Sizes = &[
    (60, Size::Small),
    (23, Size::Medium),
    (10, Size::HighOrder),
    (4, Size::Large),
    (3, Size::Edge),
];

#[derive(Clone, Copy)]
enum Parameter {
    Zero,
    BelowTiny,
    AroundTiny,
    VerySmall,
    Small,
    Whole,
    Half,
    BesideHalf,
    Uniform,
    /// Of rows up to m 3: the matrix has about as many entries as there are factors in Card 7's table.
    TableEnd,
    Limit,
}

const PARAMETERS: [(u64, Parameter); 9] = [
    (6, Parameter::Zero),
    (3, Parameter::BelowTiny),
    (4, Parameter::AroundTiny),
    (13, Parameter::Small),
    (9, Parameter::Whole),
    (9, Parameter::Half),
    (9, Parameter::BesideHalf),
    (45, Parameter::Uniform),
    (2, Parameter::Limit),
];

#[derive(Clone, Copy)]
enum Value {
    True,
    UlpsOff,
    SlightlyOff,
    OfNoMode,
    Whole,
    Diagonal,
    Zero,
    Huge,
    AnyFinite,
}

const VALUES: [(u64, Value); 9] = [
    (48, Value::True),
    (12, Value::UlpsOff),
    (9, Value::SlightlyOff),
    (12, Value::OfNoMode),
    (6, Value::Whole),
    (4, Value::Diagonal),
    (2, Value::Zero),
    (2, Value::Huge),
    (5, Value::AnyFinite),
];

/// An x of operations 5 and 8.
#[derive(Clone, Copy)]
enum OffDisc {
    Zero,
    Subnormal,
    VeryTiny,
    /// About where x to the third, x to the second and their reciprocals leave the doubles.
    Tiny,
    /// c x beside 1e-100, below which no Bessel order is searched for.
    LeastSearched,
    /// c x beside 1e-60, below which `sphy` recurs no longer.
    LeastSecond,
    SmallProduct,
    /// x beside 1e-8, up to which the second kind is by `rmn2so`.
    BesideSmall,
    Small,
    AroundOne,
    Whole,
    /// c x uniform up to its limit.
    Product,
    /// c x beside its limit.
    ProductLimit,
    Large,
}

const OFF_DISC: [(u64, OffDisc); 14] = [
    (7, OffDisc::Zero),
    (2, OffDisc::Subnormal),
    (2, OffDisc::VeryTiny),
    (6, OffDisc::Tiny),
    (3, OffDisc::LeastSearched),
    (3, OffDisc::LeastSecond),
    (8, OffDisc::SmallProduct),
    (4, OffDisc::BesideSmall),
    (9, OffDisc::Small),
    (27, OffDisc::AroundOne),
    (6, OffDisc::Whole),
    (13, OffDisc::Product),
    (3, OffDisc::ProductLimit),
    (7, OffDisc::Large),
];

/// An allowance above 65535, which the long form alone has room for. Cut to 16 bits, most of them would
/// be used up.
#[derive(Clone, Copy)]
enum Wide {
    /// 65536.
    Least,
    /// One or more times 65536, and beside the least that suffices.
    AboveNeeded,
    /// As a signed number the greatest, 2147483647.
    GreatestSigned,
    /// As a signed number negative: 2147483648 and some more.
    Negative,
    /// 4294967295.
    Greatest,
    Any,
}

const WIDES: [(u64, Wide); 6] = [
    (20, Wide::Least),
    (30, Wide::AboveNeeded),
    (10, Wide::GreatestSigned),
    (20, Wide::Negative),
    (10, Wide::Greatest),
    (10, Wide::Any),
];

/// Of rows in the long form.
const WIDE_PERCENT: u64 = 40;

#[derive(Clone, Copy)]
enum Spoiling {
    Operation,
    Mode,
    ParameterSign,
    ParameterLimit,
    Value,
    Argument,
    Allowance,
}

const SPOILINGS: [(u64, Spoiling); 7] = [
    (12, Spoiling::Operation),
    (16, Spoiling::Mode),
    (16, Spoiling::ParameterSign),
    (20, Spoiling::ParameterLimit),
    (12, Spoiling::Value),
    (16, Spoiling::Argument),
    (8, Spoiling::Allowance),
];

/// What records are drawn from.
#[derive(Clone, Copy)]
struct Mix {
    operations: &'static [(u64, u8)],
    sizes: Sizes,
    parameters: &'static [(u64, Parameter)],
    spoiled_percent: u64,
}

const ALL: Mix = Mix {
    operations: &OPERATIONS,
    sizes: SIZES,
    parameters: &PARAMETERS,
    spoiled_percent: 12,
};

const ROWS: Mix = Mix {
    operations: &[(3, 1), (3, 2), (1, 6), (1, 7)],
    ..ALL
};

/// Rows whose counts often meet a zero pivot, as hardly any others do. None is spoiled, since that
/// would take most of those out of this range.
const SMALL_C: Mix = Mix {
    operations: &[(4, 1), (4, 2), (1, 6), (1, 7)],
    sizes: &[
        (80, Size::Small),
        (14, Size::Medium),
        (5, Size::HighOrder),
        (1, Size::Large),
    ],
    parameters: &[(1, Parameter::VerySmall)],
    spoiled_percent: 0,
};

const RADIAL: Mix = Mix {
    operations: &[(1, 5)],
    ..ALL
};

const FIRST_KIND: Mix = Mix {
    operations: &[(1, 8)],
    ..ALL
};

/// In which forms records are written.
#[derive(Clone, Copy)]
enum Forms {
    AtRandom,
    /// In turn, this one next.
    InTurn(Form),
}

pub struct Generator {
    pub random: Random,
    mix: Mix,
    forms: Forms,
}

impl Generator {
    pub fn new(seed: u64) -> Generator {
        Generator::of_mix(seed, ALL)
    }

    /// Records of these sizes, of which the first is short, the second long and so on.
    pub fn alternating(seed: u64, sizes: Sizes) -> Generator {
        Generator {
            forms: Forms::InTurn(Form::Short),
            ..Generator::of_mix(seed, Mix { sizes, ..ALL })
        }
    }

    pub fn of_rows(seed: u64) -> Generator {
        Generator::of_mix(seed, ROWS)
    }

    pub fn with_small_c(seed: u64) -> Generator {
        Generator::of_mix(seed, SMALL_C)
    }

    pub fn of_radial(seed: u64) -> Generator {
        Generator::of_mix(seed, RADIAL)
    }

    pub fn of_first_kind(seed: u64) -> Generator {
        Generator::of_mix(seed, FIRST_KIND)
    }

    fn of_mix(seed: u64, mix: Mix) -> Generator {
        Generator {
            random: Random::new(seed),
            mix,
            forms: Forms::AtRandom,
        }
    }

    /// Records in the forms in which a stream is to have them.
    pub fn written(&mut self, count: usize) -> Vec<Written> {
        (0..count).map(|_| self.record()).collect()
    }

    /// The same where no stream is written.
    pub fn records(&mut self, count: usize) -> Vec<Record> {
        (0..count).map(|_| self.record().record).collect()
    }

    fn record(&mut self) -> Written {
        let form = self.form();
        let mut record = self.sound_record(form);
        if self.random.chance(self.mix.spoiled_percent) {
            // More than one fault tests the order of the refusals.
            let faults = self.random.weighted(&[(70, 1), (20, 2), (10, 3)]);
            for _ in 0..faults {
                self.spoil(&mut record);
            }
        }
        Written { form, record }
    }

    fn form(&mut self) -> Form {
        match self.forms {
            Forms::AtRandom => self.random.pick(&Form::BOTH),
            Forms::InTurn(form) => {
                self.forms = Forms::InTurn(form.other());
                form
            }
        }
    }

    /// A record that no refusal from 3 to 8 turns back, nor 11.
    fn sound_record(&mut self, form: Form) -> Record {
        let operation = self.random.weighted(self.mix.operations);
        let size = self.random.weighted(self.mix.sizes);
        self.sound_record_of(form, operation, size)
    }

    /// A sound record that costs little, of one of these operations.
    pub fn cheap_record(&mut self, form: Form, operations: &[u8]) -> Written {
        let operation = self.random.pick(operations);
        let record = self.sound_record_of(form, operation, Size::Small);
        Written { form, record }
    }

    /// The same in either form.
    pub fn cheap_records(&mut self, count: usize, operations: &[u8]) -> Vec<Written> {
        let record = |_| {
            let form = self.form();
            self.cheap_record(form, operations)
        };
        (0..count).map(record).collect()
    }

    fn sound_record_of(&mut self, form: Form, operation: u8, size: Size) -> Record {
        let request = Request::of_operation(operation).expect("an operation from 1 to 8");
        let off_disc = request.is_radial().then(|| self.random.weighted(&OFF_DISC));
        let mut record = Record {
            operation,
            m: 0,
            n: 0,
            allowance: 0,
            c: 0.0,
            cv: 0.0,
            x: self.argument(request),
        };
        loop {
            self.choose_mode(&mut record, request, size);
            if let Some(off_disc) = off_disc {
                record.x = off_disc_argument(&mut self.random, off_disc, record.c);
            }
            let refused = coefficient_refusal(&record, request).is_some();
            if !refused && !off_disc_refused(&record, request) {
                break;
            }
        }
        if request.is_row() {
            record.allowance = self.allowance(form, &record, request);
            record.cv = self.random.any_double();
        } else {
            record.allowance = self.random.bits() as u32 & form.largest_allowance();
            record.cv = self.characteristic_value(&record, request);
        }
        record
    }

    /// Order, degree and size parameter.
    fn choose_mode(&mut self, record: &mut Record, request: Request, size: Size) {
        (record.m, record.n) = self.mode_numbers(size);
        record.c = self.size_parameter(record, request, size);
    }

    /// m and n.
    pub fn mode_numbers(&mut self, size: Size) -> (u16, u16) {
        let random = &mut self.random;
        let (m, offset) = match size {
            Size::Small => (random.between(0, 6), random.between(0, 12)),
            Size::Medium => (random.between(0, 40), random.between(0, 40)),
            Size::HighOrder => (random.between(0, 199), random.between(0, 12)),
            Size::Large => (random.between(0, 199), random.between(0, 199)),
            Size::Edge => (
                random.pick(&[0, 1, 2, 3, 174, 175, 198, 199]),
                random.pick(&[0, 1, 2, 197, 198, 199]),
            ),
        };
        (m, m + offset)
    }

    /// A c for the record's m and n; refusal 6 may turn it back.
    pub fn size_parameter(&mut self, record: &Record, request: Request, size: Size) -> f64 {
        let parameter = match size {
            Size::Edge if request.is_row() && record.m <= 3 && self.random.chance(40) => {
                Parameter::TableEnd
            }
            Size::Edge if self.random.chance(30) => Parameter::Limit,
            _ => self.random.weighted(self.mix.parameters),
        };
        let greatest = match size {
            Size::Small => 10.0,
            Size::Medium => 50.0,
            Size::HighOrder | Size::Edge => 20.0,
            Size::Large => limit(request),
        };
        let random = &mut self.random;
        let whole = random.below(greatest as u64) as f64;
        match parameter {
            Parameter::Zero => random.pick(&[0.0, 0.0, -0.0, 5e-324]),
            Parameter::BelowTiny => random.log_uniform(1e-300, 1e-10),
            Parameter::AroundTiny => beside(1e-10, random.pick(&[-1, 0, 1])),
            Parameter::VerySmall => random.log_uniform(1e-10, 1e-3),
            Parameter::Small => random.log_uniform(1e-10, 1e-1),
            Parameter::Whole => whole,
            Parameter::Half => whole + 0.5,
            Parameter::BesideHalf => {
                beside(whole + random.pick(&[0.5, 1.0]), random.pick(&[-1, 1]))
            }
            Parameter::Uniform => greatest * random.unit(),
            Parameter::TableEnd => {
                let entries = random.between(200, 206);
                let half_offset = f64::from(record.n - record.m) / 2.0;
                f64::from(entries - 10) - half_offset + 0.99 * random.unit()
            }
            Parameter::Limit => {
                let steps = random.pick(&[-1, -2, -3, -1000]);
                beside(limiting_parameter(record, request), steps)
            }
        }
    }

    pub fn allowance(&mut self, form: Form, record: &Record, request: Request) -> u32 {
        match form {
            Form::Long if self.random.chance(WIDE_PERCENT) => self.wide_allowance(record, request),
            Form::Short | Form::Long => self.narrow_allowance(record, request),
        }
    }

    fn narrow_allowance(&mut self, record: &Record, request: Request) -> u32 {
        match self.random.below(100) {
            0..65 => Form::Short.largest_allowance(),
            65..80 => self.random.between(140, 1000).into(),
            80..88 => self.random.between(55, 140).into(),
            88..90 => self.random.between(0, 55).into(),
            _ => self.needed_allowance(record, request, &[-1, 0, 0, 1]),
        }
    }

    fn wide_allowance(&mut self, record: &Record, request: Request) -> u32 {
        match self.random.weighted(&WIDES) {
            Wide::Least => 1 << 16,
            Wide::AboveNeeded => {
                let any = self.random.between(1, u16::MAX);
                let upper = u32::from(self.random.pick(&[1, any]));
                let needed = self.needed_allowance(record, request, &[-1, -1, 0, 1]);
                (upper << 16) + needed
            }
            Wide::GreatestSigned => (1 << 31) - 1,
            Wide::Negative => {
                let some = self.random.between(1, 140);
                (1 << 31) + u32::from(self.random.pick(&[0, some]))
            }
            Wide::Greatest => Form::Long.largest_allowance(),
            Wide::Any => self.random.bits() as u32,
        }
    }

    /// The least allowance that suffices, with one of these added.
    pub fn needed_allowance(&mut self, record: &Record, request: Request, beside: &[i32]) -> u32 {
        let needed = needed_allowance(request.kind(), record.m, record.n, record.c);
        needed.saturating_add_signed(self.random.pick(beside))
    }

    pub fn argument(&mut self, request: Request) -> f64 {
        let random = &mut self.random;
        match request {
            Request::Row(_) | Request::DlmfRow(_) => random.any_double(),
            // It is chosen with its c.
            Request::Radial | Request::FirstKind => 0.0,
            Request::Angular(_) => match random.below(100) {
                0..20 => random.pick(&[0.0, -0.0, 1.0, -1.0]),
                20..27 => random.sign() * beside(1.0, -(random.between(1, 40) as i64)),
                27..32 => random.sign() * f64::from_bits(random.bits() >> 12),
                32..40 => random.sign() * random.log_uniform(1e-300, 1e-8),
                40..52 => random.sign() * random.log_uniform(1e-8, 1e-1),
                _ => random.sign() * random.unit(),
            },
        }
    }

    fn characteristic_value(&mut self, record: &Record, request: Request) -> f64 {
        let Record { m, n, c, .. } = *record;
        let random = &mut self.random;
        let true_value = || segv(request.kind(), m, n, c)[usize::from(n - m)];
        let spread = f64::from(n) * f64::from(n + 1) + c * c + 10.0;
        match random.weighted(&VALUES) {
            Value::True => true_value(),
            Value::UlpsOff => beside(true_value(), random.pick(&[-8, -3, -2, -1, 1, 2, 3, 8])),
            Value::SlightlyOff => {
                true_value() * (1.0 + random.sign() * random.log_uniform(1e-14, 1e-1))
            }
            Value::OfNoMode => random.sign() * spread * random.unit(),
            Value::Whole => (random.sign() * spread * random.unit()).round(),
            Value::Diagonal => diagonal(record, request, random.unit()),
            Value::Zero => random.pick(&[0.0, -0.0]),
            Value::Huge => random.sign() * random.log_uniform(1e100, f64::MAX),
            Value::AnyFinite => random.any_finite(),
        }
    }

    fn spoil(&mut self, record: &mut Record) {
        let random = &mut self.random;
        let request = Request::of_operation(record.operation);
        match random.weighted(&SPOILINGS) {
            Spoiling::Operation => record.operation = random.pick(&[0, 9, 10, 83, 128, 255]),
            Spoiling::Mode => (record.m, record.n) = faulty_mode(random, record.m),
            Spoiling::ParameterSign => record.c = faulty_parameter(random),
            Spoiling::ParameterLimit => {
                if let Some(request) = request {
                    record.c = excessive_parameter(random, record, request);
                }
            }
            Spoiling::Value => record.cv = random.pick(&[f64::NAN, f64::INFINITY, -f64::INFINITY]),
            Spoiling::Argument if request.is_some_and(Request::is_radial) => {
                record.x = faulty_off_disc(random, record.c)
            }
            Spoiling::Argument => record.x = faulty_argument(random),
            Spoiling::Allowance => record.allowance = random.pick(&[0, 0, 1, 2, 40, 45, 50, 55]),
        }
    }
}

fn limit(request: Request) -> f64 {
    if request.is_row() { 291.0 } else { 175.0 }
}

/// The least c that refusal 6 turns back in exact numbers, or refusal 11 off the disc, at least 1.
fn limiting_parameter(record: &Record, request: Request) -> f64 {
    let (m, offset) = (
        f64::from(record.m),
        f64::from(record.n.saturating_sub(record.m)),
    );
    let mut limit = limit(request);
    if request.is_radial() {
        limit = limit.min(176.0 - m);
    }
    if request.is_radial() && record.x != 0.0 {
        // 2N + m is 252 or 253 from there on.
        limit = limit.min(((203.0 - m) / 2.0).floor());
    }
    (limit - offset / 2.0).max(1.0)
}

/// The greatest argument of Bessel functions.
const GREATEST_PRODUCT: f64 = 200.0;

/// Up to this x the second kind is by `rmn2so`.
const LARGEST_SMALL: f64 = 1e-8;

/// An x of operations 5 and 8, finite and not below zero; c x may be above its limit by rounding.
fn off_disc_argument(random: &mut Random, argument: OffDisc, c: f64) -> f64 {
    let over_c = |product: f64| (product / if c > 0.0 { c } else { 1.0 }).min(1e300);
    match argument {
        OffDisc::Zero => random.pick(&[0.0, -0.0]),
        OffDisc::Subnormal => {
            let any = 1 + (random.bits() >> 12);
            f64::from_bits(random.pick(&[1, 2, any, any]))
        }
        OffDisc::VeryTiny => random.log_uniform(1e-307, 1e-170),
        OffDisc::Tiny => match random.below(4) {
            0 => random.log_uniform(1e-170, 1e-150),
            1 => random.log_uniform(1e-112, 1e-100),
            _ => random.log_uniform(1e-165, 1e-95),
        },
        OffDisc::LeastSearched => match random.below(3) {
            0 => over_c(1e-100),
            1 => beside(over_c(1e-100), random.pick(&[-2, -1, 1, 2])),
            _ => over_c(random.log_uniform(1e-102, 1e-98)),
        },
        OffDisc::LeastSecond => match random.below(3) {
            0 => over_c(1e-60),
            1 => beside(over_c(1e-60), random.pick(&[-2, -1, 1, 2])),
            _ => over_c(random.log_uniform(1e-62, 1e-58)),
        },
        OffDisc::SmallProduct => over_c(random.log_uniform(1e-100, 1e-2)),
        OffDisc::BesideSmall => match random.below(3) {
            0 => LARGEST_SMALL,
            1 => beside(LARGEST_SMALL, random.pick(&[-2, -1, 1, 2])),
            _ => random.log_uniform(1e-9, 1e-7),
        },
        OffDisc::Small => random.log_uniform(1e-8, 1e-1),
        OffDisc::AroundOne => random.log_uniform(1e-1, 1e1),
        OffDisc::Whole => random.pick(&[0.25, 0.5, 1.0, 1.5, 2.0, 3.0, 4.0, 10.0]),
        OffDisc::Product => over_c(GREATEST_PRODUCT * random.unit()),
        OffDisc::ProductLimit => beside(
            over_c(GREATEST_PRODUCT),
            random.pick(&[-3, -2, -1, 0, 0, 1]),
        ),
        OffDisc::Large if c == 0.0 => random.log_uniform(1.0, 1e300),
        OffDisc::Large => random.log_uniform(over_c(1.0), over_c(GREATEST_PRODUCT)),
    }
}

/// The double that stands so many places above or below.
pub fn beside(value: f64, places: i64) -> f64 {
    let next = if places < 0 {
        f64::next_down
    } else {
        f64::next_up
    };
    (0..places.unsigned_abs()).fold(value, |value, _| next(value))
}

/// A diagonal entry of the record's matrix: cv equal to one makes a pivot of `sdmn` zero.
fn diagonal(record: &Record, request: Request, unit: f64) -> f64 {
    let Record { m, n, c, .. } = *record;
    let entries = 27 + half_offset_plus_c(m, n, c) as i64;
    let entry = (unit * entries as f64) as i64;
    // Half of the time entry N, where the downward recurrence of sdmn starts.
    let entry = if unit < 0.5 { entries - 2 } else { entry };
    let k = 2 * entry + i64::from((n - m) % 2);
    let cs = c * c * f64::from(request.kind().sign());
    let (_, d, _) = matrix_terms(i64::from(m), k, cs);
    d
}

pub fn faulty_mode(random: &mut Random, m: u16) -> (u16, u16) {
    let m = m.min(199);
    match random.below(6) {
        0 => (200, random.pick(&[200, 201, 399, 0])),
        1 => (m, m + 200),
        2 => (m, m.saturating_sub(random.between(1, 3))),
        3 => (199, random.pick(&[398, 399, 400])),
        4 => (random.pick(&[0, 1, 200, u16::MAX]), u16::MAX),
        _ => (random.bits() as u16, random.bits() as u16),
    }
}

pub fn faulty_parameter(random: &mut Random) -> f64 {
    match random.below(4) {
        0 => f64::from_bits(0x7ff0_0000_0000_0001 | random.bits()),
        1 => random.pick(&[f64::INFINITY, -f64::INFINITY]),
        2 => random.pick(&[-5e-324, -f64::MIN_POSITIVE, -1e-10, -1.0, -174.0, f64::MIN]),
        _ => -random.log_uniform(1e-300, 1e300),
    }
}

pub fn excessive_parameter(random: &mut Random, record: &Record, request: Request) -> f64 {
    let c = match request {
        // The limit of refusal 6 alone.
        _ if request.is_radial() && random.chance(40) => {
            limiting_parameter(&Record { x: 0.0, ..*record }, request)
        }
        _ => limiting_parameter(record, request),
    };
    match random.below(8) {
        0..3 => c,
        3..5 => beside(c, random.pick(&[-1, 1])),
        5 => c + 1.0,
        6 => random.pick(&[1e3, 2_147_483_648.0, 4_294_967_296.0, 1e19, f64::MAX]),
        _ => random.log_uniform(176.0, 1e300),
    }
}

pub fn faulty_argument(random: &mut Random) -> f64 {
    let size = match random.below(4) {
        0 => random.pick(&[5e-324, 1e-300, 1e-8, 0.5, 1.0]),
        1 => beside(1.0, 1),
        2 => random.pick(&[2.0, f64::MAX, f64::INFINITY, f64::NAN]),
        _ => random.any_double(),
    };
    random.sign() * size
}

/// For operations 5 and 8, with c x beside its limit and beyond it among them.
fn faulty_off_disc(random: &mut Random, c: f64) -> f64 {
    let limit = GREATEST_PRODUCT / c;
    match random.below(8) {
        0 => f64::from_bits(0x7ff0_0000_0000_0001 | random.bits()),
        1 => random.pick(&[f64::INFINITY, -f64::INFINITY]),
        2 => random.pick(&[-5e-324, -f64::MIN_POSITIVE, -1e-100, -0.5, -1.0, f64::MIN]),
        3 => -random.log_uniform(1e-300, 1e300),
        4..6 => beside(limit, random.pick(&[-1, 0, 1, 1, 2, 3])),
        6 => limit * (1.0 + random.log_uniform(1e-15, 1e2)),
        _ => random.pick(&[1e3, 1e10, 1e300, f64::MAX]),
    }
}
