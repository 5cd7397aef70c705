//! Seeded sheets, of the modes, c, x and allowances that fresh records have. The README says how they
//! are drawn.

use oracle::reading::coefficient_refusal;
use oracle::record::{Form, Kind, Record, Request};
use oracle::sheet::Sheet;

use crate::generator::{
    Generator, Size, beside, excessive_parameter, faulty_argument, faulty_mode, faulty_parameter,
};

const SIZES: [(u64, Size); 5] = [
    (70, Size::Small),
    (16, Size::Medium),
    (8, Size::HighOrder),
    (3, Size::Large),
    (3, Size::Edge),
];

/// How long a list is.
#[derive(Clone, Copy)]
enum Length {
    Empty,
    Between(u16, u16),
    Full,
    /// One, two or many elements too long.
    TooLong,
}

const PARAMETERS: [(u64, Length); 7] = [
    (5, Length::Empty),
    (14, Length::Between(1, 1)),
    (34, Length::Between(2, 4)),
    (36, Length::Between(5, 8)),
    (6, Length::Between(9, 31)),
    (1, Length::Full),
    (4, Length::TooLong),
];

const ARGUMENTS: [(u64, Length); 7] = [
    (5, Length::Empty),
    (12, Length::Between(1, 1)),
    (45, Length::Between(2, 4)),
    (22, Length::Between(5, 12)),
    (10, Length::Between(13, 63)),
    (2, Length::Full),
    (4, Length::TooLong),
];

/// The longest list that is accepted, and lists that are not.
struct Limit {
    full: usize,
    too_long: [usize; 3],
}

const OF_PARAMETERS: Limit = Limit {
    full: 32,
    too_long: [33, 34, 100],
};

const OF_ARGUMENTS: Limit = Limit {
    full: 64,
    too_long: [65, 66, 200],
};

/// Sheets with both lists full.
const FULL_PERCENT: u64 = 1;
/// Sheets whose c are all below 1e-10, so that they need no steps.
const TINY_PERCENT: u64 = 3;
/// Sheets with an allowance of 0, and others with one beside the least that suffices for one of their
/// rows.
const NO_STEPS_PERCENT: u64 = 2;
const NEEDED_PERCENT: u64 = 25;
/// Elements that an earlier one is taken for; half of such c are its neighbours.
const REPEATED_PERCENT: u64 = 12;
const SPOILED_PERCENT: u64 = 25;
/// Faulty elements that stand past the limit of their list.
const PAST_LIMIT_PERCENT: u64 = 25;

#[derive(Clone, Copy, PartialEq, Eq)]
enum Fault {
    Mode,
    ParameterSign,
    ParameterLimit,
    Argument,
    LongParameters,
    LongArguments,
    ShortBlock,
}

const FAULTS: [(u64, Fault); 7] = [
    (8, Fault::Mode),
    (24, Fault::ParameterSign),
    (24, Fault::ParameterLimit),
    (24, Fault::Argument),
    (5, Fault::LongParameters),
    (5, Fault::LongArguments),
    (10, Fault::ShortBlock),
];

/// How long the block is beside what the pairs take.
#[derive(Clone, Copy)]
enum Places {
    Exact,
    Longer,
    OneShort,
    TwoShort,
    Any,
    Empty,
}

const PLACES: [(u64, Places); 5] = [
    (50, Places::Exact),
    (38, Places::Longer),
    (6, Places::OneShort),
    (2, Places::TwoShort),
    (4, Places::Any),
];

pub struct Drawing {
    generator: Generator,
}

impl Drawing {
    pub fn new(seed: u64) -> Drawing {
        Drawing {
            generator: Generator::new(seed),
        }
    }

    /// A sheet and how long its block is.
    pub fn sheet(&mut self) -> (Sheet, usize) {
        let size = self.generator.random.weighted(&SIZES);
        let (m, n) = self.generator.mode_numbers(size);
        let mut sheet = Sheet {
            kind: self.generator.random.pick(&[Kind::Prolate, Kind::Oblate]),
            m,
            n,
            allowance: 0,
            cs: Vec::new(),
            xs: Vec::new(),
        };
        let [parameters, arguments] = self.lengths();
        self.lengthen_parameters(&mut sheet, size, parameters);
        self.lengthen_arguments(&mut sheet, arguments);
        sheet.allowance = self.allowance(&sheet);
        let faults = self.faults();
        for &fault in &faults {
            self.spoil_lists(&mut sheet, size, fault);
        }
        let places = if faults.contains(&Fault::ShortBlock) {
            self.generator
                .random
                .pick(&[Places::OneShort, Places::Empty])
        } else {
            self.generator.random.weighted(&PLACES)
        };
        let length = self.block_length(&sheet, places);
        // Last, since c are drawn for a mode that is sound.
        if faults.contains(&Fault::Mode) {
            (sheet.m, sheet.n) = faulty_mode(&mut self.generator.random, m);
        }
        (sheet, length)
    }

    /// Old contents of so many places: any bits, NaNs among them.
    pub fn contents(&mut self, length: usize) -> Vec<f64> {
        let place = |_| self.generator.random.any_double();
        (0..length).map(place).collect()
    }

    fn lengths(&mut self) -> [usize; 2] {
        if self.generator.random.chance(FULL_PERCENT) {
            return [OF_PARAMETERS.full, OF_ARGUMENTS.full];
        }
        [(&PARAMETERS, OF_PARAMETERS), (&ARGUMENTS, OF_ARGUMENTS)].map(|(lengths, limit)| {
            let random = &mut self.generator.random;
            match random.weighted(lengths) {
                Length::Empty => 0,
                Length::Between(least, most) => random.between(least, most).into(),
                Length::Full => limit.full,
                Length::TooLong => random.pick(&limit.too_long),
            }
        })
    }

    /// Adds c that no refusal turns back until there are so many.
    fn lengthen_parameters(&mut self, sheet: &mut Sheet, size: Size, length: usize) {
        let request = Request::Angular(sheet.kind);
        let tiny = self.generator.random.chance(TINY_PERCENT);
        while sheet.cs.len() < length {
            let c = match self.repeated(&sheet.cs) {
                Some(c) => beside(c, self.generator.random.pick(&[-1, 0, 0, 1])),
                None if tiny => self.generator.random.pick(&[0.0, -0.0, 5e-324, 1e-11]),
                None => {
                    let record = record_of(sheet, 0.0);
                    self.generator.size_parameter(&record, request, size)
                }
            };
            if coefficient_refusal(&record_of(sheet, c), request).is_none() {
                sheet.cs.push(c);
            }
        }
    }

    fn lengthen_arguments(&mut self, sheet: &mut Sheet, length: usize) {
        let request = Request::Angular(sheet.kind);
        while sheet.xs.len() < length {
            let repeated = self.repeated(&sheet.xs);
            let x = repeated.unwrap_or_else(|| self.generator.argument(request));
            sheet.xs.push(x);
        }
    }

    /// Now and then an element that the list has.
    fn repeated(&mut self, list: &[f64]) -> Option<f64> {
        let random = &mut self.generator.random;
        let repeats = !list.is_empty() && random.chance(REPEATED_PERCENT);
        repeats.then(|| random.pick(list))
    }

    fn allowance(&mut self, sheet: &Sheet) -> u32 {
        let request = Request::Row(sheet.kind);
        if sheet.cs.is_empty() || self.generator.random.chance(NO_STEPS_PERCENT) {
            return 0;
        }
        let record = record_of(sheet, self.generator.random.pick(&sheet.cs));
        if self.generator.random.chance(NEEDED_PERCENT) {
            let beside = [-1, 0, 1];
            self.generator.needed_allowance(&record, request, &beside)
        } else {
            self.generator.allowance(Form::Long, &record, request)
        }
    }

    /// None, or some; more than one tests the order of the refusals.
    fn faults(&mut self) -> Vec<Fault> {
        let random = &mut self.generator.random;
        let count = match random.chance(SPOILED_PERCENT) {
            true => random.weighted(&[(45, 1), (35, 2), (15, 3), (5, 4)]),
            false => 0,
        };
        (0..count).map(|_| random.weighted(&FAULTS)).collect()
    }

    fn spoil_lists(&mut self, sheet: &mut Sheet, size: Size, fault: Fault) {
        match fault {
            Fault::ParameterSign => {
                let c = faulty_parameter(&mut self.generator.random);
                self.put_parameter(sheet, size, c);
            }
            Fault::ParameterLimit => {
                let record = record_of(sheet, 0.0);
                let request = Request::Angular(sheet.kind);
                let c = excessive_parameter(&mut self.generator.random, &record, request);
                self.put_parameter(sheet, size, c);
            }
            Fault::Argument => {
                let x = faulty_argument(&mut self.generator.random);
                let at = self.faulty_place(sheet.xs.len(), OF_ARGUMENTS);
                self.lengthen_arguments(sheet, at + 1);
                sheet.xs[at] = x;
            }
            Fault::LongParameters => {
                let length = self.generator.random.pick(&OF_PARAMETERS.too_long);
                self.lengthen_parameters(sheet, size, length);
            }
            Fault::LongArguments => {
                let length = self.generator.random.pick(&OF_ARGUMENTS.too_long);
                self.lengthen_arguments(sheet, length);
            }
            Fault::Mode | Fault::ShortBlock => {}
        }
    }

    fn put_parameter(&mut self, sheet: &mut Sheet, size: Size, c: f64) {
        let at = self.faulty_place(sheet.cs.len(), OF_PARAMETERS);
        self.lengthen_parameters(sheet, size, at + 1);
        sheet.cs[at] = c;
    }

    /// Any place of a list of this length, or, so that the list has to grow, one past its limit.
    fn faulty_place(&mut self, length: usize, limit: Limit) -> usize {
        let random = &mut self.generator.random;
        if random.chance(PAST_LIMIT_PERCENT) {
            limit.full + random.below(3) as usize
        } else {
            random.below(length.max(1) as u64) as usize
        }
    }

    fn block_length(&mut self, sheet: &Sheet, places: Places) -> usize {
        let random = &mut self.generator.random;
        let needed = sheet.places();
        match places {
            Places::Exact => needed,
            Places::Longer => needed + usize::from(random.between(1, 40)),
            Places::OneShort => needed.saturating_sub(1),
            Places::TwoShort => needed.saturating_sub(2),
            Places::Any => random.below(needed as u64 + 1) as usize,
            Places::Empty => 0,
        }
    }
}

/// A record of the sheet's mode with this c.
fn record_of(sheet: &Sheet, c: f64) -> Record {
    Record {
        operation: 0,
        m: sheet.m,
        n: sheet.n,
        allowance: 0,
        c,
        cv: 0.0,
        x: 0.0,
    }
}
