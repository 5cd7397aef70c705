//! The oracle's own checks, which need no program of ours.

use oracle::answer::{Build, aswfa, both_kinds, msta1, msta2, record_lines, stream_lines};
use oracle::orders::Search;
use oracle::reading::{highest_order, order_search, refusal};
use oracle::record::{Form, Record, Request, Written, hex, same};

use crate::known::{Input, Known, matches};
use crate::tally::Tally;

pub struct OwnChecks {
    pub example: Tally,
    pub known: Tally,
    pub rows: Tally,
    pub builds: Tally,
    pub disc: Tally,
    pub orders: Tally,
}

impl OwnChecks {
    pub fn new() -> OwnChecks {
        OwnChecks {
            example: Tally::new("document 01's example"),
            known: Tally::new("known answers of traps.txt"),
            rows: Tally::new("rows: reading and segv agree"),
            builds: Tally::new("both builds agree at x = 0, -0, 1, -1"),
            disc: Tally::new("radial: they agree at x = 0, -0"),
            orders: Tally::new("orders: reading, msta1, msta2 agree"),
        }
    }

    pub fn tallies(&self) -> [&Tally; 6] {
        [
            &self.example,
            &self.known,
            &self.rows,
            &self.builds,
            &self.disc,
            &self.orders,
        ]
    }

    pub fn check_example(&mut self) {
        let printed = stream_lines(Build::PowerRule, &example_stream());
        self.example.count(printed == EXAMPLE_LINES, || {
            format!("the oracle prints\n{printed}")
        });
    }

    /// Counts nothing where the file gives no answer.
    pub fn check_known(&mut self, known: &Known) {
        if known.expected.is_empty() {
            return;
        }
        let printed = match &known.input {
            Input::Record(record) => record_lines(Build::PowerRule, 0, record),
            Input::Stream(stream) => stream_lines(Build::PowerRule, stream),
        };
        let right = match &known.input {
            Input::Record(_) => known
                .expected
                .iter()
                .all(|pattern| printed.lines().any(|line| matches(pattern, line))),
            Input::Stream(_) => printed
                .lines()
                .eq(known.expected.iter().map(String::as_str)),
        };
        self.known
            .count(right, || format!("{}\n    oracle:  {printed}", known.text));
    }

    /// Checks a record that the oracle answered with these lines.
    pub fn check_record(&mut self, record: &Record, lines: &str) {
        if refusal(record).is_some() {
            return;
        }
        match Request::of_operation(record.operation) {
            Some(Request::Angular(_)) => self.check_builds(record),
            Some(Request::Radial | Request::FirstKind) => {
                self.check_disc(record);
                self.check_orders(record);
            }
            Some(request) if request.is_row() && !lines.starts_with('R') => {
                self.rows.count(!lines.starts_with('X'), || {
                    format!("{record}\n    {}", lines.lines().next().unwrap_or_default())
                });
            }
            _ => {}
        }
    }

    fn check_builds(&mut self, record: &Record) {
        let kind = Request::of_operation(record.operation)
            .expect("an angular record")
            .kind();
        let differing = [0.0, -0.0, 1.0, -1.0].into_iter().find(|&x| {
            let ruled = aswfa(Build::PowerRule, kind, record, x);
            let unaltered = aswfa(Build::Unaltered, kind, record, x);
            !ruled
                .iter()
                .zip(&unaltered)
                .all(|(&left, &right)| same(left, right))
        });
        self.builds.count(differing.is_none(), || {
            let x = differing.expect("an x at which the builds differ");
            let words = |build| aswfa(build, kind, record, x).map(hex).join(" ");
            format!(
                "{record}, taken at x = {x:?}\n    power rule: {}\n    unaltered:  {}",
                words(Build::PowerRule),
                words(Build::Unaltered)
            )
        });
    }

    /// On the disc every power is exact, and no elementary function is called.
    fn check_disc(&mut self, record: &Record) {
        for x in [0.0, -0.0] {
            let record = Record { x, ..*record };
            let ruled = both_kinds(Build::PowerRule, &record);
            let unaltered = both_kinds(Build::Unaltered, &record);
            let agree = (0..4).all(|at| same(ruled[at], unaltered[at]));
            self.disc.count(agree, || {
                let [ruled, unaltered] = [ruled, unaltered].map(|kinds| kinds.map(hex).join(" "));
                format!("{record}\n    power rule: {ruled}\n    unaltered:  {unaltered}")
            });
        }
    }

    /// Counts nothing where no order is searched for.
    fn check_orders(&mut self, record: &Record) {
        let Some(Ok(Search { first, second })) = order_search(record) else {
            return;
        };
        let (x, n) = (
            record.c * record.x,
            highest_order(record.m, record.n, record.c),
        );
        let served = Build::PowerRule;
        let theirs = (
            msta1(served, x, 200),
            second.as_ref().map(|_| msta2(served, x, n, 15)),
        );
        let agree = first.last() == Some(&theirs.0)
            && second.as_ref().map(|orders| orders[orders.len() - 1] + 10) == theirs.1;
        self.orders.count(agree, || {
            format!("{record}\n    reading: {first:?} {second:?}\n    Rust:    {theirs:?}")
        });
    }
}

/// The example that document 01 prints in whole, with the `Z` lines of document 02.
const EXAMPLE_LINES: &str = "\
V 0 0 0 0000000000000000 0000000000000000 0000000000000000
Z 0 0 0
V 0 1 0 4000000000000000 4000000000000000 4000000000000000
Z 0 1 0
V 0 2 0 4018000000000000 4018000000000000 4018000000000000
Z 0 2 0
A 1 0 0 3ff0000000000000 0000000000000000
";

pub fn example_records() -> [Written; 2] {
    let angular = Record {
        operation: 3,
        m: 0,
        n: 0,
        allowance: 0,
        c: 0.0,
        cv: 0.0,
        x: 0.0,
    };
    let row = Record {
        operation: 1,
        n: 2,
        ..angular
    };
    let form = Form::Short;
    [row, angular].map(|record| Written { form, record })
}

fn example_stream() -> Vec<u8> {
    example_records()
        .iter()
        .flat_map(Written::to_bytes)
        .collect()
}
