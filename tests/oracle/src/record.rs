//! Records as document 01 and document 02's Card 6 have them, and the text of doubles.

use std::fmt;

/// Length of the mark that begins a record.
pub const MARK_LENGTH: usize = 2;

/// How a record is written: as document 01 has it, or as Card 6 does, with an allowance of 32 bits.
#[derive(Clone, Copy, Debug, PartialEq, Eq)]
pub enum Form {
    Short,
    Long,
}

impl Form {
    pub const BOTH: [Form; 2] = [Form::Short, Form::Long];

    /// None where neither mark stands there.
    pub fn of_mark(mark: [u8; MARK_LENGTH]) -> Option<Form> {
        Form::BOTH.into_iter().find(|form| form.mark() == mark)
    }

    pub fn mark(self) -> [u8; MARK_LENGTH] {
        match self {
            Form::Short => [0x53, 0x57],
            Form::Long => [0x53, 0x56],
        }
    }

    /// Length of a record in bytes, its mark included.
    pub fn length(self) -> usize {
        match self {
            Form::Short => 33,
            Form::Long => 35,
        }
    }

    pub fn largest_allowance(self) -> u32 {
        match self {
            Form::Short => 65_535,
            Form::Long => 4_294_967_295,
        }
    }

    pub fn other(self) -> Form {
        match self {
            Form::Short => Form::Long,
            Form::Long => Form::Short,
        }
    }
}

/// Prolate or oblate, the sign kd of document 01.
#[derive(Clone, Copy, Debug, PartialEq, Eq)]
pub enum Kind {
    Prolate,
    Oblate,
}

impl Kind {
    pub fn sign(self) -> i32 {
        match self {
            Kind::Prolate => 1,
            Kind::Oblate => -1,
        }
    }
}

/// What an operation asks for.
#[derive(Clone, Copy, Debug, PartialEq, Eq)]
pub enum Request {
    Row(Kind),
    DlmfRow(Kind),
    Angular(Kind),
    /// Both oblate radial kinds, on the disc and off it.
    Radial,
    /// The oblate radial function of the first kind alone.
    FirstKind,
}

impl Request {
    /// None where the operation is not 1 to 8.
    pub fn of_operation(operation: u8) -> Option<Request> {
        match operation {
            1 => Some(Request::Row(Kind::Prolate)),
            2 => Some(Request::Row(Kind::Oblate)),
            3 => Some(Request::Angular(Kind::Prolate)),
            4 => Some(Request::Angular(Kind::Oblate)),
            5 => Some(Request::Radial),
            6 => Some(Request::DlmfRow(Kind::Prolate)),
            7 => Some(Request::DlmfRow(Kind::Oblate)),
            8 => Some(Request::FirstKind),
            _ => None,
        }
    }

    pub fn is_row(self) -> bool {
        matches!(self, Request::Row(_) | Request::DlmfRow(_))
    }

    pub fn is_radial(self) -> bool {
        matches!(self, Request::Radial | Request::FirstKind)
    }

    pub fn kind(self) -> Kind {
        match self {
            Request::Row(kind) | Request::DlmfRow(kind) | Request::Angular(kind) => kind,
            Request::Radial | Request::FirstKind => Kind::Oblate,
        }
    }
}

#[derive(Clone, Copy, Debug, PartialEq)]
pub struct Record {
    pub operation: u8,
    pub m: u16,
    pub n: u16,
    pub allowance: u32,
    pub c: f64,
    pub cv: f64,
    pub x: f64,
}

impl Record {
    /// The fields after a mark already tested, of as many bytes as its form has.
    pub fn from_bytes(form: Form, bytes: &[u8]) -> Record {
        let rest = &mut &bytes[MARK_LENGTH..];
        Record {
            operation: u8::from_le_bytes(take(rest)),
            m: u16::from_le_bytes(take(rest)),
            n: u16::from_le_bytes(take(rest)),
            allowance: match form {
                Form::Short => u16::from_le_bytes(take(rest)).into(),
                Form::Long => u32::from_le_bytes(take(rest)),
            },
            c: f64::from_le_bytes(take(rest)),
            cv: f64::from_le_bytes(take(rest)),
            x: f64::from_le_bytes(take(rest)),
        }
    }

    /// In each form that has room for the allowance, the shorter first.
    pub fn in_each_form(&self) -> impl Iterator<Item = Written> {
        let record = *self;
        let forms = Form::BOTH.into_iter();
        let fitting = forms.filter(move |form| record.allowance <= form.largest_allowance());
        fitting.map(move |form| Written { form, record })
    }

    /// In the shortest form that has room for the allowance.
    pub fn to_bytes(&self) -> Vec<u8> {
        let shortest = self.in_each_form().next();
        shortest.expect("the long form has room").to_bytes()
    }
}

/// The next bytes of a record that is known to be whole.
fn take<const N: usize>(rest: &mut &[u8]) -> [u8; N] {
    let (taken, after) = rest.split_first_chunk().expect("a whole record");
    *rest = after;
    *taken
}

impl fmt::Display for Record {
    fn fmt(&self, out: &mut fmt::Formatter<'_>) -> fmt::Result {
        write!(
            out,
            "operation {} m {} n {} allowance {}",
            self.operation, self.m, self.n, self.allowance
        )?;
        for (name, value) in [("c", self.c), ("cv", self.cv), ("x", self.x)] {
            write!(out, " {name} {}", in_bits(value))?;
        }
        Ok(())
    }
}

/// A record in the form in which a stream has it.
#[derive(Clone, Copy, Debug)]
pub struct Written {
    pub form: Form,
    pub record: Record,
}

impl Written {
    /// Panics where the form has no room for the allowance.
    pub fn to_bytes(&self) -> Vec<u8> {
        let Written { form, record } = self;
        let mut bytes = form.mark().to_vec();
        bytes.push(record.operation);
        bytes.extend(record.m.to_le_bytes());
        bytes.extend(record.n.to_le_bytes());
        match form {
            Form::Short => {
                let allowance = u16::try_from(record.allowance).expect("an allowance of 16 bits");
                bytes.extend(allowance.to_le_bytes());
            }
            Form::Long => bytes.extend(record.allowance.to_le_bytes()),
        }
        for value in [record.c, record.cv, record.x] {
            bytes.extend(value.to_le_bytes());
        }
        bytes
    }
}

impl fmt::Display for Written {
    fn fmt(&self, out: &mut fmt::Formatter<'_>) -> fmt::Result {
        write!(out, "{:?} record, {}", self.form, self.record)
    }
}

/// A double as 16 lower-case hexadecimal digits, every NaN as one pattern.
pub fn hex(value: f64) -> String {
    if value.is_nan() {
        "7ff8000000000000".to_string()
    } else {
        format!("{:016x}", value.to_bits())
    }
}

/// A double for a reader: in decimal and, in brackets, as its bits.
pub fn in_bits(value: f64) -> String {
    format!("{value:?} [{:016x}]", value.to_bits())
}

/// Equal bit for bit, any NaN matching any NaN.
pub fn same(left: f64, right: f64) -> bool {
    left.to_bits() == right.to_bits() || (left.is_nan() && right.is_nan())
}
