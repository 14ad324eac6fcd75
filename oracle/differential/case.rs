//! A case: one call with all of its arguments.

use crate::{field::Field, param::Param};
use std::fmt::{Display, Formatter, LowerHex, Result};

#[derive(Clone, Copy, PartialEq, Eq)]
pub enum Call {
    CheckParam,
    Derive,
    F64ToField,
    FieldToF64,
    Encode,
    EncodeSeed,
    RunWrTests,
    RunWrTestsSeed,
    Cut,
    Sample,
    Valid,
    ValidSqNormEqual,
    GradientPart,
    CheckedPart,
    ResultsPart,
    EmptyAggregate,
    Accumulate,
    Merge,
    Subtract,
    Unmerge,
    Unshard,
}

/// Those over Field64, which has them all.
pub const CALLS: [Call; 21] = [
    Call::CheckParam,
    Call::Derive,
    Call::F64ToField,
    Call::FieldToF64,
    Call::Encode,
    Call::EncodeSeed,
    Call::RunWrTests,
    Call::RunWrTestsSeed,
    Call::Cut,
    Call::Sample,
    Call::Valid,
    Call::ValidSqNormEqual,
    Call::GradientPart,
    Call::CheckedPart,
    Call::ResultsPart,
    Call::EmptyAggregate,
    Call::Accumulate,
    Call::Merge,
    Call::Subtract,
    Call::Unmerge,
    Call::Unshard,
];

/// Those over Field128.
pub const CALLS128: [Call; 14] = [
    Call::CheckParam,
    Call::Derive,
    Call::F64ToField,
    Call::FieldToF64,
    Call::Encode,
    Call::RunWrTests,
    Call::Valid,
    Call::ValidSqNormEqual,
    Call::EmptyAggregate,
    Call::Accumulate,
    Call::Merge,
    Call::Subtract,
    Call::Unmerge,
    Call::Unshard,
];

impl Call {
    /// As in include/pine.h, after pine_ or pine128_.
    pub fn name(self) -> &'static str {
        match self {
            Call::CheckParam => "check_param",
            Call::Derive => "derive",
            Call::F64ToField => "f64_to_field",
            Call::FieldToF64 => "field_to_f64",
            Call::Encode => "encode_with_wr_joint_rand",
            Call::EncodeSeed => "encode_with_wr_joint_rand_seed",
            Call::RunWrTests => "run_wr_tests",
            Call::RunWrTestsSeed => "run_wr_tests_seed",
            Call::Cut => "cut",
            Call::Sample => "sample",
            Call::Valid => "valid",
            Call::ValidSqNormEqual => "valid_sq_norm_equal",
            Call::GradientPart => "gradient_part",
            Call::CheckedPart => "checked_part",
            Call::ResultsPart => "results_part",
            Call::EmptyAggregate => "empty_aggregate",
            Call::Accumulate => "accumulate",
            Call::Merge => "merge",
            Call::Subtract => "subtract",
            Call::Unmerge => "unmerge",
            Call::Unshard => "unshard",
        }
    }

    pub fn has_shares(self) -> bool {
        matches!(self, Call::Valid | Call::ValidSqNormEqual)
    }

    /// The case's name in oracle/README.md. The original has no call for a part: these go by their own name.
    fn word(self) -> &'static str {
        match self {
            Call::CheckParam | Call::Derive => "params",
            Call::F64ToField => "coord",
            Call::FieldToF64 => "decode",
            Call::Encode => "encode",
            Call::EncodeSeed => "encodeseed",
            Call::RunWrTests => "wrtests",
            Call::RunWrTestsSeed => "wrtestsseed",
            Call::ValidSqNormEqual => "valideq",
            Call::EmptyAggregate => "aggregate",
            _ => self.name(),
        }
    }
}

/// A row of elements is one of their words.
pub enum Row {
    /// Bit patterns; read.
    Doubles(Vec<u64>),
    /// Read.
    Elements(Vec<u64>),
    /// Read.
    Bytes(Vec<u8>),
    /// Read and written.
    Aggregate(Vec<u64>),
    /// Written; what it holds before the call.
    Written(Vec<u64>),
    /// The same, of bytes.
    WrittenBytes(Vec<u8>),
}

impl Row {
    pub fn len(&self) -> usize {
        match self {
            Row::Bytes(bytes) | Row::WrittenBytes(bytes) => bytes.len(),
            Row::Doubles(row) | Row::Elements(row) | Row::Aggregate(row) | Row::Written(row) => row.len(),
        }
    }

    /// What it holds; not for bytes.
    pub fn words(&self) -> &[u64] {
        match self {
            Row::Bytes(_) | Row::WrittenBytes(_) => &[],
            Row::Doubles(row) | Row::Elements(row) | Row::Aggregate(row) | Row::Written(row) => row,
        }
    }

    /// The words of the elements that are read.
    pub fn elements(&self) -> &[u64] {
        match self {
            Row::Elements(row) | Row::Aggregate(row) => row,
            _ => &[],
        }
    }

    pub fn is_written(&self) -> bool {
        matches!(self, Row::Aggregate(_)) || self.is_lent()
    }

    /// Whether it is only written.
    pub fn is_lent(&self) -> bool {
        matches!(self, Row::Written(_) | Row::WrittenBytes(_))
    }
}

pub struct Case {
    pub call: Call,
    /// Of a call on one number, the field and f alone count.
    pub param: Param,
    /// The double's bits, the element, or num_shares.
    pub number: u128,
    /// In docs/PINE.md's order.
    pub rows: Vec<Row>,
}

impl Case {
    pub fn field(&self) -> &'static Field {
        self.param.field
    }

    pub fn name(&self) -> String {
        format!("{}{}", self.call.name(), self.field().name)
    }

    fn write_row(&self, to: &mut Formatter, row: &Row) -> Result {
        match row {
            Row::Doubles(row) => write_vec(to, row, 16),
            Row::Elements(row) | Row::Aggregate(row) if row.len() % self.field().words != 0 => {
                write!(to, " words")?;
                write_vec(to, row, 1)
            }
            Row::Elements(row) | Row::Aggregate(row) => write_vec(to, &self.field().elements(row), 1),
            Row::Bytes(bytes) if bytes.is_empty() => write!(to, " -"),
            Row::Bytes(bytes) => {
                write!(to, " ")?;
                bytes.iter().try_for_each(|x| write!(to, "{x:02x}"))
            }
            Row::Written(_) | Row::WrittenBytes(_) => Ok(()),
        }
    }
}

fn write_vec(to: &mut Formatter, row: &[impl LowerHex], width: usize) -> Result {
    write!(to, " {}", row.len())?;
    row.iter().try_for_each(|x| write!(to, " {x:0width$x}"))
}

/// The line of oracle/README.md.
impl Display for Case {
    fn fmt(&self, to: &mut Formatter) -> Result {
        if !self.param.is_standard() {
            let [above, below] = self.param.alpha;
            let [rule, switch] = [self.param.lets_miss(), self.param.bounds_true_norm()].map(u8::from);
            write!(to, "with {above} {below} {rule} {switch} ")?;
        }
        write!(to, "{}{}", self.call.word(), self.field().name)?;
        match self.call {
            Call::F64ToField => return write!(to, " {} {:016x}", self.param.f, self.number),
            Call::FieldToF64 => return write!(to, " {} {:x}", self.param.f, self.number),
            _ => self.param.inputs().iter().try_for_each(|x| write!(to, " {x}"))?,
        }
        if self.call.has_shares() {
            write!(to, " {}", self.number)?;
        }
        self.rows.iter().try_for_each(|row| self.write_row(to, row))?;
        if matches!(self.call, Call::ValidSqNormEqual | Call::EmptyAggregate) {
            write!(to, " 0")?;
        }
        let lent: Vec<String> =
            self.rows.iter().filter(|row| row.is_lent()).map(|row| format!(" {}", row.len())).collect();
        if lent.is_empty() {
            return Ok(());
        }
        write!(to, " out{}", lent.concat())
    }
}
