//! Refusals.
use core::fmt;

/// A refusal: the first rule broken, and where. Written out, it is one sentence.
///
/// ```
/// use jihmeto_pine::field_to_f64;
///
/// let refusal = field_to_f64(u64::MAX, 0).unwrap_err();
/// assert_eq!(refusal.to_string(), "an element is not below p (rule 12, element 0 of the rows read)");
/// ```
#[derive(Clone, Copy, Debug, PartialEq, Eq, Hash)]
pub struct Error {
    /// The rule.
    pub rule: Rule,
    /// What it counts, the rule says; 0 where it counts nothing.
    pub place: u64,
}

macro_rules! rules {
    ($($(#[$doc:meta])* $name:ident = $number:literal: $sentence:literal,)*) => {
        /// The rules. A call tests its rules in one order and answers with the first that is broken: 1 to 6, 19, 7, 14,
        /// 13, 12, 15, 16, 23, 8 with 17, 9, 21, 10, 18, 11 or 20. docs/PINE.md of the project, "The rules", has the
        /// table.
        #[derive(Clone, Copy, Debug, PartialEq, Eq, Hash)]
        #[non_exhaustive]
        pub enum Rule {
            $(
                #[doc = concat!("Rule ", $number, ": ", $sentence, ".")]
                $(#[$doc])*
                $name,
            )*
            /// A rule of this number, which no archive has that this crate was written for.
            Other(u64),
        }

        impl Rule {
            /// The rule's number in the header and in docs/PINE.md.
            #[must_use]
            pub const fn number(self) -> u64 {
                match self {
                    $(Rule::$name => $number,)*
                    Rule::Other(number) => number,
                }
            }

            pub(crate) const fn of(number: u64) -> Rule {
                match number {
                    $($number => Rule::$name,)*
                    _ => Rule::Other(number),
                }
            }
        }

        impl fmt::Display for Rule {
            fn fmt(&self, f: &mut fmt::Formatter<'_>) -> fmt::Result {
                match self {
                    $(Rule::$name => f.write_str($sentence),)*
                    Rule::Other(_) => f.write_str("a rule is broken that this crate does not know"),
                }
            }
        }
    };
}

rules! {
    NumWrSuccesses = 1: "num_wr_successes is above num_wr_tests",
    /// That is 3037000499 over Field64, 4294967295 over Field128.
    NormBound = 2: "norm_bound is 0 or above its limit",
    Dimension = 3: "dimension is not from 1 to 65536",
    FracBits = 4: "frac_bits is above 30",
    ChunkLen = 5: "a chunk length is not from 1 to 65536",
    NumWrTests = 6: "num_wr_tests is not from 1 to 256",
    /// The place is the row, from 1, in the order of the call's rows.
    RowLen = 7: "a row has another length than derived",
    /// The place is its index.
    Coordinate = 8: "a coordinate is NaN, infinite or subnormal",
    GradientLen = 9: "the gradient's length is not the dimension",
    /// That is the squared norm as a field number.
    SqNorm = 10: "the squared norm is above its bound",
    /// By [`WrTestRule::Every`](crate::WrTestRule::Every). The place is the test, from 0. Another stream or seed may
    /// do.
    WrTest = 11: "a wraparound test's result is out of range",
    /// The place is its index over the rows of elements that are read, joined in order; of a share that is added to a
    /// file, its index in the share.
    Element = 12: "an element is not below p",
    NumShares = 13: "num_shares is not from 1 to 255",
    /// A file that is read or added to, or the rows that a file is to be written from.
    FileLayout = 14: "the bytes or rows are no file of this dimension",
    FileFull = 15: "the file holds 1024 keys, and this is a new one",
    /// The place is the entry's index in the file, from 0.
    ReportCount = 16: "the key's count of reports is already 4294967295",
    /// That is (p - 1) / 2 over Field64, 2^64 - 1 over Field128. The place is its index; of this rule and
    /// [`Rule::Coordinate`] the lower index is answered.
    Floor = 17: "the floor of a coordinate is beyond its limit either way",
    /// Of the helper's share: encoded_input_len values below p are wanted of
    /// [`MORE_DRAWS`](crate::MORE_DRAWS) more. Another seed may do.
    Draws = 18: "too few of the values drawn are below p",
    Alpha = 19: "alpha_numerator or alpha_denominator is 0",
    /// By [`WrTestRule::Enough`](crate::WrTestRule::Enough). The place is how many are in range. Another stream or seed
    /// may do.
    WrTestsInRange = 20: "fewer wraparound tests are in range than num_wr_successes",
    /// With true_sq_norm on; that is the squared norm without reduction modulo p.
    TrueSqNorm = 21: "the true squared norm is above its bound",
    /// No call answers it: the program `load` writes it.
    LoadSeed = 22: "the seed of a load is 0",
    /// Over Field128 only. The place is its index in the decoded row.
    Size = 23: "an element to be decoded is beyond 2^64 - 1 either way",
}

impl Error {
    /// The refusal that an answer is, if it is one.
    pub(crate) const fn of(number: u64, place: u64) -> Result<(), Error> {
        if number == 0 {
            return Ok(());
        }
        Err(Error {
            rule: Rule::of(number),
            place,
        })
    }
}

impl fmt::Display for Error {
    fn fmt(&self, f: &mut fmt::Formatter<'_>) -> fmt::Result {
        let Error { rule, place } = self;
        write!(f, "{rule} (rule {}", rule.number())?;
        match rule {
            Rule::RowLen => write!(f, ", row {place}"),
            Rule::Coordinate | Rule::Floor => write!(f, ", coordinate {place}"),
            Rule::WrTest => write!(f, ", test {place}"),
            Rule::Element => write!(f, ", element {place} of the rows read"),
            Rule::WrTestsInRange => write!(f, ", {place} in range"),
            Rule::ReportCount => write!(f, ", entry {place}"),
            Rule::Size => write!(f, ", sum {place}"),
            Rule::Other(_) => write!(f, ", place {place}"),
            _ => Ok(()),
        }?;
        f.write_str(")")
    }
}

impl core::error::Error for Error {}
