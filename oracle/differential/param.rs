//! The inputs, their limits, and what docs/PINE.md derives from them.

use crate::field::{digits, Field};

/// From the least to the largest allowed.
pub type Limits = (u64, u64);

pub const D: Limits = (1, 65536);
pub const F: Limits = (0, 30);
pub const CHUNK: Limits = (1, 65536);
pub const T: Limits = (1, 256);
pub const ALPHA: Limits = (1, 65535);
pub const SHARES: Limits = (1, 255);

/// The multiplier of the original.
pub const STANDARD: [u16; 2] = [87, 10];

pub fn within(x: u64, (low, high): Limits) -> bool {
    low <= x && x <= high
}

/// n, d, f, c, e, T and K of docs/PINE.md, the later inputs, and the field that a call with them is over.
#[derive(Clone, Copy)]
pub struct Param {
    pub field: &'static Field,
    pub n: u64,
    pub d: u64,
    pub f: u64,
    pub c: u64,
    pub e: u64,
    pub t: u64,
    pub k: u64,
    /// The multiplier's numerator and denominator.
    pub alpha: [u16; 2],
    /// 0 for the first test rule, any other byte for the second.
    pub test_rule: u8,
    /// 0 for a bound on the squared norm modulo p alone, any other byte for one on the true norm too.
    pub true_norm: u8,
}

impl Param {
    /// For these seven, with the later ones as the original has them.
    pub fn standard(field: &'static Field, [n, d, f, c, e, t, k]: [u64; 7]) -> Param {
        Param { field, n, d, f, c, e, t, k, alpha: STANDARD, test_rule: 0, true_norm: 0 }
    }

    /// Those that the original has.
    pub fn inputs(&self) -> [u64; 7] {
        [self.n, self.d, self.f, self.c, self.e, self.t, self.k]
    }

    /// Whether K tests in range are enough.
    pub fn lets_miss(&self) -> bool {
        self.test_rule != 0
    }

    pub fn bounds_true_norm(&self) -> bool {
        self.true_norm != 0
    }

    pub fn is_standard(&self) -> bool {
        self.alpha == STANDARD && !self.lets_miss() && !self.bounds_true_norm()
    }
}

/// In elements, but for the stream.
pub struct Sizes {
    /// B and its digits q.
    pub bound: u128,
    pub bits: usize,
    /// b and w.
    pub test_bound: u128,
    pub test_bits: usize,
    /// L.
    pub checked: usize,
    /// The stream's bytes for one test, and all.
    pub per_test: usize,
    pub stream: usize,
    pub measurement: usize,
    pub full: usize,
}

impl Sizes {
    /// The inputs are within their limits, or not far beyond; a denominator of 0 counts as 1.
    pub fn of(param: &Param) -> Sizes {
        let (n, d, t) = (u128::from(param.n), param.d as usize, param.t as usize);
        let bits = digits(n * n);
        let [above, below] = param.alpha.map(u128::from);
        let test_bound = ((above * n).div_ceil(below.max(1)) + 1).next_power_of_two();
        let test_bits = digits(2 * test_bound - 1);
        let checked = 2 * bits + (1 + test_bits) * t;
        let per_test = d.div_ceil(4);
        Sizes {
            bound: n * n,
            bits,
            test_bound,
            test_bits,
            checked,
            per_test,
            stream: t * per_test,
            measurement: d + checked,
            full: d + checked + t,
        }
    }

    /// Of a test's result, centred.
    pub fn in_range(&self, result: i128) -> bool {
        let bound = self.test_bound as i128;
        -bound < result && result <= bound
    }
}
