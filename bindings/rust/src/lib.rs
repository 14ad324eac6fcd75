//! PINE reports over Field64 and Field128: a client encodes a gradient, servers add shares of it. For x86-64 only.
//!
//! Safe functions over the calls of `libpine_c.a`, which are proved: each ends for any arguments, stays inside its
//! rows, and gives exactly what its definition says. A function here only hands rows over and turns the answer into a
//! [`Result`]; its `# Errors` say by which [`Rule`]s it refuses, in the order in which they are tested. A refused call
//! leaves every row as it was. docs/PINE.md of the project says what each call computes.
//!
//! [`Pine`] holds inputs that were tested once, and has the calls as methods, over rows that say what they are
//! ([`Share`], [`Aggregate`] and so on). The same calls stand beside it as functions over the inputs and plain slices.
//! A server that keeps its aggregates by controller and valve has them in one file: `DayFile` (feature `alloc`) grows
//! as reports are added to it, and [`file_add`] and its siblings do the same over the caller's rows.
//! [`Pine128`] and the functions of [`field128`] are the calls over Field128, for sums beyond Field64, over rows of `u128`.
//!
#![cfg_attr(feature = "alloc", doc = "```")]
#![cfg_attr(not(feature = "alloc"), doc = "```ignore")]
//! # fn main() -> Result<(), jihmeto_pine::Error> {
//! use jihmeto_pine::{CutSeeds, Gradient, Pine, PineParam};
//!
//! // norm_bound, dimension, frac_bits, both chunk lengths, num_wr_tests, num_wr_successes
//! let pine = Pine::new(PineParam::standard(1 << 12, 2, 8, 16, 2, 10, 10))?;
//! let (nonce, seeds) = ([0; 16], CutSeeds::new([0x1b; 80])); // random bytes, of a real report
//! let cut = pine.cut(&Gradient::new([1.5, -0.25]), &nonce, &seeds)?;
//! assert_eq!(cut.leader.row().len(), pine.encoded_input_len());
//! # Ok(())
//! # }
//! ```
//!
//! A field number is a `u64` below [`FIELD_MODULUS`]. No call keeps state, and none allocates, but for those of
//! [`Pine`] that give a `Vec`. The floating-point environment must be the default one, as it must be for Rust itself.
//!
//! # What it is not
//!
//! - **Not a whole VDAF.** There is no FLP proof, query or decide, no prepare and no message format; of sharding there
//!   is all up to the proofs. **Two servers that hold only shares cannot check a report with this alone**: both circuits
//!   multiply elements, so their values on two shares do not add up to the value on the whole, and a value of 0 says
//!   something of a whole vector only. The example `server` adds the two full shares in one place for show; whoever does
//!   so sees the report.
//! - **No randomness of its own.** The caller brings all of it, and no theorem says what poor randomness costs:
//!   - the five seeds of a report that is cut ([`CutSeeds`]): fresh for each report, secret, from a cryptographic
//!     source. The seed of the wraparound tests comes of it, the same for the client and both servers;
//!   - of a report that is encoded alone, that seed ([`Seed`]), or its stream, and the cut: one row of uniform random
//!     field numbers, secret, new for each report; the other row is the difference;
//!   - the joint randomness r1, r2, r3: uniform field numbers that the client could not foresee when it fixed its
//!     report.
//! - **Nothing is proved of time.** Of secrets an accepted call's was found to depend on a seed's stream alone
//!   (docs/SECRETS.md of the repository, which also says what calls leave on their stack).
//! - **Nothing is said of privacy**, and no noise is added.
//! - **No error rate as a whole**: docs/SOUNDNESS.md of the project has that of the main circuit alone.
//!
//! The project's README, "What it is not", has more on each.
//!
//! # The archive
//!
//! The build script takes `libpine_c.a` from the folder that the environment variable `PINE_LIB_DIR` names, an absolute
//! path; without one from `build/` of the repository, where `make lib` writes it, or else from its
//! `crates/pine_c/out/`.
//!
//! # Features
//!
//! - `alloc`, on by default: the calls that give a `Vec`. Without it the crate takes nothing but `core`.
#![no_std]
#![deny(unsafe_op_in_unsafe_fn)]
#![warn(missing_docs)]
#![warn(
    clippy::missing_errors_doc,
    clippy::must_use_candidate,
    clippy::undocumented_unsafe_blocks
)]

#[cfg(feature = "alloc")]
extern crate alloc;

mod calls;
mod error;
mod ffi;
pub mod field128;
mod file;
#[cfg(test)]
mod header;
mod param;
mod pine;
mod rows;
mod seed;

pub use calls::{
    accumulate, check_param, checked_part, cut, derive, empty_aggregate, encode_with_wr_joint_rand,
    encode_with_wr_joint_rand_seed, f64_to_field, field_to_f64, gradient_part, merge, results_part,
    run_wr_tests, run_wr_tests_seed, sample, subtract, unmerge, unshard, valid,
    valid_sq_norm_equal, Circuit,
};
pub use error::{Error, Rule};
pub use file::{file_add, file_max, file_read, file_size, file_write, FileKey};
#[cfg(feature = "alloc")]
pub use file::{DayFile, FileEntry, FileRows};
pub use param::{Derived, Lengths, PineParam, Record, WrTestRule};
#[cfg(feature = "alloc")]
pub use pine::{Cut, Encoded};
pub use pine::{Pine, Pine128};
pub use rows::{
    Aggregate, FileBodies, FileBytes, FileContents, Full, FullShare, Gradient, Measurement,
    MeasurementShare, Results, Share,
};
pub use seed::{
    CutSeeds, JointRandSeeds, Seed, CUT_SEEDS_LEN, JOINT_RAND_SEEDS_LEN, MORE_DRAWS, NONCE_LEN,
    SEED_LEN,
};

/// p, the modulus of Field64.
pub const FIELD_MODULUS: u64 = 0xffff_ffff_0000_0001;

/// p, the modulus of Field128.
pub const FIELD128_MODULUS: u128 = 0xffff_ffff_ffff_ffe4_0000_0000_0000_0001;

/// How many elements of joint randomness [`valid`](crate::valid()) takes: r1, r2, r3.
pub const JOINT_RAND_LEN: usize = 3;

/// The most entries of a day's file.
pub const MAX_FILE_ENTRIES: usize = 1024;

/// The bytes of a day's file before its contents.
pub const FILE_HEADER_LEN: usize = 6;

/// The bytes of an entry's contents in a day's file.
pub const FILE_ENTRY_LEN: usize = 12;

/// The bytes of a key.
pub const FILE_KEY_LEN: usize = 8;
