//! What a seed makes: docs/PINE.md's message, put to the original's XOF.

use prio_draft09::{
    codec::Decode,
    vdaf::xof::{Seed, Xof, XofTurboShake128},
};
use rand::RngCore;

pub const SEED_LEN: usize = 16;
const WR_JOINT_RAND: u8 = 8;

/// Of 16 bytes.
pub fn seed(bytes: &[u8]) -> Seed<SEED_LEN> {
    Seed::get_decoded(bytes).unwrap()
}

/// With a tag of a version, the algorithm id and the usage.
pub fn output(bytes: &[u8], usage: u8, binder: &[u8], len: usize) -> Vec<u8> {
    let mut output = vec![0; len];
    let dst = [1, 0xff, 0xff, 0xff, 0xff, 0, usage];
    XofTurboShake128::seed_stream(&seed(bytes), &dst, binder).fill_bytes(&mut output);
    output
}

/// Of the wraparound tests.
pub fn stream(bytes: &[u8], len: usize) -> Vec<u8> {
    output(bytes, WR_JOINT_RAND, &[], len)
}
