//! A report over Field64, cut in two by docs/PINE.md, with the original's XOF: the helper's share, the leader's, the
//! two seeds.

use crate::{
    field::{FIELD64, P64},
    param::{Param, Sizes},
    seed::{self, SEED_LEN},
    whole,
};

pub const NONCE_LEN: usize = 16;
pub const FIVE_LEN: usize = 5 * SEED_LEN;
pub const GIVEN_LEN: usize = 2 * SEED_LEN;
pub const MORE_DRAWS: usize = 64;

const MEAS_SHARE: u8 = 1;
const VF_JOINT_RAND_SEED: u8 = 6;
const VF_JOINT_RAND_PART: u8 = 7;
const WR_JOINT_RAND_SEED: u8 = 9;
const WR_JOINT_RAND_PART: u8 = 10;

/// Of a stream for the sampler.
pub fn draws_len(sizes: &Sizes) -> usize {
    8 * (sizes.measurement + MORE_DRAWS)
}

/// The first values below p, or fewer.
pub fn sampled(stream: &[u8], len: usize) -> Vec<u64> {
    let values = stream.chunks_exact(8).map(|x| u64::from_le_bytes(x.try_into().unwrap()));
    values.filter(|x| *x < P64).take(len).collect()
}

/// A nonce and five seeds.
#[derive(Clone, Copy)]
pub struct Brought<'a> {
    pub nonce: &'a [u8],
    pub five: &'a [u8],
}

impl<'a> Brought<'a> {
    fn seed(self, index: usize) -> &'a [u8] {
        &self.five[SEED_LEN * index..][..SEED_LEN]
    }

    /// meas_share_seed_1 makes it.
    pub fn helper(self, sizes: &Sizes) -> Vec<u64> {
        sampled(&seed::output(self.seed(0), MEAS_SHARE, &[1], draws_len(sizes)), sizes.measurement)
    }

    fn part(self, agg_id: u8, blind: usize, share: &[u64], usage: u8) -> Vec<u8> {
        let mut binder = vec![agg_id];
        binder.extend(self.nonce);
        binder.extend(share.iter().flat_map(|x| x.to_le_bytes()));
        seed::output(self.seed(blind), usage, &binder, SEED_LEN)
    }

    /// The blinds are the leader's and the helper's, by their index.
    fn joint(self, blinds: [usize; 2], shares: [&[u64]; 2], usages: [u8; 2]) -> Vec<u8> {
        let parts = [0, 1].map(|id| self.part(id as u8, blinds[id], shares[id], usages[0]));
        seed::output(&[0; SEED_LEN], usages[1], &parts.concat(), SEED_LEN)
    }

    pub fn wr_seed(self, param: &Param, numbers: &[i128]) -> Vec<u8> {
        let first = FIELD64.row(&whole::full_vector(param, numbers, &[]));
        let helper = &self.helper(&Sizes::of(param))[..first.len()];
        self.joint([3, 1], [&less(&first, helper), helper], [WR_JOINT_RAND_PART, WR_JOINT_RAND_SEED])
    }

    /// The leader's share, the helper's, and both seeds.
    pub fn cut(self, param: &Param, numbers: &[i128]) -> (Vec<u64>, Vec<u64>, Vec<u8>) {
        let sizes = Sizes::of(param);
        let (helper, wr_seed) = (self.helper(&sizes), self.wr_seed(param, numbers));
        let whole = FIELD64.row(&whole::full_vector(param, numbers, &seed::stream(&wr_seed, sizes.stream)));
        let leader = less(&whole[..sizes.measurement], &helper);
        let vf_seed = self.joint([4, 2], [&leader, &helper], [VF_JOINT_RAND_PART, VF_JOINT_RAND_SEED]);
        (leader, helper, [wr_seed, vf_seed].concat())
    }
}

fn less(row: &[u64], other: &[u64]) -> Vec<u64> {
    row.iter().zip(other).map(|(x, y)| FIELD64.difference((*x).into(), (*y).into()) as u64).collect()
}
