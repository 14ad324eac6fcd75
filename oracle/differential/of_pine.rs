/// What the driver asks and cannot name from outside this module, called as it stands.
pub mod opened {
    use super::{msg::InputShareFor, vdaf::PineVec, *};
    use crate::fields::{self, Elem};
    use prio_draft09::{
        codec::Encode,
        flp::Type,
        vdaf::{
            xof::{Seed, Xof},
            Aggregator, PrepareTransition,
        },
    };

    /// For n, d, f, c, e, T and K, with another test bound than its own if one is given.
    pub fn new<F: Elem, X>(inputs: [u64; 7], bound: Option<u64>) -> Result<Pine<F, X, 16>, VdafError> {
        let mut pine = fields::pine(inputs)?;
        if let Some(bound) = bound {
            set_bound(&mut pine, bound);
        }
        Ok(pine)
    }

    /// The bound, and what `Pine::new` derives from it.
    fn set_bound<F: Elem, X>(pine: &mut Pine<F, X, 16>, bound: u64) {
        let t = &mut pine.flp;
        t.wr_test_bound = F::from(F::Integer::try_from(bound as usize).unwrap());
        t.wr_test_bits = bits(2 * bound - 1);
        t.bit_checked_len = 2 * t.sq_norm_bits + (1 + t.wr_test_bits) * t.num_wr_tests;
        pine.encoded_input_len = t.dimension + t.bit_checked_len;
        t.input_len = pine.encoded_input_len + t.num_wr_tests;
        t.gadget_calls = chunk_count(t.chunk_len, t.bit_checked_len) + chunk_count(t.chunk_len, t.num_wr_tests);
        pine.flp_sq_norm_equal.input_len = t.input_len;
    }

    fn scale(frac_bits: usize) -> f64 {
        f64::from(1 << frac_bits)
    }

    fn lengths(t: &impl Type) -> [usize; 6] {
        [t.input_len(), t.proof_len(), t.verifier_len(), t.joint_rand_len(), t.prove_rand_len(), t.query_rand_len()]
    }

    /// Of an element that one word holds.
    fn word<F: Elem>(x: F) -> u64 {
        F::Integer::from(x).try_into().unwrap()
    }

    /// The numbers of PineDerived, in its order, then the test bound; the scale by its bits.
    pub fn record<F: Elem, X>(pine: &Pine<F, X, 16>) -> Vec<u64> {
        let (t, e) = (&pine.flp, &pine.flp_sq_norm_equal);
        let mut record = vec![t.dimension as u64, t.frac_bits as u64, scale(t.frac_bits).to_bits()];
        record.extend([t.chunk_len, e.chunk_len, t.num_wr_tests, t.num_wr_successes].map(|x| x as u64));
        record.extend([word(t.sq_norm_bound), t.sq_norm_bits as u64]);
        let bound = word(t.wr_test_bound);
        record.extend([u64::from(bound.trailing_zeros()), t.wr_test_bits as u64]);
        record.extend([t.bit_checked_len, pine.encoded_input_len, t.input_len].map(|x| x as u64));
        record.extend([t.gadget_calls, e.gadget_calls].map(|x| x as u64));
        record.push((chunk_count(4, t.dimension) * t.num_wr_tests) as u64);
        record.extend(lengths(t).map(|x| x as u64));
        record.extend(lengths(e).map(|x| x as u64));
        record.push(bound);
        record
    }

    pub fn f64_to_field<F: Elem>(x: f64, frac_bits: u64) -> Result<F, VdafError> {
        super::f64_to_field(x, scale(frac_bits as usize))
    }

    pub fn field_to_f64<F: Elem>(y: F, frac_bits: u64) -> Result<f64, VdafError> {
        super::field_to_f64(y, scale(frac_bits as usize))
    }

    pub fn run_wr_tests<F: Elem, X: Xof<16>>(t: &PineType<F>, gradient: &[F], seed: &Seed<16>) -> Vec<F> {
        t.run_wr_tests::<X, 16>(gradient, seed)
    }

    /// Of a whole report with its proofs, after both servers' prepare has accepted it: the leader's share, both seeds of
    /// the joint randomness as the servers found them, and both output shares.
    #[allow(clippy::type_complexity)]
    pub fn prepared(
        pine: &Pine64,
        gradient: &[f64],
        nonce: &[u8; 16],
        rand: [[u8; 16]; 7],
    ) -> Result<(Vec<Field64>, Vec<u8>, [Vec<Field64>; 2]), VdafError> {
        let (public, inputs) = pine.shard_with_rand(gradient, nonce, rand)?;
        let InputShareFor::Leader { meas_share, .. } = &inputs[0].0 else {
            panic!("the first input share is not the leader's");
        };
        let begin = |id: usize| pine.prepare_init(&[0; 16], id, &(), nonce, &public, &inputs[id]);
        let [(leader, first), (helper, second)] = [begin(0)?, begin(1)?];
        let prep = pine.prepare_shares_to_prepare_message(&(), [first, second])?;
        let seeds = [&prep.wr_joint_rand_seed, &prep.vf_joint_rand_seed].map(|seed| seed.get_encoded().unwrap());
        let end = |state| match pine.prepare_next(state, prep.clone())? {
            PrepareTransition::Finish(share) => Ok::<_, VdafError>(share.0),
            PrepareTransition::Continue(..) => panic!("prepare does not end"),
        };
        Ok((meas_share.clone(), seeds.concat(), [end(leader)?, end(helper)?]))
    }

    /// The gradient, the checked elements and the results, cut as `valid` does.
    pub fn parts<'a, F, X>(pine: &Pine<F, X, 16>, full: &'a [F]) -> [&'a [F]; 3] {
        let (gradient, rest) = full.split_at(pine.flp.dimension);
        let (checked, rest) = rest.split_at(pine.flp.bit_checked_len);
        let (results, rest) = rest.split_at(pine.flp.num_wr_tests);
        assert!(rest.is_empty());
        [gradient, checked, results]
    }

    pub fn pine_vec<F>(row: Vec<F>) -> PineVec<F> {
        PineVec(row)
    }

    pub fn elements<F>(row: PineVec<F>) -> Vec<F> {
        row.0
    }
}
