/// What the rows time and cannot name from outside this module, called as it stands.
pub mod opened {
    use super::{vdaf::PineVec, *};
    use prio_draft09::{
        flp::Type,
        vdaf::xof::{Seed, Xof},
    };

    fn lengths(circuit: &impl Type) -> [u64; 6] {
        let lengths = [
            circuit.input_len(),
            circuit.proof_len(),
            circuit.verifier_len(),
            circuit.joint_rand_len(),
            circuit.prove_rand_len(),
            circuit.query_rand_len(),
        ];
        lengths.map(|x| x as u64)
    }

    /// The record, the stream's length and the lengths of both circuits, in the order of include/pine.h.
    pub fn derived(inputs: [u64; 7]) -> [u64; 29] {
        let pine: Pine64 = crate::fields::pine(inputs).unwrap();
        let (flp, equal) = (&pine.flp, &pine.flp_sq_norm_equal);
        let record = [
            flp.dimension as u64,
            flp.frac_bits as u64,
            f64::from(1 << flp.frac_bits).to_bits(),
            flp.chunk_len as u64,
            equal.chunk_len as u64,
            flp.num_wr_tests as u64,
            flp.num_wr_successes as u64,
            u64::from(flp.sq_norm_bound),
            flp.sq_norm_bits as u64,
            u64::from(u64::from(flp.wr_test_bound).trailing_zeros()),
            flp.wr_test_bits as u64,
            flp.bit_checked_len as u64,
            pine.encoded_input_len as u64,
            flp.input_len as u64,
            flp.gadget_calls as u64,
            equal.gadget_calls as u64,
            (chunk_count(4, flp.dimension) * flp.num_wr_tests) as u64,
        ];
        let mut numbers = [0; 29];
        numbers[..17].copy_from_slice(&record);
        numbers[17..23].copy_from_slice(&lengths(flp));
        numbers[23..].copy_from_slice(&lengths(equal));
        numbers
    }

    pub fn run_wr_tests<F: FftFriendlyFieldElement, X: Xof<16>>(
        pine: &Pine<F, XofTurboShake128, 16>,
        gradient: &[F],
        seed: &Seed<16>,
    ) -> Vec<F> {
        pine.flp.run_wr_tests::<X, 16>(gradient, seed)
    }

    pub fn pine_vec<F>(row: Vec<F>) -> PineVec<F> {
        PineVec(row)
    }

    pub fn elements<F>(row: PineVec<F>) -> Vec<F> {
        row.0
    }

    pub fn to_field(x: f64, two_to_frac_bits: f64) -> Result<Field64, VdafError> {
        f64_to_field(x, two_to_frac_bits)
    }

    pub fn to_f64(y: Field64, two_to_frac_bits: f64) -> Result<f64, VdafError> {
        field_to_f64(y, two_to_frac_bits)
    }

    pub fn f64_to_field_row(row: &[f64], two_to_frac_bits: f64, out: &mut [Field64]) -> Result<(), VdafError> {
        for (y, x) in out.iter_mut().zip(row) {
            *y = f64_to_field(*x, two_to_frac_bits)?;
        }
        Ok(())
    }

    pub fn sum_of_decoded(row: &[Field64], two_to_frac_bits: f64) -> Result<f64, VdafError> {
        let mut sum = 0.0;
        for y in row {
            sum += field_to_f64(*y, two_to_frac_bits)?;
        }
        Ok(sum)
    }
}
