//! The calls of inputs that were tested once.
use crate::calls::{self, Circuit};
use crate::error::Error;
use crate::field128;
use crate::param::{Derived, PineParam};
use crate::rows::{
    Aggregate, Full, FullShare, Gradient, Measurement, MeasurementShare, Results, Share,
};
use crate::seed::{CutSeeds, JointRandSeeds, Seed, MORE_DRAWS, NONCE_LEN};
use crate::JOINT_RAND_LEN;
#[cfg(feature = "alloc")]
use alloc::{vec, vec::Vec};

/// An encoded gradient, its elements of the type `E`.
#[cfg(feature = "alloc")]
#[derive(Clone, Debug, PartialEq, Eq)]
#[must_use]
pub struct Encoded<E = u64> {
    /// To be cut in two.
    pub measurement: Measurement<Vec<E>>,
    /// Those of the whole measurement. Each server works out those of its share.
    pub results: Results<Vec<E>>,
}

/// A report, cut in two: all that a client sends, but for the proofs.
#[cfg(feature = "alloc")]
#[derive(Clone, Debug, PartialEq, Eq)]
#[must_use]
pub struct Cut {
    /// For the leader alone.
    pub leader: MeasurementShare<Vec<u64>>,
    /// For the helper alone.
    pub helper: MeasurementShare<Vec<u64>>,
    /// For both.
    pub seeds: JointRandSeeds,
}

/// The type, and the methods that both fields have, each a call of `$calls` over rows of `$element`.
macro_rules! pine {
    ($(#[$doc:meta])* $name:ident over $element:ident by $calls:ident) => {
        $(#[$doc])*
        ///
        /// Each method is the call of its name; one that ends in `_into` writes the caller's rows, and the one without
        /// gives a `Vec` (feature `alloc`). The rules on the inputs, which every call tests, are met by then: a
        /// method's `# Errors` names those that are left, in the order in which they are tested. A refused call leaves
        /// every row as it was.
        #[derive(Clone, Copy, Debug, PartialEq)]
        #[must_use]
        pub struct $name {
            param: PineParam,
            derived: Derived,
        }

        impl $name {
            /// Tests the inputs and derives the lengths.
            ///
            /// # Errors
            ///
            /// Rules 1 to 6, 19, in this order: [`NumWrSuccesses`](crate::Rule::NumWrSuccesses),
            /// [`NormBound`](crate::Rule::NormBound), [`Dimension`](crate::Rule::Dimension),
            /// [`FracBits`](crate::Rule::FracBits), [`ChunkLen`](crate::Rule::ChunkLen),
            /// [`NumWrTests`](crate::Rule::NumWrTests), [`Alpha`](crate::Rule::Alpha).
            pub fn new(param: PineParam) -> Result<$name, Error> {
                let derived = $calls::derive(param)?;
                Ok($name { param, derived })
            }

            /// The inputs.
            pub const fn param(&self) -> PineParam {
                self.param
            }

            /// The record and every length.
            pub const fn derived(&self) -> Derived {
                self.derived
            }

            /// The length of a gradient, a share and an aggregate.
            #[must_use]
            pub const fn dimension(&self) -> usize {
                self.param.dimension as usize
            }

            /// The length of a row of results.
            #[must_use]
            pub const fn num_wr_tests(&self) -> usize {
                self.param.num_wr_tests as usize
            }

            /// The bytes of a stream.
            #[must_use]
            pub const fn stream_len(&self) -> usize {
                self.derived.stream_len as usize
            }

            /// The length of a measurement.
            #[must_use]
            pub const fn encoded_input_len(&self) -> usize {
                self.derived.record.encoded_input_len as usize
            }

            /// The length of a full vector or share: a measurement, then its results.
            #[must_use]
            pub const fn input_len(&self) -> usize {
                self.derived.record.input_len as usize
            }

            /// The bound b of the wraparound tests: a result from -b + 1 to b is in range.
            #[must_use]
            pub fn wr_test_bound(&self) -> u64 {
                self.derived.record.wr_test_bound()
            }

            /// floor(x · 2^frac_bits) modulo p.
            ///
            /// # Errors
            ///
            /// Rules 8, 17, in this order, place 0: [`Coordinate`](crate::Rule::Coordinate),
            /// [`Floor`](crate::Rule::Floor).
            pub fn f64_to_field(&self, x: f64) -> Result<$element, Error> {
                $calls::f64_to_field(x, self.param.frac_bits)
            }

            /// The nearest double to y, or to y - p for y above (p - 1) / 2, divided by 2^frac_bits.
            ///
            /// # Errors
            ///
            /// Rule 12, over Field128 then 23, place 0: [`Element`](crate::Rule::Element), [`Size`](crate::Rule::Size).
            pub fn field_to_f64(&self, y: $element) -> Result<f64, Error> {
                $calls::field_to_f64(y, self.param.frac_bits)
            }

            /// Encodes a gradient into a measurement and the results of its wraparound tests.
            ///
            /// The stream is of uniform random bytes, [`stream_len`](Self::stream_len) of them, new for each report,
            /// and not of the client's choosing. One that a test refuses may be replaced by another.
            ///
            /// # Errors
            ///
            /// Rules 7, 8 with 17, 9, 21, 10, 11 or 20, in this order: [`RowLen`](crate::Rule::RowLen) of the stream,
            /// the measurement and the results (places 2 to 4), [`Coordinate`](crate::Rule::Coordinate) with
            /// [`Floor`](crate::Rule::Floor), [`GradientLen`](crate::Rule::GradientLen),
            /// [`TrueSqNorm`](crate::Rule::TrueSqNorm), [`SqNorm`](crate::Rule::SqNorm),
            /// [`WrTest`](crate::Rule::WrTest) or [`WrTestsInRange`](crate::Rule::WrTestsInRange).
            pub fn encode_with_wr_joint_rand_into(
                &self,
                gradient: &Gradient<impl AsRef<[f64]>>,
                stream: &[u8],
                measurement: &mut Measurement<impl AsMut<[$element]>>,
                results: &mut Results<impl AsMut<[$element]>>,
            ) -> Result<(), Error> {
                $calls::encode_with_wr_joint_rand(
                    self.param,
                    gradient.row(),
                    stream,
                    measurement.row_mut(),
                    results.row_mut(),
                )
            }

            /// As [`encode_with_wr_joint_rand_into`](Self::encode_with_wr_joint_rand_into), with both rows given.
            ///
            /// # Errors
            ///
            /// Rules 7, 8 with 17, 9, 21, 10, 11 or 20, as there; [`RowLen`](crate::Rule::RowLen) of the stream only
            /// (place 2).
            #[cfg(feature = "alloc")]
            pub fn encode_with_wr_joint_rand(
                &self,
                gradient: &Gradient<impl AsRef<[f64]>>,
                stream: &[u8],
            ) -> Result<Encoded<$element>, Error> {
                let mut measurement = Measurement::new(vec![0; self.encoded_input_len()]);
                let mut results = Results::new(vec![0; self.num_wr_tests()]);
                self.encode_with_wr_joint_rand_into(gradient, stream, &mut measurement, &mut results)?;
                Ok(Encoded {
                    measurement,
                    results,
                })
            }

            /// The wraparound tests alone, on a server's share, with the report's stream. A result out of range is no
            /// refusal here: the circuits look at the results.
            ///
            /// # Errors
            ///
            /// Rules 7, 12, in this order: [`RowLen`](crate::Rule::RowLen) of the share, the stream and the results,
            /// [`Element`](crate::Rule::Element) of the share.
            pub fn run_wr_tests_into(
                &self,
                share: &Share<impl AsRef<[$element]>>,
                stream: &[u8],
                results: &mut Results<impl AsMut<[$element]>>,
            ) -> Result<(), Error> {
                $calls::run_wr_tests(self.param, share.row(), stream, results.row_mut())
            }

            /// As [`run_wr_tests_into`](Self::run_wr_tests_into), with the results given.
            ///
            /// # Errors
            ///
            /// Rules 7, 12, as there.
            #[cfg(feature = "alloc")]
            pub fn run_wr_tests(
                &self,
                share: &Share<impl AsRef<[$element]>>,
                stream: &[u8],
            ) -> Result<Results<Vec<$element>>, Error> {
                let mut results = Results::new(vec![0; self.num_wr_tests()]);
                self.run_wr_tests_into(share, stream, &mut results)?;
                Ok(results)
            }

            /// The main circuit on a whole full vector: [`valid`](crate::valid()) with num_shares 1. r1, r2, r3 are
            /// uniform random field numbers that the client could not foresee when it fixed its report.
            ///
            /// **`Ok` means that the arguments were in order; the report is valid where [`Circuit::is_valid`]**, here
            /// and of [`valid_sq_norm_equal`](Self::valid_sq_norm_equal).
            ///
            /// # Errors
            ///
            /// Rules 7, 12, in this order: [`RowLen`](crate::Rule::RowLen), [`Element`](crate::Rule::Element) of the
            /// vector and the joint randomness.
            pub fn valid(
                &self,
                full: &Full<impl AsRef<[$element]>>,
                joint_rand: &[$element; JOINT_RAND_LEN],
            ) -> Result<Circuit<$element>, Error> {
                $calls::valid(self.param, 1, full.row(), joint_rand)
            }

            /// The main circuit on one of `num_shares` full shares, 1 to 255 of them: each share takes its part of the
            /// circuit's constants. The values on the shares do not add up to the value on the whole, so this is of use
            /// to those who add an FLP proof, and says nothing of the report by itself.
            ///
            /// # Errors
            ///
            /// Rules 7, 13, 12, in this order: [`RowLen`](crate::Rule::RowLen), [`NumShares`](crate::Rule::NumShares),
            /// [`Element`](crate::Rule::Element) of the share and the joint randomness.
            pub fn valid_share(
                &self,
                num_shares: u64,
                share: &FullShare<impl AsRef<[$element]>>,
                joint_rand: &[$element; JOINT_RAND_LEN],
            ) -> Result<Circuit<$element>, Error> {
                $calls::valid(self.param, num_shares, share.row(), joint_rand)
            }

            /// The norm circuit on a whole full vector, with num_shares 1:
            /// [`valid_sq_norm_equal`](crate::valid_sq_norm_equal()).
            ///
            /// **`Ok` means that the arguments were in order; the report is valid where [`Circuit::is_valid`]**, here
            /// and of [`valid`](Self::valid).
            ///
            /// # Errors
            ///
            /// Rules 7, 12, in this order: [`RowLen`](crate::Rule::RowLen), [`Element`](crate::Rule::Element).
            pub fn valid_sq_norm_equal(&self, full: &Full<impl AsRef<[$element]>>) -> Result<Circuit<$element>, Error> {
                $calls::valid_sq_norm_equal(self.param, 1, full.row())
            }

            /// The norm circuit on one of `num_shares` full shares, 1 to 255 of them, a number that it tests and does
            /// not use. The values on the shares do not add up to the value on the whole, as in
            /// [`valid_share`](Self::valid_share).
            ///
            /// # Errors
            ///
            /// Rules 7, 13, 12, in this order: [`RowLen`](crate::Rule::RowLen), [`NumShares`](crate::Rule::NumShares),
            /// [`Element`](crate::Rule::Element).
            pub fn valid_sq_norm_equal_share(
                &self,
                num_shares: u64,
                share: &FullShare<impl AsRef<[$element]>>,
            ) -> Result<Circuit<$element>, Error> {
                $calls::valid_sq_norm_equal(self.param, num_shares, share.row())
            }

            /// Makes the aggregate of no shares.
            ///
            /// # Errors
            ///
            /// Rule 7: [`RowLen`](crate::Rule::RowLen).
            pub fn empty_aggregate_into(
                &self,
                agg: &mut Aggregate<impl AsMut<[$element]>>,
            ) -> Result<(), Error> {
                $calls::empty_aggregate(self.param, agg.row_mut())
            }

            /// The aggregate of no shares.
            ///
            /// # Errors
            ///
            /// None: the inputs are accepted, and the row has its length.
            #[cfg(feature = "alloc")]
            pub fn empty_aggregate(&self) -> Result<Aggregate<Vec<$element>>, Error> {
                let mut agg = Aggregate::new(vec![0; self.dimension()]);
                self.empty_aggregate_into(&mut agg)?;
                Ok(agg)
            }

            /// Adds a share to an aggregate.
            ///
            /// # Errors
            ///
            /// Rules 7, 12, in this order: [`RowLen`](crate::Rule::RowLen), [`Element`](crate::Rule::Element) of the
            /// aggregate and the share.
            pub fn accumulate(
                &self,
                agg: &mut Aggregate<impl AsMut<[$element]>>,
                share: &Share<impl AsRef<[$element]>>,
            ) -> Result<(), Error> {
                $calls::accumulate(self.param, agg.row_mut(), share.row())
            }

            /// Adds another aggregate to an aggregate.
            ///
            /// # Errors
            ///
            /// Rules 7, 12, in this order: [`RowLen`](crate::Rule::RowLen), [`Element`](crate::Rule::Element) of both.
            pub fn merge(
                &self,
                agg: &mut Aggregate<impl AsMut<[$element]>>,
                other: &Aggregate<impl AsRef<[$element]>>,
            ) -> Result<(), Error> {
                $calls::merge(self.param, agg.row_mut(), other.row())
            }

            /// Takes a share out of an aggregate, whether or not it was added.
            ///
            /// # Errors
            ///
            /// Rules 7, 12, in this order: [`RowLen`](crate::Rule::RowLen), [`Element`](crate::Rule::Element) of the
            /// aggregate and the share.
            pub fn subtract(
                &self,
                agg: &mut Aggregate<impl AsMut<[$element]>>,
                share: &Share<impl AsRef<[$element]>>,
            ) -> Result<(), Error> {
                $calls::subtract(self.param, agg.row_mut(), share.row())
            }

            /// Takes another aggregate out of an aggregate.
            ///
            /// # Errors
            ///
            /// Rules 7, 12, in this order: [`RowLen`](crate::Rule::RowLen), [`Element`](crate::Rule::Element) of both.
            pub fn unmerge(
                &self,
                agg: &mut Aggregate<impl AsMut<[$element]>>,
                other: &Aggregate<impl AsRef<[$element]>>,
            ) -> Result<(), Error> {
                $calls::unmerge(self.param, agg.row_mut(), other.row())
            }

            /// Adds two aggregates and writes the sums as doubles.
            ///
            /// # Errors
            ///
            /// Rules 7, 12, over Field128 then 23, in this order: [`RowLen`](crate::Rule::RowLen),
            /// [`Element`](crate::Rule::Element) of both aggregates, [`Size`](crate::Rule::Size) of a sum.
            pub fn unshard_into(
                &self,
                left: &Aggregate<impl AsRef<[$element]>>,
                right: &Aggregate<impl AsRef<[$element]>>,
                decoded: &mut [f64],
            ) -> Result<(), Error> {
                $calls::unshard(self.param, left.row(), right.row(), decoded)
            }

            /// The sums of two aggregates, as doubles.
            ///
            /// # Errors
            ///
            /// Rules 7, 12, over Field128 then 23, as there.
            #[cfg(feature = "alloc")]
            pub fn unshard(
                &self,
                left: &Aggregate<impl AsRef<[$element]>>,
                right: &Aggregate<impl AsRef<[$element]>>,
            ) -> Result<Vec<f64>, Error> {
                let mut decoded = vec![0.0; self.dimension()];
                self.unshard_into(left, right, &mut decoded)?;
                Ok(decoded)
            }
        }
    };
}

pine! {
    /// Inputs that were accepted, with what follows from them, and the calls with these inputs.
    Pine over u64 by calls
}

pine! {
    /// Inputs that were accepted over Field128, with what follows from them, and the calls with these inputs. There are
    /// none with a seed or over files; the rows are of `u128` ([`field128`]).
    Pine128 over u128 by field128
}

/// What there is over Field64 alone.
impl Pine {
    /// As [`encode_with_wr_joint_rand_into`](Pine::encode_with_wr_joint_rand_into) with the stream that a seed makes,
    /// which no row holds. A seed that a test refuses may be replaced by another.
    ///
    /// # Errors
    ///
    /// Rules 7, 8 with 17, 9, 21, 10, 11 or 20, as there; [`RowLen`](crate::Rule::RowLen) of the measurement and the
    /// results only (places 3 and 4).
    pub fn encode_with_wr_joint_rand_seed_into(
        &self,
        gradient: &Gradient<impl AsRef<[f64]>>,
        seed: &Seed,
        measurement: &mut Measurement<impl AsMut<[u64]>>,
        results: &mut Results<impl AsMut<[u64]>>,
    ) -> Result<(), Error> {
        calls::encode_with_wr_joint_rand_seed(
            self.param,
            gradient.row(),
            seed.bytes(),
            measurement.row_mut(),
            results.row_mut(),
        )
    }

    /// As [`encode_with_wr_joint_rand_seed_into`](Pine::encode_with_wr_joint_rand_seed_into), with both rows given.
    ///
    /// # Errors
    ///
    /// Rules 8 with 17, 9, 21, 10, 11 or 20, as there.
    #[cfg(feature = "alloc")]
    pub fn encode_with_wr_joint_rand_seed(
        &self,
        gradient: &Gradient<impl AsRef<[f64]>>,
        seed: &Seed,
    ) -> Result<Encoded, Error> {
        let mut measurement = Measurement::new(vec![0; self.encoded_input_len()]);
        let mut results = Results::new(vec![0; self.num_wr_tests()]);
        self.encode_with_wr_joint_rand_seed_into(gradient, seed, &mut measurement, &mut results)?;
        Ok(Encoded {
            measurement,
            results,
        })
    }

    /// The bytes of a stream for [`sample_into`](Pine::sample_into).
    #[must_use]
    pub const fn sample_stream_len(&self) -> usize {
        8 * (self.encoded_input_len() + MORE_DRAWS)
    }

    /// Encodes a gradient and cuts its measurement in two, as the original does up to the proofs: the leader's share and
    /// the helper's, one for each server, and the seeds of the joint randomness, for both. The shares add up to the
    /// measurement that [`encode_with_wr_joint_rand_seed_into`](Pine::encode_with_wr_joint_rand_seed_into) gives with
    /// the seed of the wraparound tests given. The nonce is the report's own and public. Seeds that 18, 11 or 20 refuses
    /// may be replaced by others.
    ///
    /// # Errors
    ///
    /// Rules 7, 8 with 17, 9, 21, 10, 18, 11 or 20, in this order: [`RowLen`](crate::Rule::RowLen) of the leader's share
    /// and the helper's (places 4 and 5), [`Coordinate`](crate::Rule::Coordinate) with [`Floor`](crate::Rule::Floor),
    /// [`GradientLen`](crate::Rule::GradientLen), [`TrueSqNorm`](crate::Rule::TrueSqNorm),
    /// [`SqNorm`](crate::Rule::SqNorm), [`Draws`](crate::Rule::Draws), [`WrTest`](crate::Rule::WrTest) or
    /// [`WrTestsInRange`](crate::Rule::WrTestsInRange).
    pub fn cut_into(
        &self,
        gradient: &Gradient<impl AsRef<[f64]>>,
        nonce: &[u8; NONCE_LEN],
        seeds: &CutSeeds,
        leader: &mut MeasurementShare<impl AsMut<[u64]>>,
        helper: &mut MeasurementShare<impl AsMut<[u64]>>,
        given: &mut JointRandSeeds,
    ) -> Result<(), Error> {
        calls::cut(
            self.param,
            gradient.row(),
            nonce,
            seeds.bytes(),
            leader.row_mut(),
            helper.row_mut(),
            given.bytes_mut(),
        )
    }

    /// As [`cut_into`](Pine::cut_into), with the rows and the seeds given.
    ///
    /// # Errors
    ///
    /// Rules 8 with 17, 9, 21, 10, 18, 11 or 20, as there.
    #[cfg(feature = "alloc")]
    pub fn cut(
        &self,
        gradient: &Gradient<impl AsRef<[f64]>>,
        nonce: &[u8; NONCE_LEN],
        seeds: &CutSeeds,
    ) -> Result<Cut, Error> {
        let mut cut = Cut {
            leader: MeasurementShare::new(vec![0; self.encoded_input_len()]),
            helper: MeasurementShare::new(vec![0; self.encoded_input_len()]),
            seeds: JointRandSeeds::new([0; crate::JOINT_RAND_SEEDS_LEN]),
        };
        let (leader, helper) = (&mut cut.leader, &mut cut.helper);
        self.cut_into(gradient, nonce, seeds, leader, helper, &mut cut.seeds)?;
        Ok(cut)
    }

    /// The sampler by which [`cut_into`](Pine::cut_into) makes the helper's share, over a stream that is lent,
    /// [`sample_stream_len`](Pine::sample_stream_len) bytes: its values of 8 bytes, low byte first, that are below p
    /// fill the share.
    ///
    /// # Errors
    ///
    /// Rules 7, 18, in this order: [`RowLen`](crate::Rule::RowLen) of the stream and the share,
    /// [`Draws`](crate::Rule::Draws).
    pub fn sample_into(
        &self,
        stream: &[u8],
        share: &mut MeasurementShare<impl AsMut<[u64]>>,
    ) -> Result<(), Error> {
        calls::sample(self.param, stream, share.row_mut())
    }

    /// As [`sample_into`](Pine::sample_into), with the share given.
    ///
    /// # Errors
    ///
    /// Rules 7, 18, as there; [`RowLen`](crate::Rule::RowLen) of the stream only (place 1).
    #[cfg(feature = "alloc")]
    pub fn sample(&self, stream: &[u8]) -> Result<MeasurementShare<Vec<u64>>, Error> {
        let mut share = MeasurementShare::new(vec![0; self.encoded_input_len()]);
        self.sample_into(stream, &mut share)?;
        Ok(share)
    }

    /// As [`run_wr_tests_into`](Pine::run_wr_tests_into) with the stream that the report's seed makes, which no row
    /// holds.
    ///
    /// # Errors
    ///
    /// Rules 7, 12, as there; [`RowLen`](crate::Rule::RowLen) of the share and the results only (places 1 and 3).
    pub fn run_wr_tests_seed_into(
        &self,
        share: &Share<impl AsRef<[u64]>>,
        seed: &Seed,
        results: &mut Results<impl AsMut<[u64]>>,
    ) -> Result<(), Error> {
        calls::run_wr_tests_seed(self.param, share.row(), seed.bytes(), results.row_mut())
    }

    /// As [`run_wr_tests_seed_into`](Pine::run_wr_tests_seed_into), with the results given.
    ///
    /// # Errors
    ///
    /// Rules 7, 12, as there.
    #[cfg(feature = "alloc")]
    pub fn run_wr_tests_seed(
        &self,
        share: &Share<impl AsRef<[u64]>>,
        seed: &Seed,
    ) -> Result<Results<Vec<u64>>, Error> {
        let mut results = Results::new(vec![0; self.num_wr_tests()]);
        self.run_wr_tests_seed_into(share, seed, &mut results)?;
        Ok(results)
    }

    /// The gradient's elements of a full share: what is added to an aggregate.
    ///
    /// # Errors
    ///
    /// Rules 7, 12, in this order: [`RowLen`](crate::Rule::RowLen), [`Element`](crate::Rule::Element).
    pub fn gradient_part<'a, R: AsRef<[u64]>>(
        &self,
        share: &'a FullShare<R>,
    ) -> Result<Share<&'a [u64]>, Error> {
        calls::gradient_part(self.param, share.row()).map(Share::new)
    }

    /// The checked elements of a full share.
    ///
    /// # Errors
    ///
    /// Rules 7, 12, in this order: [`RowLen`](crate::Rule::RowLen), [`Element`](crate::Rule::Element).
    pub fn checked_part<'a, R: AsRef<[u64]>>(
        &self,
        share: &'a FullShare<R>,
    ) -> Result<&'a [u64], Error> {
        calls::checked_part(self.param, share.row())
    }

    /// The results of a full share.
    ///
    /// # Errors
    ///
    /// Rules 7, 12, in this order: [`RowLen`](crate::Rule::RowLen), [`Element`](crate::Rule::Element).
    pub fn results_part<'a, R: AsRef<[u64]>>(
        &self,
        share: &'a FullShare<R>,
    ) -> Result<Results<&'a [u64]>, Error> {
        calls::results_part(self.param, share.row()).map(Results::new)
    }
}
