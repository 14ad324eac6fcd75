//! The seeds of a report.
use core::fmt;

/// How many bytes a seed has.
pub const SEED_LEN: usize = 16;

/// How many bytes a report's nonce has.
pub const NONCE_LEN: usize = 16;

/// How many bytes the five seeds of a cut have.
pub const CUT_SEEDS_LEN: usize = 5 * SEED_LEN;

/// How many bytes the two seeds of the joint randomness have.
pub const JOINT_RAND_SEEDS_LEN: usize = 2 * SEED_LEN;

/// How many values more than a share has elements are drawn for it, at most.
pub const MORE_DRAWS: usize = 64;

macro_rules! bytes {
    ($(#[$doc:meta])* $name:ident of $len:ident) => {
        $(#[$doc])*
        ///
        /// Its bytes are not written by `Debug`.
        #[derive(Clone, PartialEq, Eq)]
        #[must_use]
        pub struct $name([u8; $len]);

        impl $name {
            /// Says that the bytes are one. Nothing can be tested of them.
            pub const fn new(bytes: [u8; $len]) -> $name {
                $name(bytes)
            }

            /// Its bytes.
            #[must_use]
            pub const fn bytes(&self) -> &[u8; $len] {
                &self.0
            }
        }

        impl fmt::Debug for $name {
            fn fmt(&self, f: &mut fmt::Formatter<'_>) -> fmt::Result {
                f.write_str(concat!(stringify!($name), "(..)"))
            }
        }
    };
}

bytes! {
    /// The seed of a report's wraparound tests: it makes their stream, as in the original, by XofTurboShake128.
    ///
    /// It is fresh, one for each report; secret, known to its client and the two servers alone; and from a cryptographic
    /// source. In PINE it comes from the joint randomness, so that a client cannot choose it: with one that it chose, a
    /// gradient too long can pass. [`Pine::cut`](crate::Pine::cut_into) gives such a one. docs/PINE.md of the project,
    /// "The stream of a seed", has the definition.
    Seed of SEED_LEN
}

bytes! {
    /// The five seeds of a report that is cut: that of the helper's share, the helper's blinds of the wraparound and of
    /// the verification joint randomness, and the leader's two. The original's meas_share_seed_1, wr_blind_1,
    /// vf_blind_1, wr_blind_0 and vf_blind_0, in this order.
    ///
    /// They are fresh, five for each report; from a cryptographic source; and secret: whoever has the first and the
    /// leader's share has the gradient.
    CutSeeds of CUT_SEEDS_LEN
}

bytes! {
    /// The two seeds that a cut gives, for both servers: that of the wraparound tests and that of the verification joint
    /// randomness.
    ///
    /// They come from the shares, the blinds and the nonce, so that a client can try others but choose none. PINE's
    /// servers test that by parts of the joint randomness, for which there is no call here.
    JointRandSeeds of JOINT_RAND_SEEDS_LEN
}

impl JointRandSeeds {
    fn seed(&self, from: usize) -> Seed {
        Seed(core::array::from_fn(|i| self.0[from + i]))
    }

    /// The seed of the report's wraparound tests.
    pub fn wr_joint_rand_seed(&self) -> Seed {
        self.seed(0)
    }

    /// The seed of the verification joint randomness, from which PINE's proofs take theirs.
    pub fn vf_joint_rand_seed(&self) -> Seed {
        self.seed(SEED_LEN)
    }

    pub(crate) fn bytes_mut(&mut self) -> &mut [u8] {
        &mut self.0
    }
}
