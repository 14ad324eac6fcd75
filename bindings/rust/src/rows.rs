//! Rows by what they hold.

macro_rules! row {
    // field numbers: of u64 over Field64, of u128 over Field128
    ($(#[$doc:meta])* $name:ident of elements) => {
        row! { $(#[$doc])* $name of E, <E> }
    };
    ($(#[$doc:meta])* $name:ident of $element:ty $(, <$any:ident>)?) => {
        $(#[$doc])*
        ///
        /// `R` is any row of them: a slice, an array, a `Vec`. Nothing is tested when it is made: the calls do that.
        #[derive(Clone, Copy, Debug, PartialEq, Eq, Hash)]
        #[must_use]
        #[repr(transparent)]
        pub struct $name<R>(R);

        impl<R> $name<R> {
            /// Says that the row is one.
            pub const fn new(row: R) -> $name<R> {
                $name(row)
            }

            /// The row itself.
            #[must_use]
            pub fn into_row(self) -> R {
                self.0
            }
        }

        impl<R> $name<R> {
            /// Its elements.
            #[must_use]
            pub fn row$(<$any>)?(&self) -> &[$element]
            where
                R: AsRef<[$element]>,
            {
                self.0.as_ref()
            }

            /// Its elements, to be written.
            #[must_use]
            pub fn row_mut$(<$any>)?(&mut self) -> &mut [$element]
            where
                R: AsMut<[$element]>,
            {
                self.0.as_mut()
            }
        }
    };
}

row! {
    /// A client's gradient: dimension doubles.
    Gradient of f64
}
row! {
    /// An encoded gradient, whole: encoded_input_len field numbers. A client keeps it, and gives each of two servers
    /// one of two rows that add up to it.
    Measurement of elements
}
row! {
    /// A server's row of a cut measurement, the leader's or the helper's: encoded_input_len field numbers. The first
    /// dimension of them are its [`Share`].
    MeasurementShare of u64
}
row! {
    /// The results of the wraparound tests: num_wr_tests field numbers.
    Results of elements
}
row! {
    /// A full vector, whole: a measurement, then its results; input_len field numbers. It is what two full shares add
    /// up to, and whoever has it sees the report.
    Full of elements
}
row! {
    /// A server's full share: its row of the cut measurement, then the results of the tests on the row's first
    /// dimension elements; input_len field numbers.
    ///
    /// It has a full vector's length, and is not whole:
    ///
    /// ```
    /// use jihmeto_pine::{Error, FullShare, Pine};
    ///
    /// fn value(pine: &Pine, share: &FullShare<&[u64]>) -> Result<u64, Error> {
    ///     Ok(pine.valid_sq_norm_equal_share(2, share)?.value)
    /// }
    /// ```
    ///
    /// ```compile_fail,E0308
    /// use jihmeto_pine::{Error, FullShare, Pine};
    ///
    /// fn value(pine: &Pine, share: &FullShare<&[u64]>) -> Result<u64, Error> {
    ///     Ok(pine.valid_sq_norm_equal(share)?.value)
    /// }
    /// ```
    FullShare of elements
}
row! {
    /// A share as it is tested, added and taken out: the first dimension elements of a server's row. Its output share,
    /// in the VDAF draft's words.
    ///
    /// It has an aggregate's length, and is no aggregate:
    ///
    /// ```
    /// use jihmeto_pine::{Aggregate, Error, Pine, Share};
    ///
    /// fn add(pine: &Pine, to: &mut Aggregate<&mut [u64]>, share: &Share<&[u64]>) -> Result<(), Error> {
    ///     pine.accumulate(to, share)
    /// }
    /// ```
    ///
    /// ```compile_fail,E0308
    /// use jihmeto_pine::{Aggregate, Error, Pine, Share};
    ///
    /// fn add(pine: &Pine, to: &mut Aggregate<&mut [u64]>, share: &Share<&[u64]>) -> Result<(), Error> {
    ///     pine.merge(to, share)
    /// }
    /// ```
    ///
    /// And a whole measurement is no share:
    ///
    /// ```compile_fail,E0308
    /// use jihmeto_pine::{Aggregate, Error, Measurement, Pine};
    ///
    /// fn add(pine: &Pine, to: &mut Aggregate<&mut [u64]>, whole: &Measurement<&[u64]>) -> Result<(), Error> {
    ///     pine.accumulate(to, whole)
    /// }
    /// ```
    Share of elements
}
row! {
    /// The sum of shares, modulo p: dimension field numbers. An aggregate share, in the VDAF draft's words.
    Aggregate of elements
}
row! {
    /// A day's file, or what may be one: bytes.
    FileBytes of u8
}
row! {
    /// The contents of a day's file: 12 bytes an entry, its key and its count of reports.
    FileContents of u8
}
row! {
    /// The bodies of a day's file, in the entries' order: dimension field numbers an entry, an aggregate.
    FileBodies of u64
}
