//! The names of `rand` 0.8 that the PINE modules use, and those that the driver does, over `rand` 0.8, with which the
//! registry's prio 0.16 is built.

pub use rand::{thread_rng, Error, Rng, RngCore};

pub mod prelude {
    pub use crate::{thread_rng, Rng};
}

/// Makes a generator of a type whose own `fill` fills a row of bytes.
#[macro_export]
macro_rules! generator {
    ($stream:ty) => {
        impl $crate::RngCore for $stream {
            fn fill_bytes(&mut self, row: &mut [u8]) {
                self.fill(row);
            }
            fn try_fill_bytes(&mut self, row: &mut [u8]) -> Result<(), $crate::Error> {
                self.fill(row);
                Ok(())
            }
            fn next_u32(&mut self) -> u32 {
                let mut bytes = [0; 4];
                self.fill(&mut bytes);
                u32::from_le_bytes(bytes)
            }
            fn next_u64(&mut self) -> u64 {
                let mut bytes = [0; 8];
                self.fill(&mut bytes);
                u64::from_le_bytes(bytes)
            }
        }
    };
}
