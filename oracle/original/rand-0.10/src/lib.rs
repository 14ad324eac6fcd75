//! The names of `rand` 0.8 that the PINE modules use, and those that the driver does, over `rand` 0.10, to which Debian's
//! prio 0.16 is patched. There `RngCore` became `Rng`, the extension trait `Rng` became `RngExt`, and `thread_rng()`
//! became `rng()`.

pub use rand::{rng as thread_rng, Rng as RngCore, RngExt as Rng, TryRng};

pub mod prelude {
    pub use crate::{thread_rng, Rng};
}

/// Makes a generator of a type whose own `fill` fills a row of bytes.
#[macro_export]
macro_rules! generator {
    ($stream:ty) => {
        impl $crate::TryRng for $stream {
            type Error = std::convert::Infallible;
            fn try_fill_bytes(&mut self, row: &mut [u8]) -> Result<(), Self::Error> {
                self.fill(row);
                Ok(())
            }
            fn try_next_u32(&mut self) -> Result<u32, Self::Error> {
                let mut bytes = [0; 4];
                self.fill(&mut bytes);
                Ok(u32::from_le_bytes(bytes))
            }
            fn try_next_u64(&mut self) -> Result<u64, Self::Error> {
                let mut bytes = [0; 8];
                self.fill(&mut bytes);
                Ok(u64::from_le_bytes(bytes))
            }
        }
    };
}
