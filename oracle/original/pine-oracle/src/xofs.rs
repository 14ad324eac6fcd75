//! Two stand-in `Xof`s: one hands out chosen bytes, one watches the real XofTurboShake128.

use prio_draft09::vdaf::xof::{Xof, XofTurboShake128};
use rand::{generator, RngCore};
use std::{cell::RefCell, mem};

thread_local! {
    static STREAM: RefCell<Vec<u8>> = const { RefCell::new(Vec::new()) };
    static SEEN: RefCell<Vec<Seen>> = const { RefCell::new(Vec::new()) };
}

/// Panic message when a case supplies fewer bytes than the code asks for; the driver calls that `bad`.
pub const STREAM_SHORT: &str = "oracle: chosen stream is too short";

/// Set the bytes that every later [`ChosenXof`] stream starts to hand out from the first one.
pub fn choose_stream(bytes: Vec<u8>) {
    STREAM.set(bytes);
}

#[derive(Clone, Debug)]
pub struct ChosenXof;

pub struct ChosenStream {
    at: usize,
}

impl Xof<16> for ChosenXof {
    type SeedStream = ChosenStream;
    fn init(_seed: &[u8; 16], _dst: &[u8]) -> Self {
        Self
    }
    fn update(&mut self, _data: &[u8]) {}
    fn into_seed_stream(self) -> ChosenStream {
        ChosenStream { at: 0 }
    }
}

impl ChosenStream {
    fn fill(&mut self, row: &mut [u8]) {
        STREAM.with_borrow(|stream| {
            let Some(bytes) = stream.get(self.at..self.at + row.len()) else {
                panic!("{STREAM_SHORT}");
            };
            row.copy_from_slice(bytes);
        });
        self.at += row.len();
    }
}

generator!(ChosenStream);

/// One stream made through [`WatchedXof`].
#[derive(Clone, Debug, Default)]
pub struct Seen {
    pub seed: Vec<u8>,
    pub dst: Vec<u8>,
    pub binder: Vec<u8>,
    pub bytes: Vec<u8>,
}

/// Forget the streams seen so far and return them.
pub fn take_seen() -> Vec<Seen> {
    SEEN.with_borrow_mut(mem::take)
}

/// The real XofTurboShake128, with everything that goes in and out noted down.
#[derive(Clone, Debug)]
pub struct WatchedXof {
    inner: XofTurboShake128,
    seen: Seen,
}

pub struct WatchedStream {
    inner: <XofTurboShake128 as Xof<16>>::SeedStream,
    index: usize,
}

impl Xof<16> for WatchedXof {
    type SeedStream = WatchedStream;
    fn init(seed: &[u8; 16], dst: &[u8]) -> Self {
        Self {
            inner: XofTurboShake128::init(seed, dst),
            seen: Seen { seed: seed.to_vec(), dst: dst.to_vec(), ..Seen::default() },
        }
    }
    fn update(&mut self, data: &[u8]) {
        self.seen.binder.extend_from_slice(data);
        self.inner.update(data);
    }
    fn into_seed_stream(self) -> WatchedStream {
        let index = SEEN.with_borrow_mut(|seen| {
            seen.push(self.seen);
            seen.len() - 1
        });
        WatchedStream { inner: self.inner.into_seed_stream(), index }
    }
}

impl WatchedStream {
    fn fill(&mut self, row: &mut [u8]) {
        self.inner.fill_bytes(row);
        SEEN.with_borrow_mut(|seen| seen[self.index].bytes.extend_from_slice(row));
    }
}

generator!(WatchedStream);
