//! A client: makes a report, which is a gradient encoded and cut in two, one share for each server.
//!
//!     cargo run --example client
//!     cargo run --example client -- 1.5 -2.25 0 4 -0.125
//!
//! The randomness is NOT FOR USE: it is the same at each run.
use jihmeto_pine::{Cut, CutSeeds, Error, Gradient, Pine, PineParam, Rule, FIELD_MODULUS};
use std::process::ExitCode;

/// What the clients and both servers agree on: gradients of 5 coordinates, of norm up to 16.
pub fn inputs() -> Result<Pine, Error> {
    Pine::new(PineParam::standard(
        4099, // norm_bound: ceil(16 · 2^8 + √5)
        5,    // dimension
        8,    // frac_bits
        16,   // chunk_len
        2,    // chunk_len_sq_norm_equal
        10,   // num_wr_tests
        10,   // num_wr_successes
    ))
}

/// A generator that is NOT FOR USE: whoever knows where it began can undo the cut. A client needs a cryptographic one,
/// begun anew for each report.
pub struct NotForUse(u64);

impl NotForUse {
    pub fn begin() -> NotForUse {
        NotForUse(0x9e37_79b9_7f4a_7c15)
    }

    fn word(&mut self) -> u64 {
        self.0 ^= self.0 << 13;
        self.0 ^= self.0 >> 7;
        self.0 ^= self.0 << 17;
        self.0
    }

    /// A number below p. One that is not is dropped: a remainder would not be uniform.
    pub fn element(&mut self) -> u64 {
        loop {
            let word = self.word();
            if word < FIELD_MODULUS {
                return word;
            }
        }
    }

    fn bytes<const LEN: usize>(&mut self) -> [u8; LEN] {
        std::array::from_fn(|_| (self.word() >> 56) as u8)
    }
}

/// What a client sends: to each server its share, and the two seeds to both.
pub fn report(pine: &Pine, gradient: &[f64], randomness: &mut NotForUse) -> Result<Cut, Error> {
    let gradient = Gradient::new(gradient);
    let nonce = randomness.bytes();
    let mut tries = 10;
    loop {
        match pine.cut(&gradient, &nonce, &CutSeeds::new(randomness.bytes())) {
            // a test may miss by chance, a share take too many draws: other seeds may do
            Err(Error {
                rule: Rule::WrTest | Rule::Draws,
                ..
            }) if tries > 1 => tries -= 1,
            made => return made,
        }
    }
}

fn main() -> ExitCode {
    let words: Vec<String> = std::env::args().skip(1).collect();
    let gradient: Vec<f64> = if words.is_empty() {
        vec![1.5, -2.25, 0.0, 4.0, -0.125]
    } else {
        match words.iter().map(|word| word.parse()).collect() {
            Ok(gradient) => gradient,
            Err(_) => {
                eprintln!("client: the arguments are the coordinates of a gradient, numbers");
                return ExitCode::FAILURE;
            }
        }
    };
    let sent = inputs().and_then(|pine| report(&pine, &gradient, &mut NotForUse::begin()));
    match sent {
        Ok(report) => {
            println!("the gradient {gradient:?}, encoded and cut");
            for (server, share) in [("leader", &report.leader), ("helper", &report.helper)] {
                let row = share.row();
                println!(
                    "to the {server}: two seeds of {} bytes and {} elements, first {}, {}, ..",
                    report.seeds.bytes().len() / 2,
                    row.len(),
                    row[0],
                    row[1]
                );
            }
            println!("NOT FOR USE: the randomness of this program is the same at each run");
            ExitCode::SUCCESS
        }
        Err(refusal) => {
            eprintln!("client: {refusal}");
            ExitCode::FAILURE
        }
    }
}
