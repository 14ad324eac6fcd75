//! Two servers, the leader and the helper: each runs the wraparound tests on its share of every report, and adds the share to its aggregate; the
//! two aggregates give the sums of the gradients. Then a report is withdrawn.
//!
//!     cargo run --example server
//!
//! FOR SHOW both servers are in this process, and so are the clients; and the two full shares of a report are added in
//! one place, where the circuits look at the whole. Whoever does that sees the report: servers that must not need an
//! FLP proof, which this crate does not have.
use client::{inputs, report, NotForUse};
use jihmeto_pine::{
    Cut, Error, Full, FullShare, MeasurementShare, Pine, Seed, Share, FIELD_MODULUS, JOINT_RAND_LEN,
};

// its main is not called here
#[allow(dead_code)]
#[path = "client.rs"]
mod client;

const GRADIENTS: [[f64; 5]; 3] = [
    [1.5, -2.25, 0.0, 4.0, -0.125],
    [-3.0, 0.5, 8.0, -1.0, 0.25],
    [0.0, 0.75, -6.5, 2.5, -10.0],
];

/// What one server makes of the share that it was sent: the share, then the results of the tests on its first elements.
fn full_share(
    pine: &Pine,
    sent: &MeasurementShare<Vec<u64>>,
    seed: &Seed,
) -> Result<FullShare<Vec<u64>>, Error> {
    let row = sent.row();
    // a row that is too short is refused by its length
    let share = Share::new(row.get(..pine.dimension()).unwrap_or(row));
    let results = pine.run_wr_tests_seed(&share, seed)?;
    let full = FullShare::new([row, results.row()].concat());
    // refuses a row of another length, and an element that is not below p
    pine.checked_part(&full)?;
    Ok(full)
}

/// FOR SHOW: the two full shares, added in one place.
fn whole(shares: &[FullShare<Vec<u64>>; 2]) -> Full<Vec<u64>> {
    let plus = |(&a, &b): (&u64, &u64)| {
        let sum = u128::from(a) + u128::from(b);
        (sum % u128::from(FIELD_MODULUS)) as u64
    };
    let [left, right] = shares;
    Full::new(left.row().iter().zip(right.row()).map(plus).collect())
}

fn full_shares(pine: &Pine, report: &Cut) -> Result<[FullShare<Vec<u64>>; 2], Error> {
    let seed = report.seeds.wr_joint_rand_seed();
    Ok([
        full_share(pine, &report.leader, &seed)?,
        full_share(pine, &report.helper, &seed)?,
    ])
}

/// Whether both circuits find the report in order. The joint randomness is drawn after the client has fixed its report.
fn is_valid(pine: &Pine, full: &Full<Vec<u64>>, randomness: &mut NotForUse) -> Result<bool, Error> {
    let joint_rand: [u64; JOINT_RAND_LEN] = std::array::from_fn(|_| randomness.element());
    // an accepted call says that the arguments were in order: the values say whether the report is
    let main = pine.valid(full, &joint_rand)?;
    let norm = pine.valid_sq_norm_equal(full)?;
    Ok(main.is_valid() && norm.is_valid())
}

fn main() -> Result<(), Error> {
    let pine = inputs()?;
    let mut randomness = NotForUse::begin();
    let mut reports = Vec::new();
    for gradient in &GRADIENTS {
        reports.push(report(&pine, gradient, &mut randomness)?);
    }
    // and two false ones: of a client that claims another squared norm, and of one that sends too little
    for _ in 0..2 {
        reports.push(report(&pine, &GRADIENTS[0], &mut randomness)?);
    }
    let bit = &mut reports[3].leader.row_mut()[pine.dimension()];
    *bit = (*bit + 1) % FIELD_MODULUS;
    let short = &reports[4].helper.row()[1..];
    reports[4].helper = MeasurementShare::new(short.to_vec());

    let mut aggregates = [pine.empty_aggregate()?, pine.empty_aggregate()?];
    let mut added = Vec::new();
    for (number, report) in (1..).zip(&reports) {
        let shares = match full_shares(&pine, report) {
            Ok(shares) => shares,
            Err(refusal) => {
                println!("report {number}: {refusal}, not added");
                continue;
            }
        };
        if !is_valid(&pine, &whole(&shares), &mut randomness)? {
            println!("report {number}: not valid, not added");
            continue;
        }
        for (aggregate, share) in aggregates.iter_mut().zip(&shares) {
            pine.accumulate(aggregate, &pine.gradient_part(share)?)?;
        }
        added.push(shares);
        println!("report {number}: valid, added");
    }
    let [left, right] = &aggregates;
    let sums = pine.unshard(left, right)?;
    println!("the sum of {} gradients: {sums:?}", added.len());

    for (aggregate, share) in aggregates.iter_mut().zip(&added[1]) {
        pine.subtract(aggregate, &pine.gradient_part(share)?)?;
    }
    let [left, right] = &aggregates;
    println!("without the second: {:?}", pine.unshard(left, right)?);
    println!("FOR SHOW: the shares were added in one place, and the randomness is NOT FOR USE");
    Ok(())
}
