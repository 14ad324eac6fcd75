//! Timings of the unchanged code: minimum over several runs, single thread.

use crate::{
    cut::{up_to_proofs, UpToProofs},
    fields::{pine, Elem},
    pine::{vdaf::PineVec, Pine},
    xofs::{choose_stream, ChosenXof},
};
use prio_draft09::{
    codec::Decode,
    field::{Field128, Field64},
    flp::Type,
    vdaf::{
        xof::{IntoFieldVec, Seed, Xof, XofTurboShake128},
        Aggregatable, Collector,
    },
};
use rand::RngCore;
use std::{hint::black_box, time::Instant};

const T: usize = 100;

#[repr(C)]
struct Timespec {
    seconds: i64,
    nanoseconds: i64,
}

extern "C" {
    fn clock_gettime(clock: i32, now: *mut Timespec) -> i32;
}

/// The processor time of this thread, in nanoseconds.
fn thread_time() -> f64 {
    const CLOCK_THREAD_CPUTIME_ID: i32 = 3;
    let mut now = Timespec { seconds: 0, nanoseconds: 0 };
    assert_eq!(unsafe { clock_gettime(CLOCK_THREAD_CPUTIME_ID, &mut now) }, 0);
    now.seconds as f64 * 1e9 + now.nanoseconds as f64
}

/// The least time over `runs` runs, in nanoseconds, on the wall or of the processor. `prep` is not timed.
fn least<A, B>(runs: usize, mut prep: impl FnMut() -> A, mut f: impl FnMut(A) -> B) -> f64 {
    let mut best = f64::INFINITY;
    for _ in 0..runs {
        let a = black_box(prep());
        let (thread, wall) = (thread_time(), Instant::now());
        let b = black_box(f(a));
        let wall = wall.elapsed().as_nanos() as f64;
        best = best.min(wall).min(thread_time() - thread);
        drop(b);
    }
    best
}

fn row(what: &str, ns: f64, per: &[(&str, usize)]) {
    print!("{what:<44} {:>14.0} ns", ns);
    for (name, n) in per {
        print!("  {:>9.3} ns/{name}", ns / *n as f64);
    }
    println!();
}

fn seed(tag: u8) -> Seed<16> {
    Seed::get_decoded(&[tag; 16]).unwrap()
}

/// Another one each time, so that no run is like the one before.
fn seeds() -> impl FnMut() -> Seed<16> {
    let mut tag = 0;
    move || {
        tag += 1;
        Seed::get_decoded(&u128::to_le_bytes(tag)).unwrap()
    }
}

fn random_elems<F: Elem>(n: usize, seed: &Seed<16>) -> Vec<F> {
    XofTurboShake128::seed_stream(seed, &[], &[]).into_field_vec(n)
}

/// As run_wr_tests() draws them.
fn stream(d: usize, seed: &Seed<16>) -> Vec<u8> {
    let mut stream = vec![0; d.div_ceil(4) * T];
    let mut xof = XofTurboShake128::seed_stream(seed, &[1, 255, 255, 255, 255, 0, 8], &[]);
    xof.fill_bytes(&mut stream);
    stream
}

fn inputs(d: usize, (c, e): (usize, usize)) -> [u64; 7] {
    [1 << 20, d as u64, 20, c as u64, e as u64, T as u64, T as u64]
}

/// Coordinates of both signs; the norm is about half of the bound.
fn gradient(d: usize) -> Vec<f64> {
    (0..d).map(|i| (((i * 7919) % 1000) as f64 / 500.0 - 1.0) * 0.9 / (d as f64).sqrt()).collect()
}

fn runs(d: usize) -> usize {
    if d > 10_000 {
        15
    } else {
        200
    }
}

fn calls<F: Elem>(d: usize) {
    let (seed, gradient, runs) = (seed(7), gradient(d), runs(d));
    let root = (d as f64).sqrt() as usize;
    for (c, e) in [(1, 1), (50, root)] {
        let pine: Pine<F, XofTurboShake128, 16> = pine(inputs(d, (c, e))).unwrap();
        let t = &pine.flp;
        let eq = &pine.flp_sq_norm_equal;
        let (meas, results) =
            t.encode_with_wr_joint_rand::<XofTurboShake128, 16>(gradient.iter().copied(), &seed).unwrap();
        let full: Vec<F> = meas.iter().chain(&results).copied().collect();
        let jr = random_elems(3, &self::seed(1));
        println!(
            "Field{} d={d} T={T} chunk_len={c} chunk_len_sq_norm_equal={e} (sq_norm_bits {} wr_test_bits {} input_len {})",
            8 * F::ENCODED_SIZE,
            t.sq_norm_bits,
            t.wr_test_bits,
            t.input_len
        );

        if c == 1 {
            let per = [("coordinate", d), ("coordinate*test", d * T)];
            row(
                "encode, real XOF",
                least(runs, seeds(), |seed| {
                    t.encode_with_wr_joint_rand::<XofTurboShake128, 16>(gradient.iter().copied(), &seed).unwrap()
                }),
                &per,
            );
            // Same bytes, without the cost of making them.
            let give = || {
                let mut seeds = seeds();
                move || {
                    let seed = seeds();
                    choose_stream(stream(d, &seed));
                    seed
                }
            };
            row(
                "encode, stream bytes given",
                least(runs, give(), |seed| {
                    t.encode_with_wr_joint_rand::<ChosenXof, 16>(gradient.iter().copied(), &seed).unwrap()
                }),
                &per,
            );
            row(
                "append_encoded_gradient alone",
                least(runs, Vec::new, |mut v: Vec<F>| {
                    t.append_encoded_gradient(&mut v, gradient.iter().copied()).unwrap();
                    v
                }),
                &per[..1],
            );
            row(
                "run_wr_tests, real XOF",
                least(runs, seeds(), |seed| t.run_wr_tests::<XofTurboShake128, 16>(&meas[..d], &seed)),
                &per,
            );
            row(
                "run_wr_tests, stream bytes given",
                least(runs, give(), |seed| t.run_wr_tests::<ChosenXof, 16>(&meas[..d], &seed)),
                &per,
            );
            choose_stream(stream(d, &seed));
            assert_eq!(t.run_wr_tests::<ChosenXof, 16>(&meas[..d], &seed), results);
        }
        let zero = t.valid(&mut t.gadget(), &full, &jr, 1).unwrap();
        assert_eq!(zero, F::zero());
        row(
            "PineType::valid",
            least(runs * 20, || t.gadget(), |mut g| t.valid(&mut g, &full, &jr, 1).unwrap()),
            &[("bit-checked element", t.bit_checked_len), ("gadget call", t.gadget_calls)],
        );
        let zero = eq.valid(&mut eq.gadget(), &full, &[], 1).unwrap();
        assert_eq!(zero, F::zero());
        row(
            "PineTypeSquaredNormEqual::valid",
            least(runs * 20, || eq.gadget(), |mut g| eq.valid(&mut g, &full, &[], 1).unwrap()),
            &[("coordinate", d), ("gadget call", eq.gadget_calls)],
        );

        if c == 1 {
            // A sum of any size is not decoded over Field128.
            let a: Vec<F> = random_elems(d, &self::seed(2));
            let b = PineVec(meas.iter().zip(&a).map(|(x, a)| *x - *a).collect());
            let a = PineVec(a);
            row(
                "accumulate",
                least(
                    runs * 20,
                    || a.clone(),
                    |mut a| {
                        a.accumulate(&b).unwrap();
                        a
                    },
                ),
                &[("element", d)],
            );
            row(
                "unshard",
                least(runs * 20, || vec![a.clone(), b.clone()], |v| pine.unshard(&(), v, 1).unwrap()),
                &[("element", d)],
            );
        }
    }
}

/// The XOF, and a report cut by it.
fn cutting(d: usize) {
    let (gradient, runs) = (gradient(d), runs(d));
    let pine: Pine<Field64, UpToProofs, 16> = pine(inputs(d, (1, 1))).unwrap();
    let len = d + pine.flp.bit_checked_len;
    println!("Field64 d={d} T={T} (measurement share {len})");
    row("XOF alone, the tests' stream", least(runs, seeds(), |s| stream(d, &s)), &[("byte", d.div_ceil(4) * T)]);
    row("helper's share alone", least(runs, seeds(), |s| random_elems::<Field64>(len, &s)), &[("element", len)]);
    row(
        "shard_with_rand up to the proofs",
        least(runs, seeds(), |s| up_to_proofs(&pine, &gradient, &[9; 16], [*s.as_ref(); 5]).unwrap()),
        &[("coordinate", d), ("element", len)],
    );
}

fn arithmetic<F: Elem>() {
    const N: usize = 1 << 16;
    println!("Field{}", 8 * F::ENCODED_SIZE);
    let (a, b): (Vec<F>, Vec<F>) = (random_elems(N, &seed(4)), random_elems(N, &seed(5)));
    row(
        "mul, each waits for the one before",
        least(
            200,
            || (),
            |()| {
                let mut x = a[0];
                for y in &b {
                    x *= *y;
                }
                x
            },
        ),
        &[("mul", N)],
    );
    row(
        "mul, element by element, in place",
        least(
            200,
            || a.clone(),
            |mut v| {
                for (x, y) in v.iter_mut().zip(&b) {
                    *x *= *y;
                }
                v
            },
        ),
        &[("mul", N)],
    );
    row(
        "add, element by element, in place",
        least(
            200,
            || a.clone(),
            |mut v| {
                for (x, y) in v.iter_mut().zip(&b) {
                    *x += *y;
                }
                v
            },
        ),
        &[("add", N)],
    );
}

pub fn main() {
    for d in [1000, 65536] {
        calls::<Field64>(d);
        cutting(d);
        calls::<Field128>(d);
    }
    arithmetic::<Field64>();
    arithmetic::<Field128>();
}
