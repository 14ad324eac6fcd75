// The methods beside the functions over slices: the same answers, rows and values; and the order of the rules that the
// documentation names.
use jihmeto_pine::*;

const P: u64 = FIELD_MODULUS;

fn rule<T>(given: Result<T, Error>) -> Option<(Rule, u64)> {
    given.err().map(|refusal| (refusal.rule, refusal.place))
}

fn small() -> PineParam {
    PineParam::standard(1, 4, 0, 1, 1, 2, 2)
}

#[test]
fn inputs_are_tested_in_the_order_of_the_documentation() {
    let mut param = PineParam {
        norm_bound: 0,
        dimension: 0,
        frac_bits: 31,
        chunk_len: 0,
        chunk_len_sq_norm_equal: 0,
        num_wr_tests: 257,
        num_wr_successes: 258,
        alpha_numerator: 0,
        ..small()
    };
    let mut step = |rule, mend: fn(&mut PineParam)| {
        let refusal = Err(Error { rule, place: 0 });
        assert_eq!(Pine::new(param).map(|_| ()), refusal);
        assert_eq!(check_param(param), refusal);
        assert_eq!(derive(param).map(|_| ()), refusal);
        mend(&mut param);
    };
    step(Rule::NumWrSuccesses, |p| p.num_wr_successes = 0);
    step(Rule::NormBound, |p| p.norm_bound = 1);
    step(Rule::Dimension, |p| p.dimension = 1);
    step(Rule::FracBits, |p| p.frac_bits = 30);
    step(Rule::ChunkLen, |p| p.chunk_len = 1);
    step(Rule::ChunkLen, |p| p.chunk_len_sq_norm_equal = 65536);
    step(Rule::NumWrTests, |p| p.num_wr_tests = 256);
    step(Rule::Alpha, |p| p.alpha_numerator = 1);
    assert!(Pine::new(param).is_ok());
}

#[test]
fn a_pine_holds_its_inputs_and_lengths() {
    let pine = Pine::new(small()).unwrap();
    let derived = derive(small()).unwrap();
    assert_eq!(pine.param(), small());
    assert_eq!(pine.derived(), derived);
    assert_eq!(pine.wr_test_bound(), 16);
    let lengths = [
        (pine.dimension(), 4),
        (pine.num_wr_tests(), 2),
        (pine.stream_len(), 2),
        (pine.encoded_input_len(), 18),
        (pine.input_len(), 20),
    ];
    for (length, expected) in lengths {
        assert_eq!(length, expected);
    }
    let pine = Pine::new(PineParam {
        frac_bits: 2,
        ..small()
    })
    .unwrap();
    assert_eq!(pine.f64_to_field(-0.3), f64_to_field(-0.3, 2));
    assert_eq!(pine.field_to_f64(P - 1), Ok(-0.25));
    assert_eq!(
        rule(pine.f64_to_field(f64::NAN)),
        Some((Rule::Coordinate, 0))
    );
    assert_eq!(rule(pine.f64_to_field(1e300)), Some((Rule::Floor, 0)));
    assert_eq!(rule(pine.field_to_f64(P)), Some((Rule::Element, 0)));
}

#[test]
fn a_row_that_says_what_it_is_costs_nothing() {
    use std::mem::{align_of, size_of};
    assert_eq!(size_of::<Share<&[u64]>>(), size_of::<&[u64]>());
    assert_eq!(size_of::<Aggregate<[u64; 5]>>(), size_of::<[u64; 5]>());
    assert_eq!(align_of::<Gradient<f64>>(), align_of::<f64>());
    let mut row = [1, 2];
    let mut agg = Aggregate::new(&mut row[..]);
    agg.row_mut()[1] = 3;
    assert_eq!(agg.row(), [1, 3]);
    assert_eq!(agg.into_row(), [1, 3]);
}

#[test]
fn encoding_tests_its_rules_in_the_order_of_the_documentation() {
    let ask = |switch, wr_test_rule, gradient: &[f64], stream: &[u8], lengths: (usize, usize)| {
        let pine = Pine::new(PineParam {
            true_sq_norm: switch,
            wr_test_rule,
            alpha_numerator: 1,
            alpha_denominator: 2,
            norm_bound: 2,
            ..small()
        })
        .unwrap();
        assert_eq!((pine.encoded_input_len(), pine.stream_len()), (16, 2));
        let gradient = Gradient::new(gradient);
        let mut measurement = Measurement::new(vec![7; lengths.0]);
        let mut results = Results::new(vec![7; lengths.1]);
        let answer =
            pine.encode_with_wr_joint_rand_into(&gradient, stream, &mut measurement, &mut results);
        if answer.is_err() {
            let mut row = measurement.into_row();
            row.extend(results.into_row());
            assert_eq!(row, vec![7; lengths.0 + lengths.1]);
        }
        rule(answer)
    };
    use WrTestRule::{Enough, Every};
    // each line mends what the one before was refused by; the last stream misses in its second test
    let far = [9.0, f64::NAN, 1e300];
    let long = [9.0; 4];
    assert_eq!(
        ask(true, Every, &far, &[15], (1, 1)),
        Some((Rule::RowLen, 2))
    );
    assert_eq!(
        ask(true, Every, &far, &[15, 0], (1, 1)),
        Some((Rule::RowLen, 3))
    );
    assert_eq!(
        ask(true, Every, &far, &[15, 0], (16, 1)),
        Some((Rule::RowLen, 4))
    );
    assert_eq!(
        ask(true, Every, &far, &[15, 0], (16, 2)),
        Some((Rule::Coordinate, 1))
    );
    assert_eq!(
        ask(true, Every, &[9.0, 1e300], &[15, 0], (16, 2)),
        Some((Rule::Floor, 1))
    );
    assert_eq!(
        ask(true, Every, &long[1..], &[15, 0], (16, 2)),
        Some((Rule::GradientLen, 0))
    );
    assert_eq!(
        ask(true, Every, &long, &[15, 0], (16, 2)),
        Some((Rule::TrueSqNorm, 0))
    );
    assert_eq!(
        ask(false, Every, &long, &[15, 0], (16, 2)),
        Some((Rule::SqNorm, 0))
    );
    assert_eq!(
        ask(true, Every, &[1.0; 4], &[15, 0], (16, 2)),
        Some((Rule::WrTest, 1))
    );
    assert_eq!(
        ask(true, Enough, &[1.0; 4], &[15, 0], (16, 2)),
        Some((Rule::WrTestsInRange, 1))
    );
    assert_eq!(ask(true, Every, &[1.0; 4], &[15, 15], (16, 2)), None);
}

#[test]
fn circuits_test_their_rules_in_the_order_of_the_documentation() {
    let pine = Pine::new(small()).unwrap();
    let param = pine.param();
    let wrong = [P; 20];
    let share = FullShare::new(&wrong[..]);
    let short = FullShare::new(&wrong[1..]);
    let rand = [1, 1, P];
    assert_eq!(
        rule(pine.valid_share(0, &short, &rand)),
        Some((Rule::RowLen, 1))
    );
    assert_eq!(
        rule(pine.valid_sq_norm_equal_share(0, &short)),
        Some((Rule::RowLen, 1))
    );
    assert_eq!(rule(valid(param, 0, &wrong, &[P])), Some((Rule::RowLen, 2)));
    for num_shares in [0, 256] {
        let refusal = Some((Rule::NumShares, 0));
        assert_eq!(rule(pine.valid_share(num_shares, &share, &rand)), refusal);
        assert_eq!(
            rule(pine.valid_sq_norm_equal_share(num_shares, &share)),
            refusal
        );
    }
    assert_eq!(
        rule(pine.valid_share(2, &share, &rand)),
        Some((Rule::Element, 0))
    );
    assert_eq!(
        rule(pine.valid_sq_norm_equal_share(255, &share)),
        Some((Rule::Element, 0))
    );
    let full = Full::new([0; 20]);
    assert_eq!(rule(pine.valid(&full, &rand)), Some((Rule::Element, 22)));
    assert_eq!(
        rule(pine.valid(&Full::new([0; 19]), &rand)),
        Some((Rule::RowLen, 1))
    );
    assert_eq!(
        rule(pine.valid_sq_norm_equal(&Full::new(wrong))),
        Some((Rule::Element, 0))
    );
}

#[test]
fn a_report_is_valid_where_the_values_are_0() {
    let pine = Pine::new(small()).unwrap();
    let param = pine.param();
    let mut full = [7; 20];
    let (measurement, results) = full.split_at_mut(18);
    let gradient = Gradient::new([1.0, 0.0, 0.0, 0.0]);
    pine.encode_with_wr_joint_rand_into(
        &gradient,
        &[3, 0],
        &mut Measurement::new(measurement),
        &mut Results::new(results),
    )
    .unwrap();
    let rand = [5, 6, 7];
    let whole = Full::new(&full[..]);
    assert!(pine.valid(&whole, &rand).unwrap().is_valid());
    assert!(pine.valid_sq_norm_equal(&whole).unwrap().is_valid());
    assert_eq!(pine.valid(&whole, &rand), valid(param, 1, &full, &rand));
    assert_eq!(
        pine.valid_sq_norm_equal(&whole),
        valid_sq_norm_equal(param, 1, &full)
    );
    // one that is accepted, and not valid
    let mut other = full;
    other[4] = 0;
    let other = Full::new(other);
    assert!(!pine.valid(&other, &rand).unwrap().is_valid());
    assert!(!pine.valid_sq_norm_equal(&other).unwrap().is_valid());
    // the values on two shares do not add up to 0
    let add = |a: u64, b: u64| ((u128::from(a) + u128::from(b)) % u128::from(P)) as u64;
    let mut cut = [[0; 20]; 2];
    for i in 0..20 {
        cut[0][i] = 1000 + i as u64 * i as u64;
        cut[1][i] = add(full[i], P - cut[0][i]);
    }
    let value = |i: usize| {
        let share = FullShare::new(cut[i]);
        let given = pine.valid_share(2, &share, &rand);
        assert_eq!(given, valid(param, 2, &cut[i], &rand));
        let norm = pine.valid_sq_norm_equal_share(2, &share);
        assert_eq!(norm, valid_sq_norm_equal(param, 2, &cut[i]));
        [given.unwrap().value, norm.unwrap().value]
    };
    for (left, right) in value(0).into_iter().zip(value(1)) {
        assert_ne!(add(left, right), 0);
    }
}

#[test]
fn parts_and_tests_of_a_full_share() {
    let pine = Pine::new(small()).unwrap();
    let row: Vec<u64> = (1..=20).collect();
    let mut full = FullShare::new(row.clone());
    assert_eq!(pine.gradient_part(&full).unwrap().row(), &row[..4]);
    assert_eq!(pine.checked_part(&full).unwrap(), &row[4..18]);
    assert_eq!(pine.results_part(&full).unwrap().row(), &row[18..]);
    let mut results = Results::new([7; 2]);
    let share = Share::new(&row[..4]);
    pine.run_wr_tests_into(&share, &[3, 0x0c], &mut results)
        .unwrap();
    let mut expected = [7; 2];
    run_wr_tests(pine.param(), &row[..4], &[3, 0x0c], &mut expected).unwrap();
    assert_eq!(results.row(), expected);
    // 1 - 2 - 3 - 4, and -1 + 2 - 3 - 4
    assert_eq!(expected, [P - 8, P - 6]);
    let mut ask = |row: &[u64], stream: &[u8]| {
        rule(pine.run_wr_tests_into(&Share::new(row), stream, &mut results))
    };
    assert_eq!(ask(&[P; 3], &[0]), Some((Rule::RowLen, 1)));
    assert_eq!(ask(&[P; 4], &[0]), Some((Rule::RowLen, 2)));
    assert_eq!(ask(&[1, P, 1, P], &[0, 0]), Some((Rule::Element, 1)));
    full.row_mut()[9] = P;
    assert_eq!(rule(pine.gradient_part(&full)), Some((Rule::Element, 9)));
    assert_eq!(rule(pine.checked_part(&full)), Some((Rule::Element, 9)));
    assert_eq!(rule(pine.results_part(&full)), Some((Rule::Element, 9)));
    let short = FullShare::new(&row[1..]);
    assert_eq!(rule(pine.gradient_part(&short)), Some((Rule::RowLen, 1)));
}

#[test]
fn aggregates() {
    let pine = Pine::new(PineParam {
        dimension: 2,
        ..small()
    })
    .unwrap();
    let mut agg = Aggregate::new([7; 2]);
    pine.empty_aggregate_into(&mut agg).unwrap();
    assert_eq!(agg.row(), [0, 0]);
    pine.accumulate(&mut agg, &Share::new([3, P - 1])).unwrap();
    pine.merge(&mut agg, &Aggregate::new([1, 2])).unwrap();
    assert_eq!(agg.row(), [4, 1]);
    pine.subtract(&mut agg, &Share::new([5, 0])).unwrap();
    assert_eq!(agg.row(), [P - 1, 1]);
    pine.unmerge(&mut agg, &Aggregate::new([0, 2])).unwrap();
    assert_eq!(agg.row(), [P - 1, P - 1]);
    let mut decoded = [0.0; 2];
    pine.unshard_into(&agg, &Aggregate::new([0, 3]), &mut decoded)
        .unwrap();
    assert_eq!(decoded, [-1.0, 2.0]);
    let short = pine.accumulate(&mut agg, &Share::new([P]));
    assert_eq!(rule(short), Some((Rule::RowLen, 2)));
    let high = pine.unmerge(&mut agg, &Aggregate::new([0, P]));
    assert_eq!(rule(high), Some((Rule::Element, 3)));
    let short = pine.unshard_into(&agg, &agg, &mut decoded[1..]);
    assert_eq!(rule(short), Some((Rule::RowLen, 3)));
    assert_eq!((agg.row(), decoded), (&[P - 1, P - 1][..], [-1.0, 2.0]));
}

// 00 01 .. 0f, and the first bytes of its stream as the original's XOF gives them
const SEED: [u8; SEED_LEN] = [0, 1, 2, 3, 4, 5, 6, 7, 8, 9, 10, 11, 12, 13, 14, 15];
const STREAM: [u8; 2] = [0x60, 0xaf];

#[test]
fn a_seed_in_the_streams_place() {
    let pine = Pine::new(small()).unwrap();
    let param = pine.param();
    let seed = Seed::new(SEED);
    assert_eq!(pine.stream_len(), STREAM.len());
    let gradient = [1.0, 0.0, 0.0, 0.0];
    let mut encoded = [7; 20];
    let (measurement, results) = encoded.split_at_mut(18);
    encode_with_wr_joint_rand(param, &gradient, &STREAM, measurement, results).unwrap();
    // as the original answers the seed
    let expected = [
        [1, 0, 0, 0, 1, 0, 0, 1, 1, 1],
        [0, 1, 0, 0, 0, 0, 1, 1, P - 1, 1],
    ]
    .concat();
    assert_eq!(encoded[..], expected);
    let mut measurement = Measurement::new([7; 18]);
    let mut results = Results::new([7; 2]);
    let gradient = Gradient::new(gradient);
    pine.encode_with_wr_joint_rand_seed_into(&gradient, &seed, &mut measurement, &mut results)
        .unwrap();
    assert_eq!([measurement.row(), results.row()].concat(), expected);

    let share = Share::new([1, 2, 3, 4]);
    pine.run_wr_tests_seed_into(&share, &seed, &mut results)
        .unwrap();
    assert_eq!(results.row(), [P - 3, 3]);
    let mut expected = [7; 2];
    run_wr_tests(param, share.row(), &STREAM, &mut expected).unwrap();
    assert_eq!(results.row(), expected);
}

#[test]
fn a_seed_of_another_length_is_refused() {
    let param = small();
    let long = [SEED, SEED].concat();
    let mut measurement = [7; 18];
    let mut results = [7; 2];
    for len in (0..=32).filter(|&len| len != SEED_LEN) {
        let seed = &long[..len];
        let answer = encode_with_wr_joint_rand_seed(
            param,
            &[f64::NAN],
            seed,
            &mut measurement[1..],
            &mut results,
        );
        assert_eq!(rule(answer), Some((Rule::RowLen, 2)));
        let answer = run_wr_tests_seed(param, &[P; 4], seed, &mut results[1..]);
        assert_eq!(rule(answer), Some((Rule::RowLen, 2)));
    }
    // row 1 comes before it, rows 3 and 4 and the elements after
    let answer = run_wr_tests_seed(param, &[P; 3], &STREAM, &mut results);
    assert_eq!(rule(answer), Some((Rule::RowLen, 1)));
    let answer = run_wr_tests_seed(param, &[P; 4], &SEED, &mut results);
    assert_eq!(rule(answer), Some((Rule::Element, 0)));
    let answer = encode_with_wr_joint_rand_seed(
        param,
        &[f64::NAN],
        &SEED,
        &mut measurement,
        &mut results[1..],
    );
    assert_eq!(rule(answer), Some((Rule::RowLen, 4)));
    assert_eq!((measurement, results), ([7; 18], [7; 2]));
}

#[test]
fn a_seed_is_not_written_out() {
    assert_eq!(format!("{:?}", Seed::new(SEED)), "Seed(..)");
    assert_eq!(format!("{:?}", five_seeds()), "CutSeeds(..)");
    let given = JointRandSeeds::new([1; 32]);
    assert_eq!(format!("{given:?}"), "JointRandSeeds(..)");
    assert_eq!(Seed::new(SEED).bytes(), &SEED);
}

// 00 01 .. 0f as nonce, 10 11 .. 5f as the five seeds, the gradient 1, 0, 0, 0: as the original answers them
const LEADER: [u64; 18] = [
    0x5d893f9206db0583,
    0x739f8804dffc583f,
    0x960292e9ef9ac3ce,
    0xfb29e7e6a626b9cd,
    0x89d6f8c8351e7689,
    0x971d2ff95d40790a,
    0x9d4f535cf184998c,
    0x8b049391da61f6c7,
    0xed1807ee07eeb685,
    0xa531e257226a2595,
    0x2f71afda6c944012,
    0x505f4d1936b3dcc4,
    0x3584233965ef737a,
    0x1408a7c34e85a24e,
    0xd905d2e823f4e7fe,
    0xc927dac04cd3ee9d,
    0x7dca9ee5d6c0ed57,
    0x41d17448eb452b11,
];
const HELPER: [u64; 18] = [
    0xa276c06cf924fa7f,
    0x8c6077fa2003a7c2,
    0x69fd6d1510653c33,
    0x4d6181859d94634,
    0x76290736cae18979,
    0x68e2d005a2bf86f7,
    0x62b0aca20e7b6676,
    0x74fb6c6d259e093b,
    0x12e7f810f811497d,
    0x5ace1da7dd95da6d,
    0xd08e5024936bbfef,
    0xafa0b2e5c94c233e,
    0xca7bdcc59a108c88,
    0xebf7583bb17a5db4,
    0x26fa2d16dc0b1804,
    0x36d8253eb32c1165,
    0x82356119293f12aa,
    0xbe2e8bb614bad4f1,
];
const WR_SEED: u128 = 0x465661cd4ada42648b525bc9de7fac8e;
const VF_SEED: u128 = 0x5b0420d14a7c1ceb749c139d8b7fb5a3;
const GRADIENT: Gradient<[f64; 4]> = Gradient::new([1.0, 0.0, 0.0, 0.0]);

fn five_seeds() -> CutSeeds {
    CutSeeds::new(std::array::from_fn(|i| 16 + i as u8))
}

#[test]
fn a_report_is_cut_as_in_the_original() {
    let pine = Pine::new(small()).unwrap();
    let mut leader = MeasurementShare::new([7; 18]);
    let mut helper = MeasurementShare::new([7; 18]);
    let mut given = JointRandSeeds::new([7; JOINT_RAND_SEEDS_LEN]);
    let (gradient, seeds) = (&GRADIENT, &five_seeds());
    pine.cut_into(gradient, &SEED, seeds, &mut leader, &mut helper, &mut given)
        .unwrap();
    assert_eq!((leader.row(), helper.row()), (&LEADER[..], &HELPER[..]));
    let [wr, vf] = [given.wr_joint_rand_seed(), given.vf_joint_rand_seed()];
    assert_eq!(wr.bytes(), &WR_SEED.to_be_bytes());
    assert_eq!(vf.bytes(), &VF_SEED.to_be_bytes());
    assert_eq!(given.bytes()[..], [*wr.bytes(), *vf.bytes()].concat());

    let mut rows = ([7; 18], [7; 18], [7; 32]);
    let seeds = seeds.bytes();
    let (left, right, both) = (&mut rows.0, &mut rows.1, &mut rows.2);
    cut(small(), gradient.row(), &SEED, seeds, left, right, both).unwrap();
    assert_eq!(rows, (LEADER, HELPER, *given.bytes()));

    // the shares add up to the measurement that the seed of the tests makes
    let mut measurement = Measurement::new([7; 18]);
    let mut results = Results::new([7; 2]);
    pine.encode_with_wr_joint_rand_seed_into(gradient, &wr, &mut measurement, &mut results)
        .unwrap();
    for (i, &x) in measurement.row().iter().enumerate() {
        let sum = u128::from(LEADER[i]) + u128::from(HELPER[i]);
        assert_eq!(sum % u128::from(P), u128::from(x));
    }
}

#[test]
fn cutting_tests_its_rules_in_the_order_of_the_documentation() {
    let ask = |switch, wr_test_rule, gradient: &[f64], lengths: [usize; 5]| {
        let param = PineParam {
            true_sq_norm: switch,
            wr_test_rule,
            alpha_numerator: 1,
            alpha_denominator: 65535,
            norm_bound: 2,
            ..small()
        };
        let [nonce, seeds, leader, helper, given] = lengths;
        let mut rows = (vec![7; leader], vec![7; helper], vec![7; given]);
        let (left, right, both) = (&mut rows.0, &mut rows.1, &mut rows.2);
        let (nonce, seeds) = (vec![1; nonce], vec![4; seeds]);
        let answer = cut(param, gradient, &nonce, &seeds, left, right, both);
        if answer.is_err() {
            assert_eq!(rows, (vec![7; leader], vec![7; helper], vec![7; given]));
        }
        rule(answer)
    };
    use WrTestRule::{Enough, Every};
    // each line mends what the one before was refused by
    let far = [9.0, f64::NAN, 1e300];
    for (place, lengths) in [
        (2, [15, 79, 15, 15, 31]),
        (3, [16, 79, 15, 15, 31]),
        (4, [16, 80, 15, 15, 31]),
        (5, [16, 80, 16, 15, 31]),
        (6, [16, 80, 16, 16, 31]),
    ] {
        let refusal = Some((Rule::RowLen, place));
        assert_eq!(ask(true, Every, &far, lengths), refusal);
        let longer = lengths.map(|n| if n % 2 == 0 { n } else { n + 2 });
        assert_eq!(ask(true, Every, &far, longer), refusal);
    }
    let ask = |switch, rule, gradient: &[f64]| ask(switch, rule, gradient, [16, 80, 16, 16, 32]);
    assert_eq!(ask(true, Every, &far), Some((Rule::Coordinate, 1)));
    assert_eq!(ask(true, Every, &[9.0, 1e300]), Some((Rule::Floor, 1)));
    assert_eq!(ask(true, Every, &[9.0; 3]), Some((Rule::GradientLen, 0)));
    assert_eq!(ask(true, Every, &[9.0; 4]), Some((Rule::TrueSqNorm, 0)));
    assert_eq!(ask(false, Every, &[9.0; 4]), Some((Rule::SqNorm, 0)));
    // the squared norm wraps to 0, and the second test misses
    let wraps = [2f64.powi(48), 1.0, 0.0, 0.0];
    assert_eq!(ask(false, Every, &wraps), Some((Rule::WrTest, 1)));
    assert_eq!(ask(false, Enough, &wraps), Some((Rule::WrTestsInRange, 1)));
    assert_eq!(ask(true, Enough, &[0.0; 4]), None);
}

#[test]
fn values_are_drawn_as_far_as_the_limit() {
    let pine = Pine::new(small()).unwrap();
    let len = pine.sample_stream_len();
    assert_eq!(len, 8 * (18 + MORE_DRAWS));
    let stream = |skipped: usize, from: usize| -> Vec<u8> {
        let is_skipped = |i| from <= i && i < from + skipped;
        let value = |i: usize| {
            if is_skipped(i) {
                P + i as u64
            } else {
                256 + i as u64
            }
        };
        (0..len / 8).flat_map(|i| value(i).to_le_bytes()).collect()
    };
    let mut share = MeasurementShare::new([7; 18]);
    pine.sample_into(&stream(64, 0), &mut share).unwrap();
    let values: Vec<u64> = (64..82).map(|i| 256 + i).collect();
    assert_eq!(share.row(), values);
    pine.sample_into(&stream(3, 5), &mut share).unwrap();
    let values: Vec<u64> = (0..5).chain(8..21).map(|i| 256 + i).collect();
    assert_eq!(share.row(), values);
    let before = share;
    let refused = pine.sample_into(&stream(65, 0), &mut share);
    assert_eq!(rule(refused), Some((Rule::Draws, 0)));
    let short = pine.sample_into(&stream(65, 0)[1..], &mut share);
    assert_eq!(rule(short), Some((Rule::RowLen, 1)));
    let short = sample(small(), &stream(65, 0), &mut share.row_mut()[1..]);
    assert_eq!(rule(short), Some((Rule::RowLen, 2)));
    assert_eq!(share, before);
}

#[cfg(feature = "alloc")]
#[test]
fn calls_that_give_rows() {
    let pine = Pine::new(small()).unwrap();
    let cut = pine.cut(&GRADIENT, &SEED, &five_seeds()).unwrap();
    assert_eq!(
        (cut.leader.row(), cut.helper.row()),
        (&LEADER[..], &HELPER[..])
    );
    assert_eq!(cut.seeds.bytes()[..16], WR_SEED.to_be_bytes());
    let stream: Vec<u8> = (0..82u64).flat_map(u64::to_le_bytes).collect();
    let sampled = pine.sample(&stream).unwrap().into_row();
    assert_eq!(sampled, (0..18).collect::<Vec<u64>>());
    let gradient = Gradient::new(vec![1.0, 0.0, 0.0, 0.0]);
    let Encoded {
        measurement,
        results,
    } = pine.encode_with_wr_joint_rand(&gradient, &[3, 0]).unwrap();
    assert_eq!(
        measurement.row(),
        [1, 0, 0, 0, 1, 0, 0, 0, 0, 0, 1, 1, 0, 1, 1, 1, 0, 1]
    );
    assert_eq!(results.row(), [1, P - 1]);
    let share = Share::new(&measurement.row()[..4]);
    assert_eq!(pine.run_wr_tests(&share, &[3, 0]), Ok(results));
    let empty = pine.empty_aggregate().unwrap();
    assert_eq!(empty.row(), [0; 4]);
    let mut agg = empty.clone();
    pine.accumulate(&mut agg, &share).unwrap();
    assert_eq!(pine.unshard(&agg, &empty), Ok(vec![1.0, 0.0, 0.0, 0.0]));
    let seed = Seed::new(SEED);
    let by_seed = pine.encode_with_wr_joint_rand_seed(&gradient, &seed);
    assert_eq!(by_seed, pine.encode_with_wr_joint_rand(&gradient, &STREAM));
    assert_eq!(
        pine.run_wr_tests_seed(&share, &seed),
        Ok(by_seed.unwrap().results)
    );
    let answer = pine.encode_with_wr_joint_rand(&gradient, &[3]);
    assert_eq!(rule(answer), Some((Rule::RowLen, 2)));
    let answer = pine.run_wr_tests(&Share::new([P; 4]), &[3, 0]);
    assert_eq!(rule(answer), Some((Rule::Element, 0)));
    let answer = pine.unshard(&agg, &Aggregate::new([0; 3]));
    assert_eq!(rule(answer), Some((Rule::RowLen, 2)));
}
