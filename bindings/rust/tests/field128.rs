// The calls over Field128: worked examples, refusals that leave rows as they were, a report cut in two; and the methods
// beside the functions over slices.
use jihmeto_pine::*;

const P: u128 = FIELD128_MODULUS;
const WORD: u128 = 1 << 64;

fn small() -> PineParam {
    PineParam::standard(1, 4, 0, 1, 1, 2, 2)
}

fn refused<T: std::fmt::Debug + PartialEq>(given: Result<T, Error>, rule: Rule, place: u64) {
    assert_eq!(given, Err(Error { rule, place }));
}

fn add(a: u128, b: u128) -> u128 {
    if a >= P - b {
        a - (P - b)
    } else {
        a + b
    }
}

#[test]
fn coordinates() {
    use field128::f64_to_field;
    assert_eq!(f64_to_field(-0.25, 0), Ok(P - 1));
    assert_eq!(f64_to_field(0.75, 2), Ok(3));
    assert_eq!(f64_to_field(-0.3, 2), Ok(P - 2));
    assert_eq!(f64_to_field(-0.0, 30), Ok(0));
    // the largest double below 2^64
    let top = 18446744073709549568.0;
    for f in 0..=30 {
        let scale = (1u64 << f) as f64;
        assert_eq!(f64_to_field(top / scale, f), Ok(WORD - 2048));
        assert_eq!(f64_to_field(-top / scale, f), Ok(P - (WORD - 2048)));
        refused(f64_to_field(WORD as f64 / scale, f), Rule::Floor, 0);
        refused(f64_to_field(-(WORD as f64) / scale, f), Rule::Floor, 0);
    }
    refused(f64_to_field(f64::INFINITY, 0), Rule::Coordinate, 0);
    refused(f64_to_field(f64::NAN, 31), Rule::FracBits, 0);
}

#[test]
fn decoded_numbers() {
    use field128::field_to_f64;
    assert_eq!(field_to_f64(P - 1, 2), Ok(-0.25));
    assert_eq!(field_to_f64((1 << 53) + 3, 0), Ok(9007199254740996.0));
    assert_eq!(field_to_f64(0, 7).unwrap().to_bits(), 0);
    assert_eq!(field_to_f64(WORD - 1, 0), Ok(WORD as f64));
    assert_eq!(field_to_f64(P - (WORD - 1), 0), Ok(-(WORD as f64)));
    for y in [WORD, P - WORD, (P - 1) / 2, P / 2 + 1] {
        refused(field_to_f64(y, 0), Rule::Size, 0);
    }
    refused(field_to_f64(P, 0), Rule::Element, 0);
    refused(field_to_f64(u128::MAX, 0), Rule::Element, 0);
    refused(field_to_f64(P, 31), Rule::FracBits, 0);
}

#[test]
fn the_norm_bound_goes_further() {
    let norm_bound = |norm_bound| PineParam {
        norm_bound,
        ..small()
    };
    assert_eq!(field128::check_param(norm_bound(4294967295)), Ok(()));
    let over = norm_bound(4294967296);
    refused(field128::check_param(over), Rule::NormBound, 0);
    refused(Pine128::new(over), Rule::NormBound, 0);
    let record = Pine128::new(norm_bound(4294967295))
        .unwrap()
        .derived()
        .record;
    assert_eq!(record.sq_norm_bound, 18446744065119617025);
    assert_eq!(record.wr_test_bound(), 1 << 36);
    // elsewhere the lengths are those over Field64
    assert_eq!(field128::derive(small()), derive(small()));
}

#[test]
fn rows_of_other_lengths_and_places() {
    let (a, b) = ([1, 2, 3, 4], [5, 6, 7, 8]);
    let mut agg = a;
    refused(
        field128::accumulate(small(), &mut agg[1..], &b),
        Rule::RowLen,
        1,
    );
    refused(field128::merge(small(), &mut agg, &b[1..]), Rule::RowLen, 2);
    refused(
        field128::empty_aggregate(small(), &mut [7; 5]),
        Rule::RowLen,
        1,
    );
    for i in 0..8 {
        let (mut left, mut right) = (a, b);
        *(if i < 4 {
            &mut left[i]
        } else {
            &mut right[i - 4]
        }) = P;
        let before = left;
        for call in [
            field128::accumulate,
            field128::merge,
            field128::subtract,
            field128::unmerge,
        ] {
            refused(call(small(), &mut left, &right), Rule::Element, i as u64);
            assert_eq!(left, before);
        }
        let mut sums = [7.0; 4];
        refused(
            field128::unshard(small(), &left, &right, &mut sums),
            Rule::Element,
            i as u64,
        );
        assert_eq!(sums, [7.0; 4]);
    }
}

#[test]
fn one_sum_too_large_refuses_the_row() {
    let left = [P - 1, WORD - 1, WORD - 1, P - WORD];
    let mut sums = [7.0; 4];
    refused(
        field128::unshard(small(), &left, &[0, 1, 0, 0], &mut sums),
        Rule::Size,
        1,
    );
    refused(
        field128::unshard(small(), &left, &[0, 0, 0, 0], &mut sums),
        Rule::Size,
        3,
    );
    assert_eq!(sums, [7.0; 4]);
    field128::unshard(small(), &left, &[0, 0, 0, 1], &mut sums).unwrap();
    let word = WORD as f64;
    assert_eq!(sums, [-1.0, word, word, -word]);
    let said = field128::field_to_f64(WORD, 0).unwrap_err().to_string();
    assert_eq!(
        said,
        "an element to be decoded is beyond 2^64 - 1 either way (rule 23, sum 0)"
    );
}

// beyond Field64
const LARGE: [u128; 4] = [P - 1, 1 << 100, 0, WORD];

#[test]
fn aggregates() {
    let pine = Pine128::new(small()).unwrap();
    let mut row = [7; 4];
    let mut agg = Aggregate::new(&mut row[..]);
    pine.empty_aggregate_into(&mut agg).unwrap();
    pine.accumulate(&mut agg, &Share::new(LARGE)).unwrap();
    pine.merge(&mut agg, &Aggregate::new(LARGE)).unwrap();
    assert_eq!(agg.row(), [P - 2, 1 << 101, 0, 2 * WORD]);
    pine.subtract(&mut agg, &Share::new(LARGE)).unwrap();
    assert_eq!(agg.row(), LARGE);
    pine.unmerge(&mut agg, &Aggregate::new([5, 1 << 100, 1, WORD - 3]))
        .unwrap();
    assert_eq!(agg.row(), [P - 6, 0, P - 1, 3]);
    let (right, mut sums) = (Aggregate::new([10, 1, 1, 1]), [0.0; 4]);
    pine.unshard_into(&agg, &right, &mut sums).unwrap();
    assert_eq!(sums, [4.0, 1.0, 0.0, 4.0]);
}

#[test]
fn a_report_cut_in_two() {
    let pine = Pine128::new(small()).unwrap();
    let param = pine.param();
    let stream = [3, 0];
    let (gradient, mut whole) = ([1.0, 0.0, 0.0, 0.0], [7; 20]);
    let (measurement, results) = whole.split_at_mut(18);
    field128::encode_with_wr_joint_rand(param, &gradient, &stream, measurement, results).unwrap();
    // small numbers are the same in both fields
    let mut narrow = [7; 20];
    let (measurement, results) = narrow.split_at_mut(18);
    encode_with_wr_joint_rand(param, &gradient, &stream, measurement, results).unwrap();
    let widened = |x: u64| {
        if x > FIELD_MODULUS / 2 {
            P - u128::from(FIELD_MODULUS - x)
        } else {
            x.into()
        }
    };
    assert_eq!(whole, narrow.map(widened));

    let full = Full::new(&whole[..]);
    let rand = [5, P - 6, 1 << 100];
    assert!(pine.valid(&full, &rand).unwrap().is_valid());
    assert!(pine.valid_sq_norm_equal(&full).unwrap().is_valid());
    assert_eq!(
        pine.valid(&full, &rand),
        field128::valid(param, 1, &whole, &rand)
    );
    let mut other = whole;
    other[4] ^= 1;
    assert!(!pine.valid(&Full::new(other), &rand).unwrap().is_valid());
    refused(field128::valid(param, 0, &whole, &rand), Rule::NumShares, 0);
    refused(
        field128::valid(param, 1, &whole, &[0, P, 0]),
        Rule::Element,
        21,
    );
    refused(
        field128::valid_sq_norm_equal(param, 1, &whole[1..]),
        Rule::RowLen,
        1,
    );

    let mut shares = [[0; 20]; 2];
    for i in 0..18 {
        shares[0][i] = LARGE[i % 4].max(1);
        shares[1][i] = add(whole[i], P - shares[0][i]);
    }
    for share in &mut shares {
        let (measurement, results) = share.split_at_mut(18);
        let gradient = Share::new(&measurement[..4]);
        pine.run_wr_tests_into(&gradient, &stream, &mut Results::new(results))
            .unwrap();
    }
    for i in 0..20 {
        assert_eq!(add(shares[0][i], shares[1][i]), whole[i]);
    }
    let value = |share: [u128; 20]| {
        let given = pine.valid_share(2, &FullShare::new(share), &rand);
        assert_eq!(given, field128::valid(param, 2, &share, &rand));
        let norm = pine.valid_sq_norm_equal_share(2, &FullShare::new(share));
        assert_eq!(norm, field128::valid_sq_norm_equal(param, 2, &share));
        given.unwrap().value
    };
    assert_ne!(add(value(shares[0]), value(shares[1])), 0);
}

#[cfg(feature = "alloc")]
#[test]
fn calls_that_give_rows() {
    let pine = Pine128::new(small()).unwrap();
    let gradient = Gradient::new([0.0, -1.0, 0.0, 0.0]);
    let Encoded {
        measurement,
        results,
    } = pine.encode_with_wr_joint_rand(&gradient, &[3, 0]).unwrap();
    assert_eq!(measurement.row().len(), pine.encoded_input_len());
    let share = Share::new(&measurement.row()[..4]);
    assert_eq!(share.row(), [0, P - 1, 0, 0]);
    assert_eq!(pine.run_wr_tests(&share, &[3, 0]), Ok(results));
    let mut agg = pine.empty_aggregate().unwrap();
    pine.accumulate(&mut agg, &share).unwrap();
    let none = pine.empty_aggregate().unwrap();
    assert_eq!(pine.unshard(&agg, &none), Ok(vec![0.0, -1.0, 0.0, 0.0]));
}
