// The worked examples of docs/PINE.md, refusals that leave rows as they were, and reports cut in two.
use jihmeto_pine::*;

const P: u64 = FIELD_MODULUS;

fn param(n: u64, d: u64, f: u64, t: u64, k: u64) -> PineParam {
    PineParam::standard(n, d, f, 1, 1, t, k)
}

fn with_alpha(alpha_numerator: u16, alpha_denominator: u16, param: PineParam) -> PineParam {
    PineParam {
        alpha_numerator,
        alpha_denominator,
        ..param
    }
}

fn refused<T: std::fmt::Debug + PartialEq>(given: Result<T, Error>, rule: Rule, place: u64) {
    assert_eq!(given, Err(Error { rule, place }));
}

// the next double away from zero
fn farther(x: f64) -> f64 {
    f64::from_bits(x.to_bits() + 1)
}

#[test]
fn coordinates() {
    assert_eq!(f64_to_field(-0.25, 0), Ok(18446744069414584320));
    assert_eq!(f64_to_field(0.75, 0), Ok(0));
    assert_eq!(f64_to_field(0.75, 2), Ok(3));
    assert_eq!(f64_to_field(-0.3, 2), Ok(P - 2));
    for f in 0..=30 {
        assert_eq!(f64_to_field(-0.0, f), Ok(0));
        assert_eq!(f64_to_field(f64::MIN_POSITIVE, f), Ok(0));
        refused(
            f64_to_field(f64::MIN_POSITIVE / 2.0, f),
            Rule::Coordinate,
            0,
        );
    }
    refused(f64_to_field(1e300, 0), Rule::Floor, 0);
    for f in 0..=30 {
        let top = 9223372034707292160.0 / (1u64 << f) as f64;
        assert_eq!(f64_to_field(top, f), Ok((P - 1) / 2));
        assert_eq!(f64_to_field(-top, f), Ok(P.div_ceil(2)));
        refused(f64_to_field(farther(top), f), Rule::Floor, 0);
        refused(f64_to_field(farther(-top), f), Rule::Floor, 0);
        refused(f64_to_field(f64::MAX, f), Rule::Floor, 0);
    }
    refused(f64_to_field(f64::NAN, 31), Rule::FracBits, 0);
}

#[test]
fn decoded_numbers() {
    let value = |y, f| field_to_f64(y, f).unwrap();
    assert_eq!(value(P - 1, 2), -0.25);
    assert_eq!(value((P - 1) / 2, 0), 9223372034707292160.0);
    assert_eq!(value(P.div_ceil(2), 0), -9223372034707292160.0);
    assert_eq!(value((1 << 53) + 1, 0), 9007199254740992.0);
    assert_eq!(value((1 << 53) + 3, 0), 9007199254740996.0);
    assert_eq!(value(0, 7).to_bits(), 0);
    refused(field_to_f64(P, 0), Rule::Element, 0);
    refused(field_to_f64(0, 31), Rule::FracBits, 0);
}

#[test]
fn inputs() {
    assert_eq!(check_param(param(3037000499, 1, 0, 1, 1)), Ok(()));
    refused(
        check_param(param(3037000500, 1, 0, 1, 1)),
        Rule::NormBound,
        0,
    );
    refused(check_param(param(0, 0, 31, 0, 1)), Rule::NumWrSuccesses, 0);
    refused(derive(param(1, 65537, 0, 1, 1)), Rule::Dimension, 0);
    refused(derive(param(1, 1, 31, 1, 1)), Rule::FracBits, 0);
    refused(
        derive(PineParam {
            chunk_len: 0,
            ..param(1, 1, 0, 1, 1)
        }),
        Rule::ChunkLen,
        0,
    );
    refused(derive(param(1, 1, 0, 257, 1)), Rule::NumWrTests, 0);
    let derived = derive(param(1, 4, 0, 2, 2)).unwrap();
    assert_eq!(derived.record.sq_norm_bits, 1);
    assert_eq!(derived.record.wr_test_exponent, 4);
    assert_eq!(derived.record.wr_test_bound(), 16);
    assert_eq!(derived.record.wr_test_bits, 5);
    assert_eq!(derived.record.encoded_input_len, 18);
    assert_eq!(derived.flp.input_len, 20);
    assert_eq!(derived.flp.joint_rand_len, JOINT_RAND_LEN as u64);
    assert_eq!(derived.stream_len, 2);
}

#[test]
fn encoding() {
    let small = param(1, 4, 0, 2, 2);
    let (mut measurement, mut results) = ([7; 18], [7; 2]);
    let mut encode = |gradient: &[f64]| {
        let answer =
            encode_with_wr_joint_rand(small, gradient, &[3, 0], &mut measurement, &mut results);
        (answer, measurement, results)
    };
    // refused, with the rows as they were
    let untouched = ([7; 18], [7; 2]);
    for (gradient, rule, place) in [
        (&[1.0, 1.0, 0.0, 0.0][..], Rule::SqNorm, 0),
        (&[f64::NAN][..], Rule::Coordinate, 0),
        (&[1.0, f64::INFINITY, 0.0, 0.0][..], Rule::Coordinate, 1),
        (&[1.0][..], Rule::GradientLen, 0),
    ] {
        let (answer, m, r) = encode(gradient);
        refused(answer, rule, place);
        assert_eq!((m, r), untouched);
    }
    let (answer, m, r) = encode(&[1.0, 0.0, 0.0, 0.0]);
    assert_eq!(answer, Ok(()));
    assert_eq!(m, [1, 0, 0, 0, 1, 0, 0, 0, 0, 0, 1, 1, 0, 1, 1, 1, 0, 1]);
    assert_eq!(r, [1, P - 1]);
}

#[test]
fn other_multipliers() {
    let small = param(1, 4, 0, 2, 2);
    for (numerator, denominator) in [(0, 10), (87, 0), (0, 0)] {
        let zero = with_alpha(numerator, denominator, small);
        refused(check_param(zero), Rule::Alpha, 0);
        refused(derive(zero), Rule::Alpha, 0);
        // after 6, before 7
        refused(
            check_param(PineParam {
                num_wr_tests: 257,
                ..zero
            }),
            Rule::NumWrTests,
            0,
        );
        let mut row = [7; 3];
        refused(empty_aggregate(zero, &mut row), Rule::Alpha, 0);
        assert_eq!(row, [7; 3]);
    }
    // the least, the largest, a remainder, and products at a power of two and one below
    for (numerator, denominator, n, bound) in [
        (1, 65535, 1, 2),
        (1, 1, 1, 2),
        (65535, 1, 3037000499, 1 << 48),
        (2, 3, 10, 8),
        (2, 3, 11, 16),
        (8, 1, 1024, 16384),
        (1, 1, 8191, 8192),
    ] {
        let p = with_alpha(numerator, denominator, param(n, 4, 0, 2, 2));
        let record = derive(p).unwrap().record;
        assert_eq!(record.wr_test_bound(), bound);
        assert_eq!(record.wr_test_bits, 1 + u64::from(bound.trailing_zeros()));
        assert_eq!(
            record.encoded_input_len,
            4 + 2 * record.sq_norm_bits + (1 + record.wr_test_bits) * 2
        );
    }
    // b is 2: the results 1 and -1 are in range
    let tight = with_alpha(1, 1, param(1, 4, 0, 2, 2));
    let (mut measurement, mut results) = ([7; 12], [7; 2]);
    let gradient = [1.0, 0.0, 0.0, 0.0];
    assert_eq!(
        encode_with_wr_joint_rand(tight, &gradient, &[3, 0], &mut measurement, &mut results),
        Ok(())
    );
    assert_eq!(measurement, [1, 0, 0, 0, 1, 0, 0, 1, 1, 0, 0, 1]);
    assert_eq!(results, [1, P - 1]);
    // b is 2: 0 is in range, -4 is not
    let half = with_alpha(1, 2, param(2, 4, 0, 2, 2));
    let gradient = [1.0; 4];
    let (mut measurement, mut results) = ([7; 16], [7; 2]);
    refused(
        encode_with_wr_joint_rand(half, &gradient, &[0x0f, 0], &mut measurement, &mut results),
        Rule::WrTest,
        1,
    );
    assert_eq!((measurement, results), ([7; 16], [7; 2]));
}

#[test]
fn a_test_that_misses() {
    // b is 2: of the results 0 and -4 the second is out of range
    let ask = |rule, successes| {
        let param = PineParam {
            wr_test_rule: rule,
            ..with_alpha(1, 2, param(2, 4, 0, 2, successes))
        };
        let (mut measurement, mut results) = ([7; 16], [7; 2]);
        let stream = [0x0f, 0];
        let answer =
            encode_with_wr_joint_rand(param, &[1.0; 4], &stream, &mut measurement, &mut results);
        (answer, measurement, results)
    };
    let untouched = ([7; 16], [7; 2]);
    for successes in 0..=2 {
        let (answer, m, r) = ask(WrTestRule::Every, successes);
        refused(answer, Rule::WrTest, 1);
        assert_eq!((m, r), untouched);
    }
    let (answer, m, r) = ask(WrTestRule::Enough, 2);
    refused(answer, Rule::WrTestsInRange, 1);
    assert_eq!((m, r), untouched);
    // the elements, v = 4, u = 0, then a test's number (its result and b - 1) and success bit
    for successes in 0..=1 {
        let (answer, m, r) = ask(WrTestRule::Enough, successes);
        assert_eq!(answer, Ok(()));
        let one = u64::from(successes == 1);
        assert_eq!(m, [1, 1, 1, 1, 0, 0, 1, 0, 0, 0, 1, 0, one, 0, 0, 0]);
        assert_eq!(r, [0, P - 4]);
    }
}

#[test]
fn a_norm_that_wraps() {
    let wide = param(65536, 1, 0, 1, 1);
    let derived = derive(wide).unwrap();
    assert_eq!(derived.record.wr_test_bound(), 1048576);
    let mut measurement = vec![0; derived.record.encoded_input_len as usize];
    let mut results = [0];
    let gradient = [4294967296.0];
    assert_eq!(
        encode_with_wr_joint_rand(wide, &gradient, &[1], &mut measurement, &mut results),
        Ok(())
    );
    let v: u64 = (0..derived.record.sq_norm_bits as usize)
        .map(|i| measurement[1 + i] << i)
        .sum();
    assert_eq!(v, 4294967295);
    refused(
        encode_with_wr_joint_rand(wide, &gradient, &[3], &mut measurement, &mut results),
        Rule::WrTest,
        0,
    );
    // with the switch on, whatever the stream, and the rows stay
    let on = PineParam {
        true_sq_norm: true,
        ..wide
    };
    let before = measurement.clone();
    for byte in 0..4 {
        refused(
            encode_with_wr_joint_rand(on, &gradient, &[byte], &mut measurement, &mut results),
            Rule::TrueSqNorm,
            0,
        );
    }
    assert_eq!((&measurement, results), (&before, [0]));
    // at its bound and one above
    let mut encode =
        |x: f64| encode_with_wr_joint_rand(on, &[x], &[1], &mut measurement, &mut results);
    assert_eq!(encode(65536.0), Ok(()));
    assert_eq!(encode(-65536.0), Ok(()));
    refused(encode(65537.0), Rule::TrueSqNorm, 0);
    refused(encode(-65536.5), Rule::TrueSqNorm, 0);
    // before 10, which the switch leaves nothing to; after 9
    let (mut measurement, mut results) = ([7; 18], [7; 2]);
    for (true_sq_norm, rule) in [(false, Rule::SqNorm), (true, Rule::TrueSqNorm)] {
        let small = PineParam {
            true_sq_norm,
            ..param(1, 4, 0, 2, 2)
        };
        let mut encode = |gradient: &[f64]| {
            encode_with_wr_joint_rand(small, gradient, &[3, 0], &mut measurement, &mut results)
        };
        refused(encode(&[1.0, 1.0, 0.0, 0.0]), rule, 0);
        refused(encode(&[2.0]), Rule::GradientLen, 0);
    }
    assert_eq!((measurement, results), ([7; 18], [7; 2]));
}

#[test]
fn rows_of_other_lengths() {
    let p = param(1, 4, 0, 2, 2);
    let (four, two) = ([7u64; 4], [7u64; 2]);
    let mut row = [7u64; 4];
    let mut measurement = [7u64; 18];
    let mut results = [7u64; 2];
    let mut decoded = [7.0; 4];
    refused(empty_aggregate(p, &mut row[..3]), Rule::RowLen, 1);
    refused(accumulate(p, &mut row[..3], &four), Rule::RowLen, 1);
    refused(accumulate(p, &mut row, &two), Rule::RowLen, 2);
    refused(merge(p, &mut row, &[]), Rule::RowLen, 2);
    refused(subtract(p, &mut row, &two), Rule::RowLen, 2);
    refused(unmerge(p, &mut row[..3], &four), Rule::RowLen, 1);
    refused(unshard(p, &four, &four, &mut decoded[..1]), Rule::RowLen, 3);
    refused(run_wr_tests(p, &four, &[0], &mut results), Rule::RowLen, 2);
    refused(
        encode_with_wr_joint_rand(p, &[], &[0, 0], &mut measurement[1..], &mut results),
        Rule::RowLen,
        3,
    );
    refused(valid(p, 0, &[P; 20], &[P; 4]), Rule::RowLen, 2);
    refused(valid_sq_norm_equal(p, 0, &four), Rule::RowLen, 1);
    refused(gradient_part(p, &four), Rule::RowLen, 1);
    assert_eq!(
        (row, measurement, results, decoded),
        (four, [7; 18], two, [7.0; 4])
    );
}

#[test]
fn elements_and_shares() {
    let p = param(1, 4, 0, 2, 2);
    let mut full = [7u64; 20];
    refused(valid(p, 0, &[P; 20], &[P; 3]), Rule::NumShares, 0);
    refused(valid(p, 256, &full, &[1; 3]), Rule::NumShares, 0);
    refused(valid(p, 1, &full, &[1, P, 1]), Rule::Element, 21);
    full[19] = P;
    refused(valid(p, 1, &full, &[1; 3]), Rule::Element, 19);
    refused(valid_sq_norm_equal(p, 1, &full), Rule::Element, 19);
    refused(checked_part(p, &full), Rule::Element, 19);
    refused(results_part(p, &full), Rule::Element, 19);
    let mut row = [7, 7, 7, u64::MAX];
    refused(accumulate(p, &mut row, &[P; 4]), Rule::Element, 3);
    assert_eq!(row, [7, 7, 7, u64::MAX]);
    row[3] = 7;
    refused(merge(p, &mut row, &[0, P, 0, 0]), Rule::Element, 5);
    refused(subtract(p, &mut row, &[0, 0, P, 0]), Rule::Element, 6);
    refused(unmerge(p, &mut row, &[0, 0, 0, P]), Rule::Element, 7);
    assert_eq!(row, [7; 4]);
    let mut decoded = [7.0; 4];
    refused(
        unshard(p, &row, &[0, 0, P, P], &mut decoded),
        Rule::Element,
        6,
    );
    assert_eq!(decoded, [7.0; 4]);
}

#[test]
fn rows_taken_out() {
    let p = param(1, 2, 0, 1, 1);
    let mut agg = [3, P - 1];
    subtract(p, &mut agg, &[5, P - 1]).unwrap();
    assert_eq!(agg, [P - 2, 0]);
    accumulate(p, &mut agg, &[5, P - 1]).unwrap();
    assert_eq!(agg, [3, P - 1]);
    let other = agg;
    unmerge(p, &mut agg, &other).unwrap();
    assert_eq!(agg, [0, 0]);
}

#[test]
fn errors_say_what_is_wrong() {
    let error: Box<dyn std::error::Error> =
        Box::new(check_param(param(0, 1, 0, 1, 1)).unwrap_err());
    assert_eq!(
        error.to_string(),
        "norm_bound is 0 or above its limit (rule 2)"
    );
    let refusal = |number, place| {
        Error {
            rule: number,
            place,
        }
        .to_string()
    };
    for (rule, place, sentence) in [
        (
            Rule::RowLen,
            2,
            "a row has another length than derived (rule 7, row 2)",
        ),
        (
            Rule::Coordinate,
            3,
            "a coordinate is NaN, infinite or subnormal (rule 8, coordinate 3)",
        ),
        (
            Rule::WrTest,
            4,
            "a wraparound test's result is out of range (rule 11, test 4)",
        ),
        (
            Rule::Element,
            5,
            "an element is not below p (rule 12, element 5 of the rows read)",
        ),
        (
            Rule::Draws,
            0,
            "too few of the values drawn are below p (rule 18)",
        ),
        (
            Rule::TrueSqNorm,
            0,
            "the true squared norm is above its bound (rule 21)",
        ),
        (
            Rule::WrTestsInRange,
            6,
            "fewer wraparound tests are in range than num_wr_successes (rule 20, 6 in range)",
        ),
    ] {
        assert_eq!(refusal(rule, place), sentence);
        assert!(sentence.starts_with(&rule.to_string()));
    }
    assert_eq!(Rule::Element.number(), 12);
}

// xorshift: any numbers will do for a test
struct Draw(u64);

impl Draw {
    fn next(&mut self) -> u64 {
        self.0 ^= self.0 << 13;
        self.0 ^= self.0 >> 7;
        self.0 ^= self.0 << 17;
        self.0
    }

    fn element(&mut self) -> u64 {
        self.next() % P
    }
}

fn add(a: u64, b: u64) -> u64 {
    ((a as u128 + b as u128) % P as u128) as u64
}

#[test]
fn reports_cut_in_two() {
    let mut draw = Draw(88172645463325252);
    let mut missed = 0;
    for d in 1..40 {
        let enough = d % 2 == 0;
        let p = PineParam {
            chunk_len: 1 + draw.next() % 9,
            chunk_len_sq_norm_equal: 1 + draw.next() % 9,
            alpha_numerator: if enough {
                1
            } else {
                8 + (draw.next() % 60_000) as u16
            },
            alpha_denominator: 1 + (draw.next() % 4) as u16,
            true_sq_norm: d % 3 == 0,
            wr_test_rule: if enough {
                WrTestRule::Enough
            } else {
                WrTestRule::Every
            },
            ..param(1 << 20, d, 10, 20, 15)
        };
        let d = d as usize;
        let derived = derive(p).unwrap();
        let encoded_len = derived.record.encoded_input_len as usize;
        let mut aggregates = [vec![5; d], vec![5; d]];
        for aggregate in &mut aggregates {
            empty_aggregate(p, aggregate).unwrap();
        }
        let mut sums = vec![0.0; d];
        let mut withdrawn = None;
        let mut reports = 0;
        while reports < 5 {
            let gradient: Vec<f64> = (0..d)
                .map(|_| (draw.next() % 200_001) as f64 / 1024.0 - 97.0)
                .collect();
            let stream: Vec<u8> = (0..derived.stream_len).map(|_| draw.next() as u8).collect();
            let mut full = vec![5; derived.record.input_len as usize];
            let (measurement, results) = full.split_at_mut(encoded_len);
            match encode_with_wr_joint_rand(p, &gradient, &stream, measurement, results) {
                Err(Error {
                    rule: Rule::WrTest | Rule::WrTestsInRange,
                    ..
                }) => continue,
                other => other.unwrap(),
            }
            // from -b + 1 to b
            let bound = derived.record.wr_test_bound();
            let in_range = |&&r: &&u64| add(r, bound - 1) < 2 * bound;
            let succeeded = full[encoded_len..].iter().filter(in_range).count();
            assert!(succeeded >= 15 && (enough || succeeded == 20));
            missed += 20 - succeeded;
            let mut shares = [full.clone(), full.clone()];
            for i in 0..encoded_len {
                shares[0][i] = draw.element();
                shares[1][i] = add(full[i], P - shares[0][i]);
            }
            for share in &mut shares {
                let (cut, tests) = share.split_at_mut(encoded_len);
                run_wr_tests(p, &cut[..d], &stream, tests).unwrap();
            }
            let sum: Vec<u64> = (0..full.len())
                .map(|i| add(shares[0][i], shares[1][i]))
                .collect();
            assert_eq!(sum, full);
            let joint_rand = [draw.element(), draw.element(), draw.element()];
            let given = valid(p, 1, &sum, &joint_rand).unwrap();
            assert_eq!(
                (given.value, given.gadget_calls),
                (0, derived.record.gadget_calls)
            );
            let given = valid_sq_norm_equal(p, 1, &sum).unwrap();
            assert_eq!(
                (given.value, given.gadget_calls),
                (0, derived.record.gadget_calls_sq_norm_equal)
            );
            let parts = [
                gradient_part(p, &sum).unwrap(),
                checked_part(p, &sum).unwrap(),
                results_part(p, &sum).unwrap(),
            ];
            assert_eq!(parts.concat(), sum);
            assert_eq!(parts[0].len(), d);
            assert_eq!(parts[2].len(), 20);
            // a wrong bit is noticed
            let mut wrong = sum.clone();
            wrong[d] = add(wrong[d], 1);
            assert_ne!(valid(p, 1, &wrong, &joint_rand).unwrap().value, 0);
            assert_ne!(valid_sq_norm_equal(p, 1, &wrong).unwrap().value, 0);
            for (aggregate, share) in aggregates.iter_mut().zip(&shares) {
                accumulate(p, aggregate, gradient_part(p, share).unwrap()).unwrap();
            }
            for (sum, x) in sums.iter_mut().zip(&gradient) {
                *sum += x;
            }
            if reports == 2 {
                withdrawn = Some((gradient, shares));
            }
            reports += 1;
        }
        // the third report is taken out again
        let (gradient, shares) = withdrawn.unwrap();
        for (aggregate, share) in aggregates.iter_mut().zip(&shares) {
            subtract(p, aggregate, gradient_part(p, share).unwrap()).unwrap();
        }
        for (sum, x) in sums.iter_mut().zip(&gradient) {
            *sum -= x;
        }
        // merging an aggregate of no shares changes nothing
        let nothing = vec![0; d];
        merge(p, &mut aggregates[0], &nothing).unwrap();
        let mut decoded = vec![f64::NAN; d];
        unshard(p, &aggregates[0], &aggregates[1], &mut decoded).unwrap();
        assert_eq!(decoded, sums);
    }
    assert_ne!(missed, 0);
}
