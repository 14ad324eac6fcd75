/* PINE reports over Field64 and Field128: the proved calls of libpine_c.a, for C11 and C++11 or later, on x86-64.
 *
 * What it is not: a whole VDAF (verifiable distributed aggregation function). There is no FLP proof (fully linear
 * proof), query or prepare, so two servers that hold only shares cannot check a report with this alone; all
 * randomness is the caller's, nothing is proved of time, and nothing is said of privacy. README.md, "What it is not",
 * has each of these, and what the randomness must be; "A report, step by step" says what the words here mean.
 *
 * Each call is the function of the same name in the Rattle crates doubles, params, wr_tests, encode, cut, sampler,
 * validity, vdaf, day_file, file_add and file_size, or locate_gradient and so on in parts, with the same contract: for
 * ANY numbers and any bytes in its rows it ends, reads and writes inside its rows only, and gives exactly what the
 * definitions in crates/.../specs say, refusals included. docs/PINE.md has these in words, docs/C.md the tables of rows
 * and refusals, and how to link. Calls over Field128 have names that begin with pine128_, and are functions of the
 * crates whose names end in 128; they stand last, and what is said here holds of them too.
 *
 * Numbers. A field number is a uint64_t below p = 2^64 - 2^32 + 1. A row is a pointer and its length in
 * elements, in that order. Derive the lengths by pine_derive. Over Field128 a field number is two uint64_t, low first,
 * a row has two words to an element, and its length is in words (pine128_words).
 *
 * Answers. number 0 and place 0: accepted, the arguments were in order. Otherwise number is the first rule broken, in
 * the order 1 to 6, 19, 7, 14, 13, 12, 15, 16, 23, 8 with 17, 9, 21, 10, 18, 11 or 20 in its place, and place is where
 * (enum PineRule; pine_rule_text has each in words). A refused call leaves every row as it was. An accepted call
 * writes every element of its output rows and reads none of what they held before (of an aggregate that is added to or
 * taken from: argument and result; of a file that is added to, the second row is written up to the new length, and no
 * further). A compiler that can warns where an answer is dropped.
 *
 * What the caller has to see to, for no proof can:
 * - A pointer is valid for its length, and aligned for its type (8 bytes, 1 for a row of bytes). Give an
 *   empty row (length 0) a pointer that is not null, too.
 * - A row that is written overlaps no other row of the call, and nobody else reads or writes it
 *   meanwhile. Rows that are only read may be the same row, and nobody writes them meanwhile.
 * - Every element of a row that is read has been written once. Output rows may be uninitialised.
 * - The floating-point environment is C's default: round to nearest, exceptions masked, subnormals kept
 *   (neither flush-to-zero nor denormals-are-zero, which gcc's -ffast-math turns on in main programs).
 * - The stack has room: docs/C.md has the measured need of each call, at most 34608 bytes.
 *
 * No call keeps state, allocates, locks, does input or output, or fails otherwise than by its answer:
 * any number of threads may call at once. Nothing depends on a NaN's payload or sign: a NaN is refused,
 * and no call gives one.
 *
 * The time of an accepted call depends on the inputs, the lengths and what is public, and of secrets only on a seed's
 * stream, by the values that sampling skips and by the cache lines of the tests' tables; that was measured, and is not
 * proved (docs/SECRETS.md). pine_cut wipes the stack that it used, and so do encodings and tests but for short ones; what
 * other calls leave there, and all of them in vector registers, the caller can clear (docs/C.md, "What a call leaves").
 *
 * The archive is code for x86-64 (System V calls, position-independent, no instruction beyond SSE2). All it
 * takes from a C library is memcpy and memset.
 */
#ifndef PINE_H
#define PINE_H

#include <stddef.h>
#include <stdint.h>

/* The version of this header and of the archive that was built with it; that of bindings/rust, too. */
#define PINE_VERSION_MAJOR 0
#define PINE_VERSION_MINOR 1
#define PINE_VERSION_PATCH 0

/* Before each call: its result is not to be dropped. */
#if (defined(__cplusplus) && __cplusplus >= 201703L) || (defined(__STDC_VERSION__) && __STDC_VERSION__ >= 202311L)
#define PINE_MUST_USE [[nodiscard]]
#elif defined(__GNUC__)
#define PINE_MUST_USE __attribute__((warn_unused_result))
#else
#define PINE_MUST_USE
#endif

#ifdef __cplusplus
extern "C" {
#endif

/* p, the modulus of Field64. */
#define PINE_FIELD_MODULUS UINT64_C(0xffffffff00000001)

/* The words of p, the modulus of Field128: 2^128 - 28 * 2^64 + 1. */
#define PINE128_FIELD_MODULUS_LOW UINT64_C(0x1)
#define PINE128_FIELD_MODULUS_HIGH UINT64_C(0xffffffffffffffe4)

/* The largest inputs allowed; each is at least 1, but for frac_bits and num_wr_successes. */
#define PINE_MAX_NORM_BOUND UINT64_C(3037000499)
#define PINE_MAX_DIMENSION UINT64_C(65536)
#define PINE_MAX_FRAC_BITS UINT64_C(30)
#define PINE_MAX_CHUNK_LEN UINT64_C(65536)
#define PINE_MAX_NUM_WR_TESTS UINT64_C(256)
#define PINE_MAX_NUM_SHARES UINT64_C(255)

/* That of norm_bound over Field128; the others are the same there. */
#define PINE128_MAX_NORM_BOUND UINT64_C(4294967295)

/* A day's file: the most entries, and the bytes before them, of an entry's contents, and of its key. */
#define PINE_MAX_FILE_ENTRIES 1024
#define PINE_FILE_HEADER_LEN 6
#define PINE_FILE_ENTRY_LEN 12
#define PINE_FILE_KEY_LEN 8

/* The joint randomness of pine_valid: r1, r2, r3. */
#define PINE_JOINT_RAND_LEN 3

/* The bytes of a seed. */
#define PINE_SEED_LEN 16

/* A report that is cut here: the bytes of its nonce, of the five seeds that it takes, of the two that are given; and
 * how many values more than encoded_input_len are drawn at most for the helper's share. */
#define PINE_NONCE_LEN 16
#define PINE_CUT_SEEDS_LEN 80
#define PINE_JOINT_RAND_SEEDS_LEN 32
#define PINE_MORE_DRAWS 64

/* What number says, and place beside it. */
enum PineRule {
    PINE_ACCEPTED = 0,
    PINE_NUM_WR_SUCCESSES = 1,   /* above num_wr_tests; place 0 */
    PINE_NORM_BOUND = 2,         /* 0 or above its limit; place 0 */
    PINE_DIMENSION = 3,          /* 0 or above its limit; place 0 */
    PINE_FRAC_BITS = 4,          /* above its limit; place 0 */
    PINE_CHUNK_LEN = 5,          /* either chunk length is 0 or above its limit; place 0 */
    PINE_NUM_WR_TESTS = 6,       /* 0 or above its limit; place 0 */
    PINE_ROW_LEN = 7,            /* a row's length is other than derived; place: the row, from 1 */
    PINE_COORDINATE = 8,         /* NaN, infinite or subnormal; place: its index in the gradient */
    PINE_GRADIENT_LEN = 9,       /* the gradient's length is not the dimension; place 0 */
    PINE_SQ_NORM = 10,           /* the squared norm, a field number, is above norm_bound^2; place 0 */
    PINE_WR_TEST = 11,           /* by PINE_EVERY_TEST, a wraparound test's result is out of range; place: the
                                  * test, from 0 */
    PINE_ELEMENT = 12,           /* not below p; place: its index over the rows of elements that are read, joined
                                  * in order (pine_element_place) */
    PINE_NUM_SHARES = 13,        /* 0 or above its limit; place 0 */
    PINE_FILE_LAYOUT = 14,       /* bytes are no file of this dimension, or a count, contents and bodies make none;
                                  * place 0 */
    PINE_FILE_FULL = 15,         /* a new key for a file that holds PINE_MAX_FILE_ENTRIES; place 0 */
    PINE_REPORT_COUNT = 16,      /* a key's count of reports is already 4294967295; place: the entry's index in the
                                  * file, from 0 */
    PINE_FLOOR = 17,             /* a coordinate's floor is below -(p - 1) / 2 or above (p - 1) / 2; over Field128 below
                                  * -(2^64 - 1) or above 2^64 - 1; place: its index in the gradient. Of 8 and 17 the
                                  * lower index is answered */
    PINE_DRAWS = 18,             /* of encoded_input_len + PINE_MORE_DRAWS values drawn for the helper's share, fewer
                                  * than encoded_input_len are below p; place 0 */
    PINE_ALPHA = 19,             /* alpha_numerator or alpha_denominator is 0; place 0 */
    PINE_WR_TESTS_IN_RANGE = 20, /* by PINE_ENOUGH_TESTS, fewer than num_wr_successes tests are in range; place:
                                  * how many are */
    PINE_TRUE_SQ_NORM = 21,      /* with true_sq_norm on, the squared norm without reduction is above
                                  * norm_bound^2; place 0 */
    PINE_LOAD_SEED = 22,         /* the seed of a load is 0; place 0. No call here answers it: the program
                                  * load writes it (docs/LOAD.md) */
    PINE_SIZE = 23               /* over Field128, an element to be decoded, y, or y - p for y above (p - 1) / 2, is
                                  * below -(2^64 - 1) or above 2^64 - 1; place: the index of the first such in the
                                  * decoded row */
};

/* What an answer's number says, in words; one text for every number that is no rule. */
static inline const char *pine_rule_text(uint64_t number) {
    switch (number) {
    case PINE_ACCEPTED: return "accepted";
    case PINE_NUM_WR_SUCCESSES: return "num_wr_successes is above num_wr_tests";
    case PINE_NORM_BOUND: return "norm_bound is 0 or above its limit";
    case PINE_DIMENSION: return "dimension is 0 or above its limit";
    case PINE_FRAC_BITS: return "frac_bits is above its limit";
    case PINE_CHUNK_LEN: return "a chunk length is 0 or above its limit";
    case PINE_NUM_WR_TESTS: return "num_wr_tests is 0 or above its limit";
    case PINE_ROW_LEN: return "a row has another length than derived";
    case PINE_COORDINATE: return "a coordinate is NaN, infinite or subnormal";
    case PINE_GRADIENT_LEN: return "the gradient's length is not the dimension";
    case PINE_SQ_NORM: return "the squared norm is above its bound";
    case PINE_WR_TEST: return "a wraparound test is out of range";
    case PINE_ELEMENT: return "an element is not below the modulus";
    case PINE_NUM_SHARES: return "num_shares is 0 or above its limit";
    case PINE_FILE_LAYOUT: return "the bytes or rows are no file of this dimension";
    case PINE_FILE_FULL: return "the file has no room for a new key";
    case PINE_REPORT_COUNT: return "the key has as many reports as it can count";
    case PINE_FLOOR: return "a coordinate's floor is out of the field's limits";
    case PINE_DRAWS: return "too few of the values drawn are below the modulus";
    case PINE_ALPHA: return "alpha_numerator or alpha_denominator is 0";
    case PINE_WR_TESTS_IN_RANGE: return "too few wraparound tests are in range";
    case PINE_TRUE_SQ_NORM: return "the squared norm without reduction is above its bound";
    case PINE_LOAD_SEED: return "the seed of a load is 0";
    case PINE_SIZE: return "an element is too large to be decoded";
    default: return "no rule has this number";
    }
}

/* The first rule broken and its place, or 0 and 0. */
typedef struct PineAnswer {
    uint64_t number;
    uint64_t place;
} PineAnswer;

/* Where an element lies: its row, from 1, and its index there. Beside row 0, in no row, index is 0. */
typedef struct PineElementPlace {
    uint64_t row;
    uint64_t index;
} PineElementPlace;

/* The element behind a place of rule 12, from the lengths that the call was given. Two rows are joined, rows 1 and
 * 2, in pine_valid, pine_accumulate, pine_merge, pine_subtract, pine_unmerge and pine_unshard. Of
 * pine_run_wr_tests, pine_run_wr_tests_seed, pine_valid_sq_norm_equal and the three parts it is row 1 alone:
 * row2_len is 0. Of pine_file_add the place is an index in the share itself. Over Field128, too, places count elements:
 * row1_len and row2_len are then half of the lengths given, and the words of the element are at 2 * index. */
static inline PineElementPlace pine_element_place(uint64_t place, size_t row1_len, size_t row2_len) {
    PineElementPlace found = {0, 0};
    if (place < row1_len) {
        found.row = 1;
        found.index = place;
    } else if (place - row1_len < row2_len) {
        found.row = 2;
        found.index = place - row1_len;
    }
    return found;
}

/* What wr_test_rule says: which of the wraparound tests must be in range for a gradient to be encoded. */
enum PineWrTestRule {
    PINE_EVERY_TEST = 0,  /* all of them, as in the original */
    PINE_ENOUGH_TESTS = 1 /* at least num_wr_successes; any byte but 0 says so */
};

/* The inputs: n, d, f, c, e, T and K of docs/PINE.md; alpha as a fraction; the rule of the wraparound tests; the
 * switch for the true squared norm. The bound b of the tests is the smallest power of two not below
 * ceil(alpha * norm_bound) + 1. Begin from pine_param_standard.
 *
 * norm_bound is in units of 2^-frac_bits. It bounds the norm of the floors of the coordinates times 2^frac_bits,
 * which is less than sqrt(dimension) above the norm of those products. With beta the largest norm of a gradient:
 *     ceil(beta * 2^frac_bits + sqrt(dimension))   no gradient of norm up to beta is refused by 10 or 21
 *     ceil(beta * 2^frac_bits)                     the same, all coordinates being multiples of 2^-frac_bits
 *     floor(beta * 2^frac_bits)                    with true_sq_norm on, no floors of a norm above
 *                                                  beta * 2^frac_bits pass
 * docs/PINE.md, "Choosing the inputs", says why, and how to choose the others.
 *
 * What another alpha changes. A result from -b + 1 to b is in range, so a smaller b refuses more streams by
 * rule 11, and a larger one lets more gradients pass whose squared norm has wrapped around p; how many, no
 * proof here says. Each time b doubles, wr_test_bits is one more, and a measurement has num_wr_tests elements
 * more. Client and servers must use the same alpha, as they must the first seven inputs.
 *
 * What PINE_ENOUGH_TESTS changes. A client is no longer refused for a test that misses by chance: it is written
 * as zeros, and does not count. In return up to num_wr_tests - num_wr_successes tests of an accepted report may
 * have missed; the circuits show, as by the other rule, that num_wr_successes succeeded. No other call and no
 * length depends on the rule, and servers need not know it.
 *
 * What true_sq_norm changes. With it on, encoding refuses by 21 a gradient whose squared norm, summed in whole
 * numbers without reduction modulo p, is above norm_bound^2, so that none passes because its norm has wrapped
 * around p; 10 cannot occur then. How far a report that passed can move the sum: docs/SENSITIVITY.md. */
typedef struct PineParam {
    uint64_t norm_bound;
    uint64_t dimension;
    uint64_t frac_bits;
    uint64_t chunk_len;
    uint64_t chunk_len_sq_norm_equal;
    uint64_t num_wr_tests;
    uint64_t num_wr_successes;
    uint16_t alpha_numerator;
    uint16_t alpha_denominator;
    uint8_t wr_test_rule; /* enum PineWrTestRule */
    uint8_t true_sq_norm; /* 0: off; any other byte: on */
} PineParam;

/* The inputs with which the calls equal the original, which has no others, but for rule 17: alpha is 87 / 10, every
 * test must be in range, the switch is off. */
static inline PineParam pine_param_standard(uint64_t norm_bound, uint64_t dimension, uint64_t frac_bits,
                                            uint64_t chunk_len, uint64_t chunk_len_sq_norm_equal,
                                            uint64_t num_wr_tests, uint64_t num_wr_successes) {
    PineParam param = {norm_bound,   dimension,        frac_bits, chunk_len, chunk_len_sq_norm_equal,
                       num_wr_tests, num_wr_successes, 87,        10,        PINE_EVERY_TEST,
                       /* true_sq_norm */ 0};
    return param;
}

/* What follows from the inputs. */
typedef struct PineRecord {
    uint64_t dimension;
    uint64_t frac_bits;
    double scale; /* 2^frac_bits */
    uint64_t chunk_len;
    uint64_t chunk_len_sq_norm_equal;
    uint64_t num_wr_tests;
    uint64_t num_wr_successes;
    uint64_t sq_norm_bound;
    uint64_t sq_norm_bits;
    uint8_t wr_test_exponent; /* the wraparound tests' bound is 2 to this power: pine_wr_test_bound */
    uint64_t wr_test_bits;
    uint64_t bit_checked_len;   /* of the checked part */
    uint64_t encoded_input_len; /* of a measurement */
    uint64_t input_len;         /* of a full vector */
    uint64_t gadget_calls;
    uint64_t gadget_calls_sq_norm_equal;
} PineRecord;

/* The lengths of one circuit's vectors, in elements. */
typedef struct PineLengths {
    uint64_t input_len;
    uint64_t proof_len;
    uint64_t verifier_len;
    uint64_t joint_rand_len;
    uint64_t prove_rand_len;
    uint64_t query_rand_len;
} PineLengths;

/* Beside a refusal, every number is 0. */
typedef struct PineDerived {
    PineAnswer answer;
    PineRecord pine;
    uint64_t stream_len; /* in bytes */
    PineLengths flp;
    PineLengths flp_sq_norm_equal;
} PineDerived;

/* Beside a refusal, element is 0. */
typedef struct PineCoordinate {
    PineAnswer answer;
    uint64_t element;
} PineCoordinate;

/* An element of Field128: high * 2^64 + low. */
typedef struct PineElement128 {
    uint64_t low;
    uint64_t high;
} PineElement128;

/* Beside a refusal, element is 0. */
typedef struct PineCoordinate128 {
    PineAnswer answer;
    PineElement128 element;
} PineCoordinate128;

/* Beside a refusal, value is +0. */
typedef struct PineDecoded {
    PineAnswer answer;
    double value;
} PineDecoded;

/* A circuit's value and how many gadget calls it made. Beside a refusal both are 0, so a value of 0 says something
 * only beside an accepted answer: ask pine_is_valid. */
typedef struct PineCircuit {
    PineAnswer answer;
    uint64_t value;
    uint64_t gadget_calls;
} PineCircuit;

/* 1 if the arguments were in order and the value is 0, else 0. What that says of a report: below, "the circuits". */
static inline int pine_is_valid(PineCircuit circuit) {
    return circuit.answer.number == PINE_ACCEPTED && circuit.value == 0;
}

/* The same of a circuit over Field128. */
typedef struct PineCircuit128 {
    PineAnswer answer;
    PineElement128 value;
    uint64_t gadget_calls;
} PineCircuit128;

static inline int pine128_is_valid(PineCircuit128 circuit) {
    return circuit.answer.number == PINE_ACCEPTED && circuit.value.low == 0 && circuit.value.high == 0;
}

/* The words of a row of so many elements of Field128. */
static inline size_t pine128_words(uint64_t elements) { return (size_t)(2 * elements); }

/* A part of the row that was passed: len elements from row + start. Beside a refusal, both are 0. */
typedef struct PinePart {
    PineAnswer answer;
    uint64_t start;
    uint64_t len;
} PinePart;

/* A key of a day's file: the controller's address, six bytes, then the valve, two bytes, low byte first. */
typedef struct PineFileKey {
    uint8_t bytes[8];
} PineFileKey;

static inline PineFileKey pine_file_key(const uint8_t address[6], uint16_t valve) {
    PineFileKey key = {{address[0], address[1], address[2], address[3], address[4], address[5],
                        (uint8_t)(valve & 255), (uint8_t)(valve >> 8)}};
    return key;
}

/* A file's length in bytes. Beside a refusal it is 0. */
typedef struct PineFileLen {
    PineAnswer answer;
    uint64_t len;
} PineFileLen;

/* ---- parameters */

/* Rules 1 to 6, 19. */
PINE_MUST_USE PineAnswer pine_check_param(PineParam param);

/* The record and every length. Rules 1 to 6, 19. */
PINE_MUST_USE PineDerived pine_derive(PineParam param);

/* The bound b of the wraparound tests, from a derived record: a result from -b + 1 to b is in range. 0 for
 * a record that holds none, as beside a refusal. */
PINE_MUST_USE uint64_t pine_wr_test_bound(PineRecord pine);

/* ---- one number */

/* floor(x * 2^frac_bits) modulo p. Rules 4, 8 and 17, place 0. */
PINE_MUST_USE PineCoordinate pine_f64_to_field(double x, uint64_t frac_bits);

/* The nearest double to y, or to y - p for y above (p - 1) / 2, divided by 2^frac_bits. Rules 4 and 12,
 * place 0. */
PINE_MUST_USE PineDecoded pine_field_to_f64(uint64_t y, uint64_t frac_bits);

/* ---- a report
 *
 * The bytes of the wraparound tests come as a stream, or as a seed of PINE_SEED_LEN bytes that makes one:
 * XofTurboShake128, as in the original. A call with a seed gives what the call without _seed gives on that stream,
 * which is held by no row. A seed is fresh, one for each report; secret, known to its client and the two servers
 * alone; and from a cryptographic source. In PINE it comes from the joint randomness, so that a client cannot
 * choose it: with a seed or a stream that it chose, a gradient too long can pass. */

/* Encodes a gradient of doubles (row 1, length d), with a stream of random bytes (row 2, stream_len),
 * into the measurement (row 3, encoded_input_len; written) and the results of the wraparound tests
 * (row 4, num_wr_tests; written). Rules 1 to 6, 19, 7 (rows 2 to 4), 8 and 17, 9, 21, 10, 11 or 20. */
PINE_MUST_USE PineAnswer pine_encode_with_wr_joint_rand(PineParam param,
                                                        const double *gradient, size_t gradient_len,
                                                        const uint8_t *stream, size_t stream_len,
                                                        uint64_t *measurement, size_t measurement_len,
                                                        uint64_t *results, size_t results_len);

/* The same, with a seed (row 2, PINE_SEED_LEN) in the stream's place. The same rules; a seed of another length is 7,
 * place 2. By 11 or 20 another seed may do. */
PINE_MUST_USE PineAnswer pine_encode_with_wr_joint_rand_seed(PineParam param,
                                                             const double *gradient, size_t gradient_len,
                                                             const uint8_t *seed, size_t seed_len,
                                                             uint64_t *measurement, size_t measurement_len,
                                                             uint64_t *results, size_t results_len);

/* The wraparound tests alone, on a share of the gradient's elements (row 1, d), with the report's stream
 * (row 2, stream_len), into results (row 3, num_wr_tests; written). Rules 1 to 6, 19, 7, 12. */
PINE_MUST_USE PineAnswer pine_run_wr_tests(PineParam param,
                                           const uint64_t *gradient, size_t gradient_len,
                                           const uint8_t *stream, size_t stream_len,
                                           uint64_t *results, size_t results_len);

/* The same, with the report's seed (row 2, PINE_SEED_LEN) in the stream's place. The same rules. */
PINE_MUST_USE PineAnswer pine_run_wr_tests_seed(PineParam param,
                                                const uint64_t *gradient, size_t gradient_len,
                                                const uint8_t *seed, size_t seed_len,
                                                uint64_t *results, size_t results_len);

/* ---- a report, cut in two: all that a client sends, but for the proofs
 *
 * The five seeds are, in this order, that of the helper's share, the helper's blinds of the wraparound and of the
 * verification joint randomness, and the leader's two: meas_share_seed_1, wr_blind_1, vf_blind_1, wr_blind_0 and
 * vf_blind_0 of the original. They are fresh, five for each report; from a cryptographic source; and secret: whoever
 * has the first and the leader's share has the gradient. The nonce is the report's own and public.
 *
 * The leader's share is for the leader and the helper's for the helper, each alone. The two seeds given are for both:
 * the first is the seed of the report's tests (pine_run_wr_tests_seed), the second that of the joint randomness. They
 * come from the shares, the blinds and the nonce, so that a client can try others but choose none. PINE's servers test
 * that by parts of the joint randomness, for which there is no call here. */

/* Encodes a gradient of doubles (row 1, length d) and cuts its measurement in two, as shard_with_rand of the original
 * does up to the proofs. Read with it: the nonce (row 2, PINE_NONCE_LEN), the five seeds (row 3, PINE_CUT_SEEDS_LEN).
 * Written: the leader's share (row 4, encoded_input_len), the helper's share (row 5, encoded_input_len), and two seeds
 * (row 6, PINE_JOINT_RAND_SEEDS_LEN), that of the wraparound tests first. The shares are field numbers that add up,
 * element by element, to the measurement that pine_encode_with_wr_joint_rand_seed gives with that seed. Rules 1 to 6,
 * 19, 7 (rows 2 to 6), 8 and 17, 9, 21, 10, 18, 11 or 20. By 18, 11 or 20 other seeds may do. */
PINE_MUST_USE PineAnswer pine_cut(PineParam param,
                                  const double *gradient, size_t gradient_len,
                                  const uint8_t *nonce, size_t nonce_len,
                                  const uint8_t *seeds, size_t seeds_len,
                                  uint64_t *leader, size_t leader_len,
                                  uint64_t *helper, size_t helper_len,
                                  uint8_t *given, size_t given_len);

/* The sampler by which pine_cut makes the helper's share, over a stream that is lent (row 1, 8 * (encoded_input_len +
 * PINE_MORE_DRAWS) bytes): its values, 8 bytes each, low byte first, those not below p being skipped, fill the share
 * (row 2, encoded_input_len; written); what follows the one that completes it has no say. Rules 1 to 6, 19, 7, 18. */
PINE_MUST_USE PineAnswer pine_sample(PineParam param,
                                     const uint8_t *stream, size_t stream_len,
                                     uint64_t *share, size_t share_len);

/* ---- the circuits, on a full vector: a measurement or a share of one, then its results
 *
 * An accepted answer says that the arguments were in order, and nothing of the report. A report is valid where both
 * circuits have the value 0 (pine_is_valid) on its whole vector, with num_shares 1 and joint randomness that its
 * client could not foresee. What encoding gave has the value 0 in both, whatever the joint randomness, and so has
 * the sum of its full shares.
 *
 * num_shares is how many shares the vector was cut into: 1 for a whole vector, 2 for one of two shares. The main
 * circuit divides its constants by it, modulo p. The values on two shares do not add up to the value on the whole
 * all the same: both circuits multiply elements, and are not linear. To check a report from its shares alone takes
 * an FLP proof, which is not here. */

/* PineType, on a full vector (row 1, input_len) with joint randomness (row 2, 3 elements). Rules 1 to 6, 19, 7,
 * 13, 12. */
PINE_MUST_USE PineCircuit pine_valid(PineParam param, uint64_t num_shares,
                                     const uint64_t *full, size_t full_len,
                                     const uint64_t *joint_rand, size_t joint_rand_len);

/* PineTypeSquaredNormEqual, on a full vector (row 1, input_len). It has no constants: num_shares is tested, and not
 * used otherwise. Rules 1 to 6, 19, 7, 13, 12. */
PINE_MUST_USE PineCircuit pine_valid_sq_norm_equal(PineParam param, uint64_t num_shares,
                                                   const uint64_t *full, size_t full_len);

/* Where the parts of a full vector (row 1, input_len) lie in it: the gradient, the checked elements, the
 * results. Rules 1 to 6, 19, 7, 12. */
PINE_MUST_USE PinePart pine_gradient_part(PineParam param, const uint64_t *full, size_t full_len);
PINE_MUST_USE PinePart pine_checked_part(PineParam param, const uint64_t *full, size_t full_len);
PINE_MUST_USE PinePart pine_results_part(PineParam param, const uint64_t *full, size_t full_len);

/* ---- aggregates, of d elements each */

/* Makes the aggregate of no shares (row 1, written). Rules 1 to 6, 19, 7. */
PINE_MUST_USE PineAnswer pine_empty_aggregate(PineParam param, uint64_t *row, size_t row_len);

/* Adds a share (row 2) to an aggregate (row 1, written). Rules 1 to 6, 19, 7, 12. */
PINE_MUST_USE PineAnswer pine_accumulate(PineParam param,
                                         uint64_t *agg, size_t agg_len,
                                         const uint64_t *share, size_t share_len);

/* Adds another aggregate (row 2) to an aggregate (row 1, written). Rules 1 to 6, 19, 7, 12. */
PINE_MUST_USE PineAnswer pine_merge(PineParam param,
                                    uint64_t *agg, size_t agg_len,
                                    const uint64_t *other, size_t other_len);

/* Takes a share (row 2) out of an aggregate (row 1, written), whether or not it was added. Rules 1 to 6, 19,
 * 7, 12. */
PINE_MUST_USE PineAnswer pine_subtract(PineParam param,
                                       uint64_t *agg, size_t agg_len,
                                       const uint64_t *share, size_t share_len);

/* Takes another aggregate (row 2) out of an aggregate (row 1, written). Rules 1 to 6, 19, 7, 12. */
PINE_MUST_USE PineAnswer pine_unmerge(PineParam param,
                                      uint64_t *agg, size_t agg_len,
                                      const uint64_t *other, size_t other_len);

/* Adds two aggregates (rows 1 and 2) and decodes the sums (row 3, written). Rules 1 to 6, 19, 7, 12. */
PINE_MUST_USE PineAnswer pine_unshard(PineParam param,
                                      const uint64_t *left, size_t left_len,
                                      const uint64_t *right, size_t right_len,
                                      double *decoded, size_t decoded_len);

/* ---- the day's file: a server's aggregates by controller and valve, in one row of bytes
 *
 * All numbers low byte first: the count of entries (2 bytes, 0 to 1024), d (4 bytes); then the contents, 12 bytes an
 * entry: the controller's address (6), the valve (2), the count of reports (4); then the bodies in the same order, d
 * elements of 8 bytes each: an aggregate. Entries rise strictly by the address, its bytes compared from the first on,
 * then by the valve as a number. A file begun empty is what pine_file_write makes of a count of 0. It has no checksum,
 * and nothing says who wrote it. */

/* Splits a file (row 1, of any length) into its contents (row 2, 12 bytes an entry; written), without the six bytes
 * before them, and the elements of its bodies (row 3, d an entry; written). The entries are counted by the file's
 * first two bytes, 0 if it has fewer. Rules 1 to 6, 19, 7 (rows 2 and 3), 14. */
PINE_MUST_USE PineAnswer pine_file_read(PineParam param,
                                        const uint8_t *file, size_t file_len,
                                        uint8_t *contents, size_t contents_len,
                                        uint64_t *bodies, size_t bodies_len);

/* Writes a file (row 3, 6 + count * (12 + 8 d); written) of count entries, from contents (row 1, 12 bytes an entry) and
 * bodies (row 2, d elements an entry). Rules 1 to 6, 19, 7, 14: an element not below p is 14 here. */
PINE_MUST_USE PineAnswer pine_file_write(PineParam param, uint64_t count,
                                         const uint8_t *contents, size_t contents_len,
                                         const uint64_t *bodies, size_t bodies_len,
                                         uint8_t *file, size_t file_len);

/* The greatest length that a file begun empty can have after so many added reports: 6 + min(reports, 1024)(12 + 8 d).
 * Rules 1 to 6, 19. */
PINE_MUST_USE PineFileLen pine_file_max(PineParam param, uint32_t reports);

/* Adds a report of one key to a file: the key's count is one more, and the share (row 2, d) is added to its body; a new
 * key starts from no reports and d zeros. No other entry or body changes. The old file (row 1, of any length) is only
 * read. The new one is written into the second row (row 3), which has the old one's length and 12 + 8 d bytes more, and
 * its length is given; the bytes past it stay as they were. Rules 1 to 6, 19, 7 (rows 2 and 3), 14, 12, 15, 16. */
PINE_MUST_USE PineFileLen pine_file_add(PineParam param, PineFileKey key,
                                        const uint8_t *old, size_t old_len,
                                        const uint64_t *share, size_t share_len,
                                        uint8_t *second, size_t second_len);

/* The exact length of the file that reports of these keys (row 1, 8 bytes a report, in the order in which they will be
 * added) make of one begun empty, or the refusal that adding would meet first. Rules 1 to 6, 19, 7 for a length that
 * is no multiple of 8, 15 or 16. */
PINE_MUST_USE PineFileLen pine_file_size(PineParam param, const uint8_t *keys, size_t keys_len);

/* ---- over Field128
 *
 * The calls above by the names without 128, over p = 2^128 - 28 * 2^64 + 1: sums may go beyond Field64's. A row of
 * elements is one of uint64_t, aligned as such, two to an element, low first: n elements are 2 n words
 * (pine128_words(n)), and every other length, an odd one too, is 7. pine128_derive gives lengths in elements, as
 * pine_derive does; below, the length of each row is in words. Places count elements.
 *
 * The inputs are the same, with norm_bound up to PINE128_MAX_NORM_BOUND. Client and servers use one field for a report.
 * A record of pine128_derive goes to pine_wr_test_bound as well. There is no call with a seed, no cutting, no part and
 * no file over Field128. */

/* Rules 1 to 6, 19. */
PINE_MUST_USE PineAnswer pine128_check_param(PineParam param);

/* The record and every length, in elements. Rules 1 to 6, 19. */
PINE_MUST_USE PineDerived pine128_derive(PineParam param);

/* floor(x * 2^frac_bits) modulo p. Rules 4, 8 and 17, place 0. */
PINE_MUST_USE PineCoordinate128 pine128_f64_to_field(double x, uint64_t frac_bits);

/* The nearest double to y, or to y - p for y above (p - 1) / 2, divided by 2^frac_bits. Rules 4, 12 and 23,
 * place 0. */
PINE_MUST_USE PineDecoded pine128_field_to_f64(PineElement128 y, uint64_t frac_bits);

/* Encodes a gradient of doubles (row 1, length d), with a stream of random bytes (row 2, stream_len),
 * into the measurement (row 3, 2 * encoded_input_len words, low first; written) and the results of the wraparound
 * tests (row 4, 2 * num_wr_tests words, low first; written). Rules 1 to 6, 19, 7 (rows 2 to 4), 8 and 17, 9, 21, 10,
 * 11 or 20. */
PINE_MUST_USE PineAnswer pine128_encode_with_wr_joint_rand(PineParam param,
                                                           const double *gradient, size_t gradient_len,
                                                           const uint8_t *stream, size_t stream_len,
                                                           uint64_t *measurement, size_t measurement_len,
                                                           uint64_t *results, size_t results_len);

/* The wraparound tests alone, on a share of the gradient's elements (row 1, 2 d words, low first), with the report's
 * stream (row 2, stream_len), into results (row 3, 2 * num_wr_tests words, low first; written). Rules 1 to 6, 19, 7,
 * 12. */
PINE_MUST_USE PineAnswer pine128_run_wr_tests(PineParam param,
                                              const uint64_t *gradient, size_t gradient_len,
                                              const uint8_t *stream, size_t stream_len,
                                              uint64_t *results, size_t results_len);

/* PineType, on a full vector (row 1, 2 * input_len words, low first) with joint randomness (row 2, 6 words: r1, r2, r3,
 * each low first). Rules 1 to 6, 19, 7, 13, 12. */
PINE_MUST_USE PineCircuit128 pine128_valid(PineParam param, uint64_t num_shares,
                                           const uint64_t *full, size_t full_len,
                                           const uint64_t *joint_rand, size_t joint_rand_len);

/* PineTypeSquaredNormEqual, on a full vector (row 1, 2 * input_len words, low first). Rules 1 to 6, 19, 7, 13, 12. */
PINE_MUST_USE PineCircuit128 pine128_valid_sq_norm_equal(PineParam param, uint64_t num_shares,
                                                         const uint64_t *full, size_t full_len);

/* Makes the aggregate of no shares (row 1, 2 d words, low first; written). Rules 1 to 6, 19, 7. */
PINE_MUST_USE PineAnswer pine128_empty_aggregate(PineParam param, uint64_t *row, size_t row_len);

/* Adds a share (row 2, 2 d words, low first) to an aggregate (row 1, the same; written). Rules 1 to 6, 19, 7, 12. */
PINE_MUST_USE PineAnswer pine128_accumulate(PineParam param,
                                            uint64_t *agg, size_t agg_len,
                                            const uint64_t *share, size_t share_len);

/* Adds another aggregate (row 2, 2 d words, low first) to an aggregate (row 1, the same; written). Rules 1 to 6, 19, 7,
 * 12. */
PINE_MUST_USE PineAnswer pine128_merge(PineParam param,
                                       uint64_t *agg, size_t agg_len,
                                       const uint64_t *other, size_t other_len);

/* Takes a share (row 2, 2 d words, low first) out of an aggregate (row 1, the same; written), whether or not it was
 * added. Rules 1 to 6, 19, 7, 12. */
PINE_MUST_USE PineAnswer pine128_subtract(PineParam param,
                                          uint64_t *agg, size_t agg_len,
                                          const uint64_t *share, size_t share_len);

/* Takes another aggregate (row 2, 2 d words, low first) out of an aggregate (row 1, the same; written). Rules 1 to 6,
 * 19, 7, 12. */
PINE_MUST_USE PineAnswer pine128_unmerge(PineParam param,
                                         uint64_t *agg, size_t agg_len,
                                         const uint64_t *other, size_t other_len);

/* Adds two aggregates (rows 1 and 2, 2 d words each, low first) and decodes the sums (row 3, d doubles, written). Rules
 * 1 to 6, 19, 7, 12, 23: one sum too large, and the whole row is refused. */
PINE_MUST_USE PineAnswer pine128_unshard(PineParam param,
                                         const uint64_t *left, size_t left_len,
                                         const uint64_t *right, size_t right_len,
                                         double *decoded, size_t decoded_len);

#ifdef __cplusplus
}
#endif

/* The layout that the archive was compiled for. */
#ifdef __cplusplus
#define PINE_ASSERT(fact) static_assert(fact, #fact)
#else
#define PINE_ASSERT(fact) _Static_assert(fact, #fact)
#endif
PINE_ASSERT(sizeof(size_t) == 8);
PINE_ASSERT(sizeof(double) == 8);
PINE_ASSERT(sizeof(PineAnswer) == 16);
PINE_ASSERT(sizeof(PineParam) == 64);
PINE_ASSERT(offsetof(PineParam, alpha_numerator) == 56);
PINE_ASSERT(offsetof(PineParam, alpha_denominator) == 58);
PINE_ASSERT(offsetof(PineParam, wr_test_rule) == 60);
PINE_ASSERT(offsetof(PineParam, true_sq_norm) == 61);
PINE_ASSERT(sizeof(PineRecord) == 128);
PINE_ASSERT(offsetof(PineRecord, wr_test_exponent) == 72);
PINE_ASSERT(offsetof(PineRecord, wr_test_bits) == 80);
PINE_ASSERT(sizeof(PineLengths) == 48);
PINE_ASSERT(sizeof(PineDerived) == 248);
PINE_ASSERT(sizeof(PineCoordinate) == 24);
PINE_ASSERT(sizeof(PineDecoded) == 24);
PINE_ASSERT(sizeof(PineCircuit) == 32);
PINE_ASSERT(sizeof(PinePart) == 32);
PINE_ASSERT(sizeof(PineFileKey) == 8);
PINE_ASSERT(sizeof(PineFileLen) == 24);
PINE_ASSERT(sizeof(PineElement128) == 16);
PINE_ASSERT(offsetof(PineElement128, high) == 8);
PINE_ASSERT(sizeof(PineCoordinate128) == 32);
PINE_ASSERT(sizeof(PineCircuit128) == 40);
#undef PINE_ASSERT

#endif
