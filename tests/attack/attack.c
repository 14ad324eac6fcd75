/* Calls every function of libpine_c.a with arbitrary inputs, lengths and bytes.
 *
 *     attack SEED COUNT
 *
 * Every row lies in pages of its own between two pages that may not be touched, against the one or the
 * other, with a margin of known bytes on its open side. Checked of each call: it returns; it touches
 * nothing outside its rows; a refused call leaves every row as it was, and its values are 0; an accepted
 * one leaves the rows that it only reads; made again with other bytes in the rows that it writes, it
 * gives the same answer and the same rows; elements given are below p, doubles are no NaN; a report's tests are
 * written by the rule that the inputs name, and with the switch on its true squared norm is within the bound; files and
 * their lengths are those that file_step.h works out; the shares of a report that is cut, and of the sampler, are as
 * cut_step.h says; what the calls over Field128 give is as wide_step.h says. Every report that is encoded is also cut in
 * two, by hand or here, and taken through all the other calls.
 *
 * With -DMEMCHECK, under valgrind, the rows that are written are handed over as uninitialised, and what
 * comes back must be initialised throughout. */
#define _DEFAULT_SOURCE 1
#include "pine.h"

#include <signal.h>
#include <stddef.h>
#include <stdio.h>
#include <stdlib.h>
#include <string.h>
#include <sys/mman.h>
#include <unistd.h>
#ifdef MEMCHECK
#include <valgrind/memcheck.h>
#else
#define VALGRIND_MAKE_MEM_UNDEFINED(p, n) ((void)(p), (void)(n))
#define VALGRIND_MAKE_MEM_DEFINED(p, n) ((void)(p), (void)(n))
#define VALGRIND_CHECK_MEM_IS_DEFINED(p, n) ((void)(p), (void)(n), 0)
#endif

#define P PINE_FIELD_MODULUS

/* seconds for 256 steps, of a few milliseconds at most */
#ifndef PATIENCE
#define PATIENCE 600
#endif

/* ---- what is being done, for the message if it fails */

enum Kind {
    CHECK_PARAM, DERIVE, WR_TEST_BOUND, F64_TO_FIELD, FIELD_TO_F64, ENCODE, ENCODE_SEED, RUN_WR_TESTS,
    RUN_WR_TESTS_SEED, CUT, SAMPLE, VALID, VALID_EQUAL, GRADIENT_PART, CHECKED_PART, RESULTS_PART, EMPTY_AGGREGATE,
    ACCUMULATE, MERGE, SUBTRACT, UNMERGE, UNSHARD,
    FILE_READ, FILE_WRITE, FILE_MAX, FILE_ADD, FILE_SIZE,
    CHECK_PARAM128, DERIVE128, F64_TO_FIELD128, FIELD_TO_F64128, ENCODE128, RUN_WR_TESTS128, VALID128, VALID_EQUAL128,
    EMPTY_AGGREGATE128, ACCUMULATE128, MERGE128, SUBTRACT128, UNMERGE128, UNSHARD128, KINDS
};
static const char *const names[KINDS] = {
    "check_param", "derive", "wr_test_bound", "f64_to_field", "field_to_f64", "encode_with_wr_joint_rand",
    "encode_with_wr_joint_rand_seed", "run_wr_tests", "run_wr_tests_seed", "cut", "sample", "valid",
    "valid_sq_norm_equal", "gradient_part", "checked_part", "results_part", "empty_aggregate", "accumulate", "merge",
    "subtract", "unmerge", "unshard", "file_read", "file_write", "file_max", "file_add", "file_size",
    "128_check_param", "128_derive", "128_f64_to_field", "128_field_to_f64", "128_encode_with_wr_joint_rand",
    "128_run_wr_tests", "128_valid", "128_valid_sq_norm_equal", "128_empty_aggregate", "128_accumulate", "128_merge",
    "128_subtract", "128_unmerge", "128_unshard"
};
enum { LAST_RULE = PINE_SIZE };
static unsigned long long seed, made, counts[KINDS][LAST_RULE + 1], reports;
static volatile enum Kind kind;

static void fail(const char *what) {
    printf("FAILED: %s: %s (seed %llu, call %llu)\n", names[kind], what, seed, made);
    fflush(stdout);
    _exit(1);
}

static void on_signal(int sig) {
    fail(sig == SIGALRM ? "does not return" : sig == SIGSEGV || sig == SIGBUS ? "touches memory outside its rows" : "is killed");
}

/* ---- what is drawn */

static uint64_t state;

static uint64_t draw(void) {
    state ^= state << 13;
    state ^= state >> 7;
    state ^= state << 17;
    return state * UINT64_C(0x2545f4914f6cdd1d);
}

static uint64_t below(uint64_t n) { return (draw() >> 11) % n; }
static int once_in(uint64_t n) { return below(n) == 0; }

static uint64_t any_number(void) {
    static const uint64_t edges[] = {0, 1, 2, 3, 30, 31, 255, 256, 257, 65535, 65536, 65537, 3037000499u, 3037000500u,
                                     UINT32_MAX, P - 1, P, P + 1, UINT64_C(1) << 63, UINT64_MAX - 1, UINT64_MAX};
    return once_in(3) ? draw() >> below(64) : edges[below(sizeof edges / sizeof *edges)];
}

static uint64_t element(void) {
    switch (below(8)) {
    case 0: return 0;
    case 1: return 1;
    case 2: return P - 1;
    case 3: return below(1 << 20);
    case 4: return P - 1 - below(1 << 20);
    case 5: return (P - 1) / 2 + below(2);
    default: return draw() % P;
    }
}

static double from_bits(uint64_t bits) {
    double x;
    memcpy(&x, &bits, sizeof x);
    return x;
}

static double any_double(void) {
    static const uint64_t exponents[] = {0, 1, 2, 1022, 1023, 1024, 1086, 1087, 2045, 2046, 2047};
    uint64_t sign = draw() & UINT64_C(1) << 63;
    uint64_t exponent = once_in(2) ? exponents[below(11)] : below(2048);
    uint64_t digits = once_in(3) ? 0 : once_in(3) ? below(4) : draw() >> 12;
    return from_bits(sign | exponent << 52 | digits);
}

static uint16_t alpha_number(void) {
    return (uint16_t)(once_in(3) ? 1 + below(8) : once_in(3) ? UINT16_MAX - below(2) : 1 + below(UINT16_MAX));
}

/* a rule or a switch: 0, 1 or another */
static uint8_t any_byte(void) { return (uint8_t)below(once_in(2) ? 2 : 256); }

static PineParam param_in_order(void) {
    PineParam p;
    p.norm_bound = once_in(3) ? 1 + below(8) : once_in(3) ? 1 + below(PINE_MAX_NORM_BOUND) : UINT64_C(1) << below(31);
    p.dimension = once_in(16) ? 1 + below(300) : once_in(4000) ? PINE_MAX_DIMENSION - below(9) : 1 + below(40);
    p.frac_bits = below(31);
    p.chunk_len = once_in(8) ? PINE_MAX_CHUNK_LEN - below(2) : 1 + below(40);
    p.chunk_len_sq_norm_equal = once_in(8) ? PINE_MAX_CHUNK_LEN - below(2) : 1 + below(40);
    p.num_wr_tests = once_in(64) ? PINE_MAX_NUM_WR_TESTS - below(2) : 1 + below(12);
    p.num_wr_successes = once_in(2) ? p.num_wr_tests : below(p.num_wr_tests + 1);
    int standard = once_in(2);
    p.alpha_numerator = standard ? 87 : alpha_number();
    p.alpha_denominator = standard ? 10 : alpha_number();
    p.wr_test_rule = any_byte();
    p.true_sq_norm = any_byte();
    return p;
}

static PineParam any_param(void) {
    PineParam p = param_in_order();
    while (once_in(12)) {
        uint64_t x = any_number(), at = below(9);
        if (at < 7) {
            memcpy((char *)&p + 8 * at, &x, 8);
        } else {
            *(at == 7 ? &p.alpha_numerator : &p.alpha_denominator) = once_in(2) ? 0 : (uint16_t)x;
        }
    }
    return p;
}

/* ---- rows */

enum { MARGIN = 64, ROWS = 6 };

/* pages between two that may not be touched */
typedef struct {
    unsigned char *pages;
    size_t size;
    /* the row placed there now */
    unsigned char *at;
    size_t bytes;
    unsigned char *kept;
    unsigned char margin[MARGIN];
    unsigned char *margin_at;
} Row;

static Row rows[ROWS];
static const size_t most = (size_t)256 * 16384 + 8 * MARGIN; /* bytes: the longest stream */

static void make_rows(void) {
    size_t page = (size_t)sysconf(_SC_PAGESIZE);
    for (int i = 0; i < ROWS; i++) {
        size_t size = (most + page - 1) / page * page;
        unsigned char *p = (unsigned char *)mmap(NULL, size + 2 * page, PROT_NONE, MAP_PRIVATE | MAP_ANONYMOUS, -1, 0);
        if (p == MAP_FAILED || mprotect(p + page, size, PROT_READ | PROT_WRITE) != 0) {
            perror("mmap");
            exit(2);
        }
        rows[i].pages = p + page;
        rows[i].size = size;
        rows[i].kept = (unsigned char *)malloc(size);
        if (rows[i].kept == NULL) {
            perror("malloc");
            exit(2);
        }
    }
}

/* a row of len elements, against the pages' beginning or end */
static void *place(int i, size_t len, size_t width) {
    Row *r = &rows[i];
    r->bytes = len * width;
    if (r->bytes + MARGIN > r->size) {
        fail("the driver has no room for this row");
    }
    int at_end = once_in(2);
    r->at = at_end ? r->pages + r->size - r->bytes : r->pages;
    r->margin_at = at_end ? r->at - MARGIN : r->at + r->bytes;
    for (int k = 0; k < MARGIN; k += 8) {
        uint64_t x = draw();
        memcpy(r->margin + k, &x, 8);
    }
    memcpy(r->margin_at, r->margin, MARGIN);
    return r->at;
}

/* the row as it is, to be compared */
static void keep(int i) { memcpy(rows[i].kept, rows[i].at, rows[i].bytes); }

static void same(int i, const char *what) {
    if (memcmp(rows[i].kept, rows[i].at, rows[i].bytes) != 0) {
        fail(what);
    }
}

static void margin_same(int i) {
    if (memcmp(rows[i].margin, rows[i].margin_at, MARGIN) != 0) {
        fail("writes beside a row");
    }
}

static void noise(int i) {
    for (size_t k = 0; k < rows[i].bytes; k++) {
        rows[i].at[k] = (unsigned char)(draw() >> 56);
    }
}

static uint64_t *elements(int i, size_t len, int in_order) {
    uint64_t *row = (uint64_t *)place(i, len, 8);
    for (size_t k = 0; k < len; k++) {
        row[k] = element();
    }
    while (!in_order && len != 0 && once_in(12)) {
        row[once_in(3) ? len - 1 : below(len)] = once_in(2) ? P + below(3) : UINT64_MAX - below(1 << 20);
    }
    return row;
}

static uint8_t *bytes(int i, size_t len) {
    uint8_t *row = (uint8_t *)place(i, len, 1);
    noise(i);
    return row;
}

/* coordinates whose squared norm is often, and not always, within the bound */
static double *coordinates(int i, size_t len, PineParam p, int in_order) {
    double *row = (double *)place(i, len, 8);
    double scale = (double)(UINT64_C(1) << (p.frac_bits & 31));
    uint64_t share = len == 0 ? 1 : p.norm_bound / (once_in(4) ? 2 : len + 1) + 1;
    for (size_t k = 0; k < len; k++) {
        double size = (double)below(once_in(2) ? 2 : share) / scale;
        row[k] = once_in(2) ? size : -size;
    }
    if (len >= 2 && once_in(16)) { /* a squared norm of p, which modulo p is 0 */
        memset(row, 0, len * sizeof *row);
        row[below(len - 1)] = (double)UINT32_MAX / scale;
        row[len - 1] = -65536 / scale;
    }
    while (!in_order && len != 0 && once_in(4)) {
        row[below(len)] = any_double();
    }
    return row;
}

/* the length that is derived, or another */
static size_t near(uint64_t len, int in_order) {
    if (len > most / 8) {
        len = most / 8;
    }
    if (in_order || !once_in(24)) {
        return (size_t)len;
    }
    switch (below(4)) {
    case 0: return 0;
    case 1: return (size_t)len + 1;
    case 2: return len == 0 ? 0 : (size_t)len - 1;
    default: return (size_t)below(500);
    }
}

/* An empty row may well come with a null pointer. */
static void *pointer(void *row, size_t len) { return len == 0 && once_in(2) ? NULL : row; }

/* ---- checks */

static void count(PineAnswer a) {
    if (a.number > LAST_RULE || (a.number == 0 && a.place != 0)) {
        fail("an answer that is none");
    }
    counts[kind][a.number]++;
    made++;
}

static void equal(PineAnswer a, PineAnswer b) {
    if (a.number != b.number || a.place != b.place) {
        fail("answers twice otherwise");
    }
}

/* its words, the byte of the exponent alone in its own */
static void words_of(const PineDerived *v, uint64_t words[sizeof(PineDerived) / 8]) {
    memcpy(words, v, sizeof *v);
    words[offsetof(PineDerived, pine.wr_test_exponent) / 8] = v->pine.wr_test_exponent;
}

static void all_elements(const uint64_t *row, size_t len) {
    for (size_t k = 0; k < len; k++) {
        if (row[k] >= P) {
            fail("gives an element that is none");
        }
    }
}

static void defined(const void *p, size_t n) {
    if (VALGRIND_CHECK_MEM_IS_DEFINED(p, n) != 0) {
        fail("gives what it never wrote");
    }
}

/* One call on the first `n` rows; those of the set `written` are written. */
#define CALL(n, written, answer_of, call)                                                                              \
    do {                                                                                                               \
        for (int i_ = 0; i_ < (n); i_++) {                                                                             \
            if ((written) >> i_ & 1) {                                                                                 \
                noise(i_);                                                                                             \
            }                                                                                                          \
            keep(i_);                                                                                                  \
            if ((written) >> i_ & 1) {                                                                                 \
                VALGRIND_MAKE_MEM_UNDEFINED(rows[i_].at, rows[i_].bytes);                                              \
            }                                                                                                          \
        }                                                                                                              \
        call;                                                                                                          \
        defined(&(answer_of), sizeof(answer_of));                                                                      \
        for (int i_ = 0; i_ < (n); i_++) {                                                                             \
            margin_same(i_);                                                                                           \
            if (!((written) >> i_ & 1)) {                                                                              \
                same(i_, "changes a row that it only reads");                                                          \
            } else if ((answer_of).number == 0) {                                                                      \
                defined(rows[i_].at, rows[i_].bytes);                                                                  \
            } else {                                                                                                   \
                VALGRIND_MAKE_MEM_DEFINED(rows[i_].at, rows[i_].bytes);                                                \
                same(i_, "is refused and changes a row");                                                              \
            }                                                                                                          \
        }                                                                                                              \
        count(answer_of);                                                                                              \
    } while (0)

/* The same call twice, with other bytes in the rows that it writes: the rows come back the same. */
#define TWICE(n, written, call)                                                                                        \
    do {                                                                                                               \
        PineAnswer first_;                                                                                             \
        CALL(n, written, a, a = call);                                                                                 \
        first_ = a;                                                                                                    \
        if (first_.number == 0) {                                                                                      \
            for (int j_ = 0; j_ < (n); j_++) {                                                                         \
                if ((written) >> j_ & 1) {                                                                             \
                    memcpy(given[j_], rows[j_].at, rows[j_].bytes);                                                    \
                }                                                                                                      \
            }                                                                                                          \
            CALL(n, written, a, a = call);                                                                             \
            equal(first_, a);                                                                                          \
            for (int j_ = 0; j_ < (n); j_++) {                                                                         \
                if (((written) >> j_ & 1) && memcmp(given[j_], rows[j_].at, rows[j_].bytes) != 0) {                    \
                    fail("gives what depends on what its rows held");                                                  \
                }                                                                                                      \
            }                                                                                                          \
        }                                                                                                              \
    } while (0)

static unsigned char *given[ROWS];

/* ---- a report, from end to end */

static uint64_t add(uint64_t a, uint64_t b) { return a >= P - b ? a - (P - b) : a + b; }
static uint64_t sub(uint64_t a, uint64_t b) { return a >= b ? a - b : a + (P - b); }

/* By the rule of the tests: whether enough are in range; and how each is written, one out of range as zeros. */
static void tests_written(PineParam p, const PineRecord *v, PineAnswer a, const uint64_t *m, const uint64_t *r) {
    if ((a.number == PINE_WR_TEST && p.wr_test_rule != PINE_EVERY_TEST) ||
        (a.number == PINE_WR_TESTS_IN_RANGE && (p.wr_test_rule == PINE_EVERY_TEST || a.place >= p.num_wr_successes))) {
        fail("refuses by another rule of the tests");
    }
    if (a.number != 0) {
        return;
    }
    uint64_t b = pine_wr_test_bound(*v), w = v->wr_test_bits, in_range = 0;
    m += v->dimension + 2 * v->sq_norm_bits;
    for (uint64_t t = 0; t < p.num_wr_tests; t++, m += w + 1) {
        uint64_t number = add(r[t], b - 1), yes = number < 2 * b;
        for (uint64_t k = 0; k < w; k++) {
            if (m[k] != (yes ? number >> k & 1 : 0)) {
                fail("gives other bits of a test");
            }
        }
        if (m[w] != (yes && in_range < p.num_wr_successes)) {
            fail("gives another success bit");
        }
        in_range += yes;
    }
    if (in_range < (p.wr_test_rule == PINE_EVERY_TEST ? p.num_wr_tests : p.num_wr_successes)) {
        fail("accepts too few tests in range");
    }
}

/* With the switch on, the squares of the floors' sizes are within the bound, added as whole numbers. */
static void norm_within(PineParam p, PineAnswer a, const uint64_t *m) {
    if (a.number == (p.true_sq_norm == 0 ? PINE_TRUE_SQ_NORM : PINE_SQ_NORM)) {
        fail("refuses the norm by the other rule");
    }
    if (a.number != 0 || p.true_sq_norm == 0) {
        return;
    }
    uint64_t left = p.norm_bound * p.norm_bound;
    for (size_t k = 0; k < p.dimension; k++) {
        uint64_t size = m[k] > P / 2 ? P - m[k] : m[k];
        if (size > p.norm_bound || size * size > left) {
            fail("accepts a true squared norm above its bound");
        }
        left -= size * size;
    }
}

/* With a stream, and with a seed. */
typedef PineAnswer Encode(PineParam param, const double *gradient, size_t gradient_len, const uint8_t *bytes,
                          size_t bytes_len, uint64_t *measurement, size_t measurement_len, uint64_t *results,
                          size_t results_len);
typedef PineAnswer RunWrTests(PineParam param, const uint64_t *gradient, size_t gradient_len, const uint8_t *bytes,
                              size_t bytes_len, uint64_t *results, size_t results_len);
static Encode *const encodes[] = {pine_encode_with_wr_joint_rand, pine_encode_with_wr_joint_rand_seed};
static RunWrTests *const runs[] = {pine_run_wr_tests, pine_run_wr_tests_seed};

/* ---- a report that is cut, and the sampler */

#include "cut_step.h"

/* Cuts it, and gives the shares and the seed. 0 where it is refused. */
static int cut_report(PineParam p, const PineDerived *v, uint64_t *left, uint64_t *right, uint8_t *report_seed) {
    kind = CUT;
    CutRows r = cut_rows(p, v, 1);
    if (cut_checked(p, &r).number != 0) {
        return 0;
    }
    memcpy(left, r.leader, r.n[3] * 8);
    memcpy(right, r.helper, r.n[4] * 8);
    memcpy(report_seed, r.given, PINE_SEED_LEN);
    return 1;
}

/* Encoded with a stream or a seed and cut by hand, or cut here. */
static void report(PineParam p, const PineDerived *v) {
    int cut = once_in(3), seeded = cut || once_in(2);
    size_t d = (size_t)p.dimension, encoded = (size_t)v->pine.encoded_input_len, full = (size_t)v->pine.input_len;
    size_t tests = (size_t)p.num_wr_tests, stream = seeded ? PINE_SEED_LEN : (size_t)v->stream_len;
    uint64_t *measurement = (uint64_t *)malloc(full * 8), *sum = (uint64_t *)malloc(full * 8);
    uint64_t *left = (uint64_t *)malloc(full * 8), *right = (uint64_t *)malloc(full * 8);
    uint8_t *report_stream = (uint8_t *)malloc(stream);
    if (measurement == NULL || sum == NULL || left == NULL || right == NULL || report_stream == NULL) {
        fail("out of memory");
    }
    PineAnswer a;
    if (cut && !cut_report(p, v, left, right, report_stream)) {
        goto done;
    }
    double *gradient = cut ? (double *)(void *)rows[0].at : coordinates(0, d, p, 1);
    uint8_t *s = bytes(1, stream);
    if (cut) {
        memcpy(s, report_stream, stream);
    }
    uint64_t *m = (uint64_t *)place(2, encoded, 8), *r = (uint64_t *)place(3, tests, 8);
    kind = seeded ? ENCODE_SEED : ENCODE;
    TWICE(4, 12, encodes[seeded](p, gradient, d, s, stream, m, encoded, r, tests));
    tests_written(p, &v->pine, a, m, r);
    norm_within(p, a, m);
    if (a.number != 0) {
        if (cut) {
            fail("refuses a gradient with the seed of its cut");
        }
        goto done;
    }
    reports++;
    memcpy(measurement, m, encoded * 8);
    memcpy(measurement + encoded, r, tests * 8);
    memcpy(report_stream, s, stream);
    for (size_t k = 0; !cut && k < encoded; k++) {
        left[k] = element();
        right[k] = sub(measurement[k], left[k]);
    }
    for (int side = 0; side < 2; side++) {
        uint64_t *share = side == 0 ? left : right;
        uint64_t *g = (uint64_t *)place(0, d, 8);
        memcpy(g, share, d * 8);
        s = (uint8_t *)place(1, stream, 1);
        memcpy(s, report_stream, stream);
        r = (uint64_t *)place(2, tests, 8);
        kind = seeded ? RUN_WR_TESTS_SEED : RUN_WR_TESTS;
        TWICE(3, 4, runs[seeded](p, g, d, s, stream, r, tests));
        if (a.number != 0) {
            fail("refuses a share of a report");
        }
        memcpy(share + encoded, r, tests * 8);
    }
    for (size_t k = 0; k < full; k++) {
        sum[k] = add(left[k], right[k]);
    }
    if (memcmp(sum, measurement, full * 8) != 0) {
        kind = seeded ? RUN_WR_TESTS_SEED : RUN_WR_TESTS;
        fail("results of the shares do not add up");
    }
    uint64_t *f = (uint64_t *)place(0, full, 8);
    memcpy(f, sum, full * 8);
    uint64_t *joint = elements(1, 3, 1);
    PineCircuit c;
    kind = VALID;
    CALL(2, 0, c.answer, c = pine_valid(p, 1, f, full, joint, 3));
    if (c.answer.number != 0 || c.value != 0 || c.gadget_calls != v->pine.gadget_calls) {
        fail("is not 0 on a report");
    }
    kind = VALID_EQUAL;
    CALL(1, 0, c.answer, c = pine_valid_sq_norm_equal(p, 1, f, full));
    if (c.answer.number != 0 || c.value != 0 || c.gadget_calls != v->pine.gadget_calls_sq_norm_equal) {
        fail("is not 0 on a report");
    }
    uint64_t *l = (uint64_t *)place(0, d, 8);
    memcpy(l, left, d * 8);
    uint64_t *q = (uint64_t *)place(1, d, 8);
    memcpy(q, right, d * 8);
    double *decoded = (double *)place(2, d, 8);
    kind = UNSHARD;
    TWICE(3, 4, pine_unshard(p, l, d, q, d, decoded, d));
    for (size_t k = 0; k < d; k++) {
        PineDecoded one = pine_field_to_f64(measurement[k], p.frac_bits);
        if (memcmp(&one.value, &decoded[k], 8) != 0) {
            fail("decodes otherwise than field_to_f64");
        }
    }
done:
    free(measurement);
    free(sum);
    free(left);
    free(right);
    free(report_stream);
}

/* ---- a day's file */

#include "file_step.h"

/* ---- one step: a call or a report */

typedef PineAnswer OnTwoRows(PineParam param, uint64_t *agg, size_t agg_len, const uint64_t *other, size_t other_len);

#include "wide_step.h"

static void is_seed(PineAnswer a, size_t n) {
    if (a.number == 0 && n != PINE_SEED_LEN) {
        fail("accepts a seed of another length");
    }
}

static void step(void) {
    PineParam p = any_param();
    PineDerived v = pine_derive(p);
    PineAnswer a;
    if (v.answer.number != 0) {
        /* any lengths: those of other inputs */
        v = pine_derive(param_in_order());
    }
    size_t d = (size_t)v.pine.dimension;
    kind = (enum Kind)below(KINDS + 2);
    if (kind >= CHECK_PARAM128 && kind < KINDS) {
        wide_step(p);
        return;
    }
    switch (kind) {
    case CHECK_PARAM: {
        a = pine_check_param(p);
        count(a);
        equal(a, pine_derive(p).answer);
        break;
    }
    case DERIVE: {
        PineDerived w = pine_derive(p);
        count(w.answer);
        if (w.answer.number != 0) {
            uint64_t words[sizeof w / 8];
            words_of(&w, words);
            for (size_t k = 2; k < sizeof w / 8; k++) {
                if (words[k] != 0) {
                    fail("gives a length beside a refusal");
                }
            }
        } else {
            uint64_t b = pine_wr_test_bound(w.pine), den = p.alpha_denominator;
            uint64_t least = (p.alpha_numerator * p.norm_bound + (den - 1)) / den + 1;
            if (b < least || b / 2 >= least || (b & (b - 1)) != 0) {
                fail("gives another bound than the smallest power of two");
            }
        }
        break;
    }
    case WR_TEST_BOUND: {
        PineRecord r = v.pine;
        if (once_in(2)) {
            r.wr_test_exponent = (uint8_t)below(256);
        }
        uint64_t wanted = r.wr_test_exponent == 0 || r.wr_test_exponent > 63 ? 0 : (uint64_t)1 << r.wr_test_exponent;
        if (pine_wr_test_bound(r) != wanted) {
            fail("is not the power of two");
        }
        a.number = a.place = 0;
        count(a);
        break;
    }
    case F64_TO_FIELD: {
        PineCoordinate c = pine_f64_to_field(any_double(), once_in(8) ? any_number() : below(31));
        count(c.answer);
        if (c.element >= P || (c.answer.number != 0 && c.element != 0)) {
            fail("gives an element that is none");
        }
        break;
    }
    case FIELD_TO_F64: {
        PineDecoded w = pine_field_to_f64(once_in(8) ? any_number() : element(), once_in(8) ? any_number() : below(31));
        count(w.answer);
        if (w.value != w.value || (w.answer.number != 0 && w.value != 0)) {
            fail("gives a double that is none");
        }
        break;
    }
    case ENCODE:
    case ENCODE_SEED: {
        int seeded = kind == ENCODE_SEED;
        size_t n[4] = {near(d, 0), near(seeded ? PINE_SEED_LEN : v.stream_len, 0), near(v.pine.encoded_input_len, 0), near(v.pine.num_wr_tests, 0)};
        double *g = (double *)pointer(coordinates(0, n[0], p, 0), n[0]);
        uint8_t *s = (uint8_t *)pointer(bytes(1, n[1]), n[1]);
        uint64_t *m = (uint64_t *)pointer(place(2, n[2], 8), n[2]), *r = (uint64_t *)pointer(place(3, n[3], 8), n[3]);
        TWICE(4, 12, encodes[seeded](p, g, n[0], s, n[1], m, n[2], r, n[3]));
        if (seeded) {
            is_seed(a, n[1]);
        }
        tests_written(p, &v.pine, a, m, r);
        norm_within(p, a, m);
        if (a.number == 0) {
            all_elements(m, n[2]);
            all_elements(r, n[3]);
        }
        break;
    }
    case RUN_WR_TESTS:
    case RUN_WR_TESTS_SEED: {
        int seeded = kind == RUN_WR_TESTS_SEED;
        size_t n[3] = {near(d, 0), near(seeded ? PINE_SEED_LEN : v.stream_len, 0), near(v.pine.num_wr_tests, 0)};
        uint64_t *g = (uint64_t *)pointer(elements(0, n[0], 0), n[0]);
        uint8_t *s = (uint8_t *)pointer(bytes(1, n[1]), n[1]);
        uint64_t *r = (uint64_t *)pointer(place(2, n[2], 8), n[2]);
        TWICE(3, 4, runs[seeded](p, g, n[0], s, n[1], r, n[2]));
        if (seeded) {
            is_seed(a, n[1]);
        }
        if (a.number == 0) {
            all_elements(r, n[2]);
        }
        break;
    }
    case CUT: {
        cut_step(p, &v);
        break;
    }
    case SAMPLE: {
        sample_step(p, &v);
        break;
    }
    case VALID:
    case VALID_EQUAL: {
        size_t n[2] = {near(v.pine.input_len, 0), near(3, 0)};
        uint64_t shares = once_in(8) ? any_number() : 1 + below(255);
        uint64_t *f = (uint64_t *)pointer(elements(0, n[0], 0), n[0]), *j = (uint64_t *)pointer(elements(1, n[1], 0), n[1]);
        PineCircuit c, w;
        if (kind == VALID) {
            CALL(2, 0, c.answer, c = pine_valid(p, shares, f, n[0], j, n[1]));
            CALL(2, 0, w.answer, w = pine_valid(p, shares, f, n[0], j, n[1]));
        } else {
            CALL(1, 0, c.answer, c = pine_valid_sq_norm_equal(p, shares, f, n[0]));
            CALL(1, 0, w.answer, w = pine_valid_sq_norm_equal(p, shares, f, n[0]));
        }
        if (memcmp(&c, &w, sizeof c) != 0) {
            fail("answers twice otherwise");
        }
        if (c.value >= P || (c.answer.number != 0 && (c.value != 0 || c.gadget_calls != 0))) {
            fail("gives a value that is none");
        }
        if (c.answer.number == 0 &&
            c.gadget_calls != (kind == VALID ? v.pine.gadget_calls : v.pine.gadget_calls_sq_norm_equal)) {
            fail("counts other gadget calls than derived");
        }
        break;
    }
    case GRADIENT_PART:
    case CHECKED_PART:
    case RESULTS_PART: {
        size_t n = near(v.pine.input_len, 0);
        uint64_t *f = (uint64_t *)pointer(elements(0, n, 0), n);
        PinePart part;
        uint64_t start, len;
        if (kind == GRADIENT_PART) {
            start = 0, len = v.pine.dimension;
            CALL(1, 0, part.answer, part = pine_gradient_part(p, f, n));
        } else if (kind == CHECKED_PART) {
            start = v.pine.dimension, len = v.pine.bit_checked_len;
            CALL(1, 0, part.answer, part = pine_checked_part(p, f, n));
        } else {
            start = v.pine.encoded_input_len, len = v.pine.num_wr_tests;
            CALL(1, 0, part.answer, part = pine_results_part(p, f, n));
        }
        if (part.answer.number != 0) {
            start = 0, len = 0;
        }
        if (part.start != start || part.len != len) {
            fail("gives another part");
        }
        break;
    }
    case EMPTY_AGGREGATE: {
        size_t n = near(d, 0);
        uint64_t *r = (uint64_t *)pointer(place(0, n, 8), n);
        TWICE(1, 1, pine_empty_aggregate(p, r, n));
        for (size_t k = 0; a.number == 0 && k < n; k++) {
            if (r[k] != 0) {
                fail("leaves an element");
            }
        }
        break;
    }
    case ACCUMULATE:
    case MERGE:
    case SUBTRACT:
    case UNMERGE: {
        static OnTwoRows *const calls[] = {pine_accumulate, pine_merge, pine_subtract, pine_unmerge};
        int added = kind == ACCUMULATE || kind == MERGE;
        size_t n[2] = {near(d, 0), near(d, 0)};
        uint64_t *g = (uint64_t *)pointer(elements(0, n[0], 0), n[0]), *s = (uint64_t *)pointer(elements(1, n[1], 0), n[1]);
        keep(0);
        keep(1);
        a = calls[kind - ACCUMULATE](p, g, n[0], s, n[1]);
        count(a);
        margin_same(0);
        margin_same(1);
        same(1, "changes a row that it only reads");
        if (a.number != 0) {
            same(0, "is refused and changes a row");
        } else {
            const uint64_t *before = (const uint64_t *)(const void *)rows[0].kept;
            for (size_t k = 0; k < n[0]; k++) {
                if (g[k] != (added ? add(before[k], s[k]) : sub(before[k], s[k]))) {
                    fail("gives another row");
                }
            }
        }
        break;
    }
    case UNSHARD: {
        size_t n[3] = {near(d, 0), near(d, 0), near(d, 0)};
        uint64_t *l = (uint64_t *)pointer(elements(0, n[0], 0), n[0]), *r = (uint64_t *)pointer(elements(1, n[1], 0), n[1]);
        double *o = (double *)pointer(place(2, n[2], 8), n[2]);
        TWICE(3, 4, pine_unshard(p, l, n[0], r, n[1], o, n[2]));
        for (size_t k = 0; a.number == 0 && k < n[2]; k++) {
            if (o[k] != o[k]) {
                fail("gives a NaN");
            }
        }
        break;
    }
    case FILE_READ:
    case FILE_WRITE:
    case FILE_MAX:
    case FILE_ADD:
    case FILE_SIZE: {
        file_step(p, d);
        break;
    }
    case KINDS: {
        p = param_in_order();
        v = pine_derive(p);
        report(p, &v);
        break;
    }
    default:
        wide_report(param_in_order());
    }
}

int main(int argc, char **argv) {
    if (argc != 3) {
        fprintf(stderr, "usage: attack SEED COUNT\n");
        return 2;
    }
    seed = strtoull(argv[1], NULL, 10);
    unsigned long long wanted = strtoull(argv[2], NULL, 10);
    state = (seed + 1) * UINT64_C(0x9e3779b97f4a7c15);
    for (int k = 0; k < 20; k++) {
        draw();
    }
    struct sigaction action;
    memset(&action, 0, sizeof action);
    action.sa_handler = on_signal;
    sigaction(SIGSEGV, &action, NULL);
    sigaction(SIGBUS, &action, NULL);
    sigaction(SIGFPE, &action, NULL);
    sigaction(SIGILL, &action, NULL);
    sigaction(SIGALRM, &action, NULL);
    make_rows();
    for (int i = 0; i < ROWS; i++) {
        given[i] = (unsigned char *)malloc(rows[i].size);
    }
    for (unsigned long long n = 0; made < wanted; n++) {
        if (n % 256 == 0) {
            alarm(PATIENCE);
        }
        step();
    }
    printf("%-30s %10s", "call", "accepted");
    for (unsigned r = 1; r <= LAST_RULE; r++) {
        printf(" %8u", r);
    }
    printf("\n");
    for (int k = 0; k < KINDS; k++) {
        printf("%-30s", names[k]);
        for (unsigned r = 0; r <= LAST_RULE; r++) {
            printf(r == 0 ? " %10llu" : " %8llu", counts[k][r]);
        }
        printf("\n");
    }
    printf("seed %llu: %llu calls, %llu reports cut in two, no fault\n", seed, made, reports);
    return 0;
}
