/* The calls of libpine_c.a with their rows, which of these hold secrets, and inputs that are accepted. A call more is a
 * function beside its like, a line in calls, and its rows, if they are new, in enum, make_rows and fill_rows. */
#include "pine.h"

#include <math.h>
#include <stdio.h>
#include <stdlib.h>
#include <string.h>

#define P PINE_FIELD_MODULUS

/* ---- numbers drawn, the same in every run */

static uint64_t drawn = 88172645463325252u;

static uint64_t draw(void) {
    drawn ^= drawn << 13, drawn ^= drawn >> 7, drawn ^= drawn << 17;
    return drawn * 0x2545f4914f6cdd1du;
}

static double draw_part(void) { return (double)(draw() >> 11) / 9007199254740992.0; } /* of 1 */
static double draw_sign(void) { return draw() & 1 ? -1 : 1; }
static uint64_t draw_element(void) { return draw() % P; }
static uint64_t sub(uint64_t a, uint64_t b) { return a >= b ? a - b : a + (P - b); }

__extension__ typedef unsigned __int128 Wide;
#define P128 ((Wide)PINE128_FIELD_MODULUS_HIGH << 64 | PINE128_FIELD_MODULUS_LOW)

static Wide draw_wide(void) { return ((Wide)draw() << 64 | draw()) % P128; }
static Wide wide_sub(Wide a, Wide b) { return a >= b ? a - b : a + (P128 - b); }

/* ---- the rows: those of a public case are made once, those with secrets are filled for each call */

enum {
    GRADIENT, STREAM, SEED, MEASUREMENT, RESULTS, SHARE, AGGREGATE, OTHER, FULL, JOINT_RAND, DECODED, CONTENTS, BODIES,
    OLD_FILE, NEW_FILE, KEYS, COORDINATE, ELEMENT, NONCE, SEEDS, LEADER, HELPER, TWO_SEEDS, DRAWS, SAMPLED,
    /* over Field128, in words */
    WIDE_GRADIENT, WIDE_MEASUREMENT, WIDE_RESULTS, WIDE_SHARE, WIDE_AGGREGATE, WIDE_OTHER, WIDE_FULL, WIDE_JOINT_RAND,
    WIDE_ELEMENT, ROWS
};
static const char *const row_names[] = {
    "gradient", "stream", "seed", "measurement", "results", "share", "aggregate", "other", "full", "joint_rand",
    "decoded", "contents", "bodies", "file", "file", "keys", "coordinate", "element", "nonce", "seeds", "leader",
    "helper", "given", "stream", "sampled", "gradient", "measurement", "results", "share", "aggregate", "other", "full",
    "joint_rand", "element",
};
static struct {
    uint8_t *at;
    size_t len;  /* in bytes */
    size_t from; /* what comes before is public */
} row[ROWS];

#define DOUBLES(r) ((double *)(void *)row[r].at)
#define WORDS(r) ((uint64_t *)(void *)row[r].at)
#define BYTES(r) row[r].at
#define LEN8(r) (row[r].len / 8)

static Wide get(int r, size_t i) { return (Wide)WORDS(r)[2 * i + 1] << 64 | WORDS(r)[2 * i]; }
static void put(int r, size_t i, Wide x) {
    WORDS(r)[2 * i] = (uint64_t)x;
    WORDS(r)[2 * i + 1] = (uint64_t)(x >> 64);
}

static PineParam param;
static PineDerived derived;
static uint64_t num_shares;
enum { ENTRIES = 3 };

/* ---- the calls */

/* What the last call gave, where it lay, and the vector registers behind it. Nothing is called in between, so that the
 * stack below stays as the call left it. */
static uint64_t given[32], vectors[64] __attribute__((aligned(16)));
static uintptr_t given_at;
static size_t given_len;
#define GIVES(type, call) \
    type gives = call; \
    __asm__ volatile("fxsave %0" : "=m"(vectors)); \
    given_at = (uintptr_t)&gives, given_len = sizeof gives; \
    memcpy(given, &gives, sizeof gives)

static void check_param(void) { GIVES(PineAnswer, pine_check_param(param)); }
static void derive(void) { GIVES(PineDerived, pine_derive(param)); }
static void wr_test_bound(void) {
    GIVES(uint64_t, pine_wr_test_bound(derived.pine));
    given[0] = PINE_ACCEPTED; /* it has no answer */
}
static void f64_to_field(void) {
    GIVES(PineCoordinate, pine_f64_to_field(*DOUBLES(COORDINATE), param.frac_bits));
}
static void field_to_f64(void) { GIVES(PineDecoded, pine_field_to_f64(*WORDS(ELEMENT), param.frac_bits)); }
static void encode(void) {
    GIVES(PineAnswer, pine_encode_with_wr_joint_rand(param, DOUBLES(GRADIENT), LEN8(GRADIENT), BYTES(STREAM),
                                                      row[STREAM].len, WORDS(MEASUREMENT), LEN8(MEASUREMENT),
                                                      WORDS(RESULTS), LEN8(RESULTS)));
}
static void encode_seed(void) {
    GIVES(PineAnswer, pine_encode_with_wr_joint_rand_seed(param, DOUBLES(GRADIENT), LEN8(GRADIENT), BYTES(SEED),
                                                           row[SEED].len, WORDS(MEASUREMENT), LEN8(MEASUREMENT),
                                                           WORDS(RESULTS), LEN8(RESULTS)));
}
static void run_wr_tests(void) {
    GIVES(PineAnswer, pine_run_wr_tests(param, WORDS(SHARE), LEN8(SHARE), BYTES(STREAM), row[STREAM].len,
                                         WORDS(RESULTS), LEN8(RESULTS)));
}
static void run_wr_tests_seed(void) {
    GIVES(PineAnswer, pine_run_wr_tests_seed(param, WORDS(SHARE), LEN8(SHARE), BYTES(SEED), row[SEED].len,
                                              WORDS(RESULTS), LEN8(RESULTS)));
}
static void cut(void) {
    GIVES(PineAnswer, pine_cut(param, DOUBLES(GRADIENT), LEN8(GRADIENT), BYTES(NONCE), row[NONCE].len, BYTES(SEEDS),
                                row[SEEDS].len, WORDS(LEADER), LEN8(LEADER), WORDS(HELPER), LEN8(HELPER),
                                BYTES(TWO_SEEDS), row[TWO_SEEDS].len));
}
static void sample(void) {
    GIVES(PineAnswer, pine_sample(param, BYTES(DRAWS), row[DRAWS].len, WORDS(SAMPLED), LEN8(SAMPLED)));
}
static void valid(void) {
    GIVES(PineCircuit, pine_valid(param, num_shares, WORDS(FULL), LEN8(FULL), WORDS(JOINT_RAND), LEN8(JOINT_RAND)));
}
static void valid_sq_norm_equal(void) {
    GIVES(PineCircuit, pine_valid_sq_norm_equal(param, num_shares, WORDS(FULL), LEN8(FULL)));
}
static void gradient_part(void) { GIVES(PinePart, pine_gradient_part(param, WORDS(FULL), LEN8(FULL))); }
static void checked_part(void) { GIVES(PinePart, pine_checked_part(param, WORDS(FULL), LEN8(FULL))); }
static void results_part(void) { GIVES(PinePart, pine_results_part(param, WORDS(FULL), LEN8(FULL))); }
static void empty_aggregate(void) {
    GIVES(PineAnswer, pine_empty_aggregate(param, WORDS(AGGREGATE), LEN8(AGGREGATE)));
}
static void accumulate(void) {
    GIVES(PineAnswer, pine_accumulate(param, WORDS(AGGREGATE), LEN8(AGGREGATE), WORDS(SHARE), LEN8(SHARE)));
}
static void merge(void) {
    GIVES(PineAnswer, pine_merge(param, WORDS(AGGREGATE), LEN8(AGGREGATE), WORDS(OTHER), LEN8(OTHER)));
}
static void subtract(void) {
    GIVES(PineAnswer, pine_subtract(param, WORDS(AGGREGATE), LEN8(AGGREGATE), WORDS(SHARE), LEN8(SHARE)));
}
static void unmerge(void) {
    GIVES(PineAnswer, pine_unmerge(param, WORDS(AGGREGATE), LEN8(AGGREGATE), WORDS(OTHER), LEN8(OTHER)));
}
static void unshard(void) {
    GIVES(PineAnswer, pine_unshard(param, WORDS(AGGREGATE), LEN8(AGGREGATE), WORDS(OTHER), LEN8(OTHER),
                                    DOUBLES(DECODED), LEN8(DECODED)));
}
static void file_read(void) {
    GIVES(PineAnswer, pine_file_read(param, BYTES(OLD_FILE), row[OLD_FILE].len, BYTES(CONTENTS), row[CONTENTS].len,
                                      WORDS(BODIES), LEN8(BODIES)));
}
static void file_write(void) {
    GIVES(PineAnswer, pine_file_write(param, ENTRIES, BYTES(CONTENTS), row[CONTENTS].len, WORDS(BODIES), LEN8(BODIES),
                                       BYTES(OLD_FILE), row[OLD_FILE].len));
}
static void file_max(void) { GIVES(PineFileLen, pine_file_max(param, 7)); }
static PineFileLen add_report(uint16_t valve) {
    static const uint8_t address[6] = {2, 4, 6, 8, 10, 12};
    return pine_file_add(param, pine_file_key(address, valve), BYTES(OLD_FILE), row[OLD_FILE].len, WORDS(SHARE),
                         LEN8(SHARE), BYTES(NEW_FILE), row[NEW_FILE].len);
}
static void file_add(void) { GIVES(PineFileLen, add_report(2)); }     /* to an entry that is there */
static void file_add_new(void) { GIVES(PineFileLen, add_report(9)); } /* to a new one */
static void file_size(void) { GIVES(PineFileLen, pine_file_size(param, BYTES(KEYS), row[KEYS].len)); }

static void wide_check_param(void) { GIVES(PineAnswer, pine128_check_param(param)); }
static void wide_derive(void) { GIVES(PineDerived, pine128_derive(param)); }
static void wide_f64_to_field(void) {
    GIVES(PineCoordinate128, pine128_f64_to_field(*DOUBLES(COORDINATE), param.frac_bits));
}
static void wide_field_to_f64(void) {
    PineElement128 y = {WORDS(WIDE_ELEMENT)[0], WORDS(WIDE_ELEMENT)[1]};
    GIVES(PineDecoded, pine128_field_to_f64(y, param.frac_bits));
}
static void wide_encode(void) {
    GIVES(PineAnswer, pine128_encode_with_wr_joint_rand(param, DOUBLES(WIDE_GRADIENT), LEN8(WIDE_GRADIENT),
                                                         BYTES(STREAM), row[STREAM].len, WORDS(WIDE_MEASUREMENT),
                                                         LEN8(WIDE_MEASUREMENT), WORDS(WIDE_RESULTS),
                                                         LEN8(WIDE_RESULTS)));
}
static void wide_run_wr_tests(void) {
    GIVES(PineAnswer, pine128_run_wr_tests(param, WORDS(WIDE_SHARE), LEN8(WIDE_SHARE), BYTES(STREAM), row[STREAM].len,
                                            WORDS(WIDE_RESULTS), LEN8(WIDE_RESULTS)));
}
static void wide_valid(void) {
    GIVES(PineCircuit128, pine128_valid(param, num_shares, WORDS(WIDE_FULL), LEN8(WIDE_FULL), WORDS(WIDE_JOINT_RAND),
                                         LEN8(WIDE_JOINT_RAND)));
}
static void wide_valid_sq_norm_equal(void) {
    GIVES(PineCircuit128, pine128_valid_sq_norm_equal(param, num_shares, WORDS(WIDE_FULL), LEN8(WIDE_FULL)));
}
static void wide_empty_aggregate(void) {
    GIVES(PineAnswer, pine128_empty_aggregate(param, WORDS(WIDE_AGGREGATE), LEN8(WIDE_AGGREGATE)));
}
static void wide_accumulate(void) {
    GIVES(PineAnswer, pine128_accumulate(param, WORDS(WIDE_AGGREGATE), LEN8(WIDE_AGGREGATE), WORDS(WIDE_SHARE),
                                          LEN8(WIDE_SHARE)));
}
static void wide_merge(void) {
    GIVES(PineAnswer, pine128_merge(param, WORDS(WIDE_AGGREGATE), LEN8(WIDE_AGGREGATE), WORDS(WIDE_OTHER),
                                     LEN8(WIDE_OTHER)));
}
static void wide_subtract(void) {
    GIVES(PineAnswer, pine128_subtract(param, WORDS(WIDE_AGGREGATE), LEN8(WIDE_AGGREGATE), WORDS(WIDE_SHARE),
                                        LEN8(WIDE_SHARE)));
}
static void wide_unmerge(void) {
    GIVES(PineAnswer, pine128_unmerge(param, WORDS(WIDE_AGGREGATE), LEN8(WIDE_AGGREGATE), WORDS(WIDE_OTHER),
                                       LEN8(WIDE_OTHER)));
}
static void wide_unshard(void) {
    GIVES(PineAnswer, pine128_unshard(param, WORDS(WIDE_AGGREGATE), LEN8(WIDE_AGGREGATE), WORDS(WIDE_OTHER),
                                       LEN8(WIDE_OTHER), DOUBLES(DECODED), LEN8(DECODED)));
}

#define BIT(r) (UINT64_C(1) << (r))

static const struct {
    const char *name;
    void (*call)(void);
    uint64_t secret;  /* the rows with secrets that it reads */
    uint64_t written; /* those that it writes */
    int times;        /* a call on one number is made so many times as often */
} calls[] = {
    {"check_param", check_param, 0, 0, 1},
    {"derive", derive, 0, 0, 1},
    {"wr_test_bound", wr_test_bound, 0, 0, 1},
    {"f64_to_field", f64_to_field, BIT(COORDINATE), 0, 40},
    {"field_to_f64", field_to_f64, BIT(ELEMENT), 0, 40},
    {"encode_with_wr_joint_rand", encode, BIT(GRADIENT), BIT(MEASUREMENT) | BIT(RESULTS), 1},
    {"encode_with_wr_joint_rand_seed", encode_seed, BIT(GRADIENT) | BIT(SEED), BIT(MEASUREMENT) | BIT(RESULTS), 1},
    {"run_wr_tests", run_wr_tests, BIT(SHARE), BIT(RESULTS), 1},
    {"run_wr_tests_seed", run_wr_tests_seed, BIT(SHARE) | BIT(SEED), BIT(RESULTS), 1},
    {"cut", cut, BIT(GRADIENT) | BIT(SEEDS), BIT(LEADER) | BIT(HELPER) | BIT(TWO_SEEDS), 1},
    {"sample", sample, BIT(DRAWS), BIT(SAMPLED), 1},
    {"valid", valid, BIT(FULL), 0, 1},
    {"valid_sq_norm_equal", valid_sq_norm_equal, BIT(FULL), 0, 1},
    {"gradient_part", gradient_part, BIT(FULL), 0, 1},
    {"checked_part", checked_part, BIT(FULL), 0, 1},
    {"results_part", results_part, BIT(FULL), 0, 1},
    {"empty_aggregate", empty_aggregate, 0, BIT(AGGREGATE), 1},
    {"accumulate", accumulate, BIT(AGGREGATE) | BIT(SHARE), BIT(AGGREGATE), 1},
    {"merge", merge, BIT(AGGREGATE) | BIT(OTHER), BIT(AGGREGATE), 1},
    {"subtract", subtract, BIT(AGGREGATE) | BIT(SHARE), BIT(AGGREGATE), 1},
    {"unmerge", unmerge, BIT(AGGREGATE) | BIT(OTHER), BIT(AGGREGATE), 1},
    {"unshard", unshard, BIT(AGGREGATE) | BIT(OTHER), BIT(DECODED), 1},
    {"file_write", file_write, BIT(BODIES), BIT(OLD_FILE), 1},
    {"file_read", file_read, BIT(OLD_FILE), BIT(CONTENTS) | BIT(BODIES), 1},
    {"file_max", file_max, 0, 0, 1},
    {"file_add", file_add, BIT(OLD_FILE) | BIT(SHARE), BIT(NEW_FILE), 1},
    {"file_add(new)", file_add_new, BIT(OLD_FILE) | BIT(SHARE), BIT(NEW_FILE), 1},
    {"file_size", file_size, 0, 0, 1},
    {"128_check_param", wide_check_param, 0, 0, 1},
    {"128_derive", wide_derive, 0, 0, 1},
    {"128_f64_to_field", wide_f64_to_field, BIT(COORDINATE), 0, 40},
    {"128_field_to_f64", wide_field_to_f64, BIT(WIDE_ELEMENT), 0, 40},
    {"128_encode_with_wr_joint_rand", wide_encode, BIT(WIDE_GRADIENT), BIT(WIDE_MEASUREMENT) | BIT(WIDE_RESULTS), 1},
    {"128_run_wr_tests", wide_run_wr_tests, BIT(WIDE_SHARE), BIT(WIDE_RESULTS), 1},
    {"128_valid", wide_valid, BIT(WIDE_FULL), 0, 1},
    {"128_valid_sq_norm_equal", wide_valid_sq_norm_equal, BIT(WIDE_FULL), 0, 1},
    {"128_empty_aggregate", wide_empty_aggregate, 0, BIT(WIDE_AGGREGATE), 1},
    {"128_accumulate", wide_accumulate, BIT(WIDE_AGGREGATE) | BIT(WIDE_SHARE), BIT(WIDE_AGGREGATE), 1},
    {"128_merge", wide_merge, BIT(WIDE_AGGREGATE) | BIT(WIDE_OTHER), BIT(WIDE_AGGREGATE), 1},
    {"128_subtract", wide_subtract, BIT(WIDE_AGGREGATE) | BIT(WIDE_SHARE), BIT(WIDE_AGGREGATE), 1},
    {"128_unmerge", wide_unmerge, BIT(WIDE_AGGREGATE) | BIT(WIDE_OTHER), BIT(WIDE_AGGREGATE), 1},
    {"128_unshard", wide_unshard, BIT(WIDE_AGGREGATE) | BIT(WIDE_OTHER), BIT(DECODED), 1},
};
enum { CALLS = sizeof calls / sizeof *calls };

/* ---- the public cases: all that may be known */

static const struct {
    uint64_t d, t, k, norm_bound, frac_bits;
    uint16_t alpha[2];
    uint8_t rule, true_sq_norm;
    int long_form; /* not in the short form */
} cases[] = {
    {5, 3, 3, 1u << 20, 8, {87, 10}, PINE_EVERY_TEST, 0, 0},
    {16, 10, 9, 1u << 20, 15, {87, 10}, PINE_EVERY_TEST, 1, 0},
    {33, 10, 2, 3037000499u, 0, {1, 10}, PINE_ENOUGH_TESTS, 0, 0},
    {33, 10, 0, 3037000499u, 0, {1, 10}, PINE_ENOUGH_TESTS, 0, 0}, /* any number of tests may miss */
    {33, 10, 0, 3037000499u, 30, {87, 10}, PINE_ENOUGH_TESTS, 1, 0},
    {65, 256, 200, 1u << 20, 8, {87, 10}, PINE_ENOUGH_TESTS, 1, 0},
    {600, 3, 3, 1u << 26, 8, {87, 10}, PINE_EVERY_TEST, 0, 0},
    {600, 40, 10, 1u << 26, 8, {1, 2}, PINE_ENOUGH_TESTS, 0, 0},
    {4200, 20, 20, 1u << 26, 8, {87, 10}, PINE_EVERY_TEST, 1, 0}, /* a seed's tests go by tiles */
    {1, 1, 0, 3037000499u, 0, {87, 10}, PINE_ENOUGH_TESTS, 0, 1},
    {64, 6, 6, 1u << 20, 8, {87, 10}, PINE_EVERY_TEST, 0, 1},
    {333, 3, 3, 1u << 26, 8, {87, 10}, PINE_EVERY_TEST, 0, 1}, /* the longest that an encoding does not wipe */
    {159, 10, 10, 1u << 26, 8, {87, 10}, PINE_EVERY_TEST, 0, 1}, /* that tests on a lent stream do not */
    {499, 10, 10, 1u << 26, 8, {87, 10}, PINE_EVERY_TEST, 0, 1}, /* that tests from a seed do not */
    {1027, 100, 100, 1u << 30, 20, {87, 10}, PINE_EVERY_TEST, 0, 1},
    {4300, 256, 200, 1u << 30, 15, {87, 10}, PINE_ENOUGH_TESTS, 0, 1},
    {65536, 5, 5, 1u << 30, 15, {87, 10}, PINE_EVERY_TEST, 1, 1},
};
enum { CASES = sizeof cases / sizeof *cases };

/* Kinds of secret values: of a gradient; of shares, aggregates and bodies. */
enum {
    MIXED,    /* every kind of small number; random elements */
    ZERO,     /* zeros of either sign; 0 */
    POSITIVE, /* none below 0; small numbers */
    TINY,     /* near the subnormal; p - 1 */
    LARGE,    /* near the norm's bound; a report's own elements */
    FAR,      /* some from 2^50 on, their squares cancelling modulo p; near p */
    NONZERO,  /* either sign; beside (p - 1) / 2 */
    KINDS
};

static void make_row(int r, size_t len, size_t from) {
    free(row[r].at);
    row[r].at = (uint8_t *)calloc(len, 1), row[r].len = len, row[r].from = from;
    if (row[r].at == NULL) {
        abort();
    }
    for (size_t i = 0; i < len; i++) {
        row[r].at[i] = (uint8_t)(draw() >> 56);
    }
}

/* Makes the rows of a case, and fills those that hold no secrets. */
static void make_rows(int c) {
    size_t d = cases[c].d, head = PINE_FILE_HEADER_LEN + ENTRIES * PINE_FILE_ENTRY_LEN;
    param = pine_param_standard(cases[c].norm_bound, d, cases[c].frac_bits, d < 100 ? 16 : 150, 7, cases[c].t,
                                cases[c].k);
    param.alpha_numerator = cases[c].alpha[0], param.alpha_denominator = cases[c].alpha[1];
    param.wr_test_rule = cases[c].rule, param.true_sq_norm = cases[c].true_sq_norm;
    num_shares = c % 3 == 0 ? 1 : c % 3 == 1 ? 2 : 255;
    derived = pine_derive(param);
    if (derived.answer.number != PINE_ACCEPTED) {
        fprintf(stderr, "case %d is refused by rule %d\n", c, (int)derived.answer.number);
        exit(2);
    }
    drawn = 88172645463325252u + (uint64_t)c;
    make_row(GRADIENT, 8 * d, 0);
    make_row(STREAM, derived.stream_len, 0);
    make_row(SEED, PINE_SEED_LEN, 0);
    make_row(MEASUREMENT, 8 * derived.pine.encoded_input_len, 0);
    make_row(RESULTS, 8 * cases[c].t, 0);
    make_row(SHARE, 8 * d, 0), make_row(AGGREGATE, 8 * d, 0), make_row(OTHER, 8 * d, 0), make_row(DECODED, 8 * d, 0);
    make_row(FULL, 8 * derived.pine.input_len, 0);
    make_row(JOINT_RAND, 8 * PINE_JOINT_RAND_LEN, 0);
    make_row(CONTENTS, ENTRIES * PINE_FILE_ENTRY_LEN, 0);
    make_row(BODIES, 8 * ENTRIES * d, 0);
    make_row(OLD_FILE, head + 8 * ENTRIES * d, head);
    make_row(NEW_FILE, row[OLD_FILE].len + PINE_FILE_ENTRY_LEN + 8 * d, head);
    make_row(KEYS, 10 * PINE_FILE_KEY_LEN, 0);
    make_row(COORDINATE, 8, 0), make_row(ELEMENT, 8, 0);
    make_row(NONCE, PINE_NONCE_LEN, 0), make_row(SEEDS, PINE_CUT_SEEDS_LEN, 0);
    make_row(LEADER, row[MEASUREMENT].len, 0), make_row(HELPER, row[MEASUREMENT].len, 0);
    make_row(TWO_SEEDS, PINE_JOINT_RAND_SEEDS_LEN, 0);
    make_row(DRAWS, row[MEASUREMENT].len + 8 * PINE_MORE_DRAWS, 0), make_row(SAMPLED, row[MEASUREMENT].len, 0);
    make_row(WIDE_GRADIENT, 8 * d, 0), make_row(WIDE_ELEMENT, 16, 0);
    make_row(WIDE_SHARE, 16 * d, 0), make_row(WIDE_AGGREGATE, 16 * d, 0), make_row(WIDE_OTHER, 16 * d, 0);
    make_row(WIDE_MEASUREMENT, 16 * derived.pine.encoded_input_len, 0), make_row(WIDE_RESULTS, 16 * cases[c].t, 0);
    make_row(WIDE_FULL, 16 * derived.pine.input_len, 0), make_row(WIDE_JOINT_RAND, 16 * PINE_JOINT_RAND_LEN, 0);
    for (size_t i = 0; i < PINE_JOINT_RAND_LEN; i++) {
        WORDS(JOINT_RAND)[i] = draw_element();
        put(WIDE_JOINT_RAND, i, draw_wide());
    }
    for (int i = 0; i < ENTRIES; i++) { /* of the address 2, 4, .., 12: valves 1 to 3 */
        uint8_t entry[PINE_FILE_ENTRY_LEN] = {2, 4, 6, 8, 10, 12, (uint8_t)(1 + i), 0, 5, 0, 0, 0};
        memcpy(BYTES(CONTENTS) + PINE_FILE_ENTRY_LEN * i, entry, sizeof entry);
    }
}

/* A coordinate, in units of 1 / scale; each is what all d may be with the norm in its bound. */
static double coordinate_of(int kind, double each) {
    double part = draw_part(), sign = draw_sign();
    switch (kind) {
    case ZERO: return draw() & 1 ? 0.0 : -0.0;
    case POSITIVE: return 0.001 + part * each;
    case TINY: return sign * 2.2250738585072014e-308 * (1 + part);
    case LARGE: return sign * each * (0.5 + part / 2);
    case FAR: return floor(sign * part * each / 4);
    case NONZERO: return sign * (0.001 + part * each / 2);
    default: break;
    }
    switch (draw() % 7) {
    case 0: return 0;
    case 1: return -0.0;
    case 2: return sign * floor(part * 8);
    case 3: return sign * part;
    case 4: return sign * each * part;
    case 5: return sign / 3;
    default: return sign * 1e-300 * (1 + part);
    }
}

/* Of the row r; in the kind FAR some have these floors, the squares of which cancel modulo the field's p. */
static void fill_gradient(int r, int kind, const double *floors, size_t n) {
    size_t d = LEN8(r);
    double scale = derived.pine.scale, *x = DOUBLES(r);
    double each = 0.9 * (double)param.norm_bound / scale / sqrt((double)d);
    for (size_t i = 0; i < d; i++) {
        x[i] = coordinate_of(kind, each);
    }
    if (kind == FAR && d > 8) {
        size_t at = draw() % (d - 8);
        for (size_t i = 0; i < n; i++) {
            x[at + i] = floors[i] / scale;
        }
        x[at] += draw() & 1 ? 0.25 / scale : 0; /* floors still */
        x[at + 4] += draw() & 1 ? 0.25 / scale : 0;
    }
}

/* 2^96 = -1 modulo p, so these squares cancel: 2^50 and 4, 2^62 and 2^14, 5 * 2^48 and 5. */
static const double far_floors[] = {1125899906842624.0, 4, -4611686018427387904.0, 16384, -1407374883553280.0, 5};

/* The sum of their squares is 3396 above p of Field128. */
static const double wide_floors[] = {-18446744073709549568.0, 273936771704.0, -490954, 943};

static uint64_t element_of(int kind, uint64_t own) {
    switch (kind) {
    case ZERO: return 0;
    case POSITIVE: return draw() & 0xffff;
    case TINY: return P - 1;
    case LARGE: return own;
    case FAR: return P - 1 - (draw() >> (draw() & 1 ? 48 : 20));
    case NONZERO: return (P - 1) / 2 - 2 + draw() % 5;
    default: return draw_element();
    }
}

/* One double whose floor is in the field's limits, near them too; the last two in those of Field128 alone. */
static double number_of(int kind, double scale) {
    static const double edges[] = {
        0.0, 1.0, 0.3, 1e-300, 2.2250738585072014e-308, 4503599627370496.0, 4503599627370497.0, 1125899906842624.0,
        1125899906842623.75, 1125899906842624.25, 2251799813685248.5, 1e5, 123456.789, 1e15, 1e17, 1.5e18,
        9223372034707292160.0, 9223372034707291136.0, 8.5e18, 1.2e19, 18446744073709549568.0};
    double edge = edges[draw() % (sizeof edges / sizeof *edges)];
    switch (kind) {
    case LARGE: return draw_sign() * edge / scale;
    case FAR: return draw_sign() * ldexp(draw_part(), 62) / scale;
    default: return coordinate_of(kind, ldexp(1, (int)(draw() % 49))) / scale;
    }
}

static Wide wide_element_of(int kind, Wide own) {
    switch (kind) {
    case ZERO: return 0;
    case POSITIVE: return draw() & 0xffff;
    case TINY: return P128 - 1;
    case LARGE: return own;
    case FAR: return P128 - 1 - (draw() >> (draw() & 1 ? 48 : 1));
    case NONZERO: return (P128 - 1) / 2 - 2 + draw() % 5;
    default: return draw_wide();
    }
}

/* One that can be decoded: a word or less, of either sign. */
static Wide wide_number(void) {
    Wide size = draw() >> draw() % 64;
    return draw() & 1 ? wide_sub(0, size) : size;
}

/* The rows over Field128, as fill_rows has those over Field64. */
static void fill_wide(int kind, uint64_t rows) {
    size_t d = LEN8(WIDE_GRADIENT), measured = LEN8(WIDE_MEASUREMENT) / 2;
    if (kind == LARGE || (rows & BIT(WIDE_GRADIENT))) {
        fill_gradient(WIDE_GRADIENT, kind, wide_floors, 4);
    }
    if (kind == LARGE) {
        wide_encode();
    }
    int encoded = kind == LARGE && given[0] == PINE_ACCEPTED;
    for (size_t i = 0; (kind == LARGE || (rows & BIT(WIDE_FULL))) && i < LEN8(WIDE_FULL) / 2; i++) {
        Wide own = i < measured ? get(WIDE_MEASUREMENT, i) : get(WIDE_RESULTS, i - measured);
        put(WIDE_FULL, i, wide_element_of(kind, encoded ? own : draw_wide()));
    }
    for (size_t i = 0; i < d; i++) {
        Wide own = get(WIDE_FULL, i) % P128;
        put(WIDE_SHARE, i, wide_element_of(kind, own));
        put(WIDE_AGGREGATE, i, wide_element_of(kind, own));
        /* sums that can be decoded */
        put(WIDE_OTHER, i, kind == MIXED || kind == LARGE ? wide_sub(wide_number(), get(WIDE_AGGREGATE, i)) : wide_element_of(kind, own));
    }
    put(WIDE_ELEMENT, 0, kind == MIXED || kind == NONZERO ? wide_number() : wide_element_of(kind, wide_number()));
}

/* The values that sample draws from: of two kinds some are not below p, as many as may be skipped. */
static void fill_draws(int kind) {
    size_t skipped = 0;
    for (size_t i = 0; i < LEN8(DRAWS); i++) {
        int over = (kind == LARGE || kind == FAR) && skipped < PINE_MORE_DRAWS && draw() % 8 == 0;
        WORDS(DRAWS)[i] = over ? P + (draw() >> 32) % (0 - P) : element_of(kind, draw_element());
        skipped += (size_t)over;
    }
}

/* Fills the rows with secrets that a call reads with values of a kind. A seed is of no kind. */
static void fill_rows(int kind, uint64_t rows) {
    static const int of_elements[] = {SHARE, AGGREGATE, OTHER, BODIES};
    size_t d = LEN8(GRADIENT), measured = LEN8(MEASUREMENT);
    if (kind == LARGE || (rows & BIT(GRADIENT))) {
        fill_gradient(GRADIENT, kind, far_floors, 6);
    }
    for (size_t i = 0; i < row[SEED].len; i++) {
        BYTES(SEED)[i] = (uint8_t)(draw() >> 56);
    }
    for (size_t i = 0; (rows & BIT(SEEDS)) && i < row[SEEDS].len; i++) {
        BYTES(SEEDS)[i] = (uint8_t)(draw() >> 56);
    }
    if (rows & BIT(DRAWS)) {
        fill_draws(kind);
    }
    if (kind == LARGE) {
        encode();
    }
    if (kind == LARGE || (rows & BIT(FULL))) {
        int encoded = kind == LARGE && given[0] == PINE_ACCEPTED;
        for (size_t i = 0; i < LEN8(FULL); i++) {
            uint64_t own = i < measured ? WORDS(MEASUREMENT)[i] : WORDS(RESULTS)[i - measured];
            WORDS(FULL)[i] = element_of(kind, encoded ? own : draw_element());
        }
    }
    if (rows & BIT(OLD_FILE)) {
        rows |= BIT(BODIES);
    }
    for (size_t k = 0; k < sizeof of_elements / sizeof *of_elements; k++) {
        for (size_t i = 0; (rows & BIT(of_elements[k])) && i < LEN8(of_elements[k]); i++) {
            uint64_t sum = draw() & 0xffffff; /* of two aggregates, in every other place */
            int by_sum = kind == MIXED && of_elements[k] == OTHER && i % 2;
            WORDS(of_elements[k])[i] = by_sum ? sub(sum, WORDS(AGGREGATE)[i]) : element_of(kind, WORDS(FULL)[i % d]);
        }
    }
    if (rows & BIT(OLD_FILE)) {
        file_write();
        if (given[0] != PINE_ACCEPTED) {
            fprintf(stderr, "a file is refused\n");
            exit(2);
        }
    }
    *DOUBLES(COORDINATE) = number_of(kind, derived.pine.scale);
    *WORDS(ELEMENT) = element_of(kind, WORDS(FULL)[0] % P);
    if (rows >> WIDE_GRADIENT != 0) {
        fill_wide(kind, rows);
    }
}
