/* Reports from end to end: a client makes its report, which is a gradient encoded and cut in two; each of two
 * servers, the leader and the helper, runs the wraparound tests on its share and adds it to its aggregate; the
 * two aggregates together give the sum of the gradients. Then a report is withdrawn: each server takes out the
 * share that it added. C11, and C++ as well.
 *
 * The client makes its report on a stack of its own, which is cleared afterwards: own_stack.h.
 *
 * Before it is added, a report is checked on the sum of its two shares. That is for show: whoever adds them up sees
 * the gradient. Servers that must not see it need an FLP proof, which this library leaves to others. */
#include "own_stack.h"
#include "pine.h"

#include <stdio.h>
#include <stdlib.h>
#include <string.h>

enum { DIMENSION = 5, REPORTS = 3, WITHDRAWN = 1 };

static const double gradients[REPORTS][DIMENSION] = {
    {1.5, -2.25, 0.0, 4.0, -0.125},
    {-3.0, 0.5, 8.0, -1.0, 0.25},
    {0.0, 0.75, -6.5, 2.5, -10.0},
};

static void must(PineAnswer answer, const char *call) {
    if (answer.number != PINE_ACCEPTED) {
        fprintf(stderr, "%s: %s (rule %u, place %lu)\n", call, pine_rule_text(answer.number),
                (unsigned)answer.number, (unsigned long)answer.place);
        exit(1);
    }
}

static void *row(uint64_t len, size_t size) {
    void *r = malloc((size_t)len * size);
    if (r == NULL) {
        fputs("out of memory\n", stderr);
        exit(1);
    }
    return r;
}

/* A stand-in. The seeds and the joint randomness of a real report need a cryptographic source: what the servers
 * learn of a gradient, and what a client can feign, depends on it (README.md, "What it is not"). */
static uint64_t state = UINT64_C(0x9e3779b97f4a7c15);

static uint64_t next(void) {
    state ^= state << 13;
    state ^= state >> 7;
    state ^= state << 17;
    return state;
}

static void next_bytes(uint8_t *bytes, size_t len) {
    for (size_t i = 0; i < len; i++) {
        bytes[i] = (uint8_t)(next() >> 56);
    }
}

static uint64_t next_element(void) {
    uint64_t x = next();
    while (x >= PINE_FIELD_MODULUS) {
        x = next();
    }
    return x;
}

/* a + b modulo p */
static uint64_t add(uint64_t a, uint64_t b) {
    return a >= PINE_FIELD_MODULUS - b ? a - (PINE_FIELD_MODULUS - b) : a + b;
}

/* What the client's one call takes, and its answer. */
typedef struct Cut {
    PineParam param;
    const double *gradient;
    const uint8_t *nonce, *seeds;
    uint64_t *leader, *helper;
    size_t encoded_len;
    uint8_t *joint_rand_seeds;
    PineAnswer answer;
} Cut;

static void cut(void *with) {
    Cut *c = (Cut *)with;
    c->answer = pine_cut(c->param, c->gradient, DIMENSION, c->nonce, PINE_NONCE_LEN, c->seeds, PINE_CUT_SEEDS_LEN,
                         c->leader, c->encoded_len, c->helper, c->encoded_len,
                         c->joint_rand_seeds, PINE_JOINT_RAND_SEEDS_LEN);
}

/* The two aggregates added, as doubles. */
static void print_sum(PineParam param, const uint64_t *left, const uint64_t *right) {
    double decoded[DIMENSION];
    must(pine_unshard(param, left, DIMENSION, right, DIMENSION, decoded, DIMENSION), "unshard");
    for (size_t i = 0; i < DIMENSION; i++) {
        printf(" %g", decoded[i]);
    }
}

int main(void) {
    const PineParam param = pine_param_standard(
        /* norm_bound: the largest norm, 16, in units of 2^-frac_bits, of which all coordinates are multiples */ 16 << 8,
        /* dimension */ DIMENSION,
        /* frac_bits */ 8,
        /* chunk_len */ 16,
        /* chunk_len_sq_norm_equal */ 2,
        /* num_wr_tests */ 10,
        /* num_wr_successes */ 10);
    const PineDerived derived = pine_derive(param);
    must(derived.answer, "derive");
    const size_t d = (size_t)param.dimension;
    const size_t encoded_len = (size_t)derived.pine.encoded_input_len;
    const size_t input_len = (size_t)derived.pine.input_len;
    const size_t tests = (size_t)derived.pine.num_wr_tests;

    uint8_t nonce[PINE_NONCE_LEN], seeds[PINE_CUT_SEEDS_LEN], joint_rand_seeds[PINE_JOINT_RAND_SEEDS_LEN];
    uint64_t *full = (uint64_t *)row(input_len, 8);
    void *stack = row(OWN_STACK_LEN, 1);
    /* the leader's and the helper's; a full share is a share of the measurement, then its results */
    uint64_t *share[2], *aggregate[2], *withdrawn[2];
    for (int s = 0; s < 2; s++) {
        share[s] = (uint64_t *)row(input_len, 8);
        aggregate[s] = (uint64_t *)row(d, 8);
        withdrawn[s] = (uint64_t *)row(d, 8);
        must(pine_empty_aggregate(param, aggregate[s], d), "empty_aggregate");
    }

    for (int report = 0; report < REPORTS; report++) {
        /* the client */
        next_bytes(nonce, sizeof nonce);
        next_bytes(seeds, sizeof seeds);
        Cut c = {param,    gradients[report], nonce, seeds, share[0], share[1], encoded_len, joint_rand_seeds,
                 {0, 0}};
        if (on_own_stack(stack, OWN_STACK_LEN, cut, &c) != 0) {
            fputs("no stack of its own\n", stderr);
            return 1;
        }
        explicit_bzero(seeds, sizeof seeds); /* they are of no use any more */
        const PineAnswer answer = c.answer;
        if (answer.number == PINE_WR_TEST || answer.number == PINE_DRAWS) {
            /* rare: a test misses with these seeds; others may do. Clients who let a test miss set
             * num_wr_successes below num_wr_tests and param.wr_test_rule to PINE_ENOUGH_TESTS */
            report--;
            continue;
        }
        must(answer, "cut");

        /* each server, with the seed of the report's tests, which is the first */
        for (int s = 0; s < 2; s++) {
            must(pine_run_wr_tests_seed(param, share[s], d, joint_rand_seeds, PINE_SEED_LEN,
                                        share[s] + encoded_len, tests),
                 "run_wr_tests_seed");
        }

        /* both circuits on the whole vector, hence num_shares 1; in one place for show */
        uint64_t joint_rand[PINE_JOINT_RAND_LEN] = {next_element(), next_element(), next_element()};
        for (size_t i = 0; i < input_len; i++) {
            full[i] = add(share[0][i], share[1][i]);
        }
        PineCircuit valid = pine_valid(param, 1, full, input_len, joint_rand, PINE_JOINT_RAND_LEN);
        must(valid.answer, "valid");
        PineCircuit equal = pine_valid_sq_norm_equal(param, 1, full, input_len);
        must(equal.answer, "valid_sq_norm_equal");
        if (!pine_is_valid(valid) || !pine_is_valid(equal)) {
            fputs("an invalid report\n", stderr);
            return 1;
        }

        /* its share in the sum is the gradient part */
        for (int s = 0; s < 2; s++) {
            PinePart part = pine_gradient_part(param, share[s], input_len);
            must(part.answer, "gradient_part");
            must(pine_accumulate(param, aggregate[s], d, share[s] + part.start, (size_t)part.len),
                 "accumulate");
            if (report == WITHDRAWN) {
                memcpy(withdrawn[s], share[s] + part.start, d * 8);
            }
        }
    }
    printf("the sum of %d gradients:", REPORTS);
    print_sum(param, aggregate[0], aggregate[1]);

    for (int s = 0; s < 2; s++) {
        must(pine_subtract(param, aggregate[s], d, withdrawn[s], d), "subtract");
    }
    printf("; without the second:");
    print_sum(param, aggregate[0], aggregate[1]);
    printf("\n");

    free(full);
    free(stack);
    for (int s = 0; s < 2; s++) {
        free(share[s]);
        free(aggregate[s]);
        free(withdrawn[s]);
    }
    return 0;
}
