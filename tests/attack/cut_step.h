/* Read by attack.c: a report that is cut, and the sampler. Checked: the shares add up to the encoding with the seed
 * given; the helper's share depends on its seed alone; a gradient is refused as in encoding; the sampler's answer and
 * share are those that are worked out here from its stream. */

/* A stream to draw from: about as many of its values are not below p as may be skipped, or few. */
static uint8_t *values(int i, size_t len) {
    uint8_t *row = bytes(i, len);
    size_t n = len / 8, skipped = once_in(2) ? PINE_MORE_DRAWS - 1 + below(3) : below(8);
    size_t from = n > skipped ? below(n - skipped + 1) : 0;
    for (size_t k = from; k < n && k < from + skipped; k++) {
        uint64_t x = once_in(2) ? P + below(3) : UINT64_MAX - below(1 << 20);
        memcpy(row + 8 * k, &x, 8);
    }
    return row;
}

static void sampled(size_t share_len, PineAnswer a, const uint8_t *stream, const uint64_t *share) {
    size_t found = 0;
    for (size_t k = 0; k < share_len + PINE_MORE_DRAWS && found < share_len; k++) {
        uint64_t x = 0;
        for (size_t i = 8; i-- != 0;) {
            x = x << 8 | stream[8 * k + i];
        }
        if (x < P) {
            if (a.number == 0 && share[found] != x) {
                fail("gives another value than the next below p");
            }
            found++;
        }
    }
    if ((a.number == PINE_DRAWS) != (found < share_len)) {
        fail("draws more or fewer values than it may");
    }
}

static void sample_step(PineParam p, const PineDerived *v) {
    PineAnswer a;
    size_t encoded = (size_t)v->pine.encoded_input_len;
    size_t n[2] = {near(8 * (encoded + PINE_MORE_DRAWS), 0), near(encoded, 0)};
    uint8_t *stream = (uint8_t *)pointer(values(0, n[0]), n[0]);
    uint64_t *share = (uint64_t *)pointer(place(1, n[1], 8), n[1]);
    TWICE(2, 2, pine_sample(p, stream, n[0], share, n[1]));
    if (a.number == 0 || a.number == PINE_DRAWS) {
        sampled(n[1], a, stream, share);
    }
}

/* The rows of pine_cut, in their order. */
typedef struct {
    size_t n[6];
    const double *gradient;
    const uint8_t *nonce, *seeds;
    uint64_t *leader, *helper;
    uint8_t *given;
} CutRows;

static CutRows cut_rows(PineParam p, const PineDerived *v, int in_order) {
    CutRows r;
    r.n[0] = near(v->pine.dimension, in_order), r.n[1] = near(PINE_NONCE_LEN, in_order);
    r.n[2] = near(PINE_CUT_SEEDS_LEN, in_order), r.n[3] = near(v->pine.encoded_input_len, in_order);
    r.n[4] = near(v->pine.encoded_input_len, in_order), r.n[5] = near(PINE_JOINT_RAND_SEEDS_LEN, in_order);
    r.gradient = (double *)pointer(coordinates(0, r.n[0], p, in_order), r.n[0]);
    r.nonce = (uint8_t *)pointer(bytes(1, r.n[1]), r.n[1]);
    r.seeds = (uint8_t *)pointer(bytes(2, r.n[2]), r.n[2]);
    r.leader = (uint64_t *)pointer(place(3, r.n[3], 8), r.n[3]);
    r.helper = (uint64_t *)pointer(place(4, r.n[4], 8), r.n[4]);
    r.given = (uint8_t *)pointer(place(5, r.n[5], 1), r.n[5]);
    return r;
}

static PineAnswer cut_of(PineParam p, const CutRows *r, const double *gradient) {
    return pine_cut(p, gradient, r->n[0], r->nonce, r->n[1], r->seeds, r->n[2], r->leader, r->n[3], r->helper, r->n[4],
                    r->given, r->n[5]);
}

/* By encoding with the seed given, or with any where the call is refused. */
static void adds_up(PineParam p, const CutRows *r, PineAnswer a) {
    static const uint8_t any[PINE_SEED_LEN];
    size_t encoded = r->n[3], tests = (size_t)p.num_wr_tests;
    uint64_t *whole = (uint64_t *)malloc((encoded + tests) * 8);
    if (whole == NULL) {
        fail("out of memory");
    }
    PineAnswer b = pine_encode_with_wr_joint_rand_seed(p, r->gradient, r->n[0], a.number == 0 ? r->given : any,
                                                       PINE_SEED_LEN, whole, encoded, whole + encoded, tests);
    if (a.number == 0 || (a.number != PINE_DRAWS && a.number != PINE_WR_TEST && a.number != PINE_WR_TESTS_IN_RANGE)) {
        if (a.number != b.number || a.place != b.place) {
            fail("answers otherwise than encoding");
        }
    }
    for (size_t k = 0; a.number == 0 && k < encoded; k++) {
        if (add(r->leader[k], r->helper[k]) != whole[k]) {
            fail("gives shares that do not add up to the encoding with the seed given");
        }
    }
    free(whole);
}

/* The same first seed makes the same helper's share, with another gradient, nonce and blinds. */
static void helper_alone(PineParam p, const CutRows *r) {
    double *zeros = (double *)calloc(r->n[0], 8);
    uint64_t *helper = (uint64_t *)malloc(r->n[4] * 8);
    if (zeros == NULL || helper == NULL) {
        fail("out of memory");
    }
    memcpy(helper, r->helper, r->n[4] * 8);
    for (size_t k = 0; k < PINE_NONCE_LEN; k++) {
        rows[1].at[k] ^= 0x5a;
    }
    for (size_t k = PINE_SEED_LEN; k < PINE_CUT_SEEDS_LEN; k++) {
        rows[2].at[k] ^= 0xa5;
    }
    if (cut_of(p, r, zeros).number != 0) {
        fail("refuses a gradient of zeros");
    }
    if (memcmp(helper, r->helper, r->n[4] * 8) != 0) {
        fail("gives a helper's share that depends on more than its seed");
    }
    free(zeros);
    free(helper);
}

/* What pine_cut gives of these rows, checked. */
static PineAnswer cut_checked(PineParam p, const CutRows *r) {
    PineAnswer a;
    TWICE(6, 56, cut_of(p, r, r->gradient));
    if (a.number == 0) {
        if (r->n[1] != PINE_NONCE_LEN || r->n[2] != PINE_CUT_SEEDS_LEN || r->n[5] != PINE_JOINT_RAND_SEEDS_LEN) {
            fail("accepts a row of another length");
        }
        all_elements(r->leader, r->n[3]);
        all_elements(r->helper, r->n[4]);
    }
    if (a.number == 0 || (a.number >= PINE_COORDINATE && a.number != PINE_ALPHA)) {
        adds_up(p, r, a);
    }
    return a;
}

static void cut_step(PineParam p, const PineDerived *v) {
    CutRows r = cut_rows(p, v, 0);
    if (cut_checked(p, &r).number == 0 && once_in(4)) {
        helper_alone(p, &r);
    }
}
