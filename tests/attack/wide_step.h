/* Read by attack.c: the calls over Field128, on rows of two words to an element. Checked beside what attack.c checks of
 * every call: a coordinate's element and an element's double are those that are worked out here; sums, differences and
 * refused sums too; a report's tests and true squared norm by the same functions as over Field64, on its numbers made
 * narrow. Every report that is encoded is cut in two by hand, and taken through all the other calls. */

__extension__ typedef unsigned __int128 Wide;

static const Wide P128 = (Wide)PINE128_FIELD_MODULUS_HIGH << 64 | PINE128_FIELD_MODULUS_LOW;

static Wide get(const uint64_t *row, size_t k) { return (Wide)row[2 * k + 1] << 64 | row[2 * k]; }
static void put(uint64_t *row, size_t k, Wide x) {
    row[2 * k] = (uint64_t)x;
    row[2 * k + 1] = (uint64_t)(x >> 64);
}
static Wide wide_of(PineElement128 x) { return (Wide)x.high << 64 | x.low; }
static Wide wide_add(Wide a, Wide b) { return a >= P128 - b ? a - (P128 - b) : a + b; }
static Wide wide_sub(Wide a, Wide b) { return a >= b ? a - b : a + (P128 - b); }

static Wide wide_element(void) {
    uint64_t word = draw() >> below(64);
    switch (below(8)) {
    case 0: return below(2);
    case 1: return P128 - 1 - below(2);
    case 2: return word;
    case 3: return P128 - 1 - word;
    case 4: return UINT64_MAX + (Wide)below(3);
    case 5: return P128 - UINT64_MAX - below(3);
    case 6: return (P128 - 1) / 2 + below(2);
    default: return ((Wide)draw() << 64 | draw()) % P128;
    }
}

/* from p on */
static Wide no_element(void) { return once_in(2) ? P128 + below(3) : ~(Wide)0 - below(1 << 20); }

/* a row of so many words */
static uint64_t *wide_elements(int i, size_t words, int in_order) {
    uint64_t *row = (uint64_t *)place(i, words, 8);
    size_t len = words / 2;
    noise(i);
    for (size_t k = 0; k < len; k++) {
        put(row, k, wide_element());
    }
    while (!in_order && len != 0 && once_in(12)) {
        put(row, once_in(3) ? len - 1 : below(len), no_element());
    }
    return row;
}

/* The first element that is not below p of two rows joined; their number where there is none. */
static uint64_t first_wrong(const uint64_t *left, size_t left_words, const uint64_t *right, size_t right_words) {
    size_t n = left_words / 2, k = 0;
    while (k < n + right_words / 2 && (k < n ? get(left, k) : get(right, k - n)) < P128) {
        k++;
    }
    return k;
}

static void at_place(PineAnswer a, uint64_t place) {
    if (a.number == PINE_ELEMENT && a.place != place) {
        fail("names another element");
    }
}

static void wide_all_elements(const uint64_t *row, size_t words) {
    if (first_wrong(row, words, row, 0) != words / 2) {
        fail("gives an element that is none");
    }
}

/* ---- one number */

/* The answer and the element of a coordinate. */
static void is_coordinate(PineCoordinate128 c, double x, uint64_t frac_bits) {
    uint64_t bits, number = 0;
    Wide wanted = 0;
    memcpy(&bits, &x, 8);
    uint64_t exponent = bits >> 52 & 2047;
    if (frac_bits > 30) {
        number = PINE_FRAC_BITS;
    } else if (exponent == 2047 || (exponent == 0 && bits << 1 != 0)) {
        number = PINE_COORDINATE;
    } else {
        double w = (x < 0 ? -x : x) * (double)(UINT64_C(1) << frac_bits);
        if (w < 18446744073709551616.0) {
            uint64_t size = (uint64_t)w;
            size += x < 0 && (double)size < w;
            wanted = x < 0 && size != 0 ? P128 - size : size;
        } else {
            number = PINE_FLOOR;
        }
    }
    if (c.answer.number != number || c.answer.place != 0 || wide_of(c.element) != wanted) {
        fail("gives another element");
    }
}

/* The answer and the double of an element. */
static void is_decoded(PineDecoded w, Wide y, uint64_t frac_bits) {
    uint64_t number = 0;
    double wanted = 0;
    Wide size = y > P128 / 2 ? P128 - y : y;
    if (frac_bits > 30) {
        number = PINE_FRAC_BITS;
    } else if (y >= P128) {
        number = PINE_ELEMENT;
    } else if (size > UINT64_MAX) {
        number = PINE_SIZE;
    } else {
        wanted = (double)(uint64_t)size / (double)(UINT64_C(1) << frac_bits);
        wanted = y > P128 / 2 ? -wanted : wanted;
    }
    if (w.answer.number != number || w.answer.place != 0 || memcmp(&w.value, &wanted, 8) != 0) {
        fail("gives another double");
    }
}

/* ---- rows */

/* Each sum as field_to_f64 has it, and refused where that refuses one by 23. */
static void is_unsharded(PineParam p, PineAnswer a, const uint64_t *left, const uint64_t *right, const double *decoded, size_t d) {
    for (size_t k = 0; k < d; k++) {
        Wide sum = wide_add(get(left, k), get(right, k));
        PineElement128 y = {(uint64_t)sum, (uint64_t)(sum >> 64)};
        PineDecoded one = pine128_field_to_f64(y, p.frac_bits);
        if (one.answer.number == PINE_SIZE) {
            if (a.number != PINE_SIZE || a.place != k) {
                fail("decodes a sum that is too large, or names another");
            }
            return;
        }
        if (a.number == 0 && memcmp(&one.value, &decoded[k], 8) != 0) {
            fail("decodes otherwise than field_to_f64");
        }
    }
    if (a.number != 0) {
        fail("refuses sums that are not too large");
    }
}

/* A row's numbers as those of Field64, for tests_written and norm_within: far from 0 where they are. */
static uint64_t *narrowed(const uint64_t *row, size_t n) {
    uint64_t *narrow = (uint64_t *)malloc(8 * n + 8);
    if (narrow == NULL) {
        fail("out of memory");
    }
    for (size_t k = 0; k < n; k++) {
        Wide y = get(row, k), size = y > P128 / 2 ? P128 - y : y;
        uint64_t near_0 = size > P / 2 ? P / 2 : (uint64_t)size;
        narrow[k] = y > P128 / 2 ? P - near_0 : near_0;
    }
    return narrow;
}

static void is_encoded(PineParam p, const PineDerived *v, PineAnswer a, const uint64_t *m, const uint64_t *r) {
    size_t encoded = a.number == 0 ? (size_t)v->pine.encoded_input_len : 0, tests = a.number == 0 ? (size_t)p.num_wr_tests : 0;
    wide_all_elements(m, 2 * encoded);
    wide_all_elements(r, 2 * tests);
    uint64_t *narrow_m = narrowed(m, encoded), *narrow_r = narrowed(r, tests);
    tests_written(p, &v->pine, a, narrow_m, narrow_r);
    norm_within(p, a, narrow_m);
    free(narrow_m);
    free(narrow_r);
}

/* ---- a report, from end to end */

/* the words of a row, placed as row i */
static uint64_t *placed(int i, const uint64_t *row, size_t words) {
    uint64_t *at = (uint64_t *)place(i, words, 8);
    memcpy(at, row, 8 * words);
    return at;
}

/* Both circuits are 0 on a report's whole vector. */
static void wide_circuits(PineParam p, const PineDerived *v, const uint64_t *whole) {
    size_t full = pine128_words(v->pine.input_len);
    uint64_t *f = placed(0, whole, full), *joint = wide_elements(1, 6, 1);
    PineCircuit128 c;
    kind = VALID128;
    CALL(2, 0, c.answer, c = pine128_valid(p, 1, f, full, joint, 6));
    if (!pine128_is_valid(c) || c.gadget_calls != v->pine.gadget_calls) {
        fail("is not 0 on a report");
    }
    kind = VALID_EQUAL128;
    CALL(1, 0, c.answer, c = pine128_valid_sq_norm_equal(p, 1, f, full));
    if (!pine128_is_valid(c) || c.gadget_calls != v->pine.gadget_calls_sq_norm_equal) {
        fail("is not 0 on a report");
    }
}

static void wide_report(PineParam p) {
    p.norm_bound = once_in(4) ? PINE128_MAX_NORM_BOUND - below(2) : p.norm_bound;
    PineDerived v = pine128_derive(p);
    size_t d = (size_t)p.dimension, encoded = pine128_words(v.pine.encoded_input_len);
    size_t full = pine128_words(v.pine.input_len), tests = pine128_words(p.num_wr_tests), stream = (size_t)v.stream_len;
    uint64_t *whole = (uint64_t *)malloc(8 * full), *shares[2] = {(uint64_t *)malloc(8 * full), (uint64_t *)malloc(8 * full)};
    uint8_t *report_stream = (uint8_t *)malloc(stream);
    if (whole == NULL || shares[0] == NULL || shares[1] == NULL || report_stream == NULL) {
        fail("out of memory");
    }
    PineAnswer a;
    double *gradient = coordinates(0, d, p, 1);
    uint8_t *s = bytes(1, stream);
    uint64_t *m = (uint64_t *)place(2, encoded, 8), *r = (uint64_t *)place(3, tests, 8);
    kind = ENCODE128;
    TWICE(4, 12, pine128_encode_with_wr_joint_rand(p, gradient, d, s, stream, m, encoded, r, tests));
    is_encoded(p, &v, a, m, r);
    if (a.number == 0) {
        reports++;
        memcpy(whole, m, 8 * encoded);
        memcpy(whole + encoded, r, 8 * tests);
        memcpy(report_stream, s, stream);
        for (size_t k = 0; k < encoded / 2; k++) {
            put(shares[0], k, wide_element());
            put(shares[1], k, wide_sub(get(whole, k), get(shares[0], k)));
        }
        kind = RUN_WR_TESTS128;
        for (int side = 0; side < 2; side++) {
            uint64_t *g = placed(0, shares[side], 2 * d);
            s = (uint8_t *)place(1, stream, 1);
            memcpy(s, report_stream, stream);
            r = (uint64_t *)place(2, tests, 8);
            TWICE(3, 4, pine128_run_wr_tests(p, g, 2 * d, s, stream, r, tests));
            if (a.number != 0) {
                fail("refuses a share of a report");
            }
            memcpy(shares[side] + encoded, r, 8 * tests);
        }
        for (size_t k = encoded / 2; k < full / 2; k++) {
            if (wide_add(get(shares[0], k), get(shares[1], k)) != get(whole, k)) {
                fail("results of the shares do not add up");
            }
        }
        wide_circuits(p, &v, whole);
        uint64_t *l = placed(0, shares[0], 2 * d), *q = placed(1, shares[1], 2 * d);
        double *decoded = (double *)place(2, d, 8);
        kind = UNSHARD128;
        TWICE(3, 4, pine128_unshard(p, l, 2 * d, q, 2 * d, decoded, d));
        if (a.number != 0) {
            fail("refuses the sums of a report");
        }
        is_unsharded(p, a, l, q, decoded, d);
    }
    free(whole);
    free(shares[0]);
    free(shares[1]);
    free(report_stream);
}

/* ---- one step: a call */

static void wide_step(PineParam p) {
    p.norm_bound = once_in(16) ? PINE128_MAX_NORM_BOUND - 1 + below(3) : p.norm_bound;
    PineDerived v = pine128_derive(p);
    PineAnswer a;
    if (v.answer.number != 0) {
        /* any lengths: those of other inputs */
        v = pine128_derive(param_in_order());
    }
    size_t d = (size_t)v.pine.dimension, tests = (size_t)v.pine.num_wr_tests;
    switch (kind) {
    case CHECK_PARAM128:
    case DERIVE128: {
        PineDerived w = pine128_derive(p), narrow = pine_derive(p);
        uint64_t words[2][sizeof w / 8];
        a = pine128_check_param(p);
        count(a);
        equal(a, w.answer);
        words_of(&w, words[0]);
        words_of(&narrow, words[1]);
        /* the fields differ in the norm bound's limit alone */
        if (p.norm_bound <= PINE_MAX_NORM_BOUND && memcmp(words[0], words[1], sizeof w) != 0) {
            fail("derives otherwise than over Field64");
        }
        if ((p.norm_bound - 1 >= PINE128_MAX_NORM_BOUND && a.number != PINE_NUM_WR_SUCCESSES) != (a.number == PINE_NORM_BOUND)) {
            fail("has another limit of the norm bound");
        }
        break;
    }
    case F64_TO_FIELD128: {
        double x = any_double();
        uint64_t frac_bits = once_in(8) ? any_number() : below(31);
        PineCoordinate128 c = pine128_f64_to_field(x, frac_bits);
        count(c.answer);
        is_coordinate(c, x, frac_bits);
        break;
    }
    case FIELD_TO_F64128: {
        Wide y = once_in(8) ? no_element() : wide_element();
        uint64_t frac_bits = once_in(8) ? any_number() : below(31);
        PineElement128 of_words = {(uint64_t)y, (uint64_t)(y >> 64)};
        PineDecoded w = pine128_field_to_f64(of_words, frac_bits);
        count(w.answer);
        is_decoded(w, y, frac_bits);
        break;
    }
    case ENCODE128: {
        size_t n[4] = {near(d, 0), near(v.stream_len, 0), near(pine128_words(v.pine.encoded_input_len), 0), near(2 * tests, 0)};
        double *g = (double *)pointer(coordinates(0, n[0], p, 0), n[0]);
        uint8_t *s = (uint8_t *)pointer(bytes(1, n[1]), n[1]);
        uint64_t *m = (uint64_t *)pointer(place(2, n[2], 8), n[2]), *r = (uint64_t *)pointer(place(3, n[3], 8), n[3]);
        TWICE(4, 12, pine128_encode_with_wr_joint_rand(p, g, n[0], s, n[1], m, n[2], r, n[3]));
        is_encoded(p, &v, a, m, r);
        break;
    }
    case RUN_WR_TESTS128: {
        size_t n[3] = {near(2 * d, 0), near(v.stream_len, 0), near(2 * tests, 0)};
        uint64_t *g = (uint64_t *)pointer(wide_elements(0, n[0], 0), n[0]);
        uint8_t *s = (uint8_t *)pointer(bytes(1, n[1]), n[1]);
        uint64_t *r = (uint64_t *)pointer(place(2, n[2], 8), n[2]);
        TWICE(3, 4, pine128_run_wr_tests(p, g, n[0], s, n[1], r, n[2]));
        at_place(a, first_wrong(g, n[0], g, 0));
        if (a.number == 0) {
            wide_all_elements(r, n[2]);
        }
        break;
    }
    case VALID128:
    case VALID_EQUAL128: {
        int main_one = kind == VALID128;
        size_t n[2] = {near(pine128_words(v.pine.input_len), 0), near(6, 0)};
        uint64_t shares = once_in(8) ? any_number() : 1 + below(255);
        uint64_t *f = (uint64_t *)pointer(wide_elements(0, n[0], 0), n[0]), *j = (uint64_t *)pointer(wide_elements(1, n[1], 0), n[1]);
        PineCircuit128 c, w;
        if (main_one) {
            CALL(2, 0, c.answer, c = pine128_valid(p, shares, f, n[0], j, n[1]));
            CALL(2, 0, w.answer, w = pine128_valid(p, shares, f, n[0], j, n[1]));
        } else {
            CALL(1, 0, c.answer, c = pine128_valid_sq_norm_equal(p, shares, f, n[0]));
            CALL(1, 0, w.answer, w = pine128_valid_sq_norm_equal(p, shares, f, n[0]));
        }
        at_place(c.answer, first_wrong(f, n[0], j, main_one ? n[1] : 0));
        if (memcmp(&c, &w, sizeof c) != 0) {
            fail("answers twice otherwise");
        }
        if (wide_of(c.value) >= P128 || (c.answer.number != 0 && (wide_of(c.value) != 0 || c.gadget_calls != 0))) {
            fail("gives a value that is none");
        }
        if (c.answer.number == 0 && c.gadget_calls != (main_one ? v.pine.gadget_calls : v.pine.gadget_calls_sq_norm_equal)) {
            fail("counts other gadget calls than derived");
        }
        break;
    }
    case EMPTY_AGGREGATE128: {
        size_t n = near(2 * d, 0);
        uint64_t *r = (uint64_t *)pointer(place(0, n, 8), n);
        TWICE(1, 1, pine128_empty_aggregate(p, r, n));
        for (size_t k = 0; a.number == 0 && k < n; k++) {
            if (r[k] != 0) {
                fail("leaves an element");
            }
        }
        break;
    }
    case ACCUMULATE128:
    case MERGE128:
    case SUBTRACT128:
    case UNMERGE128: {
        static OnTwoRows *const calls[] = {pine128_accumulate, pine128_merge, pine128_subtract, pine128_unmerge};
        int added = kind == ACCUMULATE128 || kind == MERGE128;
        size_t n[2] = {near(2 * d, 0), near(2 * d, 0)};
        uint64_t *g = (uint64_t *)pointer(wide_elements(0, n[0], 0), n[0]), *s = (uint64_t *)pointer(wide_elements(1, n[1], 0), n[1]);
        keep(0);
        keep(1);
        a = calls[kind - ACCUMULATE128](p, g, n[0], s, n[1]);
        count(a);
        margin_same(0);
        margin_same(1);
        same(1, "changes a row that it only reads");
        if (a.number != 0) {
            same(0, "is refused and changes a row");
            at_place(a, first_wrong(g, n[0], s, n[1]));
        } else if (n[0] != 2 * d || n[1] != 2 * d) {
            fail("accepts a row of another length");
        } else {
            const uint64_t *before = (const uint64_t *)(const void *)rows[0].kept;
            for (size_t k = 0; k < n[0] / 2; k++) {
                Wide x = get(before, k), y = get(s, k);
                if (get(g, k) != (added ? wide_add(x, y) : wide_sub(x, y))) {
                    fail("gives another row");
                }
            }
        }
        break;
    }
    default: { /* UNSHARD128 */
        size_t n[3] = {near(2 * d, 0), near(2 * d, 0), near(d, 0)};
        uint64_t *l = (uint64_t *)pointer(wide_elements(0, n[0], 0), n[0]), *r = (uint64_t *)pointer(wide_elements(1, n[1], 0), n[1]);
        /* few sums too large, or none */
        for (size_t k = 0; k < n[0] / 2 && k < n[1] / 2; k++) {
            Wide x = get(l, k), small = once_in(200) ? UINT64_MAX + (Wide)1 : draw() >> below(64);
            if (x < P128 && get(r, k) < P128) {
                put(r, k, wide_sub(once_in(2) ? small : P128 - 1 - small, x));
            }
        }
        double *o = (double *)pointer(place(2, n[2], 8), n[2]);
        TWICE(3, 4, pine128_unshard(p, l, n[0], r, n[1], o, n[2]));
        at_place(a, first_wrong(l, n[0], r, n[1]));
        if (a.number == 0 || a.number == PINE_SIZE) {
            is_unsharded(p, a, l, r, o, d);
        }
        break;
    }
    }
}
