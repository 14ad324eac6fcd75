/* Faults that the driver has to find: each stands between it and one call (-DFAULT=N, ld's --wrap). */
#include "pine.h"

PineAnswer __real_pine_unshard(PineParam p, const uint64_t *l, size_t ln, const uint64_t *r, size_t rn, double *o, size_t on);
PineAnswer __wrap_pine_unshard(PineParam p, const uint64_t *l, size_t ln, const uint64_t *r, size_t rn, double *o, size_t on);
PineAnswer __real_pine_accumulate(PineParam p, uint64_t *g, size_t gn, const uint64_t *s, size_t sn);
PineAnswer __wrap_pine_accumulate(PineParam p, uint64_t *g, size_t gn, const uint64_t *s, size_t sn);
PineAnswer __real_pine_subtract(PineParam p, uint64_t *g, size_t gn, const uint64_t *s, size_t sn);
PineAnswer __wrap_pine_subtract(PineParam p, uint64_t *g, size_t gn, const uint64_t *s, size_t sn);
PineAnswer __real_pine_empty_aggregate(PineParam p, uint64_t *r, size_t n);
PineAnswer __wrap_pine_empty_aggregate(PineParam p, uint64_t *r, size_t n);

PineAnswer __real_pine_check_param(PineParam p);
PineAnswer __wrap_pine_check_param(PineParam p);
PineDerived __real_pine_derive(PineParam p);
PineDerived __wrap_pine_derive(PineParam p);
PineAnswer __real_pine_encode_with_wr_joint_rand(PineParam p, const double *g, size_t gn, const uint8_t *s, size_t sn,
                                                 uint64_t *m, size_t mn, uint64_t *r, size_t rn);
PineAnswer __wrap_pine_encode_with_wr_joint_rand(PineParam p, const double *g, size_t gn, const uint8_t *s, size_t sn,
                                                 uint64_t *m, size_t mn, uint64_t *r, size_t rn);

PineAnswer __real_pine_run_wr_tests_seed(PineParam p, const uint64_t *g, size_t gn, const uint8_t *s, size_t sn,
                                         uint64_t *r, size_t rn);
PineAnswer __wrap_pine_run_wr_tests_seed(PineParam p, const uint64_t *g, size_t gn, const uint8_t *s, size_t sn,
                                         uint64_t *r, size_t rn);

/* 1: reads past a row; 2: reads before a row; 3: decodes what the row held before */
PineAnswer __wrap_pine_unshard(PineParam p, const uint64_t *l, size_t ln, const uint64_t *r, size_t rn, double *o, size_t on) {
    if (FAULT == 1 && ln != 0) {
        (void)((const volatile uint64_t *)l)[ln];
    }
    if (FAULT == 2 && ln != 0) {
        (void)((const volatile uint64_t *)l)[-1];
    }
    double before = on == 0 ? 0 : o[0];
    PineAnswer a = __real_pine_unshard(p, l, ln, r, rn, o, on);
    if (FAULT == 3 && a.number == 0) {
        o[0] = before;
    }
    return a;
}

/* 4: changes the aggregate though it refuses; 5: leaves it though it accepts; 6: adds to the share */
PineAnswer __wrap_pine_accumulate(PineParam p, uint64_t *g, size_t gn, const uint64_t *s, size_t sn) {
    uint64_t before = gn == 0 ? 0 : g[0];
    PineAnswer a = __real_pine_accumulate(p, g, gn, s, sn);
    if (FAULT == 4 && a.number != 0 && gn != 0) {
        g[0] = before + 1;
    }
    if (FAULT == 5 && a.number == 0) {
        g[0] = before;
    }
    if (FAULT == 6 && a.number == 0) {
        ((uint64_t *)(uintptr_t)s)[0] = g[0];
    }
    return a;
}

/* 7: writes one element more; 8: does not return */
PineAnswer __wrap_pine_empty_aggregate(PineParam p, uint64_t *r, size_t n) {
    PineAnswer a = __real_pine_empty_aggregate(p, r, n);
    if (FAULT == 7 && a.number == 0) {
        r[n] = 0;
    }
    while (FAULT == 8 && a.number == 0) {
    }
    return a;
}

/* 9: adds what it is to take out */
PineAnswer __wrap_pine_subtract(PineParam p, uint64_t *g, size_t gn, const uint64_t *s, size_t sn) {
    return FAULT == 9 ? __real_pine_accumulate(p, g, gn, s, sn) : __real_pine_subtract(p, g, gn, s, sn);
}

/* 10: lets a denominator of 0 pass */
PineAnswer __wrap_pine_check_param(PineParam p) {
    if (FAULT == 10 && p.alpha_denominator == 0) {
        p.alpha_denominator = 1;
    }
    return __real_pine_check_param(p);
}

/* 11: a bound that is always 87 / 10 of the norm bound */
PineDerived __wrap_pine_derive(PineParam p) {
    PineDerived v = __real_pine_derive(p);
    if (FAULT == 11 && v.answer.number == 0) {
        p.alpha_numerator = 87;
        p.alpha_denominator = 10;
        v = __real_pine_derive(p);
    }
    return v;
}

/* 12: reads every rule of the tests but 1 as 0; 13: gives the last test the success bit of the first; 14: ignores the
 * switch; 15: the same of every byte but 1; 16: of a gradient that is accepted without it */
PineAnswer __wrap_pine_encode_with_wr_joint_rand(PineParam p, const double *g, size_t gn, const uint8_t *s, size_t sn,
                                                 uint64_t *m, size_t mn, uint64_t *r, size_t rn) {
    if (FAULT == 12) {
        p.wr_test_rule = p.wr_test_rule == 1;
    }
    if (FAULT == 14 || (FAULT == 15 && p.true_sq_norm != 1)) {
        p.true_sq_norm = 0;
    }
    PineAnswer a = __real_pine_encode_with_wr_joint_rand(p, g, gn, s, sn, m, mn, r, rn);
    if (FAULT == 16 && a.number == PINE_TRUE_SQ_NORM) {
        p.true_sq_norm = 0;
        PineAnswer off = __real_pine_encode_with_wr_joint_rand(p, g, gn, s, sn, m, mn, r, rn);
        a = off.number == 0 ? off : a;
    }
    if (FAULT == 13 && a.number == 0) {
        PineRecord v = __real_pine_derive(p).pine;
        m[mn - 1] = m[v.dimension + 2 * v.sq_norm_bits + v.wr_test_bits];
    }
    return a;
}

PineFileLen __real_pine_file_add(PineParam p, PineFileKey key, const uint8_t *old, size_t on, const uint64_t *s, size_t sn,
                                 uint8_t *second, size_t n);
PineFileLen __wrap_pine_file_add(PineParam p, PineFileKey key, const uint8_t *old, size_t on, const uint64_t *s, size_t sn,
                                 uint8_t *second, size_t n);
PineFileLen __real_pine_file_size(PineParam p, const uint8_t *keys, size_t n);
PineFileLen __wrap_pine_file_size(PineParam p, const uint8_t *keys, size_t n);
PineAnswer __real_pine_file_read(PineParam p, const uint8_t *f, size_t fn, uint8_t *c, size_t cn, uint64_t *b, size_t bn);
PineAnswer __wrap_pine_file_read(PineParam p, const uint8_t *f, size_t fn, uint8_t *c, size_t cn, uint64_t *b, size_t bn);

/* 17: zeros past the new file; 18: takes keys that differ in the valve's high byte for one; 19: counts a report twice */
PineFileLen __wrap_pine_file_add(PineParam p, PineFileKey key, const uint8_t *old, size_t on, const uint64_t *s, size_t sn,
                                 uint8_t *second, size_t n) {
    if (FAULT == 18) {
        key.bytes[7] = 0;
    }
    PineFileLen given = __real_pine_file_add(p, key, old, on, s, sn, second, n);
    if (FAULT == 17 && given.answer.number == 0) {
        for (size_t k = (size_t)given.len; k < n; k++) {
            second[k] = 0;
        }
    }
    if (FAULT == 19 && given.answer.number == 0) {
        second[6 + 8]++;
    }
    return given;
}

/* 20: repeated keys counted twice */
PineFileLen __wrap_pine_file_size(PineParam p, const uint8_t *keys, size_t n) {
    PineFileLen given = __real_pine_file_size(p, keys, n);
    if (FAULT == 20 && given.answer.number == 0) {
        given.len = 6 + n / 8 * (12 + 8 * p.dimension);
    }
    return given;
}

/* 21: reads the bodies in the opposite order */
PineAnswer __wrap_pine_file_read(PineParam p, const uint8_t *f, size_t fn, uint8_t *c, size_t cn, uint64_t *b, size_t bn) {
    PineAnswer a = __real_pine_file_read(p, f, fn, c, cn, b, bn);
    for (size_t k = 0; FAULT == 21 && a.number == 0 && k < bn / 2; k++) {
        uint64_t x = b[k];
        b[k] = b[bn - 1 - k];
        b[bn - 1 - k] = x;
    }
    return a;
}

/* 22: takes the first bytes of a longer seed; 23: takes another seed than was given */
PineAnswer __wrap_pine_run_wr_tests_seed(PineParam p, const uint64_t *g, size_t gn, const uint8_t *s, size_t sn,
                                         uint64_t *r, size_t rn) {
    static const uint8_t other[PINE_SEED_LEN];
    if (FAULT == 22 && sn > PINE_SEED_LEN) {
        sn = PINE_SEED_LEN;
    }
    return __real_pine_run_wr_tests_seed(p, g, gn, FAULT == 23 && sn == PINE_SEED_LEN ? other : s, sn, r, rn);
}

PineAnswer __real_pine_cut(PineParam p, const double *g, size_t gn, const uint8_t *nonce, size_t nn, const uint8_t *s,
                           size_t sn, uint64_t *l, size_t ln, uint64_t *h, size_t hn, uint8_t *given, size_t n);
PineAnswer __wrap_pine_cut(PineParam p, const double *g, size_t gn, const uint8_t *nonce, size_t nn, const uint8_t *s,
                           size_t sn, uint64_t *l, size_t ln, uint64_t *h, size_t hn, uint8_t *given, size_t n);
PineAnswer __real_pine_sample(PineParam p, const uint8_t *s, size_t sn, uint64_t *share, size_t n);
PineAnswer __wrap_pine_sample(PineParam p, const uint8_t *s, size_t sn, uint64_t *share, size_t n);

/* 24: swaps the shares; 25: takes the difference the other way round; 26: gives the two seeds swapped; 27: writes the
 * helper's share before the tests are found out of range; 28: takes the first bytes of longer seeds */
PineAnswer __wrap_pine_cut(PineParam p, const double *g, size_t gn, const uint8_t *nonce, size_t nn, const uint8_t *s,
                           size_t sn, uint64_t *l, size_t ln, uint64_t *h, size_t hn, uint8_t *given, size_t n) {
    if (FAULT == 28 && sn > PINE_CUT_SEEDS_LEN) {
        sn = PINE_CUT_SEEDS_LEN;
    }
    PineAnswer a = FAULT == 24 ? __real_pine_cut(p, g, gn, nonce, nn, s, sn, h, hn, l, ln, given, n)
                               : __real_pine_cut(p, g, gn, nonce, nn, s, sn, l, ln, h, hn, given, n);
    for (size_t k = 0; FAULT == 25 && a.number == 0 && k < ln; k++) {
        l[k] = l[k] == 0 ? 0 : PINE_FIELD_MODULUS - l[k];
    }
    for (size_t k = 0; FAULT == 26 && a.number == 0 && k < PINE_SEED_LEN; k++) {
        uint8_t x = given[k];
        given[k] = given[PINE_SEED_LEN + k];
        given[PINE_SEED_LEN + k] = x;
    }
    if (FAULT == 27 && a.number == PINE_WR_TEST) {
        h[0]++;
    }
    return a;
}

/* 29: keeps a value equal to p; 30: one draw too few; 31: high byte first; 32: one draw too many, for what it skips at
 * the end */
PineAnswer __wrap_pine_sample(PineParam p, const uint8_t *s, size_t sn, uint64_t *share, size_t n) {
    PineAnswer a = __real_pine_sample(p, s, sn, share, n);
    size_t found = 0, from = 0;
    for (size_t k = 0; (a.number == 0 || a.number == PINE_DRAWS) && k < sn / 8 && found < n; k++) {
        uint64_t x = 0, high_first = 0;
        for (size_t i = 0; i < 8; i++) {
            x |= (uint64_t)s[8 * k + i] << 8 * i;
            high_first = high_first << 8 | s[8 * k + i];
        }
        if (x < PINE_FIELD_MODULUS || (FAULT == 29 && x == PINE_FIELD_MODULUS)) {
            if (a.number == 0 && (FAULT == 29 || FAULT == 31)) {
                share[found] = FAULT == 31 ? high_first : x;
            }
            found++, from = k;
        }
    }
    if (FAULT == 30 && a.number == 0 && from + 1 == sn / 8) {
        a.number = PINE_DRAWS;
    }
    if (FAULT == 32 && a.number == PINE_DRAWS && found + 1 == n) {
        a.number = 0;
    }
    return a;
}

PineAnswer __real_pine128_accumulate(PineParam p, uint64_t *g, size_t gn, const uint64_t *s, size_t sn);
PineAnswer __wrap_pine128_accumulate(PineParam p, uint64_t *g, size_t gn, const uint64_t *s, size_t sn);
PineDecoded __real_pine128_field_to_f64(PineElement128 y, uint64_t frac_bits);
PineDecoded __wrap_pine128_field_to_f64(PineElement128 y, uint64_t frac_bits);
PineAnswer __real_pine128_unshard(PineParam p, const uint64_t *l, size_t ln, const uint64_t *r, size_t rn, double *o, size_t on);
PineAnswer __wrap_pine128_unshard(PineParam p, const uint64_t *l, size_t ln, const uint64_t *r, size_t rn, double *o, size_t on);

/* 33: leaves a last word without its second; 34: names a word, not an element */
PineAnswer __wrap_pine128_accumulate(PineParam p, uint64_t *g, size_t gn, const uint64_t *s, size_t sn) {
    PineAnswer a = FAULT == 33 ? __real_pine128_accumulate(p, g, gn / 2 * 2, s, sn / 2 * 2)
                               : __real_pine128_accumulate(p, g, gn, s, sn);
    if (FAULT == 34 && a.number == PINE_ELEMENT) {
        a.place *= 2;
    }
    return a;
}

/* 35: reads the high word first */
PineDecoded __wrap_pine128_field_to_f64(PineElement128 y, uint64_t frac_bits) {
    PineElement128 swapped = {y.high, y.low};
    return __real_pine128_field_to_f64(FAULT == 35 ? swapped : y, frac_bits);
}

/* 36: sums too large are 0; 37: names the element after the one that is too large */
PineAnswer __wrap_pine128_unshard(PineParam p, const uint64_t *l, size_t ln, const uint64_t *r, size_t rn, double *o, size_t on) {
    PineAnswer a = __real_pine128_unshard(p, l, ln, r, rn, o, on);
    if (FAULT == 36 && a.number == PINE_SIZE) {
        a.number = a.place = 0;
        for (size_t k = 0; k < on; k++) {
            o[k] = 0;
        }
    }
    if (FAULT == 37 && a.number == PINE_SIZE) {
        a.place++;
    }
    return a;
}
