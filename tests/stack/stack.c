/* How much stack each call of libpine_c.a takes: it is run on a painted stack of its own, on accepted and
 * on refused arguments, and the paint that is left is counted. What is printed includes the arguments that
 * are passed on the stack, the return address and the struct that is returned. */
#define _GNU_SOURCE 1
#include "pine.h"

#include <stdio.h>
#include <stdlib.h>
#include <string.h>
#include <ucontext.h>

enum { SIZE = 1 << 18, PAINT = 0xa5 };

static unsigned char stack[SIZE];
static ucontext_t here, there;
static void (*body)(void);
static unsigned char *top; /* of what the call may use */

static PineParam param;
static PineDerived derived;
static size_t d, tests, encoded, full, stream_len;
static double *gradient, *decoded;
static uint64_t *elements, *measurement, *results, *other, joint_rand[PINE_JOINT_RAND_LEN] = {3, 5, 7};
static uint64_t *leader, *helper;
static uint64_t *wide_elements, *wide_other, *wide_measurement, *wide_results, wide_joint_rand[6] = {3, 0, 5, 0, 7, 0};
static uint8_t *stream, *draws, *file, *second, keys[8 * 1100], given[PINE_JOINT_RAND_SEEDS_LEN];
static size_t file_len;
static const uint8_t seed[PINE_SEED_LEN] = {1, 2, 3, 5, 8, 13, 21, 34, 55, 89, 144, 233};
static const uint8_t nonce[PINE_NONCE_LEN] = {2, 7, 1, 8}, seeds[PINE_CUT_SEEDS_LEN] = {3, 1, 4, 1, 5, 9, 2, 6};
static uint64_t taken;

/* Below this frame the call's begins. */
static __attribute__((noinline)) void frame(void) {
    top = (unsigned char *)__builtin_frame_address(0);
    body();
}

static void run(void) { frame(); }

static size_t measure(void (*call)(void)) {
    memset(stack, PAINT, sizeof stack);
    body = call;
    getcontext(&there);
    there.uc_stack.ss_sp = stack;
    there.uc_stack.ss_size = sizeof stack;
    there.uc_link = &here;
    makecontext(&there, run, 0);
    swapcontext(&here, &there);
    size_t left = 0;
    while (stack[left] == PAINT) {
        left++;
    }
    return (size_t)(top - (stack + left));
}

static void nothing(void) {}
static void check_param(void) { taken += pine_check_param(param).number; }
static void derive(void) { taken += pine_derive(param).answer.number; }
static void wr_test_bound(void) { taken += pine_wr_test_bound(derived.pine); }
static void f64_to_field(void) { taken += pine_f64_to_field(-0.3, param.frac_bits).element; }
static void field_to_f64(void) { taken += pine_field_to_f64(elements[0], param.frac_bits).answer.number; }
static void encode(void) {
    taken += pine_encode_with_wr_joint_rand(param, gradient, d, stream, stream_len, measurement, encoded, results, tests).number;
}
static void encode_seed(void) {
    taken += pine_encode_with_wr_joint_rand_seed(param, gradient, d, seed, PINE_SEED_LEN, measurement, encoded, results, tests).number;
}
static void run_wr_tests(void) { taken += pine_run_wr_tests(param, elements, d, stream, stream_len, results, tests).number; }
static void run_wr_tests_seed(void) {
    taken += pine_run_wr_tests_seed(param, elements, d, seed, PINE_SEED_LEN, results, tests).number;
}
static void cut(void) {
    taken += pine_cut(param, gradient, d, nonce, PINE_NONCE_LEN, seeds, PINE_CUT_SEEDS_LEN, leader, encoded, helper,
                      encoded, given, PINE_JOINT_RAND_SEEDS_LEN).number;
}
static void sample(void) {
    taken += pine_sample(param, draws, 8 * (encoded + PINE_MORE_DRAWS), helper, encoded).number;
}
static void valid(void) { taken += pine_valid(param, 2, measurement, full, joint_rand, PINE_JOINT_RAND_LEN).value; }
static void valid_sq_norm_equal(void) { taken += pine_valid_sq_norm_equal(param, 2, measurement, full).value; }
static void gradient_part(void) { taken += pine_gradient_part(param, measurement, full).len; }
static void checked_part(void) { taken += pine_checked_part(param, measurement, full).len; }
static void results_part(void) { taken += pine_results_part(param, measurement, full).len; }
static void empty_aggregate(void) { taken += pine_empty_aggregate(param, other, d).number; }
static void accumulate(void) { taken += pine_accumulate(param, other, d, elements, d).number; }
static void merge(void) { taken += pine_merge(param, other, d, elements, d).number; }
static void subtract(void) { taken += pine_subtract(param, other, d, elements, d).number; }
static void unmerge(void) { taken += pine_unmerge(param, other, d, elements, d).number; }
static void unshard(void) { taken += pine_unshard(param, elements, d, other, d, decoded, d).number; }

static void file_read(void) { taken += pine_file_read(param, file, file_len, keys, 12, other, d).number; }
static void file_write(void) { taken += pine_file_write(param, 1, keys, 12, elements, d, file, file_len).number; }
static void file_max(void) { taken += pine_file_max(param, 7).len; }
static void file_add(void) {
    PineFileKey key = {{1, 2, 3, 4, 5, 6, 7, (uint8_t)(d % 2)}};
    taken += pine_file_add(param, key, file, file_len, elements, d, second, file_len + 12 + 8 * d).len;
}
static void file_size(void) { taken += pine_file_size(param, keys, sizeof keys - 8 * (d % 100)).len; }

static void wide_check_param(void) { taken += pine128_check_param(param).number; }
static void wide_derive(void) { taken += pine128_derive(param).answer.number; }
static void wide_f64_to_field(void) { taken += pine128_f64_to_field(-0.3, param.frac_bits).element.low; }
static void wide_field_to_f64(void) {
    PineElement128 y = {wide_elements[0], wide_elements[1]};
    taken += pine128_field_to_f64(y, param.frac_bits).answer.number;
}
static void wide_encode(void) {
    taken += pine128_encode_with_wr_joint_rand(param, gradient, d, stream, stream_len, wide_measurement, 2 * encoded,
                                               wide_results, 2 * tests).number;
}
static void wide_run_wr_tests(void) {
    taken += pine128_run_wr_tests(param, wide_elements, 2 * d, stream, stream_len, wide_results, 2 * tests).number;
}
static void wide_valid(void) { taken += pine128_valid(param, 2, wide_measurement, 2 * full, wide_joint_rand, 6).value.low; }
static void wide_valid_sq_norm_equal(void) {
    taken += pine128_valid_sq_norm_equal(param, 2, wide_measurement, 2 * full).value.low;
}
static void wide_empty_aggregate(void) { taken += pine128_empty_aggregate(param, wide_other, 2 * d).number; }
static void wide_accumulate(void) { taken += pine128_accumulate(param, wide_other, 2 * d, wide_elements, 2 * d).number; }
static void wide_merge(void) { taken += pine128_merge(param, wide_other, 2 * d, wide_elements, 2 * d).number; }
static void wide_subtract(void) { taken += pine128_subtract(param, wide_other, 2 * d, wide_elements, 2 * d).number; }
static void wide_unmerge(void) { taken += pine128_unmerge(param, wide_other, 2 * d, wide_elements, 2 * d).number; }
static void wide_unshard(void) {
    taken += pine128_unshard(param, wide_elements, 2 * d, wide_other, 2 * d, decoded, d).number;
}

static const struct {
    const char *name;
    void (*call)(void);
} calls[] = {
    {"check_param", check_param},
    {"derive", derive},
    {"wr_test_bound", wr_test_bound},
    {"f64_to_field", f64_to_field},
    {"field_to_f64", field_to_f64},
    {"encode_with_wr_joint_rand", encode},
    {"encode_with_wr_joint_rand_seed", encode_seed},
    {"run_wr_tests", run_wr_tests},
    {"run_wr_tests_seed", run_wr_tests_seed},
    {"cut", cut},
    {"sample", sample},
    {"valid", valid},
    {"valid_sq_norm_equal", valid_sq_norm_equal},
    {"gradient_part", gradient_part},
    {"checked_part", checked_part},
    {"results_part", results_part},
    {"empty_aggregate", empty_aggregate},
    {"accumulate", accumulate},
    {"merge", merge},
    {"subtract", subtract},
    {"unmerge", unmerge},
    {"unshard", unshard},
    {"file_write", file_write},
    {"file_read", file_read},
    {"file_max", file_max},
    {"file_add", file_add},
    {"file_size", file_size},
    {"128_check_param", wide_check_param},
    {"128_derive", wide_derive},
    {"128_f64_to_field", wide_f64_to_field},
    {"128_field_to_f64", wide_field_to_f64},
    {"128_encode_with_wr_joint_rand", wide_encode},
    {"128_run_wr_tests", wide_run_wr_tests},
    {"128_valid", wide_valid},
    {"128_valid_sq_norm_equal", wide_valid_sq_norm_equal},
    {"128_empty_aggregate", wide_empty_aggregate},
    {"128_accumulate", wide_accumulate},
    {"128_merge", wide_merge},
    {"128_subtract", wide_subtract},
    {"128_unmerge", wide_unmerge},
    {"128_unshard", wide_unshard},
};
enum { CALLS = sizeof calls / sizeof *calls };

int main(void) {
    size_t most[CALLS] = {0};
    size_t base = measure(nothing);
    static const uint64_t dimensions[] = {1, 2, 3, 4, 5, 15, 16, 17, 64, 1000, 65536};
    static const uint64_t numbers_of_tests[] = {1, 2, 9, 100, 256};
    for (size_t k = 0; k < sizeof dimensions / sizeof *dimensions; k++) {
        for (size_t l = 0; l < sizeof numbers_of_tests / sizeof *numbers_of_tests; l++) {
            for (int wrong = 0; wrong < 5; wrong++) {
                uint64_t t = numbers_of_tests[l];
                param = pine_param_standard(1u << 16, dimensions[k], 8, 1 + k, 7, t, t);
                param.wr_test_rule = wrong == 4 ? PINE_ENOUGH_TESTS : PINE_EVERY_TEST;
                param.true_sq_norm = wrong == 4;
                derived = pine_derive(param);
                if (derived.answer.number != 0) {
                    continue;
                }
                d = (size_t)param.dimension, tests = (size_t)t, encoded = (size_t)derived.pine.encoded_input_len;
                full = (size_t)derived.pine.input_len, stream_len = (size_t)derived.stream_len;
                gradient = (double *)calloc(d, 8), decoded = (double *)calloc(d, 8);
                elements = (uint64_t *)calloc(d, 8), other = (uint64_t *)calloc(d, 8);
                measurement = (uint64_t *)calloc(full, 8), results = (uint64_t *)calloc(tests, 8);
                wide_elements = (uint64_t *)calloc(d, 16), wide_other = (uint64_t *)calloc(d, 16);
                wide_measurement = (uint64_t *)calloc(full, 16), wide_results = (uint64_t *)calloc(tests, 16);
                leader = (uint64_t *)calloc(encoded, 8), helper = (uint64_t *)calloc(encoded, 8);
                stream = (uint8_t *)calloc(stream_len, 1), draws = (uint8_t *)calloc(encoded + PINE_MORE_DRAWS, 8);
                file_len = 18 + 8 * d, file = (uint8_t *)calloc(file_len, 1), second = (uint8_t *)calloc(2 * file_len, 1);
                for (size_t i = 0; i < d; i++) {
                    gradient[i] = (double)(i % 3) / 4;
                    elements[i] = wide_elements[2 * i] = i * i;
                }
                for (size_t i = 0; i < stream_len; i++) {
                    stream[i] = (uint8_t)(i * 37);
                }
                for (size_t i = 0; i < sizeof keys; i++) { /* 1100 keys, of which as many differ */
                    keys[i] = (uint8_t)(i % 8 < 6 ? 1 + i % 8 : i % 8 == 6 ? i / 8 : i / 2048);
                }
                /* refused by 8, 12 and 18, by 4, by 7, by 23 */
                if (wrong == 1) {
                    gradient[d - 1] = 1e-310;
                    memset(draws, 255, 8 * (encoded + PINE_MORE_DRAWS));
                    elements[d - 1] = measurement[full - 1] = PINE_FIELD_MODULUS;
                    wide_elements[2 * d - 1] = wide_measurement[2 * full - 1] = UINT64_MAX;
                } else if (wrong == 2) {
                    param.frac_bits = 31;
                } else if (wrong == 3) {
                    d--, full--;
                } else if (wrong == 4) {
                    wide_elements[2 * d - 1] = 1;
                }
                for (size_t c = 0; c < CALLS; c++) {
                    size_t used = measure(calls[c].call) - base;
                    most[c] = used > most[c] ? used : most[c];
                }
                free(gradient), free(decoded), free(elements), free(other), free(measurement), free(results), free(stream);
                free(leader), free(helper), free(draws), free(file), free(second);
                free(wide_elements), free(wide_other), free(wide_measurement), free(wide_results);
            }
        }
    }
    for (size_t c = 0; c < CALLS; c++) {
        printf("%-30s %5zu bytes of stack\n", calls[c].name, most[c]);
    }
    return taken == 1;
}
