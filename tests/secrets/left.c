/* left LONG [CALL]    what accepting calls leave of secrets on their stack: each is run on a painted stack of its own,
 *                     several times beside the same public values, and a word there that is not the same every time
 *                     depends on secrets. Prints CALL WORDS REGISTERS and, by kind, how many of the words are
 *                     recognised: the most in any case; of calls that wipe their stack where they are long, those
 *                     have a line of their own, CALL(long)
 *
 * left own            the same of calls that are made on a stack of their own by examples/c/own_stack.h, on that stack
 *                     and on the caller's; fails where a word is left, in a register too
 *
 * LONG is 0 or 1: the short or the long form. CALL is the one to be made, without it all are. What the call gives lies
 * in the caller's frame and is not counted. */
#include "../../examples/c/own_stack.h"
#include "calls.h"

#include <fenv.h>
#include <xmmintrin.h>

enum { SIZE = 1 << 18, STACK = SIZE / 8, PAINT = 0xa5, RUNS = 12, REGISTERS = 32 };

static uint64_t stack[STACK] __attribute__((aligned(64)));
static ucontext_t here, there;
static void (*body)(void);
static size_t top; /* of what the call may use */

/* Below this frame the call's begins. */
static __attribute__((noinline)) void frame(void) {
    top = (size_t)((uint64_t *)__builtin_frame_address(0) - stack);
    body();
}

/* With nothing in the registers that the call may save, or leave. */
static void run(void) {
    __asm__ volatile("xor %%ebx, %%ebx; xor %%r12d, %%r12d; xor %%r13d, %%r13d\n"
                     "xor %%r14d, %%r14d; xor %%r15d, %%r15d; xor %%ecx, %%ecx; xor %%edx, %%edx; xor %%esi, %%esi\n"
                     "xor %%r8d, %%r8d; xor %%r9d, %%r9d; xor %%r10d, %%r10d; xor %%r11d, %%r11d\n"
                     "pxor %%xmm0, %%xmm0; pxor %%xmm1, %%xmm1; pxor %%xmm2, %%xmm2; pxor %%xmm3, %%xmm3\n"
                     "pxor %%xmm4, %%xmm4; pxor %%xmm5, %%xmm5; pxor %%xmm6, %%xmm6; pxor %%xmm7, %%xmm7\n"
                     "pxor %%xmm8, %%xmm8; pxor %%xmm9, %%xmm9; pxor %%xmm10, %%xmm10; pxor %%xmm11, %%xmm11\n"
                     "pxor %%xmm12, %%xmm12; pxor %%xmm13, %%xmm13; pxor %%xmm14, %%xmm14; pxor %%xmm15, %%xmm15" ::
                         : "rbx", "rcx", "rdx", "rsi", "r8", "r9", "r10", "r11", "r12", "r13", "r14", "r15", "xmm0",
                           "xmm1", "xmm2", "xmm3", "xmm4", "xmm5", "xmm6", "xmm7", "xmm8", "xmm9", "xmm10", "xmm11",
                           "xmm12", "xmm13", "xmm14", "xmm15", "cc");
    frame();
}

static void on_painted_stack(void (*call)(void)) {
    /* Of the driver's own arithmetic, and of the runs before: a context has them. feclearexcept leaves the flag for denormals. */
    feclearexcept(FE_ALL_EXCEPT);
    _mm_setcsr(_mm_getcsr() & ~UINT32_C(0x3f));
    memset(stack, PAINT, sizeof stack);
    body = call;
    getcontext(&there);
    there.uc_stack.ss_sp = stack;
    there.uc_stack.ss_size = sizeof stack;
    there.uc_link = &here;
    makecontext(&there, run, 0);
    swapcontext(&here, &there);
}

/* ---- a stack of its own below that */

static uint64_t own[OWN_STACK_LEN / 8];
static void (*own_body)(void);

static void run_own(void *with) {
    (void)with;
    own_body();
}

static void with_own_stack(void) {
    if (on_own_stack(own, sizeof own, run_own, NULL) != 0) {
        perror("left: no stack of its own");
        exit(1);
    }
    __asm__ volatile("fxsave %0" : "=m"(vectors));
}

static size_t left_on_own(void) {
    size_t words = 0;
    for (size_t i = 0; i < sizeof own / sizeof *own; i++) {
        words += own[i] != 0;
    }
    return words;
}

/* ---- words that are recognised */

enum { COORDINATES, ELEMENTS, SHARES, TABLE, RESULT, NORM, SEED_WORD, STREAM_WORD, STATE, WEIGHT, ANY, WORD_KINDS };
static const char *const word_kinds[] = {"coordinates", "elements", "shares", "tables",  "results", "norm",
                                         "seeds",       "stream",   "state",  "weights", "other"};
enum { KNOWN = 1 << 23 };
static struct {
    uint64_t word;
    uint32_t run; /* in which it was put here: 0 for an empty place */
    uint32_t kind;
} known[KNOWN];
static uint32_t this_run;
static size_t filled; /* places, in this run */

static size_t place_of(uint64_t word) {
    size_t at = (size_t)((word * 0x9e3779b97f4a7c15u) >> 41);
    while (known[at].run == this_run && known[at].word != word) {
        at = (at + 1) % KNOWN;
    }
    return at;
}

static void know(uint64_t word, uint32_t kind) {
    size_t at = place_of(word);
    if (word >= 4096 && known[at].run != this_run) { /* smaller ones are everywhere */
        known[at].word = word, known[at].run = this_run, known[at].kind = kind;
        if (++filled > KNOWN / 2) {
            fprintf(stderr, "left: more words to be recognised than there is room for\n");
            exit(1);
        }
    }
}

static uint32_t kind_of(uint64_t word) {
    size_t at = place_of(word);
    return known[at].run == this_run ? known[at].kind : ANY;
}

static uint64_t add(uint64_t a, uint64_t b) { return sub(a, sub(0, b)); }

static void know_elements(const uint64_t *x, size_t len) {
    for (size_t i = 0; i < len; i++) {
        know(x[i], ELEMENTS);
    }
    for (size_t i = 0; i < len; i++) { /* and what a table has of two */
        uint64_t a = x[i], b = i + 1 < len ? x[i + 1] : 0;
        know(sub(0, a), TABLE), know(add(a, b), TABLE), know(sub(a, b), TABLE), know(sub(b, a), TABLE);
        know(sub(0, add(a, b)), TABLE);
    }
}

static void know_doubles(const double *x, size_t len) {
    for (size_t i = 0; i < len; i++) {
        double of[2] = {x[i], x[i] * derived.pine.scale};
        uint64_t bits[2];
        memcpy(bits, of, sizeof bits);
        know(bits[0], COORDINATES), know(bits[0] & ~(UINT64_C(1) << 63), COORDINATES);
        know(bits[1], COORDINATES), know(bits[1] & ~(UINT64_C(1) << 63), COORDINATES);
        know((uint64_t)(int64_t)floor(of[1]), ELEMENTS);
    }
}

static void know_bytes(const uint8_t *bytes, size_t len, size_t step, uint32_t kind) {
    for (size_t i = 0; i + 8 <= len; i += step) {
        uint64_t word;
        memcpy(&word, bytes + i, 8);
        know(word, kind);
    }
}

static void know_lanes(const uint64_t *lanes, int count) {
    for (int i = 0; i < count; i++) {
        know(lanes[i], STATE), know(~lanes[i], STATE);
    }
}

static uint64_t turned(uint64_t x, int by) { return by == 0 ? x : x << by | x >> (64 - by); }

/* Keccak-p[1600, 12]; where wanted, what comes up on the way is known as the state */
static void permute(uint64_t a[25], int wanted) {
    static const uint64_t constants[12] = {
        0x000000008000808b, 0x800000000000008b, 0x8000000000008089, 0x8000000000008003,
        0x8000000000008002, 0x8000000000000080, 0x000000000000800a, 0x800000008000000a,
        0x8000000080008081, 0x8000000000008080, 0x0000000080000001, 0x8000000080008008};
    for (int round = 0; round < 12; round++) {
        uint64_t c[5], b[25];
        for (int x = 0; x < 5; x++) {
            c[x] = a[x] ^ a[x + 5] ^ a[x + 10] ^ a[x + 15] ^ a[x + 20];
        }
        for (int i = 0; i < 25; i++) {
            a[i] ^= c[(i + 4) % 5] ^ turned(c[(i + 1) % 5], 1);
        }
        b[0] = a[0];
        for (int x = 1, y = 0, t = 0; t < 24; t++) { /* the lane at x, y goes to y, 2x + 3y */
            int to = (2 * x + 3 * y) % 5;
            b[y + 5 * to] = turned(a[x + 5 * y], (t + 1) * (t + 2) / 2 % 64);
            x = y, y = to;
        }
        for (int i = 0; i < 25; i++) {
            a[i] = b[i] ^ (~b[i / 5 * 5 + (i + 1) % 5] & b[i / 5 * 5 + (i + 2) % 5]);
        }
        a[0] ^= constants[round];
        if (wanted) {
            know_lanes(c, 5), know_lanes(b, 25);
            know_lanes(a, round < 11 ? 25 : 0); /* the last may be the stream */
        }
    }
}

enum { RATE = 168, ENDS = 32 };

/* Fills out with the stream of a seed and a binder, and knows the seed, the stream and the states that it comes from:
 * of a long sponge, unless whole, those of the first and the last blocks. */
static void xof(uint8_t usage, const uint8_t *seed, const void *binder, size_t binder_len, uint8_t *out, size_t out_len,
                int whole) {
    const uint8_t tag[8] = {7, 1, 0xff, 0xff, 0xff, 0xff, 0, usage};
    size_t len = sizeof tag + PINE_SEED_LEN + binder_len, in = len / RATE + 1;
    size_t blocks = in + (out_len + RATE - 1) / RATE;
    uint8_t *message = (uint8_t *)calloc(in, RATE);
    uint64_t lanes[25] = {0}, word;
    uint32_t kind = out_len == PINE_SEED_LEN ? SEED_WORD : STREAM_WORD;
    if (message == NULL) {
        abort();
    }
    memcpy(message, tag, sizeof tag), memcpy(message + sizeof tag, seed, PINE_SEED_LEN);
    if (binder_len > 0) {
        memcpy(message + sizeof tag + PINE_SEED_LEN, binder, binder_len);
    }
    message[len] ^= 1, message[in * RATE - 1] ^= 0x80;
    for (size_t k = 0; k < blocks; k++) {
        for (size_t i = 0; k < in && i < RATE / 8; i++) {
            memcpy(&word, message + k * RATE + 8 * i, 8);
            lanes[i] ^= word;
        }
        if (k >= in) {
            size_t at = (k - in) * RATE, n = out_len - at < RATE ? out_len - at : RATE;
            memcpy(out + at, lanes, n);
            know_bytes(out + at, n, 8, kind);
        }
        int wanted = whole || k < ENDS || blocks - k <= ENDS;
        if (wanted) {
            know_lanes(lanes, 25);
        }
        permute(lanes, wanted);
    }
    know_bytes(seed, PINE_SEED_LEN, 1, SEED_WORD);
    know_bytes(out, out_len, 1, kind);
    free(message);
}

/* The stream of the wraparound tests that a seed makes. */
static void know_tests_stream(const uint8_t *seed) {
    size_t len = row[STREAM].len + 2 * RATE;
    uint8_t *bytes = (uint8_t *)malloc(len);
    if (bytes == NULL) {
        abort();
    }
    xof(8, seed, NULL, 0, bytes, len, 1);
    free(bytes);
}

/* The seed of the joint randomness of two shares, by the places of their blinds among the five seeds. */
static void know_joint_rand(uint8_t part_usage, uint8_t seed_usage, const int blinds[2], size_t len, uint8_t *joint) {
    static const uint8_t zeros[PINE_SEED_LEN];
    uint8_t parts[2 * PINE_SEED_LEN], *binder = (uint8_t *)malloc(1 + PINE_NONCE_LEN + 8 * len);
    if (binder == NULL) {
        abort();
    }
    for (int s = 0; s < 2; s++) {
        binder[0] = (uint8_t)s;
        memcpy(binder + 1, BYTES(NONCE), PINE_NONCE_LEN);
        memcpy(binder + 1 + PINE_NONCE_LEN, BYTES(s == 0 ? LEADER : HELPER), 8 * len);
        xof(part_usage, BYTES(SEEDS) + PINE_SEED_LEN * blinds[s], binder, 1 + PINE_NONCE_LEN + 8 * len,
            parts + PINE_SEED_LEN * s, PINE_SEED_LEN, 0);
    }
    xof(seed_usage, zeros, parts, sizeof parts, joint, PINE_SEED_LEN, 0);
    free(binder);
}

/* All that a cut makes on its way. */
static void know_cut(void) {
    static const int wr_blinds[2] = {3, 1}, vf_blinds[2] = {4, 2};
    static const uint8_t number = 1;
    size_t d = LEN8(GRADIENT), most = row[DRAWS].len;
    uint8_t joint[PINE_JOINT_RAND_SEEDS_LEN], *values = (uint8_t *)malloc(most);
    if (values == NULL) {
        abort();
    }
    for (size_t i = 0; i < LEN8(LEADER); i++) {
        know(WORDS(LEADER)[i], SHARES), know(WORDS(HELPER)[i], SHARES);
        WORDS(MEASUREMENT)[i] = add(WORDS(LEADER)[i], WORDS(HELPER)[i]);
    }
    xof(1, BYTES(SEEDS), &number, 1, values, most, 0);
    know_joint_rand(10, 9, wr_blinds, d + 2 * derived.pine.sq_norm_bits, joint);
    know_joint_rand(7, 6, vf_blinds, LEN8(LEADER), joint + PINE_SEED_LEN);
    if (memcmp(values, BYTES(HELPER), row[HELPER].len) != 0 || memcmp(joint, BYTES(TWO_SEEDS), sizeof joint) != 0) {
        fprintf(stderr, "left: a cut is another here\n");
        exit(1);
    }
    know_tests_stream(joint);
    PineAnswer answer = pine_run_wr_tests_seed(param, WORDS(MEASUREMENT), d, joint, PINE_SEED_LEN, WORDS(RESULTS),
                                               LEN8(RESULTS));
    if (answer.number != PINE_ACCEPTED) {
        exit(1);
    }
    free(values);
}

/* What the rows of a call have after it. What it read and wrote over is known from before. */
static void know_rows(int call) {
    uint64_t rows = calls[call].secret | calls[call].written;
    if (rows & BIT(SEEDS)) {
        know_cut();
        rows |= BIT(MEASUREMENT) | BIT(RESULTS);
    }
    if (rows & BIT(DRAWS)) {
        know_bytes(BYTES(DRAWS), row[DRAWS].len, 8, SHARES);
    }
    static const int of_elements[] = {SHARE, AGGREGATE, OTHER, FULL, BODIES, ELEMENT, MEASUREMENT};
    static const int of_doubles[] = {GRADIENT, DECODED, COORDINATE, WIDE_GRADIENT};
    for (size_t i = 0; i < sizeof of_elements / sizeof *of_elements; i++) {
        if (rows & BIT(of_elements[i])) {
            know_elements(WORDS(of_elements[i]), LEN8(of_elements[i]));
        }
    }
    for (size_t i = 0; i < sizeof of_doubles / sizeof *of_doubles; i++) {
        if (rows & BIT(of_doubles[i])) {
            know_doubles(DOUBLES(of_doubles[i]), LEN8(of_doubles[i]));
        }
    }
    for (int r = WIDE_MEASUREMENT; r < ROWS; r++) {
        if (rows & BIT(r)) {
            know_bytes(BYTES(r), row[r].len, 8, ELEMENTS);
        }
    }
    if (rows & BIT(RESULTS)) {
        for (size_t i = 0; i < LEN8(RESULTS); i++) {
            know(WORDS(RESULTS)[i], RESULT), know(add(WORDS(RESULTS)[i], pine_wr_test_bound(derived.pine) - 1), RESULT);
        }
    }
    if (rows & BIT(MEASUREMENT)) {
        uint64_t v = 0;
        for (size_t i = 0; i < derived.pine.sq_norm_bits; i++) {
            v |= WORDS(MEASUREMENT)[LEN8(GRADIENT) + i] << i;
        }
        know(v, NORM), know(derived.pine.sq_norm_bound - v, NORM);
        unsigned __int128 sum = 0; /* without reduction */
        for (size_t i = 0; i < LEN8(GRADIENT); i++) {
            uint64_t x = WORDS(MEASUREMENT)[i], size = x < P - x ? x : P - x;
            sum += (unsigned __int128)size * size;
        }
        know((uint64_t)sum, NORM), know((uint64_t)(sum >> 64), NORM);
    }
    if (rows & BIT(SEED)) {
        know_tests_stream(BYTES(SEED));
    }
    if (rows & (BIT(OLD_FILE) | BIT(NEW_FILE))) {
        size_t from = row[OLD_FILE].from, next = from + PINE_FILE_ENTRY_LEN; /* there with an entry more */
        know_bytes(BYTES(OLD_FILE) + from, row[OLD_FILE].len - from, 8, ELEMENTS);
        know_bytes(BYTES(NEW_FILE) + from, row[NEW_FILE].len - from, 8, ELEMENTS);
        know_bytes(BYTES(NEW_FILE) + next, row[NEW_FILE].len - next, 8, ELEMENTS);
    }
    for (size_t i = 2; i < given_len / 8; i++) {
        know(given[i], ELEMENTS);
    }
}

/* ---- the runs of a call beside the same public values */

static uint64_t seen[STACK], highest[STACK], seen_registers[REGISTERS];
static uint8_t differs[STACK], kind_at[STACK], register_differs[REGISTERS];
static size_t tops[2 * CALLS][2 + WORD_KINDS]; /* by call, and then of those that wipe their stack */

/* Calls that wipe their stack from so many coordinates times tests on (docs/C.md, "What a call leaves"). */
static const struct {
    const char *name;
    uint64_t least;
} wiping[] = {
    {"encode_with_wr_joint_rand", 1000},
    {"encode_with_wr_joint_rand_seed", 1000},
    {"run_wr_tests", 1600},
    {"run_wr_tests_seed", 5000},
    {"128_encode_with_wr_joint_rand", 1000},
    {"128_run_wr_tests", 1600},
};
enum { WIPING = sizeof wiping / sizeof *wiping };

static uint64_t least_of(int call) {
    for (int i = 0; i < WIPING; i++) {
        if (strcmp(wiping[i].name, calls[call].name) == 0) {
            return wiping[i].least;
        }
    }
    return UINT64_MAX;
}

static int by_own_stack;

static int measure(int call, int kind) {
    uint64_t before = drawn;
    fill_rows(kind, calls[call].secret);
    calls[call].call();
    if (given[0] != PINE_ACCEPTED) {
        return 0;
    }
    drawn = before;
    this_run++, filled = 0;
    fill_rows(kind, calls[call].secret);
    if (calls[call].secret & BIT(AGGREGATE)) {
        know_elements(WORDS(AGGREGATE), LEN8(AGGREGATE));
    }
    if (calls[call].secret & BIT(WIDE_AGGREGATE)) {
        know_bytes(BYTES(WIDE_AGGREGATE), row[WIDE_AGGREGATE].len, 8, ELEMENTS);
    }
    own_body = calls[call].call;
    on_painted_stack(by_own_stack ? with_own_stack : own_body);
    know_rows(call);
    if (by_own_stack && left_on_own() > 0) {
        fprintf(stderr, "left: %s: %zu words on a stack of its own\n", calls[call].name, left_on_own());
        exit(1);
    }
    return 1;
}

static void compare(int first) {
    size_t from = (given_at - (uintptr_t)stack) / 8, to = from + given_len / 8;
    for (size_t i = 0; i < top; i++) {
        if (i < from || i >= to) {
            differs[i] |= !first && stack[i] != seen[i];
            highest[i] = stack[i] > highest[i] ? stack[i] : highest[i];
            if (kind_at[i] == ANY) {
                kind_at[i] = (uint8_t)kind_of(stack[i]);
            }
        }
    }
    for (int i = 0; i < REGISTERS; i++) { /* xmm0 on */
        register_differs[i] |= !first && vectors[20 + i] != seen_registers[i];
    }
    memcpy(seen, stack, sizeof seen), memcpy(seen_registers, vectors + 20, sizeof seen_registers);
}

static void count(int row_of) {
    size_t counts[2 + WORD_KINDS] = {0};
    for (size_t i = 0; i < STACK; i++) {
        if (differs[i]) {
            counts[0]++, counts[2 + (highest[i] <= 2 ? WEIGHT : kind_at[i])]++; /* a weight is -1, 0 or 1, and 1 more */
        }
    }
    for (int i = 0; i < REGISTERS; i++) {
        counts[1] += register_differs[i];
    }
    size_t registers = counts[1] > tops[row_of][1] ? counts[1] : tops[row_of][1];
    if (counts[0] > tops[row_of][0]) {
        memcpy(tops[row_of], counts, sizeof counts);
    }
    tops[row_of][1] = registers;
}

int main(int argc, char **argv) {
    static const int some[] = {NONZERO, LARGE, MIXED, NONZERO, LARGE, POSITIVE};
    int long_form = argc > 1 && argv[1][0] == '1';
    by_own_stack = argc > 1 && strcmp(argv[1], "own") == 0;
    const char *only = argc > 2 ? argv[2] : NULL;
    for (int c = 0; c < CASES; c++) {
        if (cases[c].long_form && !long_form) {
            continue;
        }
        make_rows(c);
        for (int call = 0; call < CALLS; call++) {
            if (only != NULL && strcmp(only, calls[call].name) != 0) {
                continue;
            }
            memset(differs, 0, sizeof differs), memset(register_differs, 0, sizeof register_differs);
            memset(kind_at, ANY, sizeof kind_at), memset(highest, 0, sizeof highest);
            int runs = 0;
            for (int k = 0; k < 3 * RUNS && runs < RUNS; k++) {
                if (measure(call, some[k % 6])) {
                    compare(runs == 0);
                    runs++;
                }
            }
            if (runs < 2) {
                fprintf(stderr, "left: %s: case %d has no two accepting calls\n", calls[call].name, c);
                return 1;
            }
            count(cases[c].d * cases[c].t >= least_of(call) ? CALLS + call : call);
        }
    }
    for (int i = 0; by_own_stack && i < 2 * CALLS; i++) {
        if (tops[i][0] > 0 || tops[i][1] > 0) {
            fprintf(stderr, "left: %s from a stack of its own: %zu words, %zu in registers\n", calls[i % CALLS].name,
                    tops[i][0], tops[i][1]);
            return 1;
        }
    }
    printf("call words registers");
    for (int k = 0; k < WORD_KINDS; k++) {
        printf(" %s", word_kinds[k]);
    }
    for (int i = 0; i < 2 * CALLS; i++) {
        if (i < CALLS || least_of(i % CALLS) != UINT64_MAX) {
            printf("\n%s%s", calls[i % CALLS].name, i < CALLS ? "" : "(long)");
            for (int k = 0; k < 2 + WORD_KINDS; k++) {
                printf(" %zu", tops[i][k]);
            }
        }
    }
    printf("\n");
    return 0;
}
