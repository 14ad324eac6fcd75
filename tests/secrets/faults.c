/* A wrong build of pine_unmerge, by FAULT, that tests/secrets/run is to find. */
#include "pine.h"

PineAnswer __real_pine_unmerge(PineParam, uint64_t *, size_t, const uint64_t *, size_t);
PineAnswer __wrap_pine_unmerge(PineParam, uint64_t *, size_t, const uint64_t *, size_t);

static volatile uint64_t seen;
static volatile uint64_t table[8];

PineAnswer __wrap_pine_unmerge(PineParam param, uint64_t *agg, size_t agg_len, const uint64_t *other,
                               size_t other_len) {
    PineAnswer answer = __real_pine_unmerge(param, agg, agg_len, other, other_len);
    uint64_t secret = other_len > 0 ? other[0] : 0;
    volatile uint64_t word = 0;
    if (FAULT == 1 && secret == 0x123456789abcdef) { /* a branch that goes one way */
        seen = 1;
    }
    if (FAULT == 2 && secret % 2 == 0) { /* one that goes both ways */
        seen = 2;
    }
    if (FAULT == 3) { /* an index */
        seen = table[secret % 8];
    }
    if (FAULT == 4) { /* a word on the stack */
        word = secret;
    }
    (void)word;
    return answer;
}
