/* Adds reports to day's files, one after the other, and keeps the counts and sums of each key beside them.
 *
 *     addings SEED COUNT
 *
 * A day has a dimension of 1 to 4 and up to 1100 keys, of which some are two controllers with the same valves; it
 * begins empty, or with entries whose counts are near their greatest. Some shares have an element that is not below p,
 * or too many. Compared of each adding: the answer, the new length, the bytes past it; of a refused one that the second
 * row is as it was. Compared now and then and at a day's end: every entry and body with the counts and sums; that the
 * file is begun anew from what was read; and at its end, for a day that began empty, the exact length from the list of
 * its keys. */
#include "pine.h"

#include <stdio.h>
#include <stdlib.h>
#include <string.h>

#define P PINE_FIELD_MODULUS
enum { KEYS = 1100, MOST_D = 4, LONGEST = 6 + 1024 * (12 + 8 * MOST_D), ADDINGS = 50000 };

static unsigned long long seed, made, refused[32];
static uint64_t state;

static void fail(const char *what) {
    printf("FAILED: %s (seed %llu, adding %llu)\n", what, seed, made);
    exit(1);
}

static uint64_t draw(void) {
    state ^= state << 13;
    state ^= state >> 7;
    state ^= state << 17;
    return state * UINT64_C(0x2545f4914f6cdd1d);
}

static uint64_t below(uint64_t n) { return (draw() >> 11) % n; }
static uint64_t plus(uint64_t a, uint64_t b) { return a >= P - b ? a - (P - b) : a + b; }

/* what a key has, by its index; keys rise with their indices */
static struct {
    int held;
    uint32_t reports;
    uint64_t sums[MOST_D];
} tally[KEYS];

/* four controllers of 275 valves, whose numbers differ in either byte */
static PineFileKey key_of(uint64_t i) {
    const uint8_t address[6] = {2, 0, 0, (uint8_t)(i / 550), 0, (uint8_t)(i / 275 % 2)};
    return pine_file_key(address, (uint16_t)(i % 275 * 77));
}

static uint8_t old[LONGEST + 64], second[LONGEST + 64], before[LONGEST + 64], list[8 * ADDINGS];
static uint8_t contents[12 * 1024];
static uint64_t bodies[1024 * MOST_D];

/* the file is made of the tally's keys, in order, and nothing else */
static void compare(PineParam p, const uint8_t *file, size_t len) {
    size_t d = (size_t)p.dimension, entries = 0;
    for (size_t i = 0; i < KEYS; i++) {
        entries += tally[i].held != 0;
    }
    if (len != 6 + entries * (12 + 8 * d)) {
        fail("the file has another length");
    }
    if (pine_file_read(p, file, len, contents, 12 * entries, bodies, d * entries).number != 0) {
        fail("the file is not read");
    }
    size_t at = 0;
    for (size_t i = 0; i < KEYS; i++) {
        if (!tally[i].held) {
            continue;
        }
        PineFileKey key = key_of(i);
        const uint8_t *c = contents + 12 * at;
        uint64_t reports = c[8] | (uint64_t)c[9] << 8 | (uint64_t)c[10] << 16 | (uint64_t)c[11] << 24;
        if (memcmp(c, key.bytes, 8) != 0 || reports != tally[i].reports) {
            fail("an entry is another");
        }
        if (memcmp(bodies + d * at, tally[i].sums, 8 * d) != 0) {
            fail("a body is another");
        }
        at++;
    }
}

static size_t begin(PineParam p, uint64_t among, int empty) {
    size_t d = (size_t)p.dimension, entries = 0;
    memset(tally, 0, sizeof tally);
    for (size_t i = 0; !empty && i < among && entries < 1024; i++) {
        if (below(3) != 0) {
            continue;
        }
        PineFileKey key = key_of(i);
        tally[i].held = 1;
        tally[i].reports = UINT32_MAX - (uint32_t)below(40);
        memcpy(contents + 12 * entries, key.bytes, 8);
        for (int k = 0; k < 4; k++) {
            contents[12 * entries + 8 + (size_t)k] = (uint8_t)(tally[i].reports >> 8 * k);
        }
        for (size_t k = 0; k < d; k++) {
            bodies[d * entries + k] = tally[i].sums[k] = draw() % P;
        }
        entries++;
    }
    size_t len = 6 + entries * (12 + 8 * d);
    if (pine_file_write(p, entries, contents, 12 * entries, bodies, d * entries, old, len).number != 0) {
        fail("no file is begun");
    }
    return len;
}

static void day(unsigned long long wanted) {
    PineParam p = pine_param_standard(1, 1 + below(MOST_D), 0, 1, 1, 1, 1);
    size_t d = (size_t)p.dimension, n = 0, room = 12 + 8 * d;
    uint64_t among = below(2) ? 1 + below(30) : below(2) ? KEYS : 1 + below(KEYS);
    int empty = below(4) != 0;
    size_t len = begin(p, among, empty), entries = (len - 6) / room;
    unsigned long long addings = 1 + below(ADDINGS);
    for (unsigned long long k = 0; k < addings && made < wanted; k++, made++) {
        uint64_t i = below(among), share[MOST_D + 1], place = 0, number = 0;
        for (size_t j = 0; j < d; j++) {
            share[j] = below(4) ? draw() % P : P - 1 - below(2);
        }
        size_t share_len = d;
        if (below(32) == 0) {
            size_t spoilt = (size_t)below(d);
            share[spoilt] = P + below(2);
            number = PINE_ELEMENT, place = spoilt;
        } else if (below(64) == 0) {
            share[d] = 0, share_len = d + 1;
            number = PINE_ROW_LEN, place = 2;
        } else if (!tally[i].held && entries == 1024) {
            number = PINE_FILE_FULL;
        } else if (tally[i].reports == UINT32_MAX) {
            number = PINE_REPORT_COUNT;
            for (uint64_t j = 0; j < i; j++) {
                place += tally[j].held != 0;
            }
        }
        if (number != 0) {
            memcpy(before, second, len + room);
        }
        memset(second + len, (int)(k & 255), room);
        if (number != 0) {
            memset(before + len, (int)(k & 255), room);
        }
        PineFileKey key = key_of(i);
        PineFileLen given = pine_file_add(p, key, old, len, share, share_len, second, len + room);
        if (given.answer.number != number || given.answer.place != place) {
            fail("answers otherwise");
        }
        refused[number]++;
        if (number != 0) {
            if (given.len != 0 || memcmp(before, second, len + room) != 0) {
                fail("is refused and changes the second row");
            }
            continue;
        }
        if (given.len != len + (tally[i].held ? 0 : room)) {
            fail("gives another length");
        }
        for (size_t j = (size_t)given.len; j < len + room; j++) {
            if (second[j] != (k & 255)) {
                fail("changes what is past the new file");
            }
        }
        entries += !tally[i].held;
        tally[i].held = 1;
        tally[i].reports++;
        for (size_t j = 0; j < d; j++) {
            tally[i].sums[j] = plus(tally[i].sums[j], share[j]);
        }
        memcpy(list + 8 * n++, key.bytes, 8);
        if (below(256) == 0) {
            compare(p, second, (size_t)given.len);
        }
        len = (size_t)given.len;
        memcpy(old, second, len);
    }
    compare(p, old, len);
    if (empty) {
        PineFileLen size = pine_file_size(p, list, 8 * n);
        if (size.answer.number != 0 || size.len != len) {
            fail("the exact length is another");
        }
    }
}

int main(int argc, char **argv) {
    if (argc != 3) {
        fprintf(stderr, "usage: addings SEED COUNT\n");
        return 2;
    }
    seed = strtoull(argv[1], NULL, 10);
    unsigned long long wanted = strtoull(argv[2], NULL, 10), days = 0;
    state = (seed + 1) * UINT64_C(0x9e3779b97f4a7c15);
    while (made < wanted) {
        day(wanted);
        days++;
    }
    printf("seed %llu: %llu addings on %llu days, %llu accepted, refused by 7: %llu, 12: %llu, 15: %llu, 16: %llu; no fault\n",
           seed, made, days, refused[0], refused[PINE_ROW_LEN], refused[PINE_ELEMENT], refused[PINE_FILE_FULL],
           refused[PINE_REPORT_COUNT]);
    return 0;
}
