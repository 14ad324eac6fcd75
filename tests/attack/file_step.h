/* Read by attack.c: one call on a day's file. What a file is, and what adding makes of one, is worked out here in plain
 * loops over its bytes. */

static uint64_t number_at(const uint8_t *bytes, size_t len) {
    uint64_t x = 0;
    for (size_t k = len; k-- > 0;) {
        x = x << 8 | bytes[k];
    }
    return x;
}

static void put_number(uint8_t *bytes, size_t len, uint64_t x) {
    for (size_t k = 0; k < len; k++, x >>= 8) {
        bytes[k] = (uint8_t)x;
    }
}

/* below 0, 0 or above 0: by the address, then by the valve */
static int key_order(const uint8_t *a, const uint8_t *b) {
    int by_address = memcmp(a, b, 6);
    if (by_address != 0) {
        return by_address;
    }
    return (int)number_at(a + 6, 2) - (int)number_at(b + 6, 2);
}

static int is_file(const uint8_t *file, size_t len, uint64_t d) {
    if (len < 6 || number_at(file + 2, 4) != d) {
        return 0;
    }
    uint64_t entries = number_at(file, 2);
    if (entries > PINE_MAX_FILE_ENTRIES || len != 6 + entries * (12 + 8 * d)) {
        return 0;
    }
    for (uint64_t k = 1; k < entries; k++) {
        if (key_order(file + 6 + 12 * (k - 1), file + 6 + 12 * k) >= 0) {
            return 0;
        }
    }
    for (const uint8_t *at = file + 6 + 12 * entries; at < file + len; at += 8) {
        if (number_at(at, 8) >= P) {
            return 0;
        }
    }
    return 1;
}

/* the n-th of 4096 keys, in the files' order: few addresses, valves that differ in either byte */
static void put_key(uint8_t *key, uint64_t n) {
    memset(key, 0, 8);
    key[0] = 2;
    key[5] = (uint8_t)(n >> 10 & 1);
    key[0] = (uint8_t)(key[0] + (n >> 11));
    put_number(key + 6, 2, (n & 1023) * 64);
}

/* a file in row i, with a damage or none; gives its length */
static size_t file_in_row(int i, uint64_t d, int in_order) {
    static uint8_t *made_here;
    uint64_t entries = once_in(8) && d < 5 ? PINE_MAX_FILE_ENTRIES - below(2) : below(once_in(2) ? 3 : 12);
    if (d > 400) {
        entries = below(3);
    }
    size_t len = (size_t)(6 + entries * (12 + 8 * d)), room = len + 64;
    made_here = (uint8_t *)realloc(made_here, room);
    if (made_here == NULL) {
        fail("out of memory");
    }
    uint8_t *f = made_here;
    memset(f, 0, room);
    put_number(f, 2, entries);
    put_number(f + 2, 4, d);
    uint64_t n = below(entries > 12 ? 2 : 8), greatest = once_in(8);
    for (uint64_t k = 0; k < entries; k++) {
        put_key(f + 6 + 12 * k, n);
        put_number(f + 6 + 12 * k + 8, 4, greatest ? UINT32_MAX : once_in(4) ? UINT32_MAX - below(2) : below(9));
        n += 1 + (entries > 12 ? 0 : below(300));
    }
    for (size_t at = (size_t)(6 + 12 * entries); at < len; at += 8) {
        put_number(f + at, 8, element());
    }
    while (!in_order && once_in(3)) {
        switch (below(7)) {
        case 0: f[below(6)] ^= (uint8_t)(1 << below(8)); break;
        case 1: f[below(len)] ^= (uint8_t)(1 << below(8)); break;
        case 2: len = (size_t)below(len + 1); break;
        case 3: len += (size_t)below(room - len); break;
        case 4: /* two keys swapped, or the same */
            if (entries > 1) {
                uint64_t k = below(entries - 1);
                uint8_t swapped[24];
                memcpy(swapped, f + 6 + 12 * (k + 1), 12);
                memcpy(swapped + 12, f + 6 + 12 * (once_in(2) ? k : k + 1), 12);
                memcpy(f + 6 + 12 * k, swapped, 24);
            }
            break;
        case 5:
            if (entries > 0) {
                put_number(f + 6 + 12 * entries + 8 * below(entries * d), 8, once_in(2) ? P : UINT64_MAX - below(9));
            }
            break;
        default: put_number(f + 2, 4, any_number()); break;
        }
        if (len < 7) {
            break;
        }
    }
    memcpy(place(i, len, 1), f, len);
    return len;
}

static void len_beside(PineFileLen n) {
    if (n.answer.number != 0 && n.len != 0) {
        fail("gives a length beside a refusal");
    }
}

static uint64_t count_of(const uint8_t *file, size_t len) { return len < 2 ? 0 : number_at(file, 2); }

static void read_step(PineParam p, uint64_t d) {
    PineAnswer a;
    size_t len = file_in_row(0, d, 0);
    uint8_t *f = (uint8_t *)pointer(rows[0].at, len);
    uint64_t entries = count_of(rows[0].at, len);
    size_t n[2] = {near(12 * entries, 0), near(d * entries, 0)};
    uint8_t *c = (uint8_t *)pointer(place(1, n[0], 1), n[0]);
    uint64_t *b = (uint64_t *)pointer(place(2, n[1], 8), n[1]);
    TWICE(3, 6, pine_file_read(p, f, len, c, n[0], b, n[1]));
    if (a.number == PINE_FILE_LAYOUT && is_file(rows[0].at, len, p.dimension)) {
        fail("refuses a file");
    }
    if (a.number != 0) {
        return;
    }
    if (!is_file(f, len, p.dimension)) {
        fail("takes what is no file");
    }
    for (size_t k = 0; k < n[0]; k++) {
        if (c[k] != f[6 + k]) {
            fail("gives other contents");
        }
    }
    for (size_t k = 0; k < n[1]; k++) {
        if (b[k] != number_at(f + 6 + n[0] + 8 * k, 8)) {
            fail("gives another body");
        }
    }
    /* and writing gives the file back */
    uint8_t *again = (uint8_t *)place(3, len, 1);
    a = pine_file_write(p, entries, c, n[0], b, n[1], again, len);
    if (a.number != 0 || memcmp(again, f, len) != 0) {
        fail("reads what is not written again");
    }
}

static void write_step(PineParam p, uint64_t d) {
    PineAnswer a;
    size_t len = file_in_row(3, d, once_in(2));
    uint8_t *source = rows[3].at;
    uint64_t entries = count_of(source, len), named = once_in(16) ? any_number() : entries;
    size_t n[3] = {near(12 * entries, 0), near(d * entries, 0), near(6 + entries * (12 + 8 * d), 0)};
    uint8_t *c = (uint8_t *)place(0, n[0], 1);
    uint64_t *b = elements(1, n[1], 0);
    for (size_t k = 0; k < n[0]; k++) {
        c[k] = 6 + k < len ? source[6 + k] : 0;
    }
    uint8_t *f = (uint8_t *)place(2, n[2], 1);
    c = (uint8_t *)pointer(c, n[0]), b = (uint64_t *)pointer(b, n[1]), f = (uint8_t *)pointer(f, n[2]);
    TWICE(3, 4, pine_file_write(p, named, c, n[0], b, n[1], f, n[2]));
    if (a.number != 0) {
        return;
    }
    if (!is_file(f, n[2], p.dimension) || count_of(f, n[2]) != named) {
        fail("writes what is no file");
    }
    for (size_t k = 0; k < n[0]; k++) {
        if (c[k] != f[6 + k]) {
            fail("writes other contents");
        }
    }
    for (size_t k = 0; k < n[1]; k++) {
        if (b[k] != number_at(f + 6 + n[0] + 8 * k, 8)) {
            fail("writes another body");
        }
    }
}

/* the file that adding has to give, made from the old one entry by entry */
static size_t added(const uint8_t *old, uint64_t d, const uint8_t *key, const uint64_t *share, uint8_t *file) {
    uint64_t entries = number_at(old, 2), at = 0, body = 8 * d;
    while (at < entries && key_order(old + 6 + 12 * at, key) < 0) {
        at++;
    }
    int is_held = at < entries && key_order(old + 6 + 12 * at, key) == 0;
    uint64_t now = entries + !is_held;
    const uint8_t *old_bodies = old + 6 + 12 * entries;
    uint8_t *bodies = file + 6 + 12 * now;
    put_number(file, 2, now);
    put_number(file + 2, 4, d);
    for (uint64_t k = 0; k < now; k++) {
        uint64_t from = k > at && !is_held ? k - 1 : k;
        if (k != at || is_held) {
            memcpy(file + 6 + 12 * k, old + 6 + 12 * from, 12);
            memcpy(bodies + body * k, old_bodies + body * from, body);
        } else {
            memcpy(file + 6 + 12 * k, key, 8);
            memset(file + 6 + 12 * k + 8, 0, 4);
            memset(bodies + body * k, 0, body);
        }
    }
    put_number(file + 6 + 12 * at + 8, 4, number_at(file + 6 + 12 * at + 8, 4) + 1);
    for (uint64_t k = 0; k < d; k++) {
        put_number(bodies + body * at + 8 * k, 8, add(number_at(bodies + body * at + 8 * k, 8), share[k]));
    }
    return (size_t)(6 + now * (12 + body));
}

static void add_step(PineParam p, uint64_t d) {
    size_t len = file_in_row(0, d, once_in(2));
    size_t n[2] = {near(d, 0), near(len + 12 + 8 * d, 0)};
    uint8_t *old = (uint8_t *)pointer(rows[0].at, len);
    uint64_t *share = (uint64_t *)pointer(elements(1, n[0], 0), n[0]);
    uint8_t *second = (uint8_t *)place(2, n[1], 1);
    PineFileKey key;
    put_key(key.bytes, once_in(2) ? below(8) : below(4096));
    uint64_t entries = count_of(rows[0].at, len);
    if (once_in(2) && entries != 0 && len >= 6 + 12 * entries) {
        memcpy(key.bytes, rows[0].at + 6 + 12 * below(entries), 8);
    }
    noise(2);
    for (int i = 0; i < 3; i++) {
        keep(i);
    }
    VALGRIND_MAKE_MEM_UNDEFINED(second, n[1]);
    PineFileLen given_len = pine_file_add(p, key, old, len, share, n[0], (uint8_t *)pointer(second, n[1]), n[1]);
    defined(&given_len, sizeof given_len);
    len_beside(given_len);
    if (given_len.len > n[1]) {
        fail("gives a length beyond its row");
    }
    defined(second, (size_t)given_len.len);
    VALGRIND_MAKE_MEM_DEFINED(second, n[1]);
    for (int i = 0; i < 3; i++) {
        margin_same(i);
    }
    same(0, "changes a row that it only reads");
    same(1, "changes a row that it only reads");
    if (memcmp(rows[2].kept + given_len.len, second + given_len.len, n[1] - (size_t)given_len.len) != 0) {
        fail("changes what is past the new file");
    }
    count(given_len.answer);
    if (given_len.answer.number != 0) {
        if (given_len.answer.number == PINE_FILE_LAYOUT && is_file(rows[0].at, len, p.dimension)) {
            fail("refuses a file");
        }
        return;
    }
    if (!is_file(old, len, p.dimension)) {
        fail("takes what is no file");
    }
    uint8_t *wanted = rows[2].kept;
    if (added(old, d, key.bytes, share, wanted) != given_len.len || memcmp(wanted, second, (size_t)given_len.len) != 0) {
        fail("gives another file");
    }
}

static void max_step(PineParam p) {
    uint32_t reports_added = (uint32_t)(once_in(2) ? below(2000) : draw() >> below(64));
    PineFileLen n = pine_file_max(p, reports_added);
    count(n.answer);
    len_beside(n);
    uint64_t entries = reports_added < PINE_MAX_FILE_ENTRIES ? reports_added : PINE_MAX_FILE_ENTRIES;
    if (n.answer.number == 0 && n.len != 6 + entries * (12 + 8 * p.dimension)) {
        fail("gives another length");
    }
}

static void size_step(PineParam p) {
    static uint8_t seen[4096];
    size_t keys = (size_t)below(once_in(16) ? 3000 : 20), len = 8 * keys + (once_in(16) ? 1 + (size_t)below(7) : 0);
    uint64_t among = once_in(2) ? 4096 : 1 + below(1100), different = 0;
    uint8_t *list = (uint8_t *)place(0, len, 1);
    memset(list, 0, len);
    memset(seen, 0, sizeof seen);
    for (size_t k = 0; k < keys; k++) {
        uint64_t n = below(among);
        put_key(list + 8 * k, n);
        different += !seen[n];
        seen[n] = 1;
    }
    PineFileLen n;
    CALL(1, 0, n.answer, n = pine_file_size(p, (const uint8_t *)pointer(list, len), len));
    len_beside(n);
    if (n.answer.number == 0 && (n.len != 6 + different * (12 + 8 * p.dimension) || different > PINE_MAX_FILE_ENTRIES)) {
        fail("gives another length");
    }
    if (n.answer.number == PINE_FILE_FULL && different <= PINE_MAX_FILE_ENTRIES) {
        fail("refuses keys that have room");
    }
}

/* kind says which */
static void file_step(PineParam p, uint64_t d) {
    switch (kind) {
    case FILE_READ: read_step(p, d); break;
    case FILE_WRITE: write_step(p, d); break;
    case FILE_MAX: max_step(p); break;
    case FILE_ADD: add_step(p, d); break;
    default: size_step(p); break;
    }
}
