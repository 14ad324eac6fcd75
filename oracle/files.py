"""Cases of the day's file: fileread, filewrite, fileadd, filemax, filesize.

The original has no such calls. What a case gives is worked out here, from docs/PINE.md, "The day's file": a file is a list
of entries, and its bytes are made from them.
"""

from typing import NamedTuple

from common import (BAD, BROKEN, INPUTS, OK, P, TOP, Inputs, Kind, Later, below, case_of, changed, combined, damage,
                    draw_small, element, elements, faults, first, first_rule, lent, octets, refused, resized, rule_7, rule_12,
                    vec)

MOST_ENTRIES = 1024
MOST_REPORTS = 2**32 - 1
ROOM = 262144   # the bytes of the longest row that replay lends


class Entry(NamedTuple):
    address: bytes
    valve: int
    reports: int
    body: list

    @property
    def order(self):
        """By the bytes of the address from the first on, then by the valve."""
        return self.address, self.valve


def contents_of(entries):
    return b"".join(e.address + e.valve.to_bytes(2, "little") + e.reports.to_bytes(4, "little") for e in entries)


def bodies_of(entries):
    return [x for e in entries for x in e.body]


def file_of(d, entries):
    bodies = b"".join(x.to_bytes(8, "little") for x in bodies_of(entries))
    return len(entries).to_bytes(2, "little") + d.to_bytes(4, "little") + contents_of(entries) + bodies


def file_len(d, count):
    return 6 + count * (12 + 8 * d)


def entry_of(contents, body):
    return Entry(contents[:6], int.from_bytes(contents[6:8], "little"), int.from_bytes(contents[8:], "little"), body)


def entries_of(d, contents, bodies):
    return [entry_of(contents[12 * i:12 * i + 12], bodies[d * i:d * i + d]) for i in range(len(contents) // 12)]


def in_order(entries):
    """Whether entries may stand in a file so."""
    rise = all(a.order < b.order for a, b in zip(entries, entries[1:]))
    return len(entries) <= MOST_ENTRIES and rise and all(x < P for x in bodies_of(entries))


def count_in(data):
    return int.from_bytes(data[:2], "little") if len(data) >= 2 else 0


def entries_in(d, data):
    """The entries of a file of dimension d, None where the bytes are none."""
    count = count_in(data)
    if len(data) < 6 or int.from_bytes(data[2:6], "little") != d or len(data) != file_len(d, count):
        return None
    start = 6 + 12 * count
    bodies = [int.from_bytes(data[at:at + 8], "little") for at in range(start, len(data), 8)]
    entries = entries_of(d, data[6:start], bodies)
    return entries if in_order(entries) else None


def rule_14(right):
    return OK if right else refused(14)


def split_key(key):
    return key[:6], int.from_bytes(key[6:], "little")


def room_and_reports(entries, key):
    """Rules 15 and 16 of a report of this key."""
    orders = [e.order for e in entries]
    if split_key(key) not in orders:
        return refused(15) if len(entries) >= MOST_ENTRIES else OK
    at = orders.index(split_key(key))
    return refused(16, at) if entries[at].reports == MOST_REPORTS else OK


def with_report(d, entries, key, share):
    address, valve = split_key(key)
    kept = [e for e in entries if e.order != (address, valve)]
    old = next((e for e in entries if e.order == (address, valve)), Entry(address, valve, 0, [0] * d))
    new = Entry(address, valve, old.reports + 1, [(a + b) % P for a, b in zip(old.body, share)])
    return sorted([*kept, new], key=lambda e: e.order)


# The calls

def lens_lent(derived, out, bytes_each):
    """The lengths of the rows lent, None where replay cannot lend them."""
    lens = [*out, *derived[len(out):]]
    return lens if all(n * each <= ROOM for n, each in zip(lens, bytes_each)) else None


def read(inputs, data, out=()):
    d = inputs.d if first_rule(inputs) == 0 else 0
    count = count_in(data)
    derived = 12 * count, d * count
    lens = lens_lent(derived, out, (1, 8))
    entries = entries_in(d, data)
    want = BAD if lens is None else first(
        refused(first_rule(inputs)), rule_7((0, None), (lens[0], derived[0]), (lens[1], derived[1])),
        rule_14(entries is not None))
    return case_of("fileread", inputs, f" {octets(data)}{lent(out)}", want,
                   lambda: f"{octets(contents_of(entries))} {vec(bodies_of(entries))}", worked_out=True)


def write(inputs, count, contents, bodies, out=()):
    d = inputs.d if first_rule(inputs) == 0 else 0
    derived = file_len(d, count)
    lens = lens_lent((derived,), out, (1,))
    want = BAD if lens is None else first(
        refused(first_rule(inputs)), rule_7((len(contents), 12 * count), (len(bodies), d * count), (lens[0], derived)))
    if want == OK:
        want = rule_14(in_order(entries_of(d, contents, bodies)))
    return case_of("filewrite", inputs, f" {count} {octets(contents)} {vec(bodies)}{lent(out)}", want,
                   lambda: octets(file_of(d, entries_of(d, contents, bodies))), worked_out=True)


def add(inputs, key, data, share, out=()):
    d = inputs.d if first_rule(inputs) == 0 else 0
    derived = len(data) + 12 + 8 * d
    lens = lens_lent((derived,), out, (1,))
    entries = entries_in(d, data)
    if lens is None or len(key) != 8:
        want = BAD
    else:
        want = first(refused(first_rule(inputs)), rule_7((0, None), (len(share), d), (lens[0], derived)),
                     rule_14(entries is not None), rule_12(share))
        want = room_and_reports(entries, key) if want == OK else want

    def given():
        new = file_of(d, with_report(d, entries, key, share))
        return f"{len(new)} {octets(new)}"
    return case_of("fileadd", inputs, f" {octets(key)} {octets(data)} {vec(share)}{lent(out)}", want, given,
                   worked_out=True)


def most(inputs, reports):
    want = refused(first_rule(inputs)) if reports <= MOST_REPORTS else BAD
    return case_of("filemax", inputs, f" {reports}", want,
                   lambda: str(file_len(inputs.d, min(reports, MOST_ENTRIES))), worked_out=True)


def size(inputs, keys):
    """No list in a line has 2^32 reports: rule 16 cannot be met."""
    different = {keys[at:at + 8] for at in range(0, len(keys), 8)}
    want = first(refused(first_rule(inputs)), rule_7((len(keys) % 8, 0)),
                 refused(15) if len(different) > MOST_ENTRIES else OK)
    return case_of("filesize", inputs, f" {octets(keys)}", want,
                   lambda: str(file_len(inputs.d, len(different))), worked_out=True)


# Edges

ONE = Inputs(5, 1, 0, 4, 2, 2, 1)
TWO = ONE._replace(d=2)

# Rule 19.
ZERO = {"later": Later(0, 10)}


def key_of(address, valve):
    return bytes(address) + valve.to_bytes(2, "little")


def entry(key, reports, body):
    return Entry(*split_key(key), reports, body)


LOW, HIGH = key_of((2, 0, 0, 0, 0, 9), 7), key_of((2, 0, 0, 0, 0, 10), 7)
NEW = key_of((2, 0, 0, 0, 0, 9), 8)
PAIR = [entry(LOW, 3, [5]), entry(HIGH, 4, [P - 1])]
PAIR_FILE = file_of(1, PAIR)

# Two keys each, of which the first comes before the second.
RISING = [(key_of([0] * i + [1] + [0] * (5 - i), 0), key_of([0] * i + [2] + [0] * (5 - i), 0)) for i in range(6)]
RISING += [(key_of([0] * i + [1] + [255] * (5 - i), 65535), key_of([0] * i + [2] + [0] * (5 - i), 0)) for i in range(6)]
RISING += [(key_of([9] * 6, a), key_of([9] * 6, b)) for a, b in ((0, 1), (1, 256), (255, 256), (256, 257), (511, 512),
                                                                (1, 65535), (127, 128), (32767, 32768))]
RISING += [(bytes(8), bytes([255] * 8)), (key_of([0, 0, 0, 0, 0, 255], 65535), key_of([0, 0, 0, 0, 1, 0], 0))]


def damaged():
    """Files of dimension 1 with one damage: each bit of the header, of the first entry and of the first body flipped; cut
    at every length, or longer; keys equal or swapped; elements at p; as of another dimension."""
    header_entry_body = [*range(18), *range(30, 38)]
    for at in header_entry_body:
        for bit in range(8):
            yield PAIR_FILE[:at] + bytes([PAIR_FILE[at] ^ 1 << bit]) + PAIR_FILE[at + 1:]
    for length in range(len(PAIR_FILE)):
        yield PAIR_FILE[:length]
    for more in (1, 8, 20):
        yield PAIR_FILE + bytes(more)
    yield file_of(1, PAIR[:1] * 2)
    yield file_of(1, PAIR[::-1])
    for low, high in RISING:
        yield file_of(1, [entry(low, 0, [1]), entry(high, MOST_REPORTS, [2])])
        yield file_of(1, [entry(high, 0, [1]), entry(low, 1, [2])])
        yield file_of(1, [entry(low, 0, [1]), entry(low, 1, [2])])
    for x in (P - 1, P, P + 1, TOP):
        for i in range(2):
            bodies = [[x] if i == k else [1] for k in range(2)]
            yield file_of(1, [e._replace(body=body) for e, body in zip(PAIR, bodies)])
    yield file_of(2, [entry(LOW, 1, [1, 2])])
    yield file_of(1, [])
    yield file_of(0, [])


def read_limits():
    for data in damaged():
        case = read(ONE, data)
        yield read(ONE, data, (24, 2)) if case.want == BAD else case
    for changes in combined((*BROKEN, ZERO, {"out": (25, 2)}, {"out": (24, 1)}, {"file": file_of(1, PAIR[::-1])})):
        yield read(changed(ONE, changes), changes.get("file", PAIR_FILE), changes.get("out", ()))
    for out in ((23,), (25,), (24, 1), (24, 3), (0, 0), (23, 1), (24, 2)):
        yield read(ONE, PAIR_FILE, out)
    for length in range(3):     # a count of 0, or one that is 1
        for out in ((), (0, 0), (12, 1), (0, 1), (1,)):
            yield read(ONE, b"\1\0\1"[:length], out)
    for count in (1023, 1024, 1025, 65535):
        yield read(ONE, count.to_bytes(2, "little") + bytes(44), (24, 2))
    for d in range(1, 6):
        for many in range(4):
            yield read(ONE._replace(d=d), file_of(d, [entry(key_of((1, 2, 3, 4, 5, 6), i), i, [i * d + k for k in range(d)])
                                                     for i in range(many)]))
    yield read(ONE, file_of(1, many_entries(MOST_ENTRIES)))
    yield read(ONE, file_of(1, many_entries(MOST_ENTRIES + 1)))


def many_entries(many, reports=1):
    return [entry(key_of((0, 0, 0, 0, i >> 8, i & 255), 5), reports, [i]) for i in range(many)]


def write_limits():
    contents, bodies = contents_of(PAIR), bodies_of(PAIR)
    for changes in combined((*BROKEN, ZERO, {"contents": contents + b"\0"}, {"bodies": bodies + [0]}, {"out": (47,)},
                             {"count": 3}, {"over": [P, 5]})):
        yield write(changed(ONE, changes), changes.get("count", 2), changes.get("contents", contents),
                    changes.get("over", changes.get("bodies", bodies)), changes.get("out", (46,)))
    for row in (contents[:-1], contents[:12], b"", contents + contents):
        yield write(ONE, 2, row, bodies)
    for row in (bodies[:1], [], bodies + bodies):
        yield write(ONE, 2, contents, row)
    for out in (0, 5, 6, 45, 46, 47):
        yield write(ONE, 2, contents, bodies, (out,))
        yield write(ONE, 0, b"", [], (out,))
    # counts whose products are short in 64 bits
    for count in (2**62, 2**63, 2**64 - 1, 2**62 + 1, 2**61, 2**60, 2**32, 2**58, 1537228672809129302, 3 * 2**61):
        for out in ((0,), (6,), (46,)):
            yield write(ONE, count, contents, bodies, out)
            yield write(ONE, count, b"", [], out)
            yield write(ONE._replace(d=65536), count, b"", [], out)
    for low, high in RISING:
        for pair in (low, high), (high, low), (low, low):
            yield write(ONE, 2, contents_of([entry(key, i, [i]) for i, key in enumerate(pair)]), [1, 2])
    for i in range(4):
        for x in (P - 1, P, TOP):
            row = [1, 2, 3, 4]
            row[i] = x
            yield write(TWO, 2, contents, row)
    for many in (MOST_ENTRIES, MOST_ENTRIES + 1):
        entries = many_entries(many)
        yield write(ONE, many, contents_of(entries), bodies_of(entries))


def add_limits():
    for data in damaged():
        yield add(ONE, NEW, data, [P - 1])
    again = file_of(1, [PAIR[0], PAIR[1]._replace(reports=MOST_REPORTS)])
    for changes in combined((*BROKEN, ZERO, {"share": [1, 2]}, {"more": 1}, {"file": PAIR_FILE[:-1]}, {"over": [P]},
                             {"key": HIGH, "full": again})):
        data = changes.get("file", changes.get("full", PAIR_FILE))
        yield add(changed(ONE, changes), changes.get("key", NEW), data, changes.get("over", changes.get("share", [9])),
                  (len(data) + 20 + changes.get("more", 0),))
    for out in (0, 45, 46, 65, 67, 66):
        yield add(ONE, NEW, PAIR_FILE, [9], (out,))
    for share in ([], [1], [1, 2], [P], [TOP], [P, P]):
        yield add(ONE, LOW, PAIR_FILE, share)
        yield add(TWO, LOW, file_of(2, []), share)
    for i, share in enumerate(([P, 1], [1, P], [P, TOP])):
        yield add(TWO, LOW, file_of(2, [entry(LOW, i, [3, 4])]), share)
    for length in (0, 1, 7, 9, 16):
        yield add(ONE, (LOW * 2)[:length], PAIR_FILE, [9])
    # a key before, between, at and behind those that are held, which differ in one byte
    for low, high in RISING:
        for held in [], [low], [high], [low, high]:
            data = file_of(1, [entry(key, 1 + i, [10 + i]) for i, key in enumerate(held)])
            yield add(ONE, low, data, [P - 10])
            yield add(ONE, high, data, [P - 1])
    for reports in (0, 1, 255, 256, 65535, 2**31, MOST_REPORTS - 1, MOST_REPORTS):
        for at in range(2):
            data = file_of(1, [e._replace(reports=reports) if i == at else e for i, e in enumerate(PAIR)])
            for key in LOW, HIGH, NEW:
                yield add(ONE, key, data, [1])
    # at the greatest count, which 12 and 14 come before
    full = file_of(1, many_entries(MOST_ENTRIES))
    for share in [1], [P]:
        yield add(ONE, NEW, full, share)
    yield add(ONE, full[6 + 12 * 700:][:8], full, [5])
    yield add(ONE, NEW, full[:-1] + b"\xff", [5])
    yield add(ONE, NEW, file_of(1, many_entries(MOST_ENTRIES - 1)), [5])
    yield add(ONE, full[6 + 12 * 1023:][:8], file_of(1, many_entries(MOST_ENTRIES, MOST_REPORTS)), [5])


def most_limits():
    for changes in combined((*BROKEN, ZERO)):
        yield most(changed(ONE, changes), 7)
    for d in (1, 2, 255, 256, 8191, 65535, 65536, 65537, 0):
        for reports in (0, 1, 2, 1023, 1024, 1025, 65536, 2**31, MOST_REPORTS - 1, MOST_REPORTS, MOST_REPORTS + 1, TOP):
            yield most(ONE._replace(d=d), reports)


def size_limits():
    for changes in combined((*BROKEN, ZERO, {"keys": LOW + HIGH + b"\0"})):
        yield size(changed(ONE, changes), changes.get("keys", LOW + HIGH))
    for length in range(34):
        yield size(ONE, (LOW + HIGH + NEW + LOW + HIGH)[:length])
    for low, high in RISING:
        for keys in (low, high), (high, low), (low, low), (low, high, low), (high, high, low, high, low):
            yield size(ONE, b"".join(keys))
    for d in (1, 2, 255, 256, 65535, 65536):
        yield size(ONE._replace(d=d), b"")
        yield size(ONE._replace(d=d), LOW + HIGH + LOW)
    for many in (MOST_ENTRIES, MOST_ENTRIES + 1):
        keys = [key_of((i & 255, 0, 0, 0, 0, 1), i >> 8) for i in range(many)]
        yield size(TWO, b"".join(keys))
        yield size(TWO, b"".join([*keys[::-1], *keys[:3]]))


# Drawn

def draw_key(rng):
    """Of few addresses and valves, so that keys meet."""
    address = bytearray(rng.choice((bytes(6), b"\2\0\0\0\0\1", b"\xff" * 6)))
    address[below(rng, 6)] += below(rng, 2) if address[0] < 255 else 0
    return bytes(address) + rng.choice((0, 1, 2, 255, 256, 512, 65535)).to_bytes(2, "little")


def draw_entries(rng, d):
    keys = sorted({draw_key(rng) for _ in range(below(rng, 5))}, key=split_key)
    reports = (0, 1, 7, MOST_REPORTS - 1, MOST_REPORTS, 2**16)
    return [entry(key, rng.choice(reports), elements(rng, d)) for key in keys]


def spoiled(rng, d, entries):
    """Entries or bytes with one damage; that may by chance be none."""
    way = below(rng, 5)
    if way == 0 and len(entries) > 1:
        at = below(rng, len(entries) - 1)
        entries = entries[:at] + [entries[at + 1], entries[at]] + entries[at + 2:]
    elif way == 1 and entries:
        at = below(rng, len(entries))
        entries = entries[:at] + [entries[at]._replace(body=damage(rng, entries[at].body))] + entries[at + 1:]
    data = bytearray(file_of(d, entries))
    if way == 2:
        data[below(rng, min(len(data), 6 + 12 * len(entries)))] ^= 1 << below(rng, 8)
    elif way == 3:
        data = data[:below(rng, len(data) + 1)]
    elif way == 4:
        data += bytes(rng.choice((1, 8, 12 + 8 * d)))
    return bytes(data)


def draw_read(rng, later=None):
    wrong = faults(rng, [*INPUTS, "file", "file", "file", "out"])
    inputs = draw_small(rng, wrong, later, 1 + below(rng, 3))
    d = inputs.d if 0 < inputs.d < 4 else 1
    entries = draw_entries(rng, d)
    data = spoiled(rng, d, entries) if "file" in wrong else file_of(d, entries)
    out = (12 * len(entries) + below(rng, 3) - 1, d * len(entries) + below(rng, 2)) if "out" in wrong and entries else ()
    case = read(inputs, data, out)
    return read(inputs, data, (12, d)) if case.want == BAD else case


def draw_write(rng, later=None):
    wrong = faults(rng, [*INPUTS, "file", "contents", "bodies", "out"])
    inputs = draw_small(rng, wrong, later, 1 + below(rng, 3))
    d = inputs.d if 0 < inputs.d < 4 else 1
    entries = draw_entries(rng, d)
    if "file" in wrong:
        rng.shuffle(entries)
    bodies = bodies_of(entries)
    if "file" in wrong and rng.getrandbits(1):
        bodies = damage(rng, bodies)
    contents = contents_of(entries)
    if "contents" in wrong:
        contents = bytes(resized(rng, contents, lambda r: below(r, 256)))
    if "bodies" in wrong:
        bodies = resized(rng, bodies, element)
    out = (max(file_len(d, len(entries)) + below(rng, 3) - 1, 0),) if "out" in wrong else ()
    return write(inputs, len(entries), contents, bodies, out)


def draw_add(rng, later=None):
    wrong = faults(rng, [*INPUTS, "file", "share", "element", "out"])
    inputs = draw_small(rng, wrong, later, 1 + below(rng, 3))
    d = inputs.d if 0 < inputs.d < 4 else 1
    entries = draw_entries(rng, d)
    data = spoiled(rng, d, entries) if "file" in wrong else file_of(d, entries)
    share = elements(rng, d)
    if "element" in wrong:
        share = damage(rng, share)
    if "share" in wrong:
        share = resized(rng, share, element)
    out = (max(len(data) + 12 + 8 * d + below(rng, 3) - 1, 0),) if "out" in wrong else ()
    return add(inputs, draw_key(rng), data, share, out)


def draw_most(rng, later=None):
    inputs = draw_small(rng, faults(rng, [*INPUTS]), later)
    return most(inputs, rng.choice((below(rng, 2000), rng.getrandbits(1 + below(rng, 33)), MOST_REPORTS)))


def draw_size(rng, later=None):
    wrong = faults(rng, [*INPUTS, "keys"])
    keys = b"".join(draw_key(rng) for _ in range(below(rng, 12)))
    if "keys" in wrong:
        keys += bytes(1 + below(rng, 7))
    return size(draw_small(rng, wrong, later), keys)


KINDS = {
    "fileread": Kind(draw_read, read_limits, drawn=60, worked_out=True),
    "filewrite": Kind(draw_write, write_limits, drawn=60, worked_out=True),
    "fileadd": Kind(draw_add, add_limits, drawn=60, worked_out=True),
    "filemax": Kind(draw_most, most_limits, drawn=30, worked_out=True),
    "filesize": Kind(draw_size, size_limits, drawn=60, worked_out=True),
}
