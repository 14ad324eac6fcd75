"""TurboSHAKE128 by RFC 9861, and XofTurboShake128 over it, in whole numbers: written from the RFC and FIPS 202, and from
nothing else here. Slow and plain."""

LANE = (1 << 64) - 1
RATE = 168


def rotl(w, n):
    return (w << n | w >> (64 - n)) & LANE


def offsets():
    """FIPS 202, algorithm 2: by how many places lane A[x, y] is moved up."""
    found = {(0, 0): 0}
    x, y = 1, 0
    for t in range(24):
        found[x, y] = (t + 1) * (t + 2) // 2 % 64
        x, y = y, (2 * x + 3 * y) % 5
    return found


def constants():
    """FIPS 202, algorithms 5 and 6: the constants of the 24 rounds of Keccak-f[1600]."""
    register, bits = [1, 0, 0, 0, 0, 0, 0, 0], []
    for _ in range(255):
        bits.append(register[0])
        register = [0] + register
        for k in (0, 4, 5, 6):
            register[k] ^= register[8]
        register = register[:8]
    return [sum(bits[(j + 7 * i) % 255] << (2**j - 1) for j in range(7)) for i in range(24)]


CONSTANTS = constants()[-12:]

# Lane A[x, y] is number x + 5 y. Of each: by how many places rho moves it, and where pi puts it; the two that chi takes.
LANES = [(x, y) for y in range(5) for x in range(5)]
MOVES = [(offsets()[x, y], y + 5 * ((2 * x + 3 * y) % 5)) for x, y in LANES]
BESIDE = [((x + 1) % 5 + 5 * y, (x + 2) % 5 + 5 * y) for x, y in LANES]


def permuted(a):
    """Keccak-p[1600, 12] of 25 lanes."""
    for constant in CONSTANTS:
        c = [a[x] ^ a[x + 5] ^ a[x + 10] ^ a[x + 15] ^ a[x + 20] for x in range(5)]
        d = [c[x - 1] ^ rotl(c[(x + 1) % 5], 1) for x in range(5)]
        b = [0] * 25
        for i, (places, to) in enumerate(MOVES):
            b[to] = rotl(a[i] ^ d[i % 5], places)
        a = [b[i] ^ (~b[one] & b[two]) for i, (one, two) in enumerate(BESIDE)]
        a[0] ^= constant
    return a


def permuted_bytes(state):
    lanes = permuted([int.from_bytes(state[i:i + 8], "little") for i in range(0, 200, 8)])
    return b"".join(lane.to_bytes(8, "little") for lane in lanes)


def xored(state, block):
    return bytes(s ^ b for s, b in zip(state, block + bytes(len(state) - len(block))))


def turbo_shake128(message, domain, length):
    padded = bytearray(message + bytes([domain]))
    padded += bytes(-len(padded) % RATE)
    padded[-1] ^= 0x80
    state = bytes(200)
    for i in range(0, len(padded), RATE):
        state = permuted_bytes(xored(state, bytes(padded[i : i + RATE])))
    output = state[:RATE]
    while len(output) < length:
        state = permuted_bytes(state)
        output += state[:RATE]
    return output[:length]


def dst(usage):
    """The tag of a usage, as PINE makes it: a version, the algorithm id, the usage."""
    return b"\x01\xff\xff\xff\xff" + usage.to_bytes(2, "big")


def xof_turbo_shake128(seed, dst, binder, length):
    return turbo_shake128(bytes([len(dst)]) + dst + seed + binder, 1, length)
