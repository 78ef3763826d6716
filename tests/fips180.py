"""The compression of SHA-256, written from FIPS 180-4: Python's hashlib gives no hash value between two blocks. It holds itself to
hashlib before it is used (`held_to_hashlib`), and knows nothing of our own code."""
import hashlib
import itertools
import math
import struct

MODULUS = 2**32


def primes():
    return (n for n in itertools.count(2) if all(n % d for d in range(2, math.isqrt(n) + 1)))


def cube_root(n):
    """The greatest integer whose cube is at most n."""
    root = 0
    for bit in reversed(range(n.bit_length() // 3 + 1)):
        if (root + 2**bit)**3 <= n:
            root += 2**bit
    return root


# 4.2.2 and 5.3.3: the first 32 bits of the fractional parts of roots of the first primes.
K = [cube_root(p * 2**96) % MODULUS for p in itertools.islice(primes(), 64)]
INITIAL = [math.isqrt(p * 2**64) % MODULUS for p in itertools.islice(primes(), 8)]


def rotr(n, x):
    return x >> n | (x << (32 - n)) % MODULUS


def compress(value, block):
    """6.2.2: the hash value, eight words, after a block of 64 bytes."""
    w = list(struct.unpack(">16I", block))
    for t in range(16, 64):
        s0 = rotr(7, w[t - 15]) ^ rotr(18, w[t - 15]) ^ (w[t - 15] >> 3)
        s1 = rotr(17, w[t - 2]) ^ rotr(19, w[t - 2]) ^ (w[t - 2] >> 10)
        w.append((s1 + w[t - 7] + s0 + w[t - 16]) % MODULUS)
    a, b, c, d, e, f, g, h = value
    for t in range(64):
        t1 = h + (rotr(6, e) ^ rotr(11, e) ^ rotr(25, e)) + ((e & f) ^ (~e & g)) + K[t] + w[t]
        t2 = (rotr(2, a) ^ rotr(13, a) ^ rotr(22, a)) + ((a & b) ^ (a & c) ^ (b & c))
        a, b, c, d, e, f, g, h = (t1 + t2) % MODULUS, a, b, c, (d + t1) % MODULUS, e, f, g
    return [(x + y) % MODULUS for x, y in zip(value, (a, b, c, d, e, f, g, h))]


def digest(value):
    return struct.pack(">8I", *value)


def sha256(message):
    """6.2 with the padding of 5.1.1."""
    padded = message + b"\x80" + bytes(-(len(message) + 9) % 64) + (8 * len(message)).to_bytes(8, "big")
    value = INITIAL
    for at in range(0, len(padded), 64):
        value = compress(value, padded[at:at + 64])
    return digest(value)


def held_to_hashlib(messages):
    for message in messages:
        if sha256(message) != hashlib.sha256(message).digest():
            raise SystemExit("fips180.py: hashlib has another hash of %s" % message.hex())
