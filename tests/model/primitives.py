"""Hash, F and E of document 01, 'Keyed function and cipher', and a cheap pair in their place.

SHA-256 and HMAC are Python's own; ChaCha20 is written here from RFC 8439.
"""
import hashlib
import hmac
import struct


def number(n):
    """A number inside a message or plaintext: 8 bytes, big-endian [01:KF6]."""
    return n.to_bytes(8, "big")


def sha256(message):
    return hashlib.sha256(message).digest()


def _rotate(x, n):
    return ((x << n) | (x >> (32 - n))) & 0xFFFFFFFF


def _quarter(s, a, b, c, d):
    """RFC 8439, 2.1: sums drop the carry out of 32 bits [01:KF4]."""
    s[a] = (s[a] + s[b]) & 0xFFFFFFFF
    s[d] = _rotate(s[d] ^ s[a], 16)
    s[c] = (s[c] + s[d]) & 0xFFFFFFFF
    s[b] = _rotate(s[b] ^ s[c], 12)
    s[a] = (s[a] + s[b]) & 0xFFFFFFFF
    s[d] = _rotate(s[d] ^ s[a], 8)
    s[c] = (s[c] + s[d]) & 0xFFFFFFFF
    s[b] = _rotate(s[b] ^ s[c], 7)


def chacha20_block(key, counter, nonce):
    """RFC 8439, 2.3: the 64 bytes of one block."""
    start = list(struct.unpack("<4I", b"expand 32-byte k"))
    start += struct.unpack("<8I", key)
    start += [counter & 0xFFFFFFFF]
    start += struct.unpack("<3I", nonce)
    s = list(start)
    for _ in range(10):
        _quarter(s, 0, 4, 8, 12)
        _quarter(s, 1, 5, 9, 13)
        _quarter(s, 2, 6, 10, 14)
        _quarter(s, 3, 7, 11, 15)
        _quarter(s, 0, 5, 10, 15)
        _quarter(s, 1, 6, 11, 12)
        _quarter(s, 2, 7, 8, 13)
        _quarter(s, 3, 4, 9, 14)
    return struct.pack("<16I", *((x + y) & 0xFFFFFFFF for x, y in zip(s, start)))


def xor(text, stream):
    return bytes(x ^ y for x, y in zip(text, stream))


class Real:
    """F is HMAC over SHA-256 [01:KF1], E is ChaCha20 from block counter 1 [01:KF2]."""

    name = "real"

    @staticmethod
    def F(key, message):
        return hmac.digest(key, message, "sha256")

    @staticmethod
    def E(key, nonce, text):
        blocks = (len(text) + 63) // 64
        return xor(text, b"".join(chacha20_block(key, 1 + i, nonce) for i in range(blocks)))


class Cheap:
    """The same laws at less cost: F gives 32 bytes, E keeps the length and undoes itself."""

    name = "cheap"

    @staticmethod
    def F(key, message):
        return hashlib.sha256(len(key).to_bytes(2, "big") + key + message).digest()

    @staticmethod
    def E(key, nonce, text):
        blocks = (len(text) + 31) // 32
        stream = (hashlib.sha256(key + nonce + bytes([i])).digest() for i in range(blocks))
        return xor(text, b"".join(stream))
