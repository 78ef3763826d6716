"""The records and lines of the program crates/vectors: document 01, 'Keyed function and cipher'
[01:SC2 KF3 KF7], and the compression of a block where it stands [02:W5.3]. The lines come from published
files and from other implementations (Python's hashlib and hmac, the openssl command, fips180.py for the
hash value after one block) and never from our own program.

  vectors.py            compares crates/vectors/stdin and stdout with what is derived here
  vectors.py --write    writes them

The published files are those of Debian's package python3-cryptography-vectors, and tests/data
where it has none.
"""
import hashlib
import hmac
import pathlib
import subprocess
import sys

import fips180
from derived import settle

HERE = pathlib.Path(__file__).resolve().parent
PROGRAM = HERE.parent / "crates" / "vectors"
PACKAGE = "python3-cryptography-vectors"

HASH, MAC, CIPHER, BLOCK = 1, 2, 3, 4
EDGES = [319, 320, 321, 1023, 1024, 1025, 4095, 4096, 65535, 65536]
LONGEST = 65536


class Literal:
    """A byte string that stands in the input."""

    def __init__(self, content):
        self.bytes = content

    def encoded(self):
        return b"\0" + len(self.bytes).to_bytes(4, "big") + self.bytes


class Generated:
    """A byte string that program and script both make of a seed (specs/Pattern.antt)."""

    def __init__(self, length, seed):
        self.seed = seed
        x, made = seed, bytearray()
        for _ in range(length):
            x = (x * 1103515245 + 12345) % 2 ** 31
            made.append(x // 65536 % 256)
        self.bytes = bytes(made)

    def encoded(self):
        return b"\1" + len(self.bytes).to_bytes(4, "big") + self.seed.to_bytes(4, "big")


class Number:
    """A number of 4 bytes."""

    def __init__(self, number):
        self.number = number

    def encoded(self):
        return self.number.to_bytes(4, "big")


def told(output):
    """The line of an output: in hexadecimal, above 1,024 bytes by its hash."""
    if len(output) <= 1024:
        return output.hex()
    return "sha256 " + hashlib.sha256(output).hexdigest()


def refused(number):
    return "refused %d, output as lent" % number


# Other implementations


def hash_line(message):
    if len(message.bytes) > LONGEST:
        return refused(9)
    return told(hashlib.sha256(message.bytes).digest())


def mac_line(key, message):
    if max(len(key.bytes), len(message.bytes)) > LONGEST:
        return refused(9)
    return told(hmac.new(key.bytes, message.bytes, "sha256").digest())


def openssl_cipher(key, nonce, text):
    """The openssl command's initial vector is the first block counter, here 1, and the nonce."""
    run = subprocess.run(["openssl", "enc", "-chacha20", "-K", key.hex(), "-iv",
                          "01000000" + nonce.hex()], input=text, capture_output=True, check=True)
    assert len(run.stdout) == len(text)
    return run.stdout


def cipher_line(key, nonce, text):
    """Refusals in order: 1, 4, 9 [01:RI2] [01:RI5] [01:RI10]."""
    if len(key.bytes) != 32:
        return refused(1)
    if len(nonce.bytes) != 12:
        return refused(4)
    if len(text.bytes) > LONGEST:
        return refused(9)
    return told(openssl_cipher(key.bytes, nonce.bytes, text.bytes))


# Published files


def package_file(end):
    files = subprocess.run(["dpkg", "-L", PACKAGE], capture_output=True, text=True)
    found = [f for f in files.stdout.split("\n") if f.endswith(end)]
    if not found:
        sys.exit("vectors.py: %s is not there: install the package %s" % (end, PACKAGE))
    return pathlib.Path(found[0])


def entries(path):
    """The entries of a file of lines 'name = value': a dictionary for each."""
    result, entry = [], {}
    for line in path.read_text().split("\n") + [""]:
        name, equals, value = line.partition(" = ")
        if line.startswith(("#", "[")):
            continue
        if equals:
            entry[name.strip()] = value.strip()
        elif entry and not line.strip():
            result.append(entry)
            entry = {}
    return result


def counted(path):
    """The entries of a file in which each begins with its COUNT: a dictionary of lists for each, since a name
    may stand again. The settings in brackets above it are among them."""
    result, settings = [], {}
    for line in path.read_text().split("\n"):
        name, equals, value = (part.strip() for part in line.strip("[] ").partition("="))
        if line.startswith("["):
            settings[name] = [value]
        elif name == "COUNT":
            result.append({name: [value], **settings})
        elif equals and result and not line.startswith("#"):
            result[-1].setdefault(name, []).append(value)
    return result


def agree(what, published, ours):
    """What is published and the other implementation have to say the same."""
    if published != ours:
        sys.exit("vectors.py: %s: published %s, computed %s" % (what, published, ours))


def published_hashes():
    """NIST's files of short and long messages for SHA-256, all of them."""
    for name in ("SHA256ShortMsg.rsp", "SHA256LongMsg.rsp"):
        for entry in entries(package_file("/SHA2/" + name)):
            length = int(entry["Len"])
            message = Literal(bytes.fromhex(entry["Msg"])[:length // 8])
            agree(name, entry["MD"], hash_line(message))
            yield HASH, (message,), entry["MD"]


def published_mac(what, key, message, published):
    """A tag, of which the first bytes are published, or all."""
    key, message = Literal(key), Literal(message)
    line = mac_line(key, message)
    agree(what, published, line[:len(published)])
    return MAC, (key, message), line


def published_macs():
    """RFC 4231, test cases 1 to 7, of case 5 the first 16 bytes; and the F in RFC 5869's examples of HKDF:
    PRK is F(salt, IKM), and OKM the first bytes of T(1), T(2) .., with T(i) = F(PRK, T(i-1), info, i)."""
    for path in (package_file("/HMAC/rfc-4231-sha256.txt"), HERE / "data" / "rfc4231.txt"):
        for entry in entries(path):
            yield published_mac("RFC 4231", bytes.fromhex(entry["Key"]), bytes.fromhex(entry["Msg"]), entry["MD"])
    for entry in counted(package_file("/KDF/rfc-5869-HKDF-SHA256.txt")):
        ikm, salt, info, prk = (bytes.fromhex(entry[name][0]) for name in ("IKM", "salt", "info", "PRK"))
        yield published_mac("RFC 5869", salt, ikm, prk.hex())
        t, okm = b"", entry["OKM"][0]
        for i in range(0, len(okm), 64):
            record = published_mac("RFC 5869", prk, t + info + bytes([i // 64 + 1]), okm[i:i + 64])
            t = bytes.fromhex(record[2])
            yield record


def published_derivations():
    """NIST's key derivations in counter mode (SP 800-108) by HMAC-SHA-256: a tag for each string, of which as
    much is published as the derived key takes."""
    for entry in counted(package_file("/KDF/nist-800-108-KBKDF-CTR.txt")):
        if entry["PRF"] == ["HMAC_SHA256"]:
            for i, message in enumerate(entry["instring"]):
                yield published_mac("SP 800-108", bytes.fromhex(entry["KI"][0]), bytes.fromhex(message),
                                    entry["KO"][0][64 * i:64 * i + 64])


def published_ciphers():
    """RFC 8439's examples, both ways. Our first block counter is 1, so an example that starts at
    a later block follows on as many blocks of zeros; one that starts at 0 has no counterpart."""
    for path in (package_file("/ChaCha20/rfc7539.txt"), HERE / "data" / "rfc8439.txt"):
        for entry in entries(path):
            blocks = int(entry["INITIAL_BLOCK_COUNTER"]) - 1
            if blocks < 0:
                continue
            key = Literal(bytes.fromhex(entry["KEY"]))
            nonce = Literal(bytes.fromhex(entry["NONCE"]))
            plain = bytes(64 * blocks) + bytes.fromhex(entry["PLAINTEXT"])
            crypt = openssl_cipher(key.bytes, nonce.bytes, plain)
            agree("RFC 8439", entry["CIPHERTEXT"], crypt[64 * blocks:].hex())
            yield CIPHER, (key, nonce, Literal(plain)), told(crypt)
            yield CIPHER, (key, nonce, Literal(crypt)), told(plain)


def published_sealings():
    """BoringSSL's and OpenSSL's vectors of AEAD_CHACHA20_POLY1305, both ways: RFC 8439, 2.8, encrypts from block
    counter 1, as E does, so that the ciphertext without its tag is E of the plaintext."""
    for end, names in (("boringssl.txt", "KEY NONCE IN CT"), ("openssl.txt", "Key IV Plaintext Ciphertext")):
        for entry in counted(package_file("/ChaCha20Poly1305/" + end)):
            values = [entry[name][0] for name in names.split()]
            key, nonce, plain, crypt = (v.strip('"').encode() if '"' in v else bytes.fromhex(v) for v in values)
            agree(end, crypt.hex(), openssl_cipher(key, nonce, plain).hex())
            yield CIPHER, (Literal(key), Literal(nonce), Literal(plain)), told(crypt)
            yield CIPHER, (Literal(key), Literal(nonce), Literal(crypt)), told(plain)


PUBLISHED = [published_hashes, published_macs, published_ciphers, published_sealings]


# Other implementations on many inputs


def many_hashes():
    for length in list(range(301)) + EDGES + [LONGEST + 1]:
        message = Generated(length, 1000 + length)
        yield HASH, (message,), hash_line(message)


def many_macs():
    for length in list(range(301)) + EDGES + [LONGEST + 1]:
        key, message = Generated(32, 2000 + length), Generated(length, 3000 + length)
        yield MAC, (key, message), mac_line(key, message)
    for length in (0, 1, 31, 33, 63, 64, 65, 66, 127, 128, 129, 131, 65535, 65536, 65537):
        for size in (0, 8, 9, 64, 65535, 65536, 65537):
            key, message = Generated(length, 4000 + length), Generated(size, 5000 + size)
            yield MAC, (key, message), mac_line(key, message)


def many_ciphers():
    """Encrypting a generated text, and decrypting what openssl made of it."""
    for length in list(range(301)) + EDGES:
        key, nonce = Generated(32, 6000 + length), Generated(12, 7000 + length)
        text = Generated(length, 8000 + length)
        crypt = openssl_cipher(key.bytes, nonce.bytes, text.bytes)
        yield CIPHER, (key, nonce, text), told(crypt)
        yield CIPHER, (key, nonce, Literal(crypt)), told(text.bytes)
    for keys in (0, 12, 31, 32, 33, 64):
        for nonces in (0, 8, 11, 12, 13, 32):
            for length in (0, 1, 65, 65536, 65537):
                key, nonce = Generated(keys, 9000 + keys), Generated(nonces, 9100 + nonces)
                text = Generated(length, 9200 + length)
                yield CIPHER, (key, nonce, text), cipher_line(key, nonce, text)


def block_line(m, place):
    """The hash value after the initial one and the block at a place; the initial one where no 64 bytes stand there."""
    block = m.bytes[place:place + 64]
    return told(fips180.digest(fips180.compress(fips180.INITIAL, block) if len(block) == 64 else fips180.INITIAL))


def many_blocks():
    """Every place of 200 bytes, places past the last block and past the end, and slices of about a block [02:W5.1 W5.3]."""
    fips180.held_to_hashlib(Generated(length, 9300 + length).bytes for length in list(range(301)) + EDGES)
    pairs = [(200, place) for place in (*range(138), 199, 200, 201, 264, 2**32 - 1)]
    pairs += [(length, place) for length in (0, 1, 63, 64, 65, 66) for place in (0, 1, 2, 3)]
    pairs += [(LONGEST, place) for place in (LONGEST - 65, LONGEST - 64, LONGEST - 63, LONGEST)]
    for length, place in pairs:
        m = Generated(length, 9700 + length)
        yield BLOCK, (m, Number(place)), block_line(m, place)


def all_records():
    for part in PUBLISHED + [many_hashes, many_macs, many_ciphers, many_blocks]:
        records = list(part())
        print("%s: %d records" % (part.__name__.replace("_", " "), len(records)), flush=True)
        yield from records


def main():
    records = list(all_records())
    stdin = len(records).to_bytes(4, "big")
    for kind, strings, _ in records:
        stdin += bytes([kind]) + b"".join(s.encoded() for s in strings)
    stdout = "".join(line + "\n" for _, _, line in records).encode()
    return settle("vectors.py", __doc__, PROGRAM, {"stdin": stdin, "stdout": stdout},
                  "the %d records and lines" % len(records))


if __name__ == "__main__":
    sys.exit(main())
