#!/usr/bin/env python3
"""Writes the cases of crates/vectors and what each must give.

    tools/vectors.py            writes crates/vectors/stdin and crates/vectors/stdout

The answers come from hashlib and hmac of Python's standard library, an implementation that shares
nothing with this repository. Published values stand below as they were published, and hashlib has to
give exactly these before a file is written. The other cases are random from a fixed seed, so a second
run writes the same bytes.

Sources: FIPS 180-4 and NIST's example values for SHA-256; RFC 4231, HMAC-SHA-256; RFC 7914, section 11,
PBKDF2-HMAC-SHA-256; the passwords and salts of RFC 6070 under SHA-256, whose values are widely agreed
and in no RFC. crates/vectors/src/main.rt has the forms of a line.

PBKDF2 here always gives 32 bytes, so the first 32 of a longer published value are compared, and 0
rounds count as 1, where hashlib takes no 0.
"""

import hashlib
import hmac
import random

from case_files import line, save, word

EDGES = [0, 1, 3, 4, 31, 32, 33, 54, 55, 56, 57, 63, 64, 65, 111, 112, 118, 119, 120, 121, 127, 128, 129, 183, 184,
         191, 192, 193, 247, 248, 255, 256, 257, 300]
KEY_EDGES = [0, 1, 20, 32, 55, 56, 62, 63, 64, 65, 66, 100, 127, 128, 129, 131, 200]

SHA256 = [
    (b"", "e3b0c44298fc1c149afbf4c8996fb92427ae41e4649b934ca495991b7852b855"),
    (b"abc", "ba7816bf8f01cfea414140de5dae2223b00361a396177a9cb410ff61f20015ad"),
    (b"abcdbcdecdefdefgefghfghighijhijkijkljklmklmnlmnomnopnopq",
     "248d6a61d20638b8e5c026930c3e6039a33ce45964ff2167f6ecedd419db06c1"),
    (b"abcdefghbcdefghicdefghijdefghijkefghijklfghijklmghijklmnhijklmnoijklmnopjklmnopqklmnopqrlmnopqrsmnopqrstnopqrstu",
     "cf5b16a778af8380036ce59e7b0492370b249b11e8f07a51afac45037afee9d1"),
]
MILLION = "cdc76e5c9914fb9281a1c7e284d73e67f1809a48a497200e046d39ccc7112cd0"

# key, message, code; the fifth is published cut to 128 bits
HMAC = [
    (b"\x0b" * 20, b"Hi There", "b0344c61d8db38535ca8afceaf0bf12b881dc200c9833da726e9376c2e32cff7"),
    (b"Jefe", b"what do ya want for nothing?", "5bdcc146bf60754e6a042426089575c75a003f089d2739839dec58b964ec3843"),
    (b"\xaa" * 20, b"\xdd" * 50, "773ea91e36800e46854db8ebd09181a72959098b3ef8c122d9635514ced565fe"),
    (bytes(range(1, 26)), b"\xcd" * 50, "82558a389a443c0ea4cc819899f2083a85f0faa3e578f8077a2e3ff46729665b"),
    (b"\x0c" * 20, b"Test With Truncation", "a3b6167473100ee06e0c796c2955552b"),
    (b"\xaa" * 131, b"Test Using Larger Than Block-Size Key - Hash Key First",
     "60e431591ee0b67f0d8a26aacbf5b77f8e0bc6213728c5140546040f0ee37f54"),
    (b"\xaa" * 131, b"This is a test using a larger than block-size key and a larger than block-size data. "
     b"The key needs to be hashed before being used by the HMAC algorithm.",
     "9b09ffa71b942fcb27635fbcd5b0e944bfdc63644f0713938a7f51535c3a35e2"),
]

# password, salt, rounds, the first 32 bytes
PBKDF2 = [
    (b"passwd", b"salt", 1, "55ac046e56e3089fec1691c22544b605f94185216dde0465e68b9d57c20dacbc"),
    (b"Password", b"NaCl", 80000, "4ddcd8f60b98be21830cee5ef22701f9641a4418d04c0414aeff08876b34ab56"),
    (b"password", b"salt", 1, "120fb6cffcf8b32c43e7225256c4f837a86548c92ccc35480805987cb70be17b"),
    (b"password", b"salt", 2, "ae4d0c95af6b46d32d0adff928f06dd02a303f8ef3c251dfd6e2d85a95474c43"),
    (b"password", b"salt", 4096, "c5e478d59288c841aa530db6845c4c8d962893a001ce4e11a4963873aa98134a"),
]

REFUSED = [
    ("", "no such form"),
    ("sha1 616263", "no such form"),
    ("SHA256 616263", "no such form"),
    (" sha256 616263", "no such form"),
    ("sha256", "wrong number of words for this form"),
    ("sha256 61 62", "wrong number of words for this form"),
    ("hmac", "wrong number of words for this form"),
    ("parts 61 62 63", "wrong number of words for this form"),
    ("equal 61", "wrong number of words for this form"),
    ("sha256 ", "an empty word (the empty string is written -)"),
    ("pieces 61  62", "an empty word (the empty string is written -)"),
    ("sha256 616", "an odd number of hexadecimal digits"),
    ("hmac - --", "byte 45 is no lower-case hexadecimal digit"),
    ("sha256 6G", "byte 71 is no lower-case hexadecimal digit"),
    ("sha256 AB", "byte 65 is no lower-case hexadecimal digit"),
    ("sha256 0/", "byte 47 is no lower-case hexadecimal digit"),
    ("sha256 :0", "byte 58 is no lower-case hexadecimal digit"),
    ("sha256 `0", "byte 96 is no lower-case hexadecimal digit"),
    ("equal 61 \u00e9", "byte 195 is no lower-case hexadecimal digit"),
    ("repeat many 61", "no number below 4294967296"),
    ("repeat -1 61", "no number below 4294967296"),
    ("pbkdf2 61 62 4294967296", "no number below 4294967296"),
]


def sha256(data):
    return hashlib.sha256(data).hexdigest()


def code(key, data):
    return hmac.new(key, data, hashlib.sha256).hexdigest()


def derived(password, salt, rounds):
    return hashlib.pbkdf2_hmac("sha256", password, salt, max(rounds, 1)).hex()


def cut(rng, data, places):
    """The data in places + 1 pieces; two equal places make an empty piece."""
    ends = sorted(rng.randint(0, len(data)) for _ in range(places)) + [len(data)]
    return [data[start:end] for start, end in zip([0] + ends, ends)]


def published():
    for data, digest in SHA256:
        assert sha256(data) == digest, data
        yield line("sha256", data), digest
        yield line("pieces", data[:1], data[1:]), digest
    assert sha256(b"a" * 1000000) == MILLION
    yield "repeat 1000000 61", MILLION
    yield "repeat 15625 " + word(b"a" * 64), MILLION
    for key, data, front in HMAC:
        assert code(key, data).startswith(front), data
        yield line("hmac", key, data), code(key, data)
        yield line("parts", key, data[:3], data[3:70], data[70:]), code(key, data)
    for password, salt, rounds, digest in PBKDF2:
        assert derived(password, salt, rounds) == digest, (password, salt, rounds)
        yield f"{line('pbkdf2', password, salt)} {rounds}", digest


def lengths(rng, edges, most):
    return edges + [rng.randint(0, most) for _ in edges]


def random_digests(rng):
    for n in lengths(rng, EDGES, 300):
        data = rng.randbytes(n)
        yield line("sha256", data), sha256(data)
        yield line("pieces", *cut(rng, data, rng.randint(0, 6))), sha256(data)
    yield "pieces", sha256(b"")
    yield "pieces - - -", sha256(b"")
    for unit, count in [(0, 9), (1, 0), (1, 64), (3, 1000), (63, 65), (64, 7), (65, 63), (300, 21)]:
        data = rng.randbytes(unit)
        yield f"repeat {count} {word(data)}", sha256(data * count)


def random_codes(rng):
    for n in lengths(rng, KEY_EDGES, 200):
        key, data = rng.randbytes(n), rng.randbytes(rng.choice(EDGES + [rng.randint(0, 300)]))
        yield line("hmac", key, *cut(rng, data, rng.randint(0, 5))), code(key, data)
        yield line("parts", key, *cut(rng, data, 2)), code(key, data)
    yield "hmac -", code(b"", b"")
    for n in lengths(rng, KEY_EDGES, 200):
        password, salt, rounds = rng.randbytes(n), rng.randbytes(rng.randint(0, 150)), rng.randint(0, 50)
        yield f"{line('pbkdf2', password, salt)} {rounds}", derived(password, salt, rounds)
    for rounds in [0, 1]:
        yield f"{line('pbkdf2', b'zero', b'is one')} {rounds}", derived(b"zero", b"is one", 1)


def comparisons(rng):
    for n in [0, 1, 2, 7, 8, 9, 31, 32, 33, 64, 200]:
        data = rng.randbytes(n)
        yield line("equal", data, data), "true"
        yield line("equal", data, data + b"\0"), "false"
        for place in sorted({0, n // 2, n - 1}) if n else []:
            other = bytearray(data)
            other[place] ^= 1 << rng.randrange(8)
            yield line("equal", data, other), "false"
            yield line("equal", data, data[:place]), "false"


def main():
    rng = random.Random("sha-256, hmac and pbkdf2")
    cases = [*published(), *random_digests(rng), *random_codes(rng), *comparisons(rng)]
    save("vectors", rng, cases, REFUSED)


if __name__ == "__main__":
    main()
