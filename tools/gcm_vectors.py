#!/usr/bin/env python3
"""Writes the cases of crates/gcm_vectors and what each must give.

    tools/gcm_vectors.py        writes crates/gcm_vectors/stdin and crates/gcm_vectors/stdout

The answers come from AES and GCM of Python's package cryptography, an implementation that shares
nothing with this repository, with the tag cut to its first 12 bytes. Published values stand below as
they were published, and cryptography has to give exactly these before a file is written. The other
cases are random from a fixed seed, so a second run writes the same bytes.

Source: test cases 13 to 16, those of AES-256 with an IV of 12 bytes, of "The Galois/Counter Mode of
Operation (GCM)" by McGrew and Viega. crates/gcm_vectors/src/main.rt has the forms of a line.
"""

import random

from case_files import line, save, word
from cryptography.hazmat.primitives.ciphers import Cipher, algorithms, modes

LENGTHS = [*range(101), 1024, 4096]

KEY = "feffe9928665731c6d6a8f9467308308feffe9928665731c6d6a8f9467308308"
IV = "cafebabefacedbaddecaf888"
TEXT = ("d9313225f88406e5a55909c5aff5269a86a7a9531534f7da2e4c303d8a318a72"
        "1c3c0c95956809532fcf0e2449a6b525b16aedf5aa0de657ba637b391aafd255")
BODY = ("522dc1f099567d07f47f37a32a84427d643a8cdcbfe5c0c97598a2bd2555d1aa"
        "8cb08e48590dbb3da7b08b1056828838c5f61e6393ba7a0abcc9f662898015ad")

# key, IV, additional data, text, body, tag of 16 bytes
PUBLISHED = [
    ("00" * 32, "00" * 12, "", "", "", "530f8afbc74536b9a963b4f1c4cb738b"),
    ("00" * 32, "00" * 12, "", "00" * 16, "cea7403d4d606b6e074ec5d3baf39d18", "d0d1c8a799996bf0265b98b5d48ab919"),
    (KEY, IV, "", TEXT, BODY, "b094dac5d93471bdec1a502270e3cc6c"),
    (KEY, IV, "feedfacedeadbeeffeedfacedeadbeefabaddad2", TEXT[:120], BODY[:120], "76fc6ece0f4e1768cddf8853bb2d551b"),
]

COUNT = "wrong number of words for this form"
NO_KEY, NO_IV = "00" * 32, "00" * 12
REFUSED = [
    ("", "no such form"),
    ("seal - - - -", "no such form"),
    ("Encrypt - - - -", "no such form"),
    (" encrypt - - - -", "no such form"),
    ("encrypt", COUNT),
    (f"encrypt {NO_KEY} {NO_IV} -", COUNT),
    (f"encrypt {NO_KEY} {NO_IV} - - -", COUNT),
    (f"decrypt {NO_KEY} {NO_IV} - -", COUNT),
    (f"decrypt {NO_KEY} {NO_IV} - - - -", COUNT),
    (f"encrypt - {NO_IV} - -", "not 32 bytes"),
    (f"encrypt {NO_KEY[2:]} {NO_IV} - -", "not 32 bytes"),
    (f"encrypt {NO_KEY}00 {NO_IV} - -", "not 32 bytes"),
    (f"encrypt {NO_KEY} {NO_IV[2:]} - -", "not 12 bytes"),
    (f"encrypt {NO_KEY} {NO_IV}00000000 - -", "not 12 bytes"),
    (f"decrypt {NO_KEY} {NO_IV} - - {NO_IV[2:]}", "not 12 bytes"),
    (f"decrypt {NO_KEY} {NO_IV} - - 530f8afbc74536b9a963b4f1c4cb738b", "not 12 bytes"),
    (f"decrypt {NO_KEY} {NO_IV} - - -", "not 12 bytes"),
    (f"encrypt {NO_KEY} {NO_IV}  -", "an empty word (the empty string is written -)"),
    (f"encrypt {NO_KEY} {NO_IV} - ", "an empty word (the empty string is written -)"),
    (f"encrypt {NO_KEY} {NO_IV} - 616", "an odd number of hexadecimal digits"),
    (f"encrypt {NO_KEY[1:]} {NO_IV} - -", "an odd number of hexadecimal digits"),
    (f"encrypt {NO_KEY} {NO_IV} - 6G", "byte 71 is no lower-case hexadecimal digit"),
    (f"encrypt {NO_KEY} {NO_IV} AB -", "byte 65 is no lower-case hexadecimal digit"),
    (f"decrypt {NO_KEY} {NO_IV} - -- {NO_IV}", "byte 45 is no lower-case hexadecimal digit"),
]


def encrypted(key, iv, additional, text):
    """The body and the whole tag."""
    cipher = Cipher(algorithms.AES(key), modes.GCM(iv)).encryptor()
    cipher.authenticate_additional_data(additional)
    body = cipher.update(text) + cipher.finalize()
    return body, cipher.tag


def fits(key, iv, additional, body, tag):
    """Whether the tag is the body's own: the text, encrypted again, has to give both."""
    text = Cipher(algorithms.AES(key), modes.GCM(iv)).decryptor().update(body)
    again, whole = encrypted(key, iv, additional, text)
    assert again == body
    return whole[:12] == tag


def right(key, iv, additional, text):
    body, tag = encrypted(key, iv, additional, text)
    yield line("encrypt", key, iv, additional, text), f"{word(body)} {word(tag[:12])}"
    yield line("decrypt", key, iv, additional, body, tag[:12]), f"true {word(text)}"


def refused(key, iv, additional, body, tag):
    assert not fits(key, iv, additional, body, tag)
    return line("decrypt", key, iv, additional, body, tag), f"false {word(body)}"


def damaged(rng, data):
    """The data with one bit turned."""
    bit = rng.randrange(8 * len(data))
    other = bytearray(data)
    other[bit // 8] ^= 1 << bit % 8
    return bytes(other)


def message(rng, length):
    return rng.randbytes(32), rng.randbytes(12), rng.randbytes(rng.randint(0, 40)), rng.randbytes(length)


def published():
    for words in PUBLISHED:
        key, iv, additional, text, body, tag = map(bytes.fromhex, words)
        assert encrypted(key, iv, additional, text) == (body, tag), words
        yield from right(key, iv, additional, text)


def random_right(rng):
    for length in LENGTHS:
        yield from right(*message(rng, length))


def random_damaged(rng):
    """Each of the five parts in turn, where it is not empty; then a tag that differs in its last byte alone."""
    for place, length in enumerate(LENGTHS):
        key, iv, additional, text = message(rng, length)
        body, tag = encrypted(key, iv, additional, text)
        parts = [key, iv, additional, body, tag[:12]]
        part = place % 5 if parts[place % 5] else 4
        parts[part] = damaged(rng, parts[part])
        yield refused(*parts)
        last = bytes([tag[11] ^ rng.randint(1, 255)])
        yield refused(key, iv, additional, body, tag[:11] + last)


def random_moved(rng):
    """Bytes moved between additional data and body, a body cut or made longer, and another message's tag."""
    for length in [1, 15, 16, 17, 32, 100]:
        key, iv, additional, text = message(rng, length)
        body, tag = encrypted(key, iv, additional, text)
        _, other = encrypted(key, iv, additional, damaged(rng, text))
        yield refused(key, iv, additional + body[:1], body[1:], tag[:12])
        yield refused(key, iv, additional, body[:-1], tag[:12])
        yield refused(key, iv, additional, body + b"\0", tag[:12])
        yield refused(key, iv, additional + b"\0", body, tag[:12])
        yield refused(key, iv, additional, body, other[:12])
        yield refused(key, iv, additional, body, tag[4:])


def main():
    rng = random.Random("aes-256-gcm")
    cases = [*published(), *random_right(rng), *random_damaged(rng), *random_moved(rng)]
    save("gcm_vectors", rng, cases, REFUSED)


if __name__ == "__main__":
    main()
