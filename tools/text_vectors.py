#!/usr/bin/env python3
"""Writes the cases of crates/text_vectors and what each must give.

    tools/text_vectors.py    writes crates/text_vectors/stdin and crates/text_vectors/stdout

The answers come from the readers and writers of text_rules.py, which follow docs/PROTOCOL.md, section 6, and share nothing with
this repository's code. The examples of section 6.9 stand in text_samples.py with the field and place that the section gives, and
those of the SiFT v1.1 protocol text with its digests, of which docs/DECISIONS.md, section 1.1, says which are right: all of this
has to come out before a file is written. Random bytes come from a fixed seed, so a second run writes the same files.
crates/text_vectors/src/main.rt has the forms of a line.
"""

import base64
import hashlib
import random
import re

from case_files import line, save, word
from text_rules import (CAUSES, FORMS, LONGEST, STATUSES, first_wrong, in_words, is_digest, is_listing, is_name, is_size, is_stamp,
                        is_user, meaning, shown, text_of)
from text_samples import (DIGESTS, EXAMPLES, FILE_SHOWN, FREE, LISTINGS, LOG_IN, LOG_IN_DIGEST, LOG_IN_SHOWN, NAMES, NUMBERS,
                          PASSWORDS, REQUESTS, SESSION, SHAPES, D)


def to_read(kind, text, must=None):
    """A case of reading; where field and place are named, or True for a right text, the reader has to give these."""
    wrong = first_wrong(kind, text)
    assert must is None or wrong == (None if must is True else must), (kind, text, wrong, must)
    question = f"read {kind} {word(text)}"
    if wrong:
        return question, "refused 13 {} {}".format(*wrong)
    assert text_of(kind, meaning(kind, text)) == text, (kind, text)
    return question, shown(kind, text) if len(text) <= LONGEST else "not written back"


def to_write(kind, room, values):
    """A case of writing: the buffer is judged first, then whether a reader would read just these values."""
    text = text_of(kind, values)
    question = f"write {kind} {room} {in_words(values)}"
    if len(text) > room:
        return question, "refused 3"
    if len(text) > LONGEST or first_wrong(kind, text) or meaning(kind, text) != tuple(values):
        return question, "refused 5"
    return question, word(text)


def to_decode(text):
    return word(base64.b64decode(text)) if is_listing(text) else "not canonical"


def joined(kind, fields):
    return b"\n".join(fields) + (b"\n" if kind == "log-in" else b"")


def examples():
    for kind, text, must in EXAMPLES:
        yield to_read(kind, text, must)


def digest_of(text):
    return hashlib.sha256(text).hexdigest().encode()


def protocol_examples():
    """Read and written; the digests that are shown are right but for the one of the log-in."""
    assert digest_of(LOG_IN) == LOG_IN_DIGEST and len(LOG_IN) == 30
    assert LOG_IN_SHOWN not in (digest_of(LOG_IN), digest_of(LOG_IN[:-1]))
    assert re.fullmatch(rb"94bafbbf.*453ccd", digest_of(LOG_IN[:-1]))
    assert all(digest_of(request) == shown_digest for request, shown_digest, _ in REQUESTS)
    assert base64.b64decode(b"dGVzdF8xLnR4dA==") == b"test_1.txt"
    texts = [("log-in", LOG_IN), ("log-in-response", LOG_IN_DIGEST), ("log-in-response", LOG_IN_SHOWN),
             ("upload-response", FILE_SHOWN + b"\n2350"), ("upload-response", D + b"\n2350"), ("go-ahead", b"ready"),
             ("go-ahead", b"cancel")]
    for request, reply in [*((request, reply) for request, _, reply in REQUESTS), *SESSION]:
        told = request.split(b"\n")[0]
        texts += [("command", request), ("response", b"\n".join([told, digest_of(request), reply]))]
    # the lengths of section 11.1
    sizes = {len(text) for _, text in texts}
    assert {30, 64, 3, 85, 9, 76, 83, 84, 75, 69, 93, 14, 145, 5, 81} <= sizes, sizes
    for kind, text in texts:
        yield to_read(kind, text, True)
        yield to_write(kind, LONGEST, meaning(kind, text))


def replaced():
    """Each field of each shape in another form."""
    for kind, fields, others in SHAPES:
        yield to_read(kind, joined(kind, fields), True)
        for at, forms in enumerate(others):
            for form in forms:
                yield to_read(kind, joined(kind, fields[:at] + [form] + fields[at + 1:]))


def counted():
    """Fields that are missing, empty or surplus, and byte 10 in odd places."""
    for kind, fields, _ in SHAPES:
        text = joined(kind, fields)
        for end in range(len(fields)):
            short = b"\n".join(fields[:end])
            yield to_read(kind, short)
            yield to_read(kind, short + b"\n")
            yield to_read(kind, joined(kind, fields[:end] + fields[end + 1:]))
            yield to_read(kind, joined(kind, fields[:end] + [b""] + fields[end + 1:]))
            yield to_read(kind, joined(kind, fields[:end] + [b""] + fields[end:]))
            yield to_read(kind, joined(kind, fields[:end] + [fields[end]] + fields[end:]))
        for more in [b"\n", b"\n\n", b"x", b"\nx", b"\r\n", b"\n0\n" + D, b"\0"]:
            yield to_read(kind, text + more)
        for before in [b"\n", b"x", b"x\n", b" ", b"\xef\xbb\xbf"]:
            yield to_read(kind, before + text)
        yield to_read(kind, text[:-1])
        yield to_read(kind, text.replace(b"\n", b"\r\n"))
        yield to_read(kind, text.replace(b"\n", b"\r"))
        yield to_read(kind, text.replace(b"\n", b"\n\n"))
        yield to_read(kind, joined(kind, fields[::-1]))


def several_wrong():
    """Of several wrong fields the first counts."""
    for kind, fields, must in [
            ("command", [b"upl", b"x", b"05", b"A" * 64, b""], (3, 6)), ("command", [b"upl", b"x", b"5", b"A" * 64, b""], (4, 8)),
            ("command", [b"UPL", b"x", b"05", D], (1, 0)), ("command", [b"pwd", b"x", b"y"], (2, 4)),
            ("log-in", [b"+1", b"..", b"p" * 65], (1, 0)), ("log-in", [b"1", b"..", b"p" * 65], (2, 2)),
            ("log-in", [b"1", b"al", b"p" * 65, b"x"], (3, 5)), ("log-in", [b"1", b"al", b"p", b"x", b"y"], (4, 7)),
            ("response", [b"cd", b"", b"", b""], (1, 0)), ("response", [b"chd", b"", b"accept", b"x"], (2, 4)),
            ("response", [b"chd", D, b"accept", b"x"], (3, 69)), ("response", [b"dnl", D, b"success", b"07", b""], (3, 69)),
            ("response", [b"dnl", D, b"accept", b"07", b"", b""], (4, 76)),
            ("response", [b"dnl", D, b"accept", b"7", b"", b""], (5, 78)),
            ("response", [b"dnl", D, b"accept", b"7", D, b""], (6, 143)),
            ("upload-response", [b"", b"05", b""], (1, 0)), ("upload-response", [D, b"05", b""], (2, 65)),
            ("go-ahead", [b"go", b"x"], (1, 0)), ("go-ahead", [b"cancel", b"ready"], (2, 7))]:
        yield to_read(kind, joined(kind, fields), must)


def mutated(rng, text):
    """One byte changed, removed or inserted, or the text cut in two and the parts swapped."""
    at, new = rng.randrange(len(text)), rng.choice([10, 10, 48, 65, 97, 61, text[0], rng.randrange(256)])
    way = rng.randrange(4)
    if way == 0:
        return text[:at] + bytes([new]) + text[at + 1:]
    if way == 1:
        return text[:at] + text[at + 1:]
    if way == 2:
        return text[:at] + bytes([new]) + text[at:]
    return text[at:] + text[:at]


def at_random(rng):
    for kind, fields, _ in SHAPES:
        for _ in range(10):
            yield to_read(kind, mutated(rng, joined(kind, fields)))
        for _ in range(3):
            yield to_read(kind, mutated(rng, mutated(rng, joined(kind, fields))))
    for kind in FORMS:
        for _ in range(5):
            yield to_read(kind, rng.randbytes(rng.randrange(1, 90)))
        for _ in range(10):
            yield to_read(kind, bytes(rng.choices(b"\n\n01a", k=rng.randrange(1, 12))))
        for _ in range(10):
            pieces = [b"\n", b"\n", b"\n", D, *b"pwd upl dnl chd success accept reject failure 7 QUE= al".split()]
            yield to_read(kind, b"".join(rng.choices(pieces, k=rng.randrange(1, 10))))


def any_values(rng):
    """Values for a writer, right and wrong ones."""
    digest = digest_of(rng.randbytes(4))
    for stamp in [0, 9, 10, 12, 2**32, 2**63, 2**64 - 1]:
        yield "log-in", (stamp, b"al", b"pw")
    for user in NAMES:
        yield "log-in", (12, user, b"pw")
    for password in PASSWORDS:
        yield "log-in", (12, b"al", password)
    for other in DIGESTS:
        yield "log-in-response", (other,)
        yield "upload-response", (other, 2350)
        yield "command", ("upl", b"clip.prx", 2350, other)
        yield "response", ("chd", other, "done")
        yield "response", ("dnl", digest, "file", 7, other)
    for size in [0, 1, 9, 10, 99, 2350, 2**31, 2**32 - 1]:
        yield "upload-response", (digest, size)
        yield "command", ("upl", b"x", size, digest)
        yield "response", ("dnl", digest, "file", size, digest)
    for told in "pwd", "lst":
        yield "command", (told,)
    for at, name in enumerate(NAMES):
        yield "command", (["chd", "mkd", "del", "dnl"][at % 4], name)
        yield "command", ("upl", name, 5, digest)
    for go_ahead in "ready", "cancel":
        yield "go-ahead", (go_ahead,)
    for told in STATUSES:
        for said in [("done",), ("path", b"reel7/"), ("listing", b"QUE="), ("file", 7, digest), ("refused", b"held")]:
            yield "response", (told.decode(), digest, *said)
    for free in FREE:
        yield "response", ("pwd", digest, "path", free)
        yield "response", ("mkd", digest, "refused", free)
        yield "response", ("dnl", digest, "refused", free)
    for listing in LISTINGS:
        yield "response", ("lst", digest, "listing", listing)


def rooms(rng):
    """Each of the values into room enough, and by turns into exactly as much, less and more."""
    for at, (kind, values) in enumerate(any_values(rng)):
        size = len(text_of(kind, values))
        yield to_write(kind, size, values)
        yield to_write(kind, [max(size, 1) - 1, size + 1, 0, size + 17, size // 2, LONGEST][at % 6], values)
    digest = digest_of(b"")
    for kind, values in [("log-in", (12, b"al", b"pw")), ("log-in-response", (digest,)), ("upload-response", (digest, 2350)),
                         ("go-ahead", ("ready",)), ("go-ahead", ("cancel",)), ("command", ("pwd",)), ("command", ("chd", b"reel7")),
                         ("command", ("chd", b"")), ("command", ("upl", b"x", 5, digest)), ("response", ("chd", digest, "done")),
                         ("response", ("pwd", digest, "path", b"/")), ("response", ("lst", digest, "listing", b"")),
                         ("response", ("upl", digest, "refused", b"held")), ("response", ("dnl", digest, "file", 7, digest)),
                         # not right either: the buffer is judged first
                         ("log-in", (12, b"..", b"pw")), ("log-in-response", (b"",)), ("upload-response", (b"x", 0)),
                         ("command", ("chd", b"a\nb")), ("command", ("upl", b"x", 5, b"D")),
                         ("response", ("chd", digest, "path", b"x"))]:
        size = len(text_of(kind, values))
        for room in sorted({0, 1, size // 2, size - 1, size, size + 1, 2 * size, LONGEST} - {-1}):
            yield to_write(kind, room, values)


def longest():
    """Around 4,096 bytes."""
    digest = digest_of(b"")
    for size in LONGEST, LONGEST + 1:
        for kind, values in [("command", ["chd", b""]), ("command", ["upl", b"", 2**32 - 1, digest]),
                             ("response", ["pwd", digest, "path", b""]), ("response", ["upl", digest, "refused", b""])]:
            at = 3 if kind == "response" else 1
            values[at] = b"a" * (size - len(text_of(kind, values)))
            yield to_read(kind, text_of(kind, values), True)
            for room in [size - 1, size, size + 1, 5000] if values[0] == "chd" else [5000]:
                yield to_write(kind, room, values)
    names = b"\n".join(b"clip_%04d.prx" % at for at in range(300))[:3000]
    text = b"\n".join([b"lst", digest, b"success", base64.b64encode(names)])
    assert len(text) == 4077
    yield to_read("response", text, True)
    yield to_write("response", LONGEST, meaning("response", text))
    yield line("encode", names), word(base64.b64encode(names))
    yield line("decode", base64.b64encode(names)), word(names)


def single_values(rng):
    single = [bytes([byte]) for byte in range(256)]
    decimals = NUMBERS + [str(rng.randrange(2**bits)).encode() for bits in (4, 8, 16, 31, 32, 33, 63, 64, 65)]
    for text in [*decimals, *single]:
        yield line("decimal32", text), str(int(text)) if is_size(text) else "none"
    for text in decimals:
        yield line("decimal64", text), str(int(text)) if is_stamp(text) else "none"
    for text in [*DIGESTS, *(digest_of(rng.randbytes(3)) for _ in range(6)), *(D[:7] + one + D[8:] for one in single[40:110])]:
        yield line("digest", text), text.decode() if is_digest(text) else "none"
    for text in [*NAMES, *single]:
        yield line("name", text), "yes" if is_name(text) else "no"
    for text in [*NAMES, *single[30:130]]:
        yield line("user", text), "yes" if is_user(text) else "no"


def causes():
    for number in range(256):
        yield f"cause {number}", word(CAUSES[number]) if number in CAUSES else "none"
    numbers = {words: number for number, words in CAUSES.items()}
    odd = [b"", b"held ", b"Held", b" held", b"no  space", b"nospace", b"no_space", b"no", b"27", b"list too long\n", b"held\0"]
    odd += [words[:-1] for words in CAUSES.values()] + [words.upper() for words in CAUSES.values()]
    for words in [*CAUSES.values(), *odd]:
        yield line("cause-word", words), str(numbers.get(words, "none"))


def encodings(rng):
    plain = [b"foobar"[:size] for size in range(7)] + [b"\0" * size for size in (1, 2, 3)] + [b"\xff" * size for size in (1, 2, 3)]
    plain += [bytes(range(256))] + [rng.randbytes(size) for size in [*range(1, 20), 47, 48, 49, 256, 1000]]
    assert base64.b64encode(b"foobar") == b"Zm9vYmFy" and base64.b64encode(b"f") == b"Zg=="
    for data in plain:
        text = base64.b64encode(data)
        yield line("encode", data), word(text)
        yield line("decode", text), word(data)
        for room in sorted({0, len(text) - 1, len(text), len(text) + 1, len(data)} - {-1}):
            yield f"encode-in {room} {word(data)}", word(text) if len(text) <= room else "no room"
        for room in sorted({0, len(data) - 1, len(data), len(data) + 1, len(text)} - {-1}):
            yield f"decode-in {room} {word(text)}", word(data) if len(data) <= room else "no room"


def decodings(rng):
    letters = [b"QU" + bytes([byte]) + b"B" for byte in range(256)]
    cut = [bytes(rng.choices(b"AQZaz09+/=-_\n", k=rng.randrange(1, 9))) for _ in range(60)]
    broken = [mutated(rng, base64.b64encode(rng.randbytes(rng.randrange(4, 12)))) for _ in range(60)]
    for text in [*LISTINGS, *letters, *cut, *broken]:
        yield line("canonical", text), "yes" if is_listing(text) else "no"
    for text in [*LISTINGS, *cut, *broken]:
        yield line("decode", text), to_decode(text)
    for text in [*LISTINGS[::3], b"QR=="]:
        for room in 0, 100:
            yield f"decode-in {room} {word(text)}", "no room" if is_listing(text) and text and room == 0 else to_decode(text)


MALFORMED = [
    ("", "no such form"),
    ("read", "wrong number of words for this form"),
    ("Read command -", "no such form"),
    (" read command -", "no such form"),
    ("read command", "wrong number of words for this form"),
    ("read command - -", "wrong number of words for this form"),
    ("read order -", "no such form"),
    ("read Command -", "no such form"),
    ("read command ", "an empty word (the empty string is written -)"),
    ("read command 0", "an odd number of hexadecimal digits"),
    ("read command 7077640", "an odd number of hexadecimal digits"),
    ("read command 0G", "byte 71 is no lower-case hexadecimal digit"),
    ("read go-ahead AB", "byte 65 is no lower-case hexadecimal digit"),
    ("read go-ahead --", "byte 45 is no lower-case hexadecimal digit"),
    ("write", "wrong number of words for this form"),
    ("write command", "wrong number of words for this form"),
    ("write command 9", "wrong number of words for this form"),
    ("write command many pwd", "no number below 4294967296"),
    ("write command -1 pwd", "no number below 4294967296"),
    ("write command 4294967296 pwd", "no number below 4294967296"),
    ("write command 9 foo", "no such form"),
    ("write command 9 foo 61", "no such form"),
    ("write command 9 pwd -", "no such form"),
    ("write command 9 chd", "no such form"),
    ("write command 9 chd 61 61", "wrong number of words for this form"),
    ("write command 9 upl 61 5", "wrong number of words for this form"),
    ("write command 9 upl 61 4294967296 -", "no number below 4294967296"),
    ("write command 9 upl 61 5 6", "an odd number of hexadecimal digits"),
    ("write letter 9 pwd", "no such form"),
    ("write log-in 9 12 616c", "wrong number of words for this form"),
    ("write log-in 9 18446744073709551616 616c -", "not 8 bytes"),
    ("write log-in 9 -1 616c -", "not 8 bytes"),
    ("write log-in-response 9", "wrong number of words for this form"),
    ("write upload-response 9 -", "wrong number of words for this form"),
    ("write upload-response 9 - x", "no number below 4294967296"),
    ("write go-ahead 9 Ready", "no such form"),
    ("write go-ahead 9", "wrong number of words for this form"),
    ("write response 9 pwd -", "wrong number of words for this form"),
    ("write response 9 pwd - path", "no such form"),
    ("write response 9 pwd - done -", "no such form"),
    ("write response 9 foo - done", "no such form"),
    ("write response 9 pwd - file -1 -", "no number below 4294967296"),
    ("write response 9 pwd - pair 1 -", "no such form"),
    ("write response 9 pwd - file 1 - -", "wrong number of words for this form"),
    ("cause 256", "not 1 bytes"),
    ("cause held", "no number below 4294967296"),
    ("name", "no such form"),
    ("name 61 61", "no such form"),
    ("encode-in 61", "no such form"),
    ("encode-in x 61", "no number below 4294967296"),
    ("decimal16 31", "no such form"),
]


def main():
    rng = random.Random("texts read and written")
    cases = [*examples(), *protocol_examples(), *replaced(), *counted(), *several_wrong(), *at_random(rng), *rooms(rng), *longest(),
             *single_values(rng), *causes(), *encodings(rng), *decodings(rng)]
    save("text_vectors", rng, dict(cases).items(), MALFORMED)


if __name__ == "__main__":
    main()
