#!/usr/bin/env python3
"""Writes the cases of crates/message_vectors and what each must give.

    tools/message_vectors.py    writes crates/message_vectors/stdin and crates/message_vectors/stdout

The answers come from a writer and a receiver of their own below, which follow docs/PROTOCOL.md, sections 2 to 5, with hashlib and
hmac of Python's standard library and AES-256-GCM of the package `cryptography`: they share nothing with this repository's code. The
worked examples of section 11 stand below as bytes, and the writer has to give exactly these before a file is written. Random bytes
come from a fixed seed, so a second run writes the same files. crates/message_vectors/src/main.rt has the forms of a line.
"""

import hashlib
import hmac
import random

from case_files import save, word
from cryptography.exceptions import InvalidTag
from cryptography.hazmat.primitives.ciphers import Cipher
from cryptography.hazmat.primitives.ciphers.algorithms import AES
from cryptography.hazmat.primitives.ciphers.modes import GCM

LOG_IN, LOG_IN_RESPONSE, COMMAND, RESPONSE = 0x0000, 0x0010, 0x0100, 0x0110
UPLOAD, LAST_UPLOAD, UPLOAD_RESPONSE = 0x0200, 0x0201, 0x0210
GO_AHEAD, DOWNLOAD, LAST_DOWNLOAD = 0x0300, 0x0310, 0x0311
KINDS = [LOG_IN, LOG_IN_RESPONSE, COMMAND, RESPONSE, UPLOAD, LAST_UPLOAD, UPLOAD_RESPONSE, GO_AHEAD, DOWNLOAD, LAST_DOWNLOAD]
NO_KINDS = [0x0001, 0x0011, 0x0101, 0x0111, 0x0202, 0x0211, 0x0301, 0x0312, 0x1000, 0xffff]
LENGTHS = [0, 1, 5, 15, 16, 17, 93, 1024, 4096]
LEAST, MOST, LEAST_LOG_IN, TRAILER = 28, 4124, 135, 107

# What the worked examples are given.
KEY, SESSION = bytes(range(32)), bytes(range(0x20, 0x30))
AFTER = bytes(range(91)) + SESSION
FILE = bytes(i % 251 for i in range(2350))
FILE_DIGEST = "28dfadaedcba90a5ac85b29542d50f57832e441c4ab58e8b690f16cd772a03c6"
CHD_DIGEST = "aaee56ea433153ef37b9cb32ee65e150b951932e32b6412b2115f5f07fc753e9"
UPL_DIGEST = "12ada153d9acae341fcf7db9947d0f7bce35c088c9710c09d04081ebbb2875aa"
LST_DIGEST = "274088a0cde8b724153ed9396a946299f10c19c6cf593a19ce57c52580a32dcb"
TEXT = b"1648839091598392000\nalice\naaa\n"
TEXT_DIGEST = "249cafcf7586f856f5f75ee6dadb682e8d023f1c595cade984328f2d6d7842ed"

# Kind, number, payload, seal, whole message; or, where one is long, its SHA-256.
WORKED = [
    (LOG_IN, 1, TEXT, "closed", "0101000000a50001a0a1a2a3a4010000"
     "beff48f73a5206399e41cd5a6bfeb5d6c5d892f277d9d185a13f4dc8ef07" "8164465344155267e7665ab5" + AFTER.hex()),
    (LOG_IN, 1, TEXT, "open", "0101000000a50001a0a1a2a3a4010000"
     "313634383833393039313539383339323030300a616c6963650a6161610a" "156a9fabf6631d53c7db2502" + AFTER.hex()),
    (LOG_IN_RESPONSE, 1, TEXT_DIGEST.encode(), "closed", "01010010005c0001b0b1b2b3b4010000"
     "81c93b6518703c9f396fba73961359a7c8cb5e8ff44ccec528e4f791b7723a71"
     "8ba8505489573bfec6c563f4dc7a0bd3cc5d3bbbcaf28be4bd1667a559a1d0d5" "9bd5c7b462506f133d22374c"),
    (COMMAND, 3, b"chd\nreel7", "closed", "0101010000250003a0a1a2a3a4030000" "af692c25a6262dfefd" "af9f9da7c0577972801f3494"),
    (COMMAND, 3, b"chd\nreel7", "open", "0101010000250003a0a1a2a3a4030000" "6368640a7265656c37" "0b59dfbb50696fe082c26645"),
    (RESPONSE, 3, f"chd\n{CHD_DIGEST}\nsuccess".encode(), "closed", "0101011000680003b0b1b2b3b4030000"
     "b434e6fac12a99f0ab04f03215182a60c368433807b22405ca83447bcacc6630"
     "4913005099d2b12e8e438ea8160c75f495e97bccfa21f9b0bd7f2e98629ccc88"
     "722b65b63e9d5f611751454b" "2a0aac426a2834a244e2414d"),
    (COMMAND, 5, f"upl\nclip_7.prx\n2350\n{FILE_DIGEST}".encode(), "closed", "0101010000700005a0a1a2a3a4050000"
     "4abd07295b29610ef1984901e814f6b8b72459c44debd29ffdc12da31735a676"
     "2204def9f1dd810ff9b1d93b9a28b2ab55584f4094af58afcc890a184ab2dd44"
     "384ad0628f4b6e96d16f81f279b8d60567b867e7" "2f50a2d2201b54f0b046f863"),
    (RESPONSE, 5, f"upl\n{UPL_DIGEST}\naccept".encode(), "closed", "0101011000670005b0b1b2b3b4050000"
     "6eecec7d831ce4deff1be107c0272cf8b9a6ada85b4a96ba51bff63292f5d2d2"
     "8e8667f960ae09840615a4f035ffaa7d5183fe0831aad9a32e285c5b5e07ea93"
     "b47c08046d7a17ce9b6132" "698b3c7b3e066ee894669164"),
    (UPLOAD, 6, FILE[:1024], "closed", "ed7da92c2e00ded742249df0cb02663dfca7986efb8b08a714409f55d4f49750"),
    (UPLOAD, 7, FILE[1024:2048], "closed", "a4d0f6737f1533b747202e03930c2b5d8dd5e78d0e90a9be8554e04fa10c4f95"),
    (LAST_UPLOAD, 8, FILE[2048:], "closed", "39afa8223eeb5eeb8cdfefaec4cf8fd45ae7746df14e0d0095a2dfa21664571d"),
    (UPLOAD_RESPONSE, 6, f"{FILE_DIGEST}\n2350".encode(), "closed", "0101021000610006b0b1b2b3b4060000"
     "784967fc11c9b170f7633014824b1eb52b453cd5439af9ee00967d2d6009a9c4"
     "28a8f0a7c30d8e474b00fd8666c6eed342f05091360d7c7230c02885d5197c89"
     "e71f052871" "1fe8d2b20518ca305737369b"),
    (RESPONSE, 7, f"lst\n{LST_DIGEST}\nsuccess\nY2xpcF83LnByeA==".encode(), "closed", "0101011000790007b0b1b2b3b4070000"
     "dbd4d89026312f0d538800710d84371c40f19b74b037b6f017e779c7af552786"
     "dad018acc92ec7c375bb73142228b15786470cf4e8590e0b898cfeacd9255fd1"
     "6c3f2bdef624654087bac60d72059dc8736229ddc96acf3801d299905a" "8d7a916b2b36f77a5afb6e44"),
    (GO_AHEAD, 11, b"ready", "closed", "010103000021000ba0a1a2a3a40b0000" "0e86c8bd67" "b7e088756a509f9b2623851f"),
    (GO_AHEAD, 11, b"ready", "open", "010103000021000ba0a1a2a3a40b0000" "7265616479" "4a66dc7c25867b58429d65ec"),
    (LAST_DOWNLOAD, 11, FILE[2048:], "closed", "660eade6dd3b38dd7d993ce4401641de219c5946164af0c97f0a3c6c60b17048"),
]

K, S = KEY.hex(), SESSION.hex()
MALFORMED = [
    ("", "no such form"),
    ("seal", "no such form"),
    ("Write", "no such form"),
    (" read", "no such form"),
    ("write", "wrong number of words for this form"),
    (f"write open {K} {S} 0300 1 a0a1a2a3a401 -", "wrong number of words for this form"),
    (f"small open {K} {S} 0300 1 a0a1a2a3a401 - - -", "wrong number of words for this form"),
    (f"read open {K} {S} 0300 0", "wrong number of words for this form"),
    (f"read shut {K} {S} 0300 0 -", "no such form"),
    (f"read open {K[:-2]} {S} 0300 0 -", "not 32 bytes"),
    (f"read open {K}20 {S} 0300 0 -", "not 32 bytes"),
    (f"read closed {K} - 0300 0 -", "not 16 bytes"),
    (f"write open {K} {S} 0300 1 a0a1a2a3a4 - -", "not 6 bytes"),
    (f"write open {K} {S} 03 1 a0a1a2a3a401 - -", "not 2 bytes"),
    (f"write open {K} {S} 0301 1 a0a1a2a3a401 - -", "no such form"),
    (f"write open {K} {S} 0300 65536 a0a1a2a3a401 - -", "not 2 bytes"),
    (f"write open {K} {S} 0300 -1 a0a1a2a3a401 - -", "no number below 4294967296"),
    (f"read open {K} {S} 0300,0301 0 -", "no such form"),
    (f"read open {K} {S} 0300, 0 -", "an empty word (the empty string is written -)"),
    (f"read open {K} {S} 0300 many -", "no number below 4294967296"),
    (f"read open {K} {S} 0300 0 ", "an empty word (the empty string is written -)"),
    (f"read open {K} {S} 0300 0 010", "an odd number of hexadecimal digits"),
    (f"read open {K} {S} 0300 0 0G", "byte 71 is no lower-case hexadecimal digit"),
    (f"read open {K} {S} 0300 0 AB", "byte 65 is no lower-case hexadecimal digit"),
]


def two(n):
    return n.to_bytes(2, "big")


class Closed:
    name = "closed"

    def __init__(self, key, session):
        self.key, self.session = key, session

    def iv(self, header):
        return header[2:4] + header[6:8] + header[8:14] + self.session[:2]

    def seal(self, header, payload):
        cipher = Cipher(AES(self.key), GCM(self.iv(header))).encryptor()
        cipher.authenticate_additional_data(header + self.session)
        body = cipher.update(payload) + cipher.finalize()
        return body, cipher.tag[:12]

    def open(self, header, body, tag):
        cipher = Cipher(AES(self.key), GCM(self.iv(header), tag, min_tag_length=12)).decryptor()
        cipher.authenticate_additional_data(header + self.session)
        try:
            return cipher.update(body) + cipher.finalize()
        except InvalidTag:
            return None


class Open:
    name = "open"

    def __init__(self, key, session):
        self.key, self.session = key, session

    def seal(self, header, payload):
        return payload, hmac.new(self.key, header + self.session + payload, hashlib.sha256).digest()[:12]

    def open(self, header, body, tag):
        return body if self.seal(header, body)[1] == tag else None


SEALS = [Closed, Open]
GIVEN = {seal.name: seal(KEY, SESSION) for seal in SEALS}


def message(seal, code, number, fresh, payload, after=b"", version=b"\1\1", told=None, reserved=b"\0\0"):
    """A message; version, length field and reserved bytes can be made wrong under a right tag."""
    told = LEAST + len(payload) + len(after) if told is None else told
    header = version + two(code) + two(told) + two(number) + fresh + reserved
    body, tag = seal.seal(header, payload)
    return header + body + tag + after


def received(seal, expected, last, data):
    """What a receiver answers: (code, number, payload), or the number of the first refusal."""
    code = int.from_bytes(data[2:4], "big")
    if not LEAST <= len(data) <= MOST or code == LOG_IN and len(data) < LEAST_LOG_IN:
        return 7
    if data[4:6] != two(len(data)):
        return 7
    if data[0] != 1 or data[1] != 1:
        return 8
    if data[14] != 0 or data[15] != 0:
        return 9
    if code not in expected:
        return 10
    number = int.from_bytes(data[6:8], "big")
    if number <= last or code in (LOG_IN, LOG_IN_RESPONSE) and number != 1:
        return 11
    rest = data[16:-TRAILER] if code == LOG_IN else data[16:]
    payload = seal.open(data[:16], rest[:-12], rest[-12:])
    return 12 if payload is None else (code, number, payload)


def key_words(form, seal):
    return f"{form} {seal.name} {seal.key.hex()} {seal.session.hex()}"


def to_write(form, seal, code, number, fresh, payload, after):
    line = f"{key_words(form, seal)} {code:04x} {number} {fresh.hex()} {word(payload)} {word(after)}"
    if form == "small":
        return line, "refused 3"
    if LEAST + len(payload) + len(after) > MOST:
        return line, "refused 5"
    return line, message(seal, code, number, fresh, payload, after).hex()


def to_read(seal, expected, last, data, must=None):
    """A case of reading; the refusal that it is meant to show, if it is named, has to be the receiver's."""
    answer = received(seal, expected, last, data)
    assert must is None or answer == must, (answer, must, data.hex())
    codes = ",".join(f"{code:04x}" for code in expected) or "-"
    line = f"{key_words('read', seal)} {codes} {last} {word(data)}"
    if isinstance(answer, int):
        return line, f"refused {answer}"
    code, number, payload = answer
    return line, f"{code:04x} {number} {word(payload)}"


def fresh_of(code, number):
    """The random bytes of the worked examples."""
    server = code in (LOG_IN_RESPONSE, RESPONSE, UPLOAD_RESPONSE, DOWNLOAD, LAST_DOWNLOAD)
    return bytes(range(0xb0, 0xb5) if server else range(0xa0, 0xa5)) + bytes([number])


def after_of(code):
    return AFTER if code == LOG_IN else b""


def example(seal, code, number, payload, **wrong):
    return message(GIVEN[seal], code, number, fresh_of(code, number), payload, after_of(code), **wrong)


def worked():
    assert hashlib.sha256(FILE).hexdigest() == FILE_DIGEST and hashlib.sha256(TEXT).hexdigest() == TEXT_DIGEST
    for code, number, payload, seal, value in WORKED:
        data = example(seal, code, number, payload)
        assert value in (data.hex(), hashlib.sha256(data).hexdigest()), (code, number, seal)
        yield to_write("write", GIVEN[seal], code, number, fresh_of(code, number), payload, after_of(code))
        yield to_read(GIVEN[seal], [code], number - 1, data, (code, number, payload))


def random_seal(rng, seal):
    return seal(rng.randbytes(32), rng.randbytes(16))


def both_ways(rng, seal, code, size):
    """A message written and read, between others that are expected, after any smaller number."""
    seal = random_seal(rng, seal)
    number = 1 if code in (LOG_IN, LOG_IN_RESPONSE) else rng.randint(1, 65535)
    fresh, payload = rng.randbytes(6), rng.randbytes(size)
    after = rng.randbytes(TRAILER) if code == LOG_IN else b""
    expected = rng.sample([other for other in KINDS if other != code], rng.randint(0, 3)) + [code]
    rng.shuffle(expected)
    data = message(seal, code, number, fresh, payload, after)
    yield to_write("write", seal, code, number, fresh, payload, after)
    yield to_read(seal, expected, rng.randint(0, number - 1), data, (code, number, payload))


def every_kind(rng):
    for seal in SEALS:
        for code in KINDS:
            yield from both_ways(rng, seal, code, rng.randint(0, 200))
        for size in LENGTHS:
            yield from both_ways(rng, seal, rng.choice(KINDS[2:]), size)
        for size in [0, 1, 3989]:
            yield from both_ways(rng, seal, LOG_IN, size)


def too_much(rng):
    for seal in SEALS:
        seal = random_seal(rng, seal)
        for code, size in [(COMMAND, 4097), (LOG_IN, 3990)]:
            after = rng.randbytes(TRAILER) if code == LOG_IN else b""
            yield to_write("write", seal, code, 1, rng.randbytes(6), rng.randbytes(size), after)
        for code, size in [(GO_AHEAD, 5), (LOG_IN, 30), (UPLOAD, 1024), (RESPONSE, 4097)]:
            after = rng.randbytes(TRAILER) if code == LOG_IN else b""
            yield to_write("small", seal, code, 1, rng.randbytes(6), rng.randbytes(size), after)


def numbers(rng):
    for seal in SEALS:
        seal = random_seal(rng, seal)
        for last, number, refused in [(7, 7, True), (7, 9, False), (7, 8, False), (7, 6, True), (7, 0, True), (0, 0, True),
                                      (0, 1, False), (0, 65535, False), (65534, 65535, False), (65535, 65535, True),
                                      (65535, 1, True), (255, 256, False), (256, 255, True), (256, 1, True)]:
            data = message(seal, COMMAND, number, rng.randbytes(6), b"pwd")
            yield to_read(seal, [COMMAND], last, data, 11 if refused else (COMMAND, number, b"pwd"))
        for code in [LOG_IN, LOG_IN_RESPONSE]:
            for last, number, refused in [(0, 1, False), (0, 2, True), (0, 0, True), (1, 1, True), (1, 2, True), (0, 257, True)]:
                data = message(seal, code, number, rng.randbytes(6), TEXT, after_of(code))
                yield to_read(seal, [code], last, data, 11 if refused else (code, number, TEXT))
        yield to_write("write", seal, RESPONSE, 0, rng.randbytes(6), b"pwd", b"")
        yield to_write("write", seal, RESPONSE, 65535, rng.randbytes(6), b"pwd", b"")


def types(rng):
    for seal in SEALS:
        seal = random_seal(rng, seal)
        for code in KINDS:
            data = message(seal, code, 1, rng.randbytes(6), TEXT, after_of(code))
            yield to_read(seal, [other for other in KINDS if other != code], 0, data, 10)
        for code in NO_KINDS:
            yield to_read(seal, KINDS, 0, message(seal, code, 1, rng.randbytes(6), TEXT), 10)
        yield to_read(seal, [], 0, message(seal, COMMAND, 1, rng.randbytes(6), TEXT), 10)
        yield to_read(seal, [], 0, message(seal, LOG_IN, 1, rng.randbytes(6), TEXT, AFTER), 10)


def sizes(rng):
    for name in GIVEN:
        seal, data = GIVEN[name], example(name, GO_AHEAD, 11, b"ready")
        for size in [0, 1, 5, 6, 15, 16, 17, 27, 28, 32]:
            yield to_read(seal, KINDS, 0, data[:size], 7)
            if size >= 6:
                yield to_read(seal, KINDS, 0, data[:4] + two(size) + data[6:size], 12 if size >= LEAST else 7)
        yield to_read(seal, KINDS, 0, data + b"\0", 7)
        for told in [0, 5, 28, 32, 34, 33 + 256, 33 * 256, 65535]:
            yield to_read(seal, KINDS, 0, example(name, GO_AHEAD, 11, b"ready", told=told), 7)
        yield to_read(seal, KINDS, 0, message(seal, UPLOAD, 6, rng.randbytes(6), rng.randbytes(4097)), 7)
        # by the type field alone: also where no log-in is expected, and where the tag is right
        for size in [0, 1, 106]:
            data = message(seal, LOG_IN, 1, rng.randbytes(6), rng.randbytes(size))
            yield to_read(seal, [LOG_IN], 0, data, 7)
            yield to_read(seal, [COMMAND], 0, data, 7)
        yield to_read(seal, [LOG_IN], 0, message(seal, LOG_IN, 1, rng.randbytes(6), rng.randbytes(107)), 12)
        yield to_read(seal, [LOG_IN], 0, message(seal, LOG_IN, 1, rng.randbytes(6), b"", AFTER[1:]), 7)
        yield to_read(seal, [LOG_IN], 0, message(seal, LOG_IN, 1, rng.randbytes(6), rng.randbytes(3990), AFTER), 7)


def header_bytes():
    for name in GIVEN:
        for version in ["0100", "0001", "0000", "0102", "0201", "8101", "01ff"]:
            yield to_read(GIVEN[name], KINDS, 0, example(name, GO_AHEAD, 11, b"ready", version=bytes.fromhex(version)), 8)
        for reserved in ["0001", "0100", "0101", "0080", "ff00"]:
            yield to_read(GIVEN[name], KINDS, 0, example(name, GO_AHEAD, 11, b"ready", reserved=bytes.fromhex(reserved)), 9)


def order():
    """From all of 7 to 12 wrong to 12 alone: each is mended in turn, and the next is told."""
    for name in GIVEN:
        data = bytearray(example(name, GO_AHEAD, 11, b"ready"))
        right = bytes(data)
        data[0] = data[5] = data[14] = 0xff
        data[2:4], data[6:8] = two(0x0302), two(7)
        data[-1] ^= 1
        for refused, places in [(7, [4, 5]), (8, [0, 1]), (9, [14, 15]), (10, [2, 3]), (11, [6, 7]), (12, range(33))]:
            yield to_read(GIVEN[name], [COMMAND, GO_AHEAD], 10, bytes(data), refused)
            for place in places:
                data[place] = right[place]
        yield to_read(GIVEN[name], [COMMAND, GO_AHEAD], 10, bytes(data), (GO_AHEAD, 11, b"ready"))


def pairs():
    """Two wrong things at a time: the lower number is told."""
    wrong = {7: (5, 0x20), 8: (1, 0x02), 9: (15, 0x01), 10: (3, 0x01), 11: (7, 0x03), 12: (20, 0x55)}
    for name in GIVEN:
        right = example(name, GO_AHEAD, 11, b"ready")
        for first in wrong:
            for second in wrong:
                if first < second:
                    data = bytearray(right)
                    for place, value in wrong[first], wrong[second]:
                        data[place] = value
                    yield to_read(GIVEN[name], [GO_AHEAD], 10, bytes(data), first)


def told_at(place):
    """The refusals that a change at a place of header, body or tag can give."""
    return [{8}, {7, 10}, {7}, {11, 12}, {12}, {12}, {12}, {9}][place // 2] if place < 16 else {12}


def flipped(rng, data, place):
    return data[:place] + bytes([data[place] ^ 1 << rng.randrange(8)]) + data[place + 1:]


def changed(rng):
    """One bit changed at every place up to the tag's end; what follows it in a log-in is no matter of the receiver's."""
    for name in GIVEN:
        for code, number, payload in [(GO_AHEAD, 11, b"ready"), (LOG_IN, 1, TEXT)]:
            right, end = example(name, code, number, payload), LEAST + len(payload)
            for place in range(end):
                data = flipped(rng, right, place)
                answer = received(GIVEN[name], [code], number - 1, data)
                assert answer in told_at(place), (place, answer)
                yield to_read(GIVEN[name], [code], number - 1, data)
            for place in [end, end + 90, end + 91, len(right) - 1] if code == LOG_IN else []:
                yield to_read(GIVEN[name], [code], number - 1, flipped(rng, right, place), (code, number, payload))
        # a command whose type becomes that of a log-in is too short for one
        data = example(name, COMMAND, 3, b"chd\nreel7")
        yield to_read(GIVEN[name], [COMMAND], 2, data[:2] + two(LOG_IN) + data[4:], 7)
        yield from elsewhere(name)


def elsewhere(name):
    """A message that was sealed for another session, key, kind or seal."""
    data, seal = example(name, COMMAND, 3, b"chd\nreel7"), type(GIVEN[name])
    other = Open if seal is Closed else Closed
    for strange in [seal(KEY, SESSION[:-1] + b"\0"), seal(KEY, b"\0" + SESSION[1:]), seal(KEY[:-1] + b"\0", SESSION),
                    other(KEY, SESSION)]:
        yield to_read(strange, [COMMAND], 2, data, 12)
    yield to_read(GIVEN[name], [COMMAND, GO_AHEAD], 2, data[:2] + two(GO_AHEAD) + data[4:], 12)
    yield to_read(GIVEN[name], [COMMAND], 2, data[:6] + two(4) + data[8:], 12)


def main():
    rng = random.Random("messages under both seals")
    cases = [*worked(), *every_kind(rng), *too_much(rng), *numbers(rng), *types(rng), *sizes(rng), *header_bytes(), *order(),
             *pairs(), *changed(rng)]
    save("message_vectors", rng, cases, MALFORMED)


if __name__ == "__main__":
    main()
