"""The rules of docs/PROTOCOL.md, section 6, and the causes' words of docs/REFUSALS.md, for the writer of cases text_vectors.py.

Texts are cut and judged with regular expressions, and with base64 of Python's standard library: nothing here is shared with this
repository's code.
"""

import base64
import re

from case_files import word

LONGEST = 4096
STATUSES = {b"pwd": (b"success", b"failure"), b"lst": (b"success", b"failure"), b"chd": (b"success", b"failure"),
            b"mkd": (b"success", b"failure"), b"del": (b"success", b"failure"), b"upl": (b"accept", b"reject"),
            b"dnl": (b"accept", b"reject")}
CAUSES = {26: b"no space", 27: b"held", 31: b"bad name", 32: b"path too long", 33: b"no such name", 34: b"already there",
          35: b"not empty", 36: b"already at the top", 37: b"list too long"}

# The forms of section 6.1.


def is_decimal(field, end):
    return re.fullmatch(rb"0|[1-9][0-9]{0,19}", field) is not None and int(field) < end


def is_size(field):
    return is_decimal(field, 2**32)


def is_stamp(field):
    return is_decimal(field, 2**64)


def is_digest(field):
    return re.fullmatch(rb"[0-9a-f]{64}", field) is not None


def is_name(field):
    return re.fullmatch(rb"[A-Za-z0-9._-]{1,32}", field) is not None and field not in (b".", b"..")


def is_user(field):
    return is_name(field) and len(field) <= 16


def is_password(field):
    return re.fullmatch(rb"[^\n]{0,64}", field) is not None


def is_free(field):
    return b"\n" not in field


def is_listing(field):
    if re.fullmatch(rb"[A-Za-z0-9+/]*={0,2}", field) is None or len(field) % 4:
        return False
    return base64.b64encode(base64.b64decode(field)) == field


# The fields that each kind of text must have, sections 6.2 to 6.7.


def results_of(told, status):
    """The forms of what follows the status."""
    if status in (b"failure", b"reject"):
        return [is_free]
    return {b"pwd": [is_free], b"lst": [is_listing], b"dnl": [is_size, is_digest]}.get(told, [])


def response_forms(fields):
    told, _, status = (fields + [b"", b""])[:3]
    return [STATUSES.__contains__, is_digest, STATUSES.get(told, ()).__contains__, *results_of(told, status)]


def command_forms(fields):
    parameters = {b"pwd": [], b"lst": [], b"upl": [is_free, is_size, is_digest]}.get(fields[0], [is_free])
    return [STATUSES.__contains__, *parameters]


FORMS = {
    "log-in": lambda fields: [is_stamp, is_user, is_password],
    "log-in-response": lambda fields: [is_digest],
    "command": command_forms,
    "response": response_forms,
    "upload-response": lambda fields: [is_digest, is_size],
    "go-ahead": lambda fields: [(b"ready", b"cancel").__contains__],
}


def first_wrong(kind, text):
    """The number and the place of the first wrong field, section 6.9; None where the text is right."""
    fields = text.split(b"\n")
    forms = FORMS[kind](fields)
    unclosed = len(fields) if kind == "log-in" else 0
    if unclosed and fields[-1] == b"":
        fields.pop()
    place = 0
    for number, form in enumerate(forms, 1):
        if number > len(fields):
            return number, len(text)
        field = fields[number - 1]
        if not form(field) or number == unclosed:
            return number, place
        place += len(field) + 1
    return (len(forms) + 1, place) if len(fields) > len(forms) else None


def meaning(kind, text):
    """What a right text says, as the values that write it."""
    fields = text.split(b"\n")
    if kind == "log-in":
        return int(fields[0]), fields[1], fields[2]
    if kind == "upload-response":
        return fields[0], int(fields[1])
    if kind == "go-ahead":
        return (text.decode(),)
    if kind == "log-in-response":
        return (text,)
    told = fields[0].decode()
    if kind == "command":
        return (told, fields[1], int(fields[2]), fields[3]) if told == "upl" else (told, *fields[1:])
    if fields[2] in (b"failure", b"reject"):
        return told, fields[1], "refused", fields[3]
    if told == "dnl":
        return told, fields[1], "file", int(fields[3]), fields[4]
    return told, fields[1], *{"pwd": ["path"], "lst": ["listing"]}.get(told, ["done"]), *fields[3:]


def text_of(kind, values):
    """The text of some values, whether they make a right one or not."""
    fields = [value if isinstance(value, bytes) else str(value).encode() for value in values]
    if kind == "response":
        fields[2:3] = [STATUSES[fields[0]][values[2] == "refused"]]
    return b"\n".join(fields) + (b"\n" if kind == "log-in" else b"")


def in_words(values):
    return " ".join(word(value) if isinstance(value, bytes) else str(value) for value in values)


def shown(kind, text):
    values = meaning(kind, text)
    if kind != "response":
        return in_words(values)
    places = [found.span() for found in re.finditer(rb"(?<![^\n])[^\n]*", text)]
    status = text.split(b"\n")[2].decode()
    return " ".join([in_words(values[:2]), status, in_words(values[2:]), *(f"{start}-{end}" for start, end in places)])
