"""What the writers of cases share: the words of a line, and the two files of a crate."""

from pathlib import Path

CRATES = Path(__file__).resolve().parent.parent / "crates"


def word(data):
    return data.hex() or "-"


def line(form, *data):
    return " ".join([form, *map(word, data)])


def save(crate, rng, cases, malformed):
    """Writes stdin and stdout of a crate: the cases, with the malformed lines and why they are refused in random places."""
    cases = list(cases)
    for text, reason in malformed:
        cases.insert(rng.randint(0, len(cases)), (text, f"refused: {reason}"))
    for name, column in ("stdin", 0), ("stdout", 1):
        (CRATES / crate / name).write_text("".join(case[column] + "\n" for case in cases), encoding="utf-8")
    print(f"{len(cases)} cases")
