"""Cases and answers in the form that crates/replay reads and writes (its lib.rt says which)."""
from compare.case import case_of

LETTERS = "txre"


def record(name, case):
    """The case as a line of numbers and its bytes."""
    numbers, data = case.numbers(), case.data()
    head = [len(numbers), len(data), case.entry, case.setting, *case.lengths]
    return " ".join([name] + [str(n) for n in head + numbers]).encode() + b"\n" + data + b"\n"


def read(text):
    """The names and cases of a list."""
    out, start = [], 0
    while start < len(text):
        end = text.index(b"\n", start)
        name, *numbers = text[start:end].decode().split(" ")
        _, length, entry, setting, *rest = [int(n) for n in numbers]
        data = text[end + 1 : end + 1 + length]
        out.append((name, case_of(entry, rest[5:], data, rest[:5], setting)))
        start = end + 1 + length + 1
    return out


def answer(name, case, early, parsed):
    """What a program prints of the case. After the counted rows a buffer holds zeros (0), or what was lent (1) where
    the call was refused before a parse; an empty one counts as zeros."""
    if early:
        kept = [1 if n else 0 for n in case.lengths]
        return line(name, [*early, 0, 0, 0, 0] + kept)
    if parsed.number:
        return line(name, [parsed.number, parsed.place] + [0] * 9)
    text = line(name, [0, 0, *parsed.counts(), 0, 0, 0, 0, 0])
    buffers = parsed.rows, parsed.lexical, parsed.reports, parsed.pool
    return text + "".join(line(letter, b) for letter, b in zip(LETTERS, buffers) if b)


def line(name, numbers):
    return " ".join([name] + [str(n) for n in numbers]) + "\n"
