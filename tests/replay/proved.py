"""The twelve readings that are proved, read out of crates/definitions/proofs/Readings.antt: inputs, lent lengths, whole
answers."""
import os
import re

from compare.case import case_of

LIST = r"\(([\d∷ \[\]]+)\)|(\[\])"


def numbers(text):
    return [int(n) for n in re.findall(r"\d+", text)]


def proved(root):
    """Pairs of a case and its answer: number, place, counts, and the five buffers."""
    with open(os.path.join(root, "crates", "definitions", "proofs", "Readings.antt"), encoding="utf-8") as f:
        table = f.read().split("\nreadings =\n")[1].split("\nunfoldable pub called")[0]
    out = []
    for part in re.split(r"(?:∷ )?\breading ", table)[1:]:
        part = re.sub(r"--.*", "", part)
        entry, counts = int(part.split()[0]), numbers(re.search(r"\(answer ([\d ]+)\)", part).group(1))
        part = re.sub(r"\(answer [\d ]+\)", "", part)
        lists = [numbers(a) for a, _ in re.findall(LIST, part.split(None, 1)[1])][:6]
        data, tokens, *buffers = lists
        buffers = [[0] * 100] + buffers
        case = case_of(entry, tokens, bytes(data), [len(b) for b in buffers])
        out.append((case, (0, 0, *counts), buffers))
    return out
