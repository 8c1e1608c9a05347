"""What the checks beside this file share: the oracle's program, run as the other tools run it, how each is called, and
how it ends."""
import os
import sys

ROOT = os.path.join(os.path.dirname(os.path.abspath(__file__)), "..", "..", "..")
sys.path.insert(0, os.path.join(ROOT, "tests"))
from oracle_program import Program

ORACLE = Program(ROOT)


def seed_and_count(count):
    """The command line, NAME.py [SEED [COUNT]]: seed 1 and this count where they are left out."""
    given = sys.argv[1:]
    if len(given) > 2 or not all(word.isdigit() for word in given):
        print(f"usage: {os.path.basename(sys.argv[0])} [SEED [COUNT]]", file=sys.stderr)
        sys.exit(2)
    numbers = [int(word) for word in given]
    return (*numbers, *(1, count)[len(numbers) :])


def numbers(lines, word):
    """The numbers of the lines that start with the word."""
    return [tuple(map(int, l.split()[1:])) for l in lines if l.startswith(word + " ")]


def end(fails, most, line):
    """Shows the smallest failures, and ends with this line and their count."""
    for fail in sorted(fails)[:most]:
        print(*fail, sep="\n  ")
    print(f"{line}: {len(fails)} failures")
    sys.exit(1 if fails else 0)
