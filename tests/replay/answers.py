"""The oracle's answers to named cases: document 01's, and the unchanged Rust's beside them. In the strict setting they
have the reports of labels by a plain reading (compare/strict.py)."""
from compare.case import case_line
from compare.oracle import ROOM, Parsed
from compare.strict import with_labels

from replay.record import answer
from replay.texts import Words


class Answer:
    """A case with what is expected of it."""

    def __init__(self, name, case, early, lines):
        self.name, self.case, self.early = name, case, early
        self.parsed = None if early else Parsed(lines)
        self.number = early[0] if early else self.parsed.number
        # the most open calls that the run reached, and the most expectations that the Rust had pending, with repeats
        reached = next((l.split()[1:] for l in lines if l.startswith("S ")), [])
        self.reached = dict(zip(reached[::2], map(int, reached[1::2])))

    def text(self):
        return answer(self.name, self.case, self.early, self.parsed)


def ask(oracle, named):
    """Document 01's answers."""
    early = [oracle.refused_early(case) for _, case in named]
    given = [case_line(case, case.lengths) for (_, case), e in zip(named, early) if not e]
    blocks = iter(oracle.blocks(["doc01", "any"], given))
    answers = [Answer(name, case, e, [] if e else next(blocks)) for (name, case), e in zip(named, early)]
    strict = [a for a in answers if a.case.setting and not a.early]
    for a, full in zip(strict, oracle.ask([a.case for a in strict])):
        a.parsed = with_labels(a.case, a.parsed, full)
        a.number = a.parsed.number
    return answers


def against_the_rust(root, oracle, answers):
    """Compares every accepted answer with the unchanged Rust's. Gives how many were compared and the names of those on
    which the Rust panics at its step limit."""
    words = Words(root, oracle.kinds)
    accepted = [a for a in answers if a.number == 0]
    blocks = oracle.blocks(["rows", "any", "--no-tokens"], [case_line(a.case, ROOM) for a in accepted])
    assert len(blocks) == len(accepted)
    panics = []
    for a, lines in zip(accepted, blocks):
        if lines[0].startswith("PANIC"):
            assert "the parser seems stuck" in lines[0], "%s: another panic: %s" % (a.name, lines[0])
            panics.append(a.name)
        elif lines != words.lines(a.parsed, a.case):
            ours = words.lines(a.parsed, a.case)
            raise SystemExit("%s: the Rust says otherwise\n%s" % (a.name, "\n".join(lines + ["ours:"] + ours)))
    return len(accepted) - len(panics), panics
