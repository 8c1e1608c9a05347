"""What a run of document 01's copy of the Rust reaches: steps without progress, open calls."""
from compare.case import MOST_OPEN
from oracle_program import Program

# of the unchanged Rust
MOST_STEPS = 1000


class Oracle(Program):
    """Counts the runs, and has the Rust's longest list of expectations, with repeats, of an accepted one that it
    answers."""

    runs = longest = 0

    def blocks(self, words, lines):
        self.runs += len(lines)
        return super().blocks(words, lines)

    def reached(self, lines):
        """(open calls, steps) of each; no tree is asked for."""
        out = []
        for block in self.blocks(["doc01", "any", "--caps", "-,0,-,-,-"], lines):
            words = block[0].split()
            calls, pending, steps = (int(words[words.index(what) + 1]) for what in ("open", "pending", "steps"))
            out.append((calls, steps))
            if accepted(out[-1]) and not over(out[-1]):
                self.longest = max(self.longest, pending)
        return out

    def rust(self, lines):
        """The unchanged Rust's answers."""
        return self.blocks(["rows", "any", "--no-tokens"], lines)

    def trees(self, lines):
        """Document 01's answers."""
        return self.blocks(["doc01", "any"], lines)


def accepted(reached):
    return reached[0] <= MOST_OPEN


def over(reached):
    """The Rust panics, and the call is accepted."""
    return accepted(reached) and reached[1] >= MOST_STEPS
