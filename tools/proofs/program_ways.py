# The way through a program along the calls and tests that lead to a need, as a term of the steps of
# machine/proofs/Way.antt, steps/proofs/Ways.antt and steps/proofs/Steps.antt. A program is a tree: its leaves are the
# calls in the code's order, a test takes the outcome that follows it, and a marker takes the calls of Marker::new,
# start and complete. A term names a call or a test by @NAME, and the entry by @@ (see code_proofs.py).
import re


def call(name, more=None):
    """A call; more: how many buffers its contract is told, where the table below does not say it."""
    return ("call", name, more)


def seq(*parts):
    return parts[0] if len(parts) == 1 else ("seq", parts[0], seq(*parts[1:]))


def when(test, then, other):
    return ("if", test, then, other)


def ret(answer):
    return ("ret", answer)


YES, NO, AGAIN = ret("yes"), ret("no"), ret("again")
# the last test's own result is returned
SAME_YES, SAME_NO = ("same", "yes"), ("same", "no")


def both(first, second):
    return when(first, second, NO)


def either(first, second):
    return when(first, YES, second)


def negated(test):
    return when(test, NO, YES)


def mark(inside):
    return ("mark", inside)


def close(kind, answer="yes"):
    """The marker completed as a node of this kind."""
    return ("close", kind, answer)


def ignore(answer):
    return ("ignore", answer)


def starting(matcher, inside, other):
    return ("starting", matcher, inside, other)


def flag(program, then, other):
    """A program that a parameter chooses."""
    return ("flag", program, then, other)


def by(step, inside):
    """A law between the code's program and the definitions'."""
    return ("by", step, inside)


# Contracts over an act, and over a program: how many buffers they are told.
ACTS = {"at-end": 4, "silent-at": 4, "silent-at-set": 4, "bump": 3}
WALKS = {"at": 3, "silent-eat": 3, "eat": 2, "expect": 0, "expect-recoverable": 0, "error": 0}


class Walk:
    """One way. tells: the crate's own functions, as WALKS; closing: those that close the marker they are handed."""

    # The interpreter and the label that a contract is told, and the buffers that those of start, complete and ignore
    # are told.
    ask, span, marker = "ask", "b", " _ _ _"
    acts, walks = ACTS, WALKS

    def __init__(self, way, tells, closing):
        self.facts = [(thing, fields) for thing, _, fields in way if self.counts(thing, fields)]
        self.tells, self.closing = tells, closing
        # how the open marker is closed, the last test with its outcome, and the last call
        self.closes = self.test = self.last = None

    def counts(self, thing, fields):
        """Whether the program has a part for this: what is only given to a call has none."""
        return "given" not in fields

    def plain(self, thing):
        """A call's name without the number that tells it from others of the same function."""
        return re.sub(r"\d+$", "", thing)

    def next(self, *names):
        thing, fields = self.facts.pop(0)
        assert not names or self.plain(thing) in names, (thing, names)
        return thing, fields

    def outcome(self):
        thing, fields = self.next()
        assert thing.startswith("if"), thing
        self.test = thing, "taken" if "taken" in fields else "left"
        return self.test

    def emit(self, part):
        """The term, and the answer where it is known."""
        return getattr(self, "of_" + part[0])(*part[1:])

    def of_call(self, name, more):
        return self.leaf(name, more), None

    def leaf(self, name, more):
        self.last, _ = self.next(name)
        ensured = f"@{self.last} .ensures .0"
        told = lambda n: f"{ensured} {self.ask} {self.span}" + " _" * n
        if more is not None:
            return f"(c-walk ({told(more)}))"
        if name in self.acts:
            return f"(c-act ({ensured} {self.span}{' _' * self.acts[name]}))"
        if name == "add-expected":
            return f"(c-act ({ensured} (tokens-of (@@ .args .tokens .now)) {self.span} _ _ _))"
        if name in self.closing:
            self.closes = f"(closing ({told(0)}))"
            return "c-any"
        return f"(c-walk ({told({**self.walks, **self.tells}[name])}))"

    def of_ret(self, answer):
        return "c-ret", answer

    def of_same(self, answer):
        thing, how = self.test
        return f"(c-ret-{answer} (@{thing} .{how}))", answer

    def completed(self):
        thing, _ = self.next("complete")
        return f"(completed (@{thing} .ensures .0{self.marker}))"

    def of_close(self, kind, answer):
        self.closes = self.completed()
        return "c-ret", answer

    def of_ignore(self, answer):
        thing, _ = self.next("ignore")
        self.closes = f"(ignored (@{thing} .ensures .0{self.marker}))"
        return "c-ret", answer

    def of_seq(self, first, rest):
        before, _ = self.emit(first)
        after, answer = self.emit(rest)
        return f"(c-seq {before} {after})", answer

    def of_if(self, test, then, other):
        term, answer = self.emit(test)
        if answer is None:
            thing, how = self.outcome()
            rest, answer = self.emit(then if how == "taken" else other)
            return f"({'c-yes' if how == 'taken' else 'c-no'} {term} (@{thing} .{how}) {rest})", answer
        rest, last = self.emit(then if answer == "yes" else other)
        return f"(c-{answer} {{t = {'true' if answer == 'yes' else 'false'}}} {term} refl {rest})", last

    def of_flag(self, program, then, other):
        thing, how = self.outcome()
        term, answer = self.emit(then if how == "taken" else other)
        return f"(c-flag {program} (@{thing} .{how}) {term})", answer

    def of_by(self, step, inside):
        term, answer = self.emit(inside)
        return f"({step} {term})", answer

    def marked(self, inside):
        """What a marker is around, and how it is closed."""
        old, self.closes = self.closes, None
        term, answer = self.emit(inside)
        found, self.closes = self.closes, old
        assert found, "the marker is not closed"
        return term, found, answer

    def of_mark(self, inside):
        new, start = self.next("new")[0], self.next("start")[0]
        term, closes, answer = self.marked(inside)
        return f"(c-mark (@{new} .ensures) (@{start} .ensures .0{self.marker}) {term} {closes})", answer

    def of_starting(self, matcher, inside, other):
        thing, _ = self.next("eat-starting")
        test, how = self.outcome()
        head = f"{matcher} (@{thing} .ensures .0 {self.ask} {self.span} _ _) (@{test} .{how})"
        if how == "taken":
            term, closes, answer = self.marked(inside)
            return f"(c-started {head} {term} {closes})", answer
        term, answer = self.emit(other)
        return f"(c-unstarted {head} {term})", answer


def name_places(text, way, start):
    """An answer with paths for names: a `let` for each place that is cited, named after its call or test and told from
    the one before it."""
    lets, last, told = [], "c", "c"
    for thing, path, _ in reversed(way):
        cited = re.compile("@" + re.escape(thing) + r"(?![\w-])")
        if cited.search(text):
            # a function's first match has no number
            name = ("match0" if thing == "match" else thing) + "′"
            lets.append(f"let {name} = {last}{path[len(told):]} in")
            text = cited.sub(f"{name} .{thing}", text)
            last, told = name, path
    if "@@" in text:
        lets.append(f"let s′ = {last}{start[len(told):]} in")
    return lets, text.replace("@@", "s′")
