"""What documents say of an answer, and whether it is so. docs/DECISIONS.md lists the forms."""
import re
from typing import NamedTuple

from .answer import Answer, ReportRow

FORMS = []


class Wrong(NamedTuple):
    expected: str
    answered: str


def form(pattern):
    """A claim of this form is checked by the function: it gives None, or what was expected and what was answered."""

    def keep(check):
        FORMS.append((re.compile(pattern), check))
        return check

    return keep


def same(expected, answered):
    return None if expected == answered else Wrong(str(expected), str(answered))


def numbers(text):
    return [int(n) for n in text.split(", ")]


def ranges(text):
    return [tuple(map(int, pair.split(".."))) for pair in text.split(", ")]


def outcome(answer):
    return "accepted" if answer.number == 0 else f"{answer.number}, place {answer.place}"


@form(r"accepted|\d+, place \d+")
def _(answer: Answer, claim):
    return same(claim[0], outcome(answer))


@form(r"as setting (\d+)")
def _(answer: Answer, claim):
    return same(answer.again(setting=int(claim[1])).whole, answer.whole)


@form(r"buffers (as lent|zero)")
def _(answer: Answer, claim):
    """All that is lent, or what of it is past the rows."""
    return same({claim[1]}, set(answer.after) - {"nothing"})


@form(r"(no|\d+) (report|lexical error|tree row|expectation|token row)s?")
def _(answer: Answer, claim):
    lists = {
        "report": answer.reports,
        "lexical error": answer.errors,
        "tree row": answer.trees,
        "expectation": answer.pool,
        "token row": answer.token_rows,
    }
    return accepted(answer) or same(0 if claim[1] == "no" else int(claim[1].replace(",", "")), len(lists[claim[2]]))


def accepted(answer):
    """Rows are said of accepted calls alone."""
    return None if answer.number == 0 else Wrong("accepted", outcome(answer))


def field(answer, report: ReportRow, word):
    """A report's field in the words of a claim."""
    if word in ("range", "label"):
        first, last = (report.start, report.end) if word == "range" else (report.label_start, report.label_end)
        return f"{word} {first}..{last}"
    if word == "pool":
        first = report.pool_first
        return "pool " + (", ".join(map(str, answer.pool[first : first + report.pool_count])) or "empty")
    return f"{word} {getattr(report, word)}"


@form(r"report (\d+) has ((?:message|range|mark|hint|label|pool) .*)")
def _(answer: Answer, claim):
    place, fields = int(claim[1]), re.split(r", (?=[a-z])", claim[2])
    if wrong := accepted(answer):
        return wrong
    if place > len(answer.reports):
        return Wrong(f"{place} reports", f"{len(answer.reports)}")
    said = [field(answer, answer.reports[place - 1], text.split()[0]) for text in fields]
    return same(", ".join(fields), ", ".join(said))


@form(r"(message|mark|hint)s? (\d+(?:, \d+)*)")
def _(answer: Answer, claim):
    return accepted(answer) or same(numbers(claim[2]), [getattr(report, claim[1]) for report in answer.reports])


@form(r"ranges? (\d+\.\.\d+(?:, \d+\.\.\d+)*)")
def _(answer: Answer, claim):
    return accepted(answer) or same(ranges(claim[1]), [(report.start, report.end) for report in answer.reports])


@form(r"lexical errors? (\d+ at \d+\.\.\d+(?:, \d+ at \d+\.\.\d+)*)")
def _(answer: Answer, claim):
    said = ", ".join(f"{e.number} at {e.start}..{e.end}" for e in answer.errors)
    return accepted(answer) or same(claim[1], said)


@form(r"(no )?(node|leaf) (\w+)(?: of width (\d+))?(?: with (\d+) (?:children|tokens?))?")
def _(answer: Answer, claim):
    """Some row is such, or none."""
    class_ = ("node", "leaf").index(claim[2])
    found = [row for row in answer.trees if row.class_ == class_ and answer.name(row) == claim[3]]
    if claim[4]:
        found = [row for row in found if row.width == int(claim[4])]
    if claim[5]:
        found = [row for row in found if row.count == int(claim[5])]
    return accepted(answer) or (None if bool(found) != bool(claim[1]) else Wrong(claim[0], answer.shape()))


@form(r"children (\w+(?:, \w+)*)")
def _(answer: Answer, claim):
    said = [answer.name(row) for i, row in enumerate(answer.trees) if i and row.parent == 0]
    return accepted(answer) or same(claim[1].split(", "), said)


@form(r"shape (\w+(?:\(.*\))?)")
def _(answer: Answer, claim):
    return accepted(answer) or same(claim[1], answer.shape())


@form(r"grouped `([^`]+)`")
def _(answer: Answer, claim):
    return accepted(answer) or same(claim[1], answer.grouped())


@form(r"tree ([\d ]+(?:, [\d ]+)*)")
def _(answer: Answer, claim):
    said = [tuple(map(int, row.split())) for row in claim[1].split(", ")]
    return accepted(answer) or same(said, [tuple(row) for row in answer.trees])


@form(r"row (\d+) is ([\d ]+)")
def _(answer: Answer, claim):
    row = answer.trees[int(claim[1])] if int(claim[1]) < len(answer.trees) else ()
    return accepted(answer) or same(claim[2], " ".join(map(str, row)))


@form(r"list (\d+(?:, \d+)*)|empty list")
def _(answer: Answer, claim):
    return accepted(answer) or same(numbers(claim[1]) if claim[1] else [], answer.listed)


@form(r"tokens (\w+(?::\d+)?(?:, \w+(?::\d+)?)*)")
def _(answer: Answer, claim):
    """By kind, with a length or without."""
    rows = answer.token_rows
    words = [word.split(":") for word in claim[1].split(", ")]
    said = [[answer.token_name(kind), str(length)][: len(word)] for (kind, length), word in zip(rows, words)]
    return same(words, said) if len(rows) == len(words) else Wrong(f"{len(words)} tokens", str(rows))


def check(answer, claim):
    """None, or what is wrong."""
    for pattern, test in FORMS:
        if match := pattern.fullmatch(claim):
            return test(answer, match)
    return Wrong("a claim of one of the forms", f"“{claim}”")
