"""Inputs of readings as cases."""
import re

from compare.case import read_line


def numbered(oracle, given):
    """An input of document.py as the oracle reads it: the kinds of a toks line as numbers."""
    word, text = given.split(" ", 1)
    if word != "toks":
        return given
    kinds, text = text.split(" ", 1)
    return "toks %s %s" % (re.sub(r"[A-Z]\w+", lambda name: str(oracle.kinds[name[0]]), kinds), text)


def read_case(oracle, entry, given):
    """A reading's input as a case that is lent nothing."""
    said = oracle.run(["totoks"], "1 %s\n" % numbered(oracle, given))
    return read_line(said.strip("\n"))._replace(entry=entry)
