"""Paths and names in a document: each path is there, and each name in backquotes stands in the file beside it, or in
some source."""
import re

from .paths import PLACEHOLDER, Paths, mentioned

# a name in backquotes: one word, with its module or type before it or not
NAME = re.compile(r"`((?:[A-Za-z][\w'-]*(?:::|\.))*[A-Za-z][\w'-]{2,})(?:\(\))?`")
# what stands between a path and a name that is in its file, between two such names, and between a name and its file
AFTER_PATH = re.compile(r"`?,? (?:the contracts? of )?")
BETWEEN = re.compile(r",? (?:and |to )?")
BEFORE_PATH = re.compile(r"(?: in | \(|, )`?")
# a record of what was: its paths need only have been
RECORD = "docs/LANDINGS.md"


class Checker:
    def __init__(self, repository, document, exceptions, faults):
        self.repository, self.document, self.exceptions, self.faults = repository, document, exceptions, faults
        self.paths = Paths(repository)
        self.counts = {"paths": 0, "names": 0}
        self.crates = []  # those that the section has named, the last first

    def fault(self, place, thing, why):
        if not self.exceptions.has(self.document.path, thing):
            self.faults.append(f"{self.document.at(place)}: {thing}: {why}")

    def block(self, block):
        """Paths first, since names stand beside one."""
        self.name_crates(block)
        files = {}
        for found in mentioned(block):
            if self.paths.is_path(found.path):
                self.counts["paths"] += 1
                files[found] = self.paths.resolve(found.path, self.document.path, self.crates)
                if not files[found]:
                    self.lost(block.start + found.place, found.path)
        if self.document.path != RECORD and block.kind != "code":
            self.names(block, *by_place(block.text, files))

    def name_crates(self, block):
        if block.kind == "heading":
            self.crates = []
        named = [word for word in re.findall(r"[a-z_]+", block.text) if word in self.repository.crates]
        self.crates = list(dict.fromkeys([*reversed(named), *self.crates]))

    def lost(self, place, path):
        self.fault(place, path, "no such file or folder")

    def names(self, block, ends, starts):
        for group in groups(block.text):
            files = beside(block.text, group, ends, starts)
            for match in group:
                if not PLACEHOLDER.search(match[1]):
                    self.counts["names"] += 1
                    self.name(block.start + match.start(), match[1], files)

    def name(self, place, name, files):
        parts = re.split(r"::|\.", name)
        inside = [file for file in files if file in self.repository.files]
        if inside and not any(parts[-1] in self.repository.words_of(file) for file in inside):
            self.fault(place, name, f"not in {inside[0]}")
        elif not self.known(name) and not all(map(self.known, parts)):
            self.fault(place, name, "no source has this name")

    def known(self, word):
        return word in self.repository.words() or word in self.repository.names


def by_place(text, files):
    """The files of each path by its end and by its start. Of paths that follow one another, all that came before."""
    ends, starts, last = {}, {}, None
    for found in sorted(files):
        together = last is not None and BETWEEN.fullmatch(text, last.end, found.place)
        starts[found.place] = files[found]
        ends[found.end] = files[found] + (ends[last.end] if together else [])
        last = found
    return ends, starts


def groups(text):
    """Names that follow one another."""
    group = []
    for match in NAME.finditer(text):
        if group and not BETWEEN.fullmatch(text, group[-1].end(), match.start()):
            yield group
            group = []
        group.append(match)
    if group:
        yield group


def beside(text, group, ends, starts):
    """The files whose path is right after the names, in brackets or after "in", or right before them."""
    first, last = group[0].start(), group[-1].end()
    after = [(text[last:start], files) for start, files in starts.items() if BEFORE_PATH.fullmatch(text, last, start)]
    before = [files for end, files in ends.items() if AFTER_PATH.fullmatch(text, end, first)]
    if after and (not before or not after[0][0].startswith(",")):
        return after[0][1]
    return before[0] if before else []


class RecordChecker(Checker):
    """A path of a record is there, or was in the history."""

    past = None

    def lost(self, place, path):
        if RecordChecker.past is None:
            RecordChecker.past = self.repository.history() or set()
        past = RecordChecker.past
        if past and not any(was(path, name) for name in past):
            self.fault(place, path, "neither there nor in the history")


def was(path, name):
    """Whether a path of the history is what a record calls so, by its end."""
    path = path.rstrip("/")
    return any(("/" + name).endswith("/" + path + suffix) for suffix in ("", ".antt", ".rt"))


def check(repository, document, exceptions, faults):
    kind = RecordChecker if document.path == RECORD else Checker
    checker = kind(repository, document, exceptions, faults)
    for block in document.blocks:
        checker.block(block)
    return checker.counts
