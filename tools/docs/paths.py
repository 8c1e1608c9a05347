"""Paths in documents: each is there, by its whole name or by one of the short forms that documents use."""
import fnmatch
import os
import re
from typing import NamedTuple

from .repository import BUILT

ENDS = "md txt py rs rt antt sh c h toml lock rows dts dtsi edit patch in svg png a".split()
PATH = re.compile(r"(?<![\w/.@:*-])(?:\.{1,2}/)*(?:[\w.*+-]+/)+[\w.*+-]*(?<![.])")
FILE = re.compile(rf"(?<![\w/.*-])[\w-]+\.(?:{'|'.join(ENDS)})\b(?![\w/(])")
# a request's number; what stands for any name; folders of a crate
REQUEST = re.compile(r"\d+/14")
PLACEHOLDER = re.compile(r"(?<![A-Za-z])(?:FILE|NAME|LABEL|PREFIX|X|N)(?![A-Za-z])")
INSIDE = ("specs", "proofs", "src", "must-fail", "Proof")
# the Rust's files are cited as dt-tools names them
RUST = "docs/src/crates/parser/src/"
SUFFIXES = ("", ".antt", ".rt")


class Found(NamedTuple):
    place: int
    end: int
    path: str


def mentioned(block):
    """The paths of a block, and its file names; those in code are a reader's own files."""
    patterns = (PATH,) if block.kind == "code" else (PATH, FILE)
    for pattern in patterns:
        for match in pattern.finditer(block.text):
            yield Found(match.start(), match.end(), match[0])


class Paths:
    def __init__(self, repository):
        self.repository = repository
        self.starts = {path.split("/")[0] for path in repository.files if "/" in path} | repository.crates | set(INSIDE)

    def is_path(self, path):
        """What has a slash is a path if it starts like one or ends like a file."""
        if REQUEST.fullmatch(path) or PLACEHOLDER.search(path):
            return False
        first = path.split("/")[0]
        return "/" not in path or first in self.starts or first in (".", "..") or path.rsplit(".", 1)[-1] in ENDS

    def resolve(self, path, document, crates):
        """The files or folders that may be meant; none if there is none. `crates` are those that the text names."""
        if "/" not in path:
            return sorted(name for name in self.repository.files if os.path.basename(name) == path)
        return [found for place in self.places(path, document, crates) for found in self.there(place)]

    def places(self, path, document, crates):
        """Where it may be, by whole name first."""
        folder = os.path.dirname(document)
        yield os.path.normpath(path)
        yield os.path.normpath(os.path.join(folder, path))
        yield os.path.join(folder, "src", path)
        first = path.split("/")[0]
        if first in self.repository.crates:
            yield "crates/" + path
        if first in INSIDE:
            yield from self.inside(path, crates)
            yield "bindings/rust/" + path
        for place in (RUST, "docs/src/crates/", "tests/oracle/"):
            yield place + path

    def inside(self, path, crates):
        """In a crate that the text names, in one of its folders of proofs too, or in the definitions."""
        for crate in [*crates, "definitions"]:
            yield f"crates/{crate}/{path}"
            yield f"crates/{crate}/proofs/*/{path}"

    def there(self, path):
        if (path + "/").startswith(BUILT):
            return [path]
        if "*" in path:
            return [name for name in self.repository.files if fnmatch.fnmatch(name, path)]
        return [path + suffix for suffix in SUFFIXES if self.repository.has(path + suffix)]
