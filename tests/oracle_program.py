"""The oracle's program (tests/oracle/README.md): builds it, runs it, and has the Rust's kinds by name."""
import os
import subprocess
import sys

sys.path.insert(0, os.path.join(os.path.dirname(os.path.abspath(__file__)), "..", "tools"))
from header.sources import RUST, Repository


class Program:
    def __init__(self, root):
        folder = os.path.join(root, "tests")
        subprocess.run([os.path.join(folder, "oracle", "build.sh")], check=True, stdout=subprocess.DEVNULL)
        self.program = os.path.join(folder, "target", "release", "oracle")
        # numbers of token kinds by name, and the texts of those that have one
        self.kinds, self.texts = {}, {}
        for line in self.run(["kinds"]).splitlines():
            number, name, text = line.split(" ", 2)
            self.kinds[name] = int(number)
            if text:
                self.texts[int(number)] = text.encode()
        # the kinds of tokens: the other two are of leaves alone
        self.inputs = [n for name, n in self.kinds.items() if name not in ("Unrecognized", "Name")]
        # by the Rust's own order: what is asked here is not taken from the definitions
        rust = Repository(root).rust_enum
        self.nodes = {name: i for i, name in enumerate(rust(RUST + "cst.rs", "NodeKind"))}
        cases = enumerate(rust(RUST + "parser/errors.rs", "Expected"), 100)
        self.expectations = {name: number for number, name in cases if name != "Kind"}

    def run(self, words, given=""):
        """What the program writes, given these words and this standard input."""
        done = subprocess.run([self.program, *words], input=given, stdout=subprocess.PIPE, text=True, check=True)
        return done.stdout

    def blocks(self, words, lines):
        """The answer's lines to each of these cases, without the case's own line."""
        said = self.run(words, "".join(line + "\n" for line in lines))
        return [block.splitlines()[1:] for block in said.split("END\n")[:-1]]
