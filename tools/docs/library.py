"""Asks the proved library, through the program `ask` (tests/link/ask.rs)."""
import os
import subprocess
import sys

from .answer import Answer, Names

BUILD = "cargo build --release --offline --quiet -p replay --bin ask".split()


class Library:
    """Built when it is first asked: with DT_PARSER_LIB, or what tools/static-library names."""

    def __init__(self, root):
        self.root, self.names, self.program = root, Names(root), None
        self.known = {}

    def build(self):
        folder = os.path.join(self.root, "tests")
        if subprocess.run(BUILD, cwd=folder, check=False).returncode:
            sys.exit(f"check-docs: `{' '.join(BUILD)}` in tests/ fails; DT_PARSER_LIB names the library to link")
        self.program = os.path.join(folder, "target", "release", "ask")

    def ask(self, calls):
        """An answer for each call. One that was asked before is known."""
        if not self.program:
            self.build()
        new = [call for call in dict.fromkeys(calls) if call not in self.known]
        lines = [call.line() for call in new]
        said = subprocess.run([self.program], input="\n".join(lines), stdout=subprocess.PIPE, text=True, check=False)
        answers = said.stdout.splitlines()
        if len(answers) < len(lines):
            sys.exit(f"check-docs: no answer to `{lines[len(answers)][:200]}` ({self.program})")
        for call, line in zip(new, answers):
            self.known[call] = Answer(self.names, self.ask, call, line)
        return [self.known[call] for call in calls]
