"""The files of the repository, the words in its sources, and what its history had."""
import os
import re
import subprocess

# what a build makes need not be there
BUILT = ("target/", "tests/target/", "bindings/rust/target/", "examples/c/target/")
WORD = re.compile(r"[A-Za-z_][\w'-]*")
# what a comment says of a name does not make it one of the file
COMMENT = {".rt": re.compile(r"//.*"), ".antt": re.compile(r"(?:^|(?<=\s))--(?=\s).*", re.M)}
# sources in whose text a name may stand
SOURCES = ".antt .rt .rs .c .h .in .py .sh .toml .txt .edit .patch .dts .dtsi .rows .1".split()
# names in these are those of faults and exceptions, and of what an earlier commit had
NO_SOURCES = ("tools/docs/", "tools/points/", "tests/test-check-docs")
TOP_SOURCES = ("crates/", "include/", "bindings/", "tests/", "tools/", "examples/", "docs/src/", ".ci/", "lib/")


class Repository:
    def __init__(self, root):
        self.root = root
        self.files = self._files()
        self.names = {os.path.basename(path) for path in self.files}
        self.folders = {folder for path in self.files for folder in above(path)}
        self.crates = {path.split("/")[1] for path in self.files if path.startswith("crates/")}
        self._words = None
        self._words_of = {}

    def _files(self):
        """Tracked files and new ones, without what is ignored; of a tree without git every file."""
        command = ["git", "-C", self.root, "ls-files", "--cached", "--others", "--exclude-standard"]
        try:
            said = subprocess.run(command, stdout=subprocess.PIPE, stderr=subprocess.DEVNULL, text=True, check=True)
            listed = said.stdout.splitlines()
        except (OSError, subprocess.CalledProcessError):
            listed = list(walked(self.root))
        return {path for path in listed if os.path.exists(os.path.join(self.root, path))}

    def has(self, path):
        return path in self.files or path.rstrip("/") in self.folders

    def words(self):
        """Every word of the sources, and of no document but document 01 and 02."""
        if self._words is None:
            self._words = set()
            for path in self.files:
                if is_source(path):
                    self._words |= self.words_of(path)
        return self._words

    def words_of(self, path):
        """The words of a file, or of all files of a folder. Names may have dashes; the parts of one count too, since
        Rust and C have none."""
        if path not in self._words_of:
            files = [path] if path in self.files else [name for name in self.files if name.startswith(path + "/")]
            found = {word for name in files for word in WORD.findall(self.code(name))}
            self._words_of[path] = found | {part for word in found if "-" in word for part in word.split("-")}
        return self._words_of[path]

    def code(self, path):
        comment = COMMENT.get(os.path.splitext(path)[1])
        return comment.sub("", self.text(path)) if comment else self.text(path)

    def text(self, path):
        with open(os.path.join(self.root, path), encoding="utf8", errors="replace") as file:
            return file.read()

    def history(self):
        """Every path that a commit had, or None where there is no history to look at."""
        command = ["git", "-C", self.root, "log", "--format=", "--name-only", "--no-renames"]
        shallow = ["git", "-C", self.root, "rev-parse", "--is-shallow-repository"]
        try:
            if run(shallow).strip() != "false":
                return None
            past = set(run(command).splitlines())
        except (OSError, subprocess.CalledProcessError):
            return None
        return past | {folder for path in past for folder in above(path)}


def run(command):
    return subprocess.run(command, stdout=subprocess.PIPE, stderr=subprocess.DEVNULL, text=True, check=True).stdout


def above(path):
    parts = path.split("/")
    return ["/".join(parts[:i]) for i in range(1, len(parts))]


def walked(root):
    for folder, folders, names in os.walk(root):
        folders[:] = [name for name in folders if name not in ("target", "out", ".git")]
        for name in names:
            yield os.path.relpath(os.path.join(folder, name), root)


def is_source(path):
    if path.startswith("docs/0"):
        return True
    if path.endswith(".md") or path.startswith(NO_SOURCES) or not (path.startswith(TOP_SOURCES) or "/" not in path):
        return False
    return os.path.splitext(path)[1] in SOURCES or "." not in os.path.basename(path)
