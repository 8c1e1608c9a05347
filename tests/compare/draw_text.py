"""Random texts from a seed, short enough for the checker."""
import glob
import os
import random

from compare.checker import SHORT
from compare.tables import BAD_ENTRIES, ENTRIES
from compare.text import TextCase, is_directive

# the most bytes of a text that is not short
LONG = 40

# where a token could be cut otherwise, or a word be taken for a directive
PIECES = [
    "a", "_", "u8", "l", "#", "#a", "#address-cells", "a,b", "]", "\0", "\x7f", "0", "1", "0x", "0X1f", "0x_", "0b",
    "0b12", "0o78", "08", "1_", "1u", "1u1", "1ul8", "1lul", "1i128", "1u12", "1LLU", "0xfu64", "/bits/",
    "/omit-if-no-ref/", "/include/", "/memreserve/", "/delete-node/", "/delete-property/", "/dts-v1/", "/plugin/",
    "/bits", "/delete-", "/i", "/*", "*/", "/**/", "/*/", "//", "//\r", "// a\n", "/", "*", '"', '"a"', '"\\"',
    '"\\\\"', "'", "'a'", "'\\'", "'\\\\'", "[", "[0]", " ", "\t", "\n", "\r", "\r\n", "\\\n", "\\\r\n", "\\\r", "\\",
    "\\\\", "#if", "# if", "#\tif", "#iface-cells", "#else", "#endif", "#pragma", "#define", "#undef", "#include",
    "#error", "#el", "#IF", "#\nif", "#\\\nif", "##if", "=", ";", "&", ":", "@", "{", "}", "<", ">", "(", ")", "+", "-",
    "%", "|", "^", "~", "<<", ">>", "&&", "||", "!", "<=", ">=", "==", "!=", "?", "a=<1>;", "b{};", "&c{", "};", "1:",
    ">;",
]  # fmt: skip
DIRECTIVES = [
    b"#if", b"\n#if 0\n", b"# \telif", b"#else", b"#endif", b"#pragma", b"#define a", b"#undef", b"#include <a>", b"#error",
]  # fmt: skip
TELLING = b"0178xXbouUlLi_afF#/*\\\r\n\t \"'[]&<>=;:,-+!|~^@{}().?%1264\0\x7f"
BASES = b"", b"0", b"0x", b"0X", b"0b", b"0B", b"0o", b"0O"
SUFFIXES = b" u U l L ul UL ull lu LLU lul u8 u16 i32 u64 i128 u1 u12 i U8 lll".split(b" ")


class TextDrawer:
    def __init__(self, texts, root, seed):
        self.texts, self.random = texts, random.Random(seed)
        folders = os.path.join(root, "examples"), os.path.join(root, "fuzz", "seeds")
        self.sources = []
        for path in sorted(path for folder in folders for path in glob.glob(os.path.join(folder, "*.dts"))):
            with open(path, "rb") as f:
                whole = f.read()
            lines = whole.splitlines(keepends=True)
            self.sources += [whole, b"".join(line for line in lines if not is_directive(line.lstrip()))]

    def piece(self, most):
        source = self.random.choice(self.sources)
        start = self.random.randrange(len(source))
        return source[start : start + self.random.randint(0, most)]

    def pieces(self, most):
        out = b""
        while len(out) < most and self.random.random() < 0.93:
            out += self.random.choice(PIECES).encode()
        return out

    def number(self, most):
        r, out = self.random, b""
        while len(out) < most and r.random() < 0.8:
            digits = r.choice((b"01", b"01_", b"017_", b"0189_", b"09afAF_", b"12468uUlLi_x"))
            out += r.choice(BASES) + bytes(r.choice(digits) for _ in range(r.randint(0, 5))) + r.choice(SUFFIXES)
            out += r.choice((b"", b" ", b",", b"-", b";", b"a"))
        return out

    def few(self, most):
        r = self.random
        alphabet = [r.choice(TELLING) for _ in range(r.randint(2, 7))]
        return bytes(r.choice(alphabet) for _ in range(r.randint(0, most)))

    def any(self, most):
        return bytes(self.random.randrange(128) for _ in range(self.random.randint(0, most)))

    def text(self, most):
        """Up to so many bytes; now and then with a directive or a byte of 128 or more in it."""
        r = self.random
        pieces = self.piece, self.piece, self.pieces, self.pieces, self.pieces
        text = r.choice(pieces + (self.number, self.few, self.few, self.any))(most)
        at = r.randint(0, len(text))
        more = r.choice((r.choice(DIRECTIVES), bytes([r.randrange(128, 256)]))) if r.random() < 0.12 else b""
        return (text[:at] + more + text[at:])[:most]

    def case(self, most):
        r = self.random
        entry = r.choice(BAD_ENTRIES) if r.random() < 0.03 else r.choice(ENTRIES)
        setting = r.choice((0, 0, 0, 1, 2, 256, r.randrange(1, 2**32)))
        return TextCase(entry, self.text(most), setting)

    def cases(self, count, lengths):
        """That many, two of three short. lengths: draws the parse's buffers by what they need at least."""
        cases = [self.case(SHORT if i % 3 else LONG) for i in range(count)]
        parses, tokens = self.texts.parses(cases), self.texts.tokens(cases)
        needs = iter(self.texts.oracle.ask([p for p in parses if p]))
        out = []
        for case, parse, numbers in zip(cases, parses, tokens):
            r, need = self.random, len(numbers)
            room = r.choice((need, need, need, need + 1, need + 2, need + 5, need - 1, r.randint(0, need)))
            lent = lengths(next(needs).needs()) if parse else tuple(r.randint(0, 9) for _ in range(5))
            out.append(case._replace(room=max(room, 0), lengths=lent))
        return out
