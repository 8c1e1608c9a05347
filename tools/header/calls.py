"""The exported calls and their answers, as the code declares them."""
import re
import typing

from header.sources import SourceFault

EXPORTED, ANSWERS = "crates/dt_parser_c/src/*.rt", "crates/call/src/*.rt"
# What the code's types are in C and, of a pointer, in Rust.
IN_C = {
    "u32": "uint32_t ", "u64": "uint64_t ", "usize": "size_t ",
    "&[u8]": "const uint8_t *", "&[u32]": "const uint32_t *", "&mut [u32]": "uint32_t *",
}
POINTERS = {"&[u8]": "*const u8", "&[u32]": "*const u32", "&mut [u32]": "*mut u32"}


class Call(typing.NamedTuple):
    name: str
    parameters: list  # names and types
    answer: str

    def in_c(self):
        """A line for the numbers, and one for each slice: a pointer and a length."""
        head = f"struct {c_struct(self.answer)} {self.name}("
        numbers = ", ".join(IN_C[kind] + name for name, kind in self.parameters if kind not in POINTERS)
        slices = [f"{IN_C[kind]}{name}, size_t {name}_len" for name, kind in self.parameters if kind in POINTERS]
        return head + (",\n" + " " * len(head)).join([numbers, *slices]) + ");"

    def in_rust(self):
        lines = [f"    pub fn {self.name}("]
        for name, kind in self.parameters:
            lines.append(f"        {name}: {POINTERS.get(kind, kind)},")
            lines += [f"        {name}_len: usize,"] if kind in POINTERS else []
        return "\n".join([*lines, f"    ) -> {self.answer};"])


def c_struct(name):
    return "dt" + re.sub("([A-Z])", r"_\1", name).lower()


def calls(repo):
    """By name. The numbers stand before the slices, as the printed forms have them."""
    found = {}
    for path in repo.files(EXPORTED):
        for name, said, answer in re.findall(r'extern "C" fn (\w+)\((.*?)\) -> (\w+)', repo.text(path), re.S):
            parameters = re.findall(r"(\w+): ([^,\n]+),", said)
            kinds = [kind in POINTERS for _, kind in parameters]
            if kinds != sorted(kinds) or not {kind for _, kind in parameters} <= {*IN_C}:
                raise SourceFault(f"{path}: {name} is not of numbers and then slices: {parameters}")
            found[name] = Call(name, parameters, answer)
    return found


def structs(repo):
    """The answers' members with their types, by the structs' names."""
    found = {}
    for path in repo.files(ANSWERS):
        for name, body in re.findall(r"#\[repr\(C\)\]\n(?:#\[[^\n]*\]\n)*pub struct (\w+) \{\n(.*?)\n\}", repo.text(path), re.S):
            found[name] = re.findall(r"^    pub (\w+): (\w+),$", body, re.M)
    for call in calls(repo).values():
        if call.answer not in found:
            raise SourceFault(f"{ANSWERS}: no #[repr(C)] struct {call.answer}, which {call.name} returns")
    return found
