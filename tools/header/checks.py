"""What cannot be printed and is compared: the definitions with the Rust's order and with document 01, and of
include/dt_parser.h what stands in sentences and the lengths that crates/lexing and crates/queries prove to suffice."""
import re

from header.numbers import LAYOUT
from header.parser_h import PATH as HEADER
from header.sources import RUST, SPECS

DOCUMENT = "docs/01-scope.md"


def faults(numbers):
    """A line for each fault."""
    for check in (rust_kinds, expectations, entries, kinds_in_sentences, directive_words, token_length, list_length):
        yield from check(numbers)


# ---------------------------------------------------------------- the definitions


def rust_kinds(numbers):
    """The kinds are the Rust's, in its order; document 01 has the first numbers."""
    kinds = [
        ("TokenKind", "lexer.rs", 0, numbers.token_kinds),
        ("LexError", "lexer.rs", 64, numbers.lex_errors),
        ("NodeKind", "cst.rs", 0, numbers.node_kinds),
    ]
    for enum, path, first, table in kinds:
        cases = numbers.repo.rust_enum(RUST + path, enum)
        yield from differing(f"{SPECS}{enum}.antt", table, {case: first + i for i, case in enumerate(cases)})


def expectations(numbers):
    """The most that are pending are as many as there are: each kind, and each of the Rust's other expectations."""
    repo, others = numbers.repo, numbers.expectations
    ours = repo.numbers(SPECS + "Errors.antt", "`Expected`")
    yield from differing(SPECS + "Errors.antt", ours, {name: others.get(name) for name in ours})
    counts = {"KIND_CODES": len(numbers.token_kinds), "FIRST_OTHER": 101, "OTHER_CODES": len(others)}
    table = repo.numbers(LAYOUT)
    yield from differing(LAYOUT, {name: table.get(name) for name in counts}, counts)


def entries(numbers):
    """Document 01 names them in their order."""
    said = numbers.repo.found(r"for (\w+(?:, \w+)* and \w+) \(entries 1 to (\d+)\)", DOCUMENT)
    names = re.split(", | and ", said[1])
    yield from differing(SPECS + "Call.antt", numbers.entries, {name: 1 + i for i, name in enumerate(names)})
    if len(names) != int(said[2]):
        yield f"{DOCUMENT}: {len(names)} entries are named, and they are 1 to {said[2]}"


def differing(path, ours, wanted):
    for name in {**wanted, **ours}:
        if ours.get(name) != wanted.get(name):
            yield f"{path}: {name} is {ours.get(name)}, and must be {wanted.get(name)}"


# ---------------------------------------------------------------- sentences of the header


def kinds_in_sentences(numbers):
    """Where the kinds of a token row are listed, they are those of the definitions."""
    text = re.sub(r"\s+(\* )?\s*", " ", numbers.repo.text(HEADER))
    listed = re.findall(r"one of (\d+ to \d+(?:, \d+ to \d+)* and \d+ to \d+)", text)
    ranges = [f"{first} to {last}" for first, last in row_kinds(numbers)]
    wanted = " and ".join([", ".join(ranges[:-1]), *ranges[-1:]])
    if listed != [wanted, wanted]:
        yield f"{HEADER}: DT_REFUSAL_BAD_KIND or dt_parse lists {listed}, but {SPECS}RowCauses.antt has {wanted}"


def row_kinds(numbers):
    """The kinds that a token row may have, as ranges of numbers."""
    said = numbers.repo.found(r"^is_kind k = \(leb k K\.(\w+)([^\n]*)\) \|\| \(leb L\.(\w+) k && leb k L\.(\w+)\)$",
                              SPECS + "RowCauses.antt")
    kinds, errors = numbers.token_kinds, numbers.lex_errors
    left_out = {kinds[name] for name in re.findall(r" && not \(eqb k K\.(\w+)\)", said[2])}
    allowed = sorted({*range(kinds[said[1]] + 1)} - left_out | {*range(errors[said[3]], errors[said[4]] + 1)})
    first = [kind for kind in allowed if kind - 1 not in allowed]
    return zip(first, [kind for kind in allowed if kind + 1 not in allowed])


def directive_words(numbers):
    """The words that DT_REFUSAL_DIRECTIVE lists are those that a text is refused for."""
    listed = re.search(r"DT_REFUSAL_DIRECTIVE = .*? begins with (.*?), as ", numbers.repo.text(HEADER), re.S)
    words = re.findall(r"\w+", listed[1].replace(" or ", " ") if listed else "")
    body = numbers.repo.found(r"^directive_words =\n(.*?)\[\]", SPECS + "Text.antt")[1]
    wanted = re.findall(r'ascii "(\w+)"', body)
    if words != wanted:
        yield f"{HEADER}: DT_REFUSAL_DIRECTIVE lists {words}, but {SPECS}Text.antt has {wanted}"


# ---------------------------------------------------------------- lengths of the header


def token_length(numbers):
    """A token has a byte or more, and all of them have the text's: so there are no more tokens than bytes."""
    path = "crates/lexing/specs/Joined.antt"
    proved = [said in numbers.repo.text(path) for said in ("→ 1 ≤ t.len", "byte_count (lex s) ≡ length s")]
    most = "(size_t)DT_MAX_TOKEN_NUMBERS"
    wanted = f"((size_t)(bytes) < {most} / DT_ROW_TOKEN ? DT_ROW_TOKEN * (size_t)(bytes) : {most})"
    yield from length(numbers, "DT_TOKENS_FOR(bytes)", wanted, path, all(proved))


def list_length(numbers):
    """A list for as many numbers as there are tree rows always fits: so one for the rows of the tree's buffer."""
    path = "crates/queries/specs/AsParsed.antt"
    proved = "→ (call 1 setting bytes tokens b).answer.tree_count ≤ length list\n" in numbers.repo.text(path)
    yield from length(numbers, "DT_LIST_FOR(trees_len)", "((size_t)(trees_len) / DT_ROW_TREE)", path, proved)


def length(numbers, macro, wanted, path, proved):
    ours = re.search(r"^#define %s((?:.*\\\n)*.*)$" % re.escape(macro), numbers.repo.text(HEADER), re.M)
    said = " ".join(ours[1].replace("\\\n", " ").split()) if ours else "missing"
    if said != wanted or not proved:
        yield f"{HEADER}: {macro} is {said}, and must be {wanted}, which {path} must prove"
