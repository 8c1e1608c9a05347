"""tables.py RESULTS ROOT: prints the figures in short, and writes the tables between the lines `<!-- NAME -->` and
`<!-- end -->` of docs/BENCHMARK.md."""
import glob
import re
import sys

from inputs import COSTLY
from results import HEADLINE, HEADLINE_TEXT, Query, Times, counts, queries, read, texts

RESULTS, ROOT = sys.argv[1:]
COUNTS = counts(f"{RESULTS}/counts.csv")
TIMES = Times(f"{RESULTS}/times.csv")
TEXTS = texts(f"{RESULTS}/text_counts.csv")
TEXT_TIMES = Times(f"{RESULTS}/text_times.csv")
QUERIES = queries(f"{RESULTS}/query_counts.csv")
SETS = read(f"{RESULTS}/machines.csv")  # of runs, several on one machine
MACHINES = {s["machine"] for s in SETS}
BOARD = [c for c in COUNTS if c.family == "board"]
WORST = [c for c in COUNTS if c.family != "board"]
LARGEST = [c for c in COUNTS if c.tokens > 40000]


def table(head, rows):
    lines = [head, ["---"] + ["---:"] * (len(head) - 1), *rows]
    return "\n".join("| " + " | ".join(map(str, line)) + " |" for line in lines)


def plural(n, word):
    return f"{n} {word}" if n == 1 else f"{n} {word}s"


def summary():
    """Instructions first; times as their range over all runs of all sets."""
    c = next(c for c in COUNTS if c.name == HEADLINE)
    n, runs = c.tokens, sum(int(s["runs"]) for s in SETS)
    best, worst = min(float(s["best"]) for s in SETS), max(float(s["worst"]) for s in SETS)
    ours, heap = c.each("port_buffer_bytes"), c.each("rust_peak_heap_bytes")
    text = next(t for t in TEXTS["text"] if t.name == HEADLINE_TEXT)
    return table([f"A board file of {n:,} tokens", "Port", "Rust", "Port / Rust"], [
        ["instructions per token", f"{c.port / n:,.0f}", f"{c.rust / n:,.0f}", f"{c.port / c.rust:.2f}"],
        ["in the strict setting, which the Rust lacks", f"{c.strict / n:,.0f}", "", f"{c.strict / c.rust:.2f}"],
        [f"time, {plural(runs, 'run')} on {plural(len(MACHINES), 'machine')}", "", "", f"{best:.2f} to {worst:.2f}"],
        ["lexing its text, instructions per byte", f"{text.lexing / text.bytes:.1f}", "", ""],
        ["bytes of memory per token", f"{ours:,.0f} lent", f"{heap:,.0f} of heap", f"{ours / heap:.2f}"],
    ])


def machines():
    columns = "machine date runs best median worst load".split()
    rows = [[s[c] or "not noted" for c in columns] for s in SETS]
    return table(["Machine", "Date", "Runs", "Port / Rust by time: best", "median", "worst", "Load at the start"], rows)


def ratios(name, column):
    return [f"{x:.2f}" for x in TIMES.spread(name, column)] if TIMES.comparable(name) else ["-"] * 3


def cost(rows):
    head = ["Input", "Tokens", "Reports", "Port, instructions per token", "strict setting", "Rust", "Port / Rust",
            "By time: best", "median", "worst", "median with freeing"]
    out = []
    for c in rows:
        each = [f"{x / c.tokens:,.0f}" for x in (c.port, c.strict, c.rust)] + [f"{c.port / c.rust:.2f}"]
        freed = ratios(c.name, "time_ratio_with_freeing")[1]
        out.append([c.name, f"{c.tokens:,}", f"{c['reports']:,}", *each, *ratios(c.name, "time_ratio"), freed])
    return table(head, out)


def board_texts(rows):
    head = ["Text", "Bytes", "Tokens", "Lexing, instructions per byte", "its first pass",
            "Text, instructions per token", "the same tokens, ready", "Text / tokens", "Lexing, ns per byte",
            "Text / tokens by time: best", "median", "worst"]
    out = []
    for t in rows:
        each = [f"{n / t.bytes:.1f}" for n in (t.lexing, t.first_pass)]
        each += [f"{n / t.tokens:,.0f}" for n in (t.text, t.rows)]
        times = ["-"] * 4
        if t.name in TEXT_TIMES.by_input:
            times = [f"{TEXT_TIMES.spread(t.name, 'lexing_ns')[1] / t.bytes:.1f}"]
            times += [f"{x:.2f}" for x in TEXT_TIMES.spread(t.name, "time_ratio")]
        out.append([t.name, f"{t.bytes:,}", f"{t.tokens:,}", *each, f"{t.text / t.rows:.2f}", *times])
    return table(head, out)


def worst_texts():
    """A line for each family: of three sizes, and of the most bytes."""
    head = ["Text", "Bytes", "Tokens", "Lexing, instructions per byte", "a quarter of the text", "a 16th", "First pass",
            "of 1,048,576 bytes"]
    out = []
    for family in COSTLY:
        small, middle, t, *refused = TEXTS[family]
        most = refused[0] if refused else t
        sizes = [f"{x.lexing / x.bytes:.1f}" for x in (t, middle, small)]
        first = [f"{x.first_pass / x.bytes:.1f}" for x in (t, most)]
        out.append([family, f"{t.bytes:,}", f"{t.tokens:,}", *sizes, *first])
    return table(head, out)


def asked(rows):
    head = ["Input", "Tree rows", "Rows listed: caret at the length", "in the middle", "last part", "all parts",
            "Instructions per tree row: caret at the length", "in the middle", "last part", "all parts", "the parse"]
    out = []
    for q in rows:
        listed = [f"{q.listed[what]:,}" for what in Query.WHAT]
        each = [f"{q.cost[what] / q.tree_rows:.2f}" for what in Query.WHAT]
        out.append([q.name, f"{q.tree_rows:,}", *listed, *each, f"{q.parse / q.tree_rows:,.0f}"])
    return table(head, out)


def memory(rows):
    head = ["Input", "Tokens", "Port: buffers that just suffice", "buffers by the bound", "Rust: most heap at once",
            "heap that its answer keeps"]
    columns = ["port_buffer_bytes", "bound_buffer_bytes", "rust_peak_heap_bytes", "rust_kept_heap_bytes"]
    return table(head, [[c.name, f"{c.tokens:,}", *(f"{c.each(k):,.0f}" for k in columns)] for c in rows])


def clearing(rows):
    head = ["Input", "Port, instructions per token, as callgrind counts `rep stosb`",
            "Time in buffers by the bound / time in buffers that just suffice"]
    out = []
    for c in rows:
        slower = TIMES.spread(c.name, "port_in_bound_buffers_ns")[1] / TIMES.spread(c.name, "port_ns")[1]
        out.append([c.name, f"{c.each('port_instructions_with_rep'):,.0f}", f"{slower:.1f}"])
    return table(head, out)


def stack():
    rows = []
    for r in read(f"{RESULTS}/stack.csv"):
        text = f"{int(r['text_bytes']):,}" if r.get("text_bytes") else "-"
        rows.append([r["nesting"], r["levels"], r["number"], f"{int(r['bytes']):,}", text])
    return table(["Nesting", "Levels", "Answer's number", "Bytes of stack", "as a text"], rows)


def put(path, tables):
    with open(f"{ROOT}/{path}") as file:
        text = file.read()
    for name, lines in tables.items():
        pattern = rf"(<!-- {name} -->\n).*?(<!-- end -->)"
        if not re.search(pattern, text, re.S):
            sys.exit(f"{path}: no place for the table {name}")
        text = re.sub(pattern, lambda m: m[1] + lines + "\n" + m[2], text, flags=re.S)
    with open(f"{ROOT}/{path}", "w") as file:
        file.write(text)


def main():
    short = {"speed": summary()}
    put("docs/BENCHMARK.md", short | {
        "machines": machines(), "board": cost(BOARD), "worst": cost(WORST), "memory": memory(LARGEST),
        "texts": board_texts(TEXTS["text"]), "worst texts": worst_texts(), "queries": asked(QUERIES),
        "clearing": clearing(BOARD), "stack": stack()})
    print("\n\n".join([summary(), machines(), cost(COUNTS), board_texts(TEXTS["text"]), worst_texts(),
                       asked(QUERIES)]))
    measured = [len(read(path)) for path in glob.glob(f"{RESULTS}/*.csv")]
    print(f"\nbench: {sum(measured)} results of {len(measured)} files, as docs/BENCHMARK.md has them")


main()
