"""plot.py RESULTS NAME: draws NAME.svg and NAME.png: how the cost grows with the number of tokens, or of bytes."""
import sys

import matplotlib

matplotlib.use("Agg")
from matplotlib import pyplot, ticker

from inputs import COSTLY, FAMILIES
from results import HEADLINE, HEADLINE_TEXT, Times, counts, texts

RESULTS, NAME = sys.argv[1:]
PORT, RUST = "tab:red", "tab:blue"
MARKS = dict(zip(FAMILIES, "os^Dv*P", strict=True))
TOKENS = "tokens in the file", [1000, 2000, 4000, 8000, 16000, 32000, 65536]
BYTES = "bytes of the text", [4096, 16384, 65536, 262144, 1048576]
BOARD_BYTES = "bytes of the text", [3000, 6000, 12000, 24000, 48000, 96000, 180000]


def axes(ax, title, unit, scale="linear", size=TOKENS):
    """The size is on a logarithmic scale, so that each doubling is a step of the same width."""
    of, ticks = size
    ax.set_xscale("log")
    ax.set_yscale(scale)
    ax.xaxis.set_major_locator(ticker.FixedLocator(ticks))
    ax.xaxis.set_minor_locator(ticker.NullLocator())
    ax.xaxis.set_major_formatter(ticker.FuncFormatter(lambda n, _: f"{n:,.0f}"))
    ax.yaxis.set_major_formatter(ticker.FuncFormatter(lambda n, _: f"{n:,.0f}"))
    ax.set_xlabel(of)
    ax.set_ylabel(unit)
    ax.set_title(title)
    ax.grid(alpha=0.3)


def board_instructions(ax, board):
    ratio = next(c.port / c.rust for c in board if c.name == HEADLINE)
    axes(ax, f"Board files: instructions, port / Rust = {ratio:.2f}", "instructions per token")
    tokens = [c.tokens for c in board]
    for label, colour, of in ("port", PORT, "port"), ("Rust", RUST, "rust"):
        ax.plot(tokens, [getattr(c, of) / c.tokens for c in board], "o-", color=colour, label=label)
    ax.set_ylim(0, 1.15 * max(c.port / c.tokens for c in board))
    ax.legend(loc="lower right")


def board_times(ax, board, times):
    axes(ax, f"Board files: time in {times.runs} runs on one machine", "nanoseconds per token")
    tokens = [c.tokens for c in board]
    for label, colour, column in ("port", PORT, "port_ns"), ("Rust", RUST, "rust_ns"):
        spreads = [[x / c.tokens for x in times.spread(c.name, column)] for c in board]
        best, median, worst = zip(*spreads)
        ax.plot(tokens, median, "o-", color=colour, label=f"{label}: median")
        ax.fill_between(tokens, best, worst, color=colour, alpha=0.2, linewidth=0, label=f"{label}: best to worst")
    ax.set_ylim(bottom=0)
    ax.legend(loc="lower right", ncol=2)


def worst_cases(ax, title, families, of):
    axes(ax, title, "instructions per token (logarithmic)", "log")
    for family, mark in MARKS.items():
        rows = families[family]
        ax.plot([c.tokens for c in rows], [getattr(c, of) / c.tokens for c in rows], mark + "-", label=family)
    ax.set_ylim(20, 40000)
    ax.legend(loc="upper center", ncol=4)


def board_texts(ax, board):
    head = next(t for t in board if t.name == HEADLINE_TEXT)
    title = f"Board files as texts: lexing, {head.lexing / head.bytes:.1f} instructions per byte"
    axes(ax, title, "instructions per byte", size=BOARD_BYTES)
    sizes = [t.bytes for t in board]
    ax.plot(sizes, [t.lexing / t.bytes for t in board], "o-", color=PORT, label="both passes")
    ax.plot(sizes, [t.first_pass / t.bytes for t in board], "s-", color=PORT, alpha=0.5, label="first pass")
    ax.axhline(45, color="black", linestyle="--", linewidth=1, label="at most 45 are asked for")
    ax.set_ylim(0, 60)
    ax.legend(loc="lower right")


def worst_texts(ax, families):
    """The costliest is drawn broad."""
    axes(ax, "Texts that might cost more: lexing", "instructions per byte (logarithmic)", "log", BYTES)
    rows = {family: [t for t in families[family] if t.lexing] for family in COSTLY}
    cost = {family: rows[family][-1].lexing / rows[family][-1].bytes for family in rows}
    colours, marks = pyplot.get_cmap("tab20").colors, "os^Dv*Pp"
    for i, family in enumerate(sorted(COSTLY, key=cost.get, reverse=True)):
        per_byte = [t.lexing / t.bytes for t in rows[family]]
        ax.plot([t.bytes for t in rows[family]], per_byte, marks[i % len(marks)] + "-", color=colours[i], label=family,
                markersize=5, linewidth=2.5 if i == 0 else 1.2)
    ax.set_ylim(10, 1600)
    ax.yaxis.set_major_locator(ticker.FixedLocator([10, 20, 50, 100, 200]))
    ax.yaxis.set_minor_locator(ticker.NullLocator())
    ax.legend(loc="upper center", ncol=4, fontsize=9)


def main():
    families = {}
    for c in counts(f"{RESULTS}/counts.csv"):
        families.setdefault(c.family, []).append(c)
    # the same figures give the same files
    pyplot.rcParams.update({"svg.hashsalt": "benchmark", "font.size": 10, "axes.titlesize": 11})
    figure, ((a, b), (c, d), (e, f)) = pyplot.subplots(3, 2, figsize=(12, 12.75), layout="constrained")
    figure.suptitle("Cost per token, or per byte, as the file grows: a level line is a cost in proportion to the input")
    board_instructions(a, families["board"])
    board_times(b, families["board"], Times(f"{RESULTS}/times.csv"))
    worst_cases(c, "Inputs that might cost more: port", families, "port")
    worst_cases(d, "Inputs that might cost more: Rust", families, "rust")
    of_texts = texts(f"{RESULTS}/text_counts.csv")
    board_texts(e, of_texts["text"])
    worst_texts(f, of_texts)
    figure.savefig(f"{NAME}.svg", metadata={"Date": None})
    figure.savefig(f"{NAME}.png", dpi=110, metadata={"Software": None})


main()
