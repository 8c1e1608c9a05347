"""times.py FOLDER RUNS ROUNDS MACHINE RESULTS: times both parsers in so many runs, each a process of its own.

Adds a line for each run and input to RESULTS/times.csv, of texts to RESULTS/text_times.csv, and one for the whole set
of runs to RESULTS/machines.csv, with the machine and the date. Earlier sets stay, those of the same machine too: what
was measured once is part of the range. MACHINE names the machine; without a name it is its processor."""
import csv
import datetime
import os
import sys

from inputs import GROUPS, TEXTS, output
from results import HEADLINE, Times

FOLDER, RUNS, ROUNDS, MACHINE, RESULTS = sys.argv[1:]
COLUMNS = """date run input port_ns rust_copy_ns rust_with_copy_ns rust_with_copy_and_free_ns time_ratio
    time_ratio_with_freeing port_in_bound_buffers_ns""".split()
TEXT_COLUMNS = "date run input lexing_ns text_ns rows_ns time_ratio".split()
MACHINE_COLUMNS = "machine date runs best median worst load".split()


def processor():
    with open("/proc/cpuinfo") as file:
        names = [line.split(":", 1)[1].strip() for line in file if line.startswith("model name")]
    return f"{names[0]}, {len(names)} processors"


def add(path, columns, lines):
    """Adds lines to a table."""
    head = [] if os.path.exists(path) else [columns]
    with open(path, "a", newline="") as file:
        csv.writer(file, lineterminator="\n").writerows(head + lines)


def timed(date, driver, groups):
    for run in range(1, int(RUNS) + 1):
        print(f"times, {driver}, run {run} of {RUNS}", file=sys.stderr)
        for group in groups:
            for line in output(f"{FOLDER}/{driver}", "times", ROUNDS, *group).splitlines():
                yield [date, run, *line.split(",")]


def main():
    load, date = os.getloadavg()[0], datetime.datetime.now(datetime.timezone.utc).strftime("%Y-%m-%d %H:%M")
    if load > 0.3:
        print(f"note: the load is {load:.1f}: other programs run, and times will vary more", file=sys.stderr)
    tokens, texts = [*timed(date, "bench", GROUPS)], [*timed(date, "texts", [TEXTS])]
    # added at once, so that an interrupted set leaves no lines
    add(f"{RESULTS}/times.csv", COLUMNS, tokens)
    add(f"{RESULTS}/text_times.csv", TEXT_COLUMNS, texts)
    ratios = [f"{x:.2f}" for x in Times(f"{RESULTS}/times.csv").spread(HEADLINE, "time_ratio")]
    add(f"{RESULTS}/machines.csv", MACHINE_COLUMNS, [[MACHINE or processor(), date, RUNS, *ratios, f"{load:.1f}"]])


main()
