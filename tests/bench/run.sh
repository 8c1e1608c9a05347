#!/bin/sh
# Measures both parsers and writes tests/bench/results, the plot (docs/benchmark.svg, docs/benchmark.png) and the tables of
# docs/BENCHMARK.md. Some minutes, most of them under callgrind.
#   tests/bench/run.sh [RUNS] [ROUNDS] [MACHINE]    so many timed runs (5) of so many interleaved rounds each (31), added to
#                                             those in tests/bench/results; the machine's name
#   tests/bench/run.sh tables                       tables and plot again, from tests/bench/results
# For times that say something nothing else should run. Instructions do not vary.
set -eu
here=$(cd "$(dirname "$0")" && pwd)
root=$(dirname "$(dirname "$here")")
built=$root/tests/target
results=$here/results
python=python3
"$python" -c 'import matplotlib' 2>/dev/null || python=/usr/bin/python3 # a python3 beside the system's may lack it
"$python" -c 'import matplotlib' 2>/dev/null || {
    echo "no matplotlib: the plot is drawn with it (Debian: apt-get install python3-matplotlib)" >&2
    exit 2
}
if [ "${1:-}" != tables ]; then
    DT_PARSER_LIB=$("$root/tools/static-library")
    export DT_PARSER_LIB
    "$root/tests/oracle/build.sh" --copies
    (cd "$here" && cargo build --release --offline --quiet)
    gcc -std=c11 -O2 -Wall -Wextra -pedantic -o "$built/stack" "$here/stack.c" "$DT_PARSER_LIB" -pthread
    "$built/stack" >"$results/stack.csv"
    "$python" "$here/times.py" "$built/release" "${1:-5}" "${2:-31}" "${3:-}" "$results"
    "$python" "$here/counts.py" "$built/release" "$results/counts.csv"
    "$python" "$here/text_counts.py" "$built/release" "$results/text_counts.csv"
    "$python" "$here/query_counts.py" "$built/release" "$results/query_counts.csv"
fi
"$python" "$here/plot.py" "$results" "$root/docs/benchmark"
"$python" "$here/tables.py" "$results" "$root"
