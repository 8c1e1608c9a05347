#!/bin/sh
# Builds and runs the fuzzer (docs/FUZZING.md):
#   tests/fuzz/run.sh run|text|carets|files|tails|repeat|small|lists|expressions|rows|texts|exact ..
#   tests/fuzz/run.sh smoke [CASES]   each kind for a short time
#   tests/fuzz/run.sh                 10,000,000 cases over token rows
set -eu
here=$(dirname "$0")
if [ "${1:-}" = smoke ]; then
    shift
    exec "$here/smoke.sh" "$@"
fi
program=$("$here/build.sh")
[ $# -gt 0 ] || set -- run --seed 1 --cases 10000000
exec "$program" "$@"
