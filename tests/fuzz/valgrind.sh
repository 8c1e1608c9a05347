#!/bin/sh
# Calls over exactly sized buffers under valgrind: tests/fuzz/valgrind.sh [CASES] [SEED]. Fails on any error of
# valgrind.
set -eu
command -v valgrind >/dev/null || { echo "no valgrind" >&2 && exit 2; }
program=$("$(dirname "$0")/build.sh")
exec valgrind --error-exitcode=9 --leak-check=no --max-stackframe=100000000 \
    "$program" exact --cases "${1:-5000}" --seed "${2:-1}"
