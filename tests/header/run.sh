#!/bin/sh
# Compiles what a caller would write against the headers, in each dialect of C and C++ and with each compiler that is
# there, without a warning, and runs it; then each header alone. Needs no library.
set -eu
here=$(cd "$(dirname "$0")" && pwd)
include=$(dirname "$(dirname "$here")")/include
. "$here/../checks.sh"
warnings='-O2 -Wall -Wextra -pedantic -Wshadow -Wconversion -Wstrict-aliasing -Werror'

# COMPILER LANGUAGE DIALECT OPTION.., without a warning
compile() {
    compiler=$1 language=$2 dialect=$3
    shift 3
    # shellcheck disable=SC2086
    "$compiler" -std="$dialect" $warnings -I "$include" -x "$language" "$@"
}

try() { # COMPILER LANGUAGE DIALECT..
    command -v "$1" >/dev/null || { echo "no $1: not tried"; return 0; }
    compiler=$1 language=$2
    shift 2
    for dialect; do
        rm -f "$work/use"
        check "use.c as $dialect by $compiler" compile "$compiler" "$language" "$dialect" -o "$work/use" "$here/use.c"
        check "what use.c expects, as $dialect by $compiler" "$work/use"
        for header in dt_parser dt_names; do
            echo "#include \"$header.h\"" >"$work/alone.c"
            check "$header.h alone, as $dialect by $compiler" \
                compile "$compiler" "$language" "$dialect" -fsyntax-only "$work/alone.c"
        done
    done
}

try gcc c c99 c11 c17
try clang c c99 c11 c17
try g++ c++ c++11 c++17 c++20
try clang++ c++ c++11 c++17 c++20
all_counted "the headers"
