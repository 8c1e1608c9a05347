#!/bin/sh
# Links the static library from C and from Rust, and runs every case of the gate's two lists through both: whole
# answers, in buffers full of garbage; from C also with guards beside each buffer, each accepted call again in buffers
# that just fit and with one number fewer, the bytes of each case as a text, queries of each case at every offset,
# random numbers, texts and queries in place of the input, and the limits of size. Needs gcc and cargo.
#   tests/link/run.sh                          over the library that tools/static-library names
#   tests/link/run.sh --short                  every eighth offset, and a tenth of what is random
#   tests/link/run.sh --memcheck               the lists under valgrind, but for the queries, which are too many
set -eu
here=$(cd "$(dirname "$0")" && pwd)
root=$(dirname "$(dirname "$here")")
. "$here/../checks.sh"
count=200000 step=1 memcheck=
case $#${1:-} in
0) ;;
1--short) count=20000 step=8 ;;
1--memcheck) memcheck='valgrind -q --error-exitcode=9' ;;
*) echo "usage: tests/link/run.sh [--short | --memcheck]" >&2 && exit 2 ;;
esac
[ -z "$memcheck" ] || command -v valgrind >/dev/null || { echo "no valgrind" >&2 && exit 2; }
DT_PARSER_LIB=$("$root/tools/static-library")
export DT_PARSER_LIB

for program in replay garbage queries; do
    check "$program.c does not compile or link" gcc -std=c11 -O2 -Wall -Wextra -Werror -I "$root/include" \
        -o "$work/$program" "$here/$program.c" "$DT_PARSER_LIB"
done
check "replay.rs does not compile or link" \
    cargo build --release --offline --quiet --manifest-path "$here/Cargo.toml" --target-dir "$root/tests/target"
[ "$failed" -eq 0 ] || { all_counted "linked from C and from Rust"; exit 1; }

# What is printed of a list, against what the gate's program prints: PROGRAM LIST. The lines of readings_run on 65,536
# blanks belong to no list: garbage.c makes those calls.
replays() {
    sed '/^65536-blanks /,$d' "$root/crates/$2/stdout" >"$work/expected"
    # shellcheck disable=SC2086
    $memcheck "$1" "$root/crates/$2/stdin" >"$work/wrote" && cmp "$work/expected" "$work/wrote"
}
# A check of which the answers by number are shown: WHAT COMMAND..
shows() {
    before=$failed
    check "$@"
    [ "$failed" -ne "$before" ] || echo "$1: answers by number: $(grep ' 0: ' "$work/why")"
}
asked() {
    found=0
    wait "$asking" || found=$?
    cat "$work/asked"
    return "$found"
}

# on the other processor, as it takes longer than all else
"$work/replay" --queries "$step" "$root/crates/replay_run/stdin" >"$work/asked" 2>&1 &
asking=$!
for list in replay_run readings_run; do
    check "$list from C" replays "$work/replay" $list
    check "$list from Rust" replays "$root/tests/target/release/replay" $list
    echo "$list: $(grep -vc '^[txre] ' "$work/expected") cases"
    # shellcheck disable=SC2086
    shows "$list as texts" $memcheck "$work/replay" --text "$root/crates/$list/stdin"
done
shows "readings_run asked" "$work/replay" --queries "$step" "$root/crates/readings_run/stdin"
shows "limits of size and random calls" "$work/garbage" "$count"
shows "limits of size and random queries" "$work/queries" "$count"
shows "replay_run asked" asked
all_counted "linked from C and from Rust"
