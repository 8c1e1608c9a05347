#!/bin/sh
# Every kind of the fuzzer, each for a short time: tests/fuzz/run.sh smoke [CASES]. So many random calls, texts and
# pairs of files (50,000), a tenth as many files that are asked at every offset; every list, expression and text of a
# few parts; and the examples. Two kinds at a time.
set -eu
here=$(cd "$(dirname "$0")" && pwd)
root=$(dirname "$(dirname "$here")")
cases=${1:-50000}
case $#$cases in
*[!0-9]* | [!01]*) echo "usage: tests/fuzz/run.sh smoke [CASES]" >&2 && exit 2 ;;
esac
. "$here/../checks.sh"
program=$("$here/build.sh")

kind() { # KIND ARGUMENT..
    found=0
    "$program" "$@" >"$work/$1" 2>&1 || found=$?
    echo "$found" >"$work/$1.status"
}
{
    kind carets --count $((cases / 10))
    kind run --cases "$cases"
    kind files "$root"/examples/*.dts "$root"/examples/*.rows "$root"/examples/c/broken.*s
} &
kind texts --bytes 4
kind tails --cases "$cases"
kind lists --tokens 3
kind small --tokens 4
kind text --cases "$cases"
kind expressions --operators 3
kind rows --rows 2
wait

# Whether it ended well; if not, where it began to differ and how that is repeated: KIND
ended() {
    [ "$(cat "$work/$1.status")" = 0 ] || { head -n 6 "$work/$1" && tail -n 6 "$work/$1" && return 1; }
}
# How many calls the kinds say that they made. A pair of files is four calls.
calls() {
    awk '
        /^answers by number, (old|strict) setting:/ { sub(/.*setting:/, ""); for (i = 2; i <= NF; i += 2) calls += $i }
        match($0, /[0-9]+ (calls|queries)[, ]/) { calls += substr($0, RSTART) }
        / pairs in / { calls += 4 * $1 }
        END { printf "%d", calls }' "$@"
}
for kind in run text carets tails small lists expressions rows texts files; do
    check "fuzz $kind" ended $kind
    echo "$kind: $(calls "$work/$kind") calls"
done
cd "$work"
echo "fuzz: $(calls run text carets tails small lists expressions rows texts files) calls, $failed differences"
[ "$failed" -eq 0 ]
