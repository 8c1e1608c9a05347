#!/bin/sh
# Puts one fault after another into the library (faults/) and sees that the fuzzer finds it: 1 to 30 in calls over token
# rows, 31 to 60 in calls over texts, 61 to 63 in expressions, 64 to 95 among all lists of a few rows and, but for 90
# and 91, which are of cause 2's limit, in calls over token rows too, 96 to 142 in queries, 143 to 152, of lists of
# expectations, in calls over token rows. 153 to 175 are of the parent in tree rows: up to 169 in calls over token rows,
# but for 165, which is of row numbers past 16 bits and found among the lists of `rows`; some also in pairs of files
# (`tails`); 170 in calls over texts, and from 171 on in queries. With numbers as arguments those faults alone.
set -eu
here=$(cd "$(dirname "$0")" && pwd)
good=$("$here/../../tools/static-library")
work=$(mktemp -d)
trap 'rm -rf "$work"' EXIT
renamed=
for call in dt_parse dt_parse_text dt_caret dt_parts_in_range; do
    renamed="$renamed --redefine-sym $call=${call}_good"
done
objcopy $renamed "$good" "$work/libdt_parser.a"
for name in faults text caret; do
    gcc -std=c11 -O2 -fPIE -Wall -Wextra -Werror -c -o "$work/$name.o" "$here/faults/$name.c"
    ar r "$work/libdt_parser.a" "$work/$name.o"
done
program=$(DT_PARSER_LIB=$work/libdt_parser.a "$here/build.sh")

cases=300000
files=3000
missed=0
try() { # COMMAND FAULT
    if DT_FAULT=$2 "$program" "$1" --seed 7 --cases $cases --count $files >"$work/out" 2>/dev/null; then found=no; else
        found=yes
    fi
    case $2-$found in
    0-no) echo "no fault: no difference in $1" ;;
    0-yes | *-no) echo "fault $2 in $1: WRONG, found: $found"; missed=1 ;;
    *) printf 'fault %s in %s: %s; %s\n' "$2" "$1" "$(grep -m1 differs "$work/out")" \
        "$(sed -n 's/^call: //p' "$work/out" | head -1)" ;;
    esac
}
if [ $# -eq 0 ]; then
    try run 0
    try text 0
    try expressions 0
    try rows 0
    try carets 0
    try tails 0
    set -- $(seq 1 175)
fi
for fault in "$@"; do
    case $fault in
    154 | 155 | 160 | 161)
        try run "$fault"
        try tails "$fault"
        ;;
    90 | 91 | 165) try rows "$fault" ;;
    [1-9] | [12]? | 30 | 14[3-9] | 15? | 16?) try run "$fault" ;;
    3? | 4? | 5? | 60 | 170) try text "$fault" ;;
    6[1-3]) try expressions "$fault" ;;
    9[6-9] | 1??) try carets "$fault" ;;
    *)
        try rows "$fault"
        try run "$fault"
        ;;
    esac
done
exit $missed
