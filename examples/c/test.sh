#!/bin/sh
# Runs the two examples and compares what they print with the files *.txt: test.sh FOLDER.., each of which has both
# programs, built as another dialect. `make test` builds them and runs this.
set -eu
cd "$(dirname "$0")"
. ../../tests/checks.sh

# The exit status is this, and what is printed is that file: STATUS FILE PROGRAM ARGUMENT..
prints() {
    status=$1 file=$2
    shift 2
    found=0
    "$@" >"$work/out" 2>"$work/said" || found=$?
    check "$*: exit status $found, and not $status: $(cat "$work/said")" [ "$found" -eq "$status" ]
    check "$*: not as in $file" diff "$file" "$work/out"
}

# The file as a pipe, which cannot be read twice: PROGRAM FILE
piped() { cat "$2" | "$1" /dev/stdin; }

# Nothing is printed but one message: MESSAGE PROGRAM ARGUMENT..
fails() {
    message=$1
    shift
    prints 2 /dev/null "$@"
    check "$*: another message than expected" [ "$(cat "$work/said")" = "$(basename "$1"): $message" ]
}

# A source and the file of its token rows give the same, from a pipe too. labels.txt ends with the four reports that the
# strict setting adds; all else is the old setting's. overlay.dts has directives: refused, and its rows are not.
check_trees() {
    prints 0 expected.txt "$1"
    for form in dts rows; do
        prints 0 broken.txt "$1" broken.$form
        prints 0 broken.txt piped "$1" broken.$form
        prints 0 labels.txt "$1" --strict ../labels.$form
        prints 0 "$work/labels.txt" "$1" ../labels.$form
    done
    prints 1 refused.txt "$1" ../overlay.dts
    check "$1 ../overlay.rows: refused" "$1" ../overlay.rows
}

# What makes bad rows of broken.rows: a kind that only the parser makes, one that there is not, a length of 0, one past
# the input, a total that is short, and a kind whose text is another. bad_rows.txt has what is said of each.
check_bad_rows() {
    for edit in 's/^Colon 1$/Name 1/' 's/^Colon 1$/61 1/' 's/^Colon 1$/Colon 0/' 's/^Colon 1$/Colon 4294967295/' \
        's/^String 6$/String 5/' 's/^Colon 1$/Equals 1/'; do
        sed "$edit" broken.rows >"$work/edited"
        if "$1" "$work/edited"; then echo "exit status 0"; fi
    done >"$work/out"
    check "$1: not what bad_rows.txt has of bad rows" diff bad_rows.txt "$work/out"
}

# 40 nodes, one in the other, around an expression of 20,000 levels: of all lines none is indented without limit.
check_deep() {
    awk 'BEGIN {
        for (i = 0; i < 40; i++) printf "n{"
        printf "a=<(1"; for (i = 0; i < 20000; i++) printf "+1"; printf ")>;"
        for (i = 0; i < 40; i++) printf "};"
    }' >"$work/deep.dts"
    timeout 20 "$1" "$work/deep.dts" >"$work/out" || true
    check "$1: of a deep tree not 80,255 lines, or a long one" awk '
        length > 100 { print; exit wrong = 1 }
        END { if (NR != 80255) print NR " lines"; exit wrong || NR != 80255 }' "$work/out"
    for line in '^( {2}){32}DtNode@62\.\.' '^( {2}){32}\[33\] DtNode@64\.\.' '\[20046\] Number@84\.\.85 "1"$' \
        '^( {2}){32}\[33\] n$'; do
        check "$1: of a deep tree no line like $line" grep -Eq "$line" "$work/out"
    done
}

# Files that are no input; one that never ends is read up to the limit, and refused.
check_files() {
    program=$1
    shift
    fails "No such file or directory" "$program" "$work/none" "$@"
    fails "the file name is empty" "$program" "" "$@"
    fails "Is a directory" "$program" .. "$@"
    prints 1 too_long.txt timeout 20 "$program" /dev/zero "$@"
    sed 's/^Colon 1$/Colon 4294967296/' broken.rows >"$work/edited"
    fails "not a token's kind and length: a name or a number, and a number, below 4294967296" "$program" "$work/edited" "$@"
    prints 1 too_long.txt "$program" "$work/rows.rows" "$@"
    prints 1 too_long.txt "$program" "$work/text.rows" "$@"
    if [ -c /dev/full ]; then
        found=0
        "$program" ../board.dts "$@" >/dev/full 2>"$work/said" || found=$?
        check "$program: output that cannot be written has status $found" [ "$found" -eq 2 ]
    fi
}

# In board.dts: the 8 in a property that is not understood, the end of the file, and past it; a range over the end of a
# node and the start of the next, one inside the blank between them, one to the last number that there is, and an empty
# one. caret.txt has what is listed for each. overlay.rows has what is refused in overlay.dts.
check_carets() {
    for form in dts rows; do
        for places in 806 1251 1252 '570 574' '571 573' '1249 18446744073709551615' '600 600'; do
            echo "board.dts $places"
            # shellcheck disable=SC2086
            "$1" ../board.$form $places || echo "exit status $?"
        done >"$work/out"
        check "$1: not what caret.txt has of board.$form" diff caret.txt "$work/out"
    done
    prints 1 refused.txt "$1" ../overlay.dts 0
    check "$1 ../overlay.rows 0: refused" "$1" ../overlay.rows 0
}

check_offsets() {
    message="an offset is a number from 0 to 18446744073709551615, in decimal digits"
    for offset in 99999999999999999999999 18446744073709551616 '' -1 +1 ' 1' '1 ' 1x 0x10 1.5; do
        fails "$message" "$1" ../board.dts "$offset"
        fails "$message" "$1" ../board.dts 0 "$offset"
    done
    fails "usage: under_caret FILE OFFSET, or FILE START END" "$1" ../board.dts
}

# Files of token rows that say that they have more rows, or a longer text, than fit into memory.
make_long() {
    awk 'BEGIN { print "devicetree tokens 1\nrows 4294967295"; for (; i < 65537; i++) print "Semicolon 1" }' \
        >"$work/rows.rows"
    printf 'devicetree tokens 1\nrows 1\nWhitespace 1\ntext 4294967295\n%1048577s' '' >"$work/text.rows"
}

[ $# -gt 0 ] || { echo "usage: test.sh FOLDER.." >&2; exit 2; }
make_long
head -n -4 labels.txt >"$work/labels.txt"
for folder; do
    check_trees "$folder/print_tree"
    check_bad_rows "$folder/print_tree"
    check_deep "$folder/print_tree"
    check_files "$folder/print_tree"
    fails "usage: print_tree [[--strict] FILE]" "$folder/print_tree" --strict
    check_carets "$folder/under_caret"
    check_offsets "$folder/under_caret"
    check_files "$folder/under_caret" 0
done
echo "examples/c: $passed checks passed, $failed failed, of $# builds"
[ "$failed" -eq 0 ]
