#!/bin/sh
# Makes answers.txt, which tests/oracle.rs holds this crate to: what the Rust answers to the oracle's lists of cases,
# its snippets, the examples, the seeds of tests/fuzz/ and some random cases. Needs the oracle built (tests/oracle/build.sh).
set -eu
here=$(cd "$(dirname "$0")" && pwd)
cd "$here/../../../.."
oracle=tests/target/release/oracle
{
    cat tests/oracle/cases/*.txt
    for file in tests/oracle/snippets/*.dts examples/*.dts tests/fuzz/seeds/*.dts; do echo "1 file $file"; done
    "$oracle" gen 8 40
} | "$oracle" totoks | "$oracle" rows any -p --no-tokens >"$here/answers.txt"
grep -c '^CASE' "$here/answers.txt"
