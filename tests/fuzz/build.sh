#!/bin/sh
# Builds the fuzzer over the static library (tools/static-library says which) and prints the program's path.
set -eu
here=$(cd "$(dirname "$0")" && pwd)
# here and not by cargo alone, which would not show what is waited for
DT_PARSER_LIB=$("$here/../../tools/static-library")
export DT_PARSER_LIB
"$here/../oracle/build.sh" --copies
target=$(dirname "$here")/target
cargo build --release --offline --quiet --manifest-path "$here/Cargo.toml" --target-dir "$target" >&2
echo "$target/release/fuzz"
