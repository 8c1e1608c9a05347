#!/bin/sh
# Builds the oracle: copies the Rust of ../../docs/src to its places, once unchanged and once, as far as doc01.patch has
# to do with it, patched; then `cargo build --release --offline` (about 10 s, no registry needed). The library is
# crates/oracle, the program over it ../target/release/oracle. tests/oracle/build.sh --copies makes the copies alone,
# for those who build over the library. ast.rs is left out, since it needs crates which are not in the repository: the
# build reaches no registry (docs/DECISIONS.md, section 7). crates/parser/src/ast.rs stands in for it.
set -eu
cd "$(dirname "$0")"
src=../../docs/src/crates/parser/src

patched=$(mktemp -d)
trap 'rm -rf "$patched"' EXIT
cp -R "$src" "$patched/src"
# git apply must not look for a repository around that folder
(cd "$patched" && GIT_CEILING_DIRECTORIES="$(dirname "$patched")" git apply "$OLDPWD/doc01.patch")

# A file that is already right keeps its time, so that cargo need not build it again.
put() { cmp -s "$1" "$2" || { mkdir -p "$(dirname "$2")" && cp "$1" "$2"; }; }
for file in $(cd "$src" && find . -name '*.rs' ! -name ast.rs); do
    put "$src/$file" "crates/parser/src/$file"
    case $file in
    ./cst.rs | ./lexer.rs) ;; # the patched copy has those of crates/parser
    *) put "$patched/src/$file" "crates/parser_doc01/src/$file" ;;
    esac
done

[ "${1:-}" != --copies ] || exit 0
target=$(dirname "$(pwd)")/target
cargo build --release --offline --quiet -p oracle --target-dir "$target"
echo "built $target/release/oracle"
