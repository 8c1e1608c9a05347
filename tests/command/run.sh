#!/bin/sh
# The first command as a user meets it: ./dtparse over the library that is kept, and where that library is not the
# checkout's. Works on a copy of the repository without its build products; proves nothing.
set -eu
here=$(cd "$(dirname "$0")" && pwd)
root=$(dirname "$(dirname "$here")")
. "$here/../checks.sh"
unset DT_PARSER_LIB

copy=$work/copy
mkdir -p "$copy/bindings/rust"
(cd "$root" && find crates -path 'crates/*/out' -prune -o -type f -exec cp --parents -t "$copy" {} +)
cp -R "$root/crates.txt" "$root/dtparse" "$root/lib" "$root/tools" "$root/examples" "$root/.ci" "$copy/"
for part in src build.rs Cargo.toml Cargo.lock README.md; do
    cp -R "$root/bindings/rust/$part" "$copy/bindings/rust/"
done
cd "$copy"
# A path without rt, so that nothing can be proved: links to all else that is needed.
mkdir "$work/bin"
for tool in sh bash cargo rustc cc gcc ld ar awk sed find sort xargs sha256sum cut dirname basename cat cmp cp mkdir \
    mktemp rm env tail head grep touch dd; do
    found=$(command -v "$tool") && ln -s "$found" "$work/bin/$tool"
done
PATH=$work/bin
export PATH

# STATUS WORDS COMMAND..: that exit status, and output with these words
says() {
    status=$1 words=$2 found=0
    shift 2
    "$@" >"$work/said" 2>&1 </dev/null || found=$?
    cat "$work/said"
    [ "$found" -eq "$status" ] && grep -qF -e "$words" "$work/said"
}
# The output is the stored one, and nothing else is said.
as_stored() {
    ./dtparse examples/board.dts >"$work/out" 2>"$work/said" || [ $? -eq 1 ] || return 1
    cat "$work/said"
    cmp "$work/out" "$root/bindings/rust/tests/golden/board.txt" && [ ! -s "$work/said" ]
}

check "the first run says where the library is from" says 1 'proved by the gate' ./dtparse examples/board.dts
check "the second run is as tests/golden/board.txt of the crate" as_stored
check "--prove-library needs the kit" says 2 "no 'rt'" ./dtparse --prove-library

echo '-- a remark' >>crates/definitions/specs/Layout.antt
check "other sources are noticed" says 1 'other sources' tools/kept-library
check "other sources are proved first" says 2 "no 'rt'" ./dtparse examples/board.dts
cp "$root/crates/definitions/specs/Layout.antt" crates/definitions/specs/Layout.antt
touch crates/definitions/specs/.Layout.antt.swp
check "an editor's hidden file is no source" tools/kept-library

printf 'x' | dd of=lib/libdt_parser.a bs=1 seek=100000 conv=notrunc 2>/dev/null
check "a changed byte of the archive is refused" \
    says 2 'is not the archive that lib/PROVED names' ./dtparse examples/board.dts
check "and what renews it is said" says 2 './x prove --keep' tools/static-library
rm lib/libdt_parser.a lib/PROVED
check "without a kept library it is proved first" says 2 "no 'rt'" ./dtparse examples/board.dts
all_counted "the first command"
