#!/bin/sh
# What tools/install-library installs, where and with which modes, and what it says. An empty archive stands for the
# library, and for cargo a script that writes another in place of the command; at the end the command itself is
# installed, from the library that tools/static-library names.
set -eu
here=$(cd "$(dirname "$0")" && pwd)
root=$(dirname "$(dirname "$here")")
library=$("$root/tools/static-library")
. "$here/../checks.sh"
ar rc "$work/empty.a"
export DT_PARSER_LIB="$work/empty.a"
install() { "$root/tools/install-library" "$@"; }
umask 077

# Every file and folder under PREFIX, with its mode, in one line: PREFIX LIST
has_files() {
    files=$(cd "$1" && find . -mindepth 1 -printf '%m:%P\n' | LC_ALL=C sort -t: -k2 | tr '\n' ' ')
    [ "$files" = "$2 " ] || { echo "$files" && return 1; }
}

# pkg-config gives the folders of PREFIX, quoted for a shell, and a program is compiled with them: PREFIX
is_found() {
    options=$(PKG_CONFIG_PATH=$1/lib/pkgconfig pkg-config --cflags --libs dt_parser) || return 1
    echo "$options"
    eval "set -- \"\$1\" $options"
    [ "$*" = "$1 -I$1/include -L$1/lib -ldt_parser" ] &&
        gcc -std=c99 "$2" -o "$work/use" "$here/../header/use.c" "$3" "$4" && "$work/use"
}

has_version() {
    printf '#include "dt_parser.h"\nDT_PARSER_VERSION_MAJOR.DT_PARSER_VERSION_MINOR.DT_PARSER_VERSION_PATCH\n' |
        gcc -E -P -I "$root/include" - | tr -d ' ' |
        grep -qx "$(sed -n 's/^Version: //p' "$1/lib/pkgconfig/dt_parser.pc")"
}

# STATUS LINE COMMAND..: that exit status, a message with that line, and nothing at $work/refused.
says() {
    status=$1 line=$2 found=0
    shift 2
    "$@" >"$work/said" 2>&1 || found=$?
    cat "$work/said"
    [ "$found" -eq "$status" ] && grep -qF "$line" "$work/said" && [ ! -e "$work/refused" ]
}

C_FILES='755:include 644:include/dt_names.h 644:include/dt_parser.h 755:lib 644:lib/libdt_parser.a 755:lib/pkgconfig'
C_FILES="$C_FILES 644:lib/pkgconfig/dt_parser.pc"
check_library() {
    check "a plain prefix" install --library-only "$work/plain/"
    check "the files of a plain prefix" has_files "$work/plain" "$C_FILES"
    check "the version of dt_parser.pc is the header's" has_version "$work/plain"
    check "for a package" env DESTDIR="$work/package" "$root/tools/install-library" --library-only /opt/dt
    check "the files of a package" has_files "$work/package/opt/dt" "$C_FILES"
    check "dt_parser.pc of a package names the prefix" \
        grep -qx 'prefix=/opt/dt' "$work/package/opt/dt/lib/pkgconfig/dt_parser.pc"
}

check_prefixes() {
    for name in plain 'a b' ' a' 'a  b' 'a"b' "a'b" 'a#b' 'a\b' 'a\\ b' 'a|b' 'a&b' 'a;b' 'a*b' 'a?b' 'a[b]' 'a{b}' \
        'a<b>' 'a!b' 'a%b' 'a`b' 'a~b' 'a^b' 'a=b' 'a,b' 'a@b' 'aéb' '@PREFIX@' '@VERSION@'; do
        check "the prefix '$name'" install --library-only "$work/$name"
        check "pkg-config over the prefix '$name'" is_found "$work/$name"
    done
}

check_refused() {
    usage='usage: tools/install-library [--library-only] PREFIX, an absolute path'
    check "no prefix" says 2 "$usage" install
    check "no prefix, library only" says 2 "$usage" install --library-only
    check "an empty prefix" says 2 "$usage" install ''
    check "a relative prefix" says 2 "$usage" install refused
    check "two prefixes" says 2 "$usage" install "$work/refused" "$work/refused"
    check "an unknown option" says 2 "$usage" install --library "$work/refused"
    for name in 'a$b' 'a${b}' 'a(b' 'a)b' 'a ' 'a	b' 'a
b'; do
        check "the prefix '$name'" says 2 'pkg-config cannot have' install --library-only "$work/refused/$name"
    done
    check "no library" says 2 'no static library' env DT_PARSER_LIB="$work/none.a" \
        "$root/tools/install-library" --library-only "$work/refused"
}

mkdir "$work/stub"
cat >"$work/stub/cargo" <<'END'
#!/bin/sh
[ -z "${DOES_NOT_BUILD:-}" ] || exit 101
mkdir -p "$CARGO_TARGET_DIR/release"
cat >"$CARGO_TARGET_DIR/release/dtparse" <<'COMMAND'
#!/bin/sh
[ "$1 $2" != "--print ${FAILS_TO_PRINT:-}" ] || exit 2
[ "$1 $2" = "--print ${PRINTS_NOTHING:-}" ] || echo "$*"
COMMAND
chmod 700 "$CARGO_TARGET_DIR/release/dtparse"
END
chmod +x "$work/stub/cargo"
stub() { env PATH="$work/stub:$PATH" CARGO_TARGET_DIR="$work/target" "$@"; }

COMMAND_FILES="755:bin 755:bin/dtparse $C_FILES 755:share \
755:share/bash-completion 755:share/bash-completion/completions 644:share/bash-completion/completions/dtparse \
755:share/fish 755:share/fish/vendor_completions.d 644:share/fish/vendor_completions.d/dtparse.fish \
755:share/man 755:share/man/man1 644:share/man/man1/dtparse.1 \
755:share/zsh 755:share/zsh/site-functions 644:share/zsh/site-functions/_dtparse"
prints_of() { # PREFIX
    (cd "$1/share" && grep -qx -e '--print man' man/man1/dtparse.1 && grep -qx -e '--print fish' fish/*/dtparse.fish &&
        grep -qx -e '--print bash' bash-completion/*/dtparse && grep -qx -e '--print zsh' zsh/*/_dtparse)
}
check_stub() {
    check "with the command" stub "$root/tools/install-library" "$work/whole"
    check "the files with the command" has_files "$work/whole" "$COMMAND_FILES"
    check "what the command prints of itself" prints_of "$work/whole"
    check "a command that is not built" says 1 'dtparse was not built' \
        stub DOES_NOT_BUILD=1 "$root/tools/install-library" "$work/refused"
    for what in man bash zsh fish; do
        check "no $what printed" says 1 "dtparse --print $what failed" \
            stub FAILS_TO_PRINT=$what "$root/tools/install-library" "$work/refused"
        check "nothing for $what printed" says 1 "dtparse --print $what failed" \
            stub PRINTS_NOTHING=$what "$root/tools/install-library" "$work/refused"
    done
}

# The command as it is: it runs from where it was put, and what it prints of itself has the form that is read.
check_command() {
    export DT_PARSER_LIB="$library"
    check "the command itself" install "$work/real one"
    check "the files with the command itself" has_files "$work/real one" "$COMMAND_FILES"
    check "dtparse over a board" says 1 'board.dts' "$work/real one/bin/dtparse" "$root/examples/board.dts"
    check "the man page" grep -q '^\.TH ' "$work/real one/share/man/man1/dtparse.1"
    check "the completions for bash" bash -n "$work/real one/share/bash-completion/completions/dtparse"
    check "the completions for zsh" grep -q '^#compdef dtparse' "$work/real one/share/zsh/site-functions/_dtparse"
    check "the completions for fish" \
        grep -q '^complete .*dtparse' "$work/real one/share/fish/vendor_completions.d/dtparse.fish"
}

check_library
if command -v pkg-config >/dev/null; then check_prefixes; else echo "no pkg-config: odd prefixes are not tried"; fi
check_refused
check_stub
if command -v cargo >/dev/null; then check_command; else echo "no cargo: the command itself is not installed"; fi
all_counted "tools/install-library"
