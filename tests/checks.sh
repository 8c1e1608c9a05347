# Counts checks, for the scripts that read this file: passed, failed. A work folder is made, and removed at the end.
work=$(mktemp -d)
trap 'rm -rf "$work"' EXIT
passed=0
failed=0

# A command that holds if all is well; else what is wrong is said, and how its output begins: WHAT COMMAND ..
check() {
    check_what=$1
    shift
    if "$@" >"$work/why" 2>&1; then passed=$((passed + 1)); else
        failed=$((failed + 1))
        echo "FAILED: $check_what"
        head -n 20 "$work/why"
    fi
}

# The last line, and whether all is well, which needs a check at least: NAME
all_counted() {
    echo "$1: $passed passed, $failed failed"
    [ "$failed" -eq 0 ] && [ "$passed" -gt 0 ]
}
