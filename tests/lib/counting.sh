# Counts what holds, for tests that are shell scripts, and finds what they need. A test reads this file at the top of the
# repository, and ends by `end`, which prints 'N passed, M failed'. The folder $work is the test's own.
passed=0
failed=0

# cannot_run WHY: ends a test that lacks something, before it tries anything.
cannot_run() {
    echo "cannot run: $1"
    exit 3
}

# need TOOL ..: ends the test if one of these tools is not on PATH.
need() {
    for tool; do
        command -v "$tool" >/dev/null || cannot_run "no $tool on PATH"
    done
}

# need_built NAME ..: ends the test if one of these files of out/ is missing or older than its sources.
need_built() {
    for name; do
        tools/program is-current "$name" || cannot_run "out/$name is missing, or older than its sources"
    done
}

# need_proofs FILE ..: ends the test if one of these files below crates/ is not there, as `rt ci` leaves it.
need_proofs() {
    for file; do
        [ -e "crates/$file" ] || cannot_run "no crates/$file, which \`rt ci\` leaves"
    done
}

# check TITLE COMMAND ..: counts whether the command succeeds.
check() {
    title=$1
    shift
    if "$@" >"$work/said" 2>&1; then
        passed=$((passed + 1))
    else
        failed=$((failed + 1))
        echo "$title: FAILED"
        cat "$work/said"
        return 1
    fi
}

# add TITLE STATUS FILE: counts what a test counts in the last line of this file. A test counts as failed too if the file ends
# without such a line, or if no failure is counted and its status is not 0. Returns whether nothing failed.
add() {
    title=$1
    status=$2
    set -- $(sed -n '$s/^\([0-9]*\) passed, \([0-9]*\) failed$/\1 \2/p' "$3")
    passed=$((passed + ${1:-0}))
    failed=$((failed + ${2:-1}))
    [ "${2:-1}" = 0 ] || return
    [ "$status" != 0 ] || return 0
    echo "$title: 0 failed, but its status is $status"
    failed=$((failed + 1))
    return 1
}

end() {
    echo "$passed passed, $failed failed"
    [ $failed = 0 ]
    exit
}

work=$(mktemp -d) || exit 1
trap 'rm -rf "$work"' EXIT
