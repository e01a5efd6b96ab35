# The gate: tests/all runs every part and passes over none, and .ci/run ends in rt ci's own line or in none that passes.

# A scratch copy in which every part is a fake that succeeds.
gate_tree() {
    scratch_tree
    fake_rust
    gate_part host/test 'echo "library: ${BTS_LIB:-made here}"
        printf "%s\n" "left out: a folder, 5 checks (plain): why" "left out in all: 5" "9 checks, 0 failed"'
    gate_part tests/against-rust/run 'echo "cases 9: 0 differences"'
    gate_part tests/rules 'echo "3 headings, 9 citations, 0 failed"'
}

# SCRIPT LINE: a script of the copy becomes a fake that writes down its call and does the line
gate_part() { printf '#!/bin/sh\necho "%s $*" >>"%s/calls"\n%s\n' "$1" "$scratch" "$2" >"$scratch/$1"; }

prints() { grep -qxF -e "$1" "$work/out"; }
last_line() { tail -n 1 "$work/out"; }

# WHAT PART: the copy as it now is must fail in the part, and do the others all the same
fails_in() {
    : >"$scratch/calls"
    inside env GRAYCART_SRC="${3:-rust}" tests/all
    check "$1: status" is "$status" 1
    check "$1: last line" is "$(last_line)" "tests/all: failed: $2"
    inside env GRAYCART_SRC="${3:-rust}" .ci/run
    check "$1: the gate's status" is "$status" 1
    check "$1: the gate's last line" is "$(last_line)" "the gate failed in tests/all, so rt ci was not run"
    check "$1: no rt ci" not_called "rt ci"
}

gate_checks() {
    gate_tree
    inside env GRAYCART_SRC=rust tests/all
    check "all pass: status" is "$status" 0
    for name in tools rules library bench host against-rust; do check "$name is told" prints "==== $name: passed"; done
    check "the calls" is "$(cat "$scratch/calls")" "$(printf '%s\n' 'tests/rules ' 'rt lib' 'rt run' 'host/test ' \
        'tests/against-rust/run 50')"
    check "what is left out is listed at the end" is "$(tail -n 3 "$work/out")" "$(printf '%s\n' \
        'left out: a folder, 5 checks (plain): why' 'left out in all: 5' 'tests/all: all 6 parts passed')"
    inside env GRAYCART_SRC=rust BTS_LIB=other.a .ci/run
    check "the gate: the library of these sources" prints "library: made here"
    check "the gate: status" is "$status" 0
    check "the gate: last line" is "$(last_line)" "7 passed, 0 failed"
    check "the gate: a plain rt ci, last" is "$(tail -n 1 "$scratch/calls")" "rt ci"
    ci_checks
    failing_part_checks
    missing_tool_checks
}

# NAME LINE STATUS LAST: where `rt ci` does the line, the gate must end with the status and this last line
ci_ends() {
    fake rt "[ \"\$1\" != ci ] || { $2; exit; }
$rt_passes"
    inside env GRAYCART_SRC=rust .ci/run
    check "$1: status $status" is "$status" "$3"
    check "$1: last line" is "$(last_line)" "$4"
}

# How rt ci can end. It passes over must-fail edits that could not be tried, and the gate doesn't.
ci_checks() {
    ci_ends "rt ci fails" 'echo "6 passed, 1 failed"; exit 1' 1 "6 passed, 1 failed"
    ci_ends "rt ci stops" 'echo "0 passed, 1 failed"; exit 2' 2 "0 passed, 1 failed"
    ci_ends "rt ci is cut off" 'echo begun; exit 137' 137 begun
    ci_ends "rt ci without its line" 'echo "7 passed, 0 failed"' 1 "the gate failed: rt ci has no line 'rt: ok'"
    edits='rt: ok; handles allowed: none; must-fail edits: 20 refused'
    bad="the gate failed: must-fail edits that could not be tried, by rt ci's line 'rt: ok':"
    passes='echo "7 passed, 0 failed"'
    ci_ends "a bad edit" "echo '$edits, 1 bad; every proof was done'; $passes" 1 "$bad 1 bad"
    ci_ends "bad edits" "echo '$edits, 2 of them only by a limit, 10 bad; every proof was done'; $passes" 1 "$bad 10 bad"
    ci_ends "a limit" "echo '$edits, 2 of them only by a limit; every proof was done'; $passes" 0 "7 passed, 0 failed"
    ci_ends "another line" "echo 'crate: nothing, 3 bad'; echo '$edits; every proof was done'; $passes" 0 "7 passed, 0 failed"
    ci_ends "its lines come at once" "echo first; sleep 1; grep -qx first '$work/out' || exit 9; echo '$edits'; $passes" 0 \
        "7 passed, 0 failed"
}

failing_part_checks() {
    gate_tree
    gate_part tests/rules 'echo "3 headings, 9 citations, 1 failed"; exit 1'
    fails_in "the rules" rules
    gate_tree
    fake rt "[ \$1 != lib ] || exit 1
$rt_passes"
    fails_in "the library" library
    check "the library: the others are done" called "tests/against-rust/run 50"
    fake rt "[ \$1 != run ] || exit 1
$rt_passes"
    fails_in "bench" bench
    gate_tree
    echo other >"$scratch/crates/bench/stdout"
    fake rt "[ \$1 != run ] || { echo lines; exit; }
$rt_passes"
    fails_in "bench writes something else" bench
    gate_tree
    gate_part host/test 'echo "9 checks, 1 failed"; exit 1'
    fails_in "host/test" host
    gate_tree
    gate_part tests/against-rust/run 'echo "cases 9: 1 difference"; exit 1'
    fails_in "the comparison" against-rust
}

# A tool that isn't there, though no fake part asks for it.
missing_tool_checks() {
    for absent in cc c++ rustc; do
        gate_tree
        rm "$scratch/bin/$absent"
        fails_in "no $absent" tools
        check "no $absent: it is named" prints "missing: $absent"
    done
    gate_tree
    rm "$scratch/bin/rt"
    fails_in "no rt" "tools library bench"
    check "no rt: it is named" prints "missing: rt"
    gate_tree
    fails_in "no Rust" tools elsewhere
    check "no Rust: it is named" prints "missing: the Rust's source, at elsewhere (set GRAYCART_SRC)"
}

once="$once gate_checks"
