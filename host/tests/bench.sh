# The program bench, where it has been built: its exit status, 0 for figures, 1 for a refusal, 2 for input or output that fails,
# and a word on standard error for what goes wrong; standard output has the answers' lines alone.

# bench over what is handed in as standard input. What it wrote is then in $work/out, what it said in $work/err, and its exit
# status in $status.
bench_reads() {
    $bench_program >"$work/out" 2>"$work/err"
    status=$?
}

# STATUS WHAT WORD LINES: how bench has just ended, what it has said, and written. No word: nothing is said.
bench_ended() {
    check "bench, $2: the status" is "$status" "$1"
    check "bench, $2: the word" is "$(cat "$work/err")" "${3:+bench: $3}"
    check "bench, $2: the lines" is "$(cat "$work/out")" "$4"
}

bench_word_checks() {
    [ -x $bench_program ] || { leave_out 29 "bench's words" "$bench_made_by builds it"; return; }
    bench_reads <crates/bench/stdin
    bench_ended 0 "a good sheet" "" "$(cat crates/bench/stdout)"
    hex_file "$work/sheet" 42 54 53 01 00 00 00 00
    bench_reads <"$work/sheet"
    bench_ended 0 "a sheet without records" "" "total 0"
    bench_reads </dev/null
    bench_ended 1 "no sheet" "the sheet is refused" "refused 1 at 0"
    head -c 50000 /dev/zero | cat "$work/sheet" - >"$work/long"
    bench_reads <"$work/long"
    bench_ended 1 "more than any sheet" "the sheet is refused" "refused 3 at 0"
    hex_file "$work/sheet" 42 54 53 01 00 00 02 00  04 00 00 00 00 00 00 00 1B 00 00 00  07 03 00 00 00 01 00 08 00 1C 00 00
    bench_reads <"$work/sheet"
    bench_ended 1 "a faulty record" "the sheet is refused" "refused 7 at 1"
    bench_reads <&-
    bench_ended 2 "a closed input" "can't read standard input" ""
    bench_reads <$here
    bench_ended 2 "a folder" "can't read standard input" ""
    : >"$work/out"
    $bench_program <crates/bench/stdin >&- 2>"$work/err"
    status=$?
    bench_ended 2 "a closed output" "can't write standard output" ""
    [ -c /dev/full ] || { leave_out 5 "bench's full output" "there is no /dev/full"; return; }
    $bench_program <crates/bench/stdin >/dev/full 2>"$work/err"
    status=$?
    bench_ended 2 "a full output" "can't write standard output" ""
    $bench_program <"$work/sheet" >/dev/full 2>"$work/err"
    check "bench, a refusal that can't be written: the status" is $? 2
    check "bench, a refusal that can't be written: the words" is "$(cat "$work/err")" "bench: the sheet is refused
bench: can't write standard output"
}

once="$once bench_word_checks"
