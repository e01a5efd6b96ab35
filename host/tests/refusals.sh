# What is refused by the run, and bad lines of a listing: nothing is written.

refusal_checks() {
    rm -f "$files"/*
    outputs="-o $files/new-sheet --board-out $files/new-board --sram-out $files/new-sram"
    printf 'BTS\001\000\000' >"$work/sheet"
    bad "refusal 1" 1 "refused 1 (BTS_BAD_MARK) at record 0" $outputs --sheet "$work/sheet"
    hex_file "$work/sheet" 42 54 53 03 00 00 00 00
    bad "refusal 2" 1 "refused 2 (BTS_BAD_VERSION) at record 0" $outputs --sheet "$work/sheet"
    hex_file "$work/sheet" 42 54 53 01 00 00 01 00
    bad "refusal 3" 1 "refused 3 (BTS_BAD_SHAPE) at record 0" $outputs --sheet "$work/sheet"
    good "the longest sheet" -o "$work/longest" "$work/most"
    good "run again" --sheet "$work/longest"
    printf x >>"$work/longest"
    bad "a sheet too long" 1 "refused 3 (BTS_BAD_SHAPE) at record 0" $outputs --sheet "$work/longest"
    for length in 0 71 72 73 79 81; do
        zeros "$work/board" $length
        bad "refusal 5 by length $length" 1 "refused 5 (BTS_UNSOUND_BOARD) at record 0" $outputs --board "$work/board" \
            $here/bench.lst
        check "its rule" says "$work/board: a board is 80 bytes long"
    done
    zeros "$work/board" 79
    printf '\001' >>"$work/board"
    bad "refusal 5 by a byte" 1 "refused 5 (BTS_UNSOUND_BOARD) at record 0" $outputs --board "$work/board" $here/bench.lst
    check "its rule" says "$work/board: bytes 7 and 73 to 79 must be 0"
    hex_file "$work/sheet" 42 54 53 01 00 00 02 00  04 00 00 00 00 00 00 00 1B 00 00 00  07 03 00 00 00 01 00 08 00 1C 00 00
    bad "refusal 7" 1 "refused 7 (BTS_FAULTY_RECORD) at record 1" $outputs --sheet "$work/sheet"
    check "its bytes" says "the bytes of record 1: 07 03 00 00 00 01 00 08 00 1C 00 00"
    printf old >"$files/new-sheet"
    bad "an old output" 1 "refused 7 (BTS_FAULTY_RECORD) at record 1" $outputs --sheet "$work/sheet"
    rm "$files/new-sheet"
}

line_checks() {
    rm -f "$files"/*
    outputs="-v -o $files/new-sheet --board-out $files/new-board --sram-out $files/new-sram"
    for name in bad bad-more; do
        bad "$name" 2 "$here/$name.lst:2: " $outputs $here/$name.lst
        check "every bad line" cmp -s "$work/err" $here/$name.err
    done
    cat $here/bad.lst $here/bad-more.lst >"$work/worse"
    bad "more than 20" 2 "$work/worse: 20 bad lines; the rest is left unread" $outputs "$work/worse"
    check "20 are told" is "$(wc -l <"$work/err" | tr -d ' ')" 21
    printf 'IDLE 1\nIDLE\0001\n' >"$work/nul"
    bad "a NUL byte" 2 "$work/nul:2: the line has a NUL byte" $outputs "$work/nul"
    printf '# a comment\rIDLE 1\r\n' >"$work/cr"
    bad "a CR within a line" 2 "$work/cr:1: the line has a carriage return" $outputs "$work/cr"
    printf '\033[2J 1\n' >"$work/escape"
    bad "a control character" 2 "$work/escape:1: \\x1B[2J is no step" $outputs "$work/escape"
    { printf 'IDLE 1 #' && zeros "$work/long" 992 && tr '\0' x <"$work/long"; } >"$work/line"
    good "a line of 1,000 bytes" "$work/line"
    printf x >>"$work/line"
    bad "a line of 1,001 bytes" 2 "$work/line:1: the line is longer than 1000 bytes" $outputs "$work/line"
    zeros "$work/long" 1000000
    tr '\0' 7 <"$work/long" >"$work/line"
    bad "a line of 1 MB" 2 "$work/line:1: the line is longer than 1000 bytes" $outputs "$work/line"
    bad "endless zeros" 2 "/dev/zero is longer than 4194304 bytes" $outputs /dev/zero
    { printf '\377\000'; head -c 20000 crates/replay/stdin; } >"$work/noise" # bytes that are no text, and the same each time
    bad "noise" 2 "$work/noise:1: " $outputs "$work/noise"
    bad "noise as a sheet" 1 "refused " $outputs --sheet "$work/noise"
    bad "from standard input" 2 "stdin:2: JUMP is no step" $outputs <$here/bad.lst
}

every_pass="$every_pass refusal_checks line_checks"
