# Price before running: btsrun --preview beside the run of the same, what can't stand beside it, what is refused of it, and the
# library's own function. preview.awk makes of a run's output what its preview must print.

left_out_told="btsrun: a preview leaves out the values of READ and FETCH and the hits of WRITE, which hang on the memories: \
they stand as 0"

# LISTING: the same of it: where it is for sheets of version 2, their blocks are named too
left_out_of() {
    grep -qi '^version 2' "$1" || { echo "$left_out_told"; return; }
    echo "$left_out_told" | sed 's/READ and FETCH/READ, BLOCKREAD and FETCH/; s/WRITE, which/WRITE and BLOCKWRITE, which/'
}

# The lines of docs/DIFFERENCES.md that a preview leaves out, by host/README.md.
untold_lines() {
    sed -n "s/^a preview can't tell \(.*\): they hang on the memories\$/\1/p" host/README.md | sed 's/,//g; s/ and / /'
}

# LISTING: the kind of each of its steps
kinds_of() { awk '{ sub(/[#;].*/, "") } NF && toupper($1) != "VERSION" { print toupper($1) }' "$1"; }

# LISTING OPTIONS..: what $program has just printed, as a preview must have it, in $work/expected
expect_preview() {
    kinds_of "$1" >"$work/kinds"
    awk -v untold="$(untold_lines)" -v told="$(left_out_of "$1")" -f $here/preview.awk "$work/kinds" "$work/out" \
        >"$work/expected"
}

# MEMORIES LISTING OPTIONS..: the preview prints what the run over these memories (options of the program) does, but for what
# hangs on them. The options stand beside both.
previewed() {
    memories=$1
    listing=$2
    shift 2
    for option in '' -v; do
        what="preview of $listing $* $option, over '$memories'"
        run $memories $option "$@" "$listing"
        check "$what: the run" is "$status" 0
        expect_preview "$listing"
        run --preview $option "$@" "$listing"
        check "$what: status" is "$status" 0
        check "$what: stdout" diff "$work/out" "$work/expected"
        check "$what: stderr" is "$(cat "$work/err")" "$([ -n "$option" ] || left_out_of "$listing")"
    done
}

preview_run_checks() {
    for name in bench loop steps rows landed marks grounds blocks blocks-landed blocks-marks; do
        previewed '' $here/$name.lst
    done
    printf '\021\042\063\104\125\146\167' >"$work/image"
    previewed "--bench --rom $work/image --bios $work/image" $here/steps.lst
    zero_store "$work/lent-store" 5,0,2050,7,65539,3,1
    previewed "--store $work/lent-store" $here/landed-short.lst
    previewed "--store $work/lent-store" $here/blocks-short.lst
    echo 'IDLE 1' >"$work/steps"
    previewed '' "$work/steps"
    check "no mark: the figure" grep -qx '1 by the model; no departure that a preview can tell applies' "$work/out"
}

# Nothing to price; and the sentence stands behind all of standard output.
preview_sentence_checks() {
    run --preview /dev/null
    check "no steps: status" is "$status" 0
    check "no steps: the total" is "$(cat "$work/out")" "total 0"
    check "no steps: the sentence" is "$(cat "$work/err")" "$left_out_told"
    $program --preview $here/loop.lst >"$work/both" 2>&1
    check "the sentence comes last" is "$(tail -n 2 "$work/both")" "total 16
$left_out_told"
    run --preview -v $here/loop.lst
    check "in a table it is behind the total" is "$(grep -A 1 '^total' "$work/out")" "total 16
$(echo "$left_out_told" | sed 's/^btsrun: //; s/0$/-/')"
    run --preview $here/landed.lst
    check "no word of stores that land short" is "$(cat "$work/err")" "$left_out_told"
    [ -c /dev/full ] || { leave_out 2 "a preview to a full standard output" "there is no /dev/full"; return; }
    $program --preview $here/loop.lst >/dev/full 2>"$work/err"
    check "a full standard output" is $? 2
    check "a full standard output: no sentence" is "$(grep -c preview "$work/err")" 0
}

# From a board that was saved, and from a sheet: neither is changed, and -o writes the sheet.
preview_board_checks() {
    rm -f "$files"/*
    printf 'WAITCNT 0x4317\nRESTART 0x08000100\nIDLE 20\nREAD 4 0x08010000\n' >"$work/before"
    printf 'READ 4 0x08010004\nTHUMB 0x08000100 0x6820\nFETCH 0x08000102\nTHUMB 0x08000104 0xBA01\n' >"$work/after"
    printf '%s\n' 'READ 1 0' 'READ 2 0x0E000000' 'WRITE 4 0x0E000000 1' >>"$work/after"
    good "a board" --board-out "$files/board" "$work/before"
    cp "$files/board" "$work/board"
    previewed '' "$work/after" --board "$files/board"
    sed '1d; /^total/,$d' "$work/out" | cut -c 38-47,60-64 | tr -s ' \n' ' ' >"$work/cells"
    check "it goes on with the row and the prefetch" is "$(cat "$work/cells")" " 4 0 2 1 0 1 2 1 1 0 9 0 9 - "
    run --preview --board "$files/board" -o "$files/sheet" "$work/after"
    check "a sheet out: status" is "$status" 0
    cp "$work/out" "$work/lines"
    run --preview --board "$files/board" --sheet "$files/sheet"
    check "the sheet: status" is "$status" 0
    check "the sheet: its lines" cmp -s "$work/out" "$work/lines"
    check "the sheet: the sentence" is "$(cat "$work/err")" "$left_out_told"
    good "the sheet in a table" --preview -v --board "$files/board" --sheet "$files/sheet"
    check "the board is as it was" cmp -s "$files/board" "$work/board"
    check "nothing else is written" is "$(cd "$files" && echo *)" "board sheet"
}

# A preview leaves no board, so the pieces of a long listing go on from one that a run over no memories gives.
preview_piece_checks() {
    rm -f "$files"/*
    long_listing >"$work/long"
    previewed '' "$work/long"
    check "10,000 steps" is "$(grep -c '^ *[0-9]*  [A-Z]' "$work/out")" 10000
    awk 'BEGIN { for (i = 0; i < 4095; i++) print "IDLE 1" }' >"$work/pauses"
    { cat "$work/pauses"; printf 'READ 4 0x0800010%s\n' 0 4 8; } >"$work/steps"
    run --preview "$work/steps"
    check "a row over the end of a piece" is "$(sed -n '4096,4098p' "$work/out" | cut -d' ' -f2 | tr '\n' ' ')" "8 6 6 "
    bad "a sheet of so many" 2 "-o can't write 10000 steps: a sheet holds at most 4096" --preview -o "$files/new" "$work/long"
    bad "a charge of so many" 2 "--rate can't bill 10000 steps: a charge is a sheet's" --preview --rate 307 "$work/long"
}

# ---- the rate

preview_rate_checks() {
    for rate in 1 307 250000 1000000; do
        previewed '' $here/loop.lst --rate $rate
        check "loop at $rate: there are shares" is "$(head -n 1 "$work/out" | cut -c 101-)" " sum       share departs"
        previewed '' $here/steps.lst --rate $rate
    done
    previewed '--bench' $here/landed.lst --rate 999999
    check "the charge is behind the total" grep -q '^charge [0-9]*\.[0-9][0-9]$' "$work/out"
}

# ---- what can't stand beside it, and refusals

preview_option_checks() {
    rm -f "$files"/*
    end="leave one of the two out; btsrun -h tells the options"
    for option in --rom --bios --sram --store; do
        bad "$option" 2 "$option can't stand beside --preview, which takes no memories: $end" --preview $option "$work/absent" \
            $here/bench.lst
    done
    for option in --bench --full; do
        bad "$option" 2 "$option can't stand beside --preview, which takes no memories: $end" $option --preview $here/bench.lst
    done
    for option in --board-out --sram-out --store-out; do
        bad "$option" 2 "$option can't stand beside --preview, which leaves no board and no memories: $end" \
            $option "$files/new" --preview $here/bench.lst
    done
    bad "two of them" 2 "--sram-out can't stand beside --preview" --preview --rom a --sram-out "$files/new" $here/bench.lst
    check "both are told" is "$(wc -l <"$work/err" | tr -d ' ')" 2
    bad "a value" 2 "--preview takes no value" --preview=yes $here/bench.lst
    run --preview --preview $here/bench.lst
    check "twice is once" is "$status" 0
    sed -n 's/^    {"\(--*[a-z-]*\)", .*/\1/p' host/options.c | tr '\n' ' ' >"$work/options"
    check "every option is allowed or tried here" is "$(cat "$work/options")" "--rom --bios --sram --store --board --bench \
--full --sheet --rate --preview -v -o --board-out --sram-out --store-out -h --version "
}

# NAME NUMBER ARGUMENTS: the preview is refused as the run is, in the same words, and with a bad rate too
refused_before() {
    name=$1
    number=$2
    shift 2
    run "$@"
    check "$name: the run's status" is "$status" 1
    cp "$work/err" "$work/refused"
    for rate in '' '--rate 307' '--rate 0'; do
        bad "$name, previewed $rate" 1 "refused $number (" --preview $rate -v -o "$files/new" "$@"
        check "$name, previewed $rate: all of it" cmp -s "$work/err" "$work/refused"
    done
}

preview_refusal_checks() {
    rm -f "$files"/*
    printf 'BTX\001\000\000\000\000' >"$work/sheet"
    zeros "$work/board" 72
    refused_before "a mark" 1 --sheet "$work/sheet" --board "$work/board"
    printf 'BTS\003\000\000\000\000' >"$work/sheet"
    refused_before "a version" 2 --sheet "$work/sheet" --board "$work/board"
    printf 'BTS\001\000\001\000\000' >"$work/sheet"
    refused_before "a shape" 3 --sheet "$work/sheet" --board "$work/board"
    hex_file "$work/sheet" 42 54 53 01 00 00 02 00  04 00 00 00 00 00 00 00 1B 00 00 00  07 03 00 00 00 01 00 08 00 1C 00 00
    refused_before "a board and a record" 5 --sheet "$work/sheet" --board "$work/board"
    check "what to do with an older board" says "append eight zero bytes"
    refused_before "a record" 7 --sheet "$work/sheet"
    check "which one, and its bytes" says "the bytes of record 1: 07 03 00 00 00 01 00 08 00 1C 00 00"
    zeros "$work/board" 79
    printf '\001' >>"$work/board"
    refused_before "a board" 5 --board "$work/board" $here/bench.lst
    check "its rule" says "bytes 7 and 73 to 79 must be 0"
    for rate in 0 1000001; do
        bad "a preview at $rate" 1 "refused 8 (BTS_BAD_RATE) at record 0" --preview --rate $rate -o "$files/new" $here/bench.lst
    done
    bad "a bad line" 2 "$here/bad.lst:2: " --preview -o "$files/new" $here/bad.lst
    check "no sentence" is "$(grep -c 'preview' "$work/err")" 0
}

# ---- texts

# host/README.md's example: its steps, what is printed of them, and the table.
preview_example_checks() {
    awk -v to="$work/example" '/^## / { here = /Price before running/ }
        here && /^```/ { inside = !inside; n += inside; next }
        here && inside { print >(to n) }' host/README.md
    $program --preview "$work/example1" >"$work/out" 2>&1
    check "host/README.md's preview" diff "$work/out" "$work/example2"
    good "host/README.md's preview with -v" --preview -v "$work/example1"
    check "its table" diff "$work/out" "$work/example3"
}

# Each input of docs/DIFFERENCES.md is run over its own memories and priced without them: the marks are the same, but for the
# lines that are said to be left out.
preview_mark_checks() {
    awk -f $here/marks.awk docs/DIFFERENCES.md >"$work/inputs"
    while IFS='|' read -r line which settings steps; do
        take_settings "$settings" || continue
        echo "$steps" | tr ';' '\n' >"$work/steps"
        run -v $lent "$work/steps"
        expect_preview "$work/steps"
        run --preview -v $(echo "$lent" | grep -o -e '--board [^ ]*') "$work/steps"
        check "the preview of $line, input $which" diff "$work/out" "$work/expected"
    done <"$work/inputs"
    for line in $(untold_lines); do
        check "$line is a line with a mark" grep -q "^    {${line#D-}, " host/marks.c
    done
}

# What is left out, and what can't stand beside the option, is said wherever a person looks.
preview_told_checks() {
    run -h
    page_text >"$work/page"
    for text in "$work/out" "$work/page" host/README.md; do
        tr -s '\n' ' ' <"$text" >"$work/flat"
        check "$text tells the option" grep -q -e '--preview' "$text"
        check "$text tells what is left out" grep -q 'the values of READ and FETCH and the hits of WRITE' "$work/flat"
        check "$text tells of the marks" grep -qE 'lines of docs/DIFFERENCES\.md that hang on' "$work/flat"
        check "$text tells where it is said" grep -qi 'on standard error' "$work/flat"
    done
    check "include/bts.h tells what is 0" grep -q 'bytes 0-3 of the answer of a READ or a FETCH' include/bts.h
    check "include/bts.h tells what is not refused" grep -q 'BTS_BAD_LENGTHS = 4, /\* not by bts_preview' include/bts.h
}

# The library's function beside bts_run, in C.
preview_library_checks() {
    check "it builds" ${CC:-cc} -std=c11 -Wall -Wextra -Wpedantic -Wconversion -Werror -O2 -Iinclude $here/preview.c "$lib" \
        -o "$work/preview"
    check "it runs" is "$("$work/preview")" "0 wrong"
}

every_pass="$every_pass preview_run_checks preview_sentence_checks preview_board_checks preview_piece_checks preview_rate_checks"
every_pass="$every_pass preview_option_checks preview_refusal_checks"
once="$once preview_example_checks preview_mark_checks preview_told_checks preview_library_checks"
