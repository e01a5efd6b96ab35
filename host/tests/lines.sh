# What a listing or a sheet gives: lines, tables and the worked figures.

bench_checks() {
    good "the example of bench" -o "$files/sheet" $here/bench.lst
    check "bench's lines" cmp -s "$work/out" crates/bench/stdout
    check "bench's sheet" cmp -s "$files/sheet" crates/bench/stdin
    good "the sheet itself" --sheet crates/bench/stdin
    check "the sheet's lines" cmp -s "$work/out" crates/bench/stdout
    run <$here/bench.lst
    check "from standard input" cmp -s "$work/out" crates/bench/stdout
    run - <$here/bench.lst
    check "from -" cmp -s "$work/out" crates/bench/stdout
    run --sheet - <crates/bench/stdin
    check "a sheet from -" cmp -s "$work/out" crates/bench/stdout
    run --bench -- $here/bench.lst
    check "over the memories of bench" cmp -s "$work/out" crates/bench/stdout
}

# LISTING: how many of its stores land short, and how many it has. What lands short in bench.lst, loop.lst, steps.lst, rows.lst
# and grounds.lst is a halfword to SRAM, or a store to ROM.
shorts_in() { echo "$(grep -ciE '^write (2 0x0e|[124] 0x08)' "$1") $(grep -ci '^write' "$1")"; }

listing_checks() {
    for name in loop steps; do
        lands $(shorts_in $here/$name.lst) "$name" -v -o "$files/$name" $here/$name.lst
        check "$name's table" cmp -s "$work/out" $here/$name.table
        lands $(shorts_in $here/$name.lst) "$name by sheet" --sheet "$files/$name" -v -o "$files/$name.again"
        check "$name's table by sheet" cmp -s "$work/out" $here/$name.table
        check "$name's sheet again" cmp -s "$files/$name" "$files/$name.again"
        sed '1d; /^total/,$d; s/^ *[0-9]*  //; s/   .*//' $here/$name.table >"$work/steps"
        lands $(shorts_in $here/$name.lst) "$name as the table shows it" -o "$files/$name.again" "$work/steps"
        check "$name's sheet by its table" cmp -s "$files/$name" "$files/$name.again"
    done
    lands 1 3 "steps" $here/steps.lst
    check "steps's lines" cmp -s "$work/out" $here/steps.out
    lands 1 3 "steps over the memories of bench" --bench $here/steps.lst
    check "the same lines" cmp -s "$work/out" $here/steps.out
    awk '{ printf "%s\r\n", $0 }' $here/steps.lst >"$work/crlf"
    lands 1 3 "lines that end in CR LF" "$work/crlf"
    check "their answers" cmp -s "$work/out" $here/steps.out
    printf 'IDLE 27' >"$work/no-end"
    good "a last line without an end" "$work/no-end"
    check "its answers" is "$(cat "$work/out")" "0 27 0 0 0 0
total 27"
    good "no line at all" /dev/null
    check "the total of nothing" is "$(cat "$work/out")" "total 0"
    awk 'BEGIN { for (i = 0; i < 4096; i++) print "IDLE 4294967295" }' >"$work/most"
    good "4,096 steps" "$work/most"
    check "their total" is "$(tail -n 1 "$work/out")" "total 17592186040320"
}

# The same sheets through the program bench, where it has been built.
against_bench() {
    [ -x $bench_program ] || { leave_out 18 "against bench" "$bench_made_by builds it"; return; }
    for name in bench loop steps rows grounds; do
        lands $(shorts_in $here/$name.lst) "$name" --bench -o "$files/$name" $here/$name.lst
        $bench_program <"$files/$name" >"$work/bench"
        check "$name as bench has it" cmp -s "$work/out" "$work/bench"
    done
    run --bench -o "$files/blocks" $here/blocks.lst
    check "blocks: status" is "$status" 0
    $bench_program <"$files/blocks" >"$work/bench" 2>"$work/err"
    check "blocks: no word" empty "$work/err"
    check "blocks as bench has it" cmp -s "$work/out" "$work/bench"
}

# The worked figures (docs/RULES.md, "Figures"): CYCLES VALUE of the last step, then the steps, one an argument; the options in
# $with, and how many of how many stores land short in $shorts
with=
shorts='0 0'
figure() {
    expected="$1 $2"
    shift 2
    printf '%s\n' "$@" >"$work/figure"
    lands $shorts "figure: $*" $with "$work/figure"
    check "figure: $*: $(cat "$work/out")" is "$(tail -n 2 "$work/out" | head -n 1 | cut -d' ' -f2-3)" "$expected"
}

figure_checks() {
    figure 6 0 'ARM 0x08000100 0xE1A00000'
    figure 8 0 'ARM 0x08000000 0xE1A00000'
    figure 19 1 'WAITCNT 0x0300' 'ARM 0x0C000100 0xE5910000'
    figure 1 1 'THUMB 0x03000000 0xBC01'
    figure 2 2 'THUMB 0x03000000 0xBA01'
    with='--sram /dev/null'
    figure 14 4294901760 'READ 4 0x0DFFFFFE'
    with=
    figure 1 23130 'WRITE 2 0x04000000 3' 'WRITE 1 0x06010000 0x5A' 'READ 2 0x06010000'
    figure 3 7 'WRITE 2 0x0203FFFE 7' 'READ 2 0x0203FFFE'
    shorts='1 1'
    figure 1 0 'WRITE 1 0x06010000 0x5A' 'READ 2 0x06010000'
    with=--bench
    figure 3 0 'WRITE 2 0x0203FFFE 7' 'READ 2 0x0203FFFE'
    with=
    shorts='1 2'
    figure 1 0 'WRITE 2 0x04000000 3' 'WRITE 1 0x06014000 0x5A' 'READ 2 0x06014000'
    shorts='0 0'
}

every_pass="$every_pass bench_checks listing_checks figure_checks"
once="$once against_bench"
