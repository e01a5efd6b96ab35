# The contract's tariff: btsrun --rate with its charge and its shares, what is refused of it, and the library's own function.

# RATE <LINES: what btsrun's lines come to at the rate, by a calculation of its own: a share a line, and the charge. It telescopes
# the charges of the sums; every number in it is below 2^53, so awk has it exactly.
expected_bill() {
    awk -v rate="$1" '
        function charge(total, rest) {
            rest = total % 1000000
            return (total - rest) / 1000000 * rate + int((rest * rate + 999999) / 1000000)
        }
        function money(cents) { return sprintf("%.0f.%02.0f", (cents - cents % 100) / 100, cents % 100) }
        /^total/ { print "charge " money(charge(sum)); exit }
        { before = charge(sum); sum += $2; print money(charge(sum) - before) }'
}

# The same of the table in $work/out: its column share, which is 12 characters wide behind the 104 of the others, and its charge.
shown_bill() {
    awk '/^total/ { getline; print; exit }
         NR > 1 { share = substr($0, 105, 12); gsub(/ /, "", share); print share }' "$work/out"
}

# The table in $work/out without what the rate adds to it.
without_bill() {
    awk '/^total/ { behind = 1 }
         !behind { $0 = substr($0, 1, 104) substr($0, 117) }
         !/^charge / { print }' "$work/out"
}

# <BILL: the cents by which its charge is over the sum of its shares
over_shares() { tr -d . | awk '/^charge/ { printf "%.0f\n", $2 - sum; exit } { sum += $1 }'; }

# RATE ARGUMENTS: an accepted run at the rate. Its shares and its charge are those of its cycles; all else is as without the rate.
billed() {
    rate=$1
    shift
    run "$@"
    cp "$work/out" "$work/lines"
    cp "$work/err" "$work/lines.err"
    expected_bill "$rate" <"$work/lines" >"$work/expected"
    check "$* at $rate: there is a charge" grep -qE '^charge [0-9]+\.[0-9][0-9]$' "$work/expected"
    tail -n 1 "$work/expected" >>"$work/lines"
    run --rate "$rate" "$@"
    check "$* at $rate: status" is "$status" 0
    check "$* at $rate: the lines and the charge" cmp -s "$work/out" "$work/lines"
    check "$* at $rate: stderr" cmp -s "$work/err" "$work/lines.err"
    run -v "$@"
    cp "$work/out" "$work/table"
    cp "$work/err" "$work/table.err"
    run -v --rate "$rate" "$@"
    check "$* at $rate, -v: status" is "$status" 0
    shown_bill >"$work/bill"
    without_bill >"$work/rest"
    check "$* at $rate, -v: shares and charge" cmp -s "$work/bill" "$work/expected"
    check "$* at $rate, -v: the shares add up" is "$(over_shares <"$work/bill")" 0
    check "$* at $rate, -v: the rest of the table" cmp -s "$work/rest" "$work/table"
    check "$* at $rate, -v: stderr" cmp -s "$work/err" "$work/table.err"
}

# Listings with totals of all sizes, some whose stores land short, at the least rate and at the greatest.
bill_checks() {
    long_listing | head -n 4096 >"$work/long"
    awk 'BEGIN { for (i = 0; i < 4096; i++) print "IDLE 4294967295" }' >"$work/most"
    awk 'BEGIN { for (i = 0; i < 1000; i++) print "IDLE " i * 4099; print "IDLE 4294967295"; print "IDLE 1" }' >"$work/grows"
    for rate in 1 307 999999 1000000; do
        for listing in $here/bench.lst $here/loop.lst $here/steps.lst $here/landed.lst "$work/long" "$work/most" "$work/grows"; do
            billed $rate "$listing"
        done
    done
    billed 307 --bench $here/steps.lst
    good "the greatest charge" --rate 1000000 "$work/most"
    check "it is whole" is "$(tail -n 2 "$work/out" | tr '\n' ' ')" "total 17592186040320 charge 175921860403.20 "
}

# CHARGE CYCLES: what they are charged at a cent each
money() {
    echo "IDLE $2" >"$work/idle"
    good "$2 cents" --rate 1000000 "$work/idle"
    check "they are $1" is "$(tail -n 1 "$work/out")" "charge $1"
}

money_checks() {
    money 0.00 0
    money 0.01 1
    money 0.05 5
    money 0.99 99
    money 1.00 100
    money 3.07 307
    money 42949672.95 4294967295
    printf 'IDLE 1\nIDLE 999999\nIDLE 1\n' >"$work/idle"
    good "rounding" -v --rate 1 "$work/idle"
    check "up to the cent, once" is "$(shown_bill | tr '\n' ' ')" "0.01 0.00 0.01 charge 0.02 "
    good "nothing" --rate 307 /dev/null
    check "it costs nothing" is "$(cat "$work/out")" "total 0
charge 0.00"
    good "nothing in a table" -v --rate 307 /dev/null
    check "it has the column" is "$(head -n 1 "$work/out" | cut -c 101-)" " sum       share departs"
    check "and the charge" is "$(sed 1d "$work/out")" "total 0
charge 0.00
0 by the model; no listed departure applies"
}

# How a rate may be written, and from what it may be run; the files come out as without it.
rate_checks() {
    rm -f "$files"/*
    for rate in 307 0307 0x133 0X133; do
        good "--rate $rate" --rate $rate $here/loop.lst
        check "--rate $rate: the charge" is "$(tail -n 1 "$work/out")" "charge 0.01"
    done
    good "the greatest rate in hexadecimal" --rate=0xF4240 $here/loop.lst
    check "a cent a cycle" is "$(tail -n 1 "$work/out")" "charge 0.16"
    all_outputs="-o $files/sheet --board-out $files/board --sram-out $files/sram --store-out $files/store"
    billed 307 $here/steps.lst
    lands 1 3 "files without a rate" $all_outputs $here/steps.lst
    before=$(snapshot)
    lands 1 3 "files with it" --rate 307 $all_outputs $here/steps.lst
    check "they are the same" is "$(snapshot)" "$before"
    lands 1 3 "a table with a rate" -v --rate 307 $here/steps.lst
    cp "$work/out" "$work/table"
    lands 1 3 "a sheet with a rate" -v --rate 307 --sheet "$files/sheet"
    check "its table" cmp -s "$work/out" "$work/table"
    billed 999999 --sheet "$files/sheet" --board "$files/board" --store "$files/store"
}

tariff_refusal_checks() {
    rm -f "$files"/*
    outputs="-v -o $files/new-sheet --board-out $files/new-board --sram-out $files/new-sram --store-out $files/new-store"
    for rate in 0 00 0x0 1000001 0xF4241 4294967295; do
        bad "--rate $rate" 1 "refused 8 (BTS_BAD_RATE) at record 0: the rate is 0 or over 1000000 cents per million cycles" \
            $outputs --rate $rate $here/bench.lst
        check "--rate $rate: nothing else" is "$(wc -l <"$work/err" | tr -d ' ')" 1
    done
    bad "of a sheet" 1 "refused 8 (BTS_BAD_RATE) at record 0" $outputs --rate 0 --sheet crates/bench/stdin
    bad "of nothing" 1 "refused 8 (BTS_BAD_RATE) at record 0" $outputs --rate 0 /dev/null
    printf old >"$files/new-board"
    bad "an old output" 1 "refused 8 (BTS_BAD_RATE) at record 0" $outputs --rate 0 $here/bench.lst
    rm "$files/new-board"
}

# NAME ARGUMENTS: refused alike, in the same words, without a rate, with one and with a bad one
refused_alike() {
    name=$1
    shift
    run "$@"
    check "$name: refused" is "$status" 1
    cp "$work/err" "$work/refused"
    for rate in 307 0 1000001; do
        bad "$name, --rate $rate" 1 "$(head -n 1 "$work/refused")" --rate $rate "$@"
        check "$name, --rate $rate: all of it" cmp -s "$work/err" "$work/refused"
    done
}

# A bad rate comes last.
refusal_order_checks() {
    rm -f "$files"/*
    outputs="-v -o $files/new-sheet --board-out $files/new-board --sram-out $files/new-sram --store-out $files/new-store"
    printf 'BTX\001\000\000\000\000' >"$work/sheet"
    refused_alike "a mark" $outputs --sheet "$work/sheet"
    printf 'BTS\003\000\000\000\000' >"$work/sheet"
    refused_alike "a version" $outputs --sheet "$work/sheet"
    awk 'BEGIN { for (i = 0; i < 4096; i++) print "IDLE 1" }' >"$work/idle"
    good "the longest sheet, billed" --rate 307 -o "$work/sheet" "$work/idle"
    printf x >>"$work/sheet"
    refused_alike "a sheet too long" $outputs --sheet "$work/sheet"
    zeros "$work/image" 65537
    refused_alike "an image too long" $outputs --sram "$work/image" $here/bench.lst
    zeros "$work/board" 71
    refused_alike "a board" $outputs --board "$work/board" $here/bench.lst
    hex_file "$work/sheet" 42 54 53 01 00 00 02 00  04 00 00 00 00 00 00 00 1B 00 00 00  07 03 00 00 00 01 00 08 00 1C 00 00
    refused_alike "a record" $outputs --sheet "$work/sheet"
    check "which one" says "refused 7 (BTS_FAULTY_RECORD) at record 1"
}

# What is no number of 32 bits is no rate at all.
rate_option_checks() {
    rm -f "$files"/*
    unit="cents per million cycles, a whole number from 1 to 1000000"
    for rate in 3.07 3,07 abc -1 +5 4294967296 99999999999999999999999 0x 0x100000000 1e6 ' 5' '5 ' 5c -v; do
        bad "--rate '$rate'" 2 "--rate takes $unit, not $rate; btsrun -h tells the options" -o "$files/new" --rate "$rate" \
            $here/bench.lst
    done
    bad "--rate=3.07" 2 "--rate takes $unit, not 3.07; btsrun -h tells the options" --rate=3.07 $here/bench.lst
    bad "no rate" 2 "--rate has no value: it takes $unit; btsrun -h tells the options" $here/bench.lst --rate
    bad "an empty rate" 2 "--rate has no value: it takes $unit; btsrun -h tells the options" --rate '' $here/bench.lst
    bad "none behind =" 2 "--rate has no value: it takes $unit; btsrun -h tells the options" --rate= $here/bench.lst
    bad "twice" 2 "--rate stands twice" --rate 5 --rate=5 $here/bench.lst
    bad "twice, at first as 0" 2 "--rate stands twice" --rate 0 --rate 307 $here/bench.lst
    bad "another option" 2 "--rates=5 is no option" --rates=5 $here/bench.lst
}

# A charge is a sheet's, and is no sum of its pieces' charges.
tariff_piece_checks() {
    rm -f "$files"/*
    awk 'BEGIN { for (i = 0; i < 4097; i++) print "IDLE 1" }' >"$work/idle"
    told="--rate can't bill 4097 steps: a charge is a sheet's, and a sheet holds at most 4096"
    for rate in 307 0; do
        bad "4,097 steps at $rate" 2 "$told" -v --rate $rate --board-out "$files/new" "$work/idle"
        check "nothing else at $rate" is "$(cat "$work/err")" "btsrun: $told"
    done
    bad "and their sheet" 2 "$told" --rate 307 -o "$files/new" "$work/idle"
    check "both are told" says "-o can't write 4097 steps: a sheet holds at most 4096"
    good "without a rate they are run" "$work/idle"
    check "with their total alone" is "$(tail -n 1 "$work/out")" "total 4097"
    sed 1d "$work/idle" >"$work/part"
    good "one less is billed" --rate 307 "$work/part"
    check "with its charge" is "$(tail -n 2 "$work/out" | tr '\n' ' ')" "total 4096 charge 0.02 "
}

# The unit and the range are said wherever the option is, and the range is the header's.
rate_told_checks() {
    most=$(sed -n 's/.* BTS_MOST_RATE = \([0-9]*\) .*/\1/p' include/bts.h)
    run -h
    page_text >"$work/page"
    for text in "$work/out" "$work/page" host/README.md; do
        check "$text tells the option" grep -qE -e '--rate +CENTS' "$text"
        check "$text tells the unit" grep -q 'cents per million cycles' "$text"
        check "$text tells the range" grep -qE "1 to ($most|1,000,000)" "$text"
        check "$text tells the limit" grep -qE '4,?096 steps' "$text"
        check "$text tells the charge" grep -qF '3.07' "$text"
    done
}

# The library's function beside bts_run, in C.
tariff_library_checks() {
    check "it builds" ${CC:-cc} -std=c11 -Wall -Wextra -Wpedantic -Wconversion -Werror -O2 -Iinclude -Ihost $here/tariff.c \
        host/money.c "$lib" -o "$work/tariff"
    check "it runs" is "$("$work/tariff")" "0 wrong"
}

every_pass="$every_pass money_checks rate_checks tariff_refusal_checks tariff_piece_checks"
once="$once bill_checks refusal_order_checks rate_option_checks rate_told_checks tariff_library_checks"
