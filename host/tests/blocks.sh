# Sheets of version 2 (docs/RULES.md, "The two versions"): the VERSION line of a listing and what is said of a bad one, blocks in
# lines, tables, sheets and long listings, what lands of them, their marks; POP in both versions; and the library's own functions.

# LISTING: what its comments say: the cycles of each step and its grounds, as the table has them
expected_blocks() { sed -n 's/^[A-Z].* # //p' "$1"; }

# The same as the lines have them: a word for each beat
spread_words() {
    awk '{ line = $1
           for (i = 2; i <= NF; i++) {
               times = $i ~ /^[0-9]+x$/ ? $(i++) + 0 : 1
               while (times-- > 0) line = line " " $i
           }
           print line }'
}

# The same of the table in $work/out, whose columns stand where its heading has them
table_blocks() {
    awk 'NR == 1 { grounds = index($0, "grounds"); width = index($0, " sum") - 11 - grounds }
         /^total/ { exit }
         NR > 1 { row = substr($0, 38, 10) " " substr($0, grounds, width)
                  gsub(/^ +| +$/, "", row); gsub(/ +/, " ", row); print row }' "$work/out"
}

# OPTIONS..: the lines and the table have what the comments of blocks.lst say
same_blocks() {
    run "$@"
    check "blocks, $*: status" is "$status" 0
    line_grounds >"$work/shown"
    expected_blocks $here/blocks.lst | spread_words >"$work/expected"
    check "blocks, $*: the lines" diff "$work/shown" "$work/expected"
    run -v "$@"
    check "blocks, $*, -v: status" is "$status" 0
    table_blocks >"$work/shown"
    expected_blocks $here/blocks.lst >"$work/expected"
    check "blocks, $*: the table" diff "$work/shown" "$work/expected"
    check "blocks, $*: no blank at an end" is "$(grep -c ' $' "$work/out")" 0
}

# Over several memories, with a tariff, before a run, and from a sheet.
block_price_checks() {
    rm -f "$files"/*
    run -o "$files/sheet" $here/blocks.lst
    check "blocks: status" is "$status" 0
    check "the sheet is of version 2" is "$(bytes "$files/sheet" | cut -c1-12)" 425453020000
    for options in '' --bench '--sram /dev/null' '--rate 307' --preview '--preview --rate 307'; do
        same_blocks $options $here/blocks.lst
        same_blocks $options --sheet "$files/sheet"
    done
    run --sheet "$files/sheet" -o "$files/again"
    check "the sheet again" cmp -s "$files/sheet" "$files/again"
    run -v $here/blocks.lst
    { echo VERSION 2; sed '1d; /^total/,$d; s/^ *[0-9]*  //; s/   .*//' "$work/out"; } >"$work/steps"
    run -o "$files/again" "$work/steps"
    check "the sheet by its table" cmp -s "$files/sheet" "$files/again"
    check "the most beats in a line" is "$(sed '$d' "$work/out" | awk '{ if (NF - 6 > most) most = NF - 6 } END { print most }')" 32
}

# ---- listings

# WHAT SHEET LINES: the lines, in printf's notation, make a sheet of these bytes
makes_sheet() {
    printf "$3" >"$work/steps"
    rm -f "$files"/*
    good "$1" -o "$files/sheet" "$work/steps"
    check "$1: its sheet" is "$(bytes "$files/sheet")" "$2"
}

version_line_checks() {
    one=040000000000000001000000
    block=0a0400000201000808000000
    makes_sheet "no version" "4254530100000100$one" 'IDLE 1'
    makes_sheet "version 1" "4254530100000100$one" 'VERSION 1\nIDLE 1\n'
    makes_sheet "version 2" "4254530200000100$one" 'VERSION 2\nIDLE 1\n'
    makes_sheet "version 2 without steps" 4254530200000000 'VERSION 2'
    makes_sheet "behind comments and blanks" "4254530200000100$block" '# a\n\t; b\n\r\n  version\t0x2 # c\r\nblockread 0x08000102 8'
    makes_sheet "behind an editor's mark" "4254530200000100$block" '\357\273\277VERSION 2\nBlockRead 0x08000102 0x8'
    makes_sheet "the most words" 42545302000002000b04000003000003100000000a040000ffffffff01000000 \
        'VERSION 2\nBLOCKWRITE 0x03000003 16\nBLOCKREAD 0xFFFFFFFF 1\n'
}

# LINE TEXT LINES: nothing is done with the lines, and this is said of line LINE; of the others nothing is
bad_steps() {
    printf '%s\n' "$3" | tr ';' '\n' >"$work/steps"
    bad "$3" 2 "$work/steps:$1: $2" -o "$files/new" "$work/steps"
    check "$3: no other line" is "$(wc -l <"$work/err" | tr -d ' ')" 1
    check "$3: all of it" is "$(cat "$work/err")" "$work/steps:$1: $2"
}

version_fault_checks() {
    rm -f "$files"/*
    write="write VERSION 1 or VERSION 2"
    for name in BLOCKREAD BLOCKWRITE; do
        of_two="$name is a step of version 2 sheets: begin the listing with VERSION 2"
        bad_steps 1 "$of_two" "$name 0x02000000 1"
        bad_steps 3 "$of_two" "VERSION 1;IDLE 1;$name 0x02000000 1"
    done
    bad_steps 2 "VERSION stands behind a step: put it before the first one" 'IDLE 1;VERSION 2'
    bad_steps 2 "VERSION stands behind a step: put it before the first one" 'IDLE 1;VERSION 2;BLOCKREAD 0 1'
    bad_steps 2 "VERSION stands twice: leave one of the two out" 'VERSION 2;VERSION 2;BLOCKREAD 0 1'
    bad_steps 3 "VERSION stands twice: leave one of the two out" 'VERSION 1;IDLE 1;VERSION 2;BLOCKREAD 0 1'
    bad_steps 1 "VERSION has no number: $write" 'VERSION;BLOCKREAD 0 1'
    for number in 0 3 -1 2.0 two 0x 4294967298 0x10000000000000002; do
        bad_steps 1 "there are no sheets of version $number: $write" "VERSION $number;BLOCKREAD 0 1"
    done
    bad_steps 1 "IDLE is too much: $write" 'VERSION 2 IDLE 1'
}

block_fault_checks() {
    rm -f "$files"/*
    for name in BLOCKREAD BLOCKWRITE; do
        bad_steps 2 "$name has no address: write $name ADDRESS WORDS" "VERSION 2;$name"
        bad_steps 2 "$name has no words: write $name ADDRESS WORDS" "VERSION 2;$name 0x02000000"
        bad_steps 2 "words 0 of $name is under 1" "VERSION 2;$name 0x02000000 0"
        bad_steps 2 "words 17 of $name is over 16" "VERSION 2;$name 0x02000000 17"
        bad_steps 2 "words 0x100000001 of $name is over 16" "VERSION 2;$name 0x02000000 0x100000001"
        bad_steps 2 "words -1 of $name is negative" "VERSION 2;$name 0x02000000 -1"
        bad_steps 2 "words all of $name is no number (decimal, or hexadecimal behind 0x)" "VERSION 2;$name 0x02000000 all"
        bad_steps 2 "address 0x100000000 of $name is over 4294967295 (0xFFFFFFFF)" "VERSION 2;$name 0x100000000 1"
        bad_steps 2 "pc is too much: write $name ADDRESS WORDS" "VERSION 2;$name 0x02000000 1 pc"
    done
    all='READ, WRITE, WAITCNT, IDLE, FETCH, RESTART, THUMB, ARM, PC, LATCH'
    bad_steps 1 "BLOCK is no step; the steps are $all" 'BLOCK 0x02000000 1'
    bad_steps 2 "BLOCK is no step; the steps are $all, BLOCKREAD, BLOCKWRITE" 'VERSION 2;BLOCK 0x02000000 1'
}

# NUMBER NAME RECORD SHEET: the run refuses the sheet so, at the record, and behind it may be the text
refused_sheet() {
    hex_file "$work/sheet" $4
    for option in '' -v --preview '--rate 307'; do
        bad "the sheet $4 $option" 1 "refused $1 ($2) at record $3" $option -o "$files/new" --sheet "$work/sheet"
    done
}

block_refusal_checks() {
    rm -f "$files"/*
    idle='04 00 00 00 00 00 00 00 01 00 00 00'
    for version in '00 00' '03 00' '00 01' '01 01' '00 02' 'ff ff'; do
        refused_sheet 2 BTS_BAD_VERSION "0: the sheet's version is neither 1 nor 2" "42 54 53 $version 00 01 00 $idle"
    done
    refused_sheet 7 BTS_FAULTY_RECORD 1 "42 54 53 01 00 00 02 00 $idle 0a 04 00 00 00 00 00 02 01 00 00 00"
    check "its bytes" says "the bytes of record 1: 0A 04 00 00 00 00 00 02 01 00 00 00"
    for record in '0a 04 00 00 00 00 00 02 00 00 00 00' '0b 04 00 00 00 00 00 02 11 00 00 00' \
        '0a 02 00 00 00 00 00 02 01 00 00 00' '0b 04 01 00 00 00 00 02 01 00 00 00' '0a 04 00 01 00 00 00 02 01 00 00 00' \
        '0c 04 00 00 00 00 00 02 01 00 00 00'; do
        refused_sheet 7 BTS_FAULTY_RECORD 1 "42 54 53 02 00 00 02 00 $idle $record"
    done
}

# ---- values, stores, marks

# STEPS: the values of the lines that they give, with semicolons for their ends
values_of() {
    echo "$1" | tr ';' '\n' >"$work/steps"
    run "$work/steps"
    sed '$d' "$work/out" | cut -d' ' -f3 | tr '\n' ' '
}

# A block gives its last word, and stores 0 in each of its own and in no other.
block_value_checks() {
    check "the last word" is "$(values_of 'VERSION 2;WRITE 4 0x02000000 1;WRITE 4 0x02000004 2;WRITE 4 0x02000008 3
BLOCKREAD 0x02000000 1;BLOCKREAD 0x02000000 2;BLOCKREAD 0x02000000 3;BLOCKREAD 0x02000006 2')" "0 0 0 1 2 3 3 "
    check "the stored words" is "$(values_of 'VERSION 2;WRITE 4 0x02000000 1;WRITE 4 0x02000004 2;WRITE 4 0x02000008 3
WRITE 4 0x0200000C 4;BLOCKWRITE 0x02000006 2;READ 4 0x02000000;READ 4 0x02000004;READ 4 0x02000008;READ 4 0x0200000C')" \
        "0 0 0 0 0 1 0 0 4 "
    check "the bytes of SRAM" is "$(values_of 'VERSION 2;WRITE 1 0x0E000010 1;WRITE 1 0x0E000011 2;WRITE 1 0x0E000014 3
WRITE 1 0x0E000018 4;BLOCKWRITE 0x0E000012 2;READ 1 0x0E000010;READ 1 0x0E000011;READ 1 0x0E000014;READ 1 0x0E000018')" \
        "0 0 0 0 0 0 2 0 4 "
    check "over the end of the addresses" is "$(values_of 'VERSION 2;PC 0x08000000;LATCH 7;BLOCKREAD 0xFFFFFFFC 2')" "0 0 7 "
}

block_landed_checks() {
    rm -f "$files"/*
    commented_hits $here/blocks-landed.lst
    sed -n 's/.* landed: //p' "$work/expected" | sed 's/; /\n/g' >"$work/reasons"
    zero_store "$work/lent-store" 5,0,2050,7,65539,3,1
    commented_hits $here/blocks-short.lst --store "$work/lent-store"
    sed -n 's/.* landed: //p' "$work/expected" | sed 's/; /\n/g' >>"$work/reasons"
    reasons_told >"$work/told"
    check "each reason is one of host/README.md" is "$(reasons_met | sort -u - "$work/told")" "$(cat "$work/told")"
}

block_mark_checks() {
    run -v $here/blocks-marks.lst
    check "the marks of blocks: status" is "$status" 0
    check "the marks of blocks" is "$(shown_marks)" \
        "$(sed -n 's/^[A-Z].*# //p' $here/blocks-marks.lst | tr '\n' ';' | sed 's/;$//; s/;/; /g')"
    check "POP is no line of version 2" is "$(grep -c D-51 "$work/out")" 0
}

# VERSION MARKS LINES: the lines and the marks of POP and of what is taken for it, in ROM and outside, with the prefetch off
pops() {
    printf '%s\n' "VERSION $1" 'THUMB 0x03000000 0xBC01' 'THUMB 0x03000000 0xBB01' 'THUMB 0x08000100 0xBD01' \
        'THUMB 0x08000102 0xBA01' 'THUMB 0x08000104 0x1C00' >"$work/steps"
    good "POP in version $1" "$work/steps"
    check "POP in version $1: the lines" is "$(sed '$d' "$work/out" | cut -d' ' -f2- | tr '\n' ',')" "$3"
    good "POP in version $1, -v" -v "$work/steps"
    check "POP in version $1: the marks" is "$(shown_marks)" "$2"
}

pop_checks() {
    pops 1 "D-51; D-51; D-41 D-42 D-51; D-39 D-51; D-39" '1 1 0 0 0 fast,2 2 0 0 0 fast,3 0 0 0 0 seq,4 1 0 0 1 seq,5 0 0 0 0 flag,'
    pops 2 "-; -; D-39 D-42; D-39; -" '2 2 0 0 0 fast,1 1 0 0 0 fast,4 1 0 0 1 seq,5 0 0 0 0 flag,3 0 0 0 0 seq,'
}

# ---- a run that goes on

# LINES: blocks.lst cut behind so many of its steps, each part with its version
cut_blocks() {
    { echo VERSION 2; head -n "$1" "$work/lines"; } >"$work/part"
    run --board-out "$files/board" --store-out "$files/store" "$work/part"
    sed '$d' "$work/out" >"$work/answers"
    { echo VERSION 2; tail -n +$(($1 + 1)) "$work/lines"; } >"$work/part"
    run --board "$files/board" --board-out "$files/board" --store "$files/store" --store-out "$files/store" "$work/part"
    sed '$d' "$work/out" >>"$work/answers"
    check "blocks behind $1: the answers" is "$(cut -d' ' -f2- "$work/answers")" "$(cat "$work/whole")"
    check "blocks behind $1: the board" cmp -s "$files/board" "$files/board-whole"
    check "blocks behind $1: the store" cmp -s "$files/store" "$files/store-whole"
}

block_cut_checks() {
    rm -f "$files"/*
    run --board-out "$files/board-whole" --store-out "$files/store-whole" $here/blocks.lst
    sed '$d' "$work/out" | cut -d' ' -f2- >"$work/whole"
    grep '^[A-Z]' $here/blocks.lst >"$work/lines"
    cut=0
    while [ "$cut" -le "$(wc -l <"$work/lines")" ]; do
        cut_blocks $cut
        cut=$((cut + 1))
    done
}

# Every piece of a long listing is of its version: a row of blocks, and POP, over the ends of pieces.
block_piece_checks() {
    rm -f "$files"/*
    awk 'BEGIN {
        for (i = 0; i < 9000; i++) step[i] = i % 2 ? "BLOCKREAD 0x03000000 1" : "THUMB 0x03000000 0xBC01"
        step[4095] = "BLOCKREAD 0x08000100 16"; step[4096] = "BLOCKREAD 0x08000140 2"
        step[8191] = "THUMB 0x08000100 0xBC01"; step[8192] = "THUMB 0x08000102 0x1C00"
        print "VERSION 2"
        for (i = 0; i < 9000; i++) print step[i]
    }' >"$work/long"
    total=$((4498 * 2 + 4498 + 98 + 12 + 4 + 5))
    for option in '' --preview; do
        run $option "$work/long"
        check "9,000 steps of version 2 $option: status" is "$status" 0
        check "over the ends of pieces $option" is "$(sed -n '4096,4097p;8192,8193p' "$work/out" | cut -d' ' -f2 | tr '\n' ' ')" \
            "98 12 4 5 "
        check "the total $option" is "$(tail -n 1 "$work/out")" "total $total"
        run -v $option "$work/long"
        check "its table $option" is "$(sed -n '4097,4098p;8193,8194p' "$work/out" | cut -c 38-47 | tr -s ' \n' ' ')" " 98 12 4 5 "
        check "its figure $option" grep -q "^$total by the model; " "$work/out"
    done
    bad "a sheet of so many" 2 "-o can't write 9000 steps: a sheet holds at most 4096" -o "$files/new" "$work/long"
}

# ---- texts

# host/README.md's example: its steps, their lines, and their table.
block_example_checks() {
    awk -v to="$work/example" '/^## / { here = /^## Blocks/ }
        here && /^```/ { inside = !inside; n += inside; next }
        here && inside { print >(to n) }' host/README.md
    run "$work/example1"
    check "host/README.md's blocks: status" is "$status" 0
    check "their lines" diff "$work/out" "$work/example2"
    run -v "$work/example1"
    head -n "$(wc -l <"$work/example3")" "$work/out" >"$work/rows"
    check "their table" diff "$work/rows" "$work/example3"
    echo 'BLOCKREAD 0x02000000 1' >"$work/steps"
    bad "a block in version 1" 2 "" "$work/steps"
    check "host/README.md has what is said" grep -qxF "$(sed 's/^.*:1: /FILE:1: /' "$work/err")" host/README.md
}

# The versions, and what the second has, are told wherever a person looks.
block_told_checks() {
    run -h
    page_text >"$work/page"
    for text in "$work/out" "$work/page" host/README.md; do
        tr -s '\n' ' ' <"$text" >"$work/flat"
        for word in 'VERSION 2' BLOCKREAD BLOCKWRITE 'VERSION 1' 'lowered to a multiple of 4' '31x seq' '0xBC and 0xBD'; do
            check "$text tells $word" grep -qF "$word" "$work/flat"
        done
    done
    good "--version" --version
    check "it tells the versions" grep -q '(sheets of versions 1 and 2)$' "$work/out"
    for name in BTS_BLOCK_READ BTS_BLOCK_WRITE BTS_MOST_WORDS BTS_VERSION_1 BTS_VERSION_2 bts_put_header_of bts_sheet_version; do
        check "include/bts.h has $name" grep -q "$name" include/bts.h
    done
}

# The library's functions, in C.
block_library_checks() {
    check "it builds" ${CC:-cc} -std=c11 -Wall -Wextra -Wpedantic -Wconversion -Werror -O2 -Iinclude $here/blocks.c "$lib" \
        -o "$work/blocks"
    check "it runs" is "$("$work/blocks")" "0 wrong"
}

every_pass="$every_pass version_line_checks version_fault_checks block_fault_checks block_value_checks block_landed_checks"
every_pass="$every_pass block_mark_checks pop_checks block_piece_checks"
once="$once block_refusal_checks block_price_checks block_cut_checks block_example_checks block_told_checks block_library_checks"
