# Why this many cycles (docs/RULES.md, "The ground of a beat"): the grounds in the lines and in the table, however the steps are
# given and run; that they go by the board before the step; their words, wherever a person looks; and the library's own function.

ground_words='hit seq flag block address ewram sram video fast'

# LISTING: what its comments say: the cycles of each step, and its grounds
expected_grounds() { sed -n 's/^[A-Z].* # //p' "$1" | sed 's/, hits .*//'; }

# The same of the lines in $work/out
line_grounds() { sed '/^total/,$d' "$work/out" | cut -d' ' -f2,7-; }

# The same of the table in $work/out
table_grounds() {
    awk '/^total/ { exit }
         NR > 1 { row = substr($0, 38, 10) " " substr($0, 79, 11); gsub(/^ +| +$/, "", row); gsub(/ +/, " ", row); print row }' \
        "$work/out"
}

# OPTIONS..: the grounds of grounds.lst, in $work/expected, are those of the lines and of the table
same_grounds() {
    run "$@"
    check "grounds, $*: status" is "$status" 0
    line_grounds >"$work/shown"
    check "grounds, $*: the lines" diff "$work/shown" "$work/expected"
    run -v "$@"
    check "grounds, $*, -v: status" is "$status" 0
    table_grounds >"$work/shown"
    check "grounds, $*: the table" diff "$work/shown" "$work/expected"
}

# Over several memories, with a tariff, before a run, and from a sheet.
ground_checks() {
    rm -f "$files"/*
    expected_grounds $here/grounds.lst >"$work/expected"
    check "there are steps" [ "$(wc -l <"$work/expected")" -ge 200 ]
    check "every word is met" is "$(cut -d' ' -f2- "$work/expected" | tr ' ' '\n' | grep '[a-z]' | sort -u)" \
        "$(echo $ground_words | tr ' ' '\n' | sort)"
    lands $(shorts_in $here/grounds.lst) "grounds" -o "$files/sheet" $here/grounds.lst
    check "their hits" is "$(ground_hits)" "$(sed -n 's/^[A-Z].*, hits //p' $here/grounds.lst | tr '\n' ' ')"
    printf '\021\042\063\104\125\146\167' >"$work/image"
    zero_store "$work/lent-store" 5,0,2050,7,65539,3,1
    for options in '' --bench "--rom $work/image --bios $work/image --sram /dev/null" "--store $work/lent-store" '--rate 307' \
        --preview '--preview --rate 307'; do
        same_grounds $options $here/grounds.lst
        same_grounds $options --sheet "$files/sheet"
    done
}

# The hits of the steps of which grounds.lst has any to say
ground_hits() {
    sed -n '/^[A-Z]/p' $here/grounds.lst | awk '/, hits / { print NR }' >"$work/of-interest"
    awk 'FILENAME == ARGV[1] { wanted[$1] = 1; next } FNR in wanted { printf "%s ", $4 }' "$work/of-interest" "$work/out"
}

# A line is six numbers and the words, single blanks between them and none behind; no row of the table ends in a blank either.
ground_form_checks() {
    form="^[0-9]+( [0-9]+){5}( ($(echo $ground_words | tr ' ' '|'))){0,2}\$"
    for options in '' --preview '--rate 307'; do
        run $options $here/grounds.lst
        check "the form of lines $options" is "$(sed '/^total/,$d' "$work/out" | grep -cvE "$form")" 0
        run -v $options $here/grounds.lst
        check "the table $options: no blank at an end" is "$(grep -c ' $' "$work/out")" 0
        check "the table $options: the column" is "$(head -n 1 "$work/out" | cut -c 72-104)" "force  grounds                sum"
    done
    printf 'FETCH 0x08000100\nPC 0\nLATCH 1\nIDLE 1\nRESTART 0x08000100\nWAITCNT 0\n' >"$work/steps"
    good "steps without grounds" "$work/steps"
    check "they end in the force flag" is "$(sed '$d' "$work/out" | grep -cvE '^[0-9]+( [0-9]+){5}$')" 0
    good "nothing" /dev/null
    check "it has no line" is "$(cat "$work/out")" "total 0"
}

# LINES STEPS BEFORE..: what the steps give, in one line with commas, on the board that the others left; the preview the same
goes_on() {
    expected=$1
    steps=$2
    shift 2
    printf '%s\n' "$@" >"$work/before"
    echo "$steps" | tr ';' '\n' >"$work/after"
    good "before $steps" --board-out "$files/board" "$work/before"
    for option in '' --preview '--rate 307'; do
        run $option --board "$files/board" "$work/after"
        check "behind $*: $steps $option" is "$(line_grounds | tr '\n' ',')" "$expected,"
    done
}

# By the board before the step: what stands in the prefetch of the lent board or is on its way there, its flag, and its row.
ground_board_checks() {
    rm -f "$files"/*
    goes_on '1 hit' 'THUMB 0x08000100 0x1C00' 'WAITCNT 0x4000' 'RESTART 0x08000100' 'IDLE 5'
    goes_on '2,1 hit' 'IDLE 2;THUMB 0x08000100 0x1C00' 'WAITCNT 0x4000' 'RESTART 0x08000100' 'IDLE 3'
    goes_on '1,4 seq hit' 'IDLE 1;ARM 0x080000FE 0xE1A00000' 'WAITCNT 0x4000' 'RESTART 0x08000100' 'IDLE 4'
    goes_on '4 hit seq' 'ARM 0x08000102 0xE1A00000' 'WAITCNT 0x4000' 'RESTART 0x08000100' 'IDLE 13' 'FETCH 0x08000100'
    goes_on '0,3 seq' 'WAITCNT 0;THUMB 0x08000100 0x1C00' 'WAITCNT 0x4000' 'RESTART 0x08000100' 'IDLE 5'
    goes_on '8 flag seq,6 seq seq' 'ARM 0x08000102 0xE1A00000;ARM 0x08000106 0xE1A00000' 'THUMB 0x08000100 0x6820'
    goes_on '5 block' 'THUMB 0x08020000 0x1C00' 'THUMB 0x08000100 0x6820'
    goes_on '1 fast,3 seq' 'THUMB 0x03000000 0x1C00;THUMB 0x08000102 0x1C00' 'THUMB 0x08000100 0x6820'
    goes_on '6 seq seq' 'READ 4 0x08000105' 'READ 2 0x08000103'
    goes_on '0,8 address seq' 'FETCH 0;READ 4 0x08000104' 'READ 2 0x08000102'
    goes_on '8 block seq' 'READ 4 0x08020000' 'READ 4 0x0801FFFC'
}

# Over the ends of pieces: a flag, a row of accesses, and a halfword on its way to the prefetch.
ground_piece_checks() {
    awk 'BEGIN {
        for (i = 0; i < 12290; i++) step[i] = "IDLE 1"
        step[4095] = "THUMB 0x08000100 0x6820"; step[4096] = "THUMB 0x08000102 0x1C00"
        step[8191] = "READ 2 0x08000100"; step[8192] = "READ 2 0x08000103"; step[8193] = "READ 4 0x08000104"
        step[12285] = "WAITCNT 0x4000"; step[12286] = "RESTART 0x08000100"; step[12287] = "IDLE 4"
        step[12289] = "THUMB 0x08000100 0x1C00"
        for (i = 0; i < 12290; i++) print step[i]
    }' >"$work/long"
    for option in '' --preview; do
        run $option "$work/long"
        check "over the ends of pieces $option" is "$(line_grounds | sed -n '4096,4098p;8192,8194p;12288,12290p' | tr '\n' ',')" \
            "4 seq,5 flag,1,5 address,3 seq,6 seq seq,4,1,1 hit,"
    done
}

# ---- texts

# host/README.md's example: its steps, their lines, and the beginning of their table.
ground_example_checks() {
    awk -v to="$work/example" '/^## / { here = /Why this many cycles/ }
        here && /^```/ { inside = !inside; n += inside; next }
        here && inside { print >(to n) }' host/README.md
    good "host/README.md's grounds" "$work/example1"
    check "its lines" diff "$work/out" "$work/example2"
    check "it has every word" is "$(grep -o '[a-z]*' "$work/example2" | grep -v total | sort -u)" \
        "$(echo $ground_words | tr ' ' '\n' | sort)"
    good "host/README.md's grounds with -v" -v "$work/example1"
    head -n "$(wc -l <"$work/example3")" "$work/out" >"$work/rows"
    check "its table" diff "$work/rows" "$work/example3"
}

# The words with a sentence for each, in the order of their numbers, wherever a person looks; and what they add up to.
ground_told_checks() {
    run -h
    page_text >"$work/page"
    sed -n '/^The words of the grounds/,/^A READ/s/^  \([a-z]*\)  *[a-zA-Z].*: .*/\1/p' "$work/out" >"$work/help-words"
    sed -n '/^\.SH GROUNDS/,/^\.SH EXIT/p' host/btsrun.1 >"$work/section"
    sed -n 's/^\.B \([a-z]*\)$/\1/p' "$work/section" >"$work/page-words"
    awk '/^## / { here = /Why this many/ } here && /^\| `/' host/README.md | cut -d '`' -f 2 >"$work/readme-words"
    sed -n 's/^ \*   \([a-z]*\)  *[0-9NS][ 0-9+W]*  .*/\1/p' include/bts.h >"$work/header-words"
    for text in help page readme header; do
        check "the words of the $text" is "$(tr '\n' ' ' <"$work/$text-words")" "$ground_words "
    done
    check "the page's sentences" is "$(grep -A 1 '^\.B ' "$work/section" | grep -c '^[A-Z].*: .*\.$')" 9
    in_a_row=$(echo $ground_words | sed 's/[a-z][a-z]*/`&`/g; s/ /, /g; s/, \([^,]*\)$/ or \1/')
    check "README's words" grep -qF "$in_a_row" README.md
    for text in "$work/out" "$work/page" host/README.md include/bts.h; do
        check "$text tells what they add up to" grep -q 'the internal cycle of a' "$text"
    done
    check "refusal 6 names them" grep -q '{"BTS_SHORT_ANSWERS", ".* or the grounds than 32"},' include/bts.h
}

# The library's function beside bts_run, in C.
ground_library_checks() {
    check "it builds" ${CC:-cc} -std=c11 -Wall -Wextra -Wpedantic -Wconversion -Werror -O2 -Iinclude -Ihost $here/grounds.c \
        host/grounds.c "$lib" -o "$work/grounds"
    check "it runs" is "$("$work/grounds")" "0 wrong"
}

every_pass="$every_pass ground_form_checks ground_piece_checks"
once="$once ground_checks ground_board_checks ground_example_checks ground_told_checks ground_library_checks"
