# A run that goes on: the store file, listings cut in two, and listings of more steps than a sheet holds.

# The seven lengths of a store file, in its order.
lengths() { od -An -v -tu4 -j4 -N28 "$1" | tr -s ' \n' ' ' | sed 's/^ //; s/ $//'; }

store_checks() {
    rm -f "$files"/*
    printf 'WRITE 1 0x02000000 0x11\nWRITE 1 0x03000000 0x22\nWRITE 2 0x05000000 0x33\nWRITE 2 0x06000000 0x44\n' >"$work/fill"
    printf 'WRITE 2 0x07000000 0x55\nWRITE 1 0x0E000000 0x66\nWRITE 1 0x0E00FFFF 0x77\n' >>"$work/fill"
    good "a store" --store-out "$files/store" --sram-out "$files/chip" "$work/fill"
    check "its beginning" is "$(bytes "$files/store" | cut -c1-8)" 42544d01
    check "its lengths" is "$(lengths "$files/store")" "262144 32768 2052 1024 98304 1024 65536"
    check "its length" is "$(wc -c <"$files/store" | tr -d ' ')" 462884
    places=
    for at in 32 262176 296996 298020 396324 397348 462883; do places="$places$(od -An -tx1 -j$at -N1 "$files/store")"; done
    check "its bytes" is "$places" " 11 22 33 44 55 66 77"
    check "the rest of it" is "$(od -An -v -tx1 -j32 "$files/store" | tr ' ' '\n' | grep -c '[1-9a-f]')" 7
    check "the SRAM is its end" is "$(tail -c 65536 "$files/store" | cksum)" "$(cksum <"$files/chip")"
    printf 'READ 1 0x02000000\nREAD 1 0x03000000\nREAD 1 0x05000000\nREAD 1 0x06000000\nREAD 1 0x07000000\n' >"$work/look"
    printf 'READ 1 0x0E000000\nREAD 1 0x0E00FFFF\n' >>"$work/look"
    rm "$files/chip"
    good "the store again" --store "$files/store" --store-out "$files/again" --sram-out "$files/chip" "$work/look"
    check "what was in it" is "$(cut -d' ' -f3 "$work/out" | tr '\n' ' ')" "17 34 51 68 85 102 119  "
    check "it is as it was" cmp -s "$files/store" "$files/again"
    check "its SRAM" is "$(tail -c 65536 "$files/store" | cksum)" "$(cksum <"$files/chip")"
    bad_stores
}

# NAME TEXT: the file of the test is no store
no_store() { bad "$1" 2 "$2" --store "$work/store" --store-out "$files/new" --board-out "$files/new-board" $here/bench.lst; }

bad_stores() {
    head -c 31 "$files/store" >"$work/store"
    no_store "too short for a header" "$work/store is no store: it is shorter than the 32 bytes of a store's header"
    { printf 'BTS\001' && tail -c +5 "$files/store"; } >"$work/store"
    no_store "another mark" "$work/store is no store: it doesn't begin with BTM"
    { printf 'BTM\002' && tail -c +5 "$files/store"; } >"$work/store"
    no_store "another version" "$work/store is a store of version 2, and this program knows version 1"
    head -c 462883 "$files/store" >"$work/store"
    no_store "a byte too few" "$work/store is no whole store: by its lengths it has 462884 bytes, and it has 462883"
    { cat "$files/store" && printf x; } >"$work/store"
    no_store "a byte too many" "by its lengths it has 462884 bytes, and it has 462885"
    hex_file "$work/store" 42 54 4d 01  ff ff ff ff  ff ff ff ff  ff ff ff ff  ff ff ff ff  ff ff ff ff  ff ff ff ff  ff ff ff ff
    no_store "lengths that wrap" "by its lengths it has 30064771097 bytes, and it has 32"
    zeros "$work/store" 1048577
    no_store "too long for a store" "$work/store is no store: it is longer than 1048576 bytes"
    hex_file "$work/store" 42 54 4d 01  00 00 00 00  00 00 00 00  00 00 00 00  01 04 00 00  00 00 00 00  00 00 00 00  00 00 00 00
    zeros "$work/bytes" 1025
    cat "$work/bytes" >>"$work/store"
    bad "a memory over its size" 1 "refused 4 (BTS_BAD_LENGTHS) at record 0" --store "$work/store" --store-out "$files/new" \
        $here/bench.lst
    check "which memory" says "$work/store: palette is longer than 1024 bytes"
    check "no other memory" is "$(wc -l <"$work/err" | tr -d ' ')" 2
}

# A listing in one, and cut in two behind each of its steps, with board and store handed on in the same files: answers, board and
# store are the same.
cut_checks() {
    rm -f "$files"/*
    for name in steps loop rows grounds; do
        lands $(shorts_in $here/$name.lst) "$name in one" --board-out "$files/board-whole" --store-out "$files/store-whole" \
            $here/$name.lst
        grep -v total "$work/out" | cut -d' ' -f2- >"$work/whole"
        grep -i '^[[:space:]]*[a-z]' $here/$name.lst >"$work/lines"
        check "$name: every line is a step" is "$(wc -l <"$work/lines")" "$(wc -l <"$work/whole")"
        cut=0
        while [ "$cut" -le "$(wc -l <"$work/lines")" ]; do
            cut_behind $cut
            cut=$((cut + 1))
        done
    done
}

# LINES: the listing of $work/lines, cut behind so many lines
cut_behind() {
    head -n "$1" "$work/lines" >"$work/part"
    lands $(shorts_in "$work/part") "$name behind $1: before" --board-out "$files/board" --store-out "$files/store" "$work/part"
    grep -v total "$work/out" >"$work/answers"
    tail -n +$(($1 + 1)) "$work/lines" >"$work/part"
    lands $(shorts_in "$work/part") "$name behind $1: after" --board "$files/board" --board-out "$files/board" \
        --store "$files/store" --store-out "$files/store" "$work/part"
    grep -v total "$work/out" >>"$work/answers"
    check "$name behind $1: the answers" is "$(cut -d' ' -f2- "$work/answers")" "$(cat "$work/whole")"
    check "$name behind $1: the board" cmp -s "$files/board" "$files/board-whole"
    check "$name behind $1: the store" cmp -s "$files/store" "$files/store-whole"
}

# 10,000 steps, each of which leans on those before it: through the prefetch, the flag, and a byte that is written and read.
long_listing() {
    awk 'BEGIN {
        print "WAITCNT 0x4317"
        for (i = 0; i < 2500; i++) {
            printf "THUMB 0x%08X 0x6820\nIDLE %d\nWRITE 1 0x03000000 %d\n", 134217984 + 2 * (i % 1000), i % 7, i % 251
            if (i < 2499) print "READ 1 0x03000000"
        }
    }'
}

# TABLE: its column sum is what its cycles add up to
sums_run_on() {
    sed 1d "$1" | awk '/^total/ { exit }
        { sum += substr($0, 38, 10); if (substr($0, 91, 14) + 0 != sum) bad = 1 }
        END { exit bad }'
}

piece_checks() {
    rm -f "$files"/*
    long_listing >"$work/lines"
    good "10,000 steps" --board-out "$files/board" --store-out "$files/store" "$work/lines"
    grep -v total "$work/out" >"$work/whole"
    total=$(awk '{ s += $2 } END { print s }' "$work/whole")
    check "their indices" awk '$1 != NR - 1 { bad = 1 } END { exit bad || NR != 10000 }' "$work/whole"
    check "one total" is "$(grep total "$work/out")" "total $total"
    good "their table" -v "$work/lines"
    check "its lines" is "$(grep -c '0x' "$work/out")" 10000
    check "its last index" grep -q '^ 9999  ' "$work/out"
    check "its sums run on" sums_run_on "$work/out"
    check "its total" grep -qx "total $total" "$work/out"
    zeros "$files/board-part" 80
    good "a store to begin with" --store-out "$files/store-part" /dev/null
    : >"$work/parts"
    for lines in 1,3000p 3001,6000p 6001,10000p; do
        sed -n "$lines" "$work/lines" >"$work/part"
        good "steps $lines" --board "$files/board-part" --board-out "$files/board-part" --store "$files/store-part" \
            --store-out "$files/store-part" "$work/part"
        grep -v total "$work/out" | cut -d' ' -f2- >>"$work/parts"
    done
    check "the answers, however it is cut" is "$(cut -d' ' -f2- "$work/whole" | cksum)" "$(cksum <"$work/parts")"
    check "the board" cmp -s "$files/board" "$files/board-part"
    check "the store" cmp -s "$files/store" "$files/store-part"
    rm "$files"/*
    bad "a sheet of so many" 2 "-o can't write 10000 steps: a sheet holds at most 4096" -o "$files/new" \
        --board-out "$files/new-board" "$work/lines"
    { cat "$work/lines" && echo JUMP; } >"$work/bad"
    bad "a bad line behind so many" 2 "$work/bad:10001: JUMP is no step" --board-out "$files/new" "$work/bad"
}

# A refusal in a later piece is told with the record's index among all.
late_refusal_checks() {
    lib=${BTS_LIB:-target/staticlib/libbts.a}
    check "it builds" ${CC:-cc} -std=c11 -Wall -Wextra -Wpedantic -Wconversion -Werror -Iinclude -Ihost $here/pieces.c \
        host/runs.c "$lib" -o "$work/pieces"
    both='0 10000 10000
7 9000 0'
    check "it runs" is "$("$work/pieces")" "$(printf '%s\n' "$both" "$both" "$both" "$both")"
}

every_pass="$every_pass store_checks piece_checks"
once="$once cut_checks late_refusal_checks"
