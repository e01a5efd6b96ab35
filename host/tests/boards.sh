# Boards that are not sound: each is told by the rule that it breaks (host/board.c), and the rules are those of the run.

# Each line: the rule's text, then places with their bytes, in hexadecimal, on a board of zeros. Where a rule is about prefetch
# in use, 1=40 switches it on; all other rules are kept, or come later.
broken_boards() {
    cat <<'ROWS'
bytes 7 and 73 to 79 must be 0|7=01
bytes 7 and 73 to 79 must be 0|73=01
bytes 7 and 73 to 79 must be 0|79=80
force (byte 2) must be 0 or 1|2=02
filling (byte 5) must be 0 or 1|1=40 5=02
first beat (byte 6) must be 0 or 1|1=40 6=02
WAITCNT (bytes 0 and 1) must have bit 13 clear|1=20
previous size (byte 72) must be 0, 1, 2 or 4|72=03
previous size (byte 72) must be 0, 1, 2 or 4|71=08 72=08
previous size (byte 72) must be 0, 1, 2 or 4|72=FF
with previous size 0, previous address (bytes 68 to 71) must be 0|68=01
with previous size 0, previous address (bytes 68 to 71) must be 0|71=08
previous address (bytes 68 to 71) must be a multiple of previous size|68=01 71=08 72=02
previous address (bytes 68 to 71) must be a multiple of previous size|68=02 71=08 72=04
previous address (bytes 68 to 71) must be a multiple of previous size|68=FF 69=FF 70=FF 71=FF 72=02
head (byte 3) must be at most 7|1=40 3=08
count (byte 4) must be at most 8|1=40 4=09
wait left (bytes 8 to 11) must be at most 9|1=40 5=01 8=0A 15=08
next address (bytes 12 to 15) must be even|1=40 12=01
filling must be 1 exactly when wait left is at least 1|1=40 5=01 15=08
filling must be 1 exactly when wait left is at least 1|1=40 8=01 15=08
with filling 1, count must be at most 7|1=40 4=08 5=01 8=01 12=10 15=08 19=08
with filling 1, next address must lie in a ROM window|1=40 5=01 8=01 15=0E
with count 0, head address (bytes 16 to 19) must be 0|1=40 19=08
with count over 0, head address must lie in a ROM window|1=40 4=01 15=08 16=FE 17=FF 18=FF 19=07
with count over 0, next address - 2 must lie in a ROM window|1=40 4=02 12=02 15=0E 16=FE 17=FF 18=FF 19=0D
with count over 0, head address + 2 * count must be next address|1=40 4=01 12=04 15=08 19=08
with prefetch off (WAITCNT bit 14 clear), bytes 3 to 6 and 8 to 19 must be 0|3=01
with prefetch off (WAITCNT bit 14 clear), bytes 3 to 6 and 8 to 19 must be 0|15=02
ROWS
}

# FILE PLACE=BYTE..: a board of zeros but for these
board_with() {
    board_file=$1
    shift
    zeros "$board_file" 80
    for edit in "$@"; do
        printf "\\$(printf %03o "0x${edit#*=}")" | dd of="$board_file" bs=1 seek="${edit%=*}" conv=notrunc 2>"$work/err"
    done
}

# The rules in host/board.c: a row of its table each.
rules_there() { sed -n 's/.*"\(.* must .*\)"}.*/\1/p' host/board.c | sort; }

rule_checks() {
    broken_boards >"$work/broken"
    check "each rule has its board" is "$(cut -d '|' -f 1 "$work/broken" | sort -u)" "$(rules_there)"
    while IFS='|' read -r rule edits; do
        board_with "$work/board" $edits
        bad "$edits" 1 "$rule" --board "$work/board" $here/bench.lst
    done <"$work/broken"
    for length in 0 8 71 73 79 81; do
        zeros "$work/board" $length
        bad "$length bytes" 1 "a board is 80 bytes long" --board "$work/board" $here/bench.lst
        check "$length bytes: no more than that" is "$(tail -n 1 "$work/err")" "btsrun: $work/board: a board is 80 bytes long"
    done
    for edits in "1=40 4=01 12=02 15=08 19=08" "71=08 72=01" "68=02 71=08 72=02" "68=04 72=04" "68=FF 69=FF 70=FF 71=FF 72=01"; do
        board_with "$work/board" $edits
        good "a sound board: $edits" --board "$work/board" $here/bench.lst
    done
}

# A board that was saved when it had 72 bytes: what is said of it, and that host/README.md's command mends it.
old_board_checks() {
    rm -f "$files"/*
    printf 'WAITCNT 0x4000\nRESTART 0x08000100\nIDLE 27\nPC 0x08000000\nLATCH 7\nWRITE 4 0x06000000 1\n' >"$work/before"
    printf 'THUMB 0x08000100 0x1C00\nREAD 4 0x08000104\nREAD 4 0\n' >"$work/after"
    good "a board to begin with" --board-out "$work/new-board" "$work/before"
    { head -c 68 "$work/new-board" && head -c 4 /dev/zero; } >"$work/old-board"
    bad "72 bytes" 1 "refused 5 (BTS_UNSOUND_BOARD) at record 0" --board "$work/old-board" --board-out "$files/new" "$work/after"
    grep '^btsrun: .*\(BTS_UNSOUND_BOARD\|older boards\)' host/README.md | sed "s|FILE|$work/old-board|" >"$work/told"
    check "72 bytes: it is told as in host/README.md" diff "$work/err" "$work/told"
    check "72 bytes: what to do" says "this one has the 72 of older boards: append eight zero bytes"
    mend=$(grep -o 'head -c [0-9]* /dev/zero >>FILE' host/README.md)
    check "host/README.md has a command" [ -n "$mend" ]
    eval "$(echo "$mend" | sed "s|FILE|$work/old-board|")"
    check "80 bytes" is "$(wc -c <"$work/old-board" | tr -d ' ')" 80
    good "it goes on" --board "$work/old-board" --board-out "$files/old" "$work/after"
    cp "$work/out" "$work/lines"
    good "as the new one does" --board "$work/new-board" --board-out "$files/new" "$work/after"
    check "the lines" cmp -s "$work/out" "$work/lines"
    check "the board" cmp -s "$files/old" "$files/new"
}

# Boards from a fixed seed: the rules and the run agree on each, and each rule is met.
unsound_checks() {
    check "the sweep is built" ${CC:-cc} -std=c11 -Wall -Wextra -Wpedantic -Wconversion -Werror -O2 -Iinclude -Ihost \
        $here/boards.c host/board.c "$lib" -o "$work/boards"
    "$work/boards" >"$work/out"
    check "no difference" is $? 0
    check "each rule is met" is "$(sed -n 's/^ *[0-9]* \(.* must .*\)/\1/p' "$work/out" | sort)" "$(rules_there)"
    check "and sound boards" grep -q '^ *[0-9][0-9][0-9][0-9]* sound' "$work/out"
    check "and boards of other lengths, 72 among them" is "$(sed -n 's/^ *[0-9]* \(a board is .*\)/\1/p' "$work/out" | sort)" \
        "$(sed -n 's/.*"\(a board is .*\)";/\1/p' host/board.c | sort)"
}

once="$once rule_checks old_board_checks unsound_checks"
