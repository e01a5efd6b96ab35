# Rows of data accesses (docs/RULES.md, "Sequential accesses"): what they cost, what keeps and what ends them, and that a board
# carries them on.

# The cycles of the lines in $work/out
cycles() { sed '$d' "$work/out" | cut -d' ' -f2 | tr '\n' ' '; }

# BOARD: its bytes 68 to 79: address, size and zeros
row_on() { bytes "$1" | cut -c 137-160; }

# LISTING: what its comments say: the cycles of each step, and those of D-25 and D-86 that it must show
expected_rows() { sed -n 's/^[A-Z].* # //p' "$1"; }

# The same of the table in $work/out
shown_rows() {
    awk '/^total/ { exit }
         NR > 1 { split(substr($0, 38), f); row = f[1]
                  for (i = 1; i <= NF; i++) if ($i == "D-25" || $i == "D-86") row = row " " $i
                  print row }' "$work/out"
}

row_price_checks() {
    rm -f "$files"/*
    lands $(shorts_in $here/rows.lst) "rows" -v -o "$files/sheet" $here/rows.lst
    shown_rows >"$work/shown"
    expected_rows $here/rows.lst >"$work/expected"
    check "rows: there are steps" [ "$(wc -l <"$work/expected")" -ge 90 ]
    check "rows: cycles and marks" diff "$work/shown" "$work/expected"
    lands $(shorts_in $here/rows.lst) "rows by sheet" --sheet "$files/sheet"
    check "rows by sheet: cycles" is "$(cycles)" "$(cut -d' ' -f1 "$work/expected" | tr '\n' ' ')"
    check "rows: their sum" is "$(tail -n 1 "$work/out")" "total $(awk '{ s += $1 } END { print s }' "$work/expected")"
}

# A row that the next sheet goes on with: its first access is sequential, as it would be in one sheet.
row_carry_checks() {
    rm -f "$files"/*
    printf 'READ 4 0x08000100\nREAD 4 0x08000106\n' >"$work/first"
    printf 'READ 2 0x08000108\nREAD 2 0x0800010A\n' >"$work/second"
    good "the first" --board-out "$files/board" "$work/first"
    check "its cycles" is "$(cycles)" "8 6 "
    check "its row" is "$(row_on "$files/board")" 040100080400000000000000
    good "the second by itself" -o "$files/sheet" --board-out "$files/alone" "$work/second"
    check "its cycles" is "$(cycles)" "5 3 "
    good "the second behind the first" --board "$files/board" --board-out "$files/after" --sheet "$files/sheet"
    check "its cycles" is "$(cycles)" "3 3 "
    check "its row" is "$(row_on "$files/after")" 0a0100080200000000000000
    check "the row is the same" is "$(row_on "$files/alone")" "$(row_on "$files/after")"
    good "its table" -v --board "$files/board" "$work/second"
    check "its marks" is "$(shown_marks)" "D-14 D-25 D-86; D-14 D-25"
    row_step_checks
}

# What each step leaves of a row, on the board: the row itself, none, or another.
row_step_checks() {
    row=$(row_on "$files/board")
    none=000000000000000000000000
    while IFS='|' read -r left step; do
        echo "$step" >"$work/step"
        run --board "$files/board" --board-out "$files/after" "$work/step"
        check "$step: status" is "$status" 0
        case $left in kept) left=$row ;; ended) left=$none ;; *) left=${left}00000000000000 ;; esac
        check "$step: the row" is "$(row_on "$files/after")" "$left"
    done <<'ROWS'
kept|IDLE 10
kept|IDLE 0
kept|PC 0x08000000
kept|LATCH 0x12345678
ended|THUMB 0x03000000 0x1C00
ended|THUMB 0x08000108 0x1C00
ended|ARM 0x10000000 0xE1A00000 pc
ended|FETCH 0x08000108
ended|FETCH 0x00000000
ended|RESTART 0x08000108
ended|RESTART 0x03000000
ended|WAITCNT 0x0000
ended|WAITCNT 0x4317
0801000801|READ 1 0x08000108
0901000801|READ 1 0x08000109
0801000802|READ 2 0x08000109
0c01000804|READ 4 0x0800010F
0801000804|WRITE 4 0x0800010B 1
0400000204|WRITE 4 0x02000007 1
0000000701|WRITE 1 0x07000000 1
0100000e01|READ 1 0x0E000001
ffffffff01|READ 1 0xFFFFFFFF
fcffffff04|WRITE 4 0xFFFFFFFF 1
0000000002|READ 2 0x00000001
ROWS
}

# host/README.md's example: behind each of its steps stands what it costs, and behind all of them the sum.
row_example_checks() {
    awk '/^## / { here = /Rows of data accesses/ } here && /^```/ { inside = !inside; next } here && inside' host/README.md \
        >"$work/steps"
    check "host/README.md has rows" [ "$(grep -c '^READ' "$work/steps")" -ge 4 ]
    good "host/README.md's rows" "$work/steps"
    check "their cycles" is "$(cycles)" "0 $(sed -n 's/^[A-Z].*# \([0-9]*\): .*/\1/p' "$work/steps" | tr '\n' ' ')"
    check "their sum" is "$(tail -n 1 "$work/out")" "total $(sed -n 's/^These are \([0-9]*\) cycles\. .*/\1/p' host/README.md)"
}

# What a row is, how long a board is and what to do with a shorter one is said wherever a person looks.
row_told_checks() {
    size=$(sed -n 's/^ *BTS_BOARD_SIZE = \([0-9]*\),$/\1/p' include/bts.h)
    run -h
    page_text >"$work/page"
    for text in "$work/out" "$work/page" host/README.md include/bts.h; do
        check "$text tells of rows" grep -qE 'goes on where the (READ or WRITE before it|previous one) ended' "$text"
        check "$text tells a board's length" grep -q "$size bytes" "$text"
    done
    for text in "$work/page" host/README.md include/bts.h; do
        check "$text tells what an older board lacks" grep -qi 'append eight zero bytes' "$text"
    done
}

every_pass="$every_pass row_price_checks row_carry_checks"
once="$once row_example_checks row_told_checks"
