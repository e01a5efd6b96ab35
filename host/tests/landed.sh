# Stores that land short: the hits of a WRITE, the line on standard error that counts them, and the reasons that -v gives.

# LISTING: the hits of its steps, by the comments behind them
expected_hits() { sed -n 's/^[A-Z].* # \([0-9]*\).*/\1/p' "$1"; }

# LISTING: what standard error has of it with -v, by the same comments
expected_names() {
    awk '/^[A-Z]/ { step = $0; sub(/ *# .*/, "", step); stores += $1 ~ /WRITE$/; n++ }
         /^[A-Z].* # .* landed: / { says = $0; sub(/.* # /, "", says); lines[++shorts] = "  step " n - 1 ": " step ": " says }
         END { print "btsrun: " shorts " of " stores " stores landed short:"
               for (i = 1; i <= shorts; i++) print lines[i] }' "$1"
}

# LISTING OPTIONS..: hits and reasons are those of its comments, from the listing and from its sheet
commented_hits() {
    listing=$1
    shift
    run -v "$@" -o "$files/sheet" "$listing"
    cp "$work/out" "$work/table"
    check "$listing, -v: status" is "$status" 0
    expected_names "$listing" >"$work/expected"
    check "$listing: the stores by name" diff "$work/err" "$work/expected"
    check "$listing: nothing of them in the table" is "$(grep -c landed "$work/out")" 0
    check "$listing: hits in the table" is "$(sed '1d; /^total/,$d' "$work/out" | cut -c 60-64 | tr -d ' ')" \
        "$(expected_hits "$listing")"
    run -v "$@" --sheet "$files/sheet"
    check "$listing by sheet: the stores by name" diff "$work/err" "$work/expected"
    check "$listing by sheet: the table" cmp -s "$work/out" "$work/table"
    run "$@" "$listing"
    check "$listing: status" is "$status" 0
    check "$listing: hits in the lines" is "$(sed '$d' "$work/out" | cut -d' ' -f4)" "$(expected_hits "$listing")"
    check "$listing: six numbers a line" is "$(grep -cvE '^[0-9]+( [0-9]+){5}( [a-z]+)*$' "$work/out")" 1
    check "$listing: the count" is "$(cat "$work/err")" "$(sed -n '1s/:$/ (-v names them)/p' "$work/expected")"
}

landed_checks() {
    rm -f "$files"/*
    commented_hits $here/landed.lst
    sed -n 's/.* landed: //p' "$work/expected" >"$work/reasons"
    zero_store "$work/lent-store" 5,0,2050,7,65539,3,1
    commented_hits $here/landed-short.lst --store "$work/lent-store"
    sed -n 's/.* landed: //p' "$work/expected" >>"$work/reasons"
    check "each reason of host/README.md, and no other" is "$(reasons_met)" "$(reasons_told)"
}

# The reasons in $work/reasons, and those of host/README.md's table; a memory's name and length are the same as any other's.
reasons_met() {
    sed 's/end of .*, which is .*/end of NAME, which is N bytes long/; s/there is no .*/there is no NAME/' "$work/reasons" |
        sort -u
}
reasons_told() {
    awk '/^## / { here = /land short/ } here && /^\| `/' host/README.md | cut -d '|' -f 2 | grep -o '`[^`]*`' | tr -d '`' |
        sort -u
}

# Nothing is lent at all: each memory is named.
absent_checks() {
    zero_store "$work/lent-store" 0,0,0,0,0,0,0
    printf 'WRITE 2 0x0%s000000 7\n' 2 3 4 5 6 7 E >"$work/steps"
    run -v --store "$work/lent-store" "$work/steps"
    check "no memory: the reasons" is "$(sed 's/.* landed: //' "$work/err" | tr '\n' ',')" "btsrun: 7 of 7 stores landed short:,\
there is no EWRAM,there is no IWRAM,there is no I/O,there is no palette,there is no VRAM,there is no OAM,there is no SRAM,"
}

# STDERR STEPS..: what standard error has, without -v
counted() {
    text=$1
    shift
    printf '%s\n' "$@" >"$work/steps"
    run "$work/steps"
    check "$*: status" is "$status" 0
    check "$*: stderr" is "$(cat "$work/err")" "$text"
}

count_checks() {
    counted "" "IDLE 1"
    counted "" "WRITE 1 0x05000000 1" "WRITE 4 0x02000000 1"
    counted "btsrun: 1 of 1 store landed short (-v names it)" "WRITE 1 0x07000000 1" "READ 1 0x07000000"
    counted "btsrun: 1 of 2 stores landed short (-v names it)" "WRITE 2 0x07000000 1" "WRITE 1 0x07000000 1"
    counted "btsrun: 2 of 2 stores landed short (-v names them)" "WRITE 2 0x0E000000 1" "WRITE 4 0x0E000000 1"
    printf 'WRITE 4 0x02000000 1\n' >"$work/steps"
    good "whole stores in the table" -v "$work/steps"
    # a sheet may have bits above the size, which the run ignores
    hex_file "$work/sheet" 42 54 53 01 00 00 01 00  02 01 00 00 00 00 00 07 78 56 34 12
    run -v --sheet "$work/sheet"
    check "ignored bits are shown" is "$(cat "$work/err")" "btsrun: 1 of 1 store landed short:
  step 0: WRITE 1 0x07000000 0x12345678: 0 of 1 byte landed: OAM takes no byte stores"
}

# host/README.md's example, by steps that bring it about.
example_checks() {
    printf 'WRITE 4 0x02000000 %s\n' 1 2 3 >"$work/steps"
    printf '%s\n' 'WRITE 4 0x0E000010 0x12345678' 'WRITE 1 0x0E000010 0x12' 'IDLE 1' 'IDLE 1' 'WRITE 1 0x0E000011 0x34' \
        'WRITE 1 0x07000000 0x5A' >>"$work/steps"
    for option in '' -v; do
        run $option "$work/steps"
        first=$(head -n 1 "$work/err")
        check "host/README.md has: $first" grep -qxF -e "$first" host/README.md
        check "and what follows $option" is "$(grep -xF -A "$(($(wc -l <"$work/err") - 1))" -e "$first" host/README.md)" \
            "$(cat "$work/err")"
    done
}

# What the hits of a WRITE are is said wherever the columns are.
told_checks() {
    run -h
    for text in "$work/out" host/README.md host/btsrun.1 include/bts.h; do
        check "$text tells the hits of a WRITE" grep -q 'bytes that landed in a memory' "$text"
    done
    for text in "$work/out" host/README.md host/btsrun.1; do
        check "$text tells of standard error" grep -q 'a line on standard error' "$text"
    done
}

# The indices run on through the pieces of a long listing: a byte to OAM at both sides of a piece's end, and as the last step.
landed_piece_checks() {
    awk 'BEGIN {
        for (i = 0; i < 9000; i++) {
            byte = i == 0 || i == 4095 || i == 4096 || i == 8999
            print byte ? "WRITE 1 0x07000000 0x5A" : i % 2 ? "IDLE 1" : "WRITE 2 0x05000000 1"
        }
    }' >"$work/steps"
    stores=$(grep -c '^WRITE' "$work/steps")
    lands 4 "$stores" "9,000 steps" "$work/steps"
    lands 4 "$stores" "9,000 steps in a table" -v "$work/steps"
    check "their indices" is "$(sed -n 's/^  step \([0-9]*\): WRITE 1 0x07000000 0x5A: .*/\1/p' "$work/err" | tr '\n' ' ')" \
        "0 4095 4096 8999 "
}

# Where both go to one place, the line stands behind all that is printed; files are written as ever.
order_checks() {
    rm -f "$files"/*
    for option in '' -v; do
        run $option --sram-out "$files/chip" $here/landed.lst
        cat "$work/out" "$work/err" >"$work/expected"
        check "it follows a total $option" grep -q '^total ' "$work/out"
        $program $option --sram-out "$files/chip" $here/landed.lst >"$work/both" 2>&1
        check "the order $option" cmp -s "$work/both" "$work/expected"
        check "the file $option" is "$(wc -c <"$files/chip" | tr -d ' ')" 65536
    done
}

# NAME STATUS TEXT ARGUMENTS: as bad, and no word of stores
silent() {
    bad "$@"
    check "$1: nothing of stores" is "$(grep -c landed "$work/err")" 0
}

# A run that is refused has stored nothing, and one that fails has another thing to say.
silence_checks() {
    rm -f "$files"/*
    hex_file "$work/sheet" 42 54 53 01 00 00 02 00  02 01 00 00 00 00 00 07 5A 00 00 00  07 03 00 00 00 01 00 08 00 1C 00 00
    silent "a faulty record" 1 "refused 7 (BTS_FAULTY_RECORD) at record 1" -v --sheet "$work/sheet"
    zeros "$work/board" 71
    silent "a board" 1 "refused 5 (BTS_UNSOUND_BOARD)" -v --board "$work/board" $here/landed.lst
    silent "a file" 2 "can't write $work/absent/new" -v --board-out "$work/absent/new" $here/landed.lst
    { cat $here/landed.lst && echo JUMP; } >"$work/bad"
    silent "a bad line" 2 "JUMP is no step" -v "$work/bad"
    [ -c /dev/full ] || { leave_out 2 "stores and a full standard output" "there is no /dev/full"; return; }
    $program $here/landed.lst >/dev/full 2>"$work/err"
    check "a full standard output" is $? 2
    check "nothing of stores" is "$(grep -c landed "$work/err")" 0
}

every_pass="$every_pass landed_checks absent_checks count_checks silence_checks"
once="$once example_checks told_checks landed_piece_checks order_checks"
