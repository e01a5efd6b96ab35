# Images of ROM, BIOS and SRAM, and a board that is handed on.

image_checks() {
    hex_file "$work/rom" 00 01 02 03 04 05 06 07
    hex_file "$work/bios" 11 22 33 44
    printf 'READ 4 0x08000004\nREAD 4 0x0C000000\nREAD 2 0x08000008\nREAD 4 0\nFETCH 0\n' >"$work/images"
    good "a ROM and a BIOS" --rom "$work/rom" --bios "$work/bios" "$work/images"
    check "their bytes" is "$(cut -d' ' -f3 "$work/out" | tr '\n' ' ')" "117835012 50462976 0 1144201745 0  "
    zeros "$work/sram" 32767
    printf 'A' | cat - "$work/sram" >"$work/chip"
    printf 'READ 1 0x0E008000\nWRITE 1 0x0E008000 7\nWRITE 2 0x0E000001 0x1234\n' >"$work/backup"
    lands 2 2 "an SRAM of 32,768" --sram "$work/chip" --sram-out "$files/chip" "$work/backup"
    check "a load wraps" is "$(head -n 1 "$work/out")" "0 5 65 0 0 0 sram"
    printf 'A\022' >"$work/expected"
    head -c 32766 "$work/sram" >>"$work/expected"
    check "the SRAM afterwards" cmp -s "$files/chip" "$work/expected"
    lands 1 2 "no SRAM named" --sram-out "$files/chip" "$work/backup"
    check "65,536 bytes" is "$(wc -c <"$files/chip" | tr -d ' ')" 65536
    lands 2 2 "an empty SRAM" --sram /dev/null --sram-out "$files/chip" "$work/backup"
    check "no bytes" empty "$files/chip"
    for image in "bios 16384" "rom 33554432" "sram 65536"; do
        zeros "$work/image" "${image#* }"
        good "--${image% *} as long as it may be" "--${image% *}" "$work/image" $here/bench.lst
        printf x >>"$work/image"
        bad "--${image% *} too long" 1 "refused 4 (BTS_BAD_LENGTHS) at record 0" "--${image% *}" "$work/image" $here/bench.lst
        check "which image" says "$work/image is longer than ${image#* } bytes"
    done
}

# A listing in one, and in two parts with board and SRAM handed on in the same files: the same answers.
board_checks() {
    grep -v '^;' $here/steps.lst | sed 1,2d >"$work/whole"
    lands 1 2 "in one" --board-out "$files/board-whole" --sram-out "$files/sram-whole" "$work/whole"
    grep -v total "$work/out" | cut -d' ' -f2- >"$work/answers"
    zeros "$files/board" 80
    zeros "$files/sram" 65536
    : >"$work/parts"
    for lines in 1,15p '16,$p'; do
        sed -n "$lines" "$work/whole" >"$work/part"
        lands $(shorts_in "$work/part") "lines $lines" --board "$files/board" --board-out "$files/board" \
            --sram "$files/sram" --sram-out "$files/sram" "$work/part"
        grep -v total "$work/out" | cut -d' ' -f2- >>"$work/parts"
    done
    check "the answers" cmp -s "$work/parts" "$work/answers"
    check "the board" cmp -s "$files/board" "$files/board-whole"
    check "the SRAM" cmp -s "$files/sram" "$files/sram-whole"
    check "a board's length" is "$(wc -c <"$files/board" | tr -d ' ')" 80
    good "a board out" --board-out "$files/board" $here/bench.lst
    # WAITCNT 0x4000; head 1, count 6, filling; one cycle left of the halfword for 0x0800010E; head address 0x08000102
    check "its bytes" is "$(bytes "$files/board" | cut -c1-40)" \
        "0040000106010000010000000e01000802010008"
    # the halfword at 0x02000000 is the previous access
    check "its end" is "$(row_on "$files/board")" 000000020200000000000000
}

every_pass="$every_pass image_checks board_checks"
