# The command line, and files that can't be read or written.

option_checks() {
    rm -f "$files"/*
    bad "an unknown option" 2 "--fast is no option" --fast $here/bench.lst
    bad "no file" 2 "-o names no file" $here/bench.lst -o
    bad "an empty name" 2 "--rom names no file" --rom '' $here/bench.lst
    bad "twice" 2 "--rom stands twice" --rom a --rom b
    bad "two listings" 2 "b is a second listing" a b
    bad "a listing and a sheet" 2 "a is a listing beside --sheet" --sheet crates/bench/stdin a
    bad "- for an output" 2 "-o takes a file's name, not -" -o - $here/bench.lst
    bad "a store and an SRAM" 2 "--store can't stand beside --sram" --store a --sram b
    bad "a store and other sizes" 2 "--store can't stand beside --bench or --full" --bench --store a
    bad "a store and sizes that are so anyway" 2 "--store can't stand beside --bench or --full" --full --store a
    bad "two sizes" 2 "--bench can't stand beside --full" --bench --full $here/bench.lst
}

file_checks() {
    rm -f "$files"/*
    for option in --rom --bios --sram --board --store --sheet; do
        bad "$option absent" 2 "can't open $work/absent" -o "$files/new" $option "$work/absent"  </dev/null
    done
    bad "a listing absent" 2 "can't open $work/absent" -o "$files/new" "$work/absent"
    bad "a folder as a listing" 2 "can't read $here: " -o "$files/new" $here
    bad "a folder as a ROM" 2 "can't read $here: " -o "$files/new" --rom $here $here/bench.lst
    printf old >"$files/old"
    bad "a folder that is absent" 2 "can't write $work/absent/new" -o "$files/old" --board-out "$work/absent/new" \
        --sram-out "$files/new" $here/bench.lst
    bad "a folder as an output" 2 "can't write $here: it is there and is no regular file" -o "$files/old" --board-out $here \
        $here/bench.lst
    # a pipe stands for every device: a program that got this wrong would replace it, so it must be one of the test's own
    mkfifo "$work/pipe"
    bad "a pipe as an output" 2 "can't write $work/pipe: it is there and is no regular file" -o "$work/pipe" $here/bench.lst
    rm "$work/pipe"
    ln -s old "$files/link"
    bad "a link as an output" 2 "can't write $files/link: " -o "$files/link" $here/bench.lst
    rm "$files/link"
    locked_checks
    good "over an old file" -o "$files/old" $here/bench.lst
    check "it is new" cmp -s "$files/old" crates/bench/stdin
    check "nothing else is there" is "$(ls -A "$files")" old
    [ -c /dev/full ] || { leave_out 3 "a full standard output" "there is no /dev/full"; return; }
    $program -o "$files/sheet" $here/bench.lst >/dev/full 2>"$work/err"
    check "a full standard output" is $? 2
    check "what is written" says "(the files that were asked for are written)"
    check "the sheet" cmp -s "$files/sheet" crates/bench/stdin
}

# A folder that can't be written. To root no folder is that.
locked_checks() {
    [ "$(id -u)" != 0 ] || { leave_out 5 "a locked folder" "to root no folder is locked"; return; }
    mkdir -p "$work/locked"
    chmod 555 "$work/locked"
    bad "a locked folder" 2 "can't write $work/locked/new" -o "$files/old" --board-out "$work/locked/new" $here/bench.lst
    check "nothing in it" is "$(ls -A "$work/locked")" ""
}

# Too little memory for a ROM, and too small a limit on files: only for the program by itself, since valgrind and the sanitizers
# need more.
limit_checks() {
    rm -f "$files"/*
    zeros "$work/image" 33554432
    (ulimit -v 30000 && $program -o "$files/new" --rom "$work/image" $here/bench.lst >"$work/out" 2>"$work/err")
    check "out of memory" is $? 2
    check "it is said" says "can't read $work/image: "
    check "nothing on stdout" empty "$work/out"
    check "nothing written" absent "$files/new"
    printf old >"$files/old"
    before=$(snapshot)
    (ulimit -f 1 && $program -o "$files/old" --sram-out "$files/new" $here/bench.lst >"$work/out" 2>"$work/err")
    check "a file over the limit" is $? 2
    check "it is said" says "can't write $files/new.btsrun-tmp: "
    check "nothing on stdout" empty "$work/out"
    check "nothing written" is "$(snapshot)" "$before"
}

every_pass="$every_pass option_checks file_checks"
once="$once limit_checks"
