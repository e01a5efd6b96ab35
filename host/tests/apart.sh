# Files that must not meet: what is read is never written over, whatever name is used for it; and how a file is replaced.

# A folder with a listing under four names, a link to the folder, and images.
make_names() {
    rm -rf "$files" "$work/way"
    mkdir "$files"
    printf 'IDLE 1\n' >"$files/a.lst"
    ln "$files/a.lst" "$files/hard.lst"
    ln -s a.lst "$files/soft.lst"
    ln -s files "$work/way"
    printf 'image' >"$files/image"
    zeros "$files/board" 80
    cp crates/bench/stdin "$files/sheet"
}

# NAME OUTPUT ARGUMENTS: the output would be written over what is read
lost() {
    what=$1
    output=$2
    shift 2
    bad "$what" 2 "$output would be written over, though it is read as something else" "$@"
}

input_checks() {
    make_names
    lost "the listing" "$files/a.lst" -o "$files/a.lst" "$files/a.lst"
    lost "by another path" "$files/./a.lst" -o "$files/./a.lst" "$files/a.lst"
    lost "by a linked folder" "$work/way/a.lst" -o "$work/way/a.lst" "$files/a.lst"
    lost "a link's target" "$files/a.lst" -o "$files/a.lst" "$files/soft.lst"
    lost "a second name" "$files/hard.lst" -o "$files/hard.lst" "$files/a.lst"
    lost "standard input" "$files/a.lst" -o "$files/a.lst" <"$files/a.lst"
    lost "standard input by -" "$files/a.lst" --store-out "$files/a.lst" - <"$files/a.lst"
    lost "a sheet" "$files/./sheet" -o "$files/./sheet" --sheet "$files/sheet"
    lost "a sheet from standard input" "$files/sheet" --board-out "$files/sheet" --sheet - <"$files/sheet"
    lost "the ROM" "$files/./image" --sram-out "$files/./image" --rom "$files/image" $here/bench.lst
    lost "the BIOS" "$files/./image" --store-out "$files/./image" --bios "$files/image" $here/bench.lst
    lost "another's board" "$files/./board" --sram-out "$files/./board" --board "$files/board" $here/bench.lst
    lost "another's SRAM" "$files/./image" --board-out "$files/./image" --sram "$files/image" $here/bench.lst
    lost "its own, which is another's too" "$files/board" --board-out "$files/board" --board "$files/board" \
        --rom "$files/./board" $here/bench.lst
    cp "$files/a.lst" "$work/expected"
    $program "$files/a.lst" >>"$files/a.lst" 2>"$work/err"
    check "standard output: status" is $? 2
    check "standard output: stderr" says "standard output would be written over, though it is read as something else"
    check "standard output: nothing written" cmp -s "$files/a.lst" "$work/expected"
}

# Two outputs to one file, and outputs that are others' temporaries.
pair_checks() {
    make_names
    bad "the same name" 2 "$files/new and $files/new are one file" -o "$files/new" --board-out "$files/new" $here/bench.lst
    bad "another path" 2 "are one file" --sram-out "$files/./new" --store-out "$files/new" $here/bench.lst
    bad "a linked folder" 2 "are one file" --board-out "$work/way/new" --store-out "$files/new" $here/bench.lst
    bad "a second name" 2 "are one file" -o "$files/a.lst" --store-out "$files/hard.lst" $here/bench.lst
    bad "a temporary's name" 2 "names that end in .btsrun-tmp are for temporary files" -o "$files/new.btsrun-tmp" \
        --board-out "$files/new" $here/bench.lst
    $program -o "$files/image" $here/bench.lst 1<>"$files/image" 2>"$work/err"
    check "standard output: status" is $? 2
    check "standard output: stderr" says "can't write $files/image: it is where standard output goes"
    check "standard output: nothing written" is "$(cat "$files/image")" image
    mkdir "$files/folder"
    good "one name in two folders" -o "$files/new" --board-out "$files/folder/new" $here/bench.lst
    check "one is the sheet" cmp -s "$files/new" crates/bench/stdin
    check "the other is the board" is "$(wc -c <"$files/folder/new" | tr -d ' ')" 80
}

# An output may take the place of its own input, by any name; and a temporary that was left behind is told with what to do.
output_checks() {
    make_names
    ln "$files/board" "$files/hard"
    ln -s image "$files/soft"
    good "its own input" --board "$files/hard" --board-out "$files/./board" --sram "$files/soft" --sram-out "$files/image" \
        --store-out "$files/store" $here/bench.lst
    check "the board" is "$(bytes "$files/board" | cut -c1-4)" 0040
    good "its own store" --store "$files/store" --store-out "$files/./store" $here/bench.lst
    printf theirs >"$files/new.btsrun-tmp"
    bad "another's temporary file" 2 "$files/new.btsrun-tmp is there already: another btsrun is writing $files/new, or one was \
stopped; remove it if none is running" -o "$files/new" $here/bench.lst
}

mode() { ls -ld "$1" | cut -c1-10; }

mode_checks() {
    make_names
    (umask 027 && $program -o "$files/new" $here/bench.lst >"$work/out" 2>"$work/err")
    check "a new file's mode" is "$(mode "$files/new")" -rw-r-----
    (umask 0 && $program --board-out "$files/open" $here/bench.lst >"$work/out" 2>"$work/err")
    check "without a mask" is "$(mode "$files/open")" -rw-rw-rw-
    chmod 600 "$files/image"
    chmod 772 "$files/board"
    good "old files" -o "$files/image" --board-out "$files/board" $here/bench.lst
    check "a private file's mode" is "$(mode "$files/image")" -rw-------
    check "an open file's mode" is "$(mode "$files/board")" -rwxrwx-w-
}

# A file that is locked against writing stays, though its folder would let it be replaced.
locked_file_checks() {
    make_names
    chmod 444 "$files/image"
    bad "a locked file" 2 "can't write $files/image: it is there and is write-protected" -o "$files/new" \
        --board-out "$files/image" $here/bench.lst
    check "its mode" is "$(mode "$files/image")" -r--r--r--
    bad "its own input, locked" 2 "can't write $files/image: it is there and is write-protected" --sram "$files/image" \
        --sram-out "$files/image" $here/bench.lst
    [ "$(id -u)" != 0 ] || { leave_out 4 "a file that only others may write" "root may write every file"; return; }
    chmod 066 "$files/image"
    bad "a file for others" 2 "can't write $files/image: " -o "$files/image" $here/bench.lst
}

every_pass="$every_pass input_checks pair_checks output_checks mode_checks locked_file_checks"
