# What people expect of a command: help, version, values behind =, an editor's mark, names of all kinds; and the memories' sizes.

# OPTION..: the lengths of the memories, by the store that is written
sizes() {
    good "sizes: $*" "$@" --store-out "$files/sizes" /dev/null
    lengths "$files/sizes"
}

size_checks() {
    rm -f "$files"/*
    physical="262144 32768 2052 1024 98304 1024 65536"
    bench="16384 16384 2052 1024 16384 1024 8192"
    check "without an option" is "$(sizes)" "$physical"
    check "--full" is "$(sizes --full)" "$physical"
    check "--bench" is "$(sizes --bench)" "$bench"
    good "help" -h
    sizes_told='$1 ~ /^(EWRAM|IWRAM|I\/O|palette|VRAM|OAM|SRAM)$/ { printf "%s ", $n }'
    check "the sizes are told" is "$(awk -v n=2 "$sizes_told" "$work/out")" "$physical "
    check "those of --bench too" is "$(awk -v n=3 "$sizes_told" "$work/out")" "$bench "
    printf 'WRITE 4 0x03007F00 0x12345678\nREAD 4 0x03007F00\n' >"$work/stack"
    good "a stack" "$work/stack"
    check "it is there" is "$(sed -n 2p "$work/out")" "1 1 305419896 0 0 0 fast"
    lands 1 1 "a stack over the memories of bench" --bench "$work/stack"
    check "it is not there, at the same price" is "$(sed -n 2p "$work/out")" "1 1 0 0 0 0 fast"
}

help_checks() {
    good "-h" -h
    cp "$work/out" "$work/help"
    good "--help" --help
    check "it is the same" cmp -s "$work/out" "$work/help"
    for option in '--rom FILE' '--bios FILE' '--sram FILE' '--store FILE' '--board FILE' --bench --full '--sheet FILE' \
        '--rate CENTS' --preview -v '-o FILE' '--board-out FILE' '--sram-out FILE' '--store-out FILE' '-h, --help' --version; do
        check "$option is told" grep -q -e "^  $option   *[a-zA-Z]" "$work/help"
    done
    column_checks
    check "the steps" grep -q '^  THUMB  *ADDRESS OPCODE \[pc\]' "$work/help"
}

column_checks() {
    for column in index cycles value hits count force grounds; do
        check "the column $column" grep -q "^  $column   *[a-zA-Z0-9]" "$work/help"
        check "the column $column in host/README.md" grep -q "^| \`$column\` | " host/README.md
    done
}

# What a contract can cite is what is there.
toolchain_checks() {
    good "the version" --version
    cp "$work/out" "$work/version"
    version=$(sed -n 's/^#define BTS_LIBRARY_VERSION "\(.*\)"$/\1/p' include/bts.h)
    check "the library's" grep -qF "libbts $version (" "$work/version"
    commit=$(sed -n 's/.*(repository \([^,]*, commit [0-9a-f]*\),.*/\1/p' NOTICE)
    check "the Rust's commit, as in NOTICE: $commit" grep -qxF "ported from: $commit" "$work/version"
    command -v rt >"$work/out" || { leave_out 1 "the toolchain's identity" "rt is not installed"; return; }
    check "the toolchain's identity" grep -qxF "toolchain: $(rt version)" "$work/version"
}

value_checks() {
    rm -f "$files"/*
    zeros "$work/board" 80
    printf 'abcd' >"$work/image"
    printf 'READ 1 0x08000000\nREAD 1 0\nREAD 1 0x0E000003\n' >"$work/listing"
    good "values behind =" --rom="$work/image" --bios="$work/image" --sram="$work/image" --board="$work/board" \
        --board-out="$files/board" --sram-out="$files/a=b" --store-out="$files/store" "$work/listing"
    check "the images" is "$(cut -d' ' -f3 "$work/out" | tr '\n' ' ')" "97 97 100  "
    check "the outputs" is "$(cd "$files" && echo *)" "a=b board store"
    good "a store behind =" --store="$files/store" "$work/listing"
    check "its SRAM" is "$(cut -d' ' -f3 "$work/out" | tail -n 2 | head -n 1)" 100
    $program --sheet=- <crates/bench/stdin >"$work/out" 2>"$work/err"
    check "a sheet behind =" cmp -s "$work/out" crates/bench/stdout
    rm "$files"/*
    bad "an empty value" 2 "--rom names no file" --rom= "$work/listing"
    bad "- behind =" 2 "--board takes a file's name, not -" --board=- "$work/listing"
    bad "a flag's value" 2 "--bench takes no value" --bench=yes "$work/listing"
    bad "an unknown option's" 2 "--roms=$work/image is no option" "--roms=$work/image" "$work/listing"
    bad "a short option's" 2 "-o=$files/new is no option" "-o=$files/new" "$work/listing"
}

# Some editors put EF BB BF in front of a text.
mark_checks() {
    { printf '\357\273\277' && cat $here/bench.lst; } >"$work/marked"
    good "a mark" "$work/marked"
    check "the lines behind it" cmp -s "$work/out" crates/bench/stdout
    printf '\357\273\277' >"$work/marked"
    good "a mark alone" "$work/marked"
    check "its total" is "$(cat "$work/out")" "total 0"
    printf '\357\273\277\357\273\277IDLE 1\n' >"$work/marked"
    bad "two marks" 2 "$work/marked:1: \\xEF\\xBB\\xBFIDLE is no step" "$work/marked"
    printf 'IDLE 1\n\357\273\277IDLE 1\n' >"$work/marked"
    bad "a mark elsewhere" 2 "$work/marked:2: \\xEF\\xBB\\xBFIDLE is no step" "$work/marked"
}

# OCTAL SHOWN: a file's name in printf's notation, and how messages show it
name_shown() {
    name=$(printf "$1")
    bad "a file: $2" 2 "can't open $2: " "$name"
}

# A message gives a terminal no orders: what it would obey is shown as \xNN. Text in UTF-8 stays as it is.
name_checks() {
    name_shown 'a\033[2Jb' 'a\x1B[2Jb'
    name_shown 'a\nb\tc\177' 'a\x0Ab\x09c\x7F'
    name_shown 'gr\303\274n \342\202\254 \360\237\216\256' "$(printf 'gr\303\274n \342\202\254 \360\237\216\256')"
    name_shown 'c1 \302\233 alone \274 cut \342\202' 'c1 \xC2\x9B alone \xBC cut \xE2\x82'
    name_shown 'long \301\277 \340\237\277 \360\217\277\277 half \355\240\200 high \364\220\200\200 turned \342\200\256' \
        'long \xC1\xBF \xE0\x9F\xBF \xF0\x8F\xBF\xBF half \xED\xA0\x80 high \xF4\x90\x80\x80 turned \xE2\x80\xAE'
    name=$(printf 'b\033d')
    bad "an option" 2 '--b\x1Bd is no option' "--$name"
    echo JUMP >"$work/$name"
    bad "a listing's name" 2 'b\x1Bd:1: JUMP is no step' "$work/$name"
    bad "an output's name" 2 'b\x1Bd/new' -o "$work/$name/new" $here/bench.lst
    check "no control character" is "$(tr -d '[:print:]\n' <"$work/err" | wc -c | tr -d ' ')" 0
    long=$(zeros "$work/long" 20000 && tr '\0' y <"$work/long")
    bad "a name of 20,000 bytes" 2 "yyyy.." "$long"
    check "it is cut" [ "$(wc -c <"$work/err")" -lt 9000 ]
}

every_pass="$every_pass size_checks help_checks toolchain_checks value_checks mark_checks name_checks"
