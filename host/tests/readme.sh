# The README's commands, with what it says that they print, and its C program: from the README's own text, in a copy of the tree.

readme=$work/readme

# The commands of the README that are not run here, each with the reason. All others are.
not_run() {
    cat <<'ROWS'
(cd crates/bench && rt run < stdin)|it proves the program, which takes minutes
rt ci|it proves everything, which takes longer
tests/all|it runs these tests
host/test|it is these tests
tests/against-rust/run|it takes two minutes and needs the Rust
tests/speed/run|it takes a minute and needs the Rust
host/install|it writes to /usr/local; install_checks does it elsewhere
ROWS
}

# LANGUAGE: the text of the fenced blocks of that language
readme_blocks() { awk -v want="$1" '/^```/ { inside = !inside; kind = substr($0, 4); next } inside && kind == want' README.md; }

# Each fenced block as a file of its own, by its number and language; a block without one is what the commands before it print.
split_readme() {
    rm -rf "$readme"
    mkdir -p "$readme/tree/target/staticlib"
    awk -v to="$readme" '
        /^```/ { inside = !inside; if (inside) file = sprintf("%s/%02d.%s", to, ++n, $0 == "```" ? "out" : substr($0, 4)); next }
        inside { print >file }' README.md
}

# A tree like this one, so that what the README has a person write (a C file, a program) is not written here.
readme_tree() {
    for entry in *; do
        [ "$entry" = target ] || ln -s "$PWD/$entry" "$readme/tree/$entry"
    done
    case $lib in
    /*) ln -s "$lib" "$readme/tree/target/staticlib/libbts.a" ;;
    *) ln -s "$PWD/$lib" "$readme/tree/target/staticlib/libbts.a" ;;
    esac
    readme_blocks c >"$readme/tree/price.c"
}

# FILE: a block's commands but for those that are not run; the latter go to $readme/passed-over
commands_of() {
    awk -v list="$readme/not-run" -v passed="$readme/passed-over" '
        BEGIN { while ((getline line <list) > 0) skip[line] = 1 }
        { bare = $0; sub(/ *#.*/, "", bare) }
        bare in skip { print bare >>passed; next }
        { print }' "$1"
}

# BLOCK OUTPUT: the commands must succeed, and print the output if there is one
block_checks() {
    commands_of "$1" >"$readme/commands"
    [ -s "$readme/commands" ] || return 0
    if grep -q "^$bench_program" "$readme/commands" && [ ! -x $bench_program ]; then
        leave_out 2 "README's block ${1##*/}" "there is no $bench_program: $bench_made_by"
        return 0
    fi
    (cd "$readme/tree" && unset BTS_LIB && sh -e ../commands) >"$work/out" 2>"$work/err"
    check "README's block ${1##*/}: status" is $? 0
    [ ! -f "$2" ] || check "README's block ${1##*/}: output" diff "$work/out" "$2"
}

readme_checks() {
    split_readme
    readme_tree
    not_run | cut -d '|' -f 1 >"$readme/not-run"
    : >"$readme/passed-over"
    for block in "$readme"/*.sh; do
        number=${block##*/}
        number=${number%.sh}
        block_checks "$block" "$readme/$(printf %02d $((${number#0} + 1))).out"
    done
    check "its C program is run" grep -q '^\./price$' "$readme"/*.sh
    check "what is not run is what it names" is "$(sort -u "$readme/passed-over")" "$(sort "$readme/not-run")"
    while read -r command arguments; do
        case $command in
        rt | '(cd') ;;
        *) check "$command is there" [ -x "$command" ] ;;
        esac
    done <"$readme/not-run"
}

# What it needs, as the rest of the tree has it: the toolchain and the Rust of host/version.h, the tools that tests/all asks for,
# the platform of the header, the optional tools that these tests look for. Each command of "Check it" says how long it takes.
needs_checks() {
    sed -n '/^## What it needs/,/^## Price/p' README.md >"$work/needs"
    needed=$(sed -n 's/^#define HOST_TOOLCHAIN "\(.*\)"$/\1/p; s/^#define HOST_RUST ".*commit \(.*\)"$/\1/p' host/version.h)
    printf '%s\n' "$needed" rt cc c++ rustc gcc g++ valgrind pkg-config man-db x86-64 GRAYCART_SRC >"$work/words"
    check "words to look for" is "$(wc -l <"$work/words" | tr -d ' ')" 13
    while read -r word; do check "README needs $word" grep -qF -e "$word" "$work/needs"; done <"$work/words"
    sed -n '/^## Check it/,/^## Call it/p' README.md >"$work/check-it"
    for command in 'rt ci' tests/all tests/against-rust/run host/test tests/speed/run; do
        check "README says how long $command takes" grep -qE "^$command +# .*(minute|second)" "$work/check-it"
    done
}

once="$once readme_checks needs_checks"
