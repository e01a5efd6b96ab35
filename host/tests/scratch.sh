# Tools for the checks of the scripts: a scratch copy of the tree with sources of one line, and a PATH of its own on which the
# compilers and rt are fakes that write down their calls. So nothing is proved, and a tool can be absent.

scratch=$work/scratch
plain_tools='cat chmod cmp cp cut dirname env find grep head ls mkdir mktemp mv rm sed sh sleep sort tail tee touch tr wc'
rt_passes='case $1 in
lib) mkdir -p out && : >out/libbts_c.a ;;
run) cat stdout ;;
ci) echo "rt: ok; handles allowed: none; must-fail edits: 3 refused; every proof was done in this run" && echo "7 passed, 0 failed" ;;
esac'

# A fresh copy: its sources are old, its library is newer, and every fake succeeds. That of rt makes an archive where it is called
# as `rt lib`, and as `rt run` writes the file stdout that stands there.
scratch_tree() {
    rm -rf "$scratch"
    mkdir -p "$scratch/bin" "$scratch/crates/bts/src" "$scratch/crates/bts/proofs" "$scratch/crates/bts_c/src" \
        "$scratch/crates/bench/src" "$scratch/target/staticlib"
    cp -R host include tests docs .ci "$scratch/"
    echo source >"$scratch/crates/bts/src/lib.rt"
    echo proof >"$scratch/crates/bts/proofs/lib.antt"
    for stream in stdin stdout; do echo $stream >"$scratch/crates/bench/$stream"; done
    echo 'bts:' >"$scratch/crates.txt"
    find "$scratch/crates" "$scratch/crates.txt" -exec touch -t 202001010000 {} +
    echo library >"$scratch/target/staticlib/libbts.a"
    for tool in $plain_tools; do ln -s "$(command -v "$tool")" "$scratch/bin/$tool"; done
    fake rt "$rt_passes"
    for tool in cc c++ rustc; do fake $tool; done
    : >"$scratch/calls"
}

# NAME [LINE]: a program of that name, which writes down how it is called and then does the line
fake() {
    printf '#!/bin/sh\necho "%s $*" >>"%s/calls"\n%s\n' "$1" "$scratch" "${2:-}" >"$scratch/bin/$1"
    chmod +x "$scratch/bin/$1"
}

# COMMAND..: in the copy, with the fakes alone. Its output is then in $work/out and $work/err, and its exit status in $status.
inside() {
    (
        unset BTS_LIB CC CXX CFLAGS GRAYCART_SRC
        cd "$scratch" && PATH=$scratch/bin && "$@"
    ) >"$work/out" 2>"$work/err"
    status=$?
}

called() { grep -qxF -e "$1" "$scratch/calls"; }
not_called() { ! grep -q "^$1" "$scratch/calls"; }
