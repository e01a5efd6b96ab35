# The scripts that link the library: none takes an old one in silence (tests/library.sh).

# NAME SCRIPT..: a script that must have the library made, by rt and before the compiler is called
makes_anew() {
    case_name=$1
    shift
    : >"$scratch/calls"
    inside "$@"
    check "$case_name: rt is called" called "rt lib"
    check "$case_name: and first" is "$(head -n 1 "$scratch/calls")" "rt lib"
    check "$case_name: it is said" says "rt lib in crates/bts_c"
}

# NAME SCRIPT..: a script that must take the library as it is
takes() {
    case_name=$1
    shift
    : >"$scratch/calls"
    inside "$@"
    check "$case_name: no call of rt" not_called rt
    check "$case_name: it is compiled" grep -q '^[rc]' "$scratch/calls"
}

# The Rust in the copy: files of its names are enough, since the compiler is a fake.
fake_rust() {
    mkdir -p "$scratch/rust/src/bus" "$scratch/rust/src/cpu"
    for file in mod disable_bug mirror openbus region video wait waitcnt prefetch; do : >"$scratch/rust/src/bus/$file.rs"; done
    for file in pipeline timing; do : >"$scratch/rust/src/cpu/$file.rs"; done
}

# SCRIPT..: with a library that is new, old, absent; with and without rt. The compilers fail, so that each script ends there.
stale_checks() {
    scratch_tree
    fake_rust
    for tool in cc rustc; do fake $tool 'exit 1'; done
    takes "$*, a new library" "$@"
    for newer in crates/bts/src/lib.rt crates/bts/proofs/lib.antt crates.txt; do
        touch "$scratch/$newer"
        touch -t 202101010000 "$scratch/target/staticlib/libbts.a"
        makes_anew "$*, $newer is newer" "$@"
        check "$*, $newer is named" says "target/staticlib/libbts.a is older than $newer"
        takes "$*, once it is made" "$@"
        touch -t 202001010000 "$scratch/$newer"
    done
    touch -t 202101010000 "$scratch/target/staticlib/libbts.a"
    rm "$scratch/crates/bts/src/lib.rt"
    makes_anew "$*, a source is gone" "$@"
    rm "$scratch/target/staticlib/libbts.a"
    makes_anew "$*, no library" "$@"
    check "$*, no library: what rt made is in its place" [ -f "$scratch/target/staticlib/libbts.a" ]
    refused_stale_checks "$@"
}

# SCRIPT..: where the library can't be made, nothing is compiled
refused_stale_checks() {
    : >"$scratch/calls"
    touch "$scratch/crates.txt"
    touch -t 202101010000 "$scratch/target/staticlib/libbts.a"
    fake rt 'exit 1'
    inside "$@"
    check "$*, it isn't proved: status $status" is "$status" 2
    fake rt
    inside "$@"
    check "$*, rt makes no archive: status $status" is "$status" 2
    check "$*, rt makes no archive: it is said" says "rt lib in crates/bts_c left no out/libbts_c.a"
    rm "$scratch/bin/rt"
    inside "$@"
    check "$*, no rt: status $status" is "$status" 2
    check "$*, no rt: it is said" says "libbts.a is older than crates.txt, and rt is not installed to make it"
    check "$*: nothing is compiled" is "$(cat "$scratch/calls")" "$(printf '%s\n' 'rt lib' 'rt lib')"
    inside env BTS_LIB=target/staticlib/libbts.a "$@"
    check "$*, BTS_LIB: it is compiled" grep -q '^[rc][u+c]' "$scratch/calls"
    check "$*, BTS_LIB: it is said" says "BTS_LIB: target/staticlib/libbts.a is older than crates.txt"
    inside env BTS_LIB=absent.a "$@"
    check "$*, BTS_LIB is absent: status $status" is "$status" 2
    check "$*, BTS_LIB is absent: it is said" says "BTS_LIB: there is no absent.a"
}

library_checks() {
    stale_checks host/build
    stale_checks host/test
    stale_checks env GRAYCART_SRC=rust tests/against-rust/run
    stale_checks env GRAYCART_SRC=rust tests/speed/run
}

once="$once library_checks"
