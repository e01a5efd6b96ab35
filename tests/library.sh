# The library that host/ and tests/ link, never an old one in silence. Sourced from the repository's root by host/build,
# host/test, tests/against-rust/run, tests/speed/run and tests/all; $lib is then its path.
#   library_ready    makes it where it is absent or older than a source; returns 2 where it can't
#   make_library     makes it in any case, by `rt lib` in crates/bts_c, and puts it in its place; fails where it can't
# BTS_LIB: another library, which is taken as it is; if a source is newer, that is said
lib=${BTS_LIB:-target/staticlib/libbts.a}
made_by='rt lib in crates/bts_c'

# The first source that is newer than the library, or nothing. Folders count: a file that was removed shows in its folder.
newer_source() { find crates.txt crates/*/src crates/*/specs crates/*/proofs -newer "$lib" 2>/dev/null | head -n 1; }

# C callers know the archive by this name and place, so rt's is copied there. An earlier one of rt's goes first, so that what is
# copied was made now; the copy gets its name last, so that one that was cut off is never taken for the library.
make_library() {
    rm -f crates/bts_c/out/libbts_c.a
    (cd crates/bts_c && rt lib) || return 2
    [ -f crates/bts_c/out/libbts_c.a ] || { echo "$made_by left no out/libbts_c.a" >&2; return 2; }
    mkdir -p target/staticlib &&
        cp crates/bts_c/out/libbts_c.a target/staticlib/libbts.a.new &&
        mv target/staticlib/libbts.a.new target/staticlib/libbts.a || return 2
}

library_ready() {
    reason="there is no $lib"
    if [ -f "$lib" ]; then
        newer=$(newer_source)
        [ -n "$newer" ] || return 0
        reason="$lib is older than $newer"
    fi
    if [ -n "${BTS_LIB:-}" ]; then
        echo "BTS_LIB: $reason" >&2
        [ -f "$lib" ] || return 2
        return 0
    fi
    command -v rt >/dev/null || { echo "$reason, and rt is not installed to make it: $made_by" >&2; return 2; }
    echo "$reason: $made_by" >&2
    make_library >&2
}
