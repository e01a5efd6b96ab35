# host/install, the pkg-config file and the manual page.

# PATH MODE: an installed file
installed() { [ -f "$root$1" ] && is "$(stat -c %a "$root$1")" "$2"; }

install_checks() {
    root=$work/root
    rm -rf "$root"
    DESTDIR=$root PREFIX=/prefix BTS_LIB=$lib host/install 2>"$work/err"
    check "host/install" is $? 0
    check "the program" installed /prefix/bin/btsrun 755
    for file in include/bts.h lib/libbts.a lib/pkgconfig/bts.pc share/man/man1/btsrun.1; do
        check "$file" installed "/prefix/$file" 644
    done
    check "it runs" is "$("$root/prefix/bin/btsrun" $here/bench.lst | tail -n 1)" "total 31"
    package_checks
    touch "$root/prefix/lib/other"
    DESTDIR=$root PREFIX=/prefix host/install --remove 2>"$work/err"
    check "host/install --remove" is $? 0
    check "only another's file is left" is "$(find "$root" -type f)" "$root/prefix/lib/other"
    install_refusals
}

install_refusals() {
    for prefix in prefix '/pre fix' '/pre|fix'; do
        DESTDIR=$root PREFIX=$prefix host/install 2>"$work/err"
        check "PREFIX $prefix" is $? 2
        check "PREFIX $prefix: it is said" says "host/install: PREFIX "
    done
    DESTDIR=$root host/install --all 2>"$work/err"
    check "an unknown option" is $? 2
    check "nothing is installed" is "$(find "$root" -type f)" "$root/prefix/lib/other"
}

# The README's C program, built by nothing but what pkg-config says of the installed files.
package_checks() {
    command -v pkg-config >"$work/out" || { leave_out 3 "the pkg-config file" "pkg-config is not installed"; return; }
    export PKG_CONFIG_SYSROOT_DIR="$root" PKG_CONFIG_PATH="$root/prefix/lib/pkgconfig"
    check "the version" is "$(pkg-config --modversion bts)" "$(header_version)"
    readme_blocks c >"$work/package.c"
    check "it builds" ${CC:-cc} $(pkg-config --cflags bts) "$work/package.c" $(pkg-config --libs bts) -o "$work/package"
    check "it runs" is "$("$work/package")" "0 2 3
0 2 3
0 2 3 ewram
0 2 3 2"
    unset PKG_CONFIG_SYSROOT_DIR PKG_CONFIG_PATH
}

header_version() { sed -n 's/^#define BTS_LIBRARY_VERSION "\(.*\)"$/\1/p' include/bts.h; }

# The options that a text names, one a line: a word that begins with - or -- and a letter.
options_of() { tr -s ' ,=[]\t' '\n' | grep -E -e '^--?[a-z][a-z-]*$' | sort -u; }

# The manual page as text: its bold, italic and escapes taken out.
page_text() { sed 's/\\-/-/g; s/\\f[A-Z]/ /g; s/"//g; s/\\&//g' host/btsrun.1; }

man_checks() {
    run -h
    check "the options are those of -h" is "$(page_text | options_of)" "$(options_of <"$work/out")"
    check "the steps too" is "$(sed -n '/^\.SH LISTING/,/^\.SH EXIT/s/^\.BI \([A-Z]*\) .*/\1/p' host/btsrun.1 | sort)" \
        "$(sed -n 's/^  \([A-Z][A-Z]*\)  *[A-Z]\{4,\}.*/\1/p' "$work/out" | sort)"
    check "the version" grep -q "^\.TH .*\"bts $(header_version)\"" host/btsrun.1
    sed -n 's/\\en/\\n/g; s/^\(printf .*\) | btsrun$/\1/p' host/btsrun.1 >"$work/examples"
    totals=
    while read -r example; do totals="$totals$(eval "$example" | $program | tail -n 1), "; done <"$work/examples"
    check "its examples" is "$totals" "total 3, total 14, total 20, "
    if command -v mandoc >"$work/out"; then
        check "mandoc" mandoc -T lint -W warning host/btsrun.1
    elif command -v man >"$work/out"; then
        LC_ALL=C.UTF-8 MANWIDTH=80 man --warnings -E UTF-8 -l -Tutf8 -Z host/btsrun.1 >"$work/out" 2>"$work/err"
        check "man" is $? 0
        check "man has no word to say" empty "$work/err"
        check "there is a page" grep -q 'EXIT' "$work/out"
    else
        leave_out 3 "the manual page's form" "neither man nor mandoc is installed"
    fi
}

once="$once install_checks man_checks"
