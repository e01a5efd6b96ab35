# include/bts.h by itself.

header_flags='-Wall -Wextra -Wpedantic -Wconversion -Wsign-conversion -Werror -Iinclude'

# The header in C99, C11 and C++, without a warning, and its helpers run in each.
header_checks() {
    for language in "${CC:-cc} -x c -std=c99" "${CC:-cc} -x c -std=c11" "${CXX:-c++} -x c++ -std=c++11 -Wold-style-cast" \
        "${CXX:-c++} -x c++ -std=c++17 -Wold-style-cast"; do
        command -v "${language%% *}" >"$work/out" || {
            leave_out 2 "the header with ${language%% *}" "it is not installed"
            continue
        }
        check "the header: $language" $language $header_flags $here/header.c -x none "$lib" -o "$work/header"
        check "its helpers: $language" "$work/header"
    done
}

# TEXT FLAGS..: the header must not compile, and the compiler must say the text
refuses() {
    text=$1
    shift
    ! ${CC:-cc} -x c -std=c11 $header_flags -fsyntax-only "$@" 2>"$work/err" && says "$text"
}

# Another machine is told apart from the library's own, and can have the header without the library.
platform_checks() {
    echo '#include "bts.h"' >"$work/alone.c"
    for other in -U__x86_64__ -U__linux__ -U__ELF__ -D__ILP32__; do
        check "no library for $other" refuses "libbts.a is for Linux on x86-64" $other "$work/alone.c"
    done
    check "another system, without the library" ${CC:-cc} -std=c11 $header_flags -fsyntax-only -U__linux__ -DBTS_NO_LIBRARY \
        "$work/alone.c"
    for function in $(functions_declared); do
        { cat "$work/alone.c"; echo "int main(void) { return sizeof &$function == 0; }"; } >"$work/calls.c"
        check "with the library $function is there" ${CC:-cc} -std=c11 $header_flags -fsyntax-only "$work/calls.c"
        check "without it not" refuses "$function" -DBTS_NO_LIBRARY "$work/calls.c"
    done
}

# The functions that the header declares: each stands in the line behind BTS_FUNCTION.
functions_declared() { sed -n '/^BTS_FUNCTION$/{n;s/^bts_[a-z]* \(bts_[a-z_]*\)(.*/\1/p;}' include/bts.h; }

# The library's names are these and no others, so that none of its own can meet one of a caller's.
export_checks() {
    check "the header's functions" is "$(functions_declared | tr '\n' ' ')" "bts_run bts_run_tariff bts_run_grounds bts_preview "
    command -v nm >"$work/out" || { leave_out 1 "the library's names" "nm is not installed"; return; }
    check "the library's names" is "$(nm -g --defined-only "$lib" | awk 'NF == 3 { print $3 }' | sort)" \
        "$(functions_declared | sort)"
}

once="$once header_checks platform_checks export_checks"
