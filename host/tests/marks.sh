# The marks of btsrun -v. Every line of docs/DIFFERENCES.md is tried by its own inputs, taken from its text; marks.tsv has the
# lines that each of their steps must show: D-NUMBER, which input, and the marks, with a semicolon between two steps.

# NUMBER: its four bytes
le32() {
    for shift in 0 8 16 24; do printf "\\$(printf %03o $(($1 >> shift & 255)))"; done
}

# FILE LENGTHS, with commas between them: a store of zeros
zero_store() {
    sum=0
    { printf 'BTM\001'; for length in $(echo "$2" | tr , ' '); do le32 "$length"; done; } >"$1"
    for length in $(echo "$2" | tr , ' '); do sum=$((sum + length)); done
    head -c $sum /dev/zero >>"$1"
}

# FILE BYTES or zerosLENGTH
image() {
    case $2 in
        zeros*) zeros "$1" "${2#zeros}" ;;
        *) hex_file "$1" $(echo "$2" | tr , ' ') ;;
    esac
}

# SETTINGS of marks.awk: the program's options for them, in $lent
take_settings() {
    lent=
    for setting in $1; do
        case $setting in
            rom=* | bios=*) image "$work/lent-${setting%%=*}" "${setting#*=}" ;;
            store=*) zero_store "$work/lent-store" "${setting#*=}" ;;
            board=*) { le32 "${setting#*=}"; head -c 76 /dev/zero; } >"$work/lent-board" ;;
            *) return 1 ;;
        esac
        lent="$lent --${setting%%=*} $work/lent-${setting%%=*}"
    done
    case $lent in *--store*) ;; *) lent="$lent --bench" ;; esac
}

# The marks of the table in $work/out, as marks.tsv has them
shown_marks() {
    awk 'NR > 1 && /^total/ { exit }
         NR > 1 { marks = ""; for (i = 1; i <= NF; i++) if ($i ~ /^D-[0-9]+$/) marks = marks (marks == "" ? "" : " ") $i
                  all = all (NR > 2 ? "; " : "") (marks == "" ? "-" : marks) }
         END { print all }' "$work/out"
}

# Every input of docs/DIFFERENCES.md: its marks, step by step. One sets a counter that has no mark, and is passed over.
marks_input_checks() {
    awk -f $here/marks.awk docs/DIFFERENCES.md >"$work/inputs"
    check "inputs were found" [ "$(wc -l <"$work/inputs")" -ge 145 ]
    while IFS='|' read -r line which settings steps; do
        take_settings "$settings" || continue
        echo "$steps" | tr ';' '\n' >"$work/steps"
        run -v $lent "$work/steps"
        given=$(printf '%s\t%s\t%s' "$line" "$which" "$(shown_marks)")
        check "the marks of $line, input $which" is "$given" "$(grep "^$line	$which	" $here/marks.tsv)"
    done <"$work/inputs"
}

# Each line of docs/DIFFERENCES.md has a mark, or stands in host/README.md's list of those without; and each that has one shows it
# for an input of its own.
marks_list_checks() {
    sed -n 's/^    {\([0-9]*\), [a-z_0-9]*, ".*/D-\1/p' host/marks.c | sort >"$work/marked"
    awk '/^## / { here = /The marks/ } here && /^\| D-/ { print $2 }' host/README.md | sort >"$work/unmarked"
    sed -n 's/^| \(D-[0-9]*\) .*/\1/p' docs/DIFFERENCES.md | sort >"$work/lines"
    check "lines were found" [ "$(wc -l <"$work/lines")" -ge 86 ]
    sort "$work/marked" "$work/unmarked" >"$work/both"
    check "no line in neither or both: $(diff "$work/lines" "$work/both" | tr '\n' ' ')" cmp -s "$work/lines" "$work/both"
    while read -r line; do
        check "$line's own input shows it" grep -q "^$line	.*[	 ]$line\(\$\|[; ]\)" $here/marks.tsv
    done <"$work/marked"
}

# README's worked example says of each line that applies to it what that would add.
marks_readme_checks() {
    named=$(sed -n '/ by the model; /p' README.md | tr ' ,' '\n\n' | grep '^D-' | sort -u)
    told=$(sed -n 's/^| [0-9] | \(D-[^|]*\)|.*/\1/p' README.md | tr ' ,' '\n\n' | grep '^D-' | sort -u)
    check "README's example has lines" [ -n "$named" ]
    check "README tells of each of them" is "$told" "$named"
    check "README says what a contract quotes" grep -q "A contract quotes the model's figure" README.md
}

# SENTENCE STEPS..: the last line of the table, of these steps
sentence() {
    sentence=$1
    shift
    printf '%s\n' "$@" >"$work/steps"
    good "$sentence" -v "$work/steps"
    check "the last line: $(tail -n 1 "$work/out")" is "$(tail -n 1 "$work/out")" "$sentence"
}

# SHORT LISTING OPTIONS..: its steps have the marks of their comments, and so many of its stores land short
commented_marks() {
    short=$1
    listing=$2
    shift 2
    lands "$short" "$(grep -c '^WRITE' "$listing")" "$listing" -v "$@" "$listing"
    check "the marks of $listing" is "$(shown_marks)" \
        "$(sed -n 's/^[A-Z].*# //p' "$listing" | tr '\n' ';' | sed 's/;$//; s/;/; /g')"
}

# Behind the total stand words for each mark, and the figure.
marks_checks() {
    take_settings "rom=zeros4 bios=zeros8 store=16,16,256,16,16,16,3"
    commented_marks 3 $here/marks-short.lst $lent
    take_settings "store=16,16,0,16,16,16,3"
    printf '%s\n' 'WRITE 2 0x04000000 1 # D-6 D-81' 'WRITE 2 0x04000500 1 # -' 'READ 2 0x04000500 # D-2' >"$work/gaps"
    commented_marks 2 "$work/gaps" $lent
    commented_marks 1 $here/marks.lst
    check "words of a mark" grep -q '^D-42  a branch, or any other change of the pc, is one fetch$' "$work/out"
    check "the lines in the end" is "$(tail -n 1 "$work/out" | tr ' ,' '\n\n' | grep '^D-')" \
        "$(sed -n 's/^\(D-[0-9]*\) .*/\1/p' "$work/out")"
    check "each of them once" is "$(shown_marks | tr '; ' '\n\n' | grep '^D-' | sort -u)" \
        "$(sed -n 's/^\(D-[0-9]*\) .*/\1/p' "$work/out" | sort)"
    sentence "0 by the model; no listed departure applies" ""
    sentence "31 by the model; no listed departure applies" "IDLE 28" "READ 2 0x02000000"
    sentence "1 by the model; D-42 applies" "THUMB 0x03000000 0xE7FE pc"
    sentence "2 by the model; D-42 and D-48 apply" "ARM 0x03000000 0xE12FFF1E pc"
    sentence "9 by the model; D-18, D-42, D-48 and D-81 apply" "ARM 0x03000000 0xE12FFF1E pc" "READ 4 0" "READ 4 0x02000000"
}

# What stands before a step is seen across the pieces of a long listing: step 4,097 is the target of a jump; or it goes on with a
# row of accesses, with no step between (D-86).
marks_piece_checks() {
    awk 'BEGIN { for (i = 0; i < 4095; i++) print "IDLE 1" }' >"$work/pauses"
    sentence "4101 by the model; D-29 and D-42 apply" "$(cat "$work/pauses")" "THUMB 0x08000100 0xE07E pc" \
        "THUMB 0x08000200 0x1C00"
    sentence "4109 by the model; D-14 and D-25 apply" "$(cat "$work/pauses")" "READ 4 0x08000100" "READ 4 0x08000104"
}

every_pass="$every_pass marks_checks"
once="$once marks_input_checks marks_list_checks marks_readme_checks marks_piece_checks"
