# From what a run prints to what its preview must print: the lines, or the table of -v, without what hangs on the memories.
#   awk -f preview.awk -v untold="D-8 D-9 .." -v told="btsrun: a preview leaves out .. 0" KINDS OUTPUT
# KINDS has the kind of each step, one a line; `untold` the lines of docs/DIFFERENCES.md that a preview leaves out; `told` what
# standard error has behind the lines.

function hides_value(step) { return step == "READ" || step == "BLOCKREAD" || step == "FETCH" }

function hides_hits(step) { return step == "WRITE" || step == "BLOCKWRITE" }

# The marks behind a row's last column, without those that are left out. A blank stands in front of each.
function marked(marks, n, i, all, m) {
    n = split(marks, m, " ")
    all = ""
    for (i = 1; i <= n; i++) if (!(m[i] in left_out)) all = all " " m[i]
    return all
}

# The names of the lines that apply, as in a sentence, and what is said of them.
function figure(total, i, names) {
    if (applying == 0) return total " by the model; no departure that a preview can tell applies"
    for (i = 1; i <= applying; i++) names = names (i == 1 ? "" : i < applying ? ", " : " and ") applies[i]
    return total " by the model; " names (applying == 1 ? " applies" : " apply")
}

BEGIN {
    n = split(untold, list, " ")
    for (i = 1; i <= n; i++) left_out[list[i]] = 1
    sentence = told
    sub(/^btsrun: /, "", sentence)
    sub(/0$/, "-", sentence)
}

FILENAME == ARGV[1] { kind[steps++] = $1; next }

# the table
FNR == 1 && /^index/ { table = 1; width = index($0, " departs") - 1; print; next }
table && FNR <= steps + 1 {
    row = substr($0, 1, width)
    if (hides_value(kind[FNR - 2])) row = substr(row, 1, 49) "-         " substr(row, 60)
    if (hides_hits(kind[FNR - 2])) row = substr(row, 1, 60) "   -" substr(row, 65)
    print row marked(substr($0, width + 1))
    next
}
table && /^D-/ {
    if (!said) print sentence
    said = 1
    if (!($1 in left_out)) { applies[++applying] = $1; print }
    next
}
table && / by the model; / {
    if (!said) print sentence
    print figure($1)
    for (i = 1; i <= n; i++) names = names (i == 1 ? "" : i < n ? ", " : " and ") list[i]
    print "a preview can't tell " names ": they hang on the memories"
    next
}

# the lines
!table && /^[0-9]/ {
    if (hides_value(kind[$1])) $3 = 0
    if (hides_hits(kind[$1])) $4 = 0
}
{ print }
