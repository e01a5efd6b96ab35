# The inputs of docs/DIFFERENCES.md, from its own notation into listings. A line of output is an input:
#   D-NUMBER, which of the line's inputs it is, the settings, the steps
# with | between them; settings are parted by blanks, and steps by semicolons. Settings are `rom=` or `bios=` with bytes in
# hexadecimal or with `zeros` and a length, `board=` with its WAITCNT, and `store=` with the seven lengths where they are not
# bench's.

function number(text) { gsub(/,/, "", text); return text }

# NAME LENGTH: a memory of the store; 0 if it is none of them
function lend(name, length_) {
    if (!(name in place)) return 0
    lengths[place[name]] = length_
    other = 1
    return 1
}

# A step, or what it is that can't be read. The words stand in w[1] to w[n]. `version 2` is a line of a listing too, and passes
# like a step of one number.
function step(n) {
    if (w[1] == "READ") return "READ " w[2] " " w[4]
    if (w[1] == "WRITE") return "WRITE " w[2] " " w[6] " " w[4]
    if (w[1] == "BLOCK") return "BLOCK" w[2] " " w[7] " " w[4]
    if (w[1] == "ARM" || w[1] == "Thumb") return toupper(w[1]) " " w[4] " " w[2] (w[7] == 1 ? " pc" : "")
    if (n == 2) return w[1] " " number(w[2])
    return "?"
}

function setting(n, item, name) {
    name = tolower(w[1])
    if (w[1] == "board") return w[2] == "WAITCNT" ? " board=" w[3] : " counter=" w[4]
    if (w[1] == "no") return lend(w[2], 0) ? "" : " ?"
    if (w[3] == "bytes") { sub(/^.* of bytes /, "", item); gsub(/ /, ",", item); return " " name "=" item }
    if (lend(w[1], number(w[3]))) return ""
    return " " name "=zeros" number(w[3])
}

function item_of(text, n, times, i, one) {
    times = 1
    if (text ~ /^[0-9]+ × /) { times = text + 0; sub(/^[0-9]+ × /, "", text) }
    n = split(text, w, " ")
    if (w[1] == "no" || w[1] == "board" || w[2] == "of") { settings = settings setting(n, text); return }
    one = step(n)
    for (i = 0; i < times; i++) steps = steps (steps == "" ? "" : ";") one
}

function input(line, which, text, items, n, i, store) {
    split("16384 16384 2052 1024 16384 1024 8192", lengths, " ")
    settings = steps = store = ""
    other = 0
    n = split(text, items, ", ")
    for (i = 1; i <= n; i++) item_of(items[i])
    for (i = 1; i <= 7; i++) store = store (i > 1 ? "," : "") lengths[i]
    if (other) settings = settings " store=" store
    print line "|" which "|" settings "|" steps
}

BEGIN {
    FS = "|"
    n = split("EWRAM IWRAM I/O palette VRAM OAM SRAM", names, " ")
    for (i = 1; i <= n; i++) place[names[i]] = i
}

/^\| D-[0-9]/ {
    split($2, id, " ")
    n = split($5, inputs, "<br>")
    for (i = 1; i <= n; i++) {
        split(inputs[i], parts, "`")
        input(id[1], i, parts[2])
    }
}
