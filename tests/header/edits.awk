# Edited headers, each wrong in one thing: FOLDER/1.h, FOLDER/2.h and so on, and for each a line `NUMBER KIND what is wrong`:
#   constant     a constant is one more, or has changed its value with the next of its enum (the last with the first)
#   parameters   two parameters of a call have changed places
#   numbers      the first two numbers that a call is refused with have changed places, or the last is gone
# -v folder=FOLDER; the header is the input.

{ text = text $0 "\n" }

# the header with WITH in place of the SIZE characters at AT
function put(whole, at, size, with) { return substr(whole, 1, at - 1) with substr(whole, at + size) }

function edit(kind, what, whole,    file) {
    file = folder "/" ++edits ".h"
    printf "%s", whole >file
    close(file)
    print edits " " kind " " what
}

# ---- constants

# the header with another value for a constant
function with_value(whole, name, value) {
    match(whole, "[ {]" name " = [0-9]+")
    return put(whole, RSTART + 1, RLENGTH - 1, name " = " value)
}

function edit_constants(    rest, body, part, n, k, m, name, value) {
    rest = text
    while (match(rest, /enum [{][^}]*[}]/)) {
        body = substr(rest, RSTART, RLENGTH)
        rest = substr(rest, RSTART + RLENGTH)
        n = 0
        while (match(body, /JIDROFEX_[A-Z_]+ = [0-9]+/)) {
            split(substr(body, RSTART, RLENGTH), part, / = /)
            name[++n] = part[1]
            value[n] = part[2]
            body = substr(body, RSTART + RLENGTH)
        }
        for (k = 1; k <= n; k++) {
            edit("constant", name[k] " one more", with_value(text, name[k], value[k] + 1))
            m = k % n + 1
            # of two there is one pair
            if (n > 2 || m > k)
                edit("constant", name[k] " and " name[m] " exchanged", with_value(with_value(text, name[k], value[m]), name[m], value[k]))
        }
    }
}

# ---- calls

# the parameters of a call and the numbers of the comment above it
function edit_call(start, stop, call,    body, list, part, n, k, m, changed, told, j, above, at, size) {
    body = substr(text, start, stop - start)
    n = split(body, part, /,[ \n]*/)
    for (k = 1; k < n; k++)
        for (m = k + 1; m <= n; m++) {
            changed = ""
            for (j = 1; j <= n; j++) changed = changed (j > 1 ? ", " : "") part[j == k ? m : j == m ? k : j]
            edit("parameters", call ": '" part[k] "' and '" part[m] "' exchanged", put(text, start, length(body), changed))
        }
    # the last list before the call
    above = substr(text, 1, start)
    at = 0
    while (match(substr(above, at + 1), /Refused: [0-9, ]*[0-9]/)) {
        at += RSTART
        size = RLENGTH
    }
    if (at <= list_before) return
    list_before = at
    list = substr(text, at, size)
    sub(/Refused: /, "", list)
    n = split(list, part, /, /)
    if (n > 1) {
        told = part[2] ", " part[1]
        for (j = 3; j <= n; j++) told = told ", " part[j]
        edit("numbers", call ": " part[1] " and " part[2] " exchanged", put(text, at, size, "Refused: " told))
    }
    told = ""
    for (j = 1; j < n; j++) told = told (j > 1 ? ", " : "") part[j]
    edit("numbers", call ": " part[n] " dropped", put(text, at, size, "Refused: " told))
}

function edit_calls(    from, start, stop, call) {
    from = 1
    while (match(substr(text, from), /\nuint8_t jidrofex_[a-z_]+\(/)) {
        call = substr(text, from + RSTART, RLENGTH - 1)
        gsub(/uint8_t |\(/, "", call)
        start = from + RSTART - 1 + RLENGTH
        stop = start + index(substr(text, start), ")") - 1
        edit_call(start, stop, call)
        from = stop
    }
}

END {
    edit_constants()
    edit_calls()
}
