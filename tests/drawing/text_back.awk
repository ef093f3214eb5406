# A crossbar in text, read back: each cord is followed from its jack's label along - and + to its corner o, and from there up through | and + to a
# port's label. It prints the pattern, or `broken` where a line is broken, ends nowhere, or leads two jacks to one port.
/^port / && !rows { rows = 1; grid[1] = $0; next }
rows && !over && $0 != "" { grid[++rows] = $0; next }
rows { over = 1 }

END {
    for (r = 2; r <= rows; r++) if (grid[r] !~ /^ /) text = text (jacks ? "," : "") followed(r)
    if (!broken) unused()
    if (jacks < 2 || ports_named() != jacks) broken = 1
    print (broken ? "broken" : text)
}

function at(r, c) { return substr(grid[r], c, 1) }

# the port of the cord that begins in row r, whose jack is the next one
function followed(r,    c, u, p) {
    jacks++
    if (!match(grid[r], /^jack +[0-9]+ /) || substr(grid[r], 5, RLENGTH - 5) + 0 != jacks) return fails()
    for (c = RLENGTH + 1; at(r, c) == "-" || at(r, c) == "+"; c++) across[r, c] = 1
    if (at(r, c) != "o" || c == RLENGTH + 1) return fails()
    across[r, c] = up[r, c] = 1
    for (u = r - 1; u > 1 && (at(u, c) == "|" || at(u, c) == "+"); u--) up[u, c] = 1
    if (u > 1) return fails()
    p = label(c)
    if (p == "" || p in taken) return fails()
    taken[p] = 1
    return p
}

function fails() { broken = 1; return "?" }

# the port's number that stands above column c
function label(c,    left, right) {
    if (at(1, c) !~ /[0-9]/) return ""
    for (left = c; at(1, left - 1) ~ /[0-9]/; left--) continue
    for (right = c; at(1, right + 1) ~ /[0-9]/; right++) continue
    return substr(grid[1], left, right - left + 1)
}

# every sign drawn is part of a cord, and each + of two
function unused(    r, c, sign, begin) {
    for (r = 2; r <= rows; r++) {
        begin = match(grid[r], /^jack +[0-9]+ /) ? RLENGTH + 1 : 1
        for (c = begin; c <= length(grid[r]); c++) {
            sign = at(r, c)
            if (sign == "+" && !(((r, c) in across) && ((r, c) in up))) broken = 1
            if (sign != " " && sign != "+" && !((r, c) in across) && !((r, c) in up)) broken = 1
        }
    }
}

# how many ports are named, from 1 on
function ports_named(    n, k, name) {
    n = split(grid[1], name, " ")
    for (k = 2; k <= n; k++) if (name[k] "" != (k - 1) "") return 0
    return n - 1
}
