# What a C header says, a line for each thing, blanks as one:
#   call uint8_t jidrofex_count(uint8_t ports, uint64_t answer[JIDROFEX_ANSWER_WORDS])
#   refused jidrofex_count 1        the numbers in the comment above the call, in their order; `never`, `no list` or `two lists` where it says so, none, or two
#   constant JIDROFEX_MOST_PORTS 20
#   unknown ..                      any other statement, or a name that does not begin with the header's
# -v header=jidrofex, the header's name

# the numbers that a comment says: those after `Refused:`, up to the point or the bracket that explains them
function numbers_in(text,    at) {
    if (text ~ /Never refused\./ && text !~ /Refused: /) return "never"
    at = index(text, "Refused: ")
    if (!at) return "no list"
    text = substr(text, at + length("Refused: "))
    if (index(text, "Refused: ") || index(text, "Never refused")) return "two lists"
    sub(/[.(].*/, "", text)
    gsub(/[,*]/, " ", text)
    gsub(/ +/, " ", text)
    sub(/^ /, "", text)
    sub(/ $/, "", text)
    return text ~ /^[0-9]+( [0-9]+)*$/ ? text : "no list"
}

# a statement, and the comment above it
function tell(statement, comment,    name, part, k, n) {
    gsub(/[ \t]+/, " ", statement)
    sub(/^ /, "", statement)
    sub(/^extern "C" [{] /, "", statement)
    sub(/ ?;$/, "", statement)
    if (statement ~ /^enum [{] .* [}]$/) {
        gsub(/^enum [{] | [}]$/, "", statement)
        n = split(statement, part, / ?, ?/)
        for (k = 1; k <= n; k++) {
            if (part[k] !~ "^" toupper(header) "_[A-Z_]+ = [0-9]+$") print "unknown " part[k]
            sub(/ =/, "", part[k])
            print "constant " part[k]
        }
    } else if (statement ~ "^uint8_t " header "_[a-z_]+[(][^()]*[)]$") {
        print "call " statement
        name = statement
        gsub(/^uint8_t |\(.*/, "", name)
        print "refused " name " " numbers_in(comment)
    } else {
        print "unknown " statement
    }
}

/^#/ { next }

{
    rest = $0
    while (rest != "") {
        if (inside) {
            at = index(rest, "*/")
            comment = comment " " (at ? substr(rest, 1, at - 1) : rest)
            rest = at ? substr(rest, at + 2) : ""
            if (at) inside = 0
        } else {
            at = index(rest, "/*")
            code = code " " (at ? substr(rest, 1, at - 1) : rest)
            rest = at ? substr(rest, at + 2) : ""
            if (at) { inside = 1; comment = "" }
        }
    }
    if (code ~ /; *$/) { tell(code, comment); code = comment = "" }
}

END { if (code !~ /^ *[}] *$/) print "unknown " code }
