# What the drawers share: the facts, lines of key=value on standard input, read into variables; the move carried out on the panel; the gaps; their words.
# Ranks, counts and mark numbers are kept as text, since they go beyond the whole numbers that awk holds: numbers.awk adds and compares them.
# `name` is the command's. The environment has what a drawing is called, `title`, as it is.
BEGIN {
    FS = "[=,]"
    title = ENVIRON["title"]
}
$1 == "ports" && NF == 2 { ports = $2 + 0; next }
$1 == "count" && NF == 2 { count = $2 ""; next }
$1 == "cord" && NF == 3 { cord[$2 + 0] = $3 + 0; cords++; next }
$1 == "swap" && NF == 3 || $1 == "turn" && NF == 4 { order[++orders] = $0 ""; next }
$1 == "mark" && NF == 3 { number[++marks] = $2 ""; rank[marks] = $3 ""; next }
$1 == "legs" && NF == 2 { legs = $2 + 0; next }
$1 == "start" && NF == 2 { starts++; next }
$1 == "run" && NF == 2 { run[++runs] = $2 ""; next }
$1 == "end" && NF == 2 { ended = $2 ""; next }
$1 == "named" && NF == 2 { named = $2 ""; next }
$1 == "of" && NF == 2 { of = $2 ""; next }
$1 == "gaps" && NF == 2 { gaps = $2 ""; next }
$1 == "gap" && NF == 3 { gap_first[++gap_lines] = $2 ""; gap_many[gap_lines] = $3 ""; next }
stray == "" { stray = $0 "" }

# what is wrong with facts of any kind, or nothing
function fault() {
    if (stray != "") return "a line that is no fact: " stray
    if (ports < 2 || ports > 20 || count == "") return "the facts are not complete"
    return ""
}

# what is wrong with the facts of a panel
function panel_fault(    j, met) {
    if (fault() != "") return fault()
    for (j = 1; j <= ports; j++) {
        if (!(j in cord) || cord[j] < 1 || cord[j] > ports) return "jack " j " has no port"
        if (met[cord[j]]++) return "port " cord[j] " has two jacks"
    }
    if (cords != ports || marks + (ended != "") != 2 || marks < 1) return "the facts are not complete"
    return ""
}

# what is wrong with the facts of a plan: a leg has its start, its run, its first and its last mark
function plan_fault() {
    if (fault() != "") return fault()
    if (legs < 1 || starts != legs || runs != legs || marks != 2 * legs || ended == "") return "the facts are not complete"
    return named_fault()
}

# what is wrong with the facts of what a plan names: the gaps rise, none is empty, a named rank comes after each, and with the named ranks they are all there are
function named_fault(    k, sum, next_first) {
    if (named !~ /^[1-9]/ || of != count || gaps != (gap_lines + 0) "" || gap_lines > legs) return "the facts are not complete"
    sum = named
    for (k = 1; k <= gap_lines; k++) {
        next_first = k < gap_lines ? gap_first[k + 1] : plus(gap_first[1], count)
        if (gap_many[k] !~ /^[1-9]/ || !below(gap_first[k], count)) return "gap " k " is none"
        if (!below(plus(gap_first[k], gap_many[k]), next_first)) return "gap " k " runs into the next one"
        sum = plus(sum, gap_many[k])
    }
    return sum == count ? "" : "the named ranks and the gaps are not the whole circuit"
}

# a drawer draws nothing from facts with a fault
function need(why) {
    if (why == "") return
    print name ": " why > "/dev/stderr"
    exit 1
}

# after: the panel when all orders are carried out
function carry(    i, j, part, held) {
    for (j = 1; j <= ports; j++) after[j] = cord[j]
    for (i = 1; i <= orders; i++) {
        split(order[i], part, "[=,]")
        held = after[part[2]]
        after[part[2]] = after[part[3]]
        if (part[1] == "swap") after[part[3]] = held
        else { after[part[3]] = after[part[4]]; after[part[4]] = held }
    }
}

# whether the cord of jack j moves
function moves(j) { return after[j] != cord[j] }

# a panel as its pattern
function pattern(panel,    j, text) {
    for (j = 1; j <= ports; j++) text = text (j > 1 ? "," : "") panel[j]
    return text
}

# 1 leg, 2 legs
function many(number_text, name) { return number_text " " name (number_text == "1" ? "" : "s") }

# the mark in words, as it was asked for: its number only where it is a mark of a plan
function mark_words(i) { return (marked + 0 ? "mark " number[i] ", " : "") "rank " rank[i] }
function headline() { return mark_words(1) " of " many(count, "pattern") " of " ports " ports" }

# why nothing follows
function end_words() {
    if (marked + 0) return "this is the plan's last mark"
    return count == "1" ? "it is the only pattern" : "nothing follows"
}

# an order in words; a turn is told in full where there are few orders
function order_words(text,    part, turn) {
    split(text, part, "[=,]")
    if (part[1] == "swap") return "swap jacks " part[2] " and " part[3]
    turn = "turn jacks " part[2] ", " part[3] ", " part[4]
    if (orders > 2) return turn
    return turn ": " part[2] " gets what " part[3] " held, " part[3] " what " part[4] " held, " part[4] " what " part[2] " held"
}

# pieces: the orders one after another, as written for the robot or in words; how many
function order_pieces(piece, worded,    i) {
    for (i = 1; i <= orders; i++) piece[i] = (i > 1 ? "then " : "") (worded ? order_words(order[i]) : order[i]) (worded && i < orders ? "," : "")
    return orders + 0
}

# pieces: each jack whose cord moves, with its next port; how many
function change_pieces(piece,    j, n) {
    for (j = 1; j <= ports; j++)
        if (moves(j)) {
            if (n > 0) piece[n] = piece[n] ","
            piece[++n] = "jack " j " gets port " after[j]
        }
    return n + 0
}

# n pieces filled into lines of at most width characters; how many lines
function filled(piece, n, width, line,    i, k) {
    for (i = 1; i <= n; i++)
        if (k > 0 && length(line[k]) + 1 + length(piece[i]) <= width) line[k] = line[k] " " piece[i]
        else line[++k] = piece[i]
    return k + 0
}

# a leg: how many steps it takes, whether it runs backward, whether it meets every pattern, whether it passes from one end of the list to the other
function steps(leg) { return backward(leg) ? substr(run[leg], 2) : run[leg] }
function backward(leg) { return substr(run[leg], 1, 1) == "-" }
function circuit(leg) { return steps(leg) == minus(count, "1") }
function passes_end(leg) { return backward(leg) ? below(rank[2 * leg - 1], rank[2 * leg]) : below(rank[2 * leg], rank[2 * leg - 1]) }

# a gap: its last rank, and whether it passes from the end of the list to rank 0
function gap_last(k,    last) {
    last = minus(plus(gap_first[k], gap_many[k]), "1")
    return below(last, count) ? last : minus(last, count)
}
function gap_passes(k) { return below(gap_last(k), gap_first[k]) }

# the plan in a line; what it names, beside a name and by itself
function plan_words() { return ports " ports, " many(count, "pattern") ", " many(legs, "leg") ", " many(ended, "mark") }
function named_words() { return named " of " many(count, "pattern") ", " (gaps == "0" ? "no gap" : minus(count, named) " in " many(gaps, "gap")) }
function covering() { return gaps == "0" ? "every pattern is named" : "named " named_words() }

# twenty colours, dark enough for print
function palette(colour,    paler, k) {
    split("#d7191c #0057b8 #1a7f37 #e66a00 #7b1fa2 #008b8b #7a4a1e #000000 #c2189b #6b6b00", colour, " ")
    split("#2e86de #7f0000 #4c9a2a #1b2a6b #b07d00 #6e6e6e #e0457b #00594f #8e6bd8 #4f6f86", paler, " ")
    for (k = 1; k <= 10; k++) colour[10 + k] = paler[k]
}

# a picture begins: a white A4 page, upright, 4 units to the millimetre
function svg_begin(name) {
    print "<svg xmlns=\"http://www.w3.org/2000/svg\" width=\"210mm\" height=\"297mm\" viewBox=\"0 0 840 1188\" font-family=\"sans-serif\">"
    print "<title>" escaped(name) "</title>"
    print "<rect width=\"840\" height=\"1188\" fill=\"white\"/>"
}

# a line of text in a picture
function caption(x, y, size, weight, anchor, text) {
    printf "<text x=\"%.2f\" y=\"%.2f\" font-size=\"%.2f\" font-weight=\"%s\" text-anchor=\"%s\">%s</text>\n", x, y, size, weight, anchor, escaped(text)
}

# the size at which a text fits into the width of the page, where a letter is that part of it wide
function fitting(text, size, part) { return length(text) * size * part > 760 ? 760 / (length(text) * part) : size }

# text for XML
function escaped(text) {
    gsub(/&/, "\\&amp;", text)
    gsub(/</, "\\&lt;", text)
    gsub(/>/, "\\&gt;", text)
    gsub(/"/, "\\&quot;", text)
    gsub(/[[:cntrl:]]/, " ", text)
    return text
}
