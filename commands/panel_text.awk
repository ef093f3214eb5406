# A panel as a crossbar in text: the ports along the top, a row for each jack; a cord runs right from its jack to its corner o and from there up to
# its port. Below it the next move.
END {
    need(panel_fault())
    carry()
    for (j = 1; j <= ports; j++) holder[cord[j]] = j
    titled("", headline(), cord)
    print ""
    print port_labels()
    for (j = 1; j <= ports; j++) {
        print gap_above(j)
        print row(j)
    }
    print ""
    bottom()
}

# words and the pattern that they name, on two lines where they are long
function titled(begin, words, panel,    line) {
    line = begin words ": " pattern(panel)
    if (length(line) > 100) line = begin words ":\n      " pattern(panel)
    print line
}

# the column of port p is 4 p + 8
function port_labels(    p, text) {
    text = sprintf("%-8s", "port")
    for (p = 1; p <= ports; p++) text = text sprintf("%4d", p)
    return text
}

# above the row of jack j: the cords of this and later rows on their way up
function gap_above(j,    p, text) {
    text = sprintf("%8s", "")
    for (p = 1; p <= ports; p++) text = text "   " (holder[p] >= j ? "|" : " ")
    sub(/ +$/, "", text)
    return text
}

# the row of jack j: to the right as far as its port, across the cords of later rows; then only those
function row(j,    p, text) {
    text = sprintf("jack %2d ", j)
    for (p = 1; p <= ports; p++)
        if (p < cord[j]) text = text "---" (holder[p] > j ? "+" : "-")
        else if (p == cord[j]) text = text "---o"
        else text = text "   " (holder[p] > j ? "|" : " ")
    sub(/ +$/, "", text)
    return text
}

# what comes next
function bottom(    piece, n) {
    if (ended != "") {
        print end_words()
        return
    }
    n = order_pieces(piece, 0)
    paragraph(n > 0 ? "next  " : "next  no cord moves", piece, n)
    n = change_pieces(piece)
    paragraph("      ", piece, n)
    titled("      ", mark_words(2), after)
}

# n pieces in lines, the first with that before it
function paragraph(begin, piece, n,    line, k, lines) {
    lines = filled(piece, n, 94, line)
    if (lines == 0 && begin !~ /^ *$/) print begin
    for (k = 1; k <= lines; k++) print (k == 1 ? begin : "      ") line[k]
}
