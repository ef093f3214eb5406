# A plan in words: what it is a plan of, then a line for each leg, its numbers in columns; what the legs name, and in the same way a line for each gap.
END {
    need(plan_fault())
    print plan_words()
    for (m = 1; m <= marks; m++) {
        number_wide[m % 2] = wider(number_wide[m % 2], number[m])
        rank_wide[m % 2] = wider(rank_wide[m % 2], rank[m])
    }
    for (leg = 1; leg <= legs; leg++) print leg_line(leg)
    print covering()
    for (k = 1; k <= gap_lines; k++) {
        first_wide = wider(first_wide, gap_first[k])
        last_wide = wider(last_wide, gap_last(k))
        many_wide = wider(many_wide, gap_many[k])
        long_gaps += gap_many[k] != "1"
    }
    for (k = 1; k <= gap_lines; k++) print gap_line(k)
}

function wider(wide, text) { return length(text) > wide ? length(text) : wide + 0 }

# a text at the right end of its column
function right(text, wide) { return sprintf("%" wide "s", text) }

# the first mark of a leg is the odd one of its two
function leg_line(leg,    m) {
    m = 2 * leg
    return "leg " right(leg, length(legs "")) ": marks " right(number[m - 1], number_wide[1]) " to " right(number[m], number_wide[0]) \
        ", ranks " right(rank[m - 1], rank_wide[1]) " to " right(rank[m], rank_wide[0]) ", " way(leg)
}

# a gap of one rank has no last one, and leaves that column empty where others have it
function gap_line(k,    ranks) {
    if (gap_many[k] != "1") ranks = "ranks " right(gap_first[k], first_wide) " to " right(gap_last(k), last_wide) ","
    else ranks = (long_gaps ? "rank  " : "rank ") right(gap_first[k], first_wide) ","
    if (long_gaps) ranks = sprintf("%-" (11 + first_wide + last_wide) "s", ranks)
    return "gap " right(k, length(gaps)) ": " ranks " " right(gap_many[k], many_wide) (gap_many[k] == "1" ? " pattern" : " patterns") \
        (gap_passes(k) ? ", passing the end of the list" : "")
}

# how a leg runs
function way(leg,    text) {
    if (run[leg] == "0") text = "one mark"
    else text = backward(leg) ? "backward" : "forward"
    if (circuit(leg)) text = text ", once round the circuit"
    if (passes_end(leg)) text = text ", passing the end of the list"
    return text
}
