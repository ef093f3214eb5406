# What a plan names, in words and as a strip of the circuit, for people. Standard input has the plan and after it the facts of what it names; facts.awk reads both.
# The strip goes from rank 0 to the last, a cell for each rank where there are no more than the cells, else each cell an equal share of the ranks. Where a cell begins
# is worked out exactly, so one rank among all those of 20 ports still changes the sign of its cell.
BEGIN {
    most_cells = 48
    all = "#"
    none = "."
    some = "+"
}

END {
    count = of
    need(named_fault())
    for (k = 1; k <= gap_lines; k++) unroll(gap_first[k], plus(gap_first[k], gap_many[k]))
    tell(named_words())
    tell("0 [" strip(below(count, most_cells "") ? count + 0 : most_cells) "] " all " all " none " none " some " some")
    again = minus(marks_in(), named)
    if (again != "0") tell("end=" marks_in() " counts marks, " again " of them on a pattern that was named before")
}

function tell(words) { print name ": " words }

# the ranks of a gap, from one up to another that is no longer in it; those that pass the end of the list go on at rank 0
function unroll(from, to) {
    if (below(count, to)) {
        unroll("0", minus(to, count))
        to = count
    }
    piece_from[++pieces] = from
    piece_to[pieces] = to
}

function strip(cells,    k, text) {
    for (k = 0; k < cells; k++) text = text cell(share(count, k, cells), share(count, k + 1, cells))
    return text
}

# the sign of a cell, the ranks from one up to another that is no longer in it: no two gaps touch, so where none is named they are in one of them
function cell(from, to,    k, sign) {
    sign = all
    for (k = 1; k <= pieces; k++) {
        if (!below(from, piece_from[k]) && !below(piece_to[k], to)) return none
        if (below(from, piece_to[k]) && below(piece_from[k], to)) sign = some
    }
    return sign
}

# how many marks the plan has
function marks_in(    leg, sum) {
    sum = "0"
    for (leg = 1; leg <= runs; leg++) sum = plus(sum, plus(steps(leg), "1"))
    return sum
}
