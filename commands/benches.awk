# The benches in words, for people: a line for each, with its numbers in columns and a bar. Standard input has the question as the program reads it, `shares=`, `plan=`
# or `add=`, with `add` the counts, and after that what the program printed. Of a share the bar is the circuit, from rank 0 to the last, with the ranks of the bench;
# of counts it is the bench's own marks, first as many as are covered, then those that are open, then those that are left. A cell stands for each, or for one of 48
# equal parts of them. Where a cell begins is worked out exactly, so that one rank or one mark among all those of 20 ports still changes the sign of its cell.
BEGIN {
    FS = "[=, ]"
    most_cells = 48
}

NR == 1 { asked = $1; ports = $2 + 0; benches = $3 + 0; alone = $4 + 0; next }
asked == "add" && NR <= benches + 1 { covered[NR - 2] = $1 ""; open[NR - 2] = $2 ""; errors[NR - 2] = $3 ""; next }
asked == "add" { sum[$1] = $2 ""; next }
$1 == "bench" && NF == 6 { start[$2 + 0] = $4 ""; run[$2 + 0] = $6 ""; next }
$1 == "start" { start[alone] = $2 "" }
$1 == "run" { run[alone] = $2 "" }

END {
    count = patterns(ports)
    planned = below(count, benches "") ? count + 0 : benches
    first = asked == "plan" ? alone : 0
    last = asked == "plan" ? alone : benches - 1
    tell(many(count, "pattern") " of " ports " ports over " (benches == 1 ? "1 bench" : benches " benches") (first < planned ? ": " signs() : ""))
    for (k = first; k <= last && k < planned; k++) widen(k)
    for (k = first; k <= last && k < planned; k++) tell("bench " right(k, "bench") (asked == "add" ? counts_words(k) : share_words(k)))
    if (last >= planned) tell(none_words(first < planned ? planned : first))
    if (asked == "add") tell(whole_words())
}

function tell(words) { print name ": " words }
function many(number_text, name) { return number_text " " name (number_text == "1" ? "" : "s") }
function signs() { return asked == "add" ? "# covered o open . left + mixed" : "# all . none + some" }

# ---- the columns: how wide each is, and a text at the right end of its own
function wider(column, text) { if (length(text) > wide[column]) wide[column] = length(text) }
function right(text, column) { return sprintf("%" wide[column] "s", text) }
function widen(k) {
    wider("bench", k "")
    wider("start", start[k])
    wider("run", run[k])
    if (asked != "add") return
    marks[k] = dealt(count, k, benches)
    left[k] = minus(marks[k], plus(covered[k], open[k]))
    wider("covered", covered[k])
    wider("open", open[k])
    wider("left", left[k])
    wider("errors", errors[k])
}

# ---- a bench
function share_words(k) { return " start " right(start[k], "start") " run " right(run[k], "run") " [" stretch(start[k], plus(start[k], plus(run[k], "1"))) "]" }
function counts_words(k) {
    return " covered " right(covered[k], "covered") " open " right(open[k], "open") " left " right(left[k], "left") " errors " right(errors[k], "errors") \
        " [" way(marks[k], covered[k], plus(covered[k], open[k])) "]"
}
function none_words(k) { return k == last ? "bench " k " has no plan" : "benches " k " to " last " have no plan" }

# ---- the bars, a cell for each of so many, or for each of 48 equal parts of them: where a cell begins, worked out once
function cells_of(length_text) { return below(length_text, most_cells "") ? length_text + 0 : most_cells }
function edge(length_text, cell) {
    if (!((length_text, cell) in edges)) edges[length_text, cell] = share(length_text, cell, cells_of(length_text))
    return edges[length_text, cell]
}

# the circuit, with the ranks from one up to another that is no longer the bench's
function stretch(from, to,    cell, here, past, text) {
    for (cell = 0; cell < cells_of(count); cell++) {
        here = edge(count, cell)
        past = edge(count, cell + 1)
        if (!below(here, from) && !below(to, past)) text = text "#"
        else text = text (below(here, to) && below(from, past) ? "+" : ".")
    }
    return text
}

# so many marks: those covered, those open after them up to `closed`, and those left
function way(length_text, done, closed,    cell, here, past, text) {
    for (cell = 0; cell < cells_of(length_text); cell++) {
        here = edge(length_text, cell)
        past = edge(length_text, cell + 1)
        if (!below(done, past)) text = text "#"
        else if (!below(here, closed)) text = text "."
        else text = text (!below(here, done) && !below(closed, past) ? "o" : "+")
    }
    return text
}

# ---- the whole: each bench's covered marks are at most its share, so that where they are as many as the patterns, each bench has covered all its own
function whole_words(    text) {
    if (sum["covered"] == sum["of"]) text = "every pattern is covered"
    else text = sum["covered"] " of " many(sum["of"], "pattern") " covered, " sum["open"] " open, " minus(sum["of"], plus(sum["covered"], sum["open"])) " left"
    return text ", " (sum["errors"] == "0" ? "no error" : many(sum["errors"], "error"))
}
