# Orders carried out on panels, a file for each bench: every panel stands at home first, a swap exchanges what two jacks hold, and in a turn the first of three
# gets what the second held, the second what the third held, the third what the first held. Prints a line for each thing that is not as it should be, and in the
# last line how many patterns were met at the marks of all benches: `265 patterns on 4 benches`.
# -v ports=PORTS

# every jack holds the port of the next one, and the last jack port 1
function home(    j) {
    for (j = 1; j <= ports; j++) holds[j] = j % ports + 1
}

function wrong(words) { print FILENAME ": line " FNR ": " $0 ": " words }

# whether jack k is one of the panel's
function jack(k) { return k ~ /^[1-9][0-9]*$/ && k + 0 <= ports }

# the pattern that stands, by the jacks in turn: each port once, none at the jack of its own number, and never met before
function meet(    j, pattern, there) {
    for (j = 1; j <= ports; j++) {
        pattern = pattern (j > 1 ? "," : "") holds[j]
        if (holds[j] == j) wrong("jack " j " holds the port of its own number")
        if (there[holds[j]]++) wrong("port " holds[j] " twice")
    }
    if (pattern in met) wrong(pattern " was met at " met[pattern])
    else patterns++
    met[pattern] = FILENAME ", line " FNR
}

BEGIN { FS = "[=,]" }

FNR == 1 { home(); benches++; marks = 0; ended = 0 }
ended { wrong("after the end") }
$1 == "swap" && NF == 3 && jack($2) && jack($3) && $2 != $3 {
    held = holds[$2]
    holds[$2] = holds[$3]
    holds[$3] = held
    next
}
$1 == "turn" && NF == 4 && jack($2) && jack($3) && jack($4) && $2 != $3 && $3 != $4 && $2 != $4 {
    held = holds[$2]
    holds[$2] = holds[$3]
    holds[$3] = holds[$4]
    holds[$4] = held
    next
}
$1 == "mark" && NF == 3 && $2 == marks { marks++; meet(); next }
$1 == "end" && NF == 2 && $2 == marks { ended = 1; ends++; next }
{ wrong("no order, mark or end that is due") }

END {
    if (ends != benches) print "not every bench came to its end"
    print patterns + 0 " patterns on " benches + 0 " benches"
}
