# The levels of a pattern in words, for people: after the pattern's own line, what `explain` printed of it. Of each level the pattern, and the shorter one
# that it came from by the step back of document 000, Remark 2: by A the last entry goes where the last port stands; by B the jack that holds the last port is
# taken out, and the entries above the last one fall by one. At the end the sum.

NR == 1 { ports = split($0, entry, ","); next }

/^level=/ {
    split($2, last, "=")
    i = last[2] + 0
    by = substr($3, 4)
    text = name ": " pattern() ": jack " ports " has port " i ", and jack " i " has port " entry[i] (by == "B" ? "" : ", not " ports)
    if (by == "A") {
        for (j = 1; j < ports; j++) if (entry[j] == ports) entry[j] = i
        ports -= 1
    } else {
        for (j = i; j < ports - 1; j++) entry[j] = entry[j + 1]
        ports -= 2
        for (j = 1; j <= ports; j++) if (entry[j] > i) entry[j] -= 1
    }
    print text ", so it came by " by " from " pattern()
    sum = sum (sum == "" ? "" : " + ") substr($5, 6)
    next
}

/^rank=/ { print name ": " (sum == "" ? "there is one pattern of 2 ports, of rank 0" : sum " = " substr($0, 6)) }

function pattern(  j, text) {
    for (j = 1; j <= ports; j++) text = text (j > 1 ? "," : "") entry[j]
    return text
}
