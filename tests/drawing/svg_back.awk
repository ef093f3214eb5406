# The picture of a panel, read back from where its parts stand: a circle of class jack or port has the number that is written at its centre; a path of
# class cord joins the jack at its first point to the port at its last, each within one unit. It prints the pattern, or `broken: why`. With heavy=1 it
# prints instead the jacks whose cords are heavy, 4 units wide or more, or `none`.
BEGIN { RS = ">" }
{
    text = tag = $0
    sub(/<.*/, "", text)
    if (!sub(/^[^<]*</, "", tag)) next
    if (tag ~ /[ \t\n]transform=/) breaks("a part that is moved")
    if (tag ~ /^circle[ \t\n]/) circle(attribute("class"))
    else if (tag ~ /^text[ \t\n]/) { texts++; text_x[texts] = attribute("x"); text_y[texts] = attribute("y") }
    else if (tag ~ /^\/text/) content[texts] = text
    else if (tag ~ /^path[ \t\n]/ && attribute("class") == "cord") { path[++cords] = attribute("d"); wide[cords] = attribute("stroke-width") }
}

END {
    for (c = 1; c <= circles; c++) name(c)
    for (k = 1; k <= cords; k++) join(path[k], wide[k])
    if (count["jack"] < 2 || count["jack"] != count["port"]) breaks((count["jack"] + 0) " jacks and " (count["port"] + 0) " ports")
    for (j = 1; j <= count["jack"]; j++) {
        if (!(("jack", j) in named)) breaks("no jack " j)
        if (!(("port", j) in named)) breaks("no port " j)
        if (!(j in port)) breaks("jack " j " without a cord")
        pattern = pattern (j > 1 ? "," : "") port[j]
        if (thick[j]) moving = moving (moving == "" ? "" : ",") j
    }
    if (heavy) pattern = moving == "" ? "none" : moving
    print (why == "" ? pattern : "broken: " why)
}

# the first fault is the one that is told
function breaks(fault) { if (why == "") why = fault }

# the value of an attribute of the tag
function attribute(key) {
    if (!match(tag, "[ \t\n]" key "=\"[^\"]*\"")) return ""
    return substr(tag, RSTART + length(key) + 3, RLENGTH - length(key) - 4)
}

function circle(class) {
    if (class != "jack" && class != "port") return
    circles++
    count[class]++
    kind[circles] = class
    circle_x[circles] = attribute("cx")
    circle_y[circles] = attribute("cy")
}

function near(x, y, u, v) { return (x - u) * (x - u) + (y - v) * (y - v) <= 1 }

# the number at the centre of circle c
function name(c,    t, found) {
    for (t = 1; t <= texts; t++)
        if (near(text_x[t], text_y[t], circle_x[c], circle_y[c])) { found++; number[c] = content[t] }
    if (found != 1 || number[c] !~ /^[1-9][0-9]*$/) breaks("a " kind[c] " without its number")
    if ((kind[c], number[c]) in named) breaks(kind[c] " " number[c] " twice")
    named[kind[c], number[c]] = 1
}

# the number of the one circle of that kind at a point
function met(class, x, y,    c, found, at) {
    for (c = 1; c <= circles; c++)
        if (kind[c] == class && near(x, y, circle_x[c], circle_y[c])) { found++; at = number[c] }
    return found == 1 ? at : ""
}

# a cord: one stroke of curves and straight lines in absolute coordinates
function join(d, width,    n, part, from, to) {
    gsub(/,/, " ", d)
    gsub(/[A-Za-z]/, " & ", d)
    n = split(d, part, " ")
    if (part[1] != "M" || !whole(part, n)) { breaks("a cord that is no single stroke"); return }
    from = met("jack", part[2], part[3])
    to = met("port", part[n - 1], part[n])
    if (from == "") breaks("a cord that begins at no jack")
    else if (to == "") breaks("a cord that ends at no port")
    else if (from in port) breaks("jack " from " with two cords")
    else if (to in held) breaks("port " to " with two cords")
    else { port[from] = to; held[to] = from; thick[from] = width + 0 >= 4 }
}

# whether M and its point are followed by strokes L, C, S, Q or T, each with as many numbers as it takes
function whole(part, n,    i, left) {
    left = 2
    for (i = 2; i <= n; i++)
        if (part[i] ~ /^-?[0-9]+(\.[0-9]+)?$/) left--
        else if (left != 0) return 0
        else if (part[i] ~ /^[LT]$/) left = 2
        else if (part[i] ~ /^[SQ]$/) left = 4
        else if (part[i] == "C") left = 6
        else return 0
    return left == 0 && n > 3
}
