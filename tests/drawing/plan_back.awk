# The picture of a plan, read back from where its parts stand: the circle of class circuit has rank 0 at its top, clockwise rising; each path of class leg
# is an arc about its centre. For each leg in order it prints where the arc begins and ends, in thousandths of a turn, and its direction; `once round`
# where it comes back to its beginning; `one mark` where it is a point; or `broken: why`. With ticks=1 it prints instead, for each path of class tick,
# the rank that is written at its outer end, and where it stands. With gaps=1 it prints for each path of class gap, in order, where it begins and ends and
# how far it goes, in thousandths of a turn: an arc clockwise in dashes, on a ring outside the legs, with a bar at each end and its number in the middle.
# With rows=1 it prints what is written: how many are named, of how many, how many not, in how many gaps, or `all`; and from the row under `gap` on, for each
# row its first rank, its last, how many ranks, and `over` where it says so.
BEGIN { RS = ">" }
{
    text = tag = $0
    sub(/<.*/, "", text)
    if (!sub(/^[^<]*</, "", tag)) next
    class = attribute("class")
    if (tag ~ /[ \t\n]transform=/) moved = 1
    if (tag ~ /^circle[ \t\n]/ && class == "circuit") { circuits++; middle_x = attribute("cx"); middle_y = attribute("cy"); outer = attribute("r") }
    if (tag ~ /^circle[ \t\n]/ && class == "start") { dots++; dot_x[dots] = attribute("cx"); dot_y[dots] = attribute("cy") }
    if (tag ~ /^text[ \t\n]/) { texts++; text_x[texts] = attribute("x"); text_y[texts] = attribute("y") }
    if (tag ~ /^\/text/) content[texts] = text
    if (tag ~ /^path[ \t\n]/ && class == "tick") tick[++long_ticks] = attribute("d")
    if (tag ~ /^path[ \t\n]/ && class == "leg") { path[++legs] = attribute("d"); if (attribute("stroke-dasharray") != "") dashed_legs++ }
    if (tag ~ /^path[ \t\n]/ && class == "gap") { gap_path[++gap_paths] = attribute("d"); dashes[gap_paths] = attribute("stroke-dasharray") }
    if (tag ~ /^path[ \t\n]/ && class == "bar") bar[++bars] = attribute("d")
    if (tag ~ /^path[ \t\n]/ && class == "head") head[legs] = attribute("d")
}

END {
    if (moved || circuits != 1 || legs < 1 || dots != legs) print "broken: " (moved ? "a part that is moved" : "no circuit, no leg or no dot")
    else if (gaps) for (g = 1; g <= gap_paths; g++) print gap_told(g)
    else if (rows) read_rows()
    else if (ticks) for (k = 1; k <= long_ticks; k++) print labelled(tick[k])
    else for (leg = 1; leg <= legs; leg++) print told(leg)
}

# the value of an attribute of the tag
function attribute(key) {
    if (!match(tag, "[ \t\n]" key "=\"[^\"]*\"")) return ""
    return substr(tag, RSTART + length(key) + 3, RLENGTH - length(key) - 4)
}

# a path's letters and numbers, one by one; how many
function parts(d, part) {
    gsub(/,/, " ", d)
    gsub(/[A-Za-z]/, " & ", d)
    return split(d, part, " ")
}

function told(leg,    part, n, i, sweep, whole, step, away) {
    n = parts(path[leg], part)
    if (part[1] != "M" || n < 6) return "broken: no path"
    away = distance(part[2], part[3], middle_x, middle_y)
    if (!alone(leg, away) || distance(part[2], part[3], dot_x[leg], dot_y[leg]) > 1) return "broken: the ring or the dot is elsewhere"
    if (part[4] == "L") return n == 6 && part[2] == part[5] && part[3] == part[6] ? one_mark(leg, part) : "broken: a straight line"
    sweep = part[9]
    for (i = 4; i <= n; i += 8) {
        step = arc(part, i, away, sweep)
        if (step < 0 || i + 7 > n) return "broken: an arc that is not on its ring"
        whole += step
    }
    if (!leads(leg, part[n - 1], part[n], sweep)) return "broken: the head points elsewhere"
    if (whole > 0.5 && distance(part[2], part[3], part[n - 1], part[n]) < 0.01) return "once round"
    return thousandths(part[2], part[3]) " " thousandths(part[n - 1], part[n]) (sweep == 1 ? " forward" : " backward")
}

# whether a leg has a ring to itself, within the circuit
function alone(leg, away,    k) {
    ring[leg] = away
    for (k = 1; k < leg; k++) if (ring[k] - away < 4 && away - ring[k] < 4) return 0
    return away > 4 && away < outer - 4
}

function one_mark(leg, part) {
    if (leg in head) return "broken: a head on one mark"
    return thousandths(part[2], part[3]) " " thousandths(part[2], part[3]) " one mark"
}

# how much of a turn the arc at place i goes, or -1 where it is none about the centre in that direction: A radius radius 0 large sweep x y
function arc(part, i, away, sweep,    begin, end, step) {
    if (part[i] != "A" || part[i + 5] != sweep || part[i + 1] != part[i + 2] || far(part[i + 1], away)) return -1
    if (far(distance(part[i + 6], part[i + 7], middle_x, middle_y), away)) return -1
    begin = turn(part[i - 2], part[i - 1])
    end = turn(part[i + 6], part[i + 7])
    step = sweep == 1 ? end - begin : begin - end
    if (step < 0) step += 1
    if (step > 0.9999) step = 0
    return (part[i + 4] == 1 && step < 0.4999) || (part[i + 4] != 1 && step > 0.5001) ? -1 : step
}

function far(a, b) { return a - b > 0.1 || b - a > 0.1 }

# whether the head's three corners have the leg's end in the middle of one side, and the third lies on the ring, a little on in that direction
function leads(leg, x, y, sweep,    part, ahead) {
    if (!(leg in head) || parts(head[leg], part) != 10) return 0
    if (distance((part[2] + part[8]) / 2, (part[3] + part[9]) / 2, x, y) > 1) return 0
    if (far(distance(part[5], part[6], middle_x, middle_y), ring[leg]) || distance(part[5], part[6], x, y) > 30) return 0
    ahead = (x - middle_x) * (part[6] - y) - (y - middle_y) * (part[5] - x)
    return sweep == 1 ? ahead > 0 : ahead < 0
}

# a gap, where it is drawn as one: between the circuit and the outermost leg, dashed as no leg is
function gap_told(g,    part, n, i, away, whole, step, leg, first) {
    n = parts(gap_path[g], part)
    away = distance(part[2], part[3], middle_x, middle_y)
    if (part[1] != "M" || n < 6 || away > outer - 4) return "broken: no path within the circuit"
    for (leg = 1; leg <= legs; leg++) if (parts(path[leg], first) < 6 || distance(first[2], first[3], middle_x, middle_y) > away - 12) return "broken: among the legs"
    if (dashed_legs > 0 || dashes[g] !~ /[1-9]/) return "broken: it looks like a leg"
    if (part[4] == "L" && (n != 6 || part[2] != part[5] || part[3] != part[6])) return "broken: a straight line"
    if (part[4] != "L") for (i = 4; i <= n; i += 8) {
        step = arc(part, i, away, 1)
        if (step < 0 || i + 7 > n) return "broken: an arc that is not on its ring, clockwise"
        whole += step
    }
    if (bars != 2 * gap_paths || !barred(bar[2 * g - 1], part[2], part[3]) || !barred(bar[2 * g], part[n - 1], part[n])) return "broken: without its bars"
    if (!numbered(g, turn(part[2], part[3]) + whole / 2, away)) return "broken: without its number"
    return thousandths(part[2], part[3]) " " thousandths(part[n - 1], part[n]) " " int(whole * 1000 + 0.5)
}

# whether a straight line goes from the circuit inward through a point, past it
function barred(d, x, y,    part, long) {
    if (parts(d, part) != 6 || part[4] != "L" || far(distance(part[2], part[3], middle_x, middle_y), outer)) return 0
    long = distance(part[2], part[3], part[5], part[6])
    return long > 8 && long < 24 && !far(distance(part[2], part[3], x, y) + distance(x, y, part[5], part[6]), long)
}

# whether the one text that stands so far round and so far out is that number
function numbered(g, round, away,    t, off, found, number) {
    for (t = 1; t <= texts; t++) {
        if (far(distance(text_x[t], text_y[t], middle_x, middle_y), away)) continue
        off = turn(text_x[t], text_y[t]) - round
        off -= int(off)
        if (off < 0) off += 1
        if (off < 0.0005 || off > 0.9995) { found++; number = content[t] }
    }
    return found == 1 && number == g ""
}

# what is written: rows are texts of the same height, and the gaps' are those under the one that begins with `gap`
function read_rows(    t, height, line, under, words) {
    for (t = 1; t <= texts; t++) {
        if (content[t] ~ /^named [0-9]+ of [0-9]+ patterns, [0-9]+ in [0-9]+ gaps?$/) { split(content[t], words, " "); print words[2], words[4], words[6], words[8] }
        if (content[t] == "every pattern is named") print "all"
        if (content[t] == "gap") under = text_y[t]
    }
    for (t = 1; t <= texts && under != ""; t++) {
        if (text_y[t] + 0 <= under + 0) continue
        if (text_y[t] != height && height != "") { print row_told(line); line = "" }
        height = text_y[t]
        line = line (line == "" ? "" : "|") content[t]
    }
    if (line != "") print row_told(line)
}

# number, how many, ranks, and what more there is
function row_told(line,    cell, rank, n) {
    split(line, cell, "|")
    n = split(cell[3], rank, " to ")
    told_rows++
    if (cell[1] != told_rows "" || (n == 1) != (cell[2] == "1")) return "broken: " line
    return rank[1] " " rank[n] " " cell[2] " " (cell[4] == "over the end" ? "over" : (cell[4] == "" ? "-" : cell[4]))
}

# a tick from the circuit outward, and the one label at its outer end
function labelled(d,    part, t, found, rank) {
    if (parts(d, part) != 6 || far(distance(part[2], part[3], middle_x, middle_y), outer)) return "broken: a tick that is not on the circuit"
    for (t = 1; t <= texts; t++) if (distance(part[5], part[6], text_x[t], text_y[t]) < 20) { found++; rank = content[t] }
    if (found != 1) return "broken: a tick without its label"
    return rank " " thousandths(part[2], part[3])
}

# a square root by Newton and an arc tangent by its series: not every awk has them
function distance(x, y, u, v,    square, root, k) {
    square = (x - u) * (x - u) + (y - v) * (y - v)
    root = 1 + square
    for (k = 1; k <= 60; k++) root = (root + square / root) / 2
    return root
}

# the angle, as a part of a turn, of a slope of 0 to 1
function slope(z,    base, power, sum, k) {
    if (z > 0.41) { base = 0.125; z = (z - 1) / (z + 1) }
    power = z
    for (k = 1; k < 50; k += 2) { sum += power / k; power = -power * z * z }
    return base + sum / (2 * 3.141592653589793)
}

# where a point is about the centre: 0 at the top, clockwise to 1
function turn(x, y,    right, up, wide, high, part) {
    right = x - middle_x
    up = middle_y - y
    wide = right < 0 ? -right : right
    high = up < 0 ? -up : up
    part = wide <= high ? slope(wide / high) : 0.25 - slope(high / wide)
    if (up < 0) part = 0.5 - part
    return right < 0 ? 1 - part : part
}

function thousandths(x, y) { return int(turn(x, y) * 1000 + 0.5) % 1000 }
