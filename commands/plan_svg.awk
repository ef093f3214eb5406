# A plan as a picture, A4 upright: the circuit of all patterns is a circle with rank 0 at the top, clockwise rising. Each leg is an arc on a ring of its
# own, the first outermost, from the dot at its start to the head at its last mark; a leg of one mark is a dot, a whole circuit a whole ring. The gaps are
# hatched in grey between the circle and the legs, each from the bar at its first rank to the bar at its last, with its number on a disc in the middle.
END {
    need(plan_fault())
    set_out()
    begin()
    ticks()
    for (k = 1; k <= gap_lines; k++) draw_gap(k)
    for (leg = 1; leg <= legs; leg++) draw_leg(leg)
    legend()
    print "</svg>"
}

function set_out() {
    palette(colour)
    pi = 3.141592653589793
    middle_x = 420
    middle_y = 390
    radius = 226
    apart = legs > 6 ? (radius - 80) / (legs - 1) : 28
    thick = apart > 12 ? 7 : 5
    gap_ring = radius - 11
}

function begin(    name) {
    name = title == "" ? plan_words() : title
    svg_begin(name)
    caption(40, 60, fitting(name, 26, 0.69), "bold", "start", name)
    if (title != "") caption(40, 92, fitting(plan_words(), 17, 0.6), "normal", "start", plan_words())
    caption(40, (title == "" ? 92 : 118), fitting(covering(), 17, 0.6), "normal", "start", covering())
    printf "<circle class=\"circuit\" cx=\"%d\" cy=\"%d\" r=\"%d\" fill=\"none\" stroke=\"black\" stroke-width=\"1.5\"/>\n", middle_x, middle_y, radius
    caption(middle_x, middle_y - 4, 12, "normal", "middle", "ranks rise")
    caption(middle_x, middle_y + 12, 12, "normal", "middle", "clockwise")
}

# the sine of a part of a turn, by its series: not every awk has one
function sine(turn,    angle, term, sum, k) {
    turn -= int(turn)
    if (turn < 0) turn += 1
    if (turn > 0.75) turn -= 1
    else if (turn > 0.25) turn = 0.5 - turn
    angle = 2 * pi * turn
    sum = term = angle
    for (k = 2; k < 24; k += 2) { term = -term * angle * angle / (k * (k + 1)); sum += term }
    return sum
}

# the place of a part of a turn on a ring
function at_x(turn, ring) { return middle_x + ring * sine(turn) }
function at_y(turn, ring) { return middle_y - ring * sine(turn + 0.25) }
function place(turn, ring) { return sprintf("%.3f %.3f", at_x(turn, ring), at_y(turn, ring)) }

# a tick with its rank at 0 and at the quarters, or at each of few ranks; plain ticks between them where there is room
function ticks(    k) {
    if (below(count, "10")) for (k = 0; k < count + 0; k++) tick_at(k "", 8)
    else for (k = 0; k < 4; k++) tick_at(share(count, k, 4), 8)
    if (below(count, "10") || below("50", count)) return
    for (k = 0; k < count + 0; k++) tick_at(k "", 0)
}

# a tick at a rank, with its label where it is a long one
function tick_at(text, long,    turn, anchor, side) {
    turn = text / count
    printf "<path class=\"%s\" d=\"M %s L %s\" stroke=\"black\" stroke-width=\"%s\"/>\n", \
        (long ? "tick" : "between"), place(turn, radius), place(turn, radius + 4 + long), (long ? "2" : "1")
    if (!long) return
    side = sine(turn)
    anchor = side > 0.3 ? "start" : (side < -0.3 ? "end" : "middle")
    caption(at_x(turn, radius + 18), at_y(turn, radius + 22) + 5, (length(count) > 12 ? 12 : 15), "normal", anchor, text)
}

# a leg: its arc, its head, its dot
function draw_leg(leg,    ring, from, to) {
    ring = radius - 30 - (leg - 1) * apart
    from = rank[2 * leg - 1] / count
    to = circuit(leg) ? from : rank[2 * leg] / count
    printf "<path class=\"leg\" d=\"%s\" fill=\"none\" stroke=\"%s\" stroke-width=\"%s\" stroke-linecap=\"%s\"/>\n", \
        arc_path(ring, from, to, leg_turn(leg), backward(leg)), colour[leg], thick, (run[leg] == "0" ? "round" : "butt")
    if (run[leg] != "0") head(leg, ring, to)
    printf "<circle class=\"start\" cx=\"%.3f\" cy=\"%.3f\" r=\"%s\" fill=\"%s\" stroke=\"white\" stroke-width=\"1.2\"/>\n", \
        at_x(from, ring), at_y(from, ring), thick, colour[leg]
}

# how much of a turn a leg goes: the ring of a whole circuit is closed
function leg_turn(leg) { return run[leg] == "0" ? 0 : (circuit(leg) ? 1 : steps(leg) / count) }

# a gap: its hatching, a bar at each end, its number; what is too short to be seen still has its bars and its number
function draw_gap(k,    from, to, turned, middle) {
    from = gap_first[k] / count
    to = gap_last(k) / count
    turned = minus(gap_many[k], "1") / count
    middle = from + turned / 2
    printf "<path class=\"gap\" d=\"%s\" fill=\"none\" %s/>\n", arc_path(gap_ring, from, to, turned, 0), hatched(10)
    bar(from)
    bar(to)
    printf "<circle class=\"number\" cx=\"%.3f\" cy=\"%.3f\" r=\"8\" fill=\"#eeeeee\" stroke=\"#555555\" stroke-width=\"1.2\"/>\n", \
        at_x(middle, gap_ring), at_y(middle, gap_ring)
    printf "<text x=\"%.3f\" y=\"%.3f\" dy=\"0.36em\" font-size=\"10\" text-anchor=\"middle\">%d</text>\n", at_x(middle, gap_ring), at_y(middle, gap_ring), k
}
function hatched(wide) { return sprintf("stroke=\"#8c8c8c\" stroke-width=\"%.2f\" stroke-dasharray=\"2 3\"", wide) }
function bar(turn) { printf "<path class=\"bar\" d=\"M %s L %s\" stroke=\"black\" stroke-width=\"1.5\"/>\n", place(turn, radius), place(turn, radius - 20) }

# a part of a turn round a ring: one arc, or two halves where one could be taken for its other side; a point where it is nothing
function arc_path(ring, from, to, turned, back,    arc, middle) {
    if (turned == 0) return "M " place(from, ring) " L " place(from, ring)
    arc = sprintf(" A %.3f %.3f 0 0 %d ", ring, ring, !back)
    middle = from + (back ? -turned : turned) / 2
    return "M " place(from, ring) (turned > 0.5 ? arc place(middle, ring) : "") arc place(to, ring)
}

# a head that goes on from the leg's end; it and the dot are edged in white so that they show on a whole ring
function head(leg, ring, to,    tip, path) {
    tip = to + (backward(leg) ? -1 : 1) * thick * 3.4 / (2 * pi * ring)
    path = "M " place(to, ring - thick * 1.25) " L " place(tip, ring) " L " place(to, ring + thick * 1.25) " Z"
    printf "<path class=\"head\" d=\"%s\" fill=\"%s\" stroke=\"white\" stroke-width=\"1.2\"/>\n", path, colour[leg]
}

# under the circle a row for each leg, and under those a row for each gap: all of them on the page, closer where they are many
function legend(    leg, k, y, pitch, size) {
    pitch = 444 / (legs + gap_lines + 2.5)
    if (pitch > 27) pitch = 27
    size = length(ended) > 10 || length(count) > 10 ? 10 : 14
    split(size == 10 ? "86 112 396 654" : "86 130 360 590", column, " ")
    if (size > pitch * 0.75) size = pitch * 0.75
    y = 716
    row(y, size, "bold", "leg", "marks", "ranks", "way")
    rule(y, pitch)
    for (leg = 1; leg <= legs; leg++) {
        y += pitch
        swatch(y, size, sprintf("stroke=\"%s\" stroke-width=\"%s\"", colour[leg], thick))
        row(y, size, "normal", leg, span(number, leg), span(rank, leg), way(leg))
    }
    if (gaps == "0") return
    y += pitch * 1.5
    row(y, size, "bold", "gap", "patterns", "ranks", "named by no leg")
    rule(y, pitch)
    for (k = 1; k <= gap_lines; k++) {
        y += pitch
        swatch(y, size, hatched(size * 0.7))
        row(y, size, "normal", k, gap_many[k], gap_span(k), gap_passes(k) ? "over the end" : "")
    }
}

# a line under a row of heads; before a row what its arc looks like
function rule(y, pitch) { printf "<path d=\"M 40 %.2f L 800 %.2f\" stroke=\"black\" stroke-width=\"1\"/>\n", y + pitch * 0.26, y + pitch * 0.26 }
function swatch(y, size, stroke) { printf "<path d=\"M 40 %.2f L 70 %.2f\" %s/>\n", y - size * 0.35, y - size * 0.35, stroke }

function row(y, size, weight, leg, of_marks, of_ranks, runs_so) {
    caption(column[1], y, size, weight, "middle", leg)
    caption(column[2], y, size, weight, "start", of_marks)
    caption(column[3], y, size, weight, "start", of_ranks)
    if (runs_so != "") caption(column[4], y, size, weight, "start", runs_so)
}

# the first and the last of a leg, and of a gap
function span(list, leg) { return run[leg] == "0" ? list[2 * leg] : list[2 * leg - 1] " to " list[2 * leg] }
function gap_span(k) { return gap_many[k] == "1" ? gap_first[k] : gap_first[k] " to " gap_last(k) }

# how a leg runs, briefly
function way(leg,    text) {
    if (run[leg] == "0") return "one mark"
    text = backward(leg) ? "backward" : "forward"
    if (circuit(leg)) return "once round, " text
    return text (passes_end(leg) ? " over the end" : "")
}
