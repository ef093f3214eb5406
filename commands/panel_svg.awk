# A panel as a picture to pin to the bench, A4 upright: the jacks in a column on the left, the ports in one on the right, each cord a curve from the
# centre of its jack to the centre of its port, heavy where the next move changes it. Below it the wiring as a table, the next move and its pattern.
END {
    need(panel_fault())
    carry()
    set_out()
    for (j = 1; j <= ports; j++) holder[cord[j]] = j
    begin()
    for (j = 1; j <= ports; j++) if (moves(j)) draw_cord(j, 6)
    for (j = 1; j <= ports; j++) if (!moves(j)) draw_cord(j, 2.5)
    for (j = 1; j <= ports; j++) ring("jack", left, j, j)
    for (p = 1; p <= ports; p++) ring("port", right, p, holder[p])
    y = height(ports) + radius + 50
    table()
    y += 44
    move()
    print "</svg>"
}

function set_out() {
    palette(colour)
    dashes = split("none|14 4|5 4|18 4 4 4|10 3 2 3 2 3", dash, "|")
    left = 150
    right = 690
    top = 190
    pitch = ports > 6 ? 550 / (ports - 1) : 110
    radius = pitch * 0.42 < 21 ? pitch * 0.42 : 21
}

function height(k) { return top + (k - 1) * pitch }

function begin(    name) {
    name = title == "" ? headline() : title
    svg_begin(name)
    caption(40, 60, fitting(name, 26, 0.69), "bold", "start", name)
    if (title != "") caption(40, 92, fitting(headline(), 17, 0.6), "normal", "start", headline())
    caption(40, (title == "" ? 92 : 118), 17, "normal", "start", "pattern " pattern(cord))
    caption(left, top - radius - 14, 15, "normal", "middle", "jacks")
    caption(right, top - radius - 14, 15, "normal", "middle", "ports")
}

# the cord of jack j; the light ones come last, so that no heavy one hides them
function draw_cord(j, wide,    middle, path) {
    middle = (left + right) / 2
    path = sprintf("M %.2f %.2f C %.2f %.2f %.2f %.2f %.2f %.2f", left, height(j), middle, height(j), middle, height(cord[j]), right, height(cord[j]))
    printf "<path class=\"cord\" d=\"%s\" fill=\"none\" stroke=\"%s\" stroke-width=\"%s\" stroke-dasharray=\"%s\"/>\n", \
        path, colour[j], wide, dash[(j - 1) % dashes + 1]
}

# the k-th circle of a column with its number, in the colour of its cord
function ring(class, x, k, j) {
    printf "<circle class=\"%s\" cx=\"%.2f\" cy=\"%.2f\" r=\"%.2f\" fill=\"white\" stroke=\"%s\" stroke-width=\"%s\"/>\n", \
        class, x, height(k), radius, colour[j], (moves(j) ? "4" : "2.5")
    printf "<text x=\"%.2f\" y=\"%.2f\" dy=\"0.36em\" font-size=\"%.2f\" font-weight=\"bold\" text-anchor=\"middle\">%d</text>\n", \
        x, height(k), radius * 1.1, k
}

# the wiring: under each jack its port, and its port after the move
function table(    j) {
    cell = ports > 14 ? 650 / ports : 46
    caption(40, y, 15, "bold", "start", "jack")
    for (j = 1; j <= ports; j++) caption(140 + (j - 0.5) * cell, y, 15, "bold", "middle", j)
    printf "<path d=\"M 40 %.2f L %.2f %.2f\" stroke=\"black\" stroke-width=\"1\"/>\n", y + 7, 140 + ports * cell, y + 7
    y += 26
    caption(40, y, 15, "normal", "start", "port")
    for (j = 1; j <= ports; j++) caption(140 + (j - 0.5) * cell, y, 15, "normal", "middle", cord[j])
    if (ended != "") return
    y += 24
    caption(40, y, 15, "normal", "start", "next port")
    for (j = 1; j <= ports; j++) caption(140 + (j - 0.5) * cell, y, 15, (moves(j) ? "bold" : "normal"), "middle", after[j])
}

# the next move in words
function move(    piece, n) {
    if (ended != "") {
        caption(40, y, 17, "bold", "start", end_words())
        return
    }
    n = change_pieces(piece)
    caption(40, y, 17, "bold", "start", "next: " mark_words(2))
    caption(40, y + 25, 15, "normal", "start", "pattern " pattern(after))
    caption(40, y + 50, 15, "normal", "start", n == 0 ? "no cord moves" : "the heavy cords move:")
    y += 50
    paragraph(piece, n)
    y += 6
    n = order_pieces(piece, 1)
    paragraph(piece, n)
}

# n pieces in lines
function paragraph(piece, n,    text, k, lines) {
    lines = filled(piece, n, 108, text)
    for (k = 1; k <= lines; k++) {
        y += 19
        caption(40, y, 14, "normal", "start", text[k])
    }
}
