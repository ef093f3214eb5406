# How many marks are to come and some how many bytes of orders they make, in words, with a warning where that is more than `room` bytes: what is free on the disk
# of the file that is written, or else (`room` is empty) what no disk holds. A mark's line has its number and its rank, and some 17 bytes beside them with the
# orders before it.
BEGIN {
    size = marks * (2 * length(marks) + 17)
    units = split("bytes KB MB GB TB PB EB", unit, " ")
    shown = size
    for (k = 1; shown >= 1000 && k < units; k++) shown /= 1000
    printf "%s: %s mark%s to come, some %.0f %s of orders\n", name, marks, marks == "1" ? "" : "s", shown, unit[k]
    if (size > (room == "" ? 1e13 : room + 0))
        printf "%s: warning: that is more than %s; Ctrl-C ends it\n", name, room == "" ? "any disk holds" : "the disk has room for"
}
