# A refusal in words, for people: `number`, `place` and `earlier`, the second number, as the program told them; what was read on standard input, `bytes` long.
# `asked` is what was asked for: a plan; a mark of a plan, whose line stands before the plan's own; a rank, which stands in the plan of one leg that starts
# there; a pattern; the entries of a pattern alone, whose words are printed already; a line of those that are translated, whose first 58 bytes alone are
# read here, less those that are 0: `place` is then its number, `jack` the jack at fault, and `held` the ports that hold there, 0 for none; or benches, whose
# question stands before the counts. Each line begins with the command's `name`. The first says what is wrong and where, those after it what often makes it so.

{ line[NR] = $0; whole += length($0) + 1 }

END {
    first = asked == "mark" || asked == "rank" || asked == "benches"
    here = asked == "line" ? line[1] : line[place + first]
    if (asked == "entries") entry_hints()
    else if (asked == "pattern") tell(pattern_words(place))
    else if (asked == "rank") tell(rank_words())
    else if (asked == "benches") tell_benches()
    else if (asked == "line") {
        tell("line " place ": " line_words())
        hints(place == 1 ? here : "", "such a file", "the key, the =, a number or a comma", "no - before a number", number == 11)
    } else if (place == 0) tell(number == 8 ? "the mark's number is above 64 bits" : "the plan has no such mark: show of the plan alone says which it has")
    else {
        tell("line " place ": " plan_words())
        hints(line[1 + first], "a plan", "the key, the = or the number", "- stands only before a run that is not 0", number == 11 && unended())
    }
}

function tell(words) { print name ": " words }
function hint(words) { tell("hint: " words) }

# ---- what is wrong

function ports() { return asked == "line" ? held : substr(line[1 + first], 7) }
function legs() { return substr(line[2 + first], 6) }
function key_due(at) { return at == 1 ? "ports=" : at == 2 ? "legs=" : at % 2 ? "start=" : "run=" }
function last_line() { return 2 + 2 * legs() }

# the highest rank of n ports; numbers.awk has numbers of any length
function highest_rank(n) { return minus(patterns(n + 0), "1") }

# the last line, at fault, is there without its newline
function unended() { return place + first == NR && whole > bytes }

function ports_words() { return "the ports are not 2 to 20" }
function count_words(what, kind) { return "the " what " is not below the count: for " ports() " ports the " kind "s are 0 to " highest_rank(ports()) }
function number_words(which) { return which " number is not plain decimal, or it is above 64 bits" }
function unended_words() { return "the last line has no newline" }

function plan_words() {
    if (number == 1) return ports_words()
    if (number == 6) return count_words("start", "rank")
    if (number == 7) return "the key is not the one due here, " key_due(place)
    if (number == 8) return number_words("the")
    if (number == 9) return "the legs are not 1 to 16"
    if (number == 10) return "the run is too long: for " ports() " ports at most " highest_rank(ports()) " either way"
    return ended_words()
}

# 11: what is there and should not be, or is due and not there
function ended_words() {
    if (place > 2 && place > last_line()) return "something follows the last line: legs=" legs() " makes " last_line() " lines"
    if (place + first > NR) return "the " (NR > first ? "plan ends early" : "plan is empty") ": " key_due(place) " is due here"
    if (unended()) return unended_words()
    return "the line goes on beyond the first 1024 bytes"
}

function rank_words() {
    if (number == 1) return ports_words()
    if (number == 6) return count_words("rank", "rank")
    return number_words("a")
}

# a line that begins with `pattern=`, at fault at a jack
function pattern_words(at,  text, entry, n, written) {
    text = substr(line[1], 9)
    if (cut_off()) sub(/,$/, "", text)
    n = split(text, entry, ",")
    if (number == 1) return "a pattern has 2 to 20 entries, and this one has " n
    if (number == 3) return "jack " at ": there is no port " entry[at] " among 1 to " n
    if (number == 4) return "jack " at ": port " entry[at] " is joined to jack " earlier " already"
    if (number == 5) return "jack " at ": it is joined to the port of its own number"
    written = written_as(entry, n)
    if (written == "large") return "a number of the pattern is above 64 bits"
    if (written == "plain" && cut_off()) return cut_off_words(n)
    if (written == "plain" && asked == "line" && n != held) return "the pattern has " n (n == 1 ? " entry" : " entries") ", and the ports are " held
    return "the pattern is not plain decimal numbers with commas between them"
}

# how n entries are written: plain, as numbers of which one is too large, or badly
function written_as(entry, n,  j, large) {
    for (j = 1; j <= n; j++) {
        if (entry[j] !~ /^(0|[1-9][0-9]*)$/) return "badly"
        if (length(entry[j]) > 20 || length(entry[j]) == 20 && entry[j] "" > "18446744073709551615") large = 1
    }
    return n == 0 ? "badly" : large ? "large" : "plain"
}

# a line may go on beyond what is read of it, and a pattern beyond its n entries there
function cut_off() { return asked == "line" && length(here) == 58 }
function cut_off_words(n) {
    if (n > held) return "the pattern has " n " entries or more, and the ports are " held
    return n == held && here !~ /,$/ ? long_words() : "the pattern has not " held " entries, or " long_words()
}

# a line that is translated. One that is too long is refused before its key is looked at, so that 8 at another key says that
function line_words(  key) {
    key = substr(here, 1, index(here, "="))
    if (number == 1) return ports_words()
    if (number == 6) return key == "rank=" ? count_words("rank", "rank") : count_words("number", "number")
    if (number == 7 && held == 0 && key ~ /^(rank|number|pattern)=$/) return "no ports= came before this line"
    if (number == 7) return "the key is none of ports=, rank=, number=, pattern="
    if (number == 11) return unended_words()
    if (key == "ports=" || held > 0 && (key == "rank=" || key == "number=")) return number_words("the")
    return held > 0 && key == "pattern=" ? pattern_words(jack) : long_words()
}
function long_words() { return "the line is longer than any good one, which has 58 bytes at most" }

# ---- the benches: their number and what follows from it, or a line of counts

function tell_benches(    part, benches, lines) {
    split(line[1], part, "[=,]")
    benches = part[3]
    lines = NR - 1
    if (number == 1) tell(ports_words())
    else if (number == 22) tell("there is no such bench: " many_benches(benches) (benches == 1 ? " has the number 0" : " have the numbers 0 to " (benches - 1)))
    else if (number == 27) tell("bench " place ": " counts_words(patterns(part[2] + 0), benches))
    else if (number == 21 && (below(benches, "1") || below("64", benches))) tell("the benches are not 1 to 64")
    else if (number == 21) {
        tell((lines == 0 ? "there are no counts" : lines == 1 ? "there is 1 line of counts" : "there are " lines " lines of counts") " for " many_benches(benches))
        hint("one line for each bench, from bench 0 on; 0,0,0 for one without a plan")
    } else {
        tell("line " place ": " (number == 11 ? unended_counts_words() : counts_line_words()))
        hints(place == 1 ? here : "", "such a file", "a number or a comma", "no - before a number", number == 11 && counts_bytes() < 4096)
        if (below(benches, place)) hint("one line for each bench, and " many_benches(benches) (benches == 1 ? " has" : " have") " no line " place)
    }
}

function many_benches(benches) { return benches (benches == 1 ? " bench" : " benches") }

# 27: a bench's own line and its share
function counts_words(count, benches,    part, closed, marks) {
    split(line[place + 2], part, ",")
    closed = plus(part[1], part[2])
    marks = dealt(count, place + 0, benches)
    if (below(marks, closed)) return "covered " part[1] " and open " part[2] " make " closed ", and " (marks == "0" ? "it has no plan" : "its share is " marks)
    return "the errors are " part[3] ", and a campaign counts 65535 at most"
}

# a line of counts that is none
function counts_line_words(    entry, n, written) {
    n = split(here, entry, ",")
    written = written_as(entry, n)
    if (written == "badly") return "it is not three plain decimal numbers with commas between them"
    if (n != 3) return "it has " n (n == 1 ? " number" : " numbers") ", and covered, open and errors are three"
    return "a number is above 64 bits"
}

# the first 4096 bytes of the counts are read
function counts_bytes() { return bytes - length(line[1]) - 1 }
function unended_counts_words() { return counts_bytes() < 4096 ? unended_words() : "it has no newline within the first 4096 bytes" }

# ---- what often makes it so: of a text by its front, with its own words for what it is, where blanks stand, and a minus

function front_hints(front) {
    if (front ~ /^\357\273\277/) hint("the file begins with a byte order mark; save it without one")
    else if (front ~ /^(\377\376|\376\377)/) hint("the file is in UTF-16; save it as plain text")
}

function hints(front, it, blanks, signed, no_end,    text) {
    front_hints(front)
    text = (asked == "benches" ? "," : "") here
    if (here ~ /\r$/) hint("the lines end in carriage returns; save the file with plain newlines")
    else if (here ~ /^[ \t]*(#|;|\/\/)/) hint("line " place " is a comment, and " it " has none")
    else if ((asked == "line" || place + first <= NR) && here ~ /^[ \t]*$/) hint("line " place " is blank, and " it " has no blank lines")
    else if (asked == "benches" && match(here, /[a-z]+=/)) hint("the numbers alone, without " substr(here, RSTART, RLENGTH))
    else if (here ~ /[ \t]/) hint("no blanks before or after " blanks)
    else if (number == 8 && text ~ /[=,]-?0[0-9]/) hint("no leading zero")
    else if (number == 8 && text ~ /[=,]\+/) hint("no plus before a number")
    else if (number == 8 && text ~ /[=,]-/) hint(signed)
    if (no_end) hint("end the last line with a newline, as the others")
}

# of the entries of a pattern, alone on their line
function entry_hints(  text) {
    text = "," line[1]
    front_hints(line[1])
    if (text ~ /\r$/) hint("the line ends in a carriage return; save the file with plain newlines")
    else if (text ~ /[ \t]/) hint("no blanks before or after an entry")
    else if (text ~ /^,pattern=/) hint("the entries alone, without pattern=")
    else if (number == 8 && text ~ /,0[0-9]/) hint("no leading zero")
    else if (number == 8 && text ~ /,[+-]/) hint("no sign before an entry")
    if (number == 11 && whole > bytes) hint("end the line with a newline")
    else if (number == 11 && NR > 1) hint("one pattern at a time: nothing comes after the first line")
}
