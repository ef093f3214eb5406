# The words of a plan, read back as plan_back.awk reads its picture with rows=1: how many are named, of how many, how many not, in how many gaps, or `all`; then for
# each gap its first rank, its last, how many ranks, and `over` where it says so; `broken: why` for a line that is none such. Columns are read by their words, blanks
# do not count.
{ gsub(/ +/, " ") }
/^every pattern is named$/ { print "all"; under = 1; next }
/^named [0-9]+ of [0-9]+ patterns, [0-9]+ in [0-9]+ gaps?$/ { print $2, $4, $6, $8; under = 1; next }
!under { next }
{
    if ($1 != "gap" || $2 != ++gaps ":") { print "broken: " $0; next }
    over = sub(/, passing the end of the list$/, "")
    if ($0 ~ /: ranks [0-9]+ to [0-9]+, [0-9]+ patterns$/) print $4, cut($6), $7, (over ? "over" : "-")
    else if ($0 ~ /: rank [0-9]+, 1 pattern$/) print cut($4), cut($4), 1, (over ? "over" : "-")
    else print "broken: " $0
}

function cut(text) { sub(/,$/, "", text); return text }
