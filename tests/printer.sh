# What the order printer prints, and what bin/named prints of what a plan names: both on plan files, good and bad. How they end and what they say in words is in
# commands.sh.
. "$root/tests/drawing/gaps.sh"
printer_out=$(mktemp -d)
for command in orders named; do bin/$command --quiet plans/two-ports >/dev/null || fail "$command: it does not run"; done

# printed COMMAND LABEL: what the command prints for the plan in $printer_out/plan, nothing on standard error, is what stands in $printer_out/expected
printed() {
    bin/$1 <"$printer_out/plan" >"$printer_out/found" 2>"$printer_out/said"
    if [ -s "$printer_out/said" ]; then
        cat "$printer_out/said"
        fail "$1: $2: something is said on standard error"
    elif cmp "$printer_out/found" "$printer_out/expected"; then
        pass "$1: $2"
    else
        head -n 5 "$printer_out/found"
        fail "$1: $2: another output"
    fi
}

# refused LABEL NUMBER PLACE PLAN: the plan, a format of printf, is refused by both with that number at that place, and nothing else is printed
refused() {
    # shellcheck disable=SC2059
    printf "$4" >"$printer_out/plan"
    printf 'refused=%s\nat=%s\n' "$2" "$3" >"$printer_out/expected"
    printed orders "$1 is refused with $2 at $3"
    printed named "$1 is refused with $2 at $3"
}

# filler LENGTH: that many digits
filler() { head -c "$1" /dev/zero | tr '\0' 1; }

# the paper's example, byte for byte
cp plans/example "$printer_out/plan"
printf '%s\n' mark=0,0 turn=1,2,3 mark=1,1 swap=1,2 mark=2,2 swap=1,3 swap=2,4 mark=3,8 swap=1,3 mark=4,7 end=5 >"$printer_out/expected"
printed orders "the paper's example"

# each refusal that a plan can meet
refused '21 ports' 1 1 'ports=21\nlegs=1\nstart=0\nrun=0\n'
refused 'a rank that is the count' 6 3 'ports=4\nlegs=1\nstart=9\nrun=0\n'
refused 'another key' 7 2 'ports=4\nleg=1\nstart=0\nrun=0\n'
refused 'a leading zero' 8 1 'ports=04\nlegs=1\nstart=0\nrun=0\n'
refused 'a carriage return' 8 1 'ports=4\r\nlegs=1\r\nstart=0\r\nrun=0\r\n'
refused 'no leg' 9 2 'ports=4\nlegs=0\n'
refused 'a run too long' 10 4 'ports=4\nlegs=1\nstart=0\nrun=-9\n'
refused 'a last line without its newline' 11 4 'ports=4\nlegs=1\nstart=0\nrun=0'
refused 'a byte after the last line' 11 5 'ports=4\nlegs=1\nstart=0\nrun=0\n '
refused 'empty input' 11 1 ''

# the first 1,024 bytes are judged: a newline that is one of them ends its line, and one after them is not seen
refused '1,023 bytes in one line' 8 1 "ports=$(filler 1016)\\n"
refused '1,024 bytes in one line' 8 1 "ports=$(filler 1017)\\n"
refused '1,025 bytes in one line' 11 1 "ports=$(filler 1018)\\n"
{ cat plans/example && head -c 1048576 /dev/zero; } >"$printer_out/plan"
printf 'refused=11\nat=7\n' >"$printer_out/expected"
printed orders 'a plan with 1 MiB after it is refused with 11 at 7'
printed named 'a plan with 1 MiB after it is refused with 11 at 7'

# the orders of a full circuit, carried out here on a panel that starts at home: each mark has its number and rank in turn, and a derangement not met before
bin/orders <plans/full-circuit-6 >"$printer_out/found"
if awk -F '[=,]' '
    BEGIN { for (j = 1; j <= 6; j++) p[j] = j % 6 + 1 }
    $1 == "swap" { t = p[$2]; p[$2] = p[$3]; p[$3] = t; next }
    $1 == "turn" { t = p[$2]; p[$2] = p[$3]; p[$3] = p[$4]; p[$4] = t; next }
    $1 == "mark" {
        key = ""
        for (j = 1; j <= 6; j++) { if (p[j] == j) bad = 1; key = key p[j] }
        if (key in met || $2 != marks || $3 != marks) bad = 1
        met[key] = 1; marks++; next
    }
    $1 == "end" { ended = $2; next }
    { bad = 1 }
    END { exit bad || marks != 265 || ended != 265 }' "$printer_out/found"; then
    pass 'orders: the full circuit of 6 ports meets each of the 265 derangements once'
else
    fail 'orders: the full circuit of 6 ports does not meet each derangement once'
fi

# the example plans, by their last line, which is also what the planners' page says of them
while read -r plan end; do
    if [ "$(bin/orders <"$plan" | tail -n 1)" != "$end" ]; then
        fail "orders: $plan does not end in $end"
    elif ! grep -F "\`$plan\`" docs/PLANS.md | grep -qF "| \`$end\` |"; then
        fail "docs/PLANS.md does not say that $plan ends in $end"
    else
        pass "orders: $plan ends in $end, as docs/PLANS.md says"
    fi
done <<'ENDS'
plans/example end=5
plans/two-ports end=1
plans/carriage-3 end=1
plans/full-circuit-6 end=265
plans/backward-5 end=44
plans/overlap-6 end=20
plans/middle-4 end=5
plans/sample-20 end=10
plans/full-circuit-10 end=1334961
ENDS

# what the page on the carriage shows of its plan
. "$root/tests/commands/each.sh"
bin/orders plans/carriage-3 >"$printer_out/found"
if page_shows CARRIAGE "$printer_out/found"; then
    pass 'orders: docs/CARRIAGE.md shows what is printed of plans/carriage-3'
else
    fail 'orders: docs/CARRIAGE.md shows something else than is printed of plans/carriage-3'
fi

# what the planners' page says of overlaps and of how many patterns there are, by the paper's rule for the count
if [ "$(bin/orders <plans/overlap-6 | sed -n 's/^mark=[0-9]*,//p' | sort -u | wc -l)" -eq 15 ] && grep -qF 'has 20 marks and names 15 patterns' docs/PLANS.md; then
    pass 'orders: plans/overlap-6 names 15 patterns, as docs/PLANS.md says'
else
    fail 'orders: plans/overlap-6 does not name as many patterns as docs/PLANS.md says'
fi
ports=2
while [ "$ports" -le 20 ] && count=$(count_of "$ports") && grep -qF "| $ports | $count | \`run=$((count - 1))\` |" docs/PLANS.md; do
    ports=$((ports + 1))
done
if [ "$ports" -eq 21 ]; then
    pass 'docs/PLANS.md has the counts of 2 to 20 ports'
else
    fail "docs/PLANS.md has another count for $ports ports"
fi

# ---- what a plan names: how many different ranks, of how many, and the gaps, each with its first rank and how many it has

# names LABEL PLAN LINES: bin/named prints these lines, with blanks between them, for the plan, whose lines have blanks between them too
names() {
    echo "$2" | tr ' ' '\n' >"$printer_out/plan"
    echo "$3" | tr ' ' '\n' >"$printer_out/expected"
    printed named "$1"
}
names 'two legs that overlap' 'ports=6 legs=2 start=0 run=9 start=5 run=9' 'named=15 of=265 gaps=1 gap=15,250'
names 'a leg within another' 'ports=6 legs=2 start=3 run=0 start=5 run=-5' 'named=6 of=265 gaps=1 gap=6,259'
names 'a leg twice' 'ports=5 legs=2 start=7 run=3 start=7 run=3' 'named=4 of=44 gaps=1 gap=11,40'
names 'the one pattern of two ports' 'ports=2 legs=1 start=0 run=0' 'named=1 of=1 gaps=0'
names 'the first of two' 'ports=3 legs=1 start=0 run=0' 'named=1 of=2 gaps=1 gap=1,1'
names 'the second of two' 'ports=3 legs=1 start=1 run=0' 'named=1 of=2 gaps=1 gap=0,1'
names 'a full circuit from its middle' 'ports=4 legs=1 start=5 run=8' 'named=9 of=9 gaps=0'
names 'the same backward' 'ports=4 legs=1 start=5 run=-8' 'named=9 of=9 gaps=0'
names 'a full circuit of two halves' 'ports=4 legs=2 start=7 run=4 start=6 run=-3' 'named=9 of=9 gaps=0'
names 'a gap through rank 0 is one' 'ports=4 legs=1 start=2 run=4' 'named=5 of=9 gaps=1 gap=7,4'
names 'a gap that ends at rank 0' 'ports=4 legs=1 start=1 run=6' 'named=7 of=9 gaps=1 gap=8,2'
names 'a gap that begins at rank 0' 'ports=4 legs=1 start=8 run=-4' 'named=5 of=9 gaps=1 gap=0,4'
names 'rank 0 alone is not named' 'ports=4 legs=1 start=8 run=-7' 'named=8 of=9 gaps=1 gap=0,1'
names 'the last rank alone is not named' 'ports=4 legs=1 start=0 run=7' 'named=8 of=9 gaps=1 gap=8,1'
names 'a leg past the end of the list' 'ports=4 legs=1 start=7 run=3' 'named=4 of=9 gaps=1 gap=2,5'
names 'a leg backward past the beginning' 'ports=4 legs=1 start=1 run=-3' 'named=4 of=9 gaps=1 gap=2,5'
names 'two legs that meet leave no gap between them' 'ports=4 legs=2 start=3 run=2 start=0 run=2' 'named=6 of=9 gaps=1 gap=6,3'
names 'two legs that meet at the end of the list' 'ports=4 legs=2 start=0 run=0 start=8 run=0' 'named=2 of=9 gaps=1 gap=1,7'
names 'gaps of one rank' 'ports=4 legs=2 start=0 run=2 start=4 run=3' 'named=7 of=9 gaps=2 gap=3,1 gap=8,1'
names 'gaps rise, whatever the order of the legs' 'ports=4 legs=2 start=7 run=0 start=1 run=0' 'named=2 of=9 gaps=2 gap=2,5 gap=8,2'
names 'as many gaps as legs, sixteen' \
    "ports=6 legs=16 $(for leg in 0 1 2 3 4 5 6 7 8 9 10 11 12 13 14 15; do printf 'start=%s run=0 ' $((16 * leg)); done | sed 's/ $//')" \
    "named=16 of=265 gaps=16 $(for leg in 0 1 2 3 4 5 6 7 8 9 10 11 12 13 14; do printf 'gap=%s,15 ' $((16 * leg + 1)); done)gap=241,24"
names '20 ports, every rank' 'ports=20 legs=1 start=7 run=-895014631192902120' 'named=895014631192902121 of=895014631192902121 gaps=0'
names '20 ports, every rank but the last' 'ports=20 legs=1 start=0 run=895014631192902119' \
    'named=895014631192902120 of=895014631192902121 gaps=1 gap=895014631192902120,1'
names '20 ports, rank 0 alone' 'ports=20 legs=1 start=0 run=0' 'named=1 of=895014631192902121 gaps=1 gap=1,895014631192902120'
names '20 ports, a gap of all but two' 'ports=20 legs=2 start=400000000000000000 run=1 start=400000000000000001 run=0' \
    'named=2 of=895014631192902121 gaps=1 gap=400000000000000002,895014631192902119'

# the example plans: as the marks that bin/orders prints have it, rank by rank, where there are not too many; from the legs, worked out in the shell; and on the page
# met_told PLAN: what bin/named is to print, from the ranks at the marks
met_told() {
    bin/orders "$1" | sed -n 's/^mark=[0-9]*,//p' | sort -n -u >"$printer_out/ranks"
    echo "named=$(wc -l <"$printer_out/ranks")"
    count=$(count_in "$1")
    echo "of=$count"
    first=$(head -n 1 "$printer_out/ranks")
    { cat "$printer_out/ranks" && echo $((first + count)); } | {
        read -r last
        while read -r rank; do
            [ "$rank" -eq $((last + 1)) ] || echo "$(((last + 1) % count)) $((rank - last - 1))"
            last=$rank
        done
    } | sort -n >"$printer_out/gaps"
    echo "gaps=$(wc -l <"$printer_out/gaps")"
    sed 's/^\([0-9]*\) /gap=\1,/' "$printer_out/gaps"
}
for plan in plans/*; do
    bin/named "$plan" >"$printer_out/found"
    bin/show --facts "$plan" >"$printer_out/facts"
    named_told "$plan" >"$printer_out/expected"
    if [ "$(sed -n 's/^end=//p' "$printer_out/facts")" -le 2000 ]; then met_told "$plan"; else cat "$printer_out/expected"; fi >"$printer_out/met"
    if ! cmp "$printer_out/found" "$printer_out/expected"; then
        fail "named: $plan: something else than its legs have"
    elif ! cmp "$printer_out/found" "$printer_out/met"; then
        fail "named: $plan: something else than its marks have"
    elif ! sed -n '/^named=/,$p' "$printer_out/facts" | cmp "$printer_out/found" -; then
        fail "show: $plan: other facts than bin/named prints"
    elif ! grep -F "\`$plan\`" docs/PLANS.md | grep -qF "| \`$(head -n 1 "$printer_out/found")\` |"; then
        fail "docs/PLANS.md does not say what $plan names"
    else
        pass "named: $plan, as its legs and its marks have it, and docs/PLANS.md"
    fi
done
# plans of 2 to 20 ports by chance, always the same ones: their legs are short or long, most of them overlap
chance=2026
drawn_from() {
    high=$chance
    chance=$(((chance * 1103515245 + 12345) % 2147483648))
    drawn=$(((high * 2147483648 + chance) % $1))
    chance=$(((chance * 1103515245 + 12345) % 2147483648))
}
tried=0
strange=0
while [ "$tried" -lt 19 ] && [ "$strange" -eq 0 ]; do
    tried=$((tried + 1))
    ports=$((2 + tried % 19))
    count=$(count_of "$ports")
    drawn_from 16
    legs=$((drawn + 1))
    {
        printf 'ports=%s\nlegs=%s\n' "$ports" "$legs"
        while [ "$legs" -gt 0 ]; do
            drawn_from "$count"
            start=$drawn
            drawn_from "$((count / (1 + tried % 5 * 4) + 1))"
            [ "$drawn" -lt "$count" ] || drawn=0
            [ "$drawn" -eq 0 ] || [ $((chance / 65536 % 2)) -eq 0 ] || drawn=-$drawn
            printf 'start=%s\nrun=%s\n' "$start" "$drawn"
            legs=$((legs - 1))
        done
    } >"$printer_out/plan"
    named_told "$printer_out/plan" >"$printer_out/expected"
    bin/named "$printer_out/plan" >"$printer_out/found" && cmp -s "$printer_out/found" "$printer_out/expected" || strange=$tried
done
if [ "$strange" -eq 0 ]; then
    pass "named: $tried plans by chance"
else
    cat "$printer_out/plan" "$printer_out/found"
    fail "named: a plan by chance, number $tried, names something else"
fi

rm -rf "$printer_out"
