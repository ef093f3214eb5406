# What bin/show draws, read back from the drawing: each jack, port and cord of a panel, in text and as a picture, and each leg and each gap of a plan on its circuit;
# and the strip of bin/named, cell by cell. The patterns to compare with come from the orders of bin/orders, carried out here on a panel that starts at home, the gaps
# from the legs of the plans; the readers of tests/drawing know nothing of the drawers.
. "$root/tests/drawing/gaps.sh"
drawings_out=$(mktemp -d)

# met PLAN: number, rank and pattern of each mark of a plan, as its orders meet them
met() {
    bin/orders "$1" | awk -F '[=,]' -v ports="$(sed -n 's/^ports=//p' "$1")" '
        BEGIN { for (j = 1; j <= ports; j++) p[j] = j % ports + 1 }
        $1 == "swap" { t = p[$2]; p[$2] = p[$3]; p[$3] = t }
        $1 == "turn" { t = p[$2]; p[$2] = p[$3]; p[$3] = p[$4]; p[$4] = t }
        $1 == "mark" { line = p[1]; for (j = 2; j <= ports; j++) line = line "," p[j]; print $2, $3, line }'
}

# drawn LABEL PATTERN NEXT WORDS..: what bin/show draws of the WORDS is the pattern, in text and as a picture; the cords drawn heavy are those that differ in the
# NEXT one, which the text names; - where nothing follows
drawn() {
    drawn_label=$1
    drawn_pattern=$2
    drawn_next=$3
    shift 3
    bin/show "$@" >"$drawings_out/text" && bin/show --svg "$@" >"$drawings_out/picture" || fail "drawings: $drawn_label: nothing is drawn"
    heavy=$(echo "$drawn_pattern $drawn_next" | awk '
        { n = split($1, p, ","); m = split($2, q, ","); for (j = 1; j <= n && m == n; j++) if (p[j] != q[j]) line = line (line == "" ? "" : ",") j }
        END { print line == "" ? "none" : line }')
    back="$(awk -f tests/drawing/text_back.awk "$drawings_out/text") $(awk -f tests/drawing/svg_back.awk "$drawings_out/picture")"
    back="$back $(awk -v heavy=1 -f tests/drawing/svg_back.awk "$drawings_out/picture")"
    if [ "$back" != "$drawn_pattern $drawn_pattern $heavy" ]; then
        echo "  read back: $back; it is $drawn_pattern, heavy $heavy"
        drawn_wrong=$((drawn_wrong + 1))
    elif [ "$drawn_next" != - ] && ! grep -qE "(: |^      )$drawn_next\$" "$drawings_out/text"; then
        echo "  $drawn_label: the next pattern is not $drawn_next"
        drawn_wrong=$((drawn_wrong + 1))
    else
        drawn_right=$((drawn_right + 1))
    fi
}
drawn_wrong=0
drawn_right=0
# counted LABEL LEAST: the drawings since the last count, at least so many
counted() {
    if [ "$drawn_wrong" -eq 0 ] && [ "$drawn_right" -ge "$2" ]; then pass "drawings: $1: $drawn_right, each read back twice"; else fail "drawings: $1: $drawn_wrong wrong, $drawn_right right"; fi
    drawn_wrong=0
    drawn_right=0
}

# ---- ranks and patterns: all of 2 to 4 ports, every fifth of 5, by rank and by pattern, with the one that follows round the circuit
for ports in 2 3 4 5; do
    case $ports in 2) run=0 ;; 3) run=1 ;; 4) run=8 ;; 5) run=43 ;; esac
    printf 'ports=%s\nlegs=1\nstart=0\nrun=%s\n' "$ports" "$run" >"$drawings_out/circuit"
    met "$drawings_out/circuit" >"$drawings_out/met"
    { sed 's/^[0-9]* //' "$drawings_out/met" && sed -n '1s/^[0-9]* [0-9]* //p' "$drawings_out/met"; } |
        awk -v step="$([ "$ports" -lt 5 ] && echo 1 || echo 6)" '
            NF == 2 { rank[NR] = $1; pattern[NR] = $2; next }
            { pattern[NR] = $1 }
            END { for (i = 1; i < NR; i += step) print rank[i], pattern[i], (NR > 2 ? pattern[i + 1] : "-") }' >"$drawings_out/list"
    while read -r rank pattern next; do
        drawn "rank $rank of $ports" "$pattern" "$next" --ports "$ports" --rank "$rank"
        drawn "pattern $pattern" "$pattern" "$next" --pattern "$pattern"
        [ "$(bin/show --pattern "$pattern" --facts | sed -n 's/^mark=0,//p')" = "$rank" ] || drawn_wrong=$((drawn_wrong + 1))
    done <"$drawings_out/list"
done
counted 'ranks and patterns' 40

# ---- marks of plans: within a leg, at its end and at the plan's, forward and backward, up to 20 ports
for plan in plans/example plans/sample-20 plans/two-ports; do
    met "$plan" | awk '{ mark[NR] = $1; pattern[NR] = $3 } END { for (i = 1; i <= NR; i++) print mark[i], pattern[i], (i < NR ? pattern[i + 1] : "-") }' >"$drawings_out/list"
    while read -r mark pattern next; do
        drawn "mark $mark of $plan" "$pattern" "$next" --mark "$mark" "$plan"
    done <"$drawings_out/list"
done
counted 'marks of plans' 16
met plans/overlap-6 >"$drawings_out/met"
for mark in 9 10 19; do
    drawn "mark $mark of plans/overlap-6" "$(awk -v mark="$mark" '$1 == mark { print $3 }' "$drawings_out/met")" \
        "$(awk -v mark="$mark" '$1 == mark + 1 { print $3; found = 1 } END { if (!found) print "-" }' "$drawings_out/met")" --mark "$mark" plans/overlap-6
done
counted 'marks where a leg ends' 3

# ---- a plan on its circuit: each leg from its first rank to its last, in thousandths of a turn, in its direction
for plan in plans/*; do
    bin/show --svg "$plan" | awk -f tests/drawing/plan_back.awk >"$drawings_out/back"
    bin/show "$plan" >"$drawings_out/words"
    awk -F = -v count="$(bin/show --facts "$plan" | sed -n 's/^count=//p')" '
        function turn(rank) { return int(((rank / count) % 1) * 1000 + 0.5) % 1000 }
        $1 == "start" { start = $2 }
        $1 == "run" && $2 == "0" { print turn(start), turn(start), "one mark"; next }
        $1 == "run" && ($2 < 0 ? -$2 : $2) + 1 == count + 0 { print "once round"; next }
        $1 == "run" { print turn(start), turn(start + $2 + count), ($2 < 0 ? "backward" : "forward") }' "$plan" >"$drawings_out/legs"
    if cmp -s "$drawings_out/back" "$drawings_out/legs" && [ "$(grep -c '^leg ' "$drawings_out/words")" -eq "$(wc -l <"$drawings_out/legs")" ]; then
        pass "drawings: $plan: each leg is drawn where it runs"
    else
        cat "$drawings_out/back" "$drawings_out/legs"
        fail "drawings: $plan: a leg is drawn elsewhere"
    fi
done

# ---- the gaps of a plan, in words, as arcs and in the rows under them; and the strip that bin/named says. The example plans, and plans at the edges of what can be
# drawn: one rank among all, none, gaps through rank 0 and beside it, as many gaps as there can be, and where a cell of the strip begins and ends.
drawings_plan() { printf '%s\n' $2 >"$drawings_out/plan-$1"; }
last=895014631192902120
cell=18646138149852127
drawings_plan all-but-first "ports=20 legs=1 start=1 run=$((last - 1))"
drawings_plan all-but-last "ports=20 legs=1 start=0 run=$((last - 1))"
drawings_plan all-but-one "ports=20 legs=1 start=400000000000000000 run=-$((last - 1))"
drawings_plan all-but-two "ports=20 legs=2 start=1 run=400000000000000000 start=400000000000000002 run=$((last - 400000000000000002))"
drawings_plan first-alone 'ports=20 legs=1 start=0 run=0'
drawings_plan last-alone "ports=20 legs=1 start=$last run=0"
drawings_plan one-alone 'ports=20 legs=1 start=123456789012345678 run=0'
drawings_plan circuit "ports=20 legs=1 start=5 run=-$last"
drawings_plan circuits "ports=20 legs=2 start=5 run=-$last start=6 run=$last"
drawings_plan cell "ports=20 legs=1 start=$cell run=$cell"
drawings_plan cell-and-one "ports=20 legs=1 start=$cell run=$((cell + 1))"
drawings_plan cell-but-first "ports=20 legs=1 start=$((cell + 1)) run=$((cell - 1))"
drawings_plan cell-but-last "ports=20 legs=1 start=$cell run=$((cell - 1))"
drawings_plan not-the-cell "ports=20 legs=1 start=$((2 * cell + 1)) run=$((last - cell - 1))"
drawings_plan not-the-cell-but-one "ports=20 legs=1 start=$((2 * cell)) run=$((last - cell))"
drawings_plan last-cell "ports=20 legs=1 start=$last run=-$((cell - 1))"
drawings_plan ends-of-cells "ports=20 legs=3 start=$((cell - 1)) run=0 start=$((2 * cell)) run=0 start=$((last - cell)) run=1"
drawings_plan within-a-cell 'ports=8 legs=2 start=310 run=-1 start=5000 run=307'
drawings_plan over-the-end 'ports=8 legs=1 start=4000 run=-3700'
drawings_plan to-rank-0 'ports=7 legs=1 start=1 run=1000'
drawings_plan from-rank-0 'ports=7 legs=1 start=1000 run=853'
drawings_plan single-ranks 'ports=5 legs=3 start=0 run=2 start=4 run=13 start=20 run=22'
drawings_plan 48-ranks-and-more 'ports=6 legs=2 start=48 run=0 start=96 run=5'
drawings_plan every-other 'ports=4 legs=4 start=1 run=0 start=3 run=0 start=5 run=0 start=7 run=0'
drawings_plan one-of-two 'ports=3 legs=1 start=1 run=0'
drawings_plan sixteen "ports=20 legs=16 $(leg=0; while [ "$leg" -lt 16 ]; do echo "start=$((leg * 54321098765432109 + 1234567)) run=$((leg * 3111111111111111))"; leg=$((leg + 1)); done)"
drawings_plan sixteen-small "ports=6 legs=16 $(leg=0; while [ "$leg" -lt 16 ]; do echo "start=$((leg * 16 + 3)) run=$((leg % 2 ? -leg / 2 : leg))"; leg=$((leg + 1)); done)"
# drawn_plan PLAN SAID: the words of a plan, its picture, and in the file SAID what bin/named says: the example plans by the commands, the others by the drawers alone
# from facts that were asked for once
drawn_plan() {
    case $1 in
        plans/*)
            bin/show "$1" >"$drawings_out/text"
            bin/show --svg "$1" >"$drawings_out/picture"
            bin/named --words "$1" 2>"$2" >/dev/null
            ;;
        *)
            bin/show --facts "$1" >"$drawings_out/facts"
            awk -v name=show -f commands/numbers.awk -f commands/facts.awk -f commands/plan_text.awk <"$drawings_out/facts" >"$drawings_out/text"
            awk -v name=show -f commands/numbers.awk -f commands/facts.awk -f commands/plan_svg.awk <"$drawings_out/facts" >"$drawings_out/picture"
            { cat "$1" && sed -n '/^named=/,$p' "$drawings_out/facts"; } | awk -v name=named -f commands/numbers.awk -f commands/facts.awk -f commands/strip.awk >"$2"
            ;;
    esac
}
gaps_right=0
gaps_met=0
for plan in plans/* "$drawings_out"/plan-*; do
    label=${plan##*/}
    said=$drawings_out/said-${label#plan-}
    gaps_told "$plan" >"$drawings_out/told"
    gaps_turned "$plan" >"$drawings_out/turned"
    drawn_plan "$plan" "$said"
    awk -f tests/drawing/gaps_back.awk "$drawings_out/text" >"$drawings_out/lines"
    awk -v rows=1 -f tests/drawing/plan_back.awk "$drawings_out/picture" >"$drawings_out/rows"
    awk -v gaps=1 -f tests/drawing/plan_back.awk "$drawings_out/picture" >"$drawings_out/arcs"
    strip=$(strip_told "$said" "$plan")
    if ! cmp "$drawings_out/lines" "$drawings_out/told"; then
        fail "drawings: $label: the words have other gaps"
    elif ! cmp "$drawings_out/rows" "$drawings_out/told"; then
        fail "drawings: $label: the rows of the picture have other gaps"
    elif ! cmp "$drawings_out/arcs" "$drawings_out/turned"; then
        cat "$drawings_out/arcs" "$drawings_out/turned"
        fail "drawings: $label: a gap is drawn elsewhere"
    elif [ "$strip" != right ]; then
        fail "drawings: $label: the strip: $strip"
    else
        gaps_right=$((gaps_right + 1))
        gaps_met=$((gaps_met + $(wc -l <"$drawings_out/arcs")))
    fi
done
if [ "$gaps_right" -ge 35 ] && [ "$gaps_met" -ge 60 ]; then
    pass "drawings: the gaps of $gaps_right plans, $gaps_met of them, each in words, as an arc, in a row and in the strip"
else
    fail "drawings: only the gaps of $gaps_right plans are read back, $gaps_met of them"
fi

# ---- the readers see what is wrong: a cord that ends elsewhere, two ports exchanged, a cord that is broken off, a corner that is moved, a leg the other way round; a
# gap that is moved, too long, without a bar, like a leg, under another number; another number in the words; a sign of the strip that is another
bin/show --pattern 5,4,2,3,1 >"$drawings_out/text"
bin/show --svg --pattern 5,4,2,3,1 >"$drawings_out/picture"
bin/show --svg plans/example >"$drawings_out/plan"
# unseen LABEL READER FILE SCRIPT [MODE]: sed's SCRIPT changes the drawing, and the reader, in that mode, gives the same as before
unseen() {
    sed "$4" "$3" >"$drawings_out/damaged"
    if cmp -s "$3" "$drawings_out/damaged"; then
        fail "drawings: $1: the drawing is not damaged"
    elif [ "$(awk ${5:+-v "$5"} -f "tests/drawing/$2" "$drawings_out/damaged")" = "$(awk ${5:+-v "$5"} -f "tests/drawing/$2" "$3")" ]; then
        fail "drawings: $1 is not seen"
    else
        pass "drawings: $1 is seen"
    fi
}
unseen 'a corner that is moved' text_back.awk "$drawings_out/text" 's/^\(jack  3 .*\)---o/\1o   /'
unseen 'a cord that is broken off' text_back.awk "$drawings_out/text" '0,/|/s/|/ /'
unseen 'two ports exchanged' text_back.awk "$drawings_out/text" 's/^\(port .*\)1   2/\12   1/'
unseen 'a cord that ends elsewhere' svg_back.awk "$drawings_out/picture" '0,/class="cord"/s/\(class="cord".* \)\([0-9]*\)\.\([0-9]*\)"/\199.\3"/'
unseen 'a jack without its number' svg_back.awk "$drawings_out/picture" '/>3<\/text>/d'
unseen 'a leg that runs the other way' plan_back.awk "$drawings_out/plan" '0,/class="leg"/s/ 0 0 1 / 0 0 0 /'
bin/show --svg "$drawings_out/plan-single-ranks" >"$drawings_out/plan"
bin/show "$drawings_out/plan-single-ranks" >"$drawings_out/text"
unseen 'a gap the other way round' plan_back.awk "$drawings_out/plan" '/class="gap"/s/ 0 0 1 / 0 0 0 /' gaps=1
unseen 'a gap that is not drawn' plan_back.awk "$drawings_out/plan" '0,/class="gap"/{/class="gap"/d}' gaps=1
unseen 'a gap that begins elsewhere' plan_back.awk "$drawings_out/plan" '0,/class="gap"/s/\(class="gap" d="M \)[0-9.]* [0-9.]*/\1420.000 175.000/' gaps=1
unseen 'a gap that is drawn as a leg is' plan_back.awk "$drawings_out/plan" '/class="gap"/s/ stroke-dasharray="[^"]*"//' gaps=1
unseen 'a leg that is drawn as a gap is' plan_back.awk "$drawings_out/plan" '/class="leg"/s/ stroke-linecap/ stroke-dasharray="2 3" stroke-linecap/' gaps=1
unseen 'a gap without one of its bars' plan_back.awk "$drawings_out/plan" '0,/class="bar"/{/class="bar"/d}' gaps=1
unseen 'a bar that stands elsewhere' plan_back.awk "$drawings_out/plan" '0,/class="bar"/s/\(class="bar" d="M \)[0-9.]* [0-9.]*/\1420.000 164.000/' gaps=1
unseen 'a gap under another number' plan_back.awk "$drawings_out/plan" '/font-size="10"/s/>2</>3</' gaps=1
unseen 'another number in a row' plan_back.awk "$drawings_out/plan" 's/>18 to 19</>18 to 29</' rows=1
unseen 'a row without its ranks' plan_back.awk "$drawings_out/plan" '/>18 to 19</d' rows=1
unseen 'another number in what is named' plan_back.awk "$drawings_out/plan" 's/>named 40 of/>named 41 of/' rows=1
unseen 'another rank in the words' gaps_back.awk "$drawings_out/text" 's/ranks 18 to 19/ranks 18 to 18/'
unseen 'another number of patterns in the words' gaps_back.awk "$drawings_out/text" 's/2 patterns/3 patterns/'
unseen 'a gap that the words leave out' gaps_back.awk "$drawings_out/text" '/^gap 2/d'
bin/show "$drawings_out/plan-over-the-end" >"$drawings_out/text"
unseen 'the end of the list left out of the words' gaps_back.awk "$drawings_out/text" 's/, passing the end of the list//'

# damaged_strip LABEL PLAN SCRIPT: sed's SCRIPT changes what was said of the plan, and the reader of its strip does not see it
damaged_strip() {
    label=${2##*/}
    said=$drawings_out/said-${label#plan-}
    sed "$3" "$said" >"$drawings_out/damaged"
    if cmp -s "$said" "$drawings_out/damaged"; then
        fail "drawings: $1: the strip is not damaged"
    elif [ "$(strip_told "$drawings_out/damaged" "$2")" = right ]; then
        fail "drawings: $1 is not seen"
    else
        pass "drawings: $1 is seen"
    fi
}
damaged_strip 'one rank among all taken for named' "$drawings_out/plan-all-but-first" 's/\[+/[#/'
damaged_strip 'one rank among all taken for not named' "$drawings_out/plan-last-alone" 's/+\]/.]/'
damaged_strip 'a cell that is not all named' "$drawings_out/plan-cell" 's/\[\.#/[.+/'
damaged_strip 'a cell that is not all in a gap' "$drawings_out/plan-not-the-cell" 's/\[#\./[#+/'
damaged_strip 'a cell too much' plans/overlap-6 's/\]/.]/'
damaged_strip 'a cell too few' plans/overlap-6 's/\.\]/]/'
damaged_strip 'a strip that begins elsewhere' plans/overlap-6 's/\[\(.*\)\(.\)\]/[\2\1]/'
damaged_strip 'a strip from the other end' plans/example 's/\[###\.\.\.\.##\]/[##....###]/'
damaged_strip 'a strip without what its signs are' plans/example 's/# all/#/'
damaged_strip 'a strip that is missing' plans/example '/\[/d'

# ---- a drawer draws nothing from facts that do not fit together, and says why
bin/show --facts "$drawings_out/plan-single-ranks" >"$drawings_out/facts"
# refuses SCRIPT WHY: facts changed by sed's SCRIPT are refused by both drawers of plans
refuses() {
    sed "$1" "$drawings_out/facts" >"$drawings_out/damaged"
    for form in text svg; do
        awk -v name=show -f commands/numbers.awk -f commands/facts.awk -f "commands/plan_$form.awk" <"$drawings_out/damaged" >"$drawings_out/drawing" 2>"$drawings_out/why"
        if [ $? -eq 1 ] && [ ! -s "$drawings_out/drawing" ] && [ "$(cat "$drawings_out/why")" = "show: $2" ]; then
            refused_facts=$((refused_facts + 1))
        else
            cat "$drawings_out/why"
            fail "drawings: facts with $1 are drawn, or refused for another reason"
        fi
    done
}
refused_facts=0
refuses '/^named=/d' 'the facts are not complete'
refuses '/^of=/d' 'the facts are not complete'
refuses 's/^of=44/of=45/' 'the facts are not complete'
refuses '/^gaps=/d' 'the facts are not complete'
refuses 's/^gaps=3/gaps=2/' 'the facts are not complete'
refuses '$d' 'the facts are not complete'
refuses '$p' 'the facts are not complete'
refuses 's/^named=40/named=41/' 'the named ranks and the gaps are not the whole circuit'
refuses 's/^gap=18,2/gap=18,1/' 'the named ranks and the gaps are not the whole circuit'
refuses 's/^gap=3,1/gap=3,0/' 'gap 1 is none'
refuses 's/^gap=43,1/gap=44,1/' 'gap 3 is none'
refuses 's/^gap=3,1/gap=3,15/' 'gap 1 runs into the next one'
refuses 's/^gap=3,1/gap=19,1/' 'gap 1 runs into the next one'
refuses 's/^gap=43,1/gap=43,4/' 'gap 3 runs into the next one'
refuses 's/^gap=18,2/gap=18/' 'a line that is no fact: gap=18'
[ "$refused_facts" -ne 30 ] || pass 'drawings: nothing is drawn from facts that do not fit together'

# ---- what stands on a page: the name of the file, safely; the planners' page has the very drawing and the very words
cp plans/example "$drawings_out/a&b<c>\\n\"d"
bin/show --svg "$drawings_out/a&b<c>\\n\"d" >"$drawings_out/picture"
if grep -qF 'a&amp;b&lt;c&gt;\n&quot;d</title>' "$drawings_out/picture" && [ "$(grep -c '<svg ' "$drawings_out/picture")" -eq 1 ] && [ "$(tail -n 1 "$drawings_out/picture")" = '</svg>' ]; then
    pass 'drawings: a name with the signs of a picture stands in its title'
else
    fail 'drawings: a name with the signs of a picture breaks it'
fi
# shown COMMAND [WORDS]: what the command prints stands on the planners' page, as a block; with a second word, what it says on standard error
shown() {
    $1 2>"$drawings_out/said" >"$drawings_out/text"
    [ -z "${2-}" ] || mv "$drawings_out/said" "$drawings_out/text"
    if awk '
        NR == FNR { line[++n] = $0 == "" ? "" : "    " $0; next }
        { page[++m] = $0 }
        END {
            for (i = 0; i + n <= m && !found; i++) { found = n > 0; for (k = 1; k <= n && found; k++) found = page[i + k] == line[k] }
            exit !found
        }' "$drawings_out/text" docs/PLANS.md; then
        pass "drawings: docs/PLANS.md shows what $1 ${2:-draws}"
    else
        fail "drawings: docs/PLANS.md does not show what $1 ${2:-draws}"
    fi
}
shown 'bin/show --pattern 5,4,2,3,1'
shown 'bin/show plans/example'
shown 'bin/show plans/middle-4'
for plan in plans/overlap-6 plans/middle-4; do
    shown "bin/named $plan"
    shown "bin/named --words $plan" says
done
rm -rf "$drawings_out"
