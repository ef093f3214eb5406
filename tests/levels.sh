# The levels of a pattern: bin/explain prints what the reference finds from the list alone (tests/reference/levels.rs), byte for byte and with the same status,
# of patterns and of inputs with each fault. With no reference: the steps A and B that it names rebuild the pattern, and the numbers passed over add up to the
# rank. The page for new colleagues shows what is printed. How the command ends otherwise, and its words on standard error, are in commands.sh.
type reference_library >/dev/null 2>&1 || . "$root/tests/reference/build.sh"
. "$root/tests/commands/each.sh"
# outside the tree, since it has links, which `rt ci` takes nowhere in the tree
levels_out=$(mktemp -d)
mkdir "$levels_out/found"

# levels_different: `NAME what is different` of each input of which something else is printed than the reference prints, or than is known of it: a pattern is
# explained, and a fault meets its refusal at its jack, which the words name
levels_different() {
    LC_ALL=C diff -rq found wanted | sed 's|^Files found/\([0-9]*\) and .*|\1 something else than the reference prints|; s|^Only in .*: \([0-9]*\)$|\1 not run|'
    awk '
        $2 == "damaged" { next }
        {
            found = ""
            while ((getline line < ("found/" $1)) > 0) found = found line " "
            close("found/" $1)
            if ($2 ~ /^[0-9]/) {
                known = "refused=" $2 " at=" ($2 >= 3 && $2 <= 5 ? $4 : 0) " " ($4 > 0 ? "jack " $4 ": " : "")
                if (index(found, known) != 1 || found !~ / status=65 $/) print $1 " not " known
            } else if (found !~ /rank=[0-9]+ status=0 $/) print $1 " not explained"
        }' list
}

# ---- each input by the reference and by what is known of it, group by group; each refusal is met at each place that its fault can have
levels_groups() {
    awk '{ print $1 " texts/" $1 }' list | command_each explain found
    levels_different >different
    awk '
        FILENAME == "different" { name = $1; sub(/^[^ ]* /, ""); said[name] = said[name] "; " $0; next }
        { many[$2]++; met[$2, $3] = 1 }
        $1 in said && wrong[$2]++ == 0 { first[$2] = $0 said[$1] }
        function group(name, least, places, words,    k, place) {
            words = "levels: " many[name] + 0 " " words
            for (k = split(places, place, " "); k > 0; k--) if (!((name, place[k]) in met)) words = words ", and none " place[k]
            if (wrong[name] > 0) print "fail " words ": " wrong[name] " are not as they should be, such as " first[name]
            else if (many[name] < least || words ~ /, and none /) print "fail " words ": inputs are missing"
            else print "pass " words ": each as it should be"
        }
        END {
            group("every", 321, "-", "patterns, all of 2 to 6 ports")
            group("ends", 56, "-", "patterns of 7 to 20 ports, the first two and the last two of each")
            group("parts", 300, "-", "patterns of 7 to 20 ports, first or last in a part of the list")
            group("chance", 300, "-", "patterns of 7 to 20 ports by chance")
            group("11", 60, "missing after", "inputs refused with 11, the newline missing, and not the last byte that is judged")
            group("8", 200, "first middle last", "inputs refused with 8, an entry that is no plain decimal first, in the middle and last")
            group("1", 40, "few many", "inputs refused with 1, of one entry, and of 21 and more")
            group("3", 100, "first middle last", "inputs refused with 3, none of the ports at the first jack, in the middle and at the last")
            group("4", 40, "first middle last", "inputs refused with 4, a port once more at the second jack, in the middle and at the last")
            group("5", 60, "first middle last", "inputs refused with 5, the own number at the first jack, in the middle and at the last")
            group("damaged", 100, "-", "patterns damaged by chance")
        }' different list >verdicts
    while read -r verdict words; do "$verdict" "$words"; done <verdicts
}

# ---- with no reference: Definition 1 of document 000, on what is printed of each input that is accepted
levels_rebuilt() {
    awk '
        # A: n where the shorter pattern has i, and i at jack n
        function by_A(i,    j) {
            for (j = 1; j <= n; j++) if (entry[j] == i) entry[j] = n + 1
            entry[++n] = i
        }
        # B: one more for each entry of i or more, and what stands from jack i on is one jack further; n at jack i, and i at jack n
        function by_B(i,    j) {
            for (j = n; j >= 1; j--) entry[j < i ? j : j + 1] = entry[j] + (entry[j] >= i)
            n += 2
            entry[i] = n
            entry[n] = i
        }
        # a number has too many digits for awk: the last nine and those before them are added up by themselves
        function add(number,    digits) {
            digits = length(number)
            low += substr(number, digits > 9 ? digits - 8 : 1)
            if (digits > 9) high += substr(number, 1, digits - 9)
        }
        function sum(    carried) {
            carried = int(low / 1000000000)
            return (high + carried) " " (low - carried * 1000000000)
        }
        # what is wrong with so many lines, or nothing
        function wrong(given, lines,    k, field, over, pattern) {
            n = 2
            entry[1] = 2
            entry[2] = 1
            high = low = 0
            for (k = lines - 2; k >= 1; k--) {
                if (split(printed[k], field, /[ =]/) != 10) return "not a level: " printed[k]
                if (field[6] == "A") by_A(field[4] + 0)
                else by_B(field[4] + 0)
                if (n != field[2]) return "not so many ports: " printed[k]
                add(field[10])
            }
            over = sum()
            high = low = 0
            add(substr(printed[lines - 1], 6))
            if (sum() != over) return "what is passed over does not add up to " printed[lines - 1]
            for (k = 1; k <= n; k++) pattern = pattern (k > 1 ? "," : "") entry[k]
            return pattern == given ? "" : "another pattern is rebuilt: " pattern
        }
        {
            lines = 0
            while ((getline line < ("found/" $1)) > 0) printed[++lines] = line
            close("found/" $1)
            if (printed[lines] != "status=0") next
            getline given < ("texts/" $1)
            close("texts/" $1)
            accepted++
            said = wrong(given, lines)
            if (said != "") print $0 ": " said
        }
        END { print accepted + 0 >"accepted" }' list >different
    if [ -s different ]; then
        head -n 5 different
        fail "levels: $(wc -l <different) of $(cat accepted) patterns are not rebuilt from their levels, or have another rank"
    elif [ "$(cat accepted)" -lt 1000 ]; then
        fail "levels: only $(cat accepted) patterns have levels"
    else
        pass "levels: $(cat accepted) patterns are rebuilt from their levels by steps A and B, and what is passed over adds up to their ranks"
    fi
}

# ---- bin/explain itself

# levels_same LABEL NAME COMMAND..: the command prints what the reference prints of an input, with its status, and says nothing; a line where it does not
levels_same() {
    same_label=$1 same_text=$2
    shift 2
    { "$@" 2>&1; echo "status=$?"; } >once
    cmp -s once "wanted/$same_text" || echo "$same_label: $(grep "^$same_text " list)"
}
from_input() { bin/explain <"texts/$1"; }
in_two_pieces() { { head -c 3 "texts/$1" && sleep 0.1 && tail -c +4 "texts/$1"; } | bin/explain; }
levels_command() {
    # the first of each kind in each group
    awk '!(($2, $3) in met) { met[$2, $3]; print $1 }' list >some
    while read -r text; do
        levels_same 'a file' "$text" bin/explain "texts/$text"
        levels_same 'standard input' "$text" from_input "$text"
    done <some >different
    text=$(awk '$2 == "every" { name = $1 } END { print name }' list)
    levels_same 'two pieces' "$text" in_two_pieces "$text" >>different
    if [ ! -s different ] && [ "$(wc -l <some)" -ge 15 ]; then
        pass "levels: bin/explain prints the same of $(wc -l <some) of these inputs, as a file and on standard input"
    else
        head -n 5 different
        fail 'levels: bin/explain prints something else of an input as a file or on standard input'
    fi
    printf '5,4,2,3,1\n' | bin/explain >once
    if printf '%s\n' 'level=5 last=1 by=B read=backward over=9' 'level=3 last=2 by=A read=forward over=0' rank=9 | cmp - once; then
        pass 'levels: 5,4,2,3,1 is explained as it is by hand'
    else
        cat once
        fail 'levels: 5,4,2,3,1 is not explained as it is by hand'
    fi
}

# ---- the page for new colleagues: its examples, the beginning of the list for 5 ports, how many patterns there are, its refusals

levels_page() {
    echo 5,4,2,3,1 | bin/explain --words >printed 2>said
    echo 7,8,4,6,1,3,5,2 | bin/explain >longer
    if page_shows RANKS printed && page_shows RANKS said && page_shows RANKS longer; then
        pass 'levels: docs/RANKS.md shows what is printed of 5,4,2,3,1 and of 7,8,4,6,1,3,5,2, and what is said of the first'
    else
        fail 'levels: docs/RANKS.md shows something else than is printed of its patterns, or said'
    fi
    # what the page has on each row, as the command prints and says it of that pattern
    sed -n 's/^| \([0-9]*\) | \([0-9,]*\) | \([AB]\)(\([0-9]\)) | \([0-9,]*\) |$/\1 \2 \3 \4 \5/p' "$root/docs/RANKS.md" >rows
    while read -r rank pattern by last from; do
        echo "$pattern" | bin/explain --words >printed 2>said
        head -n 1 printed | grep -q "^level=5 last=$last by=$by " && grep -qx "rank=$rank" printed && head -n 1 said | grep -q " so it came by $by from $from\$" ||
            echo "$rank"
    done <rows >different
    if [ "$(wc -l <rows)" -eq 11 ] && [ ! -s different ]; then
        pass 'levels: docs/RANKS.md has the first block of the list for 5 ports, each pattern with its rank, its step and where it came from'
    else
        fail "levels: docs/RANKS.md has other patterns in the first block of 5 ports: $(echo $(cat different))"
    fi
    # its numbers by the count's rule: n - 1 times the sum of the two before
    awk 'BEGIN {
        one = 0; two = 1
        for (n = 2; n <= 8; n++) {
            many = many " | " (n - 1) * (one + two)
            block = block " |" (n > 2 ? " " one + two : "")
            parts = parts " |" (n > 2 ? " " one ", " two : "")
            three = one; one = (n - 1) * (one + two); two = three
        }
        print "| patterns in the list" many " |"
        print "| in a block" block " |"
        print "| of them by A, by B" parts " |"
    }' >counts
    if [ "$(grep -cxFf counts "$root/docs/RANKS.md")" -eq 3 ]; then
        pass 'levels: docs/RANKS.md has how many patterns there are, in a list and in a block'
    else
        cat counts
        fail 'levels: docs/RANKS.md has other numbers of patterns'
    fi
    # the refusals: a line that meets each, and its row
    for sample in '2,1,x' 1 '2,9,1,3,4' '2,3,2' '2,1,3'; do echo "$sample" | bin/explain | paste -sd '|'; done >refused
    printf 2,1 | bin/explain | paste -sd '|' >>refused
    sort -o refused refused
    sed -n '/^## When a line is refused/,/^## /s/^| \([0-9]*\) | .* | `\(.*\)` |$/\1|\2/p' "$root/docs/RANKS.md" | sort >rows
    if [ "$(wc -l <rows)" -eq 6 ] && sed 's/^refused=\([0-9]*\)|at=[0-9]*|/\1|/' refused | sort | cmp - rows; then
        pass 'levels: docs/RANKS.md has each refusal with the words that are printed'
    else
        cat refused
        fail 'levels: docs/RANKS.md has other refusals, or other words'
    fi
    echo 2,3,2 | bin/explain >printed
    page_shows RANKS printed && pass 'levels: docs/RANKS.md shows what is printed of 2,3,2' || fail 'levels: docs/RANKS.md shows something else of 2,3,2'
}

if ! echo 2,1 | bin/explain --quiet >/dev/null; then
    fail 'levels: bin/explain does not run'
elif reference_library && reference_over 'the inputs to explain' -o "$levels_out/maker" tests/levels/texts.rs && "$levels_out/maker" "$levels_out"; then
    ln -s "$root/bin" "$levels_out/bin"
    cd "$levels_out" || exit 1
    levels_groups
    levels_rebuilt
    levels_command
    levels_page
    cd "$root" || exit 1
else
    fail 'levels: the inputs are not made'
fi
rm -rf "$levels_out"
