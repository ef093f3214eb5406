# Several benches: the library of include/jidrofex_benches.h beside the reference, and what it needs and exports; bin/benches beside the reference, byte for
# byte and with the same status; with no reference, the orders of all benches carried out on panels meet every pattern once; what the page for who plans it
# shows. How the command ends otherwise, and its words on standard error, are in commands.sh.
type reference_library >/dev/null 2>&1 || . "$root/tests/reference/build.sh"
type archive_ready >/dev/null 2>&1 || . "$root/tests/archive.sh"
. "$root/tests/commands/each.sh"
benches_archive=target/host/libjidrofex_benches.a
# outside the tree, since it has links, which `rt ci` takes nowhere in the tree
benches_out=$(mktemp -d)
mkdir "$benches_out/found"

# ---- the library beside the reference, with campaigns by the other library: one line for each group
benches_differential() {
    reference_over 'the differential test of several benches' -C "link-arg=$benches_archive" -C 'link-arg=target/host/libjidrofex.a' \
        -o "$benches_out/differential" tests/benches/differential.rs || return
    reference_groups benches "$benches_out/differential" 'benches: [1-9][0-9]* comparisons, 0 differences'
}

# ---- the command

# benches_different: `NAME what is different` of each case of which something else is printed than the reference prints, or than is known of it: what is good is
# printed, and a fault meets the refusal that its group is named for
benches_different() {
    LC_ALL=C diff -rq found wanted | sed 's|^Files found/\([0-9]*\) and .*|\1 something else than the reference prints|; s|^Only in .*: \([0-9]*\)$|\1 not run|'
    awk '
        $2 ~ /^add-(two|4096|damaged)$/ { next }
        {
            found = ""
            while ((getline line < ("found/" $1)) > 0) found = found line " "
            close("found/" $1)
            number = $2
            faulty = sub(/^(refused|add)-/, "", number)
            sub(/-.*/, "", number)
            known = faulty ? "^refused=" number " at=[0-9]+ status=65 $" : "^(bench|ports|covered)=[0-9].* status=0 $"
            if (found !~ known) print $1 (faulty ? " not refused with " number : " not printed")
        }' list
}

# each case by the reference and by what is known of it, group by group; each refusal is met at each place that its fault can have
benches_groups() {
    sed 's/ [^ ]*//' list | command_each benches found
    benches_different >different
    awk '
        FILENAME == "different" { name = $1; sub(/^[^ ]* /, ""); said[name] = said[name] "; " $0; next }
        { many[$2]++ }
        $1 in said && wrong[$2]++ == 0 { first[$2] = $0 said[$1] }
        function group(names, least, words,    k, one, sum, bad, example, none) {
            for (k = split(names, one, " "); k > 0; k--) {
                sum += many[one[k]]
                bad += wrong[one[k]]
                if (one[k] in first) example = first[one[k]]
                if (!(one[k] in many)) none = none ", and none " one[k]
            }
            words = "benches: " sum + 0 " " words none
            if (bad > 0) print "fail " words ": " bad " are not as they should be, such as " example
            else if (sum < least || none != "") print "fail " words ": cases are missing"
            else print "pass " words ": each as it should be"
        }
        END {
            group("shares", 1216, "splits of 2 to 20 ports over 1 to 64 benches, all that there are")
            group("plans plans-none", 570, "plans of 2 to 20 ports, first, last and in the middle, benches without a plan among them")
            group("refused-1", 798, "questions of all forms refused with 1, for their ports")
            group("refused-21", 399, "questions of all forms refused with 21, for their benches")
            group("refused-22", 99, "plans refused with 22, for their bench")
            group("add", 608, "files of counts within the shares, at their limits among them")
            group("add-11-first add-11-middle add-11-last add-11-after", 106, "files refused with 11, a newline missing first, in the middle, last and after")
            group("add-8-first add-8-middle add-8-last", 320, "files refused with 8, a line that is not three plain decimals first, in the middle and last")
            group("add-21-none add-21-few add-21-many", 43, "files refused with 21, with no line, with too few and with too many")
            group("add-27-first add-27-middle add-27-last", 82, "files refused with 27, counts that no bench has first, in the middle and last")
            group("add-two", 24, "files with more than one fault")
            group("add-4096", 43, "files of some 4,096 bytes, where what is judged ends")
            group("add-damaged", 400, "files damaged by chance")
        }' different list >verdicts
    while read -r verdict words; do "$verdict" "$words"; done <verdicts
    if [ "$(wc -l <verdicts)" -ne 13 ] || [ "$(cut -d ' ' -f 2 list | sort -u | wc -l)" -ne 23 ]; then fail 'benches: a group of cases is not judged'; fi
}

# bin/benches itself on the first case of each group, its file also on standard input
benches_command() {
    awk '!($2 in met) { met[$2]; print }' list | while read -r name group words; do
        { bin/benches $words 2>&1 </dev/null; echo "status=$?"; } >once
        cmp -s once "wanted/$name" || echo "$group: $words"
        case $words in
            *--add*)
                { bin/benches ${words% *} 2>&1 <"texts/$name"; echo "status=$?"; } >once
                cmp -s once "wanted/$name" || echo "$group: ${words% *} on standard input"
                ;;
        esac
        echo "$name" >>some
    done >different
    if [ -f some ] && [ "$(wc -l <some)" -eq 23 ] && [ ! -s different ]; then
        pass "benches: bin/benches prints the same of $(wc -l <some) of these cases, and of counts on standard input"
    else
        head -n 5 different
        fail 'benches: bin/benches prints something else of a case, or of counts on standard input'
    fi
}

# ---- with no reference: the orders of all benches

# benches_together PORTS BENCHES PATTERNS PLANS: every order of every bench that has a plan, carried out on a panel of its own, meets so many patterns in all,
# each once; and the ranks at the marks are those from 0 on, each once
benches_together() {
    rm -rf orders
    mkdir orders
    bench=0
    while [ "$bench" -lt "$2" ]; do
        bin/benches "$1" "$2" "$bench" >plan
        [ "$(cat plan)" = "bench=$bench none" ] || bin/orders plan >"orders/$bench"
        bench=$((bench + 1))
    done
    awk -v ports="$1" -f "$root/tests/benches/panel.awk" orders/* >carried
    cat orders/* | sed -n 's/^mark=[0-9]*,\([0-9]*\)$/\1/p' | sort -n >ranks
    if [ "$(cat carried)" = "$3 patterns on $4 benches" ] && [ "$(grep -c '^mark=' orders/* | awk -F : '{ sum += $NF } END { print sum }')" -eq "$3" ] &&
        awk -v last="$(($3 - 1))" 'BEGIN { for (k = 0; k <= last; k++) print k }' | cmp -s - ranks; then
        pass "benches: $1 ports over $2 benches: the orders of $4 plans, carried out, meet $3 patterns, each once; each rank at one mark"
    else
        head -n 5 carried
        fail "benches: $1 ports over $2 benches: not $3 patterns, each once, at the marks of $4 plans"
    fi
}

# ---- the page for who plans it

# benches_shown WHAT: the page has the lines that were `printed` and, where there are any, those that were `said`
benches_shown() {
    if page_shows BENCHES printed && { [ ! -s said ] || page_shows BENCHES said; }; then
        pass "benches: docs/BENCHES.md shows what is printed of $1"
    else
        cat printed said
        fail "benches: docs/BENCHES.md shows something else than is printed of $1, or said"
    fi
}

benches_page() {
    page=$root/docs/BENCHES.md
    bin/benches --words 6 4 >printed 2>said
    [ -s said ] || fail 'benches: nothing is said of 6 4 with --words'
    benches_shown '6 4, with its words'
    bin/benches 6 4 1 >printed 2>said
    benches_shown '6 4 1'
    bin/benches 2 3 >printed 2>said
    benches_shown '2 3'
    # a bench without a plan: one line, as the page has it in a sentence, which is no plan
    bin/benches 2 3 2 >printed
    if [ "$(cat printed)" = 'bench=2 none' ] && grep -qF '`bin/benches 2 3 2` prints the one line `bench=2 none`' "$page" &&
        ! bin/orders printed >/dev/null; then
        pass 'benches: of 2 3 2 one line is printed, as docs/BENCHES.md says, and it is no plan for bin/orders'
    else
        fail 'benches: of 2 3 2 something else is printed than docs/BENCHES.md says, or bin/orders takes it'
    fi
    # the counts are those on the page, and the refusal is that of the line which it has in a sentence
    sed -n 's/^    \([0-9]*,[0-9]*,[0-9]*\)$/\1/p' "$page" >counts
    [ "$(wc -l <counts)" -eq 4 ] || fail 'benches: docs/BENCHES.md does not have the counts of four benches'
    bin/benches --words 6 4 --add counts >printed 2>said
    [ -s said ] || fail 'benches: nothing is said of the counts with --words'
    benches_shown 'the counts that it has, with its words'
    second=$(tr '\n' ' ' <"$page" | sed -n 's/.*Were the second line of `counts` `\([0-9,]*\)`.*/\1/p')
    sed "2s/.*/$second/" counts >refused
    bin/benches --words 6 4 --add refused >printed 2>said
    [ -s said ] || fail 'benches: nothing is said of refused counts with --words'
    benches_shown "the counts with $second in the second line, with its words"
    "$root/examples/benches/run" >printed 2>said
    benches_shown 'the example'
    # its refusals are those that are met
    cat found/* | sed -n 's/^refused=//p' | sort -u >met
    awk '/^[|] number / { on = 1 } /^$/ { on = 0 } on && $2 ~ /^[0-9]+$/ { print $2 }' "$page" | sort >rows
    if [ "$(wc -l <rows)" -eq 6 ] && cmp -s rows met; then
        pass "benches: docs/BENCHES.md has the refusals that are met: $(echo $(sort -n met))"
    else
        fail "benches: docs/BENCHES.md has the refusals $(echo $(sort -n rows)), and these are met: $(echo $(sort -n met))"
    fi
}

# the program in C on the page, built by the command of the page in a folder that has what it names
benches_program() {
    rm -rf as-told
    mkdir as-told
    for entry in include target; do ln -s "$root/$entry" "as-told/$entry"; done
    awk '/^    #include "jidrofex_benches.h"$/ { on = 1 } on && /^[^ ]/ { exit } on { print substr($0, 5) }' "$page" >as-told/shares.c
    build_command=$(sed -n 's/^    \(cc .*\)$/\1/p' "$page")
    : >said
    if [ "$(echo "$build_command" | grep -c .)" -ne 1 ] || ! grep -q jidrofex_benches_sum as-told/shares.c; then
        fail 'benches: docs/BENCHES.md does not have one program in C and one command that builds it'
    elif (cd as-told && sh -c "$build_command" && ./shares) >printed 2>said; then
        benches_shown 'its program in C'
    else
        cat said
        fail 'benches: the program in C of docs/BENCHES.md does not build by its command, or does not end well'
    fi
}

archive_ready
if [ -f "$benches_archive" ] && reference_library; then
    archive_symbols benches jidrofex_benches
    benches_differential
fi
if ! bin/benches --quiet 2 1 >/dev/null; then
    fail 'benches: bin/benches does not run'
elif reference_library && reference_over 'the cases of several benches' -o "$benches_out/maker" tests/benches/texts.rs &&
    "$benches_out/maker" "$benches_out"; then
    ln -s "$root/bin" "$benches_out/bin"
    cd "$benches_out" || exit 1
    benches_groups
    benches_command
    benches_together 6 4 265 4
    benches_together 5 7 44 7
    benches_together 4 12 9 9
    benches_page
    benches_program
    cd "$root" || exit 1
else
    fail 'benches: the cases are not made'
fi
rm -rf "$benches_out"
