# The translator beside the reference: bin/translate prints what a plain Rust program over the reference prints (tests/reference/translate.rs), byte for byte and
# with the same status, of texts good and damaged, in one piece and in many; numbers there and back are the same; a text of any length takes no more memory than a
# short one, and what is translated is printed while more is waited for; the page for labs shows what is printed. How the command ends otherwise, and its words,
# are in commands.sh.
type reference_library >/dev/null 2>&1 || . "$root/tests/reference/build.sh"
. "$root/tests/commands/each.sh"
# outside the tree, since it has links, which `rt ci` takes nowhere in the tree
translation_out=$(mktemp -d)
mkdir "$translation_out/texts" "$translation_out/each"

# translation_wanted TEXT: what the reference prints of a text, and its status on a last line
translation_wanted() {
    "$translation_out/reference" <"$1"
    echo "status=$?"
}

# translation_same LABEL TEXT COMMAND..: the command prints what the reference prints of a text, with its status, and says nothing
translation_same() {
    same_label=$1 same_text=$2
    shift 2
    { "$@" 2>&1; echo "status=$?"; } >"$translation_out/found"
    translation_wanted "$same_text" >"$translation_out/wanted"
    if cmp "$translation_out/found" "$translation_out/wanted"; then
        pass "translation: $same_label"
    else
        diff "$translation_out/found" "$translation_out/wanted" | head -n 4
        fail "translation: $same_label: something else than the reference prints"
    fi
}

# ---- texts: every pattern of 2 to 6 ports; by chance; damaged, each by the reference and by what is known of it
translation_texts() {
    translation_same 'every rank, number and pattern of 2 to 6 ports' texts/every bin/translate texts/every
    translation_same '6,000 ranks, numbers and patterns of 7 to 20 ports by chance, with changes of ports between' texts/chance bin/translate texts/chance
    awk '{ print $1 " texts/" $1 }' texts/list | command_each translate each
    while read -r text number line what; do
        translation_wanted "texts/$text" >wanted
        cmp -s wanted "each/$text" || echo "$what: something else than the reference prints"
    done <texts/list >different
    awk '
        {
            known = $2 == 0 ? "status=0" : "refused=" $2 " at=" $3 " status=65"
            before = last = found = ""
            while ((getline line < ("each/" $1)) > 0) { before = last; last = found; found = line }
            close("each/" $1)
            if ($2 > 0) found = before " " last " " found
            if (found != known) print $0 ": " found
            met[$2, $4] = 1
        }
        END {
            for (k = split("1 3 4 5 6 7 8", number, " "); k > 0; k--)
                for (j = split("first: middle: last:", place, " "); j > 0; j--)
                    if (!((number[k], place[j]) in met)) print "no text has " number[k] " in a line that is " place[j]
            if (!((11, "unended:") in met) || NR < 300) print "texts are missing"
        }' texts/list >>different
    if [ -s different ]; then
        head -n 5 different
        fail "translation: of $(wc -l <texts/list) texts damaged or at the limits $(wc -l <different) are not as they should be"
    else
        pass "translation: $(wc -l <texts/list) texts damaged or at the limits, each refused as it should be: 1, 3 to 8 first, in the middle and last, 11 at the end"
    fi
}

# ---- pieces: the same is printed however the text comes
in_pieces() { ./pieces "$1" <"$2" | bin/translate; }
translation_pieces() {
    head -n 100 texts/chance >texts/piecewise
    head -n 3000 texts/chance >texts/long
    { cat texts/piecewise && printf 'ports=20\npattern=2,1,4,3,6,5,8,7,10,9,12,11,14,13,16,15,18,17,20,19\r\nrank=0\n'; } >texts/too-long
    { cat texts/piecewise && printf 'ports=20\npattern=2,1,4,3,6,5,8,7,10,9,12,11,14,13,16,15,18,17,20,19'; } >texts/unended
    for bytes in 1 7 4096 65536; do
        for text in piecewise long too-long unended; do
            case $bytes,$text in [17],long) continue ;; esac
            translation_same "in pieces of $bytes bytes, $text" texts/$text in_pieces "$bytes" texts/$text
        done
    done
}

# ---- 100,000 numbers of 20 ports, the first and the last among them, to ranks and back to themselves
translation_back() {
    awk 'BEGIN {
        chance = 2026
        for (k = 1; k <= 99998; k++) {
            chance = (chance * 69069 + 1) % 4294967296
            high = chance % 895014631
            chance = (chance * 69069 + 1) % 4294967296
            print (high > 0 ? high : "") sprintf(high > 0 ? "%09d" : "%d", chance % 1000000000)
        }
        print "0\n895014631192902120"
    }' >numbers
    { echo ports=20 && sed 's/^/number=/' numbers; } >texts/numbers
    translation_same '100,000 numbers of 20 ports' texts/numbers bin/translate texts/numbers
    { echo ports=20 && sed '$d; s/ .*//' found; } >texts/ranks
    bin/translate texts/ranks >names
    if [ "$(sort -u numbers | wc -l)" -gt 99000 ] && sed '$d' found | cmp - names && sed 's/.* number=//; s/ .*//' names | cmp - numbers; then
        pass 'translation: and back: from their ranks the same numbers'
    else
        fail 'translation: the ranks of 100,000 numbers do not lead back to them'
    fi
}

# ---- memory, and lines as they come

# translation_begin: the command is started on a pipe that stays open, descriptor 5, and prints into `streamed`
translation_begin() {
    rm -f pipe
    mkfifo pipe
    bin/translate --quiet <pipe >streamed 2>&1 &
    translation_command=$!
    exec 5>pipe
}
# translation_end: the pipe is closed; its status
translation_end() {
    exec 5>&-
    wait "$translation_command"
}
# translation_shows LINES: so many lines are printed, now or within some seconds
translation_shows() {
    tries=0
    while [ "$(wc -l <streamed)" -ne "$1" ] && [ "$tries" -lt 200 ]; do
        sleep 0.05
        tries=$((tries + 1))
    done
    [ "$(wc -l <streamed)" -eq "$1" ]
}
# translation_peak: the most kilobytes that the program has had when it has read all of standard input
translation_peak() {
    translation_begin
    ./pieces 65536 >&5 2>/dev/null
    cat /proc/[0-9]*/status 2>/dev/null | awk -v command="$translation_command" '/^PPid:/ { ours = $2 == command } /^VmHWM:/ && ours { print $2 }'
    translation_end
}
# grown LABEL PEAK: no more than 2 MB above that of a short text
grown() {
    case $translation_short,$2 in
        *[!0-9,]* | ,* | *,) fail "translation: $1: the program's memory was not found: '$translation_short' and '$2'" ;;
        *)
            if [ "$2" -le $((translation_short + 2048)) ]; then
                pass "translation: $1 takes $2 kB at most, a short text $translation_short"
            else
                fail "translation: $1 takes $2 kB, a short text $translation_short"
            fi
            ;;
    esac
}
translation_memory() {
    translation_short=$(head -n 20 texts/every | translation_peak)
    # most lines are of ports, which take the least time
    translation_long=$(awk 'BEGIN { for (k = 0; k < 2200000; k++) print k % 25 ? "ports=20" : "ports=2\nrank=0" }' | translation_peak)
    grown '20 MB of lines' "$translation_long"
    translation_long=$(head -c 20000000 /dev/zero | tr '\0' 1 | translation_peak)
    grown 'a line of 20 MB' "$translation_long"
}
translation_as_it_comes() {
    translation_begin
    ./pieces 7 <<'FIRST' >&5
ports=4
rank=8
FIRST
    translation_shows 1 && first=$(cat streamed)
    printf 'number=1\npattern=4,3' | ./pieces 65536 >&5
    translation_shows 2 && second=$(tail -n 1 streamed)
    echo ',2,1' | ./pieces 65536 >&5
    translation_end
    if [ "$?,${first-},${second-},$(tail -n 1 streamed)" = \
        '0,rank=8 number=0 pattern=2,1,4,3,rank=0 number=1 pattern=2,3,4,1,rank=2 number=8 pattern=4,3,2,1' ]; then
        pass 'translation: what is translated is printed while more is waited for'
    else
        cat streamed
        fail 'translation: a line is not printed before the next one comes'
    fi
}

# ---- the page for labs: its example and what is printed of it, the patterns of 4 ports, its commands, its script

translation_page() {
    translation_same 'examples/lab/numbers' "$root/examples/lab/numbers" bin/translate "$root/examples/lab/numbers"
    sed '$d' found >printed
    if page_shows NUMBERS "$root/examples/lab/numbers" && page_shows NUMBERS printed; then
        pass 'translation: docs/NUMBERS.md shows examples/lab/numbers, and what is printed of it'
    else
        fail 'translation: docs/NUMBERS.md shows another text than examples/lab/numbers, or prints something else of it'
    fi
    sed -n 's/^| \([0-9]\) | \([0-9],[0-9],[0-9],[0-9]\) | \([0-9]\) |$/rank=\3 number=\1 pattern=\2/p' "$root/docs/NUMBERS.md" >rows
    { echo ports=4 && for number in 0 1 2 3 4 5 6 7 8; do echo "number=$number"; done; } | bin/translate | cmp - rows &&
        pass 'translation: docs/NUMBERS.md has the nine patterns of 4 ports' || fail 'translation: docs/NUMBERS.md has other patterns of 4 ports'
    # its refusals are those that the texts above meet, each with its row
    if [ "$(sed -n '/^## When a line is refused/,/^## /s/^| \([0-9]*\) | .*/\1/p' "$root/docs/NUMBERS.md" | tr '\n' ' ')" = \
        "$(cut -d ' ' -f 2 texts/list | grep -vx 0 | sort -nu | tr '\n' ' ')" ]; then
        pass 'translation: docs/NUMBERS.md has the refusals that lines meet'
    else
        fail 'translation: docs/NUMBERS.md has other refusals than lines meet'
    fi
    mkdir desk
    ln -s "$root/bin" desk/bin
    head -n 100 numbers >desk/numbers
    sed -n '/^    { echo ports=20 && /s/^    //p' "$root/docs/NUMBERS.md" >desk/back
    if [ "$(wc -l <desk/back)" -eq 2 ] && said=$(cd desk && sh ./back 2>&1) && [ -z "$said" ] && [ "$(wc -l <desk/ranks)" -eq 100 ]; then
        pass 'translation: the commands of docs/NUMBERS.md lead there and back'
    else
        fail 'translation: the commands of docs/NUMBERS.md do not lead there and back'
    fi
    sed -n '/^    if bin\/translate/,/^    fi$/s/^    //p' "$root/docs/NUMBERS.md" >desk/script
    printf 'ports=5\nrank=9\npattern=5,3,2,1,3\n' >desk/refused
    script_on() { (cd desk && cp "$1" numbers.txt && sh ./script) 2>&1; }
    if [ "$(script_on "$root/examples/lab/numbers" | head -n 1)" = rank=8 ] && [ "$(script_on refused)" = 'not translated: refused=4 at=3' ]; then
        pass 'translation: the script of docs/NUMBERS.md does what it says'
    else
        fail 'translation: the script of docs/NUMBERS.md does something else'
    fi
    bin/translate --words desk/refused >printed 2>said
    if [ $? -eq 65 ] && page_shows NUMBERS printed && page_shows NUMBERS said && grep -qF 'Of the lines `ports=5`, `rank=9` and `pattern=5,3,2,1,3`:' "$root/docs/NUMBERS.md"; then
        pass 'translation: a refused line of docs/NUMBERS.md is printed, and said in words, as it shows'
    else
        cat printed said
        fail 'translation: a refused line of docs/NUMBERS.md is printed or said in another way'
    fi
}

if ! bin/translate --quiet examples/lab/numbers >/dev/null; then
    fail 'translation: bin/translate does not run'
elif reference_library && reference_over 'the translator of the reference' -o "$translation_out/reference" tests/reference/translate.rs &&
    reference_over 'the texts to translate' -o "$translation_out/maker" tests/translation/texts.rs &&
    reference_rust 'the writer in pieces' -o "$translation_out/pieces" tests/translation/pieces.rs && "$translation_out/maker" "$translation_out/texts"; then
    ln -s "$root/bin" "$translation_out/bin"
    cd "$translation_out" || exit 1
    translation_texts
    translation_pieces
    translation_back
    translation_memory
    translation_as_it_comes
    translation_page
    cd "$root" || exit 1
else
    fail 'translation: the texts are not made'
fi
rm -rf "$translation_out"
