# The headers: include/jidrofex.h and include/jidrofex_benches.h, each held to its code. A program in C that makes every call and uses every constant, through
# the header alone, finds the answers that are known, built as C90 and as C++98. The declarations are those of the functions that
# crates/face_c or crates/benches_c exports, and the declarations in Rust are the header's. The numbers at each call are those of demands.One.DemandOne or
# benches_demands.Over.OverBenches, the constants those of the code. And this part itself: each header that is wrong in one thing is refused, and where it is
# a constant, by the program in C.
headers='jidrofex jidrofex_benches'

# header_of NAME: the header that is looked at from here on: the files of the code that it is held to, the record that has the numbers of its calls, the
# constants that stand nowhere in the code and that the program in C holds alone, that program with what it includes, and the declarations in Rust that are
# all of them
header_of() {
    header=$1
    header_file=include/$1.h
    header_archive=target/host/lib$1.a
    header_out=target/header/$1
    case $1 in
        jidrofex)
            header_sources='crates/words/src/limits.rt crates/words/src/refusals.rt crates/campaign/src/lib.rt crates/plan_arcs/src/gaps.rt
                crates/face_*/src/*.rt crates/demands/specs/One.antt'
            header_record=demands.One.DemandOne
            header_alone='ACCEPTED|LINE_BYTES|ANY_LINE_BYTES|PLAN_BYTES|WORDS_BYTES|SENTENCE_BYTES|STATE_VERSION'
            header_c=tests/header
            header_whole=tests/reference/face.rs
            ;;
        jidrofex_benches)
            header_sources='crates/benches_calls/src/*.rt crates/face_values/src/answers.rt crates/benches_face/src/*.rt crates/benches_c/src/*.rt
                crates/benches_demands/specs/Over.antt'
            header_record=benches_demands.Over.OverBenches
            header_alone=ACCEPTED
            header_c=tests/benches
            header_whole=tests/benches/face.rs
            ;;
    esac
    mkdir -p "$header_out"
}
header_pass() { pass "header: $header.h: $1"; }
header_fail() { fail "header: $header.h: $1"; }

# ---- what the header says, and what the code says, in the lines of tests/header/read.awk

# header_lines SUBJECT: of those lines the ones that are declarations, or the ones with numbers, less the constants that stand nowhere in the code
header_lines() {
    case $1 in
        declarations) grep -E '^(call|unknown) ' ;;
        numbers) grep -E '^(refused|constant) ' | grep -vE "^constant $(echo "$header" | tr a-z A-Z)_($header_alone) " ;;
    esac | sort
}

# header_read FILE: what a header says
header_read() { awk -v header="$header" -f tests/header/read.awk "$1"; }

# header_same FILE SUBJECT: a header says what the code says
header_same() { header_read "$1" | header_lines "$2" | cmp -s - "$header_out/$2"; }

header_code() {
    header_read "$header_file" >"$header_out/said"
    awk -v header="$header" -f tests/header/code.awk $header_sources >"$header_out/code"
    for header_subject in declarations numbers; do header_lines "$header_subject" <"$header_out/code" >"$header_out/$header_subject"; done
}

# header_holds SUBJECT LABEL: the header says what the code says; else the lines that differ are shown, the header's with <
header_holds() {
    if [ -s "$header_out/$1" ] && header_same "$header_file" "$1"; then
        header_pass "$2: $(($(wc -l <"$header_out/$1")))"
    else
        header_lines "$1" <"$header_out/said" | diff - "$header_out/$1"
        header_fail "not so: $2"
    fi
}

# the declarations in Rust, of which the differential test has all
header_rust() {
    find tests speed examples -name '*.rs' -exec awk -v header="$header" -v headers="$headers" -v whole="$header_whole" -f tests/header/rust.awk \
        "$header_out/said" {} + >"$header_out/log"
    if grep -qx 'declared [1-9][0-9]*' "$header_out/log" && [ "$(wc -l <"$header_out/log")" -eq 1 ]; then
        header_pass "the declarations in Rust are the header's, those of the differential test all of them: $(sed 's/declared //' "$header_out/log")"
    else
        cat "$header_out/log"
        header_fail 'a declaration in Rust is not the one of the header, or the differential test lacks one'
    fi
}

# ---- what the program in C finds

# header_program LANGUAGE COMMAND..: the command builds the program, and all its comparisons hold; $header_compared is how many
header_program() {
    header_language=$1
    shift
    header_compared=
    if ! "$@" >"$header_out/log" 2>&1; then
        cat "$header_out/log"
        header_fail "the program does not build as $header_language"
    elif "$header_out/program" >"$header_out/log" 2>&1 && tail -n 1 "$header_out/log" | grep -Eqx 'header: [1-9][0-9]* comparisons, 0 failed'; then
        header_compared=$(sed -n '$s/^header: \([0-9]*\) .*/\1/p' "$header_out/log")
    else
        cat "$header_out/log"
        header_fail "as $header_language a comparison does not hold"
    fi
}

header_programs() {
    header_uncalled=$(sed -n 's/^call uint8_t \([a-z_]*\)(.*/\1/p' "$header_out/said" | while read -r call; do
        cat "$header_c"/*.[ch] | grep -qF "$call(" || echo "$call"
    done)
    [ -z "$header_uncalled" ] || header_fail "the program does not call $(echo $header_uncalled)"
    header_program C90 cc -std=c90 -pedantic -O2 -Wall -Wextra -Werror -Iinclude -o "$header_out/program" "$header_c/header.c" "$header_archive"
    header_as_c90=$header_compared
    header_program C++98 c++ -x c++ -std=c++98 -pedantic -O2 -Wall -Wextra -Werror -Iinclude -o "$header_out/program" "$header_c/header.c" \
        -x none "$header_archive"
    if [ -n "$header_as_c90" ] && [ "$header_as_c90" = "$header_compared" ]; then
        header_pass "$header_compared comparisons as C90 and as C++98"
    elif [ -n "$header_as_c90" ] && [ -n "$header_compared" ]; then
        header_fail "$header_as_c90 comparisons as C90, and $header_compared as C++98"
    fi
}

# ---- headers that are wrong in one thing

# header_refused_by FILE KIND ROOM: what refuses this header first, or nothing; where a constant is wrong the program alone is asked. ROOM is a folder for it.
header_refused_by() {
    if [ "$2" != constant ]; then
        for header_subject in declarations numbers; do
            header_same "$1" "$header_subject" || { echo "$header_subject"; return; }
        done
    fi
    cp "$1" "$3/$header.h"
    if ! cc -std=c90 -O0 -I"$3" -o "$3/program" "$header_c/header.c" "$header_archive" >"$3/log" 2>&1; then
        echo compiler
    elif ! "$3/program" >"$3/log" 2>&1; then
        tail -n 1 "$3/log" | grep -Eqx 'header: [0-9]* comparisons, [1-9][0-9]* failed' && echo comparisons || echo crash
    fi
}

# header_judge HALF: every second edited header, from the HALF-th on: what refuses it
header_judge() {
    mkdir -p "$header_out/edited/$1"
    awk -v half="$1" 'NR % 2 == half' "$header_out/edits/list" | while read -r header_number header_kind header_what; do
        header_by=$(header_refused_by "$header_out/edits/$header_number.h" "$header_kind" "$header_out/edited/$1")
        echo "${header_by:-nothing} $header_kind $header_what"
    done >"$header_out/judged-$1"
}

# how many edits there have to be, by what the header says: each constant one more, each pair of a call's parameters, each last number dropped
header_expected() {
    awk '
        $1 == "constant" { constants++ }
        $1 == "call" { n = gsub(/,/, "") + 1; pairs += n * (n - 1) / 2 }
        $1 == "refused" && $3 != "never" { lists++ }
        END { print constants " constants, " pairs " pairs of parameters, " lists " lists" }' "$header_out/said"
}
header_made() {
    awk '
        $2 == "constant" && / one more$/ { constants++ }
        $2 == "parameters" { pairs++ }
        $2 == "numbers" && / dropped$/ { lists++ }
        END { print constants " constants, " pairs " pairs of parameters, " lists " lists" }' "$header_out/edits/list"
}

header_edits() {
    rm -rf "$header_out/edits" "$header_out/edited"
    mkdir -p "$header_out/edits" "$header_out/edited"
    awk -v folder="$header_out/edits" -f tests/header/edits.awk "$header_file" >"$header_out/edits/list"
    if [ "$(header_made)" != "$(header_expected)" ]; then
        header_fail "the edits are of $(header_made), and the header has $(header_expected)"
        return
    fi
    # the header as it is, judged as the edited ones are: else they might be refused for nothing
    header_by=$(header_refused_by "$header_file" none "$header_out/edited")
    if [ -n "$header_by" ]; then
        header_fail "no edited header is tried, since the header itself is refused by its $header_by"
        return
    fi
    header_judge 0 &
    header_other=$!
    header_judge 1
    wait "$header_other"
    cat "$header_out/judged-0" "$header_out/judged-1" >"$header_out/judged"
    if [ "$(wc -l <"$header_out/judged")" -ne "$(wc -l <"$header_out/edits/list")" ]; then
        header_fail 'not every edited header was judged'
    elif grep -E '^nothing |^(compiler|crash) constant ' "$header_out/judged"; then
        header_fail 'an edited header is refused by nothing, or a wrong constant by no comparison'
    else
        header_pass "$(grep -c ' constant ' "$header_out/judged") headers with a wrong constant, each refused by comparisons of the program in C"
        header_pass "$(grep -vc ' constant ' "$header_out/judged") headers with wrong parameters or numbers, each refused: $(
            cut -d ' ' -f 1,2 "$header_out/judged" | grep -v ' constant$' | sort | uniq -c | awk '{ printf "%s%d by the %s", (NR > 1 ? ", " : ""), $1, $2 }')"
    fi
}

type archive_ready >/dev/null 2>&1 || . "$root/tests/archive.sh"
archive_ready
for header_name in $headers; do
    header_of "$header_name"
    header_code
    header_holds declarations 'the declarations are those of the functions, by name, order and type'
    header_holds numbers "the numbers at each call are those of $header_record in their order, the constants those of the code"
    header_rust
    if [ -f "$header_archive" ]; then
        header_programs
        header_edits
    fi
done
