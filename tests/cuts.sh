# Power cuts: the examples of a controller's loop keep their state so that no cut makes the record lie. First the example in C is cut at every point of its
# life, and of the lives after it, on a disk and a bench of the test (tests/cuts): the practice of docs/USING.md must never count a mark whose traffic did not
# run on its pattern with every jack seated, and each practice that leaves something out must be found out. Then as users do: files that are no whole state are
# refused, cords moved by hand are said, and programs that are killed go on, each from the other's file, with a half seated cord too.
cuts_out=target/cuts
cuts_archive=target/host/libjidrofex.a

# cuts_build LABEL COMMAND..: the command, which compiles something; its messages are shown where it fails
cuts_build() {
    cuts_label=$1
    shift
    if "$@" >"$cuts_out/log" 2>&1; then return 0; fi
    cat "$cuts_out/log"
    fail "cuts: $cuts_label does not build"
    return 1
}

# cuts_c ARGUMENTS..: the C compiler, with every warning an error; its checked stand-ins for read and the like would go by the wraps
cuts_c() { cc -std=c99 -pedantic -O2 -U_FORTIFY_SOURCE -Wall -Wextra -Werror -Iinclude "$@"; }

# ---- every cut, on a disk and a bench of the test

# what the example calls and the test stands in for; what it calls besides is known here, so that no operation of a new kind goes by unseen
cuts_wrapped='open read write fsync close rename jidrofex_begin jidrofex_resume jidrofex_status jidrofex_request jidrofex_report_mark'
cuts_bench='bench_obeys bench_opens bench_reads bench_runs'
cuts_plain='jidrofex_refusal_sentence jidrofex_unrank jidrofex_version'

cuts_every() {
    cuts_build 'the example in C' cuts_c -c -o "$cuts_out/campaign.o" examples/c/campaign.c || return
    cuts_build 'the example in C' cuts_c -c -o "$cuts_out/keep.o" examples/c/keep.c || return
    cuts_calls=$(nm -u "$cuts_out/campaign.o" "$cuts_out/keep.o" | sed -n 's/^ *U \(jidrofex_.*\|bench_.*\)$/\1/p' | sort -u)
    cuts_known=$(printf '%s\n' $cuts_wrapped $cuts_bench $cuts_plain | grep -E '^(jidrofex|bench)_' | sort)
    if [ "$cuts_calls" != "$cuts_known" ]; then
        fail "cuts: the example makes other calls than the test knows of: $(echo $cuts_calls)"
        return
    fi
    set --
    for cuts_name in main $cuts_wrapped; do set -- "$@" "-Wl,--wrap=$cuts_name"; done
    cuts_build 'the cut test' cuts_c -Iexamples/c "$@" -o "$cuts_out/cuts" tests/cuts/*.c "$cuts_out/campaign.o" "$cuts_out/keep.o" "$cuts_archive" || return
    if "$cuts_out/cuts" "$cuts_out" >"$cuts_out/found" 2>"$cuts_out/log" && [ ! -s "$cuts_out/log" ] &&
        [ "$(cut -d : -f 1 "$cuts_out/found" | sort -u | wc -l)" -eq 8 ]; then
        while read -r cuts_line; do pass "cuts: ${cuts_line#way }"; done <"$cuts_out/found"
    else
        cat "$cuts_out/found"
        head -n 5 "$cuts_out/log"
        fail 'cuts: a cut makes the record lie, or a wrong practice is not found out'
    fi
}

# ---- as users do, in the folder $cuts_out/desk: a plan, a state, a panel

# cuts_desk: an empty desk with the paper's plan
cuts_desk() {
    rm -rf "$cuts_out/desk"
    mkdir -p "$cuts_out/desk"
    cp plans/example "$cuts_out/desk/plan"
}

# cuts_desk_half: the same, with the cords at home, that at jack 3 half seated: the first mark meets an error
cuts_desk_half() { cuts_desk && echo 2 3 4 1 3 >"$cuts_out/desk/panel"; }

# cuts_run PROGRAM: the program on the desk to its end; what it prints comes after what is there
cuts_run() { (cd "$cuts_out/desk" && "../campaign_$1" plan state panel >>../printed 2>../said); }

# cuts_with PROGRAM SETTINGS..: the same, with tests/cuts/preload/stop.c loaded and told SETTINGS
cuts_with() {
    cuts_program=$1
    shift
    (export "LD_PRELOAD=$PWD/$cuts_out/stop.so" "$@" && cuts_run "$cuts_program") 2>/dev/null
}

# cuts_stop PROGRAM SAVE: the same, killed before the state is renamed for the SAVE-th time
cuts_stop() { cuts_with "$1" "STOP_BEFORE=$2" STOP_NAME=state; }

# cuts_refused PROGRAM LABEL LINES: the program on the desk ends with 1, prints nothing, says these LINES, and writes nothing
cuts_refused() {
    rm -rf "$cuts_out/before"
    cp -R "$cuts_out/desk" "$cuts_out/before"
    : >"$cuts_out/printed"
    cuts_run "$1"
    if [ $? -eq 1 ] && [ ! -s "$cuts_out/printed" ] && [ "$(cat "$cuts_out/said")" = "$3" ] && diff -r "$cuts_out/before" "$cuts_out/desk" >/dev/null; then
        cuts_refusals=$((cuts_refusals + 1))
    else
        cat "$cuts_out/printed" "$cuts_out/said"
        diff -r "$cuts_out/before" "$cuts_out/desk"
        fail "cuts: $1: $2 is not refused as it should be"
    fi
}

# cuts_file PROGRAM LABEL LINE COMMAND..: the state's file put through the command is refused with LINE; then it is as it was
cuts_file() {
    cuts_reader=$1 cuts_label=$2 cuts_line=$3
    shift 3
    cp "$cuts_out/desk/state" "$cuts_out/whole"
    "$@" <"$cuts_out/whole" >"$cuts_out/desk/state"
    cuts_refused "$cuts_reader" "$cuts_label" "$cuts_line"
    cp "$cuts_out/whole" "$cuts_out/desk/state"
}

# cuts_cords PROGRAM LABEL PANEL LINES: with the cords at PANEL the program is refused with LINES
cuts_cords() {
    cp "$cuts_out/desk/panel" "$cuts_out/cords"
    echo "$3" >"$cuts_out/desk/panel"
    cuts_refused "$1" "$2" "$4"
    cp "$cuts_out/cords" "$cuts_out/desk/panel"
}

# what a program of the examples refuses, half way through the paper's plan: mark 3, of rank 8, stands. Then it goes on to the end.
cuts_refuses() {
    cuts_refusals=0
    cuts_failed=$failed
    cuts_desk
    : >"$cuts_out/printed"
    cuts_stop "$1" 13 # the resume, 8 requests, of which the last gives mark 3, and 3 reports are saved; the report of mark 3 is not
    cuts_file "$1" 'an empty file' 'state is cut short' true
    cuts_file "$1" 'a part of the first line' 'state is cut short' head -c 10
    cuts_file "$1" 'the first line alone' 'state is cut short' head -n 1
    cuts_file "$1" 'half a file' 'state is cut short' head -n 30
    cuts_file "$1" 'a file without its sum' 'state is cut short' sed '$d'
    cuts_file "$1" 'a file without its last byte' 'state is cut short' head -c -1
    cuts_file "$1" 'a byte too many' 'state goes on after its end' sh -c 'cat - && printf " "'
    cuts_file "$1" 'a line too many' 'state goes on after its end' sed '$p'
    cuts_file "$1" 'a megabyte too many' 'state goes on after its end' sh -c 'cat - && head -c 1048576 /dev/zero'
    # word 56 of 0 to 61 is covered, 3 here, in line 58; a mark too many would be a lie
    cuts_file "$1" 'covered raised by one' 'state is torn: its sum does not hold' sed '58s/3/4/'
    cuts_file "$1" 'a word with a zero before it' 'state is torn: its sum does not hold' sed '2s/^/0/'
    cuts_file "$1" 'zeros in its second half' 'state is torn: its sum does not hold' sed '30,63s/[0-9]/0/g'
    cuts_file "$1" 'another sum' 'state is torn: its sum does not hold' sed '$s/ .*/ 0000000000000000/'
    cuts_file "$1" 'another text' 'state is not the state of a campaign' cat plans/example
    cuts_file "$1" 'a later version' 'state is a state of another version' sed '1s/2$/3/'
    cuts_file "$1" 'an earlier version' 'state is a state of another version' sed '1s/2$/1/'
    cuts_file "$1" 'a whole file of the first version' 'state is a state of another version' cat tests/cuts/kept/version-1
    cp "$cuts_out/desk/plan" "$cuts_out/plan-kept"
    sed 's/run=2/run=3/' "$cuts_out/plan-kept" >"$cuts_out/desk/plan"
    cuts_refused "$1" 'the state of another plan' 'state is the state of another plan'
    cp "$cuts_out/plan-kept" "$cuts_out/desk/plan"
    # by the paper rank 8 of 4 ports is 2143; while its mark stands no other panel is taken
    cuts_cords "$1" 'a panel that was moved by hand' '2 3 4 1' 'resume: refused=15: state unfit
set the cords to 2 1 4 3 and start again'
    cuts_cords "$1" 'a jack without its cord' '2 1 0 3' "resume: refused=3: jack 3: entry outside the panel's ports
set the cords to 2 1 4 3 and start again"
    cuts_cords "$1" 'a port at two jacks' '2 1 4 1' 'resume: refused=4: jack 4: entry equal to an earlier one, at jack 2
set the cords to 2 1 4 3 and start again'
    cuts_cords "$1" 'a panel that is none' 'two' 'panel is no panel of 4 ports'
    [ "$failed" -eq "$cuts_failed" ] || return
    if cuts_run "$1" && [ "$(tail -n 1 "$cuts_out/printed")" = end=5 ] && [ "$(sed -n 58p "$cuts_out/desk/state")" = 5 ]; then
        pass "cuts: $1: $cuts_refusals files, plans and panels are refused, each in its words, with nothing written; with the right ones it goes on to the end"
    else
        cat "$cuts_out/printed" "$cuts_out/said"
        fail "cuts: $1: with the right file, plan and panel it does not go on to the end"
    fi
}

# cuts_kept PROGRAM: a file of this version of the words that was saved once and is kept goes on, for as long as the words are of this version. Of the paper's
# plan mark 3, of rank 8, has met an error, and jack 2 is the next to seat: the seats begin anew.
cuts_kept() {
    cuts_desk
    cp tests/cuts/kept/version-2 "$cuts_out/desk/state"
    echo 2 1 4 3 >"$cuts_out/desk/panel"
    : >"$cuts_out/printed"
    if cuts_run "$1" && [ "$(paste -sd ' ' "$cuts_out/printed")" = 'seat=1 seat=2 seat=3 seat=4 mark=3,8 swap=1,3 mark=4,7 end=5' ] && cuts_ended; then
        pass "cuts: $1: a kept file of version 2 of the words goes on to the end, its seats begun anew"
    else
        cat "$cuts_out/printed" "$cuts_out/said"
        fail "cuts: $1: a kept file of version 2 of the words does not go on"
    fi
}

# cuts_ended: the end was printed last, all 5 marks are covered, the cords are at the last mark's pattern, and none is half seated
cuts_ended() {
    [ "$(tail -n 1 "$cuts_out/printed")" = end=5 ] && [ "$(sed -n 58p "$cuts_out/desk/state")" = 5 ] && [ "$(cat "$cuts_out/desk/panel")" = '4 1 2 3' ]
}

# cuts_whole LABEL: what was printed is the paper's output, and all 5 marks are covered
cuts_whole() {
    if ! cmp -s "$cuts_out/printed" "$cuts_out/output" || [ "$(sed -n 58p "$cuts_out/desk/state")" != 5 ]; then
        cat "$cuts_out/printed" "$cuts_out/said"
        fail "cuts: $1: not what an uncut run prints, or not all marks covered"
        return 1
    fi
}

# cuts_over FIRST SECOND: killed before each of its saves in turn FIRST is taken up by SECOND: together they print what an uncut run prints
cuts_over() {
    cuts_saves=0
    while cuts_saves=$((cuts_saves + 1)) && cuts_desk && : >"$cuts_out/printed" && ! cuts_stop "$1" "$cuts_saves"; do
        cuts_run "$2"
        cuts_whole "$1, killed before save $cuts_saves, then $2" || return
    done
    # the resume, 11 requests and 5 reports are saved
    if [ "$cuts_saves" -eq 18 ] && cuts_whole "$1, not killed"; then
        pass "cuts: killed before each of its $((cuts_saves - 1)) saves $1 is taken up by $2: together they print what an uncut run prints"
    else
        fail "cuts: $1 makes $((cuts_saves - 1)) saves on the paper's plan, and its calls are 17"
    fi
}

# cuts_seated FIRST SECOND: the same with a half seated cord. Saves 1 and 2 are those of the resume and of the first mark, 3 that of its error, 4 to 7 those of
# the seats, 8 that of the same mark again. Killed before save 3 the mark stands, and SECOND has every jack seated without an order.
cuts_seated() {
    cuts_saves=0
    while cuts_saves=$((cuts_saves + 1)) && cuts_desk_half && : >"$cuts_out/printed" && ! cuts_stop "$1" "$cuts_saves"; do
        case $cuts_saves in
            [124567]) cuts_seats='seat=1 seat=2 seat=3 seat=4' ;;
            *) cuts_seats='' ;;
        esac
        : >"$cuts_out/printed"
        if ! cuts_run "$2" || ! cuts_ended || [ "$(grep seat "$cuts_out/printed" | paste -sd ' ')" != "$cuts_seats" ]; then
            cat "$cuts_out/printed" "$cuts_out/said"
            fail "cuts: $1 with a half seated cord, killed before save $cuts_saves, then $2: not all jacks seated in turn, or not all marks covered"
            return
        fi
    done
    # 17 saves without an error; with one its report, 4 seats and the mark again are saved too
    if [ "$cuts_saves" -eq 24 ] && cmp -s "$cuts_out/printed" "$cuts_out/output_half" && cuts_ended; then
        pass "cuts: with a half seated cord $1 meets an error, seats every jack and asks for the mark again; killed before each of its $((cuts_saves - 1)) saves $2 takes it up, seats every jack anew or is done with it"
    else
        cat "$cuts_out/printed" "$cuts_out/said"
        fail "cuts: $1 with a half seated cord makes $((cuts_saves - 1)) saves, and its calls are 23, or does not print the seats"
    fi
}

# cuts_shown PAGE: the orders that the page shows after an error are the first that come with a half seated cord
cuts_shown() {
    sed -n '/^##* After an error$/,/^#/s/^    \([a-z]*=[0-9,]*\).*/\1/p' "$1" >"$cuts_out/shown"
    if [ "$(grep -c seat "$cuts_out/shown")" -eq 4 ] && head -n "$(wc -l <"$cuts_out/shown")" "$cuts_out/output_half" | cmp -s - "$cuts_out/shown"; then
        pass "cuts: $1 shows the orders that come after an error"
    else
        cat "$cuts_out/shown"
        fail "cuts: $1 shows other orders than come after an error"
    fi
}

# C and Rust by turns, each killed when it has made one call
cuts_turns() {
    cuts_desk
    : >"$cuts_out/printed"
    cuts_lives=0
    cuts_now=c cuts_next=rust
    until cuts_stop "$cuts_now" 3 || [ "$cuts_lives" -eq 99 ]; do
        cuts_lives=$((cuts_lives + 1))
        set -- "$cuts_now" "$cuts_next"
        cuts_now=$2 cuts_next=$1
    done
    # 17 calls less the resume, of which the last life makes one: the others were killed
    if cuts_whole 'C and Rust by turns' && [ "$cuts_lives" -eq 15 ]; then
        pass 'cuts: C and Rust by turns, each killed after one call, 16 lives: together they print what an uncut run prints'
    else
        fail "cuts: C and Rust by turns take $cuts_lives lives and one more"
    fi
}

# the operations on files that C and Rust make are the same, one by one: what was found of the one holds of the other
cuts_alike() {
    for cuts_now in c rust; do
        cuts_desk_half
        rm -f "$cuts_out/operations_$cuts_now"
        cuts_with "$cuts_now" "STOP_LOG=$PWD/$cuts_out/operations_$cuts_now"
    done
    cuts_operations=$(wc -l <"$cuts_out/operations_c")
    # 23 saves of the state, 5 movements and 4 seats carried out, each: create, write, sync, rename, and sync of the folder
    if [ "$cuts_operations" -eq 160 ] && cmp -s "$cuts_out/operations_c" "$cuts_out/operations_rust"; then
        pass "cuts: C and Rust make the same $cuts_operations operations on files, one by one"
    else
        diff "$cuts_out/operations_c" "$cuts_out/operations_rust" | head -n 5
        fail "cuts: C and Rust do not make the same operations on files, or not 160 as 23 saves, 5 movements and 4 seats make"
    fi
}

# cuts_each FIRST SECOND: before each operation on a file FIRST is killed, or the operation fails: it ends, and says so in one line where it can; SECOND takes
# it up, and the campaign comes to its end with all 5 marks covered. One cord is half seated, so that there are seats.
cuts_each() {
    cuts_at=0
    while cuts_at=$((cuts_at + 1)) && [ "$cuts_at" -le 160 ]; do
        for cuts_how in BEFORE FAILS; do
            cuts_desk_half
            cuts_with "$1" "STOP_$cuts_how=$cuts_at"
            cuts_status=$?
            case $cuts_how,$cuts_status,$(wc -l <"$cuts_out/said") in
                BEFORE,137,0 | FAILS,1,1) ;;
                *)
                    cat "$cuts_out/said"
                    fail "cuts: $1: STOP_$cuts_how=$cuts_at: it ends with $cuts_status"
                    return
                    ;;
            esac
            : >"$cuts_out/printed"
            if ! cuts_run "$2" || ! cuts_ended; then
                cat "$cuts_out/printed" "$cuts_out/said"
                fail "cuts: $1, STOP_$cuts_how=$cuts_at, then $2: the campaign does not come to its end"
                return
            fi
        done
    done
    pass "cuts: $1 is killed before each of its 160 operations on files, and each of them fails: it ends, and $2 takes it up to the end"
}

mkdir -p "$cuts_out"
type archive_ready >/dev/null 2>&1 || . "$root/tests/archive.sh"
archive_ready
if [ -f "$cuts_archive" ]; then
    cuts_every
    printf '%s\n' mark=0,0 turn=1,2,3 mark=1,1 swap=1,2 mark=2,2 swap=1,3 swap=2,4 mark=3,8 swap=1,3 mark=4,7 end=5 >"$cuts_out/output"
    { printf '%s\n' mark=0,0 seat=1 seat=2 seat=3 seat=4 && cat "$cuts_out/output"; } >"$cuts_out/output_half"
    if cuts_build 'what kills a program' cuts_c -shared -fPIC -o "$cuts_out/stop.so" tests/cuts/preload/stop.c &&
        cuts_build 'the example in C' cuts_c -o "$cuts_out/campaign_c" examples/c/campaign.c examples/c/keep.c examples/c/bench.c "$cuts_archive" &&
        cuts_build 'the example in Rust' rustc -O --edition 2021 -D warnings -C "link-arg=$cuts_archive" -o "$cuts_out/campaign_rust" examples/rust/campaign.rs; then
        cuts_refuses c
        cuts_refuses rust
        cuts_kept c
        cuts_kept rust
        cuts_over c rust
        cuts_over rust c
        cuts_seated c rust
        cuts_seated rust c
        cuts_shown docs/PLANS.md
        cuts_shown docs/USING.md
        cuts_turns
        cuts_alike
        cuts_each c rust
        cuts_each rust c
    fi
fi
