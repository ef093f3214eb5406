# The commands as people and scripts run them: every row of tests/commands/table, which names the case, the command, the status and what is said; and the progress
# of a long print. What the printer prints is in printer.sh, what is drawn in drawings.sh, how programs are built in building.sh.
commands_out=$(mktemp -d)
T=$commands_out
# all programs up to date, so that no row tells of a build
for command in orders show named; do bin/$command --quiet plans/two-ports >/dev/null || fail "commands: bin/$command does not run"; done
bin/translate --quiet examples/lab/numbers >/dev/null || fail 'commands: bin/translate does not run'
echo 2,1 | bin/explain --quiet >/dev/null || fail 'commands: bin/explain does not run'
bin/benches --quiet 2 1 >/dev/null || fail 'commands: bin/benches does not run'

# the files of the table
commands_file() { printf "$2" >"$T/$1"; }
commands_file run-too-long 'ports=6\nlegs=1\nstart=0\nrun=265\n'
commands_file start-too-high 'ports=20\nlegs=1\nstart=895014631192902121\nrun=0\n'
commands_file ports 'ports=21\nlegs=1\nstart=0\nrun=0\n'
commands_file legs 'ports=4\nlegs=17\nstart=0\nrun=0\n'
commands_file key 'ports=4\nlegs=1\nstart=0\nend=0\n'
commands_file decimal 'ports=4\nlegs=1\nstart=two\nrun=0\n'
commands_file returns 'ports=4\r\nlegs=1\r\nstart=0\r\nrun=0\r\n'
commands_file order-mark '\357\273\277ports=4\nlegs=1\nstart=0\nrun=0\n'
commands_file wide '\377\376p\000o\000r\000t\000s\000=\0004\000\n\000'
commands_file blank-line 'ports=4\n\nlegs=1\nstart=0\nrun=0\n'
commands_file blank-end 'ports=4\nlegs=1\nstart=0\nrun=0\n\n'
commands_file comment '# all of it\nports=4\nlegs=1\nstart=0\nrun=0\n'
commands_file blanks 'ports = 4\nlegs=1\nstart=0\nrun=0\n'
commands_file zero 'ports=04\nlegs=1\nstart=0\nrun=0\n'
commands_file plus 'ports=4\nlegs=1\nstart=0\nrun=+1\n'
commands_file minus 'ports=4\nlegs=1\nstart=0\nrun=-0\n'
commands_file no-newline 'ports=4\nlegs=1\nstart=0\nrun=0'
commands_file missing 'ports=4\nlegs=2\nstart=0\nrun=0\n'
commands_file circuit-20 'ports=20\nlegs=1\nstart=0\nrun=895014631192902120\n'
# what a cell of the strip is: of 895014631192902121 ranks in 48 cells each has 18646138149852127, and 25 are left over, so that the second cell has one more
commands_file all-but-0 'ports=20\nlegs=1\nstart=1\nrun=895014631192902119\n'
commands_file last-alone 'ports=20\nlegs=1\nstart=895014631192902120\nrun=0\n'
commands_file second-cell 'ports=20\nlegs=1\nstart=18646138149852127\nrun=18646138149852127\n'
commands_file second-but-1 'ports=20\nlegs=1\nstart=37292276299704253\nrun=-18646138149852126\n'
{ printf 'ports=20\nlegs=16\n' && for leg in 0 1 2 3 4 5 6 7 8 9 10 11 12 13 14 15; do printf 'start=%s\nrun=895014631192902120\n' "$leg"; done; } >"$T/sixteen-times"
{ printf 'ports=' && head -c 2000 /dev/zero | tr '\0' 1 && echo; } >"$T/long-line"
cp plans/example "$T/-plan"
cp plans/example "$T/a plan"
ln -s "$root/bin/orders" "$T/link"
# those of lines to translate, most with a good one before the one at fault
lines_file() { commands_file "lines-$1" "ports=5\nrank=9\n$2"; }
lines_file ports 'ports=21\n'
lines_file no-port 'pattern=5,4,2,3,9\n'
lines_file wide-port 'pattern=5,4,258,3,1\n'
lines_file port-twice 'pattern=5,3,2,1,3\n'
lines_file own-port 'pattern=5,2,4,3,1\n'
lines_file rank 'rank=44\n'
lines_file number 'ports=20\nnumber=895014631192902121\n'
lines_file key 'mark=0\n'
lines_file decimal 'rank=nine\n'
lines_file wide 'number=18446744073709551616\n'
lines_file entries 'pattern=5;4;2;3;1\n'
lines_file wide-entry 'pattern=5,4,2,3,18446744073709551616\n'
lines_file one-entry 'pattern=5\n'
lines_file six-entries 'pattern=5,4,2,3,6,1\n'
lines_file long "$(head -c 59 /dev/zero | tr '\0' x)\n"
lines_file long-count 'pattern=2,1,4,3,6,5,8,7,10,9,12,11,14,13,16,15,18,17,20,19,22,21,24,23\n'
lines_file long-few 'ports=20\npattern=100,100,100,100,100,100,100,100,100,100,100,100,100,100\n'
lines_file long-rank "rank=$(head -c 54 /dev/zero | tr '\0' 1)\n"
lines_file nul 'pattern=5,4,2,3,1\000\n'
lines_file nul-key 'ra\000nk=0\n'
lines_file long-unended "$(head -c 59 /dev/zero | tr '\0' x)"
lines_file long-entries 'ports=20\npattern=21,1,4,3,6,5,8,7,10,9,12,11,14,13,16,15,18,17,20,19\n'
lines_file long-return 'ports=20\npattern=2,1,4,3,6,5,8,7,10,9,12,11,14,13,16,15,18,17,20,19\r\n'
lines_file unended 'rank=0'
lines_file blank '\nrank=0\n'
lines_file comment '# the first ones\n'
lines_file blanks 'pattern=5, 4, 2, 3, 1\n'
lines_file blank-key ' rank=0\n'
lines_file zero 'pattern=05,4,2,3,1\n'
lines_file plus 'rank=+1\n'
lines_file minus 'number=-1\n'
lines_file bytes 'rank=\\\\ \t%%s\001\177\200\201\377\000\n'
commands_file lines-no-ports 'rank=0\nports=5\n'
commands_file lines-returns 'ports=5\r\nrank=9\r\n'
commands_file lines-order-mark '\357\273\277ports=5\nrank=9\n'
commands_file lines-utf16 '\377\376p\000o\000r\000t\000s\000=\0005\000\n\000'
commands_file lines-ports-alone 'ports=5\n'
cp examples/lab/numbers "$T/-numbers"
cp examples/lab/numbers "$T/some numbers"
ln -s "$root/bin/translate" "$T/link-translate"
# patterns to explain, alone on their line
commands_file pattern '5,4,2,3,1\n'
commands_file pattern-twice '5,4,2,3,4\n'
commands_file pattern-returns '5,4,2,3,1\r\n'
commands_file pattern-order-mark '\357\273\2775,4,2,3,1\n'
commands_file pattern-blanks '5, 4, 2, 3, 1\n'
commands_file pattern-key 'pattern=5,4,2,3,1\n'
commands_file pattern-zero '05,4,2,3,1\n'
commands_file pattern-minus '5,4,2,3,-1\n'
commands_file pattern-unended '5,4,2,3,1'
commands_file pattern-and-more '5,4,2,3,1\n2,1\n'
commands_file pattern-own '5,4,3,2,1\n'
cp "$T/pattern" "$T/-pattern"
cp "$T/pattern" "$T/a pattern"
ln -s "$root/bin/explain" "$T/link-explain"
# counts of benches: of 4 with 6 ports, whose shares are 67, 66, 66 and 66 marks, most with a good line before the one at fault; of 2 with 20 ports
counts_file() { commands_file "counts$1" "67,0,0\n$2"; }
counts_file '' '66,0,3\n40,2,0\n0,0,0\n'
counts_file -all '66,0,0\n66,0,0\n66,0,0\n'
counts_file -open '66,0,0\n0,66,0\n60,6,1\n'
counts_file -share '60,7,0\n66,0,0\n66,0,0\n'
counts_file -errors '66,0,65536\n66,0,0\n66,0,0\n'
counts_file -few '66,0,0\n66,0,0\n'
counts_file -one ''
counts_file -many '66,0,0\n66,0,0\n66,0,0\n0,0,0\n'
counts_file -decimal 'all,0,0\n'
counts_file -two '66,0\n'
counts_file -four '66,0,0,0\n'
counts_file -wide '66,0,18446744073709551616\n'
counts_file -blanks '66, 0, 0\n'
counts_file -zero '66,00,0\n'
counts_file -zero-first '066,0,0\n'
counts_file -plus '66,+0,0\n'
counts_file -minus '-66,0,0\n'
counts_file -key 'covered=66,open=0,errors=0\n'
counts_file -comment '# bench 1\n'
counts_file -blank '66,0,0\n66,0,0\n66,0,0\n\n'
counts_file -unended '66,0,0\n66,0,0\n66,0,0'
commands_file counts-returns '67,0,0\r\n66,0,0\r\n'
commands_file counts-order-mark '\357\273\27767,0,0\n'
commands_file counts-utf16 '\377\3766\0007\000,\0000\000\n\000'
commands_file counts-20 '447507315596451061,0,0\n447507315596451059,1,65535\n'
commands_file counts-20-more '447507315596451061,0,0\n1,18446744073709551615,0\n'
commands_file counts-none '1,0,0\n0,0,0\n0,1,0\n'
yes 0,0,0 | head -n 1000 >"$T/counts-long"
cp "$T/counts" "$T/-counts"
cp "$T/counts" "$T/some counts"
ln -s "$root/bin/benches" "$T/link-benches"

# a reader that goes away after the first line; one that is gone before anything comes; SIGPIPE ignored; a print that is stopped; standard error a terminal; the
# last two lines in one
commands_status() { "$@"; echo $? >"$T/status"; }
reader_gone() { commands_status "$@" | head -n 1 >/dev/null; return "$(cat "$T/status")"; }
no_reader() { commands_status "$@" | true; return "$(cat "$T/status")"; }
ignoring() { (trap '' PIPE; "$@"); }
stopped() { timeout 3 "$@" >"$T/printed"; }
ending() {
    "$@" >"$T/printed"
    ending_status=$?
    tail -n 2 "$T/printed" | paste -sd ' ' -
    return "$ending_status"
}
on_terminal() {
    script -qec "$1" /dev/null </dev/null >"$T/screen"
    terminal_status=$?
    tr -d '\r' <"$T/screen"
    return "$terminal_status"
}

commands_rows=0
while IFS= read -r row; do
    case $row in '' | '#'*) continue ;; esac
    rest=$(printf '%s' "$row" | sed "s|\$T|$T|g")
    want_status=${rest%% | *} rest=${rest#* | }
    label=${rest%% | *} rest=${rest#* | }
    command=${rest%% | *} rest=${rest#* | }
    want_out=${rest%% | *} want_err=${rest#* | }
    (eval "$command") </dev/null >"$T/out" 2>"$T/err"
    status=$?
    out=$(head -n 1 "$T/out")
    err=$(awk '{ printf "%s%s", (NR > 1 ? " / " : ""), $0 }' "$T/err")
    commands_rows=$((commands_rows + 1))
    if [ "$status" = "$want_status" ] && [ "${out:--}" = "$want_out" ] && [ "${err:--}" = "$want_err" ]; then
        pass "commands: $want_status: $label"
    else
        printf '  status %s, output %s\n  error  %s\n' "$status" "${out:--}" "${err:--}"
        fail "commands: $label: not status $want_status, or something else is said"
    fi
done <tests/commands/table

# every status that the commands' file names is met by a row for each command, but the one for what cannot be built (building.sh)
for command in orders show named translate explain benches; do
    for status in 0 64 65 66 74 141; do
        grep -qE "^$status \|.*bin/$command" tests/commands/table || fail "commands: no row of $command ends with $status"
    done
done

# the planners' page, the labs', the one for new colleagues and the one for several benches have the statuses that commands/way.sh gives, and no other
commands_given=$(sed -n 's/^[a-z_]*=\([0-9][0-9]*\) *#.*/\1/p' commands/way.sh | sort -n | tr '\n' ' ')
for page in docs/PLANS.md docs/NUMBERS.md docs/RANKS.md docs/BENCHES.md; do
    commands_page=$(sed -n '/^| status /,/^$/s/^| \([0-9]*\) | .*/\1/p' "$page" | sort -n | tr '\n' ' ')
    if [ "$commands_page" = "$commands_given" ] && [ "$commands_given" = '0 1 64 65 66 74 141 ' ]; then
        pass "commands: $page has the statuses that are given"
    else
        fail "commands: $page has the statuses $commands_page, and $commands_given are given"
    fi
done
# its script, as it stands there: on a good plan, and on one that is refused
mkdir "$T/script"
ln -s "$root/bin" "$T/script/bin"
sed -n '/^    if bin\/orders/,/^    fi$/s/^    //p' docs/PLANS.md >"$T/script/run"
commands_script() { (cd "$T/script" && cp "$1" plan && robot() { tail -n 1 "$1"; } && . ./run) 2>&1; }
if [ "$(commands_script "$root/plans/example")" = end=5 ] && [ "$(commands_script "$T/run-too-long")" = 'the plan is refused: refused=10 at=4' ]; then
    pass 'commands: the script of docs/PLANS.md does what it says'
else
    fail 'commands: the script of docs/PLANS.md does something else'
fi

# ---- the progress of a long print: a line for each tenth, rising, where standard error is no terminal; one line written over on a terminal; none beside the
# orders themselves
bin/orders --words plans/full-circuit-10 2>"$T/err" >"$T/out"
if awk '
    NR == 1 { ok = $0 == "orders: 1334961 marks to come, some 41 MB of orders"; next }
    { ok = ok && $0 ~ /^orders: [0-9]+ %: [0-9]+ of 1334961 marks$/ && int($2 / 10) > tenth && $4 + 0 > done; tenth = int($2 / 10); done = $4 }
    END { exit !(ok && NR >= 9 && NR <= 11 && int(done * 100 / 1334961) / 10 >= 9) }' "$T/err" && [ "$(wc -c <"$T/out")" -gt 40000000 ]; then
    pass 'commands: a long print says how far it is, a line for each tenth'
else
    cat "$T/err"
    fail 'commands: a long print does not say how far it is'
fi
# so many marks have gone by, it says, as stand in the buffers of 64 KiB whole lines that were printed by then
if awk '
    NR == FNR {
        if (used + length($0) + 1 > 65536) { gone[marks + 0] = 1; used = 0 }
        used += length($0) + 1
        if ($0 ~ /^mark=/) marks++
        next
    }
    / %: / { told++; if (!($4 in gone)) exit 1 }
    END { exit told < 8 }' "$T/out" "$T/err"; then
    pass 'commands: as many marks as it says have gone by'
else
    fail 'commands: another number of marks has gone by than it says'
fi
script -qec "bin/orders plans/full-circuit-10 >$T/out" /dev/null </dev/null >"$T/screen"
screen=$(tr '\r' '\n' <"$T/screen" | grep -c '^orders: [0-9]* %: ')
script -qec "bin/orders plans/full-circuit-6" /dev/null </dev/null >"$T/beside"
if [ "$screen" -ge 90 ] && [ "$(grep -c % "$T/beside")" -eq 0 ] && [ "$(grep -c '^mark=' "$T/beside")" -eq 265 ]; then
    pass 'commands: on a terminal one line tells how far it is, and none where the orders go there too'
else
    fail 'commands: on a terminal the progress is not told, or stands among the orders'
fi
# what is printed is the same byte for byte with words, with --quiet and with neither
while read -r command asked; do
    bin/$command --words $asked 2>/dev/null >"$T/with"
    bin/$command --quiet $asked >"$T/quiet"
    bin/$command $asked >"$T/out"
    if [ -s "$T/out" ] && cmp "$T/with" "$T/out" && cmp "$T/quiet" "$T/out"; then
        pass "commands: words change no byte of what $command prints"
    else
        fail "commands: words change what $command prints"
    fi
done <<PRINTS
orders plans/overlap-6
named plans/overlap-6
translate $T/lines-port-twice
explain $T/pattern
explain $T/pattern-twice
benches 6 4
benches 6 4 1
benches 6 4 --add $T/counts
benches 6 4 --add $T/counts-share
PRINTS
# a signal to the command alone ends the program too: orders that are printed, lines that are waited for

# within LIMIT COMMAND..: the command succeeds, within so many tenths of a second
within() {
    tries=$1
    shift
    until "$@"; do
        tries=$((tries - 1))
        [ "$tries" -gt 0 ] || return 1
        sleep 0.1
    done
}
# started NAME: the program of that name which the command $one has started is there, the process $program; others of the same name may run beside it
started() {
    for process in $(grep -sl "$root/target/bin/$1" /proc/[0-9]*/cmdline); do
        program=${process%/cmdline}
        ! grep -qsx "PPid:[[:space:]]*$one" "$program/status" || return 0
    done
    program=''
    return 1
}
# gone: that process has ended
gone() { [ ! -e "$program/stat" ] || grep -qs ') Z ' "$program/stat"; }
# interrupted LABEL NAME SIGNAL STATUS: the command of that name, which was started last, ends with that status by a signal while its program runs
interrupted() {
    one=$!
    within 100 started "$2"
    kill -s "$3" "$one"
    wait "$one"
    ended=$?
    if [ "$ended" -eq "$4" ] && [ -n "$program" ] && within 20 gone; then
        pass "commands: $4: $1, and nothing runs on"
    else
        fail "commands: $1: not with $4 but $ended, or something runs on"
    fi
}
env --default-signal=INT,TERM bin/orders --quiet "$T/circuit-20" >/dev/null &
interrupted 'Ctrl-C ends a print' orders INT 130
mkfifo "$T/lines"
for signal in INT,130 TERM,143 HUP,129; do
    env --default-signal=INT,TERM,HUP bin/translate --quiet <"$T/lines" >"$T/out" &
    exec 8>"$T/lines"
    interrupted "${signal%,*} ends a translation that waits for more" translate "${signal%,*}" "${signal#*,}"
    exec 8>&-
done
# nothing is left among temporary files
mkdir "$T/room"
TMPDIR=$T/room bin/orders plans/example >/dev/null
TMPDIR=$T/room reader_gone bin/orders plans/full-circuit-10
TMPDIR=$T/room bin/orders --bad 2>/dev/null
TMPDIR=$T/room bin/named --words plans/example >/dev/null 2>&1
TMPDIR=$T/room no_reader bin/named plans/example
TMPDIR=$T/room bin/translate --words "$T/lines-own-port" >/dev/null 2>&1
TMPDIR=$T/room bin/explain --words "$T/pattern" >/dev/null 2>&1
TMPDIR=$T/room no_reader bin/explain "$T/pattern"
TMPDIR=$T/room bin/benches --words 6 4 --add "$T/counts" >/dev/null 2>&1
TMPDIR=$T/room bin/benches --words 6 4 --add "$T/counts-share" >/dev/null 2>&1
TMPDIR=$T/room no_reader bin/benches 6 4
TMPDIR=$T/room examples/benches/run >/dev/null
TMPDIR=$T/room examples/benches/run 21 >/dev/null
{ echo ports=5 && yes rank=9; } | TMPDIR=$T/room no_reader bin/translate
{ sleep 0.5 && TMPDIR=$T/room bin/translate "$T/none"; } 2>&1 | true
if [ -z "$(ls "$T/room")" ]; then pass 'commands: no temporary file is left'; else fail 'commands: temporary files are left'; fi
rm -rf "$commands_out"
