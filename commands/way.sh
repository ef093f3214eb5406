# The one way of all commands. Each bin/NAME sets what is its own and sources this file:
#   root          the project's folder
#   name          the command's name, which is also its program's: crates/NAME
#   what          what it reads, in a word
#   asked         what is asked of that, for the words of a refusal (commands/words.awk)
#   usage         a function: how it is called and what it does, the first part of its help
#   own_options   a text: its own options, for the help
#   own_option    a function: takes an option of its own from its arguments, sets `taken` to how many it took, or fails if it knows none such
# After that it may set anew what stands here as it is for most:
#   header        the header of include/ whose version the command has
#   own_word      a function: takes a word of the command line that is no option; `given` counts them
# and then calls, in this order: options "$@"; build; spool, or stream where what is read may be of any length; run; finish.
#
# A program's own status says only that it ended. It tells on descriptor 3 how it ended (crates/console), and the statuses are given here:
printed_all=0   # all that was asked for is on standard output
not_built=1     # the program cannot be built
bad_usage=64    # an option, a word or a number of the command line that is none
was_refused=65  # what was read is refused: standard output has `refused=` and `at=`
unreadable=66   # what was to be read cannot be
unwritable=74   # standard output, or the room for temporary files, cannot be written
pipe_gone=141   # the reader of a pipe went away, as SIGPIPE ends other filters; any other signal: 128 and its number
# Standard output has what docs/PLANS.md says and nothing else. Words for people go to standard error: always where something cannot be done, and otherwise
# where standard error is a terminal or --words asks for them.
LC_ALL=C
export LC_ALL

# Descriptors that are closed are opened on something that fails as they do, so that no file of ours takes their number. One is closed where it cannot be had under
# another number as well. What the shell says of a closed standard error goes nowhere.
{ true 3<&0; } 2>/dev/null || exec 0>/dev/null
{ true 3>&1; } 2>/dev/null || exec 1</dev/null
true 3>&2 || exec 2>/dev/null
# the status where standard output cannot be written: a pipe has lost its reader, also where SIGPIPE is ignored
if [ -p /dev/stdout ] || [ -S /dev/stdout ]; then unwritten=$pipe_gone; else unwritten=$unwritable; fi
# whether SIGPIPE is ignored, as a shell cannot ask: the thirteenth bit of the signals that are
case $(sed -n 's/^SigIgn:.*\(.\)...$/\1/p' /proc/$$/status 2>/dev/null) in
    [13579bdf]) ignored=yes ;;
    *) ignored=no ;;
esac

# ---- what is said

complain() { echo "$name: $*" >&2; }
say() { [ "$words" = off ] || complain "$*"; }
not_written='the output could not be written'
# give_up STATUS WORDS..: says why, and ends
give_up() {
    end_with=$1
    shift
    complain "$*"
    exit "$end_with"
}

# a line that is written over by the next one where standard error is a terminal; elsewhere a line of its own
again=''
say_again() {
    if [ -t 2 ]; then
        printf '\r%s: %s\033[K' "$name" "$*" >&2
        again=open
    else
        complain "$*"
    fi
}
close_again() {
    [ -z "$again" ] || echo >&2
    again=''
}

# ---- the command line

help() {
    usage
    cat <<HELP
$own_options
  --words     say in words on standard error what is going on, and why something is refused; without it, only where standard error is a terminal
  --quiet     say nothing but what cannot be done
  --version   print the version
  --help      print this

Status: $printed_all all printed, $was_refused refused, $unreadable it cannot be read, $unwritable the output cannot be written, \
$pipe_gone the reader of the output went away, $bad_usage bad usage, $not_built the program cannot be built.
HELP
}

header=jidrofex
file=-
own_word() {
    [ "$given" -eq 0 ] || give_up "$bad_usage" "one file at most; $name --help says more"
    given=1
    file=$1
}

words=asked
quiet=no
options() {
    given=0
    while [ $# -gt 0 ]; do
        taken=1
        case $1 in
            -h | --help)
                help 2>/dev/null || give_up "$unwritten" "$not_written"
                exit "$printed_all"
                ;;
            --version)
                sed -n "s/.*$(echo "$header" | tr a-z A-Z)_VERSION = \([0-9]*\).*/$name (Jidrofex) version \1/p" "$root/include/$header.h" 2>/dev/null ||
                    give_up "$unwritten" "$not_written"
                exit "$printed_all"
                ;;
            --words) words=on ;;
            --quiet) words=off quiet=yes ;;
            --)
                shift
                for word; do own_word "$word"; done
                break
                ;;
            -?*) own_option "$@" || give_up "$bad_usage" "no such option: $1; $name --help lists them" ;;
            *) own_word "$1" ;;
        esac
        shift "$taken"
    done
    [ "$words" != asked ] || { if [ -t 2 ]; then words=on; else words=off; fi; }
}

# value OPTION VALUE..: an option that takes a value took two words; bad usage if there is only one, or nothing in the second
value() {
    [ -n "${2-}" ] || give_up "$bad_usage" "$1 needs a value; $name --help says which"
    taken=2
}

# number WHAT VALUE: bad usage unless the value is a number as plans have them
number() {
    case $2 in
        '' | *[!0-9]* | 0?*) give_up "$bad_usage" "$1 needs a number, and has $2" ;;
    esac
}

# ---- ending

child=''
group=''
work=''
# whatever way it ends: nothing is left running, and no file
leave() {
    trap '' INT TERM HUP
    close_again
    [ -z "$group" ] || kill -s TERM -- "-$group" 2>/dev/null
    [ -z "$child" ] || kill "$child" 2>/dev/null
    [ -z "$work" ] || rm -rf "$work"
}
trap leave EXIT
trap 'exit 129' HUP
trap 'exit 130' INT
trap 'exit 143' TERM
trap 'exit "$pipe_gone"' PIPE
workplace() {
    [ -n "$work" ] || work=$(mktemp -d 2>/dev/null) || give_up "$unwritable" "no room for temporary files in ${TMPDIR:-/tmp}"
}

# ---- building

. "$root/commands/made.sh"

# follow_build: what the prover says, kept in a file and told crate by crate. A crate that is the same as before it passes over without a word, so the crates that
# are left are those that come after the one that is proved
follow_build() {
    : >"$work/log"
    running=no
    crate=''
    while IFS= read -r line; do
        # what the program prints once it is built is no word of the prover
        [ "$running" = no ] || continue
        printf '%s\n' "$line" >>"$work/log"
        case $line in
            "rt: running out/$name"*) running=yes ;;
            'crate '*': modules '*)
                crate=${line#crate }
                crate=${crate%%:*}
                ;;
            'logic=proved '*)
                left=$(echo "$crates" | awk -v crate="$crate" 'on { left++ } $0 == crate { on = 1 } END { print left + 0 }')
                [ "$quiet" = yes ] || say_again "proved $crate; $left of $total crates left"
                ;;
        esac
    done <"$work/said"
    [ "$running" = yes ]
}

# Builds the program where it is missing or made from other sources. The sources are summed up before the build, so an edit that is made meanwhile is seen next
# time; a lock keeps two builds apart; the prover runs in a group of its own, which ends with the command. `rt run` proves and builds the program and then runs
# it: on an empty input, and what it prints goes nowhere.
build() {
    rt=$(command -v rt) || give_up "$not_built" 'the command rt of the Rattle kit is not on PATH'
    kit=$(dirname -- "$(dirname -- "$(readlink -f -- "$rt")")")
    made_of "$name"
    sum=$(sources)
    ! up_to_date "$sum" || return 0
    { mkdir -p "$root/target/built" && true >>"$root/target/lock"; } 2>/dev/null ||
        give_up "$not_built" "not built yet, and it cannot be built here: $root cannot be written"
    exec 9>>"$root/target/lock"
    if ! flock -n 9; then
        [ "$quiet" = yes ] || complain 'waiting for another build to end'
        flock 9
    fi
    sum=$(sources)
    if ! up_to_date "$sum"; then
        total=$(echo "$crates" | wc -l)
        [ "$quiet" = yes ] || complain "proving and building, once: $total crates, some minutes"
        workplace
        mkfifo "$work/said"
        (cd "$root/crates/$name" && exec setsid "$rt" run "$name") </dev/null >"$work/said" 2>&1 3>&- 9>&- &
        group=$!
        follow_build
        built_well=$?
        wait "$group"
        group=''
        close_again
        if [ "$built_well" -ne 0 ]; then
            cat "$work/log" >&2
            give_up "$not_built" "the program could not be built"
        fi
        keep_program "$sum" 2>/dev/null || give_up "$not_built" "the program is built, and it cannot be kept: $root cannot be written"
        [ "$quiet" = yes ] || complain 'built'
    fi
    exec 9>&-
}

# ---- running

# take_file: the file that was named becomes standard input; a terminal is told of
take_file() {
    if [ "$file" != - ]; then
        [ -e "$file" ] || give_up "$unreadable" "no such file: $file"
        [ ! -d "$file" ] || give_up "$unreadable" "a folder, not a file: $file"
        { true <"$file"; } 2>/dev/null || give_up "$unreadable" "cannot be read: $file"
        exec <"$file"
    elif [ -t 0 ]; then
        say "reading the $what from the terminal; Ctrl-D ends it"
    fi
}

# spool: the front of what is read, kept for the program and for the words; more than any program judges
spool() {
    workplace
    take_file
    head -c 4096 >"$work/text" 2>/dev/null || give_up "$unreadable" "the $what could not be read"
}

# stream: what is read goes to the program as it comes, however long it is. Of a refused line the program tells what the words need
streamed=no
stream() {
    workplace
    take_file
    : >"$work/text"
    streamed=yes
}

# percent DONE OF: a whole number, of numbers of any length, in $now. It is no command of its own: a signal that ended it would be told
percent() {
    part=$1
    of=$2
    while [ "${#of}" -gt 15 ]; do
        of=${of%?}
        part=${part%?}
    done
    now=$((${part:-0} * 100 / of))
}

# what the marks mean to whoever waits for them, and how far they are
announce() {
    [ "$words" = on ] || return 0
    room=''
    [ ! -f /dev/stdout ] || room=$(df -Pk "/proc/$$/fd/1" 2>/dev/null | awk 'NR == 2 { printf "%.0f", $4 * 1024 }')
    awk -v name="$name" -v marks="$1" -v room="$room" -f "$root/commands/size.awk" </dev/null >&2
    shown=0
}
progress() {
    if [ "$words" = off ] || [ -t 1 ]; then return 0; fi
    percent "$1" "$marks"
    if [ ! -t 2 ] && [ $((now / 10)) -eq $((shown / 10)) ]; then return 0; fi
    shown=$now
    say_again "$now %: $1 of $marks marks"
}

# run: the program on what was spooled or is streamed, its standard output ours; sets `outcome`, for a refusal `number`, `place` and `earlier`, for that of a line
# also `jack` and `held`, the ports that hold there, with the line in the place of what was spooled; and `ended`, its status
outcome=none
number=''
place=''
earlier=''
jack=''
held=''
run() {
    mkfifo "$work/told"
    # by a descriptor of its own, since what a shell starts in the background has no standard input
    if [ "$streamed" = yes ]; then exec 4<&0; else exec 4<"$work/text"; fi
    "$program" <&4 4<&- 3>"$work/told" &
    child=$!
    exec 4<&-
    while IFS= read -r line; do
        case $line in
            marks=*)
                marks=${line#*=}
                announce "$marks"
                ;;
            done=*) [ "$outcome" != none ] || progress "${line#*=}" ;;
            refused=*) outcome=refused number=${line#*=} ;;
            at=*) place=${line#*=} ;;
            earlier=*) earlier=${line#*=} ;;
            jack=*) jack=${line#*=} ;;
            ports=*) held=${line#*=} ;;
            line=*) printf '%s\n' "${line#*=}" >"$work/text" ;;
            *) outcome=$line ;;
        esac
    done <"$work/told"
    wait "$child"
    ended=$?
    child=''
    close_again
}

# deliver FILE: to standard output, for a command that draws what its program printed
deliver() {
    cat "$1" 2>/dev/null
    delivered=$?
    case $delivered in
        0) ;;
        "$pipe_gone") exit "$pipe_gone" ;;
        *) give_up "$unwritten" "$not_written" ;;
    esac
}

# finish: the words of a refusal, and the status. What cannot be read or written has been said
finish() {
    case $outcome in
        printed) exit "$printed_all" ;;
        refused)
            [ "$words" = off ] ||
                awk -v name="$name" -v asked="$asked" -v number="$number" -v place="$place" -v earlier="$earlier" -v jack="$jack" -v held="$held" \
                    -v bytes="$(wc -c <"$work/text")" -f "$root/commands/numbers.awk" -f "$root/commands/words.awk" "$work/text" >&2
            exit "$was_refused"
            ;;
        unreadable) exit "$unreadable" ;;
        unwritable)
            # of a reader that went away the program says nothing, and nor do we, unless SIGPIPE is ignored
            [ "$unwritten" = "$unwritable" ] || [ "$ignored" = no ] || complain "$not_written"
            exit "$unwritten"
            ;;
    esac
    [ "$ended" -eq 0 ] || exit "$ended"
    give_up "$not_built" 'the program ended and did not say how'
}
