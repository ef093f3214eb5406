# What a plan names and what it leaves out, worked out here from the lines of an accepted plan, in the shell's whole numbers of 64 bits; and the strip of bin/named,
# read back cell by cell. Nothing of it is the commands' way: each leg is laid out from rank 0 on, what goes past the end of the list from rank 0 again, and runs
# that meet are put together. For tests/printer.sh and tests/drawings.sh.

# count_of PORTS: how many patterns there are, by the paper's rule
count_of() {
    of_ports=2
    of_count=1
    of_before=0
    while [ "$of_ports" -lt "$1" ]; do
        of_next=$((of_ports * (of_count + of_before)))
        of_before=$of_count
        of_count=$of_next
        of_ports=$((of_ports + 1))
    done
    echo "$of_count"
}
count_in() { count_of "$(sed -n 's/^ports=//p' "$1")"; }

# runs_of PLAN: the ranks that its legs name, as runs `FROM TO` of which TO is the first rank no longer in it, rising and apart
runs_of() {
    runs_count=$(count_in "$1")
    sed -n 's/^start=//p; s/^run=//p' "$1" | while read -r start && read -r run; do
        case $run in
            -*) from=$((start + run)) to=$((start + 1)) ;;
            *) from=$start to=$((start + run + 1)) ;;
        esac
        if [ "$from" -lt 0 ]; then
            echo "$((from + runs_count)) $runs_count"
            echo "0 $to"
        elif [ "$to" -gt "$runs_count" ]; then
            echo "$from $runs_count"
            echo "0 $((to - runs_count))"
        else
            echo "$from $to"
        fi
    done | sort -n | {
        read -r from to
        while read -r next_from next_to; do
            if [ "$next_from" -gt "$to" ]; then
                echo "$from $to"
                from=$next_from
                to=$next_to
            elif [ "$next_to" -gt "$to" ]; then
                to=$next_to
            fi
        done
        echo "$from $to"
    }
}

# gaps_of PLAN: its gaps, `FIRST MANY` each, rising: from each run to the next one, and from the last to the first past the end of the list
gaps_of() {
    gaps_count=$(count_in "$1")
    runs_of "$1" | {
        read -r first_from to
        while read -r from next_to; do
            echo "$to $((from - to))"
            to=$next_to
        done
        [ "$((gaps_count - to + first_from))" -eq 0 ] || echo "$((to % gaps_count)) $((gaps_count - to + first_from))"
    } | sort -n
}

# named_in PLAN: how many different ranks it names
named_in() { runs_of "$1" | { sum=0; while read -r from to; do sum=$((sum + to - from)); done; echo "$sum"; }; }

# named_told PLAN: what bin/named is to print
named_told() {
    echo "named=$(named_in "$1")"
    echo "of=$(count_in "$1")"
    gaps_of "$1" | awk '{ line[NR] = "gap=" $1 "," $2 } END { print "gaps=" NR; for (k = 1; k <= NR; k++) print line[k] }'
}

# gaps_told PLAN: what the readers of drawings are to find: how many are named, of how many, how many not, in how many gaps, or `all`; and for each gap its first
# rank, its last, how many it has, and `over` where it passes the end of the list
gaps_told() {
    told_count=$(count_in "$1")
    told_named=$(named_in "$1")
    if [ "$told_named" -eq "$told_count" ]; then echo all; else echo "$told_named $told_count $((told_count - told_named)) $(gaps_of "$1" | wc -l)"; fi
    gaps_of "$1" | while read -r first many; do
        last=$(((first + many - 1) % told_count))
        if [ "$last" -lt "$first" ]; then over=over; else over=-; fi
        echo "$first $last $many $over"
    done
}

# gaps_turned PLAN: where each gap begins and ends and how far it goes, in thousandths of a turn
gaps_turned() {
    gaps_told "$1" | awk -v count="$(count_in "$1")" '
        function turn(rank) { return int(rank / count * 1000 + 0.5) }
        NR > 1 { print turn($1) % 1000, turn($2) % 1000, turn($3 - 1) }'
}

# strip_told FILE PLAN: reads the strip in a file with what bin/named --words said, and prints `right`, or what is wrong with it: there is one, in 80 columns, with
# a cell for each rank up to 48, else 48 of them. Cell k has the ranks from k times the count, divided by the cells and rounded down, up to that of the next cell.
strip_told() {
    strip_line=$(sed -n 's/^named: 0 \[\([#.+]*\)\] # all \. none + some$/\1/p' "$1")
    strip_count=$(count_in "$2")
    strip_runs=$(runs_of "$2")
    if [ "$strip_count" -lt 48 ]; then cells=$strip_count; else cells=48; fi
    if [ "${#strip_line}" -ne "$cells" ] || [ "$(grep -c '\[' "$1")" -ne 1 ] || [ -n "$(grep '\[' "$1" | cut -c 81-)" ]; then
        echo "no strip of $cells cells in 80 columns: $strip_line"
        return
    fi
    # each share is the whole part of the count by the cells, and k of the cells have k times what is left over more, rounded down: no product goes beyond 64 bits
    whole=$((strip_count / cells))
    left=$((strip_count % cells))
    k=0
    while [ "$k" -lt "$cells" ]; do
        cell_from=$((k * whole + k * left / cells))
        cell_to=$(((k + 1) * whole + (k + 1) * left / cells))
        met=0
        while read -r from to; do
            [ "$from" -ge "$cell_from" ] || from=$cell_from
            [ "$to" -le "$cell_to" ] || to=$cell_to
            [ "$to" -le "$from" ] || met=$((met + to - from))
        done <<RUNS
$strip_runs
RUNS
        sign=${strip_line%"${strip_line#?}"}
        strip_line=${strip_line#?}
        if [ "$met" -eq 0 ]; then want=.; elif [ "$met" -eq "$((cell_to - cell_from))" ]; then want='#'; else want=+; fi
        if [ "$sign" != "$want" ]; then
            echo "cell $k has $sign, and of its $((cell_to - cell_from)) ranks from $cell_from on $met are named"
            return
        fi
        k=$((k + 1))
    done
    echo right
}
