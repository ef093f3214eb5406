# The speed table, tried: `speed/run --try` builds and measures each thing once. Nothing is asserted of any time; each table has its rows, each figure is one,
# and every call is in the table of stacks, within what docs/USING.md says of all.
speed_log=target/speed-try.md
if ! speed/run --try >"$speed_log" 2>target/speed-try.log; then
    cat target/speed-try.log
    fail 'speed: speed/run --try does not end well'
elif ! awk -F ' *[|] *' '
    /^## / { table = $0; tables++ }
    /^[|] (call|ports|legs) / || /^[|]---/ { next }
    /^[|]/ { if (!rows[table]++) filled++; for (k = 3; k < NF; k++) if ($k !~ /^([0-9.]+( \([0-9.]+\.\.[0-9.]+\))?)?$/ || (k == 3 && $k == "")) bad = 1 }
    END { exit bad || tables != 9 || filled != 9 }' "$speed_log"; then
    cat "$speed_log"
    fail 'speed: a table of speed/run --try is not there, or has no figures'
else
    pass 'speed: speed/run makes its nine tables'
fi
speed_calls=$(sed -n 's/^uint8_t jidrofex_\([a-z_]*\)(.*/\1/p' include/jidrofex.h include/jidrofex_benches.h | sort)
speed_stacks=$(sed -n '/^## Stack/,$p' "$speed_log" | sed -n 's/^| \([a-z_]*\) | \([0-9]*\) |$/\1 \2/p' | sort)
speed_deep=$(echo "$speed_stacks" | awk '
    $2 >= 8192 || $1 ~ /^(rank|unrank|next|previous)$/ && $2 > 512 || $1 ~ /^(dictionary_.*|number_to_rank|rank_to_number)$/ && $2 > 768')
if [ -z "$speed_calls" ] || [ "$speed_calls" != "$(echo "$speed_stacks" | cut -d ' ' -f 1)" ]; then
    fail 'speed: the table of stacks does not have every call of include/jidrofex.h and include/jidrofex_benches.h'
elif [ -n "$speed_deep" ]; then
    fail "speed: a call takes more stack than docs/USING.md says: $speed_deep"
else
    pass "speed: rank, unrank, next and previous take 512 bytes of stack at most, the calls on dictionary numbers 768, and no call of the headers 8 KiB, the most $(echo "$speed_stacks" | awk '$2 > m { m = $2 } END { print m }') bytes"
fi
