# The layout: crates.txt and the folders of crates/ name the same crates, README's tour names each of them, each stands in a room, the roof carries nothing but
# the roof of several benches, and these are a product that nothing else rests on.
listed=$(sed -e 's/#.*//' -e 's/^[[:space:]]*//' -e 's/[[:space:]:].*//' crates.txt | grep -v '^$' | sort)
folders=$(for folder in crates/*/; do basename "$folder"; done | sort)
stray=$(for name in $folders; do echo "$listed" | grep -qx "$name" || echo "$name"; done)
absent=$(for name in $listed; do [ -d "crates/$name" ] || echo "$name"; done)
[ -z "$stray" ] || fail "a crate folder that crates.txt does not list: $(echo $stray)"
[ -z "$absent" ] || fail "a crate of crates.txt without a folder: $(echo $absent)"
[ -n "$stray$absent" ] || pass "crates.txt lists the crates there are: $(echo $listed)"

unnamed=$(for name in $listed; do grep -qF "\`$name\`" README.md || echo "$name"; done)
if [ -z "$unnamed" ]; then
    pass "README's tour names every crate"
else
    fail "a crate that README's tour does not name: $(echo $unnamed)"
fi

# a room is the part of the name before its first _; the programs' room has names of its own. Each crate stands in a room, and knows its own
# room and those before it
rooms="listing promise words text pattern:patterns dictionary panel line plan:plans campaign \
printing:console:asking:showing:naming:translating:explaining:orders:show:named:translate:explain:cases face demands benches"
homeless=$(for name in $listed; do echo " $rooms " | grep -qE "[ :]${name%%_*}[ :]" || echo "$name"; done)
if [ -z "$homeless" ]; then
    pass "every crate begins with its room"
else
    fail "a crate that begins with no room: $(echo $homeless)"
fi
climbing=$(awk -v rooms="$rooms" '
    BEGIN { n = split(rooms, room, " "); for (i = 1; i <= n; i++) { m = split(room[i], names, ":"); for (k = 1; k <= m; k++) floor[names[k]] = i } }
    function at(crate) { sub(/_.*/, "", crate); return floor[crate] }
    { sub(/#.*/, ""); crate = $1; sub(/:.*/, "", crate); sub(/^[^:]*:/, ""); for (k = 1; k <= NF; k++) if (at($k) > at(crate)) print crate " on " $k }' crates.txt)
if [ -z "$climbing" ]; then
    pass "every crate knows only its own room and those before it"
else
    fail "a crate that leans on a room after its own: $(echo $climbing)"
fi

# leaning REGEX: the crates that depend on a crate of such a name
leaning() { sed -n "s/^\([a-z_0-9]*\)[^:]*:\(.* \)*$1\( .*\)*\$/\1/p" crates.txt; }
on_roof=$(leaning demands | grep -vx benches_demands)
if [ -z "$on_roof" ]; then
    pass "no crate depends on demands but benches_demands"
else
    fail "a crate that depends on the roof, demands: $(echo $on_roof)"
fi
on_benches=$(leaning 'benches[a-z_0-9]*' | grep -v '^benches')
if [ -z "$on_benches" ] && [ -n "$(leaning benches_laws)" ]; then
    pass "no crate outside the room benches depends on a crate of it"
else
    fail "a crate that depends on several benches, a product of its own: $(echo $on_benches)"
fi
on_benches_roof=$(leaning benches_demands)
if [ -z "$on_benches_roof" ]; then
    pass "no crate depends on benches_demands"
else
    fail "a crate that depends on the roof of several benches, benches_demands: $(echo $on_benches_roof)"
fi
# what C links: a static library, on which no crate can depend, so that each call stands in a library beneath it
for layout_library in face_c benches_c; do
    if ! grep -q "^$layout_library staticlib:" crates.txt; then
        fail "crates.txt does not have $layout_library as a static library"
    elif [ -n "$(leaning "$layout_library")" ]; then
        fail "a crate that depends on the static library $layout_library: $(echo $(leaning "$layout_library"))"
    else
        pass "$layout_library is a static library, and no crate depends on it"
    fi
done
