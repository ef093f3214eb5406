# How a command builds its program: on a small tree of its own, with a stand-in for the prover that does what the test asks of it, and once with the kit itself.
building_out=$(mktemp -d)
tree=$building_out/tree
mkdir -p "$tree/crates/words/src" "$tree/crates/orders/src" "$building_out/kit/bin" "$building_out/room"
cp -R bin commands "$tree/"
echo '// Nothing yet.' >"$tree/crates/words/src/lib.rt"
cat >"$tree/crates/orders/src/main.rt" <<'MAIN'
// Says that it ran.
#![tactic(auto)]

use std::fs::OpenOptions;
use std::io::Write;

fn main(rt: HostRuntime) {
    let mut output = rt.stdout();
    let _ = output.write_all(b"ran\n");
    if let Ok(mut told) = OpenOptions::new().append(true).open(&rt, "/dev/fd/3") {
        let _ = told.write_all(b"printed\n");
    }
}
MAIN
echo ran >"$tree/crates/orders/stdout"
printf 'words:\norders: words\nother:\n' >"$tree/crates.txt"

# the stand-in: `rt run NAME` runs the file `meanwhile` beside the tree if there is one, tells crate after crate as the kit's rt does, makes a program that says it
# ran, and runs it as rt does
cat >"$building_out/kit/bin/rt" <<'RT'
#!/bin/sh
echo begin >>../../../builds
echo 'rt: chose --jobs 2 for words'
echo 'crate words: modules loaded=0 checked=3'
echo 'logic=proved functions=0'
[ ! -f ../../../meanwhile ] || . ../../../meanwhile
mkdir -p out
printf '#!/bin/sh\necho ran\nif { true >&3; } 2>/dev/null; then echo printed >&3; fi\n' >"out/$2"
chmod +x "out/$2"
echo "crate $2: modules loaded=0 checked=83"
echo 'logic=proved functions=3'
echo end >>../../../builds
echo "rt: running out/$2; to give it other input, run that file yourself"
exec "out/$2"
RT
chmod +x "$building_out/kit/bin/rt"
echo 'a stand-in' >"$building_out/kit/KIT-ID"

# stood_in COMMAND..: with the stand-in as the kit, temporary files in a folder of the test; in a process of its own, which becomes the command
stood_in() (exec env PATH="$building_out/kit/bin:$PATH" TMPDIR="$building_out/room" "$@")
# built LABEL STATUS BUILDS SAID: the command run in the tree ends so, after so many builds in all, and says that, lines with ' / ' between them
built() {
    stood_in "$tree/bin/orders" $building_words </dev/null >"$building_out/found" 2>"$building_out/said"
    building_status=$?
    said=$(awk '{ printf "%s%s", (NR > 1 ? " / " : ""), $0 }' "$building_out/said")
    builds=$(grep -c begin "$building_out/builds")
    if [ "$building_status" -eq "$2" ] && [ "$builds" -eq "$3" ] && [ "$said" = "$4" ] && { [ "$2" -ne 0 ] || [ "$(cat "$building_out/found")" = ran ]; }; then
        pass "building: $1"
    else
        echo "  status $building_status, $builds builds, said: $said"
        fail "building: $1"
    fi
}
building_words=''
: >"$building_out/builds"
whole='orders: proving and building, once: 2 crates, some minutes / orders: proved words; 1 of 2 crates left / orders: proved orders; 0 of 2 crates left / orders: built'
built 'the first time it says what it does, crate by crate' 0 1 "$whole"
built 'the second time it says nothing and builds nothing' 0 1 ''

# an edit is seen: of a source, with an old date too; of the kit; one that is made while a build runs. One of a crate that the program does not have is not.
echo '// Something.' >>"$tree/crates/words/src/lib.rt"
touch -d 2001-01-01 "$tree/crates/words/src/lib.rt"
built 'an edit is seen, whatever its date' 0 2 "$whole"
echo 'another stand-in' >"$building_out/kit/KIT-ID"
built 'another kit is seen' 0 3 "$whole"
mkdir -p "$tree/crates/other/src"
echo '// Another.' >"$tree/crates/other/src/lib.rt"
built 'an edit of another crate is not' 0 3 ''
echo 'echo "// Later." >>../words/src/lib.rt; rm ../../../meanwhile' >"$building_out/meanwhile"
echo '// More.' >>"$tree/crates/words/src/lib.rt"
built 'an edit, and another made while it is built' 0 4 "$whole"
built 'the one that was made meanwhile is seen' 0 5 "$whole"
built 'and then no more' 0 5 ''
echo '# Another program.' >>"$tree/target/bin/orders"
building_words=--quiet
built 'a program that is not the one that was built is built again, with --quiet without a word' 0 6 ''
building_words=''

# a build that fails: the prover's words, status 1, and it is tried again
echo 'echo "words/src/lib.rt:1:1: error"; exit 1' >"$building_out/meanwhile"
echo '// Wrong.' >>"$tree/crates/words/src/lib.rt"
failing='orders: proving and building, once: 2 crates, some minutes / orders: proved words; 1 of 2 crates left / rt: chose --jobs 2 for words'
failing="$failing / crate words: modules loaded=0 checked=3 / logic=proved functions=0"
failing="$failing / words/src/lib.rt:1:1: error / orders: the program could not be built"
built 'a build that fails' 1 7 "$failing"
built 'is tried again' 1 8 "$failing"
rm "$building_out/meanwhile"

# two at once: the builds do not overlap, and the second finds it built
echo 'sleep 1' >"$building_out/meanwhile"
: >"$building_out/builds"
stood_in "$tree/bin/orders" </dev/null >"$building_out/one" 2>"$building_out/said-one" &
one=$!
stood_in "$tree/bin/orders" </dev/null >"$building_out/two" 2>"$building_out/said-two" &
two=$!
wait "$one"
one=$?
wait "$two"
two=$?
if [ "$one,$two,$(cat "$building_out/one" "$building_out/two" | tr '\n' ,)" = 0,0,ran,ran, ] && [ "$(tr '\n' , <"$building_out/builds")" = begin,end, ] &&
    grep -qx 'orders: waiting for another build to end' "$building_out/said-one" "$building_out/said-two"; then
    pass 'building: two at once make one build, and both run'
else
    cat "$building_out/builds" "$building_out/said-one" "$building_out/said-two"
    fail 'building: two at once disturb each other'
fi

# Ctrl-C: a signal to the command's group while the prover has a job of its own in the background. Nothing is left: no process, no temporary file, no lock.
# The signals are set as a terminal's shell has them, since a test command that runs in the background ignores them.
echo 'sleep 30 & echo $! >../../../job; wait' >"$building_out/meanwhile"
runs() { [ -e "/proc/$1/stat" ] && ! grep -q ') Z ' "/proc/$1/stat"; }
for signal in INT TERM HUP; do
    rm -f "$building_out/job" "$tree/target/bin/orders"
    stood_in env --default-signal=INT,TERM,HUP setsid sh -c 'echo $$ >"$1" && exec "$2"' sh "$building_out/leader" "$tree/bin/orders" \
        </dev/null >"$building_out/found" 2>"$building_out/said" &
    one=$!
    tries=0
    while [ ! -s "$building_out/job" ] && [ "$tries" -lt 100 ]; do
        sleep 0.1
        tries=$((tries + 1))
    done
    job=$(cat "$building_out/job")
    kill -s "$signal" -- "-$(cat "$building_out/leader")"
    wait "$one"
    ended=$?
    tries=0
    while runs "$job" && [ "$tries" -lt 20 ]; do
        sleep 0.1
        tries=$((tries + 1))
    done
    case $signal in INT) want=130 ;; TERM) want=143 ;; HUP) want=129 ;; esac
    if [ "$ended" -eq "$want" ] && [ -n "$job" ] && ! runs "$job" && [ -z "$(ls "$building_out/room")" ] && flock -n "$tree/target/lock" true; then
        pass "building: $signal ends it with $want, and leaves nothing behind"
    else
        kill "$job" 2>/dev/null
        echo "  status $ended, job $job, room $(ls "$building_out/room")"
        fail "building: $signal leaves something behind, or does not end it with $want"
    fi
done
rm "$building_out/meanwhile"
: >"$building_out/builds"
built 'after that it is built as if nothing had been' 0 1 "$whole"

# a folder that cannot be written: what is built runs, what is not says so in a line
if [ "$(id -u)" -eq 0 ]; then as_other='setpriv --reuid=65534 --regid=65534 --clear-groups'; else as_other=''; fi
chmod 755 "$building_out"
chmod 1777 "$building_out/room"
chmod -R a+rX,a-w "$tree"
found=$(stood_in $as_other "$tree/bin/orders" </dev/null 2>&1)
[ "$found" = ran ] && pass 'building: what is built runs where nothing can be written' || fail "building: what is built does not run where nothing can be written: $found"
chmod u+w "$tree/target/built" && rm "$tree/target/built/orders" && chmod u-w "$tree/target/built"
found=$(stood_in $as_other "$tree/bin/orders" </dev/null 2>&1)
if [ $? -eq 1 ] && [ "$found" = "orders: not built yet, and it cannot be built here: $tree cannot be written" ]; then
    pass 'building: what is not built says in a line that it cannot be written'
else
    fail "building: where nothing can be written it says: $found"
fi
chmod -R u+w "$tree"

# without the kit
mkdir "$building_out/commands"
for tool in dirname readlink sh; do ln -s "$(command -v $tool)" "$building_out/commands/$tool"; done
found=$(PATH=$building_out/commands "$tree/bin/orders" </dev/null 2>&1)
if [ $? -eq 1 ] && [ "$found" = 'orders: the command rt of the Rattle kit is not on PATH' ]; then
    pass 'building: without the kit it ends with 1 and says so'
else
    fail "building: without the kit it says: $found"
fi

# with the kit: the same words, of what its rt says
rm -rf "$tree/target" "$tree/crates/orders/out"
found=$(TMPDIR=$building_out/room "$tree/bin/orders" </dev/null 2>&1 | awk '{ printf "%s%s", (NR > 1 ? " / " : ""), $0 }')
if [ "$found" = "$whole / ran" ]; then
    pass 'building: with the kit it tells crate by crate, and runs'
else
    fail "building: with the kit it says: $found"
fi
rm -rf "$building_out"
