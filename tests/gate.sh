# The gate's own tests: a copy of the tree with one thing wrong must fail, for that reason, and say so in its last line. A copy runs the parts that are looked
# at before any proof, and no copy makes copies, so each takes a moment whatever is wrong. How the proofs and the edits are judged is tried on a small tree.
type edits_there >/dev/null 2>&1 || . "$root/tests/edited.sh"
gate_copies=$(mktemp -d)
trap 'rm -rf "$gate_copies"' EXIT

# the tree without what was built, copied once
gate_whole=$gate_copies/whole
mkdir -p "$gate_whole/crates"
for entry in .ci * crates/*; do
    case $entry in
        target | crates) ;;
        crates/*)
            mkdir "$gate_whole/$entry"
            for part in "$entry"/*; do [ "$part" = "$entry/out" ] || cp -R "$part" "$gate_whole/$entry/"; done
            ;;
        *) cp -R "$entry" "$gate_whole/" ;;
    esac
done

# copy LABEL: a copy of that; its folder is $gate_copy. Its files are links to those of the first copy, so one that is changed is put in place anew, by written
copy() {
    gate_copy=$gate_copies/$1
    cp -Rl "$gate_whole" "$gate_copy"
}

# written FILE: the file of the copy, and of no other, becomes what comes on standard input
written() {
    rm "$gate_copy/$1"
    cat >"$gate_copy/$1"
}

# appended FILE LINE: the file of the copy with one line more
appended() { { cat "$1" && echo "$2"; } | written "$1"; }

# must_fail LABEL WORDS: the copy fails, its last line counts a failure, and it says WORDS
must_fail() {
    if out=$(cd / && "$gate_copies/$1/test" $before 2>&1); then
        fail "gate: $1: a tree with this fault passed"
    elif ! echo "$out" | tail -n 1 | grep -Eqx '[0-9]+ passed, [1-9][0-9]* failed'; then
        fail "gate: $1: the last line does not count the failure"
    elif ! echo "$out" | grep -qF -- "$2"; then
        echo "$out" | tail -n 3
        fail "gate: $1: the reason is not said"
    else
        pass "gate: $1 is refused"
    fi
    rm -rf "${gate_copies:?}/$1"
}

# changed LABEL FILE SCRIPT WORDS: a copy in which sed's SCRIPT changed the FILE
changed() {
    copy "$1"
    sed "$3" "$2" | written "$2"
    if cmp -s "$2" "$gate_copy/$2"; then
        fail "gate: $1: the copy is not changed"
    else
        must_fail "$1" "$4"
    fi
}

# on_path LABEL COMMAND WORDS: a copy that is run where every command is found but COMMAND, or where $gate_copies/stand-in is found in its place
on_path() {
    copy "$1"
    mkdir "$gate_copies/commands"
    oldifs=$IFS
    IFS=:
    for folder in $PATH; do ln -s "$folder"/* "$gate_copies/commands/" 2>/dev/null; done
    IFS=$oldifs
    rm -f "$gate_copies/commands/$2"
    [ ! -f "$gate_copies/stand-in" ] || mv "$gate_copies/stand-in" "$gate_copies/commands/$2"
    gate_path=$PATH
    PATH=$gate_copies/commands
    must_fail "$1" "$3"
    PATH=$gate_path
    rm -rf "$gate_copies/commands"
}

# ---- the layout
copy stray-crate
mkdir -p "$gate_copy/crates/stray/src"
echo '// not listed' >"$gate_copy/crates/stray/src/lib.rt"
must_fail stray-crate 'a crate folder that crates.txt does not list: stray'

copy crate-without-folder
appended crates.txt 'absent:'
must_fail crate-without-folder 'a crate of crates.txt without a folder: absent'

copy crate-without-a-room
mkdir -p "$gate_copy/crates/legs/src"
appended crates.txt 'legs:'
appended README.md 'The crate `legs`.'
must_fail crate-without-a-room 'a crate that begins with no room: legs'

changed crate-left-out-of-the-tour README.md 's/`listing_cases`/the cases/' "a crate that README's tour does not name: listing_cases"
changed roof-leaned-on crates.txt 's/^orders:/orders: demands/' 'a crate that depends on the roof, demands: orders'
changed roof-leaned-on-by-benches crates.txt 's/^benches_calls:/benches_calls: demands/' 'a crate that depends on the roof, demands: benches_calls'
changed benches-leaned-on crates.txt 's/^orders:/orders: benches_laws/' 'a crate that depends on several benches, a product of its own: orders'
changed roof-of-benches-leaned-on crates.txt 's/^benches_text:/benches_text: benches_demands/' \
    'a crate that depends on the roof of several benches, benches_demands: benches_text'
changed static-library-leaned-on crates.txt 's/^demands:/demands: face_c/' 'a crate that depends on the static library face_c: demands'
changed room-after-its-own crates.txt 's/^text_keys:/text_keys: panel/' 'a crate that leans on a room after its own: text_keys on panel'

# ---- the plans
copy plan-that-no-test-runs
echo 'ports=2' >"$gate_copy/plans/unrun"
must_fail plan-that-no-test-runs 'a plan that no test runs: plans/unrun'
changed example-that-no-page-shows docs/NUMBERS.md 's|`examples/lab/numbers`|the example|' 'an example that docs/NUMBERS.md does not show: examples/lab/numbers'

# ---- the documents
changed citations-stripped docs/PROMISES.md 's/`//g' 'docs/PROMISES.md cites 0, and says that it cites at least'
changed law-that-is-not-there README.md 's/`demands.Two.demand-two`/`demands.Two.demand-too`/' 'README.md cites what is not there: demands.Two.demand-too'
changed floor-left-out docs/USING.md '$d' 'docs/USING.md does not say in its last line how many it cites at least'
changed claim-changed docs/USING.md 's/A call takes less than 8 KiB/A call takes less than 4 KiB/' 'docs/WORKING.md quotes a claim that its page does not make'

# ---- the public calls
changed contract-that-no-law-holds crates/patterns/proofs/Contracts.antt '/^pub rank-says/d' 'a call whose contract no law holds: rank-says of patterns'
changed contract-of-benches-that-no-law-holds crates/benches_face/proofs/Contracts.antt '/^pub version-says/d' \
    'a call whose contract no law holds: version-says of benches_face'
changed call-without-its-field crates/demands/specs/Only.antt '/^  pub face_request /d' 'a call whose contract no law holds: a field for jidrofex_request of face_campaign'
changed call-exported-with-another-clause crates/face_c/src/lib.rt 's/number_told (check_as true/number_told (check_as false/' \
    'jidrofex_check: not the signature and the clauses of face_patterns'
changed call-exported-with-another-body crates/face_c/src/lib.rt 's/face_patterns::jidrofex_next(pattern, answer)/face_patterns::jidrofex_previous(pattern, answer)/' \
    'jidrofex_next: it does something else than to call face_patterns::jidrofex_next'
changed call-that-is-not-exported crates/benches_c/src/lib.rt '/^#\[unsafe(no_mangle)\]$/d' 'jidrofex_benches_share: it is not exported under its name'

# ---- the edits
copy edit-removed
rm "$gate_copy/crates/listing/must-fail/self_join_allowed.edit"
must_fail edit-removed "edits, and there were $edits_at_least"

changed edit-without-its-line crates/listing/must-fail/modulo_toward_zero.edit '/^# refused at:/d' 'listing/modulo_toward_zero: 0 lines `# refused at:`'
changed edit-of-a-text-that-is-gone crates/listing/specs/Around.antt 's/^modulo (negsuc k)/modulo (negsuc  k)/' \
    'listing/modulo_toward_zero: an old text is not in specs/Around.antt'

# ---- the proofs and the edits, on a tree of a library of one function, and at last a program that prints nothing: there the part proofs takes seconds
small=$gate_copies/small
mkdir -p "$small/tests" "$small/commands" "$small/crates/seven/src" "$small/crates/seven/must-fail"
cp test "$small/"
cp tests/proofs.sh tests/edited.sh "$small/tests/"
cp commands/made.sh "$small/commands/"
echo 'seven:' >"$small/crates.txt"
cat >"$small/crates/seven/src/lib.rt" <<'END'
// The answer is 7.
#![tactic(auto)]

ghost use Rattle.std.specs.Prelude.{◌≡◌};

pub fn seven() -> usize
    ensures { result ≡ 7 }
{
    7
}
END

# small_edit LABEL LAW OLD NEW: an edit of the small library
small_edit() { printf '# refused at: %s\nfile: src/lib.rt\nold: %s\nnew: %s\n' "$2" "$3" "$4" >"$small/crates/seven/must-fail/$1.edit"; }

# small_fails LABEL COUNT WORDS..: the part proofs of the small tree says each of the words, and its last line is the count
small_fails() {
    small_label=$1 small_count=$2
    out=$(cd / && "$small/test" proofs 2>&1)
    if [ "$(echo "$out" | tail -n 1)" != "$small_count" ]; then
        echo "$out" | tail -n 12
        fail "gate: $small_label: the proofs of the small tree do not end in '$small_count'"
        return
    fi
    shift 2
    for words; do
        echo "$out" | grep -qF -- "$words" || { fail "gate: $small_label: it is not said: $words"; return; }
    done
    pass "gate: $small_label"
}

small_edit is_refused 'seven returns' '    7' '    8'
small_fails 'the proofs of a small tree with nothing wrong pass' '3 passed, 0 failed' 'must-fail edits: 1 refused' 'all 1 edits are refused, and none is bad'

# beside the edit that is refused: one that changes a comment, one that is refused elsewhere than it says
small_edit is_survivor 'seven returns' 'The answer is 7.' 'The answer is 8.'
small_edit is_elsewhere 'seven loops' '    7' '    6'
small_fails 'an edit that is not refused is told' '3 passed, 1 failed' 'must-fail seven/is_survivor.edit: NOT REFUSED'
found=$(edits_judged "$small" "$small/target/rt-ci.log" | cut -d: -f1)
case $(echo $found) in
    'seven/is_elsewhere seven/is_survivor') pass 'gate: an edit that is refused elsewhere than it says is told' ;;
    *) fail "gate: of the small tree's edits these are told as refused elsewhere: $(echo $found)" ;;
esac

# what rt lets pass: edits that the compiler refuses, or whose old texts do not stand once
rm "$small"/crates/seven/must-fail/*
small_edit is_refused 'seven returns' '    7' '    8'
small_edit is_unread 'seven returns' 'pub fn seven' 'pub fun seven'
small_edit is_gone 'seven returns' '    9' '    8'
small_edit is_twice 'seven returns' '7' '8'
small_fails 'edits that cannot be applied or read are told' '2 passed, 1 failed' 'must-fail edits: 1 refused, 3 bad' \
    'must-fail seven/is_unread.edit: BAD EDIT: it did not reach the prover' "must-fail seven/is_gone.edit: BAD EDIT: an 'old:' text is in src/lib.rt 0 times" \
    "must-fail seven/is_twice.edit: BAD EDIT: an 'old:' text is in src/lib.rt 3 times" '3 edits cannot be applied, compiled or read'

# a crate that is not proved, and beside it a program that is and writes something else
sed 's/^    7$/    8/' "$small/crates/seven/src/lib.rt" >"$small/wrong"
mv "$small/wrong" "$small/crates/seven/src/lib.rt"
rm "$small"/crates/seven/must-fail/*
small_edit is_refused 'seven returns' '    8' '    9'
echo 'silent:' >>"$small/crates.txt"
mkdir -p "$small/crates/silent/src"
printf '#![tactic(auto)]\n\nfn main() {}\n' >"$small/crates/silent/src/main.rt"
echo 'a line' >"$small/crates/silent/stdout"
small_fails 'a crate that is not proved and a program that writes something else are told' '1 passed, 2 failed' \
    'rt: seven NOT PROVED' 'silent: what the program wrote, out/stdout, is not what its file stdout has' 'rt: FAILED: seven silent (run)'

# a stand-in for rt that says less than it should: small_stands_in LABEL COUNT WORDS SAID STATUS
small_stands_in() {
    mkdir -p "$gate_copies/kit/bin"
    printf '#!/bin/sh\n[ "$*" = ci ] || exit 2\ncat <<SAID\n%s\nSAID\nexit %s\n' "$4" "$5" >"$gate_copies/kit/bin/rt"
    chmod +x "$gate_copies/kit/bin/rt"
    gate_path=$PATH
    PATH=$gate_copies/kit/bin:$PATH
    small_fails "$1" "$2" "$3"
    PATH=$gate_path
}
small_whole='rt: seven proved
rt: silent proved
rt: silent ran, and wrote what its file stdout has'
small_ok='rt: ok; handles allowed: none; must-fail edits: 1 refused; every proof and must-fail edit was done in this run
3 passed, 0 failed'
small_stands_in 'the stand-in that says all passes' '4 passed, 0 failed' 'all 1 edits are refused' "$small_whole
$small_ok" 0
small_stands_in 'a crate that is passed over is told' '4 passed, 1 failed' 'seven is neither proved by this run nor kept' "$(echo "$small_whole" | sed 1d)
$small_ok" 0
small_stands_in 'a program that is not run is told' '4 passed, 1 failed' 'silent is proved, and it was not run' "$(echo "$small_whole" | sed '$d')
$small_ok" 0
small_stands_in 'an edit that is not tried is told' '3 passed, 1 failed' '0 edits are refused, and there are 1' "$small_whole
$(echo "$small_ok" | sed 's/ must-fail edits: 1 refused;//')" 0
small_stands_in 'a run with no line of its own is told' '3 passed, 1 failed' 'has no line `rt: ok`' "$small_whole
3 passed, 0 failed" 0
small_stands_in 'a status that is not 0 is told' '3 passed, 1 failed' 'rt ci ended with status 1' "$small_whole
$small_ok" 1
small_stands_in 'a run without its count is told' '0 passed, 1 failed' 'rt ci ended with status 0 and no count' "$small_whole" 0
rm -rf "$small"

# ---- the kit and the other tools
on_path no-kit rt 'the command rt is missing'
printf '#!/bin/sh\necho "rattle-kit-13f logic 0000000000000000"\n' >"$gate_copies/stand-in"
chmod +x "$gate_copies/stand-in"
on_path other-kit rt "the kit is 'rattle-kit-13f logic 0000000000000000'"
changed sum-without-its-grounds docs/DECISIONS.md '/^| `dac8208d650f15bf`/d' 'docs/DECISIONS.md has other logic sums than those that are taken'
on_path no-rustc rustc 'the command rustc is missing: install the Debian package rustc'
on_path no-cc cc 'the command cc is missing: install the Debian package gcc'
on_path no-c++ c++ 'the command c++ is missing: install the Debian package g++'

# ---- the first copy, to which all others are links, is still the tree, and a copy with nothing wrong is not refused
if out=$(cd / && "$gate_whole/test" $before 2>&1); then
    pass 'gate: the tree with nothing wrong passes'
else
    echo "$out" | tail -n 3
    fail 'gate: a copy of the tree with nothing wrong is refused'
fi

# ---- the parts
if out=$(./test gates 2>&1); then fail 'gate: a part that there is not is run'; else
    case $out in
        'usage: ./test '*) pass 'gate: a part that there is not is refused' ;;
        *) fail 'gate: a part that there is not is refused for another reason' ;;
    esac
fi
