# The types: code that takes a port where a jack is meant, or a jack where a port is meant, does not build, and the same code with the other does; so with a
# rehearsal where a campaign is meant, and the reverse. Each probe that must not build is a crate of its own over the crates that it names, in a copy of the tree, since a
# source file that does not build may not stand in the tree itself. `rt ci` of the copy takes what was proved of the crates up to `printing` as it is kept, and so
# proves nothing but the probes.
types_copy=$(mktemp -d)
mkdir -p "$types_copy/crates"
for types_crate in $(sed '/^printing:/q' crates.txt | cut -d: -f1); do
    mkdir -p "$types_copy/crates/$types_crate"
    for types_part in src specs proofs; do
        [ ! -d "crates/$types_crate/$types_part" ] || cp -R "crates/$types_crate/$types_part" "$types_copy/crates/$types_crate/"
    done
    grep "^$types_crate:" crates.txt >>"$types_copy/crates.txt"
done

# over NAME CRATES USES: probes from here on are over these CRATES, with what USES names; the right ones are modules of one crate, right_NAME
over() {
    types_right=right_$1
    types_over=$2
    types_uses=$3
    mkdir -p "$types_copy/crates/$types_right/src"
    printf '#![tactic(auto)]\n\n' >"$types_copy/crates/$types_right/src/lib.rt"
    echo "$types_right: $types_over" >>"$types_copy/crates.txt"
    types_crates="$types_crates $types_right"
}

# twins LABEL RIGHT WRONG ERROR LINES: LINES with WORD read as RIGHT is to build and be proved, read as WRONG to be refused with that mismatch of the types
types_crates=''
types_twins=''
twins() {
    echo "pub mod $1;" >>"$types_copy/crates/$types_right/src/lib.rt"
    printf '%s\n\n' "$types_uses" "$(echo "$5" | sed "s/WORD/$2/g")" >"$types_copy/crates/$types_right/src/$1.rt"
    mkdir -p "$types_copy/crates/wrong_$1/src"
    printf '%s\n\n' '#![tactic(auto)]' "$types_uses" "$(echo "$5" | sed "s/WORD/$3/g")" >"$types_copy/crates/wrong_$1/src/lib.rt"
    echo "wrong_$1: $types_over" >>"$types_copy/crates.txt"
    types_crates="$types_crates wrong_$1"
    types_twins="$types_twins$types_right $1 $2 $3 $4
"
}
# types_said CRATE: what was said of the crate
types_said() { awk -v crate="$1" '/^== / { on = $2 == crate } /^rt: / { on = 0 } on' "$types_copy/said"; }
# judge: all probes at once, and what was said of each
judge() {
    for types_crate in $types_crates; do
        (cd "$types_copy/crates/$types_crate" && rt fmt) >"$types_copy/said" 2>&1 || { cat "$types_copy/said"; fail "types: $types_crate cannot be laid out"; }
    done
    (cd "$types_copy" && rt ci) >"$types_copy/said" 2>&1
    while read -r crate label right wrong error; do
        [ -n "$label" ] || continue
        # what is kept was proved by an earlier run on this machine, from the same files
        if grep -q "^rt: $crate is kept: " "$types_copy/said" ||
            { grep -qx "rt: $crate proved" "$types_copy/said" && types_said "$crate" | grep -qx "fn $crate::$label::probe: proved"; }; then
            pass "types: $label: with a $right it builds and is proved"
        else
            types_said "$crate"
            fail "types: $label: with a $right it does not build"
        fi
        if ! grep -qx "rt: wrong_$label NOT PROVED" "$types_copy/said"; then
            fail "types: $label: with a $wrong it builds"
        elif types_said "wrong_$label" | grep -qF "error[mismatched-types]: $error"; then
            pass "types: $label: with a $wrong it does not build"
        else
            types_said "wrong_$label"
            fail "types: $label: with a $wrong it is refused for another reason"
        fi
    done <<TWINS
$types_twins
TWINS
}
port_for_jack='expected `Jack`, found `Port`'
jack_for_port='expected `Port`, found `Jack`'

# orders, moves and refusal places are of jacks
over words words 'use words::{Jack, Move, Order, Place, Port};'
twins order Jack Port "$port_for_jack" 'pub fn probe(a: Jack, b: WORD) -> Order { Order::Swap(a, b) }'
twins moves Jack Port "$port_for_jack" 'pub fn probe(a: Jack, b: WORD) -> Move { Move::Two(a, a, a, b) }'
twins refusal_place Jack Port "$port_for_jack" 'pub fn probe(b: WORD) -> Place { Place::AtJack(b) }'
twins refusal_both Jack Port "$port_for_jack" 'pub fn probe(a: Jack, b: WORD) -> Place { Place::AtJacks(a, b) }'

# look-ups: what each takes, and what it gives
over panel 'panel words' 'use panel::lookups::{jack_of, port_at};
use words::{Jack, Port, Refusal};'
twins port_at_takes Jack Port "$port_for_jack" 'pub fn probe(panel: &[u8], x: WORD) -> Result<Port, Refusal> { port_at(panel, x) }'
twins jack_of_takes Port Jack "$jack_for_port" 'pub fn probe(panel: &[u8], x: WORD) -> Result<Jack, Refusal> { jack_of(panel, x) }'
twins port_at_gives Port Jack "$port_for_jack" 'fn number(x: WORD) -> u8 { x.0 }
pub fn probe(panel: &[u8], jack: Jack) -> u8 { match port_at(panel, jack) { Ok(x) => number(x), Err(_) => 0 } }'
twins jack_of_gives Jack Port "$jack_for_port" 'fn number(x: WORD) -> u8 { x.0 }
pub fn probe(panel: &[u8], port: Port) -> u8 { match jack_of(panel, port) { Ok(x) => number(x), Err(_) => 0 } }'

# lines in bulk are of a rehearsal, requests and reports of a campaign
over printing 'printing campaign campaign_state plan_rules words' 'use campaign::{Campaign, Reported, Requested};
use printing::{Printed, Rehearsal, fill};'
campaign_for_rehearsal='expected `Rehearsal`, found `Campaign`'
rehearsal_for_campaign='expected `Campaign`, found `Rehearsal`'
twins fill_takes Rehearsal Campaign "$campaign_for_rehearsal" 'pub fn probe(x: WORD, buf: &mut [u8]) -> Printed { fill(x, buf) }'
twins request_takes Campaign Rehearsal "$rehearsal_for_campaign" 'pub fn probe(x: WORD, buf: &mut [u8]) -> Requested { Campaign::request(x, buf) }'
twins report_takes Campaign Rehearsal "$rehearsal_for_campaign" 'pub fn probe(x: WORD) -> Reported { Campaign::report(x, 0) }'
judge
rm -rf "$types_copy"
