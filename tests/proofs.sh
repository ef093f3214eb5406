# The proofs: `rt ci` as it is, on the tree as it stands, shown as it goes. It proves every crate and its tests, tries every edit that must be refused, and runs
# every program as two compilers build it; its last line is counted into ours. What an earlier run passed on this machine it takes by the checksums of all that
# was read, and of that it proves and tries nothing again. It lets pass edits that cannot be applied or read, and says how many: here there may be none, and as
# many are refused as there are. What it said of each edit is looked at by the part refusals, and the programs that it made are those that the commands run.
type edits_of >/dev/null 2>&1 || . "$root/tests/edited.sh"
. "$root/commands/made.sh"
mkdir -p target
proofs_log=$root/target/rt-ci.log
proofs_out=$(mktemp -d)

# proofs_made NAME: a sum of what the program is made from, as the commands have it
proofs_made() {
    (
        kit=$(dirname -- "$(dirname -- "$(readlink -f -- "$(command -v rt)")")")
        made_of "$1"
        sources
    )
}
# the programs that the commands run and the libraries that C links, and what each is made from as the proofs begin
proofs_programs=$(for command in bin/*; do [ ! -f "crates/${command#bin/}/src/main.rt" ] || echo "${command#bin/}"; done)
proofs_libraries=$(sed -n 's/^\([a-z_0-9]*\) staticlib:.*/\1/p' crates.txt)
for crate in $proofs_programs $proofs_libraries; do proofs_made "$crate" >"$proofs_out/$crate"; done
# whether libraries of an earlier run or of a check stand below a crate: rt puts them back as they were
proofs_had() { (made_of "$1" && for crate in $crates; do [ ! -e "crates/$crate/out/rlib" ] || exit 0; done; exit 1); }
for crate in $proofs_libraries; do ! proofs_had "$crate" || : >"$proofs_out/$crate.had"; done

{
    rt ci 2>&1
    echo $? >"$proofs_out/status"
} | tee "$proofs_log"
verdict=$(cat "$proofs_out/status")
last=$(tail -n 1 "$proofs_log")
case $last in
    [0-9]*' passed, '[0-9]*' failed')
        ci_passed=${last%% passed*}
        ci_failed=${last#*, }
        ci_failed=${ci_failed%% failed}
        passed=$((passed + ci_passed))
        failed=$((failed + ci_failed))
        [ "$verdict" -eq 0 ] || [ "$ci_failed" -gt 0 ] || fail "rt ci ended with status $verdict"
        ;;
    *)
        ci_failed=1
        fail "rt ci ended with status $verdict and no count"
        ;;
esac

# what it lets pass, and what it may not leave out
if [ "$verdict" -eq 0 ] && [ "$ci_failed" -eq 0 ]; then
    for crate in $(sed -e 's/#.*//' -e 's/^[[:space:]]*//' -e 's/[[:space:]:].*//' crates.txt); do
        if ! grep -Eq "^rt: $crate (proved|is kept: .*)\$" "$proofs_log"; then
            fail "$crate is neither proved by this run nor kept from an earlier one"
        elif [ -f "crates/$crate/src/main.rt" ] && ! grep -qx "rt: $crate ran, and wrote what its file stdout has" "$proofs_log"; then
            fail "$crate is proved, and it was not run, or does not write what its file stdout has"
        fi
    done
    proofs_ok=$(grep '^rt: ok' "$proofs_log" | tail -n 1)
    proofs_refused=$(echo "$proofs_ok" | sed -n 's/.*; must-fail edits: \([0-9]*\) refused.*/\1/p')
    proofs_bad=$(echo "$proofs_ok" | sed -n 's/.*; must-fail edits: [^;]*, \([0-9]*\) bad.*/\1/p')
    proofs_edits=$(edits_of "$root" | wc -l)
    if [ -z "$proofs_ok" ]; then
        fail 'rt ci passed and has no line `rt: ok`'
    elif [ "${proofs_bad:-0}" -ne 0 ]; then
        grep 'BAD EDIT' "$proofs_log"
        fail "$proofs_bad edits cannot be applied, compiled or read, so they show nothing"
    elif [ "${proofs_refused:-0}" -ne "$proofs_edits" ]; then
        fail "${proofs_refused:-0} edits are refused, and there are $proofs_edits"
    else
        pass "all $proofs_edits edits are refused, and none is bad"
    fi
    # the programs as they were proved, unless a file of theirs changed meanwhile
    for command in $proofs_programs; do
        if [ "$(proofs_made "$command")" = "$(cat "$proofs_out/$command")" ] && [ -f "crates/$command/out/$command" ]; then
            (made_of "$command" && keep_program "$(cat "$proofs_out/$command")") || fail "the program $command, which rt ci made, cannot be kept"
        fi
    done
    # what the libraries for C are made from was proved, and stands there as rt ci made it: tools/host-archive need not prove it once more. Where libraries were
    # there before, they are rt ci's own only if an earlier run of the same sources left just these
    mkdir -p target/proved
    for crate in $proofs_libraries; do
        proofs_left="$(cat "$proofs_out/$crate") $(made_of "$crate" && libraries)"
        if [ ! -e "$proofs_out/$crate.had" ]; then
            echo "$proofs_left" >"target/proved/$crate"
        elif [ "$(cat "target/proved/$crate" 2>/dev/null)" != "$proofs_left" ]; then
            rm -f "target/proved/$crate"
        fi
    done
fi
rm -rf "$proofs_out"
