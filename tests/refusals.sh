# The must-fail edits after the proofs: the prover refused each of them first where its line `# refused at:` says (tests/edited.sh has the rule), by what `rt ci`
# said of each in this run; run alone, this part asks `rt must-fail`. And the comparison itself: three edits of `listing`, each with the body of another, deny
# something else than they name, and beside one that is as it was exactly these three are told.
type edits_judged >/dev/null 2>&1 || . "$root/tests/edited.sh"
mkdir -p target
refusals_log=${proofs_log:-}
if [ -z "$refusals_log" ]; then
    refusals_log=$root/target/rt-must-fail.log
    rt must-fail >"$refusals_log" 2>&1
fi
wrong=$(edits_judged "$root" "$refusals_log")
if [ -z "$wrong" ]; then
    pass "each must-fail edit is refused first where it says"
else
    fail "must-fail edits that are refused elsewhere: $wrong"
fi

refusals_copy=$(mktemp -d)
mkdir -p "$refusals_copy/crates/listing/must-fail"
for refusals_part in src specs proofs; do cp -R "crates/listing/$refusals_part" "$refusals_copy/crates/listing/"; done
echo 'listing:' >"$refusals_copy/crates.txt"
# the words of one edit over the body of another
crossed() {
    { grep '^#' "crates/listing/must-fail/$1.edit"; grep -v '^#' "crates/listing/must-fail/$2.edit"; } >"$refusals_copy/crates/listing/must-fail/$1.edit"
}
crossed modulo_toward_zero even_block_not_reversed
crossed even_block_not_reversed values_for_positions
crossed values_for_positions modulo_toward_zero
cp crates/listing/must-fail/self_join_allowed.edit "$refusals_copy/crates/listing/must-fail/"
(cd "$refusals_copy" && rt must-fail) >"$refusals_copy/log" 2>&1
refusals_status=$?
named=$(edits_judged "$refusals_copy" "$refusals_copy/log" | sed -n 's/^\([a-z_0-9]*\/[a-z_0-9]*\): it says .*/\1/p' | sort)
if [ "$(echo $named)" = 'listing/even_block_not_reversed listing/modulo_toward_zero listing/values_for_positions' ] \
    && [ "$refusals_status" -eq 0 ] && [ "$(grep -c '^rt: must-fail .*: refused, as it must be' "$refusals_copy/log")" -eq 4 ]; then
    pass "three edits that deny something else than they name are told, and no other"
else
    cat "$refusals_copy/log"
    fail "of three edits that deny something else than they name these are told: $(echo $named)"
fi
rm -rf "$refusals_copy"
