# The kit: `rt` is there, and it is one that these proofs are for. Two kits with one logic sum accept the same proofs, so a letter after the kit's number, and
# `-plain` after the letter, are taken as they come and the sum is not. docs/DECISIONS.md has the same sums, and on what grounds each is taken.
# An older kit's sums are no longer taken: the language, the library and the proofs' files have changed with the kit.
kit_name=rattle-kit-13
kit_sums='dac8208d650f15bf'
kit_wanted="$kit_name with logic $(echo $kit_sums | sed 's/ / or /g')"
if ! command -v rt >/dev/null 2>&1; then
    fail "the command rt is missing: install the Rattle kit, $kit_wanted, and put its bin folder on PATH"
    finish
fi
kit=$(rt version 2>/dev/null)
kit_known=no
for kit_sum in $kit_sums; do
    case $kit in "$kit_name logic $kit_sum" | "$kit_name"[a-z]" logic $kit_sum" | "$kit_name"[a-z]"-plain logic $kit_sum") kit_known=yes ;; esac
done
if [ "$kit_known" = yes ]; then
    pass "the kit is $kit"
else
    fail "the kit is '$kit', and these proofs are for $kit_wanted"
    finish
fi

if [ "$(sed -n 's/^| `\([0-9a-f]*\)` | `rattle-kit-.*/\1/p' docs/DECISIONS.md | tr '\n' ' ')" = "$kit_sums " ]; then
    pass 'docs/DECISIONS.md has the logic sums that are taken'
else
    fail 'docs/DECISIONS.md has other logic sums than those that are taken'
fi
