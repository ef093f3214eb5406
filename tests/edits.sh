# The must-fail edits before any proof: every edit says in one line where it must be refused, quotes what stands in the tree, and none was taken away. How an edit
# is read, and what its line `# refused at: NAME` names, is in tests/edited.sh.
type edits_there >/dev/null 2>&1 || . "$root/tests/edited.sh"
wrong=$(edits_there "$root")
if [ -z "$wrong" ]; then
    pass "each of the $(($(edits_of "$root" | wc -l))) must-fail edits quotes what stands in the tree and says where it must be refused"
else
    fail "must-fail edits: $wrong"
    finish
fi
