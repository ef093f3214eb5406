# The plans, and the examples for labs: each file of plans/ is run by a test of the printer and shown on the planners' page, each of examples/lab by the test of the
# translator and on the labs' page, so that none goes stale unseen.

# plans_fresh WHAT FOLDER TEST PAGE: each file of the folder stands in the test and on the page
plans_fresh() {
    unrun=$(for plan in "$2"/*; do grep -qE "$plan([^a-z0-9-]|\$)" "$3" || echo "$plan"; done)
    unshown=$(for plan in "$2"/*; do grep -qF "\`$plan\`" "$4" || echo "$plan"; done)
    if [ -n "$unrun" ]; then
        fail "$1 that no test runs: $(echo $unrun)"
    elif [ -n "$unshown" ]; then
        fail "$1 that $4 does not show: $(echo $unshown)"
    else
        pass "every file of $2 is run by a test and shown in $4"
    fi
}
plans_fresh 'a plan' plans tests/printer.sh docs/PLANS.md
plans_fresh 'an example' examples/lab tests/translation.sh docs/NUMBERS.md
