# The reference: the plain Rust of tests/reference, written from the paper and document 000, holds to what these print; the proved library, through its
# calls for C, holds to the reference on many inputs; the archive needs and exports what docs/USING.md says; the examples of a controller's loop print the
# paper's output, built and run by the very commands of docs/USING.md.
type reference_library >/dev/null 2>&1 || . "$root/tests/reference/build.sh"
reference_archive=target/host/libjidrofex.a

# the reference against document 000 and the paper
reference_selftest() {
    reference_over 'the self test' -o "$reference_out/selftest" tests/reference/selftest.rs || return
    if "$reference_out/selftest" >"$reference_out/log" 2>&1 &&
        tail -n 1 "$reference_out/log" | grep -Eqx 'selftest: [1-9][0-9]* comparisons, all hold'; then
        pass "reference: $(tail -n 1 "$reference_out/log")"
    else
        cat "$reference_out/log"
        fail 'reference: the self test'
    fi
}

# the library beside the reference: one line for each group of inputs
reference_differential() {
    reference_over 'the differential test' --extern "face=$reference_out/libface.rlib" -C "link-arg=$reference_archive" \
        -o "$reference_out/differential" tests/reference/differential.rs || return
    reference_groups differential "$reference_out/differential" 'differential: [1-9][0-9]* cases, 0 differences'
}

# the commands of docs/USING.md that build the examples and run one, as they stand there, in a folder that has what they name
reference_commands() {
    # outside the tree, since it has links, which `rt ci` takes nowhere in the tree
    reference_folder=$(mktemp -d)
    reference_builds=$(sed -n 's/^    \(\(cc\|rustc\) .*\)$/\1/p' docs/USING.md)
    reference_runs=$(sed -n 's/^    \(\.\/campaign .*\)$/\1/p' docs/USING.md)
    [ "$(echo "$reference_builds" | grep -c .)" -eq 2 ] || fail 'reference: docs/USING.md does not have two commands that build the examples'
    [ "$(echo "$reference_runs" | grep -c .)" -eq 1 ] || fail 'reference: docs/USING.md does not have one command that runs an example'
    echo "$reference_builds" | while read -r reference_command; do
        rm -rf "$reference_folder"
        mkdir "$reference_folder"
        for entry in include examples plans target; do ln -s "$PWD/$entry" "$reference_folder/$entry"; done
        (cd "$reference_folder" && sh -c "$reference_command" && sh -c "$reference_runs") >"$reference_out/found" 2>&1 &&
            cmp -s "$reference_out/found" "$reference_out/output" || echo "$reference_command"
    done >"$reference_out/log"
    rm -rf "$reference_folder"
    if [ -s "$reference_out/log" ]; then
        cat "$reference_out/found" "$reference_out/log"
        fail 'reference: a command of docs/USING.md does not build an example that prints the paper'"'"'s output'
    else
        pass "reference: the commands of docs/USING.md build and run the examples, which print the paper's output"
    fi
}

# reference_example LABEL PROGRAM: from a fresh start it prints the paper's output for the paper's plan; it says why it refuses another, and leaves no file
reference_example() {
    rm -f "$reference_out/state" "$reference_out/panel"
    if "$2" "$reference_out/plan" "$reference_out/state" "$reference_out/panel" >"$reference_out/found" && cmp "$reference_out/found" "$reference_out/output"; then
        pass "examples: $1: the paper's output for the paper's plan"
    else
        cat "$reference_out/found"
        fail "examples: $1: not the paper's output"
    fi
    rm -f "$reference_out/state" "$reference_out/panel"
    if "$2" "$reference_out/refused" "$reference_out/state" "$reference_out/panel" >"$reference_out/found" 2>"$reference_out/said"; then
        fail "examples: $1: a refused plan ends well"
    elif [ ! -s "$reference_out/found" ] && [ "$(cat "$reference_out/said")" = 'begin: refused=9: line 2: legs not 1 to 16' ] &&
        [ ! -e "$reference_out/state" ] && [ ! -e "$reference_out/panel" ]; then
        pass "examples: $1: a refused plan is said, with its number, line and words, and nothing is written"
    else
        cat "$reference_out/found" "$reference_out/said"
        fail "examples: $1: a refused plan is not said, or something is written"
    fi
    if "$2" >"$reference_out/found" 2>"$reference_out/said"; [ $? -eq 2 ] && [ "$(cat "$reference_out/said")" = 'usage: campaign PLAN STATE PANEL' ]; then
        pass "examples: $1: without its arguments it says how it is used, and ends with 2"
    else
        cat "$reference_out/found" "$reference_out/said"
        fail "examples: $1: without its arguments it does not say how it is used"
    fi
}

reference_examples() {
    printf 'ports=4\nlegs=2\nstart=0\nrun=2\nstart=8\nrun=-1\n' >"$reference_out/plan"
    printf 'ports=4\nlegs=0\n' >"$reference_out/refused"
    printf '%s\n' mark=0,0 turn=1,2,3 mark=1,1 swap=1,2 mark=2,2 swap=1,3 swap=2,4 mark=3,8 swap=1,3 mark=4,7 end=5 >"$reference_out/output"
    reference_build 'the example in C' cc -std=c99 -pedantic -O2 -Wall -Wextra -Werror -Iinclude \
        -o "$reference_out/campaign_c" examples/c/campaign.c examples/c/keep.c examples/c/bench.c "$reference_archive" &&
        reference_example C "$reference_out/campaign_c"
    reference_rust 'the example in Rust' -C "link-arg=$reference_archive" -o "$reference_out/campaign_rust" examples/rust/campaign.rs &&
        reference_example Rust "$reference_out/campaign_rust"
    reference_commands
}

type archive_ready >/dev/null 2>&1 || . "$root/tests/archive.sh"
archive_ready
[ ! -f "$reference_archive" ] || archive_symbols reference jidrofex
if [ -f "$reference_archive" ] && reference_library &&
    reference_rust 'the calls from Rust' --crate-type rlib --crate-name face -o "$reference_out/libface.rlib" tests/reference/face.rs; then
    reference_selftest
    reference_differential
    reference_examples
fi
