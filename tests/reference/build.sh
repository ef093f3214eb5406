# What is built of the reference by the parts that run it: a Rust program or library with every warning an error, and the reference itself, once in a run; and
# how what such a program found is told.
reference_out=target/reference
reference_made=''
mkdir -p "$reference_out"

# reference_build LABEL COMMAND..: the command, which compiles something; its messages are shown where it fails
reference_build() {
    reference_label=$1
    shift
    if "$@" >"$reference_out/log" 2>&1; then return 0; fi
    cat "$reference_out/log"
    fail "reference: $reference_label does not build"
    return 1
}

# reference_rust LABEL ARGUMENTS..: a Rust program or library
reference_rust() {
    reference_label=$1
    shift
    reference_build "$reference_label" rustc -O --edition 2021 -D warnings "$@"
}

# reference_over LABEL ARGUMENTS..: a Rust program over the reference
reference_over() {
    reference_label=$1
    shift
    reference_rust "$reference_label" --extern "reference=$reference_out/libreference.rlib" "$@"
}

# reference_library: the reference, for those over it
reference_library() {
    [ -z "$reference_made" ] || return 0
    reference_rust 'the reference' --crate-type rlib --crate-name reference -o "$reference_out/libreference.rlib" tests/reference/reference.rs && reference_made=yes
}

# reference_groups LABEL PROGRAM LAST: a program over the reference ends well, and its last line fits LAST; it prints one line for each group of inputs
reference_groups() {
    if "$2" >"$reference_out/log" 2>&1 && grep -q '^group ' "$reference_out/log" && tail -n 1 "$reference_out/log" | grep -Eqx "$3"; then
        while read -r reference_line; do
            case $reference_line in
                'group '*) pass "$1: $reference_line" ;;
                *) echo "$reference_line" ;;
            esac
        done <"$reference_out/log"
    else
        cat "$reference_out/log"
        fail "$1: the library and the reference differ, or the test did not end"
    fi
}
