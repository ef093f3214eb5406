# What a program is made from, and the program that was made from it. Sourced by commands/way.sh, for which `rt run` makes the program, and by the gate, which
# takes the one that `rt ci` has made.
#   root, name    the project's folder, and the program's crate
#   kit           the folder of the kit
# The program is kept in target/bin, as our own copy: `rt` sets aside what it made when it begins anew.

# made_of NAME: from here on it is about this program
made_of() {
    name=$1
    program=$root/target/bin/$name
    built=$root/target/built/$name
    crates=$(crates_of_program)
}

# the crates that the program is made of, each after those that it uses, itself last
crates_of_program() {
    awk -v name="$name" '
        { sub(/#.*/, ""); crate = $1; sub(/:.*/, "", crate); if (crate == "") next; there[crate] = 1; sub(/^[^:]*:/, ""); needs[crate] = $0 }
        function add(crate,  list, n, i) {
            if (!(crate in there) || crate in met) return
            met[crate] = 1
            n = split(needs[crate], list, " ")
            for (i = 1; i <= n; i++) add(list[i])
            print crate
        }
        END { add(name) }' "$root/crates.txt"
}

# what the program is made from: its crates, and the kit
sources() {
    (
        cd "$root" || exit 1
        cat "$kit/KIT-ID" crates.txt
        for crate in $crates; do
            find "crates/$crate" \( -path "crates/$crate/out" -o -path "crates/$crate/must-fail" \) -prune -o -type f -print0
        done | LC_ALL=C sort -z | xargs -0 sha256sum
    ) 2>/dev/null | sha256sum
}

# up_to_date SUM: the program that is kept was made from sources of this sum
up_to_date() { [ -x "$program" ] && [ -f "$built" ] && [ "$(cat "$built")" = "$1 $(sha256sum <"$program")" ]; }

# keep_program SUM: keeps what `rt` made in the crate's folder, from sources of this sum
keep_program() {
    mkdir -p "$root/target/bin" "$root/target/built" &&
        cp "$root/crates/$name/out/$name" "$program.new" && chmod 755 "$program.new" && mv "$program.new" "$program" &&
        echo "$1 $(sha256sum <"$program")" >"$built.new" && mv "$built.new" "$built"
}

# libraries: a sum of the libraries that stand below the crate in out/, each by its file that has the sum of all others
libraries() {
    (
        cd "$root" || exit 1
        for crate in $crates; do
            [ "$crate" = "$name" ] || sha256sum "crates/$crate/out/rlib/$crate.rlib/format" || echo "no $crate"
        done
    ) 2>/dev/null | sha256sum
}
