# A command on many inputs, and what a page shows of it: for the parts that hold a command to the reference, translation, levels and benches,
# and for part printer.

# command_each COMMAND FOLDER: for each line of standard input, NAME WORDS.., what the command prints when it is called with these words, and its status on a
# last line, in the folder under that name: as bin/COMMAND does it, but that its program is looked up once
command_each() (
    folder=$2
    # what the command sets for itself, and the one way of all; then what it does with its words, which begins with its options
    eval "$(sed '/^root=/d; /^options /,$d' "$root/bin/$1")"
    with_words=$(sed -n '/^options /,$p' "$root/bin/$1")
    build
    build() { :; }
    while read -r called_name called_words; do
        (trap leave EXIT && set -- --quiet $called_words && eval "$with_words") >"$folder/$called_name" 2>&1 </dev/null
        echo "status=$?" >>"$folder/$called_name"
    done
)

# page_shows PAGE FILE: the page has the lines of the file, one after the other, as it has examples
page_shows() {
    [ -s "$2" ] || return 1
    awk 'NR == FNR { want = want "    " $0 "\n"; next } { page = page $0 "\n" } END { exit !index("\n" page, "\n" want) }' "$2" "$root/docs/$1.md"
}
