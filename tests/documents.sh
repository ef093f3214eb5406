# The documents, README and the pages of docs/: every law and definition that a page cites as `crate.File.name` stands where it says, every must-fail edit that
# it cites as `crate/must-fail/name.edit` and every file that it names by its path is there; a page cites at least as many as its last line says, so that
# citations cannot be lost unseen; and no line of prose is longer than 120 characters.

# documents_unmade: of the laws and definitions on standard input, one to a line, those that their file does not make public
documents_unmade() {
    awk '
        # the names that a file of a crate makes public, each as it is cited
        function read_names(crate, folder, file,    path, line) {
            path = "crates/" crate "/" folder "/" file ".antt"
            while ((getline line < path) > 0)
                if (sub(/^ *((unfoldable|abbrev) )?pub (record |data )?/, "", line) && sub(/ .*/, "", line)) made[crate "." file "." line]
            close(path)
        }
        {
            split($0, part, ".")
            if (!seen[part[1], part[2]]++) {
                read_names(part[1], "specs", part[2])
                read_names(part[1], "proofs", part[2])
            }
            if (!($0 in made)) print
        }'
}

# documents_missing PAGE: what the page cites and the tree does not have
documents_missing() {
    grep -oE '`[a-z_]+\.[A-Za-z]+\.[^ `]+`' "$1" | tr -d '`' | sort -u | documents_unmade
    for edit in $(grep -oE '`[a-z_]+/must-fail/[^ `]+\.edit`' "$1" | tr -d '`' | sort -u); do
        [ -f "crates/$edit" ] || echo "$edit"
    done
    for path in $(grep -oE '`(bin|crates|docs|examples|include|plans|speed|tests|tools)/[^ `]*`' "$1" | tr -d '`' | grep -vE '/must-fail/|NAME' | sort -u); do
        [ -e "$path" ] || echo "$path"
    done
}

for page in README.md docs/*.md; do
    cited=$(grep -oE '`([a-z_]+\.[A-Za-z]+\.[^ `]+|[a-z_]+/must-fail/[^ `]+\.edit)`' "$page" | sort -u | wc -l)
    floor=$(sed -n '$s/^<!-- cites at least \([0-9]*\) -->$/\1/p' "$page")
    missing=$(documents_missing "$page")
    long=$(LC_ALL=C.UTF-8 grep -nE '^.{121,}' "$page" | grep -vE '^[0-9]+:(\||#|    )' | cut -d: -f1)
    if [ -n "$missing" ]; then
        fail "$page cites what is not there: $(echo $missing)"
    elif [ -z "$floor" ]; then
        fail "$page does not say in its last line how many it cites at least"
    elif [ "$cited" -lt "$floor" ]; then
        fail "$page cites $cited, and says that it cites at least $floor"
    elif [ -n "$long" ]; then
        fail "$page has prose of more than 120 characters in lines $(echo $long)"
    else
        pass "$page: what it cites is there, $cited laws, definitions and edits"
    fi
done

# PROMISES says each sentence once: no two rows of its tables begin with the same words
documents_twice=$(grep '^|' docs/PROMISES.md | cut -d '|' -f 2 | grep -vE "^(---| the (customer|paper|request)'s words )" | sort | uniq -d)
if [ -z "$documents_twice" ]; then
    pass 'docs/PROMISES.md says no sentence twice'
else
    fail "docs/PROMISES.md says twice: $documents_twice"
fi

# The table of claims, docs/WORKING.md: each row quotes a sentence of README or of a page, and the sentence stands there. Rows are `| page | sentence | held by |`
# after the heading 'What the pages claim'.
documents_claims=$(sed -n '/^## What the pages claim/,/^## /p' docs/WORKING.md | grep -E '^\| (README|USING) \|')
documents_unsaid=$(for page in README USING; do
    [ "$page" = README ] && text=README.md || text=docs/$page.md
    text=$(tr '\n' ' ' <"$text" | tr -s ' ')
    echo "$documents_claims" | grep "^| $page |" | while IFS='|' read -r _ _ sentence held _; do
        sentence=${sentence# }
        sentence=${sentence% }
        case $text in *"$sentence"*) ;; *) echo "$page: $sentence" ;; esac
        case $held in *[!\ ]*) ;; *) echo "$page: nothing holds: $sentence" ;; esac
    done
done)
documents_rows=$(echo "$documents_claims" | grep -c .)
if [ -n "$documents_unsaid" ]; then
    echo "$documents_unsaid"
    fail 'docs/WORKING.md quotes a claim that its page does not make, or one that nothing holds'
elif [ "$documents_rows" -lt 40 ]; then
    fail "docs/WORKING.md has $documents_rows claims of README and USING, and they make at least 40"
else
    pass "docs/WORKING.md: $documents_rows claims of README and USING stand there, each with what holds it"
fi
