# How the must-fail edits are read, and what the prover said of each, for the parts edits and refusals, the gate's own tests and tools/edits.
#
# The line is `# refused at: NAME`, and NAME comes from the edit's sentence. What the prover said (edits_judged, after the proofs) is read off the first thing
# that it does not take with the edit in place, which `rt ci` and `rt must-fail` print behind the edit's name:
#   LAW            a definition of specs/ or proofs/, by the name that the prover gives: a law of a file or of a module in it; a definition of a where block is part
#                  of its law
#   FUNCTION GOAL  a goal of a function, by the name that the prover gives it (`returns-in-Ended`): one that is left open, or one whose answer, in
#                  proofs/../FUNCTION/Answers.antt or Invariants.antt, no longer holds
# and after either, where the error stands in a field of a record, that FIELD. `tools/edits CRATE` prints the name for each edit of a crate.

# how many edits there are at least: it only grows
edits_at_least=428

# what reads an edit, line by line, as rt does: one or more replacements, of which each is of what the ones before it left
edits_awk='
    function text_of(name,    line, all, is) {
        while ((is = (getline line < name)) > 0) all = all line "\n"
        close(name)
        if (is < 0) absent[name] = 1
        return all
    }
    # taken(FOLDER): takes the line of an edit of the crate in the folder; text[NAME] is what the file has then. Gives what is wrong, or nothing
    function taken(folder,    name, new, at, rest, was) {
        if ($0 ~ /^file: /) file = substr($0, 7)
        if ($0 ~ /^old: /) old = substr($0, 6)
        if ($0 !~ /^new:/) return ""
        pairs++
        new = substr($0, 5); sub(/^ /, "", new)
        was = old; old = ""
        name = folder "/" file
        if (file !~ /^(src|specs|proofs)\/./ || "/" file "/" ~ /\/\.\.\//) return "it names a file that is not below src/, specs/ or proofs/"
        if (!(name in stands)) stands[name] = text_of(name)
        if (name in absent) return "there is no " file
        if (!(name in text)) text[name] = stands[name]
        at = index(text[name], was)
        rest = substr(text[name], at + length(was))
        if (was == "" || !at) return "an old text is not in " file
        if (index(rest, was)) return "an old text is in " file " more than once"
        text[name] = substr(text[name], 1, at - 1) new rest
        return ""
    }'

# edits_there ROOT: a line for each edit that has no line `# refused at:`, or more than one, or whose old texts do not stand once each in their files, one after the
# other as rt replaces them; and one line if there are too few edits
edits_there() {
    (
        cd "$1/crates" || exit 1
        set -- */must-fail/*.edit
        [ -f "$1" ] || { echo 'there are no edits'; exit 1; }
        awk -v least="$edits_at_least" "$edits_awk"'
            function wrong(why) { if (why != "" && !said) { print one ": " why; said = 1 } }
            # the edit that was read last
            function judged() {
                if (one == "") return
                if (told != 1) wrong(told + 0 " lines `# refused at:`, and it takes one")
                if (!pairs) wrong("it changes nothing")
                number++
            }
            FNR == 1 {
                judged()
                one = FILENAME; sub(/\/must-fail\//, "/", one); sub(/\.edit$/, "", one)
                crate = one; sub(/\/.*/, "", crate)
                split("", text); file = old = ""; told = pairs = said = 0
            }
            /^# refused at: [^ ]/ { told++ }
            { wrong(taken(crate)) }
            END {
                judged()
                if (number != ARGC - 1) print "an edit has no line"
                if (number < least) print number " edits, and there were " least
            }' "$@"
    )
}

# the edits below a root, each as CRATE/LABEL
edits_of() {
    for edit in "$1"/crates/*/must-fail/*.edit; do
        one=${edit#"$1"/crates/}
        one=${one%.edit}
        [ -f "$edit" ] && echo "${one%%/*}/${one##*/}"
    done
}

# edits_refused ROOT LOG: for each edit in the log, what `rt ci` or `rt must-fail` said, `CRATE/LABEL NAME`: the name of what the prover refused first; in
# brackets what was said of an edit that was not refused, or of one whose refusal says nothing of what it names. Of what the prover said rt prints the first 160
# characters, so a name may end in `..`.
edits_refused() {
    ROOT=$1 awk "$edits_awk"'
        # the lines of a file of the crate with the edit in place
        function lines_of(crate, path,    name) {
            name = ENVIRON["ROOT"] "/crates/" crate "/" path
            if (!(name in stands)) stands[name] = text_of(name)
            return split((name in text) ? text[name] : stands[name], lines, "\n")
        }
        # the field of a record that line n stands in, or nothing
        function field_at(n, law,    k, depth, found) {
            depth = 1000
            for (k = n; k >= 1; k--) {
                if (lines[k] ~ /^ *$/) continue
                match(lines[k], /^ */)
                if (RLENGTH >= depth) continue
                depth = RLENGTH
                if (!depth) return ""
                if (lines[k] ~ /^ +[A-Za-z][^ ]* = /) { found = lines[k]; sub(/^ */, "", found); sub(/ =.*/, "", found); return found == law ? "" : " " found }
            }
            return ""
        }
        # the function that line n of a source file stands in, or that its attribute at line n is of
        function function_at(n,    k, found) {
            while (lines[n] ~ /^ *#\[/) n++
            for (k = n; k >= 1; k--) if (match(lines[k], /(^|[ ("])fn [a-z_0-9]+/)) {
                found = substr(lines[k], RSTART, RLENGTH)
                sub(/.*fn /, "", found)
                return found
            }
            return "no function"
        }
        # place(CRATE, SAID): the name for what the prover said first
        function place(crate, said,    part, path, name, function_of) {
            sub(/^note: /, "", said)
            sub(/^\.\//, "", said)
            if (said !~ /^[^ ]*:[0-9]+:[0-9]+: /) return "(" substr(said, 1, 60) ")"
            split(said, part, ":")
            path = part[1]
            lines_of(crate, path)
            sub(/^[^ ]* /, "", said)
            if (path ~ /^src\//) {
                # a goal that is left open stands in backticks at the end of its sentence
                name = said
                if (name ~ /\(`[^`]+`\)/) { sub(/\(`[^`]+`\).*/, "", name); name = substr(said, length(name) + 3); sub(/`.*/, "", name) }
                else if (name ~ /\(`[^`]*$/) { sub(/.*\(`/, "", name); name = name ".." }
                else name = length(said) > 100 ? ".." : substr(said, 1, 60)
                return function_at(part[2]) " " name
            }
            sub(/^error: /, "", said)
            if (said !~ /^`[^`]+`: /) return path ": " substr(said, 1, 60)
            name = said
            sub(/^`/, "", name)
            sub(/`.*/, "", name)
            function_of = ""
            if (path ~ /\/(Answers|Invariants|Proof)\.antt$/) {
                function_of = path
                sub(/\/[A-Za-z]+\.antt$/, "", function_of)
                sub(/.*\//, "", function_of)
                function_of = function_of " "
            }
            return function_of name field_at(part[2], name)
        }
        match($0, /^rt: must-fail [a-z_0-9]+\/[^ \/]+\.edit: /) {
            one = substr($0, 15, RLENGTH - 15 - length(".edit: ") + 1)
            said = substr($0, RLENGTH + 1)
            crate = one
            sub(/\/.*/, "", crate)
            # the crate with the edit in place
            split("", text); file = old = ""; pairs = 0
            edit = ENVIRON["ROOT"] "/crates/" crate "/must-fail/" substr(one, length(crate) + 2) ".edit"
            while ((getline < edit) > 0) taken(ENVIRON["ROOT"] "/crates/" crate)
            close(edit)
            if (said == "refused, as it must be") found = "(nothing that has a name)"
            else if (sub(/^refused, as it must be: /, "", said)) found = place(crate, said)
            else if (said ~ /^refused, as it must be \(only because a proof file names/) { sub(/^[^:]*: [^:]*\): /, "", said); found = "(a proof file that names what is gone: " place(crate, said) ")" }
            else if (said ~ /^refused, as it must be \(only by a limit/) found = "(a limit of the prover)"
            else found = "(" substr(said, 1, 200) ")"
            print one " " found
        }' "$2"
}

# edits_judged ROOT LOG: a line for each edit that, by what was said in the log, is refused first elsewhere than the edit says, or that it does not tell of
edits_judged() {
    edits_refused "$1" "$2" >"$2.refused"
    edits_of "$1" | while read -r one; do
        wanted=$(sed -n 's/^# refused at: //p' "$1/crates/${one%%/*}/must-fail/${one#*/}.edit")
        found=$(awk -v one="$one" '$1 == one { sub(/^[^ ]* /, ""); found = $0 } END { print found }' "$2.refused")
        case $found in
            *..) case $wanted in "${found%..}"*) found=$wanted ;; esac ;;
        esac
        [ -n "$wanted" ] && [ "$wanted" = "$found" ] || echo "$one: it says '$(echo $wanted)', and the prover refused it first at '$found'"
    done
    rm -f "$2.refused"
}
