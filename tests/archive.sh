# The libraries for this machine, target/host/libjidrofex.a and target/host/libjidrofex_benches.a, which the parts reference, benches, header, cuts and speed
# link, by tools/host-archive over what `rt ci` has proved. Making them takes some minutes of one processor, so they are begun here and made in the background
# while the types and the commands are tested. Of two runs of rt in one crate the second waits, so the commands' programs are brought up to date first.
archives='target/host/libjidrofex.a target/host/libjidrofex_benches.a'
archive_maker=''

# both are there, and neither is older than a file of crates/ but those that rt makes: else it would be a test of what was there before
archive_fresh() {
    for archive in $archives; do
        [ -f "$archive" ] && [ -z "$(find crates -path 'crates/*/out' -prune -o -newer "$archive" -type f -print | head -n 1)" ] || return 1
    done
}

archive_begin() {
    if archive_fresh; then return; fi
    rm -f $archives
    for command in orders show named; do bin/$command --quiet plans/two-ports >/dev/null || fail "archive: bin/$command does not run"; done
    bin/translate --quiet examples/lab/numbers >/dev/null || fail 'archive: bin/translate does not run'
    echo 2,1 | bin/explain --quiet >/dev/null || fail 'archive: bin/explain does not run'
    bin/benches --quiet 2 1 >/dev/null || fail 'archive: bin/benches does not run'
    tools/host-archive >target/archive.log 2>&1 &
    archive_maker=$!
}

# waited for, by whoever links one; the first one says whether they were made
archive_ready() {
    [ -n "$archive_maker" ] || return 0
    if wait "$archive_maker" && ls $archives >/dev/null; then
        pass 'the libraries for this machine are made'
    else
        cat target/archive.log
        fail 'the libraries for this machine do not build'
    fi
    archive_maker=''
}

# archive_symbols PART NAME: what an archive needs, exports and holds, beside the header of the same name
archive_symbols() {
    archive=target/host/lib$2.a
    archive_needs=$(nm -u "$archive" | sed -n 's/^ *U //p' | sort -u)
    archive_exports=$(nm -g --defined-only "$archive" | sed -n 's/^[0-9a-f]* [A-Z] //p' | sort)
    archive_data=$(size "$archive" | awk 'NR > 1 { sum += $2 + $3; members++ } END { print (members > 0 ? sum : "unknown") }')
    if [ -n "$archive_needs" ] && echo "$archive_needs" | grep -qvxE 'memcpy|memset'; then
        fail "$1: lib$2.a needs more than memcpy and memset: $(echo $archive_needs)"
    elif [ -z "$archive_exports" ] || [ "$archive_exports" != "$(sed -n 's/^uint8_t \([a-z_]*\)(.*/\1/p' "include/$2.h" | sort)" ]; then
        fail "$1: lib$2.a exports not just the calls of its header: $(echo $archive_exports)"
    elif [ "$archive_data" != 0 ]; then
        fail "$1: lib$2.a has $archive_data bytes of data of its own"
    else
        pass "$1: lib$2.a needs memcpy and memset at most, exports the calls of its header alone, and has no data of its own"
    fi
}
archive_begin
