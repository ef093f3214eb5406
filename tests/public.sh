# The public calls: docs/PUBLIC.md has each call under a heading with its signature as the source has it, and none of them has a `requires`; the calls of each
# header are those of its face, docs/PUBLIC.md names them all, and none has a `requires`; what C links exports each of them with the signature and the clauses of
# the face's function, word for word, and does nothing but call it; of every call there is the law of its own contract, and a field of the record that there is
# one answer to each: demands.Only.EachCallOne, and benches_demands.Only.EachCallOne for several benches.

# public_clauses NAME FILE..: the lines from the function's signature to its body, joined, blanks as one
public_clauses() {
    public_name=$1
    shift
    awk -v name="$public_name" '
        !on && $0 ~ "^ *pub (extern \"C\" )?fn " name "\\(" { on = 1 }
        on { text = text " " $0; if ($0 ~ /[{]$/) { print text; on = 0; text = "" } }' "$@" | tr -s ' ' | sed 's/( /(/; s/, )/)/'
}

# the heading of each call, and the crate that the line after it names
public_calls=$(awk '/^### `/ { call = $0; gsub(/^### `|`$/, "", call) } /^- in `/ && call != "" { split($3, at, /[`:]/); print at[2] " " call; call = "" }' docs/PUBLIC.md)
public_wrong=$(echo "$public_calls" | while read -r crate call; do
    call=${call#Campaign::}
    clauses=$(public_clauses "${call%%(*}" "crates/$crate"/src/*.rt)
    case $clauses in
        *requires*) echo "$call of $crate has a requires" ;;
        *"pub fn $call "*) ;;
        *) echo "$call is not what $crate has" ;;
    esac
done)
public_headings=$(grep -c '^### ' docs/PUBLIC.md)
if [ -n "$public_wrong" ]; then
    fail "docs/PUBLIC.md: $(echo $public_wrong)"
elif [ "$(echo "$public_calls" | grep -c .)" -ne "$public_headings" ] || [ "$public_headings" -lt 23 ]; then
    fail "docs/PUBLIC.md: a heading without the crate that it stands in, or fewer than 23 calls: $public_headings"
else
    pass "docs/PUBLIC.md: $public_headings calls, each with its signature and none with a requires"
fi

# public_faces HEADER: the files of the calls of a header; public_exports HEADER: the one of the static library that exports them
public_faces() {
    case $1 in
        jidrofex) for public_file in crates/face_*/src/*.rt; do case $public_file in crates/face_c/*) ;; *) echo "$public_file" ;; esac; done ;;
        jidrofex_benches) echo crates/benches_face/src/*.rt ;;
    esac
}
public_exports() {
    case $1 in
        jidrofex) echo crates/face_c/src/lib.rt ;;
        jidrofex_benches) echo crates/benches_c/src/lib.rt ;;
    esac
}
# public_body FILE NAME: the lines of an exported function's body
public_body() {
    awk -v name="$2" '
        $0 ~ "^pub extern \"C\" fn " name "\\(" { on = 1 }
        on && /^[}]/ { exit }
        on && body { print }
        on && /[{]$/ { body = 1 }' "$1"
}
# public_handed CALL CRATE FILE: what is wrong with the call as the file exports it, over the function of the crate
public_handed() {
    public_inner=$(public_clauses "$1" crates/"$2"/src/*.rt)
    public_outer=$(public_clauses "$1" "$3" | sed 's/pub extern "C" fn/pub fn/')
    public_names=$(echo "$public_outer" | sed 's/) -> .*//; s/[^(]*(//; s/: [^,]*\(, \|$\)/\1/g')
    if [ -z "$public_inner" ] || [ "$public_inner" != "$public_outer" ]; then
        echo "$1: not the signature and the clauses of $2"
    elif [ "$(public_body "$3" "$1")" != "    $2::$1($public_names)" ]; then
        echo "$1: it does something else than to call $2::$1"
    elif ! grep -B 1 "^pub extern \"C\" fn $1(" "$3" | grep -qx '#\[unsafe(no_mangle)\]'; then
        echo "$1: it is not exported under its name"
    fi
}
public_face=''
for header in jidrofex jidrofex_benches; do
    public_header=$(sed -n 's/^uint8_t \([a-z_]*\)(.*/\1/p' "include/$header.h" | sort)
    public_coded=$(cat $(public_faces "$header") | sed -n 's/^pub fn \(jidrofex_[a-z_]*\)(.*/\1/p' | sort)
    public_exported=$(sed -n 's/^pub extern "C" fn \([a-z_]*\)(.*/\1/p' "$(public_exports "$header")" | sort)
    public_wrong=$(for call in $public_coded; do
        case $(public_clauses "$call" $(public_faces "$header")) in *requires* | '') echo "$call" ;; esac
        grep -qF "\`$call\`" docs/PUBLIC.md || echo "$call"
    done)
    public_unlike=$(for call in $public_coded; do
        public_handed "$call" "$(grep -l "^pub fn $call(" $(public_faces "$header") | cut -d/ -f2)" "$(public_exports "$header")"
    done)
    if [ -z "$public_header" ] || [ "$public_header" != "$public_coded" ] || [ "$public_header" != "$public_exported" ]; then
        fail "the calls of include/$header.h are not those of its face, or not those that are exported"
    elif [ -n "$public_wrong" ]; then
        fail "a call for C with a requires, or one that docs/PUBLIC.md does not name: $(echo $public_wrong)"
    elif [ -n "$public_unlike" ]; then
        fail "a call that is exported otherwise than its face has it: $public_unlike"
    else
        pass "the $(echo "$public_header" | grep -c .) calls of $header.h are its face's and are exported as they stand there, docs/PUBLIC.md names each, and none has a requires"
    fi
    public_face="$public_face $public_coded"
done

# public_unsaid CRATE FUNCTION NAME: what is missing of the law NAME-says on the contract of a crate's function, and of its field in EachCallOne. The contract
# has a name of its own in either file, `use Rattle.CRATE.proofs.FUNCTION.Reads as ..`
public_alias() { sed -n "s/^use Rattle\.$2\.proofs\.\(.*\.\)*$3\.Reads as \(.*\)/\2/p" "$1" 2>/dev/null; }
public_unsaid() {
    case $1 in
        benches_*) public_only=crates/benches_demands/specs/Only.antt ;;
        *) public_only=crates/demands/specs/Only.antt ;;
    esac
    public_read=$(public_alias "crates/$1/proofs/Contracts.antt" "$1" "$2")
    grep -qs "^pub $3-says : Says ${public_read:-none}\.Learnt" "crates/$1/proofs/Contracts.antt" || echo "$3-says of $1"
    public_read=$(public_alias "$public_only" "$1" "$2")
    grep -qE "^  pub [a-zA-Z_]+ : One[a-zA-Z]* ${public_read:-none}\.Learnt( |\$)" "$public_only" 2>/dev/null || echo "a field for $2 of $1 in EachCallOne"
}
public_wrong=$(
    echo "$public_calls" | while read -r crate call; do
        call=${call#Campaign::}
        call=${call%%(*}
        public_unsaid "$crate" "$call" "$(echo "$call" | tr _ -)"
    done
    for call in $public_face; do
        crate=$(grep -l "^pub fn $call(" crates/face_*/src/*.rt crates/benches_face/src/*.rt | cut -d/ -f2)
        public_name=${call#jidrofex_}
        public_unsaid "$crate" "$call" "$(echo "${public_name#benches_}" | tr _ -)"
    done
)
if [ -n "$public_wrong" ]; then
    fail "a call whose contract no law holds: $(echo $public_wrong)"
else
    pass "the contract of each call is held by its law, and by its field in EachCallOne"
fi
