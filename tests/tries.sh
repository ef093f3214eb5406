# The programs without proofs: `rt try` compiles each with a check at every step that could go wrong, where the proofs say that none does, and what it writes is
# what is expected of it. A program that opens no file it runs on the kit's interpreter as well; those of the commands open the descriptor on which they tell.
mkdir -p target
for program in orders show named translate explain benches cases; do
    tries_case=$(mktemp -d)
    if [ -f "crates/$program/stdin" ]; then cp "crates/$program/stdin" "$tries_case/$program"; else : >"$tries_case/$program"; fi
    cp "crates/$program/stdout" "$tries_case/$program.stdout"
    if (cd "crates/$program" && rt try "$program" --cases "$tries_case") </dev/null >"target/try-$program.log" 2>&1 &&
        grep -q "^case=$program run=ended status=0 .*output=expected" "target/try-$program.log"; then
        pass "rt try $program: compiled with checks it writes what it should"
    else
        cat "target/try-$program.log"
        fail "rt try $program: it does not write what it should"
    fi
    rm -rf "$tries_case"
done
