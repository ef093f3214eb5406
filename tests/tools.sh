# The other tools: what the reference, the examples, the header's program and the speed table are built with is there before minutes of proofs have gone by.
for tool in rustc:rustc cc:gcc c++:g++; do
    if command -v "${tool%%:*}" >/dev/null 2>&1; then
        pass "the command ${tool%%:*} is there"
    else
        fail "the command ${tool%%:*} is missing: install the Debian package ${tool##*:}"
    fi
done
