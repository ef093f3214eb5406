# The declarations in Rust beside the header's. The first file has the lines of read.awk, the others are Rust; of these, WHOLE has to declare every call.
# Prints a line for each declaration that is not the header's and for each call that WHOLE lacks, and `declared N` for those that are. A declaration is held to
# the header whose name is the longest that the call's begins with.
# -v whole=WHOLE -v header=jidrofex, the header's name, -v headers='jidrofex jidrofex_benches', the names of all

BEGIN { sort_of["uint8_t"] = "u8"; sort_of["uint64_t"] = "u64"; sort_of["int64_t"] = "i64"; sort_of["size_t"] = "usize" }

# the header of a call, or nothing
function header_of(name,    k, n, one, found) {
    n = split(headers, one, " ")
    for (k = 1; k <= n; k++) if (index(name, one[k] "_") == 1 && length(one[k]) > length(found)) found = one[k]
    return found
}

# a parameter of the header as Rust has it: a pointer for an array too
function as_in_rust(parameter,    constant, type, name) {
    constant = sub(/^const /, "", parameter)
    type = name = parameter
    sub(/ .*/, "", type)
    sub(/^[^ ]* /, "", name)
    type = type in sort_of ? sort_of[type] : "unknown"
    if (name ~ /[*[]/) type = (constant ? "*const " : "*mut ") type
    gsub(/[*]|\[.*/, "", name)
    return name ": " type
}

# the lines of the header
NR == FNR {
    if ($1 != "call") next
    name = $3
    sub(/\(.*/, "", name)
    parameters = $0
    gsub(/^[^(]*\(|\)$/, "", parameters)
    n = split(parameters, parameter, /, /)
    told = ""
    for (k = 1; k <= n; k++) told = told (k > 1 ? ", " : "") as_in_rust(parameter[k])
    wanted[name] = "fn " name "(" told ") -> " sort_of[$2]
    next
}

FNR == 1 { inside = 0 }
/^ *(unsafe )?extern "C" [{]$/ { inside = 1; code = ""; next }
inside && /^ *[}]$/ { inside = 0 }
inside {
    sub(/\/\/.*/, "")
    code = code " " $0
    if (code !~ /; *$/) next
    gsub(/ +/, " ", code)
    gsub(/^ (pub )?| ?; ?$/, "", code)
    gsub(/\( /, "(", code)
    gsub(/,? \)/, ")", code)
    name = code
    gsub(/^fn |\(.*/, "", name)
    if (header_of(name) == header) {
        if (code == wanted[name]) declared++
        else print FILENAME ": '" code "', and the header has '" wanted[name] "'"
        if (FILENAME == whole) there[name] = 1
    }
    code = ""
}

END {
    for (name in wanted) if (!(name in there)) print whole ": no declaration of " name
    print "declared " declared + 0
}
