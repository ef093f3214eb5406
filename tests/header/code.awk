# What the code says of a header, in the lines of read.awk: the calls from what its static library exports, the numbers of each call from the fields of a record of demands,
# the refusals from `reason_number` or `fault_number`, the state's places and the other constants from where the code has them.
# -v header=jidrofex, the header's name; the files are those that have all that

BEGIN {
    # what the length beside a slice is called
    length_of["pattern"] = length_of["panel"] = "ports"
    length_of["text"] = length_of["buffer"] = "bytes"
    length_of["state"] = length_of["rehearsal"] = "words"
    length_of["gaps"] = length_of["counts"] = "numbers"
    # the field that has the numbers of a call, of demands.One.DemandOne or of benches_demands.Over.OverBenches; 15 stands before those of a text that is read
    # into words
    fields["jidrofex"] = "check:check check_panel:check_panel count:count rank:rank unrank:unrank next:beside previous:beside step:step" \
        " dictionary_number:dictionary_number dictionary_pattern:dictionary_pattern dictionary_next:dictionary_next number_to_rank:number_to_rank" \
        " rank_to_number:rank_to_number port_at:port_at jack_of:jack_of_port" \
        " carry:carry write_line:write_line read_line:read_line begin:15+read_plan named:named status:status request:asked report:reported" \
        " report_mark:reported_mark resume:resume rehearse:15+rehearse orders:fill refusal_words:refusal_words refusal_sentence:refusal_sentence version:never"
    fields["jidrofex_benches"] = "share:share_refused sum:sum_refused version:never"
    # the constants that stand in the code, by the header's name less its beginning, and after it the code's where that is another
    names["jidrofex"] = "VERSION MOST_PORTS MOST_LEGS ANSWER_WORDS LINE_WORDS GAP_NUMBERS NOTHING SWAP TURN MARK END TWO_SWAPS SEAT RAN ERROR GAVE_UP"
    names["jidrofex_benches"] = "VERSION ANSWER_WORDS MOST:MOST_BENCHES COUNTS:PER_BENCH"
    capitals = toupper(header) "_"
    n = split(names[header], pair, " ")
    for (k = 1; k <= n; k++) {
        m = split(pair[k], part, ":")
        name_of[part[m]] = part[1]
    }
    sort_of["u8"] = "uint8_t"; sort_of["u64"] = "uint64_t"; sort_of["i64"] = "int64_t"; sort_of["usize"] = "size_t"
}

# ---- calls: a parameter of the code as the header has it

function as_in_c(parameter,    name, type, constant, words) {
    name = type = parameter
    sub(/: .*/, "", name)
    sub(/^[^:]*: /, "", type)
    if (type in sort_of) return sort_of[type] " " name
    constant = type ~ /^&mut / ? "" : "const "
    sub(/^&(mut )?/, "", type)
    if (type ~ /^\[u64; [A-Z_]+\]$/) {
        words = type
        gsub(/^\[u64; |\]$/, "", words)
        return constant "uint64_t " name "[" capitals words "]"
    }
    gsub(/[][]/, "", type)
    if (type in sort_of && name in length_of) return constant sort_of[type] " *" name ", size_t " length_of[name]
    return "unknown " parameter
}

/^pub extern "C" fn / { signature = "" ; on = 1 }
on { signature = signature " " $0 }
on && /\) -> / {
    on = 0
    sub(/ ensures .*/, "", signature)
    sub(/ [{].*/, "", signature)
    gsub(/ +/, " ", signature)
    name = parameters = signature
    gsub(/^ pub extern "C" fn |\(.*/, "", name)
    gsub(/^[^(]*\( ?|,? ?\) -> .*/, "", parameters)
    told = ""
    n = split(parameters, parameter, /, /)
    for (k = 1; k <= n; k++) told = told (k > 1 ? ", " : "") as_in_c(parameter[k])
    gives = signature
    sub(/.*\) -> /, "", gives)
    sub(/ $/, "", gives)
    print "call " (gives in sort_of ? sort_of[gives] : "unknown") " " name "(" told ")"
}

# ---- numbers: the list of a field, after Refuses or a word that begins with it

/^  pub [A-Za-z_]+ :/ { field = $2 }
/^  --/ { field = "" }
field != "" && match($0, /Refuses[A-Za-z]* \([0-9]+ [^)]*\[\]\)/) && !(field in numbers) {
    list = substr($0, RSTART, RLENGTH)
    gsub(/^Refuses[A-Za-z]* \(| [^ ]+ \[\]\)$/, "", list)
    gsub(/ [^ 0-9]+ /, " ", list)
    numbers[field] = list
}

# ---- constants

# OwnJack is OWN_JACK
function in_capitals(name,    told, k, letter) {
    for (k = 1; k <= length(name); k++) {
        letter = substr(name, k, 1)
        told = told (k > 1 && letter ~ /[A-Z]/ ? "_" : "") toupper(letter)
    }
    return told
}

/^pub fn (reason|fault)_number\(/ { refusals = 1 }
/^[}]/ { refusals = 0 }
refusals && /^ +(Reason|Fault)::[A-Za-z]+(\(_\))? => [0-9]+,$/ {
    name = $1
    gsub(/.*:|\(_\)/, "", name)
    print "constant " capitals "REFUSED_" in_capitals(name) " " $3 + 0
}

# a sum of numbers and of constants that came before
function sum_of(text,    part, k, n, sum) {
    gsub(/ as [a-z0-9]+|;/, "", text)
    n = split(text, part, / [+] /)
    for (k = 1; k <= n; k++) sum += part[k] ~ /^[0-9]+$/ ? part[k] : value[part[k]]
    return sum
}

/^(pub )?const [A-Z_0-9]+: u[a-z0-9]+ = / {
    name = type = text = $0
    gsub(/^(pub )?const |:.*/, "", name)
    gsub(/^[^:]*: | =.*/, "", type)
    sub(/^[^=]*= /, "", text)
    value[name] = sum_of(text)
    if (FILENAME ~ /\/places\.rt$/ && type == "usize")
        print "constant " capitals (name ~ /^(STATE|REHEARSAL)_/ ? "" : "STATE_") name " " value[name]
    else if (name in name_of)
        print "constant " capitals name_of[name] " " value[name]
}

END {
    n = split(fields[header], pair, " ")
    for (k = 1; k <= n; k++) {
        split(pair[k], part, ":")
        list = part[2]
        first = sub(/^15[+]/, "", list) ? "15 " : ""
        print "refused " header "_" part[1] " " first (list == "never" ? "never" : list in numbers ? numbers[list] : "no field " list)
    }
}
