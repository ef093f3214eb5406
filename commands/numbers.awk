# Numbers as text, which awk's own are too small for: ranks, counts and mark numbers are added, compared and shared out digit by digit, however long they are.

# whether the one decimal is below the other
function below(a, b) { return length(a) != length(b) ? length(a) < length(b) : (a "") < (b "") }

# a decimal with zeros before it, so many digits long; and without them
function padded(a, wide) { while (length(a) < wide) a = "0" a; return a }
function plain(a) { sub(/^0+/, "", a); return a == "" ? "0" : a }

# two decimals added
function plus(a, b,    wide, i, digit, over, sum) {
    wide = length(a) > length(b) ? length(a) : length(b)
    a = padded(a, wide)
    b = padded(b, wide)
    for (i = wide; i > 0; i--) {
        digit = substr(a, i, 1) + substr(b, i, 1) + over
        sum = (digit % 10) sum
        over = int(digit / 10)
    }
    return plain(over sum)
}

# a decimal less another that is not above it
function minus(a, b,    i, digit, owed, rest) {
    b = padded(b, length(a))
    for (i = length(a); i > 0; i--) {
        digit = substr(a, i, 1) - substr(b, i, 1) - owed
        owed = digit < 0
        rest = (digit + 10 * owed) rest
    }
    return plain(rest)
}

# k times a decimal, digit by digit from the right
function times(text, k,    i, left, more) {
    for (i = length(text); i > 0; i--) {
        left = substr(text, i, 1) * k + left
        more = (left % 10) more
        left = int(left / 10)
    }
    return plain(left more)
}

# k of so many equal parts of a decimal, rounded down: k times as much, divided from the left
function share(text, k, parts,    i, left, part) {
    text = times(text, k)
    for (i = 1; i <= length(text); i++) {
        left = left * 10 + substr(text, i, 1)
        part = part int(left / parts)
        left = left % parts
    }
    return plain(part)
}

# what the k-th of so many gets, from 0 on, where a decimal is dealt out in whole parts and the larger ones come first
function dealt(text, k, parts,    least) {
    least = share(text, 1, parts)
    return below(k "", minus(text, times(least, parts))) ? plus(least, "1") : least
}

# how many patterns of n ports there are: n - 1 times the sum of the two counts before
function patterns(n,    k, before, count, sum) {
    before = "0"
    count = "1"
    for (k = 3; k <= n; k++) {
        sum = plus(count, before)
        before = count
        count = times(sum, k - 1)
    }
    return count
}
