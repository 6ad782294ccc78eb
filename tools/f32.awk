# f32 from their bit patterns, 8 lower-case hexadecimal digits. Read before another script (awk -f f32.awk -f ..).
# No operator ^ and no bound in a regular expression: some awks have neither.

function bits(word,    i, n) {
    n = 0
    for (i = 1; i <= 8; i++) n = 16 * n + index("0123456789abcdef", substr(word, i, 1)) - 1
    return n
}

# Neither infinite nor a NaN.
function is_finite(n) { return n % 2147483648 < 2139095040 }

# The value of a finite f32, exactly: an awk number has room for it.
function value(n,    sign, exponent, x) {
    sign = n < 2147483648 ? 1 : -1
    n %= 2147483648
    exponent = int(n / 8388608)
    x = n - exponent * 8388608
    if (exponent > 0) x += 8388608
    else exponent = 1
    for (; exponent < 150; exponent++) x /= 2
    for (; exponent > 150; exponent--) x *= 2
    return sign * x
}

# The value in nine digits, which tell any two f32 apart.
function decimal(n) {
    if (n % 2147483648 > 2139095040) return "nan"
    if (n == 2139095040) return "inf"
    if (n == 4286578688) return "-inf"
    if (n == 2147483648) return "-0"
    return sprintf("%.9g", value(n))
}
