# Sums up the answers of a trace: calls, draws, triangles, refusals by number, and the box around all corners in clip space. Needs
# f32.awk and answers.awk. Status 1 if the last line is `error: ..`, which is then printed last; 2 if these are no answers.

BEGIN {
    meaning[1] = "context or borrowed store not sound"
    meaning[2] = "guest bytes end past 2^32"
    meaning[3] = "stage mask of 16 or more"
    meaning[4] = "no buffer left"
    meaning[5] = "no buffer name left, or a name too large"
    meaning[6] = "buffer of more than 4,096 bytes"
    meaning[7] = "indices cannot be read"
    meaning[8] = "vertex array not enabled, or without buffer and pointer"
    meaning[9] = "a position cannot be fetched"
    meaning[10] = "points or lines: no triangles"
    meaning[11] = "output too short"
    meaning[1280] = "invalid enum"
    meaning[1281] = "invalid value"
    meaning[1282] = "invalid operation"
    meaning[1283] = "stack overflow"
    meaning[1284] = "stack underflow"
    split("x y z w", axes, " ")
    begin_answers()
}

# Position: words 0 to 3 of each corner of 17.
function widen(    corner, axis, word, n) {
    for (corner = 0; corner < 3; corner++)
        for (axis = 1; axis <= 4; axis++) {
            word = $(17 * corner + axis)
            n = bits(word)
            if (!is_finite(n)) { unbounded++; continue }
            n = value(n)
            if (!(axis in low) || n < low[axis]) { low[axis] = n; lowest[axis] = word }
            if (!(axis in high) || n > high[axis]) { high[axis] = n; highest[axis] = word }
        }
}

function refuse(name, number) {
    refusals++
    if (!(number in times)) numbers[++kinds] = number
    times[number]++
    if ((number, name) in by) return
    by[number, name] = 1
    names[number] = (times[number] == 1 ? "" : names[number] ", ") name
}

function sort_numbers(    i, j, n) {
    for (i = 2; i <= kinds; i++) {
        n = numbers[i]
        for (j = i; j > 1 && numbers[j - 1] > n; j--) numbers[j] = numbers[j - 1]
        numbers[j] = n
    }
}

# The document writes the codes from 0x0500 on so.
function code(number) { return number < 1280 ? number : sprintf("%d = 0x%04x", number, number) }

function print_refusals(    i, n) {
    printf "refusals   %d\n", refusals
    sort_numbers()
    for (i = 1; i <= kinds; i++) {
        n = numbers[i]
        printf "           %d of number %s (%s): %s\n", times[n], code(n), n in meaning ? meaning[n] : "unknown", names[n]
    }
}

function shown(word) { return decimal(bits(word)) " (" word ")" }

function print_box(    axis) {
    if (triangles == 0) print "box        none"
    for (axis = 1; axis <= 4; axis++)
        if (axis in low)
            printf "%-10s %s %s to %s\n", axis == 1 ? "clip box" : "", axes[axis], shown(lowest[axis]), shown(highest[axis])
    if (unbounded > 0) printf "           without %d infinite or NaN coordinates\n", unbounded
}

{
    pass_line()
    is_triangle = left > 0
    wrong = fault($0)
    if (wrong != "") exit
}
is_triangle { triangles++; widen(); next }
/^TOUCHED / { touched++; next }
/^(FRESH|UNSOUND|STACK_SHOW|DUMP) / { next }
/^[A-Z]/ {
    calls++
    if ($2 != 0) refuse($1, $2 + 0)
    if ($1 ~ /^DRAW_/) { draws++; refused += $2 != 0 }
}

END {
    clear_told()
    if (wrong == "") wrong = fault_at_end()
    if (wrong != "") { print "run: answers, line " NR ": " wrong | "cat 1>&2"; exit 2 }
    printf "calls      %d\n", calls
    printf "draws      %d, %d of them refused\n", draws, refused
    printf "triangles  %d\n", triangles
    print_refusals()
    print_box()
    if (touched > 0) printf "TOUCHED    %d draws changed output that they must leave\n", touched
    if (error != "") print error
    if (error != "" || touched > 0) exit 1
}
