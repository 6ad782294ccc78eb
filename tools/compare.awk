# Compares two files of answers: draw by draw in order, the triangles word for word, all other lines in order between two draws. The
# environment has the paths as first and second (two different ones) and the names for the reader as first_name and second_name. Needs
# f32.awk and answers.awk. Status: 0 no difference, 1 differences, 2 a file that holds no answers; then nothing is printed but the reason.

function bad(text) { clear_told(); print "compare: " text | "cat 1>&2"; exit 2 }

# As text: as numbers 00000000 and 0000e000 would be equal.
function same(a, b) { return (a "") == (b "") }

# Every line of a file has its form, and the last is not that of a damaged trace.
function check(f,    text, n, wrong) {
    begin_answers()
    for (n = 1; (getline text < file[f]) > 0; n++) {
        pass_line()
        wrong = fault(text)
        if (wrong != "") bad(name[f] " is not a file of answers: line " n ": " wrong)
    }
    wrong = fault_at_end()
    if (wrong != "") bad(name[f] " " wrong)
    if (error != "") bad(name[f] ": the trace is damaged: " error)
    close(file[f])
}

# The next line of a file in line[f], its number in at[f]; "" at the end.
function advance(f,    text) {
    line[f] = ""
    if ((getline text < file[f]) > 0) { line[f] = text; at[f]++; pass_line() }
}

function is_draw(f) { return line[f] ~ /^DRAW_/ }

function count_of(f,    part) { split(line[f], part, " "); return part[3] + 0 }

function report(text) {
    clear_told()
    if (!reported++) print "first   " name[1] "\nsecond  " name[2]
    print text
}

# Where both lines stand.
function lines_at(a, b) { return a == b ? "line " a : "lines " a " and " b }

function span(what, from, to) { return from == to ? what " " from : what "s " from " to " to }

function shown(word) { return word " (" decimal(bits(word)) ")" }

# Second less first.
function change(a, b) {
    a = bits(a); b = bits(b)
    return is_finite(a) && is_finite(b) ? sprintf(", by %.9g", value(b) - value(a) + 0) : ""
}

function compare_triangle(t,    a, b, i, differs) {
    triangles++
    if (same(line[1], line[2])) return
    split(line[1], a, " ")
    split(line[2], b, " ")
    for (i = 1; i <= 51; i++)
        if (!same(a[i], b[i])) {
            report("draw " draw ", triangle " t ", " lines_at(at[1], at[2]) ", corner " int((i - 1) / 17) ", " field[(i - 1) % 17 + 1] ": " shown(a[i]) " -> " shown(b[i]) change(a[i], b[i]))
            words++
            differs = 1
        }
    differing += differs
}

# A draw in one file alone, or what one of two draws has more. The file stands at the first of these triangles.
function pass_alone(f, from, to) {
    if (from == to) return
    report("draw " draw ", " span("triangle", from, to - 1) ", " span("line", at[f], at[f] + to - from - 1) ": in " name[f] " alone")
    alone += to - from
    for (; from < to; from++) advance(f)
}

function compare_draws(    first, second, t) {
    if (!same(line[1], line[2])) { report("draw " draw ", " lines_at(at[1], at[2]) ": " line[1] " -> " line[2]); others++ }
    first = count_of(1); second = count_of(2)
    advance(1); advance(2)
    for (t = 0; t < first && t < second; t++) { compare_triangle(t); advance(1); advance(2) }
    pass_alone(1, t, first)
    pass_alone(2, t, second)
}

function single_draw(f,    count) {
    report("draw " draw ", line " at[f] ": " line[f] " in " name[f] " alone")
    others++
    count = count_of(f)
    advance(f)
    pass_alone(f, 0, count)
}

# The lines up to the next draw: kept[f, 1 .. n[f]], their numbers in place.
function gather(f) {
    for (n[f] = 0; line[f] != "" && !is_draw(f); advance(f)) { kept[f, ++n[f]] = line[f]; place[f, n[f]] = at[f] }
}

# Without the lines that are the same at both ends, so that a call that came or went is one difference.
function compare_others(    from, a, b) {
    gather(1); gather(2)
    a = n[1]; b = n[2]
    for (from = 1; from <= a && from <= b && same(kept[1, from], kept[2, from]); from++) ;
    for (; a >= from && b >= from && same(kept[1, a], kept[2, b]); a--) b--
    for (; from <= a && from <= b; from++)
        if (!same(kept[1, from], kept[2, from])) { report(lines_at(place[1, from], place[2, from]) ": " kept[1, from] " -> " kept[2, from]); others++ }
    for (; from <= a; from++) { report("line " place[1, from] ": " kept[1, from] " in " name[1] " alone"); others++ }
    for (; from <= b; from++) { report("line " place[2, from] ": " kept[2, from] " in " name[2] " alone"); others++ }
}

function many(n, what) { return n " " what (n == 1 ? "" : "s") }

function finish() {
    clear_told()
    if (!reported) { print "no difference"; exit 0 }
    printf "%d of %s differ%s", differing, many(triangles + 0, "triangle"), (differing > 0 ? ", in " many(words, "word") : "")
    if (alone > 0) printf "; %s in one file alone", many(alone, "triangle")
    if (others > 0) printf "; %s elsewhere", many(others, "difference")
    printf "\n"
    exit 1
}

BEGIN {
    file[1] = ENVIRON["first"]; file[2] = ENVIRON["second"]
    name[1] = ENVIRON["first_name"]; name[2] = ENVIRON["second_name"]
    split("position x,position y,position z,position w,colour r,colour g,colour b,colour a,pair 0 s,pair 0 t,pair 1 s,pair 1 t,pair 2 s,pair 2 t,pair 3 s,pair 3 t,fog depth", field, ",")
    check(1); check(2)
    advance(1); advance(2)
    for (draw = 0; ; draw++) {
        compare_others()
        if (is_draw(1) && is_draw(2)) compare_draws()
        else if (is_draw(1)) single_draw(1)
        else if (is_draw(2)) single_draw(2)
        else finish()
    }
}
