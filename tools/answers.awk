# What may stand in a file of answers (docs/TRACE.md, "Output"). Read before another script.

function repeated(text, times,    all) {
    for (all = ""; times > 0; times--) all = all text
    return all
}

BEGIN {
    word_form = repeated("[0-9a-f]", 8)
    triangle_form = "^" word_form repeated(" " word_form, 50) "$"
    state_form = "^(mode|stack|saved|array|bound|buffer|color|pair|flags|codes|floats|env)( [0-9a-z]+)+$"
}

# Before the first line of a file.
function begin_answers() { left = 0; shows = 0; error = "" }

# What is wrong with the next line, "" if nothing. Sets `left`, the triangles of the last draw that are still to come, and `error`, the
# line that ends the answers to a damaged trace.
function fault(line,    part) {
    if (error != "") return "more after the error line"
    if (left > 0) {
        left--
        return line ~ triangle_form ? "" : "not a triangle of 51 words"
    }
    if (line ~ /^error: record [0-9]+: ./) { error = line; return "" }
    if (line ~ /^DRAW_[A-Z]+ [0-9]+ [0-9]+$/) {
        split(line, part, " ")
        left = part[3] + 0
        shows = 0
        return ""
    }
    if (line ~ /^(STACK_SHOW|DUMP)( [0-9a-f]+)+$/) { shows = 1; return "" }
    if (shows && line ~ state_form) return ""
    shows = 0
    return line ~ /^[A-Z][A-Z_]*( [0-9]+)+$/ ? "" : "not a line of answers"
}

# What is wrong after the last line.
function fault_at_end() { return left > 0 ? "ends inside a draw" : "" }

# How far the work is, on a terminal: said for every hundredth part of `lines` lines, which the environment gives; 0 where there is no terminal.
BEGIN { all_lines = ENVIRON["lines"] + 0 }

function pass_line() {
    if (all_lines < 20000 || ++passed < next_told) return
    tell(sprintf("%d %% ", 100 * passed / all_lines))
    next_told = passed + all_lines / 100
    told = 1
}

# Before anything else is printed.
function clear_told() {
    if (told) tell("\033[K")
    told = 0
}

function tell(text) { printf "\r%s", text > "/dev/stderr"; fflush("/dev/stderr") }
