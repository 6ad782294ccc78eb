# The names of docs/SCOPE-MAP.md against the crates. Reads crates.txt, crates/*/specs and crates/*/proofs, crates/*/src, tests/compare/src, and the
# map last; `edits` are the names of the must-fail edits. It asks
# - that every name of a definition line or a contract line is declared in the crates;
# - that every function of a contract line cites a definition of its block: a type stands in its head, any other in its `ensures`;
# - that every definition of a block that names functions or laws is cited by one of them, through any number of definitions;
# - that every single word of a `shown by` line is a must-fail edit, a theorem, or a name of the differential runs.

function wrong(what) { print "SCOPE-MAP.md:" start ": " what; failed = 1 }

# ---- the crates

# The words of a line: no comment, no field of a value (`r.name`); of a name in a type or a module (`Call.push`, `objects.answer` under its name by
# `as`) both parts. An operator `◌+◌` is the word +.
function words_of(line,    i, n, list, name, words) {
    sub(/--.*/, "", line)
    gsub(/◌/, "", line)
    gsub(/[][(){},;]/, " ", line)
    n = split(line, list, " ")
    for (i = 1; i <= n; i++) {
        name = list[i]
        sub(/\..*/, "", name)
        if (name ~ /^[A-Z]/ || name in alias) gsub(/\./, " ", list[i]); else list[i] = name
        words = words " " list[i]
    }
    return words " "
}

# A name of a specification or a law: what follows is its text.
function declare(name) {
    owner = name
    gsub(/◌/, "", name)
    node = crate "\t" name
    if (!(node in text)) { text[node] = " "; holders[name] = holders[name] " " crate }
}

FNR == 1 { split(FILENAME, path, "/"); crate = path[2]; kind = path[1] == "docs" ? "map" : path[3]; node = fn = impl = ""; split("", alias) }

/^(pub |ghost )?use .* as [^ ]+$/ { alias[$NF] = 1 }

FILENAME == "crates.txt" && /^[a-z]/ { n = split($0, part, /[: ]+/); for (i = 2; i <= n; i++) below[part[1], part[i]] = 1 }

kind == "specs" || kind == "proofs" {
    if (/^(pub )?use / || /^ *--/) next
    line = $0
    inner = line ~ /^  (pub )?[^ ]+ : /
    sub(/^(  )?(abbrev |unfoldable |unfolding |pub |record |data )*/, "", line)
    split(line, part, " ")
    if (inner) field[owner " ." part[1]] = 1
    if (/^[^ ]/ && (part[2] == ":" || /^(pub )?(record|data) /)) declare(part[1])
    else if (inner && in_module) declare(part[1])
    if (/^[^ ]/) in_module = /^module /
    if (node != "") text[node] = text[node] words_of($0)
}

kind == "src" {
    # A method is TYPE::NAME; a conversion `impl TryFrom<u32> for TYPE` is TYPE::try_from, and `impl From<TYPE> for ..` is From<TYPE>::from.
    if (/^impl/) {
        impl = $0; promised = ""
        sub(/^impl(<[^ ]*>)? /, "", impl)
        if (impl ~ /^From</) sub(/ for .*/, "", impl); else { sub(/.* for /, "", impl); sub(/[< ].*/, "", impl) }
    }
    if (/^}/) impl = ""
    if (/^    ghost [a-z_]*gives = /) promised = promised words_of($0)
    if (match($0, /^(pub )?(struct|enum) [A-Za-z0-9]+/)) { n = split(substr($0, 1, RLENGTH), part, " "); owner = part[n]; type[crate "::" owner] = 1 }
    if (match($0, /^    [A-Z][A-Za-z]*[,(]/)) type[owner "::" substr($0, 5, RLENGTH - 5)] = 1
    if (match($0, /^ *(pub )?(extern "C" )?fn [a-z_0-9]+/)) {
        n = split(substr($0, 1, RLENGTH), part, " ")
        fn = (impl == "" ? crate : impl) "::" part[n]; home[fn] = crate; promise = 0
        if (promised != "") { ensures[fn] = promised; promised = "" }
    }
    if (fn == "") next
    if (/^ *\{$/) { fn = ""; next }
    if (/^ *(ensures|requires) /) promise = $1
    if (promise == "ensures") ensures[fn] = ensures[fn] words_of($0)
    else if (!promise) head[fn] = head[fn] " " $0
}

FILENAME ~ /^tests\// { run_name[path[4]] = 1; n = split($0, part, /[^A-Za-z_0-9]+/); for (i = 1; i <= n; i++) run_name[part[i]] = 1 }

# ---- what a function or a law cites

# `reached` has the number of steps: 1 for what stands in the text itself, 2 for what stands in a definition that is cited there.
function visit(name) { if (!((origin, name) in reached)) { reached[origin, name] = step; queue[++last] = name } }

# A word of a crate means that crate's own name, or one of a crate that it builds on.
function follow(from, words,    i, k, n, m, list, near) {
    n = split(words, list, " ")
    for (i = 1; i <= n; i++) {
        if (!(list[i] in holders)) continue
        if ((from "\t" list[i]) in text) { visit(from "\t" list[i]); continue }
        m = split(holders[list[i]], near, " ")
        for (k = 1; k <= m; k++) if ((from, near[k]) in below) visit(near[k] "\t" list[i])
    }
}

function trace(carrier,    i, n, part) {
    if (carrier in traced) return
    traced[carrier] = step = 1; origin = carrier; last = 0
    if (carrier in home) follow(home[carrier], ensures[carrier])
    else { n = nodes_of(carrier); for (i = 1; i <= n; i++) visit(found[i]) }
    for (i = 1; i <= last; i++) { step = reached[carrier, queue[i]] + 1; split(queue[i], part, "\t"); follow(part[1], text[queue[i]]) }
}

# Puts what a name of the map stands for into `found`: `name`, `crate: name`, or `Record .field`, which is taken as its record.
function nodes_of(name,    i, n, m, near) {
    sub(/ \..*/, "", name)
    gsub(/◌/, "", name)
    if (split(name, near, ": ") == 2) { found[1] = near[1] "\t" near[2]; return found[1] in text }
    n = split(holders[name], near, " ")
    for (i = 1; i <= n; i++) found[i] = near[i] "\t" name
    return n
}

function cites(carrier, name, steps,    i, n) {
    if (name ~ /::/) { sub(/.*::/, "", name); return head[carrier] ~ ("[^A-Za-z]" name "([^A-Za-z]|$)") }
    trace(carrier)
    n = nodes_of(name)
    for (i = 1; i <= n; i++) if ((carrier, found[i]) in reached && reached[carrier, found[i]] <= steps) return 1
    return 0
}

# ---- the map

function is_declared(name) {
    if (name ~ /\//) return system("test -e '" name "'") == 0
    if (name ~ /::/) return name in type || name in home
    if (name ~ / \./) return name in field
    return nodes_of(name)
}

function is_shown(name) { return name ~ / / || ("BenchExamples ." name) in field || index(" " edits " ", " " name " ") || name in run_name || is_declared(name) }

function add_functions(pattern,    f) { for (f in home) if (f ~ pattern) carrier[++carriers] = f }

function check_block(    i, k, cited) {
    for (i = 1; i <= definitions; i++) if (!is_declared(definition[i])) wrong("definition " definition[i] " is not declared in the crates")
    for (i = 1; i <= carriers; i++) {
        names++
        if (!is_declared(carrier[i])) { wrong("contract " carrier[i] " is not declared in the crates"); continue }
        cited = definitions == 0 || !(carrier[i] in home)
        for (k = 1; k <= definitions; k++) cited = cited || cites(carrier[i], definition[k], 1)
        if (!cited) wrong(carrier[i] " cites no definition beside it")
    }
    if (says ~ /the three draws of crate view/) add_functions("^view::draw_")
    else if (says ~ /the three draws/) add_functions("^gles_draws::draw_")
    if (says ~ /entries/) add_functions("^gles_(arrays|buffers|draws|matrix|pipeline)::")
    for (k = 1; k <= definitions; k++) {
        names++
        cited = carriers == 0 || definition[k] ~ /::|\//
        for (i = 1; i <= carriers; i++) cited = cited || cites(carrier[i], definition[k], 99)
        if (!cited) wrong("no function or law beside it cites " definition[k])
    }
    definitions = carriers = 0; says = ""
}

kind == "map" {
    if (/^[>#]/ || /^$/) { check_block(); part_of = "" }
    if (/^>/ && $0 != "> ") start = FNR
    if (/^- /) part_of = $2
    if (part_of == "contract:") says = says " " $0
    n = split($0, piece, "`")
    for (i = 2; i <= n; i += 2) {
        if (part_of == "definition:") definition[++definitions] = piece[i]
        if (part_of == "contract:") carrier[++carriers] = piece[i]
        if (part_of == "shown" && !is_shown(piece[i])) wrong("what shows it, " piece[i] ", is nowhere")
    }
}

END { check_block(); if (!failed) print names; exit failed }
