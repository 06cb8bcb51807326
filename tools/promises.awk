# Reads the definitions (crates/CRATE/specs, .antt) and the code (crates/CRATE/src, .rt), and follows the names with a capital letter, and those of types, from
# the contract of every exported function: these are the definitions that say something, the promise layer. Functions, which have a small letter,
# compute; they are held by cases and by the comparison.
#
#   ask=layer   print each declaration that an exported function's type or contract reaches, then each definition that its contract reaches, file by file:
#               without comments, with the parameters of the modules that it stands in, and with the imports of the names in it
#   ask=laws    print each definition that an exported contract itself names and that no law takes apart: no law of its own crate's *Said or *Cases files
#               has it among its hypotheses
#
# A name that is used and not found is an error: then this file does not know how it was written.

function fail(what) {
    print "promises: " what > "/dev/stderr"
    failed = 1
}

# ## Reading definitions

# What a path names: a definition D/CRATE/FILE/NAME, a declaration R/CRATE/NAME, nothing of this tree K, or a proof P.
function target(path, name,    crate, parts, n) {
    if (path !~ /^Rattle\.[a-z0-9_]+\.(specs|proofs)\./) return "K"
    crate = path
    sub(/^Rattle\./, "", crate)
    sub(/\.(specs|proofs)\..*$/, "", crate)
    if (path ~ /^Rattle\.[a-z0-9_]+\.proofs\./) return "P/" crate "/" name
    sub(/^Rattle\.[a-z0-9_]+\.specs\./, "", path)
    if (path !~ /^declared\./) return "D/" crate "/" path "/" name
    n = split(path, parts, ".")
    return "R/" crate "/" (parts[n] == "TheVariants" ? parts[n - 1] : parts[n])
}

function import(line,    path, names, n, i, pair) {
    sub(/^(ghost |pub )?use /, "", line)
    if (!match(line, /\.\{.*\}/)) return
    path = substr(line, 1, RSTART - 1)
    imported[file, ++imports[file]] = path
    n = split(substr(line, RSTART + 2, RLENGTH - 3), names, /, */)
    brings[file, imports[file]] = substr(line, RSTART + 2, RLENGTH - 3)
    for (i = 1; i <= n; i++) {
        if (split(names[i], pair, " as ") < 2) pair[2] = pair[1]
        used[file, pair[2]] = target(path, pair[1])
        if (pair[2] ~ /^◌[^A-Za-z]+◌$/) signs[file] = signs[file] " " pair[2]
    }
}

# The name that an item is about: what follows the keywords.
function named(line,    words, n, i) {
    n = split(line, words, " ")
    for (i = 1; i <= n; i++)
        if (words[i] !~ /^(abbrev|unfoldable|opaque|pub|record|data|mutual)$/) return words[i]
    return ""
}

function indentation(line) {
    match(line, /^ */)
    return RLENGTH
}

# A line of an item: the modules around it stand in front of its definition, once.
function add(line,    i, sign) {
    if (!((file, item) in text)) {
        defined[++count] = file SUBSEP item
        for (i = 1; i <= depth; i++) {
            text[file, item] = text[file, item] header[i] "\n"
            around[file, item] = around[file, item] " " header[i]
        }
        sign = line
        sub(/^ *(abbrev |unfoldable |pub |data |record )*/, "", sign)
        if (match(sign, /^◌[^A-Za-z ]+◌ /)) signs[file] = signs[file] " " item
        said[file, item] = line ~ /^ *(pub )?[a-z][^ ]* : /
        open = 1
    }
    text[file, item] = text[file, item] line "\n"
    if (open && line !~ /^ *unfolding /) type[file, item] = type[file, item] " " line
}

function definition(line,    at) {
    if (line ~ /^ *(--|$)/) return
    if (line ~ /^(pub )?use /) { import(line); return }
    if (line ~ /^pub mod /) return
    at = indentation(line)
    if (heading) {
        header[depth] = header[depth] " " substr(line, at + 1)
        heading = line !~ / where$/
        return
    }
    while (depth && at < body[depth]) depth--
    if (at > (depth ? body[depth] : 0)) { add(line); return }
    if (line ~ /^ *module /) {
        header[++depth] = line
        body[depth] = at + 2
        heading = line !~ / where$/
        return
    }
    if (line !~ /^ *unfolding /) {
        item = named(line)
        open = 0
    }
    add(line)
}

# ## Reading code

function declaration(line) {
    if (line ~ /^#\[/) { attributes = attributes line "\n"; return }
    if (line ~ /^(pub )?(struct|enum|const|type) /) {
        match(line, /(struct|enum|const|type) [A-Za-z0-9_]+/)
        declared = substr(line, RSTART, RLENGTH)
        sub(/^[a-z]+ /, "", declared)
        if ((crate, declared) in rust) twice[crate, declared] = 1
        rust[crate, declared] = attributes
        place[crate, declared] = FILENAME
        kinds[crate, declared] = line
        declarations[++number] = crate SUBSEP declared
        inside = 1
    }
    attributes = ""
    if (!inside) return
    if (line !~ /^ *\/\//) rust[crate, declared] = rust[crate, declared] line "\n"
    if (line ~ /^}/ || line ~ /;$/) inside = 0
}

function code(line,    from, path, n) {
    if (line ~ /^ghost use /) { import(line); return }
    if (line ~ /^(pub )?use [a-z_:]+::[A-Z]/) {
        sub(/^(pub )?use /, "", line)
        sub(/;$/, "", line)
        n = split(line, path, "::")
        from = path[1] == "crate" ? crate : path[1]
        brought[FILENAME, path[n]] = from
        return
    }
    if (line ~ /^pub extern "C" fn /) { exporting = 1; exported = ""; attributes = "" }
    if (exporting) {
        if (line ~ /^[ \t]*\{[ \t]*$/) { exporting = 0; contract[++contracts] = exported; exporter[contracts] = FILENAME }
        exported = exported " " line
        return
    }
    declaration(line)
}

FNR == 1 {
    split(FILENAME, piece, "/")
    crate = piece[2]
    known[crate] = 1
    file = FILENAME
    if (piece[3] == "specs") {
        sub(/^crates\/[^\/]*\/specs\//, "", file)
        sub(/\.antt$/, "", file)
        gsub(/\//, ".", file)
        file = crate "/" file
        path_of[file] = FILENAME
    }
    depth = heading = inside = exporting = 0
    item = attributes = ""
}
FILENAME ~ /\.antt$/ { definition($0); next }
{ code($0) }

# ## Following names

# The declaration that a name with a capital letter is in a file of code; empty if it is none.
function declaration_of(name, path, crate) {
    if ((path, name) in brought) crate = brought[path, name]
    return (crate, name) in rust ? "R/" crate "/" name : ""
}

function crate_of(path,    parts) {
    split(path, parts, "/")
    return parts[2]
}

# Follows the names in a piece of code, from the file and crate that it stands in; each has to be a declaration, but for the variants of an enum.
function follow_code(words, path, lenient,    name, to) {
    gsub(/#\[[^]]*\]/, "", words)
    while (match(words, /[A-Za-z_][A-Za-z0-9_]*/)) {
        name = substr(words, RSTART, RLENGTH)
        words = substr(words, RSTART + RLENGTH)
        if (name !~ /^[A-Z]/) continue
        to = declaration_of(name, path, crate_of(path))
        if (to != "") reach(to)
        else if (!lenient) fail(path ": the declaration of " name " is not found")
    }
}

# What a name means in a file of definitions, or of contracts; empty if it is a variable.
function meaning(name, from) {
    if ((from, name) in text) return "D/" from "/" name
    if ((from, name) in used) return used[from, name]
    return ""
}

# Calls `reach`, or notes in `noted`, for each name with a capital letter or of a type, each sign of a relation and each whole path in a text.
function follow(words, from, noting, strict,    name, to, list, sign, n, i) {
    while (match(words, /Rattle\.[a-z0-9_]+(\.[A-Za-z0-9_-]+)+/)) {
        name = substr(words, RSTART, RLENGTH)
        words = substr(words, 1, RSTART - 1) " " substr(words, RSTART + RLENGTH)
        to = name
        sub(/^.*\./, "", name)
        sub(/\.[^.]*$/, "", to)
        if (name ~ /^[A-Z]/) met(target(to, name), noting)
    }
    n = split(signs[from], list, " ")
    for (i = 1; i <= n; i++) {
        sign = list[i]
        gsub(/◌/, "", sign)
        if (index(words, " " sign " ")) met(meaning(list[i], from), noting)
    }
    while (match(words, /[A-Za-z_][A-Za-z0-9_'-]*/)) {
        name = substr(words, RSTART, RLENGTH)
        words = substr(words, RSTART + RLENGTH)
        to = meaning(name, from)
        if (name !~ /^[A-Z]/ && !is_type(to)) continue
        if (to != "") met(to, noting)
        else if (strict) fail(from ": " name " is used in a contract and comes from nowhere")
    }
}

# Whether a definition is a type though its name has a small letter.
function is_type(to,    path, name) {
    to = resolved(to)
    if (to !~ /^D\//) return 0
    path = substr(to, 3)
    name = path
    sub(/^.*\//, "", name)
    return type[substr(path, 1, length(path) - length(name) - 1), name] ~ /(→|:) Type [0-9]+ *$/
}

function met(to, noting) {
    if (noting == "") reach(to)
    else noted[noting, resolved(to)] = 1
}

# A name that a file only hands on stands for what it hands on.
function resolved(to,    path, from, name) {
    while (to ~ /^D\//) {
        path = substr(to, 3)
        name = path
        sub(/^.*\//, "", name)
        from = substr(path, 1, length(path) - length(name) - 1)
        if (((from, name) in text) || !((from, name) in used)) break
        to = used[from, name]
    }
    return to
}

function reach(to,    path, name, from, crate) {
    to = resolved(to)
    if (to == "K" || to in reached) return
    reached[to] = 1
    path = substr(to, 3)
    name = path
    sub(/^.*\//, "", name)
    from = substr(path, 1, length(path) - length(name) - 1)
    crate = path
    sub(/\/.*$/, "", crate)
    if (!(crate in known)) return
    if (to ~ /^P\//) { fail("a promise rests on a definition of the proofs: " path); return }
    if (to ~ /^R\//) {
        if (!((crate, name) in rust)) fail("the declaration of " path " is not found")
        else if ((crate, name) in twice) fail("two declarations of " path)
        else follow_code(rust[crate, name], place[crate, name], kinds[crate, name] !~ /struct /)
        return
    }
    if ((from, name) in text) follow(text[from, name], from, "", 0)
    else fail("the definition of " path " is not found")
}

# ## Laws

# All of a type but what it ends in: up to the last arrow outside of parentheses. Empty if it ends in falsehood: such a law takes nothing apart.
function hypotheses(words,    i, level, last, sign) {
    sub(/^[^:]*: /, "", words)
    for (i = 1; i <= length(words); i++) {
        sign = substr(words, i, 1)
        if (sign ~ /[({]/) level++
        else if (sign ~ /[)}]/) level--
        else if (!level && substr(words, i, length("→")) == "→") last = i
    }
    if (substr(words, last) ~ /^→ *⊥ *$/) return ""
    return last ? substr(words, 1, last - 1) : ""
}

function laws(    i, pair, from, crate) {
    for (i = 1; i <= count; i++) {
        split(defined[i], pair, SUBSEP)
        from = pair[1]
        if (from !~ /(Said|Cases)$/ || !said[from, pair[2]]) continue
        crate = from
        sub(/\/.*$/, "", crate)
        follow(around[from, pair[2]] " " hypotheses(type[from, pair[2]]), from, crate, 0)
    }
}

# ## The answers

# Whether a text has a name: as a word, or its sign anywhere.
function has(words, name,    at, before, after) {
    if (name !~ /^[A-Za-z]/) { gsub(/◌/, "", name); return index(words, name) }
    while (at = index(words, name)) {
        before = at == 1 ? " " : substr(words, at - 1, 1)
        after = substr(words, at + length(name), 1)
        if (before !~ /[A-Za-z0-9_'-]/ && after !~ /[A-Za-z0-9_'-]/) return 1
        words = substr(words, at + length(name))
    }
    return 0
}

# What the names in a file's definitions stand for: its imports, of those names alone.
function sources(from, words,    i, k, n, names, pair, kept) {
    for (i = 1; i <= imports[from]; i++) {
        n = split(brings[from, i], names, /, */)
        kept = ""
        for (k = 1; k <= n; k++)
            if (has(words, names[k] ~ / as / ? substr(names[k], index(names[k], " as ") + 4) : names[k])) kept = kept (kept == "" ? "" : ", ") names[k]
        if (kept != "") print "use " imported[from, i] ".{" kept "}"
    }
}

# Prints what is gathered of one file.
function told(path, from, words) {
    if (words == "") return
    print "## " path
    if (from != "") sources(from, words)
    if (from != "") print ""
    printf "%s", words
}

function layer(    i, pair, path, from, words) {
    for (i = 1; i <= number; i++) {
        split(declarations[i], pair, SUBSEP)
        if (!(("R/" pair[1] "/" pair[2]) in reached)) continue
        if (place[pair[1], pair[2]] != path) { told(path, "", words); words = ""; path = place[pair[1], pair[2]] }
        words = words rust[pair[1], pair[2]] "\n"
    }
    told(path, "", words)
    words = ""
    for (i = 1; i <= count; i++) {
        split(defined[i], pair, SUBSEP)
        if (!(("D/" pair[1] "/" pair[2]) in reached)) continue
        if (pair[1] != from) { told(path_of[from], from, words); words = ""; from = pair[1] }
        words = words text[pair[1], pair[2]] "\n"
    }
    told(path_of[from], from, words)
}

function unheld(    to, path, crate) {
    laws()
    for (to in noted) {
        if (to !~ /^contract/) continue
        path = to
        sub(/^contract/, "", path)
        sub(SUBSEP, "", path)
        if (path !~ /^D\//) continue
        crate = substr(path, 3)
        sub(/\/.*$/, "", crate)
        if (crate in known && !((crate, path) in noted)) print substr(path, 3)
    }
}

END {
    if (!contracts) fail("no exported function")
    for (i = 1; i <= contracts; i++) {
        at = index(contract[i], " ensures ")
        if (!at) { fail("an exported function without an ensures in " exporter[i]); continue }
        signature = substr(contract[i], 1, at)
        sub(/^ *pub extern "C" fn/, "", signature)
        follow_code(signature, exporter[i], 0)
        follow(substr(contract[i], at), exporter[i], ask == "laws" ? "contract" : "", 1)
    }
    if (ask == "laws") unheld()
    else layer()
    exit failed
}
