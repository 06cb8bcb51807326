# The names that a preprocessed header declares outside of functions, a line each behind its kind: type, function, constant (an enumerator)
# or variable. A word at the end of a declaration is a type behind `typedef`; one behind struct, union or enum is one anywhere.

# What a word is, by where it stands: the word, the one before it, the one behind it.
function kind(word, before, behind) {
    if (before ~ /^(struct|union|enum)$/) return "type"
    if (braces == 1 && of_enum && behind ~ /^[=,}]$/) return "constant"
    if (braces || parens || behind !~ /^[;(=\[]$/) return ""
    if (behind == "(") return "function"
    return defining ? "type" : "variable"
}

# Cuts a line into words, strings left out, and signs.
{
    gsub(/"([^"\\]|\\.)*"/, "\"")
    while (match($0, /[A-Za-z_][A-Za-z_0-9]*|[^ \t]/)) {
        token[++tokens] = substr($0, RSTART, RLENGTH)
        $0 = substr($0, RSTART + RLENGTH)
    }
}

END {
    for (i = 1; i <= tokens; i++) {
        word = token[i]
        if (word == "typedef") defining = 1
        else if (word == "enum" && !braces) of_enum = 1
        else if (word == "{") braces++
        else if (word == "}") {
            if (--braces == 0) of_enum = 0
        } else if (word == "(") parens++
        else if (word == ")") parens--
        else if (word == ";" && !braces) defining = 0
        else if (word ~ /^[A-Za-z_]/ && (found = kind(word, token[i - 1], token[i + 1])) != "") print found, word
    }
}
