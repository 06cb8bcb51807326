# The rows of the table of stack sizes in docs/LINKING.md. Part of boundary/test and boundary/words.
# shellcheck shell=bash disable=SC2016 # the backquotes are those of the document

# The rows, in the order of the calls: call, bytes measured, bytes to take.
stack_rows() {
    sed -n 's/^| `timed_network_\([a-z_]*\)` | \([0-9,]*\) | \([0-9,]*\) |$/\1 \2 \3/p' docs/LINKING.md | tr -d ,
}

# The bytes to take for a number measured: the next thousand that leaves one per cent, or for a small number twice as many.
enough() {
    if (($1 < 1000)); then echo $((($1 * 2 + 199) / 100 * 100)); else echo $((($1 + $1 / 100 + 999) / 1000 * 1000)); fi
}

# A number with a comma before its last three digits.
grouped() {
    sed -E 's/([0-9]+)([0-9]{3})$/\1,\2/' <<<"$1"
}

# Renews the rows of the calls that are measured, a line each: call, bytes.
renewed() {
    local call bytes row
    while read -r call bytes; do
        row="| \`timed_network_$call\` | $(grouped "$bytes") | $(grouped "$(enough "$bytes")") |"
        sed -i "s/^| \`timed_network_$call\` | [0-9,]* | [0-9,]* |\$/$row/" docs/LINKING.md
        echo "$row"
    done
}
