# The example that tells where a table is refused, held to vectors/places.tsv. Part of examples/test, behind header.sh, which has the questions
# in $out/questions.
# shellcheck shell=bash
# shellcheck disable=SC2034,SC2154 # examples/test sets out, outputs and failed

kinds=('' length 'first 7 bytes' location 'first 7 bytes' 'clock bound' 'data bound' update channel pair end "table's end" budget)

# What is wrong at a place, in the words of the example: the twelve numbers of the vectors.
fault_words() {
    local number=$1 width=$8 value=$9 least=${10} limit=${11} unbounded=${12}
    case $number:$width:$((value < least)) in
    6:*) echo "$value stands in an earlier pair" ;;
    4:0:1) echo "$value bytes are there, and $least are needed" ;;
    4:0:0) echo "$value bytes are left over" ;;
    *) if [ "$least" = "$limit" ]; then
        echo "$value, and none is allowed"
    elif [ "$unbounded" = 1 ]; then
        echo "$value, and $least to $((limit - 1)) are allowed, or 65535"
    else
        echo "$value, and $least to $((limit - 1)) are allowed"
    fi ;;
    esac
}

# The whole output for a table that is refused at such a place.
place_words() {
    local edge='' index=''
    [ "$4" = - ] || edge="edge $4, "
    [ "$5" = - ] || index=" $5"
    echo "refused $1 $2"
    sed -n "$(($1 + 1))p" "$out/questions"
    echo "component $2, $edge${kinds[$3]}$index, byte $(($6 + $7)): $(fault_words "$@")"
}

# The same for a table that is refused at such an opening: the twelve words of the vectors.
opening_words() {
    echo "refused $1 $2"
    sed -n "$(($1 + 1))p" "$out/questions"
    echo "component $2 enters location $5 at tick $4, passage $3"
    [ "$1" != 8 ] || echo "edges that leave it: $8; a data bound fails: $9; the window is too short: ${10}"
    [ "$1" != 9 ] || echo "edge ${11} is taken, and its update ${12} leaves the range"
}

# Holds the output of both examples for the table in $out/table to the file $out/expected.
hold_refusal() {
    local example
    for example in refusal_c refusal_cxx; do
        places=$((places + 1))
        if ! "$out/$example" "$out/table" | cmp -s "$out/expected" -; then
            echo "$example, $1: another place"
            failed=$((failed + 1))
        fi
    done
}

places=0
while IFS=$'\t' read -r name request answer; do
    [[ $answer != none ]] || continue
    bytes "${request#* }" >"$out/table"
    # shellcheck disable=SC2086 # twelve words
    "${request%% *}_words" $answer >"$out/expected"
    hold_refusal "$name"
done <vectors/places.tsv
fact "only $places outputs for refused tables were held" test $places -ge 170

# Whether no place, or no opening, is told of the table in $out/table.
none_told() {
    "$out/refusal_c" "$out/table" >"$out/said"
    case $1 in
    place) ! grep -q ', byte [0-9]*: ' "$out/said" ;;
    opening) ! grep -q ' enters location ' "$out/said" ;;
    esac
}
while IFS=$'\t' read -r name request answer; do
    [[ $answer == none ]] || continue
    bytes "${request#* }" >"$out/table"
    fact "$name: something is told" none_told "${request%% *}"
done <vectors/places.tsv
