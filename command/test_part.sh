# `vanillatarn part --c`: the part as C. Its bytes are those of `part`, its checksum that of gzip, its counts those of the table; and a
# firmware's C takes it. Part of test.sh.
# shellcheck shell=bash
# shellcheck disable=SC2034,SC2154 # test.sh sets root, work and corpus, and looks at what and status

# A number of a byte, and of two, of a file: the place.
byte_at() {
    od -A n -t u1 -j "$2" -N 1 "$1" | tr -d ' '
}
two_at() {
    echo $((256 * $(byte_at "$1" "$2") + $(byte_at "$1" $(($2 + 1)))))
}

# The bytes of the array, and the checksum that gzip writes behind what it packs, lowest byte first.
array_bytes() {
    sed -n 's/^    \(0x.*,\)$/\1/p' "$1" | tr -d ' \n' | sed 's/0x//g; s/,//g'
}
gzip_checksum() {
    gzip -c <"$1" | tail -c 8 | od -A n -t x1 -N 4 | awk '{ print "0x" $4 $3 $2 $1 "u" }'
}
constant_of() {
    sed -n "s/^#define TIMED_NODE_PART_$2 //p" "$1"
}

# One part of a table's program: the table, the node, the place of its component in the table.
part_as_c() {
    local table=$1 node=$2 place=$3
    call part --c part.program "$node"
    says 0
    cp out part.h
    "$root/vanillatarn" part part.program "$node" -o part.bytes
    check 'the bytes are those of the part' test "$(array_bytes part.h)" = "$(od -A n -v -t x1 part.bytes | tr -d ' \n')"
    check 'the checksum is that of gzip' test "$(constant_of part.h CHECKSUM)" = "$(gzip_checksum part.bytes)"
    check 'the number is that of the node' test "$(constant_of part.h NUMBER)" = "$node"
    check 'the length is that of the part' test "$(constant_of part.h LENGTH)" = "$(wc -c <part.bytes)"
    check 'the horizon is that of the table' test "$(constant_of part.h HORIZON)" = "$(two_at "$table" 5)"
    check 'the locations are those of the table' test "$(constant_of part.h LOCATIONS)" = "$(byte_at "$table" $((place + 2)))"
    check 'the clocks are those of the table' test "$(constant_of part.h CLOCKS)" = "$(byte_at "$table" $((place + 4)))"
    check 'the edges are those of the table' test "$(constant_of part.h EDGES)" = "$(byte_at "$table" $((place + 6)))"
}

for name in probe_and_hub accepted_two_bands accepted_plan_six_tanks accepted_limits; do
    table="$corpus/$name.bin"
    "$root/vanillatarn" translate "$table" -o part.program
    place=7
    (($(byte_at "$table" 0) == 1)) || place=$((7 + $(byte_at "$table" 4)))
    for ((node = 0; node < $(byte_at "$table" 3); node++)); do
        part_as_c "$table" "$node" "$place"
        place=$((place + $(two_at "$table" "$place")))
    done
done

# In a file, and for a compiler: both languages, and with the main loop of a node.
"$root/vanillatarn" translate cellar.bin -o part.program
call part --c part.program 1
cp out expected
call part part.program 1 --c -o part.h
says 0
gives empty
check 'the file is what standard output gets' cmp -s part.h expected
if command -v cc >/dev/null && command -v g++ >/dev/null; then
    strict=(-ffreestanding -Wall -Wextra -Wpedantic -Wconversion -Wshadow -Werror -I. -I"$root/node")
    check 'it is C99' cc -std=c99 "${strict[@]}" -c "$root/node/main_loop.c" -o part.o
    check 'it is C++98' g++ -x c++ -std=c++98 "${strict[@]}" -c "$root/node/main_loop.c" -o part.o
fi

# What has no part, or a damaged one.
call part --c part.program 2
says 1
complains 'part.program: the program has no part for node 2'
{ head -c 202 part.program; printf '\023\000\000\000'; tail -c 40 part.program; } >part.damaged
cp kept old
call part --c part.damaged 1 -o old
says 1
complains 'part.damaged: the part of node 1 is damaged'
check 'the file of -o is as it was' cmp -s kept old
call part --c part.damaged 0
says 0
misuses <<'TEXT'
part --c part.program|NODE is missing
part --c=yes part.program 0|--c takes no word
list --c part.program|'list' has no option --c
TEXT
unwritable 'part --c part.program 0'
