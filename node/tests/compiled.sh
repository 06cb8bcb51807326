# The C by each compiler and in both languages, and how large it is with the proved code on small processors. Part of node/test.
# shellcheck shell=bash
# shellcheck disable=SC2154 # node/test sets out, clang and fact; node/proved/processors.txt has the processors

strict=(-ffreestanding -Wall -Wextra -Wpedantic -Wconversion -Wshadow -Werror -O2)
# The kit's clang has no headers of its own: the three that are freestanding are gcc's.
headers=(-nostdinc -isystem "$(cc -print-file-name=include)")

# The main loop includes a part; here one as `vanillatarn part --c` writes it.
mkdir -p "$out/part"
cat >"$out/part/part.h" <<'PART'
#include <stdint.h>
#define TIMED_NODE_PART_NUMBER 0
#define TIMED_NODE_PART_LENGTH 6
#define TIMED_NODE_PART_HORIZON 20
#define TIMED_NODE_PART_CHECKSUM 0x12345678u
static const uint8_t timed_node_part[TIMED_NODE_PART_LENGTH] = {0, 6, 1, 1, 0, 0};
PART

# Whether a file compiles: the file, the compiler with its words.
compiles() {
    "${@:2}" "${strict[@]}" -Inode -I"$out/part" -c "$1" -o "$out/compiled.o"
}
for file in node/timed_node.c node/memory.c node/main_loop.c; do
    fact "$file is not C99 for gcc" compiles $file cc -std=c99
    fact "$file is not C++98 for gcc" compiles $file g++ -x c++ -std=c++98
    fact "$file is not C99 for clang" compiles $file "$clang" --no-default-config "${headers[@]}" -std=c99
    fact "$file is not C++98 for clang" compiles $file "$clang" --no-default-config "${headers[@]}" -x c++ -std=c++98
done

# Where fields lie elsewhere the header is refused: by the names of its own tests of places.
refused_by_places() {
    ! "$@" -Inode -fsyntax-only node/timed_node.c 2>"$out/refused" && grep -q 'timed_node_[a-z_]*_\(at\|size\)' "$out/refused"
}
fact "packed structs are not seen" refused_by_places cc -std=c99 -fpack-struct
fact "64-bit numbers aligned to 4 are not seen" refused_by_places "$clang" --no-default-config --target=i386-unknown-linux-gnu -ffreestanding "${headers[@]}" -std=c99
mkdir -p "$out/changed"
for edit in 's/uint16_t n;/uint32_t n;/' 's/int16_t values\[4\]/int16_t values[5]/' 's/    uint64_t finished;/    uint32_t finished;/'; do
    sed "$edit" node/timed_node_calls.h >"$out/changed/timed_node_calls.h"
    cp node/timed_node.h node/timed_node.c "$out/changed"
    fact "another field is not seen: $edit" eval '! cmp -s node/timed_node_calls.h "$out/changed/timed_node_calls.h" && (cd "$out/changed" && ! cc -std=c99 -fsyntax-only timed_node.c 2>../refused) && grep -q "timed_node_[a-z_]*_\(at\|size\)" "$out/refused"'
done

# The bytes of code and constants of object files.
code() {
    local file
    for file; do
        readelf -SW "$file"
    done | sed -n 's/^ *\[ *[0-9]*\] //p' | awk '$2 == "PROGBITS" && $(NF - 3) ~ /A/ { print "0x" $(NF - 5) }' | while read -r size; do echo $((size)); done |
        awk '{ sum += $1 } END { print sum + 0 }'
}

# The bytes of data that can be written.
written() {
    local file
    for file; do
        readelf -SW "$file"
    done | sed -n 's/^ *\[ *[0-9]*\] //p' | awk '$(NF - 3) ~ /W/ && $(NF - 5) !~ /^0+$/'
}

# The C for a processor by the kit's clang, with the proved code: the most bytes that it may have. A node has 128 bytes.
echo 'typedef char size_of_a_node[sizeof(timed_node) == 128 ? 1 : -1];' | cat node/timed_node.h - >"$out/node_size.h"
sizes=''
while read -r name triple cpu most; do
    target=("$clang" --no-default-config --target="$triple" -mcpu="$cpu" "${headers[@]}" -std=c99 "${strict[@]}" -Os -ffunction-sections -Inode)
    "${target[@]}" -c node/timed_node.c -o "$out/$name.timed_node.o"
    "${target[@]}" -c node/memory.c -o "$out/$name.memory.o"
    objects=(target/node/"$name".o "$out/$name".{timed_node,memory}.o)
    size=$(code "${objects[@]}")
    sizes+="$name $size, "
    fact "the code for $name has $size bytes, more than $most" test "$size" -gt 0 -a "$size" -le "$most"
    fact "the code for $name has data that can be written" test -z "$(written "${objects[@]}")"
    fact "a node on $name has not 128 bytes" "${target[@]}" -fsyntax-only -x c "$out/node_size.h"
    # All that is asked for is there, and nothing of a library.
    fact "the code for $name needs something else" test -z "$(comm -23 <(nm -u "${objects[@]}" | awk 'NF == 2 { print $2 }' | sort -u) <(nm --defined-only "${objects[@]}" | awk 'NF == 3 { print $3 }' | sort -u))"
done < <(join <(grep -v '^#' node/proved/processors.txt | sort) <(printf '%s\n' 'cortex-m0 6500' 'cortex-m3 5000' 'cortex-m33 5000' 'rv32 9500' | sort))
fact "not four processors" test "$(tr -cd , <<<"$sizes")" = ,,,,
echo "code of a node, -Os, in bytes: ${sizes%, }"
