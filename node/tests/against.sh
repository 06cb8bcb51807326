# Networks of nodes against the library, over the corpus and the tables of the vectors, without and with the sanitizers; and nodes whose C is
# wrong, which have to be found. Part of node/test.
# shellcheck shell=bash
# shellcheck disable=SC2154 # node/test sets out and fact

for table in corpus/*.bin; do
    od -A n -v -t x1 "$table" | tr -d ' \n'
    echo
done >"$out/tables.hex"
corpus=$(wc -l <"$out/tables.hex")
cat vectors/*.tsv | tr '\t :|' '\n' | grep -x -E '0[123][0-9a-f]+' | awk 'length($0) > 13 && length($0) <= 16384' | sort -u >>"$out/tables.hex"

cases=(node/tests/{main,runs,wrong,damaged,rest}.c)
archives=(target/staticlib/libtimed_network.a target/staticlib/libtimed_node.a)
warned=(-Wall -Wextra -Wpedantic -Werror -Inode -Iinclude)
sanitized=(-O1 -g -fsanitize=address,undefined -fno-sanitize-recover=undefined)
cc -std=c99 -O2 "${warned[@]}" -ffreestanding -Dmemcpy=own_memcpy -Dmemset=own_memset -c node/memory.c -o "$out/own_memory.o"
compiled=("$out/own_memory.o")
for file in "${cases[@]}"; do
    compiled+=("$out/$(basename "$file" .c).o")
    cc -std=c99 -O2 "${warned[@]}" -c "$file" -o "${compiled[-1]}"
done
cc -std=c99 -O2 "${warned[@]}" -o "$out/against" "${compiled[@]}" node/timed_node.c "${archives[@]}"
cc -std=c99 "${warned[@]}" "${sanitized[@]}" -ffreestanding -Dmemcpy=own_memcpy -Dmemset=own_memset -c node/memory.c -o "$out/own_memory_sanitized.o"
cc -std=c99 "${warned[@]}" "${sanitized[@]}" -o "$out/against_sanitized" "${cases[@]}" node/timed_node.c "$out/own_memory_sanitized.o" "${archives[@]}"

# Whether a trial of the tables finds no difference, and tried enough: the program, its words. It prints what it counted.
agrees() {
    "$@" <"$out/tables.hex" >"$out/said" || {
        cat "$out/said"
        return 1
    }
    cat "$out/said"
    grep -q -E ' 0 differences$' "$out/said"
}
fact "the nodes differ from the library" agrees "$out/against" 4 10
fact "not every kind of call was tried" test -z "$(grep -E '(^| )0 (runs|accepted|at|observations|messages|timeouts|early|late|unexpected|past|damaged|refused|nodes)' "$out/said")"
fact "the nodes differ from the library, with the sanitizers" agrees "$out/against_sanitized" 2 2
fact "the tables are not there" test "$corpus" -gt 200 -a "$(wc -l <"$out/tables.hex")" -gt 1000

# A node whose C is wrong is found: each edit of timed_node.c, on the tables of the corpus alone.
head -n "$corpus" "$out/tables.hex" >"$out/corpus.hex"
finds() {
    sed "$1" node/timed_node.c >"$out/changed/timed_node.c"
    ! cmp -s node/timed_node.c "$out/changed/timed_node.c" || return 1
    cp node/timed_node*.h "$out/changed"
    cc -std=c99 -O1 -w -I"$out/changed" -Iinclude -o "$out/against_wrong" "${compiled[@]}" "$out/changed/timed_node.c" "${archives[@]}"
    ! timeout 20 "$out/against_wrong" 2 2 <"$out/corpus.hex" >"$out/said" 2>&1
}
while IFS='|' read -r edit what; do
    fact "a wrong node is not found: $what" finds "$edit"
done <<'EDITS'
s/until_of(node) >= node->horizon/until_of(node) > node->horizon/|a dead end at the horizon
s/registers.t >= node->horizon/registers.t > node->horizon/|a sleep at the horizon
s/now >= node->horizon/now > node->horizon/|a call at the horizon
s/while (count < 4/while (count < 3/|three clocks at most
s/(uint32_t)(r->clocks\[i\] + r->n)/(uint32_t)r->clocks[i]/|a clock without the wait
s/ahead < 0x80000000u/ahead < 0x80u/|ticks far ahead
s/(uint32_t)node->running.finished/(uint32_t)r->t/|another finish tick
s/return stop(node, TIMED_NODE_LATE)/return TIMED_NODE_LATE/|late is not the last
s/0xedb88320u/0x82f63b78u/|another checksum
EDITS
