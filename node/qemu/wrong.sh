# Modules for a Cortex-M3 that are wrong in one place: each has to be found by the calls or the network of some table. Part of node/test_qemu.
# shellcheck shell=bash
# shellcheck disable=SC2154 # node/test_qemu sets out and its functions

# The module with an edit of one function alone: the function, the edit, the file.
edited() {
    sed -E "/^define [^@]*@\"?$1\"?\(/,/^}/$2" target/node/cortex-m3.ll >"$3"
    ! cmp -s target/node/cortex-m3.ll "$3"
}

# Whether a wrong module is found on one of these tables.
is_found() {
    local table
    "$clang" --no-default-config --target=thumbv7m-none-eabi -mcpu=cortex-m3 -ffunction-sections -Os -c -x ir $out/wrong.ll -o $out/wrong.o
    for table in probe_and_hub accepted_limits accepted_counter_chooses_edge accepted_two_bands; do
        $out/host parts "corpus/$table.bin" >$out/parts.h
        $out/host events "corpus/$table.bin" >$out/events.expected
        firmware $out/wrong.elf cortex-m3 $out/wrong.o node/qemu/events_bare.c node/qemu/events.c
        runs $out/wrong.elf cortex-m3 >$out/events.found
        cmp -s $out/events.expected $out/events.found || return 0
    done
    return 1
}
wrong=0
while IFS='|' read -r what function edit; do
    wrong=$((wrong + 1))
    edited "$function" "$edit" $out/wrong.ll || differs "no such place in the module: $what"
    is_found || differs "a wrong module is not found: $what"
done <<'EDITS'
a read one byte past the end|node::byte_at|s/icmp ult i64/icmp ule i64/
take for choose|node::finish|s/icmp eq i8 (%r[0-9]+), 16/icmp eq i8 \1, 17/
clocks half as wide|node::clock_at|s/mul nuw i64 (%r[0-9]+), 8/mul nuw i64 \1, 4/
a copy too short|timed_node::timed_node_happened|s/i32 112, i1 false/i32 104, i1 false/
a sign lost|node::wide32|s/sext/zext/
late a tick generous|node_events::when|s/icmp ult i64/icmp ule i64/
a field misplaced|node::take_edge|s/i64 66$/i64 64/
EDITS
echo "wrong modules: $wrong tried"
