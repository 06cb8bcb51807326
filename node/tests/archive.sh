# The archive for this machine and the headers, as they are shipped. Part of node/test.
# shellcheck shell=bash
# shellcheck disable=SC2154 # node/test sets out and fact

archive=target/staticlib/libtimed_node.a
exported='timed_node_begun timed_node_happened timed_node_listens'
fact "the archive exports something else" test "$(nm -g --defined-only $archive | awk 'NF == 3 { print $2 $3 }' | sort | xargs)" = "T${exported// / T}"
fact "the archive needs something else than memcpy and memset" test -z "$(nm -u $archive | awk 'NF == 2 && $2 !~ /^mem(cpy|set)$/')"
fact "the archive has data that can be written" test -z "$(written $archive)"
for object in target/node/*.o; do
    fact "${object##*/} exports something else" test "$(nm -g --defined-only "$object" | awk 'NF == 3 { print $2 $3 }' | sort | xargs)" = "T${exported// / T}"
done
fact "the source exports other names" test "$(sed -n 's/^pub extern "C" fn \([a-z_]*\).*/\1/p' crates/timed_node/src/lib.rt | sort | xargs)" = "$exported"

# The header of the calls declares these three, and each name of both headers has its prefix.
declared() {
    sed '/^#include/d' "$1" | cc -E -P -x c - | awk -f examples/names.awk | grep -v -x -E 'function (offsetof|sizeof)'
}
fact "the header declares other calls" test "$(declared node/timed_node_calls.h | sed -n 's/^function //p' | sort | xargs)" = "$exported"
for header in node/timed_node_calls.h node/timed_node.h; do
    declared $header >"$out/names"
    fact "$header has a name without its prefix" test -z "$(grep -v -E '^((type|function) timed_node_?[a-z_]*|constant TIMED_NODE_[A-Z_]+)$' "$out/names")"
    fact "$header declares nothing" grep -q '^type timed_node' "$out/names"
done
fact "what timed_node.h declares is not in timed_node.c" test "$(declared node/timed_node.h | sed -n 's/^function //p' | sort | xargs)" = \
    "$(cc -ffreestanding -c -Inode node/timed_node.c -o "$out/timed_node.o" && nm --defined-only "$out/timed_node.o" | awk '$2 == "T" { print $3 }' | sort | xargs)"

# The registers of the library's header are those of the node's: the same places.
cat >"$out/registers.c" <<'C'
#include "timed_network.h"
#include "timed_node_calls.h"
#define SAME(field) typedef char field##_is_the_same[offsetof(timed_network_node_registers, field) == offsetof(timed_node_registers, field) ? 1 : -1]
SAME(pc); SAME(location); SAME(clocks); SAME(values); SAME(t); SAME(n); SAME(d); SAME(edge); SAME(taken); SAME(goes); SAME(tried); SAME(kept); SAME(sleeps);
typedef char size_is_the_same[sizeof(timed_network_node_registers) == sizeof(timed_node_registers) ? 1 : -1];
C
fact "the registers lie elsewhere than those of the library" cc -std=c99 -Inode -Iinclude -fsyntax-only "$out/registers.c"
