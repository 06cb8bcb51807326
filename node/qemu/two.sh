# The worked example on two emulated Cortex-M3, a node each with main_loop.c and board.c, joined by their serial lines, with ticks of 100 ms in real
# time. Part of node/test_qemu.
# shellcheck shell=bash
# shellcheck disable=SC2154 # node/test_qemu sets out and its functions

./vanillatarn translate corpus/probe_and_hub.bin -o $out/two.program
$out/host early corpus/probe_and_hub.bin | grep -v '^over' | sort >$out/two.expected
for node in 0 1; do
    ./vanillatarn part --c $out/two.program $node -o $out/part.h
    firmware "$out/two$node.elf" cortex-m3 target/node/cortex-m3.o node/main_loop.c node/qemu/board.c node/timed_node.c
done
rm -f $out/radio
for node in 1 0; do
    serial="socket,id=radio,path=$out/radio"
    [[ $node == 0 ]] || serial+=",server=on,wait=on"
    timeout 60 qemu-system-arm -nographic -monitor none -chardev "$serial" -serial chardev:radio -semihosting-config enable=on,target=native \
        -M mps2-an385 -kernel "$out/two$node.elf" </dev/null >"$out/two$node.found" 2>&1 &
    sleep 1
done
wait
cmp -s $out/two.expected <(cat $out/two0.found $out/two1.found | grep -x -E '[0-9a-f]{72}' | sort) || differs "two processors in real time"
echo "two processors in real time: $(wc -l <$out/two.expected) observations"
