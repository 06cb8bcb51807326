# The retargeted modules: each differs from the module in the lines of the five rules alone, and a module that they were not made for is refused.
# Part of node/test.
# shellcheck shell=bash
# shellcheck disable=SC2154 # node/test sets out and fact

module=target/node/timed_node.ll

# Whether a line that was changed is of the five rules: `diff` pairs the lines, and the new one with the rule undone has to be the old one.
undone() {
    sed -E -e 's/^target triple = .*/target triple = "x86_64-unknown-linux-gnu"/' \
        -e "s/^target datalayout = .*/$(grep '^target datalayout' $module | sed 's/[\/&]/\\&/g')/" \
        -e 's/^attributes #0 = \{ nounwind \}$/attributes #0 = { nounwind "probe-stack"="inline-asm" "stack-probe-size"="3072" "target-cpu"="x86-64" }/' \
        -e 's/llvm\.(memmove\.p0|memset)\.p0\.i32\((.*), i32( [0-9]+|), i1 /llvm.\1.p0.i64(\2, i64\3, i1 /' "$1" | cmp -s - $module
}

# Whether as many lines were changed as there are of the rules, and each is one of them.
changed_alone() {
    diff $module "$1" | grep '^[<>]' >"$out/changes" || true
    local lines moves
    lines=$(grep -c '^<' "$out/changes")
    moves=$(grep -c '  call void @llvm\.mem\(move\|set\)\.' $module)
    test "$lines" = $((moves + 5)) && test "$(grep -c '^>' "$out/changes")" = "$lines" &&
        ! grep -v -q -E '^. (target (triple|datalayout) = |attributes #0 = |declare void @llvm\.mem(move|set)\.|  call void @llvm\.mem(move|set)\.)' "$out/changes"
}
while read -r name triple cpu; do
    [[ $name != '#'* ]] || continue
    fact "the module for $name is not the module with five rules" undone "target/node/$name.ll"
    fact "the module for $name differs in other lines" changed_alone "target/node/$name.ll"
    fact "$triple ($cpu) is not the target of the module for $name" grep -q "^target triple = \"${triple%%-*}" "target/node/$name.ll"
done <node/proved/processors.txt
fact "a changed module is not seen" eval '! undone <(sed "s/icmp ult i64/icmp ule i64/" target/node/cortex-m3.ll)'

# Whether retarget refuses a module, and writes none: an edit of the module with which it is another one.
refuses() {
    sed -E "$1" $module >"$out/other.ll"
    ! cmp -s $module "$out/other.ll" && ! bash node/proved/retarget "$out/other.ll" thumbv7m-none-eabi cortex-m3 "$out/other.out" 2>"$out/refused" &&
        [[ ! -e $out/other.out && -s $out/refused ]]
}
while IFS='|' read -r edit what; do
    fact "retarget takes $what" refuses "$edit"
done <<'EDITS'
0,/zext i1 (%[a-z0-9]+) to i8/s//ptrtoint ptr \1 to i64/|a number made of a pointer
0,/zext i1 (%[a-z0-9]+) to i8/s//inttoptr i64 \1 to ptr/|a pointer made of a number
0,/alloca i8/s//alloca i128/|a number of 128 bits
0,/alloca i8/s//alloca { i8, i64 }/|a struct of LLVM's
0,/getelementptr i8/s//getelementptr i64/|steps of another width
0,/load ptr, ptr/s//load ptr, ptr addrspace(1)/|another address space
0,/(memmove.*), i64 [0-9]+, i1 false/s//\1, i64 %a9, i1 false/|a length that is not written out
0,/i1 false\)/s//i1 true)/|a volatile copy
0,/call void @llvm.memmove/s//call void @llvm.memcpy/|another function of LLVM's
0,/call void @"[a-z_:]+"/s//call void @malloc/|a function from outside
0,/nounwind "probe-stack"/s//nounwind "target-features"="+sse2" "probe-stack"/|a third attribute that names x86
s/^source_filename.*/&\n@state = global i64 0/|a global
s/^source_filename.*/&\ndeclare i32 @puts(ptr)/|a declaration
s/^source_filename.*/&\nmodule asm "nop"/|assembler text
0,/= add( nuw)?( nsw)? i[0-9]+/s//= fadd double/|numbers with a point
s/^target triple.*/target triple = "aarch64-unknown-linux-gnu"/|a module of another processor
s/^target datalayout = "e/target datalayout = "E/|a module with the highest byte first
/^declare.*memmove/d|a module without its memmove
0,/(memset.*), i8 0, /s//\1, i8 1, /|bytes set to anything but 0
/^declare.*memset/d|a module without its memset
EDITS

# What is made twice is the same: the objects' bytes hang on the sources and the kit alone.
bash node/proved/objects $module $out/again
for object in target/node/*.o; do
    fact "${object##*/} is another one when made again" cmp -s "$object" "$out/again/${object##*/}"
done
