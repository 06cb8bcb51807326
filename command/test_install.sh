# `vanillatarn install`, in a folder with a blank in its name. Part of test.sh.
# shellcheck shell=bash
# shellcheck disable=SC2034,SC2154 # test.sh sets root, work and corpus, and looks at what and status

prefix="$work/a new/pre fix"
call install 'a new/pre fix'
says 0
printf 'installed in %s\n' "$prefix" >expected
gives expected
for file in bin/vanillatarn lib/libtimed_network{,_words}.a include/timed_network{,_text,_words}.h lib/pkgconfig/timed_network{,_words}.pc \
    share/vanillatarn/cellar.txt share/vanillatarn/accident.txt share/doc/vanillatarn/TUTORIAL.md share/doc/vanillatarn/LICENSE \
    share/doc/vanillatarn/NODE.md lib/libtimed_node.a lib/timed_node/{cortex-m0,cortex-m3,cortex-m33,rv32}.o \
    share/vanillatarn/node/{timed_node.h,timed_node_calls.h,timed_node.c,main_loop.c,memory.c,board.h} \
    share/man/man1/vanillatarn.1 share/bash-completion/completions/vanillatarn share/zsh/site-functions/_vanillatarn; do
    check "there is $file" test -s "$prefix/$file"
done
for file in libtimed_network.a libtimed_network_words.a; do
    check "$file is the one that was built" cmp -s "$prefix/lib/$file" "$root/target/staticlib/$file"
done
call man
check 'the manual page is the one that is told' cmp -s out "$prefix/share/man/man1/vanillatarn.1"
for shell in bash:bash-completion/completions/vanillatarn zsh:zsh/site-functions/_vanillatarn; do
    call completion "${shell%%:*}"
    check "the completion for ${shell%%:*} is the one that is told" cmp -s out "$prefix/share/${shell#*:}"
done

# Every program that the command asks for is among those installed, and no other.
grep -o -E 'Text::[A-Za-z]+ => "[a-z_]+"' "$root/rust/vanillatarn/src/words.rs" | cut -d '"' -f 2 | sort -u >asked
for name in $(<asked); do
    check "$name is installed" test -x "$prefix/libexec/vanillatarn/programs/$name"
done
check 'no other is' test "$(ls "$prefix/libexec/vanillatarn/programs")" = "$(<asked)"
check 'programs are asked for' test "$(wc -l <asked)" -eq 7

# The installed command, with no tool at all: neither rt nor cargo nor git nor bash.
mkdir -p "$work/plain tools"
call_installed() {
    what="installed: vanillatarn $*" status=0
    PATH="$work/plain tools" "$prefix/bin/vanillatarn" "$@" >out 2>err || status=$?
}

# A call of both commands gives the same.
same() {
    local expected
    call "$@"
    cp out expected_out
    cp err expected_err
    expected=$status
    call_installed "$@"
    says "$expected"
    check 'standard output is that of the repository' cmp -s expected_out out
    check 'standard error is that of the repository' cmp -s expected_err err
}

try_installed() {
    same verdict "$prefix/share/vanillatarn/cellar.txt" cellar.bin incident.txt program.bin
    same verdict --json "$prefix/share/vanillatarn/accident.txt"
    same verdict --spread 1 cellar.bin
    same spread "$prefix/share/vanillatarn/wide.txt"
    same schedule cellar.txt
    same chart cellar.bin
    same chart incident.bin --svg -
    same translate cellar.bin
    same list program.bin
    same part program.bin 1
    same part --c program.bin 1
    same choices --late cellar.bin
    same run cellar.bin early.bin
    same choices --offsets 2,0 wide.txt
    same run --spread 2 --offsets 2,0 wide.txt apart.choices
    same run --offsets 2,0 wide.txt apart.choices
    same text cellar.bin
    same table cellar.txt
    same schedule fault.txt
    same run --help
}
try_installed
call_installed --version
says 0
starts "vanillatarn $(cat "$root/VERSION")"
check 'it tells the commit and rt of its making' test "$(grep -c -E '^(commit|rt): .' out)" -eq 2
"$root/vanillatarn" --version >expected
check 'which are those of the repository' cmp -s expected out

# It never builds: newer sources are none of its, and what is missing is told.
call_installed install elsewhere
says 2
complains 'an installed command installs nothing'
mv "$prefix/libexec/vanillatarn/programs/schedule_printer" "$work/taken away"
call_installed schedule cellar.bin
says 3
complains 'schedule_printer is missing in '
complains 'install vanillatarn once more'
mkdir -p "$prefix/libexec/vanillatarn/left over"
call install "$prefix"
says 0
check 'what was left over is gone' test ! -e "$prefix/libexec/vanillatarn/left over"
call_installed schedule cellar.bin
says 0

# The folder can be moved; it is used by a link, and from another folder.
mv "$prefix" "$work/moved there"
prefix="$work/moved there"
try_installed
mkdir -p 'link folder' 'another folder'
ln -s "$prefix/bin/vanillatarn" 'link folder/vanillatarn'
what='the installed command by a link' status=0
(cd 'another folder' && PATH="$work/link folder:$work/plain tools" vanillatarn verdict ../cellar.bin) >out 2>err || status=$?
says 0
starts accepted

# The library as pkg-config finds it.
if command -v pkg-config >/dev/null && command -v cc >/dev/null; then
    what='a program in C over the installed library' status=0
    # The words of pkg-config are quoted for a shell.
    eval "cc -o network '$root/examples/c/network.c' $(PKG_CONFIG_PATH="$prefix/lib/pkgconfig" pkg-config --cflags --libs timed_network)" \
        >out 2>err || status=$?
    says 0
    ./network cellar.bin early.bin >out 2>err || status=$?
    says 0
    starts accepted
    what='the words of the installed header'
    eval "cc -o words '$root/examples/c/words.c' $(PKG_CONFIG_PATH="$prefix/lib/pkgconfig" pkg-config --cflags timed_network)" \
        >out 2>err || status=$?
    says 0
    ./words 1 >out 2>err || status=$?
    says 0
    starts 'Is the first byte 1, 2 or 3?'
    PKG_CONFIG_PATH="$prefix/lib/pkgconfig" pkg-config --modversion timed_network >out
    check 'the version is that of the file' cmp -s out "$root/VERSION"
    what='a program in C over both installed libraries'
    eval "cc -o verdict '$root/examples/c/verdict.c' $(PKG_CONFIG_PATH="$prefix/lib/pkgconfig" pkg-config --cflags --libs timed_network_words timed_network)" \
        >out 2>err || status=$?
    says 0
    ./verdict cellar.bin >out 2>err || status=$?
    says 0
    starts accepted
fi

# A node's firmware of the installed files alone: here for this machine, with the board of docs/NODE.md, which does nothing but wait.
if command -v cc >/dev/null; then
    what='a node of the installed files' status=0
    call_installed part --c program.bin 0 -o part.h
    says 0
    sed -n '/^    #include <stdio.h>$/,/^    void application_work/s/^    //p' "$prefix/share/doc/vanillatarn/NODE.md" >board.c
    cc -std=c99 -I. -I"$prefix/share/vanillatarn/node" -o probe board.c "$prefix"/share/vanillatarn/node/{main_loop,timed_node}.c \
        "$prefix/lib/libtimed_node.a" >out 2>err || status=$?
    says 0
    ./probe >out 2>err || status=$?
    says 0
    # The probe of the worked example: its sends from tick 3 and 13, its other edge from 8 and 18 (corpus/probe_and_hub.schedule).
    printf 'tick %d edge %d\n' 3 0 8 1 13 0 18 1 >expected
    check 'it wakes at its ticks' cmp -s expected <(grep '^tick' out)
    check 'it goes to its horizon' grep -q '^answer 3 ' out
fi

# Folders that cannot be.
for file in cellar.bin cellar.bin/below /proc/absent; do
    call install "$file"
    says 2
    complains "$file: is no folder and cannot be made one"
done
call install
says 2
complains 'PREFIX is missing'
mkdir -p 'half full'
: >'half full/include'
call install 'half full'
says 3
complains "half full/include cannot be written"
