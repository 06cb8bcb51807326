# What is built on first use, tried in a root of its own with a `tools/build` that only says that it was called, and an `rt` that is never asked. Part of test.sh.
# shellcheck shell=bash
# shellcheck disable=SC2034,SC2154 # test.sh sets root and work, and looks at what and status

mkdir -p "$work/tools" "$work/tree/tools" "$work/tree/crates"/{parts,schedule_printer,other}/{src,proofs,must-fail} "$work/tree/crates/parts/specs/deep"
for name in parts schedule_printer other; do
    touch "$work/tree/crates/$name"/{src/lib.rt,proofs/Lib.antt,must-fail/fault.edit}
done
touch "$work/tree/crates/parts/specs/deep/Words.antt"
cp -r "$root/vanillatarn" "$root/command" "$work/tree"
touch -d '5 hours ago' "$work/tree/vanillatarn"
printf '# A comment.\nparts:\nschedule_printer: parts io\nother: parts\ntimed_network staticlib: parts\n' >"$work/tree/crates.txt"
for name in bash cat head wc find basename dirname readlink mktemp mkfifo rm mkdir touch grep env chmod sleep sort cp mv; do
    ln -s "$(command -v "$name")" "$work/tools/$name"
done

# Gives that root the binary, with a note of its sources that is as new as it is itself.
give_binary() {
    mkdir -p "$work/tree/rust/target/release" "$work/tree/target/command"
    cp -p "$root/rust/target/release/vanillatarn" "$work/tree/rust/target/release"
    echo vanillatarn >"$work/tree/target/command/vanillatarn"
}

# The command of that root with these tools alone.
call_there() {
    what="in an empty root: vanillatarn $*"
    status=0
    PATH="$work/tools" "$work/tree/vanillatarn" "$@" >out 2>err || status=$?
}

cp "$root/corpus/probe_and_hub.bin" cellar.bin
cp "$root/corpus/probe_and_hub.txt" cellar.txt
give_binary
call_there schedule cellar.bin
says 3
complains "schedule_printer has to be built, and 'rt' is not installed"

printf '#!/usr/bin/env bash\nexit 1\n' >"$work/tools/rt"
chmod +x "$work/tools/rt"

# A build that fails.
cat >"$work/tree/tools/build" <<'TEXT'
#!/usr/bin/env bash
echo 'a reason'
exit 1
TEXT
chmod +x "$work/tree/tools/build"
call_there schedule cellar.bin
says 3
complains 'a reason'
complains 'schedule_printer could not be built: bash tools/build parts schedule_printer'

# One that builds nothing.
printf '#!/usr/bin/env bash\n' >"$work/tree/tools/build"
call_there schedule cellar.bin
says 3
complains 'schedule_printer was not built by: bash tools/build parts schedule_printer'

# A folder that cannot be written, whoever asks: a file stands in its place.
printf '#!/usr/bin/env bash\nmkdir -p target/bin\n' >"$work/tree/tools/build"
rm -r "$work/tree/target"
: >"$work/tree/target"
mkdir -p "$work/tree/rust/vanillatarn/src"
touch "$work/tree/rust/Cargo.toml" "$work/tree/rust/Cargo.lock" "$work/tree/rust/vanillatarn/Cargo.toml" "$work/tree/VERSION"
call_there schedule cellar.bin
says 3
complains 'schedule_printer could not be built: bash tools/build parts schedule_printer'
rm "$work/tree/target"
# shellcheck disable=SC2016 # meant for the file
printf '#!/usr/bin/env bash\nmkdir -p target/bin\n: >"target/bin/${*: -1}"\n' >"$work/tree/tools/build"
mkdir "$work/tree/target"
: >"$work/tree/target/command"
call_there schedule cellar.bin
says 3
complains 'target/command cannot be written'
rm -r "$work/tree/target"
give_binary

# One that leaves a program as it is, if there is one.
cat >"$work/tree/tools/build" <<'TEXT'
#!/usr/bin/env bash
mkdir -p target/bin
echo asked >>asked
echo "rt: parts proved (unchanged since it was last proved)"
echo "rt: ${*: -1} proved (2 s)"
echo 'a detail'
[[ -e target/bin/${*: -1} ]] || printf '#!/usr/bin/env bash\necho "c e l entry"\n' >"target/bin/${*: -1}"
TEXT
call_there schedule cellar.bin
says 3
check 'a program that cannot be run is told' grep -q 'schedule_printer failed' err
chmod +x "$work/tree/target/bin/schedule_printer"
call_there schedule cellar.bin
says 0
starts 'c e l entry'
check 'nothing is built twice' test ! -s err

## When it is asked

# Makes the sources three hours old, and what was built two.
age() {
    find "$work/tree/crates" "$work/tree/crates.txt" -exec touch -d '3 hours ago' {} +
    find "$work/tree/target" -exec touch -d '2 hours ago' {} +
}

# How often it was asked.
asked() {
    wc -l <"$work/tree/asked"
}

# What has happened since the build, in words, and the command that makes it so: it is asked by the next call, and by none after it, though
# the program stays as old as it is.
asks_after() {
    age
    "${@:2}"
    : >"$work/tree/asked"
    call_there schedule cellar.bin
    says 0
    starts 'c e l entry'
    check "it is asked after: $1" test "$(asked)" -eq 1
    sed -E 's/about [0-9]+ s/about N s/' err >"$work/told"
    call_there schedule cellar.bin
    check "it is asked once after: $1" test "$(asked)" -eq 1
    check 'and nothing is said' test ! -s err
}

# The same where it has nothing to do with it.
asks_not_after() {
    age
    "${@:2}"
    : >"$work/tree/asked"
    call_there schedule cellar.bin
    says 0
    starts 'c e l entry'
    check "it is not asked after: $1" test "$(asked)" -eq 0
}

crates="$work/tree/crates" target="$work/tree/target"
asks_after 'code was changed' touch "$crates/parts/src/lib.rt"
printf 'vanillatarn: %s\n' 'building what is needed, once (about N s left); it can be stopped, and goes on where it was' '[2 of 2] schedule_printer' >"$work/expected"
check 'its progress is shown, and nothing else' cmp -s "$work/expected" "$work/told"
asks_after "the program's own code was changed" touch "$crates/schedule_printer/src/lib.rt"
asks_after 'a definition was changed' touch "$crates/parts/specs/deep/Words.antt"
asks_after 'a definition was added' touch "$crates/parts/specs/Numbers.antt"
asks_after 'a definition was taken away' rm "$crates/parts/specs/Numbers.antt"
asks_after 'the list of crates was changed' touch "$work/tree/crates.txt"
mkdir "$work/earlier"
touch -d '4 hours ago' "$work/earlier/lib.rt" "$work/earlier"
put_earlier() {
    rm -r "$crates/parts/src"
    mv "$work/earlier" "$crates/parts/src"
}
asks_after 'an older folder was put in the place of one' put_earlier
lose_note() {
    : >"$target/command/schedule_printer"
}
asks_after 'the note of its sources was lost' lose_note
asks_not_after 'nothing' true
asks_not_after 'a proof was changed' touch "$crates/parts/proofs/Lib.antt"
asks_not_after 'a proof was added' touch "$crates/parts/proofs/New.antt"
asks_not_after 'an edit that must fail was changed' touch "$crates/parts/must-fail/fault.edit"
asks_not_after 'a crate that it is not made of was changed' touch "$crates/other/src/lib.rt"

# Code that was changed an hour ago, and a program that was built by hand so many minutes ago.
build_by_hand() {
    touch -d '60 minutes ago' "$crates/parts/src/lib.rt"
    touch -d "$1 minutes ago" "$target/bin/schedule_printer"
}
asks_not_after 'code was changed, and the program was built by hand' build_by_hand 50
asks_after 'the program was built by hand, and code was changed' build_by_hand 70

# What is changed while it is at work is newer than what it has built.
cp "$work/tree/tools/build" "$work/kept"
# shellcheck disable=SC2016 # meant for the file
printf '%s\n' 'sleep 0.1; touch crates/parts/src/lib.rt; sleep 0.1; touch "target/bin/${*: -1}"' >>"$work/tree/tools/build"
age
touch "$crates/parts/src/lib.rt"
: >"$work/tree/asked"
for _ in 1 2; do
    call_there schedule cellar.bin
done
check 'it is asked again after a change during its work' test "$(asked)" -eq 2
cp "$work/kept" "$work/tree/tools/build"

# A program and the binary without the library are counted as one, and so are the library and the binary.
rm -r "$work/tree/target" "$work/tree/rust/target"
cat >"$work/tools/cargo" <<TEXT
#!/usr/bin/env bash
folder=rust/target/release
[[ \$* != *--no-default-features* ]] || folder=rust/target/early/release
mkdir -p \$folder
echo '   Compiling vanillatarn v0.1.0 (somewhere)'
cp "$root/rust/target/release/vanillatarn" \$folder
TEXT
cat >"$work/tree/tools/build" <<'TEXT'
#!/usr/bin/env bash
mkdir -p target/bin target/staticlib
echo "rt: parts proved (unchanged since it was last proved)"
case $* in
    *timed_network)
        : >target/staticlib/libtimed_network.a
        echo 'rt: target/staticlib/libtimed_network.a has 1 call'
        ;;
    *)
        echo "rt: schedule_printer proved (2 s)"
        printf '#!/usr/bin/env bash\necho "c e l entry"\n' >target/bin/schedule_printer
        chmod +x target/bin/schedule_printer
        ;;
esac
TEXT
chmod +x "$work/tools/cargo"
call_there schedule cellar.txt
says 0
starts 'c e l entry'
printf 'vanillatarn: %s\n' 'building what is needed, once (about N s left); it can be stopped, and goes on where it was' \
    '[2 of 3] schedule_printer' '[3 of 3] compiling vanillatarn' >"$work/expected"
sed -E 's/about [0-9]+ s/about N s/' err >"$work/told"
check 'one count for both' cmp -s "$work/expected" "$work/told"
check 'the library is not waited for' test ! -e "$work/tree/target/staticlib/libtimed_network.a"
call_there schedule cellar.bin
says 0
check 'nothing is built twice' test ! -s err
call_there airtime cellar.bin
says 0
starts 'airtime 6'
printf 'vanillatarn: %s\n' 'building what is needed, once (about N s left); it can be stopped, and goes on where it was' \
    '[3 of 4] the library' '[4 of 4] compiling vanillatarn' >"$work/expected"
sed -E 's/about [0-9]+ s/about N s/' err >"$work/told"
check 'one count for both' cmp -s "$work/expected" "$work/told"
for words in 'schedule cellar.bin' 'airtime cellar.bin'; do
    # shellcheck disable=SC2086 # several words
    call_there $words
    says 0
    check 'nothing is built twice' test ! -s err
done
rm -r "$work/tools/cargo"

# Help needs nothing that is built.
mkdir -p "$work/tree/rust/vanillatarn/src/help"
cp "$root/rust/vanillatarn/src/help/"*.txt "$work/tree/rust/vanillatarn/src/help"
rm -r "$work/tree/rust/target"
for words in --help help 'help run' 'run --help'; do
    # shellcheck disable=SC2086 # several words
    call $words
    cp out expected
    # shellcheck disable=SC2086 # several words
    call_there $words
    says 0
    gives expected
done
call_there text cellar.bin
says 3
complains "vanillatarn has to be built, and 'cargo' is not installed"
give_binary

# A program that writes something else.
printf '#!/usr/bin/env bash\necho perhaps\n' >"$work/tree/target/bin/schedule_printer"
call_there schedule cellar.bin
says 3
check 'an answer that is none is told' grep -q 'schedule_printer failed' err

# A binary that cannot be run.
chmod -x "$work/tree/rust/target/release/vanillatarn"
call_there schedule cellar.bin
says 3
complains 'vanillatarn failed'

# One that finds nothing to do says nothing, one that is slow gives signs of life.
rm -r "$work/tree/target"
give_binary
cat >"$work/tree/tools/build" <<'TEXT'
#!/usr/bin/env bash
mkdir -p target/bin
echo "rt: parts proved (unchanged since it was last proved)"
echo "rt: ${*: -1} proved (unchanged since it was last proved)"
printf '#!/usr/bin/env bash\necho "c e l entry"\n' >"target/bin/${*: -1}"
chmod +x "target/bin/${*: -1}"
TEXT
call_there schedule cellar.bin
says 0
check 'nothing is said of what is unchanged' test ! -s err
rm -r "$work/tree/target"
give_binary
{ cat "$work/tree/tools/build"; echo 'sleep 10; printf "rt: half a "; sleep 1; echo line'; } >slow
cp slow "$work/tree/tools/build"
call_there schedule cellar.bin
says 0
check 'a sign of life' grep -q -E '^vanillatarn: \[2 of 2\] at work for ([89]|10) s, about 0 s left$' err
check 'nothing else' test "$(wc -l <err)" -eq 2

# Whether a process ends within ten seconds.
has_ended() {
    local tries
    for ((tries = 0; tries < 100; tries++)); do
        grep -q -s '^State:[^Z]*$' "/proc/$1/status" || return 0
        sleep 0.1
    done
    return 1
}

# A signal ends the tool with what it has in the background: Ctrl-C, which goes to the whole group and which what is in the background ignores by
# itself, and each signal to the command's process alone. Nothing else is said. A signal that is ignored where the tests are started, as in the
# background, is not ignored here.
cat >"$work/tree/tools/build" <<'TEXT'
#!/usr/bin/env bash
(echo "$BASHPID" >worker; echo 'rt: parts proved (2 s)'; sleep 60) &
wait
TEXT
# The signal, whether the whole group gets it, and the status.
is_ended_by() {
    local signal=$1 group=$2
    what="$signal while something is built${group:+, to the whole group}" status=0
    rm -rf "$work/tree/target" "$work/tree/worker"
    give_binary
    : >err
    set -m
    env --default-signal=INT,TERM,HUP PATH="$work/tools" TMPDIR="$work/folder" "$work/tree/vanillatarn" schedule cellar.bin >out 2>err &
    set +m
    for ((tries = 0; tries < 100; tries++)); do
        ! grep -q parts err || break
        sleep 0.1
    done
    kill -"$signal" -- "${group:+-}$!"
    wait "$!" || status=$?
    says "$3"
    check 'the worker has ended' has_ended "$(cat "$work/tree/worker")"
    check 'nothing is said of a failure' test "$(grep -c -v -e ' building ' -e ' parts$' err)" -eq 0
    check 'no scratch folder is left' test -z "$(ls "$work/folder")"
}
is_ended_by INT group 130
is_ended_by INT '' 130
is_ended_by TERM '' 143
is_ended_by HUP '' 129
