# The words that are no command and no plain file name: --version, help, --; names with blanks, other folders. Part of test.sh.
# shellcheck shell=bash
# shellcheck disable=SC2034,SC2154 # test.sh sets root, work and corpus, and looks at what and status

## --version

call --version
says 0
starts "vanillatarn $(cat "$root/VERSION")"
check 'it has three lines' test "$(wc -l <out)" -eq 3
check 'it tells the commit' grep -q -E '^commit: ([0-9a-f]{12}(, with changes)?|unknown \(.*\))$' out
if [[ -e $root/.git ]] && command -v git >/dev/null; then
    check 'the commit is that of git' grep -q "^commit: $(git -C "$root" rev-parse --short=12 HEAD)" out
fi
check 'rt is the one that is there' grep -q -F -x "rt: $(rt version | head -n 1)" out
check 'nothing is said besides' test ! -s err
check 'the changelog begins with this version' test "$(grep -m 1 '^## ' "$root/CHANGELOG.md")" = "## $(cat "$root/VERSION")"
call --version now
says 2
complains 'one word too many: now'

# The command in a folder of its own, with these tools alone.
bare="$work/a bare folder"
mkdir -p "$bare" "$work/few"
cp -r "$root/vanillatarn" "$root/command" "$root/VERSION" "$bare"
for name in bash env cat dirname readlink; do
    ln -s "$(command -v "$name")" "$work/few/$name"
done
version_there() {
    what="$1" status=0
    PATH="$work/few" "$bare/vanillatarn" --version >out 2>err || status=$?
    says 0
    check "it says: commit: $2" grep -q -F -x "commit: $2" out
    check "it says: rt: $3" grep -q -F -x "rt: $3" out
    check 'nothing is said besides' test ! -s err
}
version_there '--version, with neither git nor rt' 'unknown (git is not installed)' 'not installed'
printf '#!/usr/bin/env bash\nexit 1\n' >"$work/few/rt"
cp "$work/few/rt" "$work/few/git"
chmod +x "$work/few/rt" "$work/few/git"
version_there '--version, in no repository, with an rt that fails' 'unknown (no git repository)' 'unknown (rt version failed)'
mkdir "$bare/.git"
# shellcheck disable=SC2016 # meant for the file
printf '#!/usr/bin/env bash\necho "$1 it is"\necho more\n' >"$work/few/rt"
version_there '--version, in a repository that git cannot read' 'unknown (git could not tell)' 'version it is'
if command -v git >/dev/null; then
    rm -r "$bare/.git" "$work/few/git"
    ln -s "$(command -v git)" "$work/few/git"
    repository=(git -C "$bare" -c user.name=someone -c user.email=someone@example.org)
    "${repository[@]}" init -q && "${repository[@]}" add . && "${repository[@]}" commit -q -m all
    commit="$(git -C "$bare" rev-parse --short=12 HEAD)"
    version_there '--version, in a repository' "$commit" 'version it is'
    echo >>"$bare/vanillatarn"
    version_there '--version, in a repository with changes' "$commit, with changes" 'version it is'
fi

## help

call --help
cp out help
call help
says 0
gives help
for name in run table; do
    call "$name" --help
    cp out help
    for words in "help $name" "--help $name"; do
        # shellcheck disable=SC2086 # several words
        call $words
        says 0
        gives help
    done
done
call help brew
says 2
complains "unknown command 'brew'"
call help run table
says 2
complains 'one word too many: table'

## --, and names that are hard to type

call table cellar.txt -o cellar.bin
call translate cellar.bin -o program.bin
cp cellar.bin ./--late
cp cellar.bin 'a cellar.bin'
cp program.bin ./-o
call verdict -- --late
says 0
starts accepted
call choices --early -- --late
says 0
call verdict --late
says 2
complains "'verdict' has no option --late"
call part -- -o 1
says 0
call part -o 'a part.bin' -- -o 1
says 0
check 'what is behind -o is a file also where it has a blank' test -s 'a part.bin'
call verdict -- 'a cellar.bin'
says 0
call verdict 'no cellar.bin'
says 2
complains 'no cellar.bin: no such file'
call translate 'a cellar.bin' -o './a cellar.bin'
says 2
complains '-o names the input ./a cellar.bin'
call verdict -- --help
says 2
complains '--help: no such file'
call verdict --
says 2
complains 'TABLE is missing'
call verdict -- - <cellar.bin
says 0
call verdict cellar.bin --
says 0

## From another folder, and by a link

mkdir -p 'another folder/deep'
for how in "$root/vanillatarn" "$work/a link"; do
    [[ -e $how ]] || ln -s "$root/vanillatarn" "$how"
    what="from another folder, $how" status=0
    (cd 'another folder/deep' && "$how" verdict '../../a cellar.bin') >out 2>err || status=$?
    says 0
    starts accepted
    what="from another folder, $how --version" status=0
    (cd 'another folder/deep' && "$how" --version) >out 2>err || status=$?
    says 0
    starts "vanillatarn $(cat "$root/VERSION")"
done

# Output that cannot be written.
unwritable --version help 'help run'
