#!/usr/bin/env bash
# Tries edits/first-errors on a log written by hand: what it tells of an error, and that it refuses an edit that fails elsewhere, that fails by its text, that
# was not tried or that is not refused. Nothing is proved.
set -euo pipefail
root="$(cd "$(dirname "$0")/.." && pwd)"
scratch="$(mktemp -d)"
trap 'rm -rf -- "$scratch"' EXIT
tried=0 failed=0
mkdir "$scratch/edits"
cp -a "$root/edits/first-errors" "$scratch/edits/"
cd "$scratch"

# An edit of the crate `some` that was tried: its name, the words of the verdict, the place and the error.
edit() {
    mkdir -p crates/some/must-fail crates/some/specs crates/some/src target/log
    printf 'file: specs/Laws.antt\nold: 1\nnew: 2\n' >"crates/some/must-fail/$1.edit"
    printf '%s\n' '-- laws' 'pub first : 1 ≡ 1' 'first = refl' '' 'pub second : 1 ≡ 2' 'second = refl' >crates/some/specs/Laws.antt
    printf '%s\n' 'pub fn doubled(n: u32) -> u32' '    ensures { result ≡ n + n }' '{' '    n' '}' >crates/some/src/lib.rt
    # shellcheck disable=SC2016 # the prover quotes names by backquotes
    printf 'rt: must-fail some/%s.edit: refused, as it must be: ./specs/Laws.antt:3:1: error: `first`: an earlier run\n' "$1" >>target/log/edits.say
    printf 'rt: must-fail some/%s.edit: %s%s\n' "$1" "$2" "${3:+: $3}" >>target/log/edits.say
}

wrong() {
    failed=$((failed + 1))
    echo "FAILED: $1"
    sed 's/^/    /' said
}

# That it tells this line of the one edit there is, and takes it as kept: what is tried, the line.
tells() {
    tried=$((tried + 1))
    bash edits/first-errors --tell . >said 2>&1 || wrong "$1"
    [[ $(cat said) == "$2" ]] || wrong "$1"
    echo "$2" >edits/first-errors.txt
    bash edits/first-errors >said 2>&1 || wrong "$1, as kept"
    rm -r crates target
}

# That it refuses the edits there are, with these words: what is tried, the words.
refuses() {
    tried=$((tried + 1))
    if bash edits/first-errors >said 2>&1; then wrong "$1: taken"; fi
    grep -q -F -- "$2" said || wrong "$1: not with: $2"
    rm -r crates target
}

# shellcheck disable=SC2016 # the prover quotes names by backquotes
{
    edit named 'refused, as it must be' './specs/Laws.antt:6:10: error: `second`: the two types differ'
    tells 'an error that names its law' 'some/named specs/Laws.antt second'
    edit unnamed 'refused, as it must be' './specs/Laws.antt:6:10: error: the two types differ'
    tells 'an error that does not: the law around it' 'some/unnamed specs/Laws.antt second'
    edit code 'refused, as it must be' 'note: src/lib.rt:4:5: it is not proved that the function returns'
    tells 'an error in code: the function around it' 'some/code src/lib.rt doubled'

    echo 'some/moved specs/Laws.antt first' >edits/first-errors.txt
    edit moved 'refused, as it must be' './specs/Laws.antt:6:10: error: `second`: the two types differ'
    refuses 'an edit that fails elsewhere' 'fails elsewhere than edits/first-errors.txt says'
    echo 'some/text specs/Laws.antt second' >edits/first-errors.txt
    edit text 'refused, as it must be' './specs/Laws.antt:6:10: error: `second`: `reflx` is not in scope; did you mean `refl`?'
    refuses 'an edit that breaks the text of a proof' 'fails by its text'
    edit text 'refused, as it must be' './specs/Laws.antt:6:10: error: the `(` at 6:10 is never closed (reached end of file)'
    refuses 'an edit that leaves a parenthesis open' 'fails by its text'
    edit text 'NOT REFUSED: the crate is still proved with this edit'
    refuses 'an edit that is not refused' 'is not refused'
    edit text 'refused, as it must be (only because a proof file names what the edit took away, so this says little)' './specs/Laws.antt:6:10: error: gone'
    refuses 'an edit that takes away what a proof names' 'takes away what a proof names'
    edit text 'refused, as it must be' './specs/Laws.antt:6:10: error: `second`: the two types differ'
    touch -d '1 minute' crates/some/must-fail/text.edit
    refuses 'an edit changed since it was tried' 'was not tried since it was written'
    edit text 'refused, as it must be' './specs/Laws.antt:6:10: error: `second`: the two types differ'
    edit more 'refused, as it must be' './specs/Laws.antt:6:10: error: `second`: the two types differ'
    refuses 'an edit that is not kept' 'fails elsewhere than edits/first-errors.txt says'
    rm edits/first-errors.txt
    edit text 'refused, as it must be' './specs/Laws.antt:6:10: error: `second`: the two types differ'
    refuses 'no file' 'there is no edits/first-errors.txt'
}

echo "first errors tried: $tried, $failed failed"
((failed == 0))
