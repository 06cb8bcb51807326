#!/usr/bin/env bash
# Does what docs/TUTORIAL.md says, in a folder of its own, and holds what comes to what is shown there.
#
# In a block ```text NAME stands the content of a file NAME. In a block ```console a line after "$ " is a command; the lines up to
# the next one are what it writes. Nothing has to be built before: what a command says of building is shown here and not compared.
set -euo pipefail

root="$(cd "$(dirname "$0")/.." && pwd)"
work="$(mktemp -d)"
trap 'rm -rf -- "$work"' EXIT
cd "$work"
PATH="$root:$PATH"

readonly building='^vanillatarn: (building |compiling |\[[0-9]+ of [0-9]+\] |at work for )'
tried=0 failed=0 kind='' typed=''

# Runs the command that was read last, if there is one, and compares.
finish() {
    [[ -n $typed ]] || return 0
    eval "$typed" >raw 2>&1 </dev/null || true
    grep -a -E "$building" raw || true
    LC_ALL=C sed -E "/$building/d" raw >found
    tried=$((tried + 1))
    if ! cmp -s expected found; then
        failed=$((failed + 1))
        printf 'FAILED: %s\n' "$typed"
        diff expected found || true
    fi
    typed=''
}

while IFS= read -r line; do
    case $kind:$line in
        ':```text '*)
            kind='file'
            file=${line#'```text '}
            : >"$file"
            ;;
        ':```console') kind='console' ;;
        ':```'*) kind='other' ;;
        :*) ;;
        *':```')
            finish
            kind=''
            ;;
        file:*) printf '%s\n' "$line" >>"$file" ;;
        console:'$ '*)
            finish
            typed=${line#'$ '}
            : >expected
            ;;
        console:*) printf '%s\n' "$line" >>expected ;;
    esac
done <"$root/docs/TUTORIAL.md"

# The tables that are installed for its readers are those that it makes.
for file in "$root"/examples/tables/*.txt; do
    tried=$((tried + 1))
    if ! cmp -s "$file" "$(basename "$file")"; then
        failed=$((failed + 1))
        printf 'FAILED: %s is not the table of the tutorial\n' "$file"
    fi
done

echo "the tutorial: $tried commands and tables tried, $failed failed"
((failed == 0 && tried > 0))
