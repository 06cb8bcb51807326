# The headers for tools: layout, constants and version, names, words. Part of examples/test, which has `fact`, $out and $header.
# shellcheck shell=bash
# shellcheck disable=SC2154 # examples/test sets out and header

# Whether a compiler takes the facts of layout.c: the compiler, its words.
laid_out() {
    "$@" -Wall -Wextra -Wpedantic -Werror -fsyntax-only -Iinclude examples/c/layout.c
}

# Whether a fact fails, since a struct or a constant is another one.
misses() {
    ! laid_out "$@" 2>"$out/missed" && grep -q 'fact_[0-9]*' "$out/missed"
}

# The languages of the headers: each compiler that there is, with its words.
languages() {
    local compiler standard
    for compiler in cc clang g++ clang++; do
        command -v $compiler >/dev/null || continue
        case $compiler in
        *++) for standard in c++98 c++11 c++14 c++17 c++20; do echo "$compiler -x c++ -std=$standard"; done ;;
        *) for standard in c99 c11 c17 c2x; do echo "$compiler -x c -std=$standard"; done ;;
        esac
    done
}
while read -r -a compiler; do
    fact "layout.c does not hold for ${compiler[*]}" laid_out "${compiler[@]}"
done < <(languages)
fact "layout.c does not see packed structs" misses cc -x c -std=c99 -fpack-struct
mkdir -p "$out/changed"
sed 's/\(MAX_PROGRAM\) 24576/\1 24575/' "$header" >"$out/changed/timed_network.h"
fact "layout.c does not see another constant" misses cc -x c -std=c99 -I"$out/changed"
sed 's/uint32_t entry;/uint16_t entry;/' "$header" >"$out/changed/timed_network.h"
fact "layout.c does not see another field" misses cc -x c -std=c99 -I"$out/changed"

# The names of a header, as names.awk tells them, and its macros; of what it includes none.
names() {
    sed '/^#include/d' "$1" | cc -E -P -x c - | awk -f examples/names.awk
    sed '/^#include/d' "$1" | cc -E -dM -x c - | sed 's/^#define \([A-Za-z_0-9]*\).*/macro \1/' | sort >"$out/macros"
    cc -E -dM -x c - </dev/null | sed 's/^#define \([A-Za-z_0-9]*\).*/macro \1/' | sort | comm -23 "$out/macros" -
}

# Whether each name of a header has the prefix, as one of a macro or an enumerator in capitals, and no type that of a function.
prefixed() {
    names "$1" | sort -u >"$out/names"
    ! grep -q -v -E '^((type|function) timed_network_[a-z_]+|(constant|macro) TIMED_NETWORK_[A-Z_]+)$' "$out/names" &&
        test -z "$(sed -n 's/^\(type\|function\) //p' "$out/names" | sort | uniq -d)"
}

# Whether a header with another line is found: what is replaced by what.
unprefixed() {
    sed "$1" "$header" >"$out/changed/other.h"
    ! cmp -s "$header" "$out/changed/other.h" && ! prefixed "$out/changed/other.h"
}
fact "a name of the words' header has no prefix" prefixed include/timed_network_text.h
fact "a name of the header has no prefix, or a type has that of a function" prefixed "$header"
for kind in type function constant macro; do
    fact "the header has no name of a $kind" grep -q "^$kind " "$out/names"
done
fact "a type without the prefix is not seen" unprefixed 's/timed_network_passage\b/passage/'
fact "a function without the prefix is not seen" unprefixed 's/^timed_network_check(/check(/'
fact "an enumerator without the prefix is not seen" unprefixed 's/TIMED_NETWORK_END_LATE/END_LATE/'
fact "a macro without the prefix is not seen" unprefixed 's/TIMED_NETWORK_MAX_TABLE/MAX_TABLE/'
fact "a type with the name of a function is not seen" unprefixed 's/timed_network_part_numbers/timed_network_part/'

# The value of a macro of the header, and of a constant of the wrapper in Rust; a number without its suffix.
macro() {
    printf '#include "timed_network.h"\n%s\n' "TIMED_NETWORK_$1" | cc -E -P -x c -Iinclude - | tail -n 1 | sed 's/^\([0-9]*\)u$/\1/'
}
constant() {
    sed -n -E "s/^pub const $1: [a-z0-9]+ = ([0-9_]+);/\1/p" rust/timed_network/src/*.rs | tr -d _
}
for name in FIELDS MAX_PASSAGES CHART_ROW REASON POSITION MAX_PLAN MAX_PROGRAM OBSERVATION MAX_CHOICES MAX_SPREAD MAX_BUDGET MAX_RUNS MAX_WORK SEED PLACES TICK UPPAAL_ENOUGH; do
    fact "$name is another one in the wrapper in Rust" test "$(macro $name)" = "$(constant $name)"
done
fact "NO_WORK is another one in the wrapper in Rust" test "$(macro NO_WORK)" = "$(constant NO_WORK)"

# The version is that of the file; its number follows from it.
version=$(cat VERSION)
IFS=. read -r major minor patch <<<"$version"
fact "the header has another version" test "$(macro VERSION)" = "\"$version\""
fact "the header has another number of the version" test "$(macro VERSION_NUMBER)" = "$((10000 * major + 100 * minor + patch))"

# Each number of docs/REFUSALS.md has a name, and no other has one.
sed -n -E 's/^    TIMED_NETWORK_REFUSED_[A-Z_]+ = ([0-9]+),?$/\1/p' "$header" | sort -n >"$out/named"
sed -n -E 's/^\| ([0-9]+) \|.*/\1/p' docs/REFUSALS.md | sort -n >"$out/refusals"
fact "the names of refusals are not those of docs/REFUSALS.md" cmp -s "$out/named" "$out/refusals"
fact "no refusal has a name" test -s "$out/named"

# The words are those of the proved texts: of a refusal the whole question, of an end what stands before its colon. A number that has none
# gets the question of 0, an end that there is not words of its own.
questions=crates/refusal_text/specs/RefusalText.antt ends=crates/run_text/specs/RunText.antt
none=$(sed -n -E 's/^no_question = ascii "(.*)\\n"$/\1/p' $questions)
sed -n '/^questions =$/,/^$/p' $questions | grep -o -E 'no_question|ascii "[^"]*"' |
    sed -E 's/^ascii "(.*)\\n"$/\1/; s/^no_question$/'"$none/" >"$out/questions"
fact "not 29 questions and that of none were read" test "$(wc -l <"$out/questions")" = 30
sed -n -E 's/^end_text [(A-Z][^"]*"([^":]*).*/\1/p' $ends >"$out/ends"
sed -n -E '/^not_allowed choices used =$/{n;s/^[^"]*"([^":]*).*/\1/p}' $ends >>"$out/ends"
fact "not four ends were read" test "$(wc -l <"$out/ends")" = 4

# Whether the words of a program, made by a compiler, are these.
words() {
    "$@" -Wall -Wextra -Wpedantic -Werror -O2 -Iinclude -o "$out/words" examples/c/words.c || return
    # shellcheck disable=SC2046 # a word a number
    "$out/words" $(seq 0 29) 30 255 256 65537 4294967295 >"$out/said"
    { cat "$out/questions"; for _ in 1 2 3 4 5; do echo "$none"; done; } | cmp -s - "$out/said" || return
    "$out/words" end 0 1 2 3 4 255 256 4294967295 >"$out/said"
    { cat "$out/ends"; for _ in 1 2 3 4; do echo 'no end has this number'; done; } | cmp -s - "$out/said"
}
while read -r -a compiler; do
    fact "the words of ${compiler[*]} are not those of the proved texts" words "${compiler[@]}"
done < <(languages)
