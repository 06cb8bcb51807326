# The second archive, libtimed_network_words.a, and its header, as they are shipped; and the examples over it, held to the verified program. Part of
# examples/test, behind header.sh, which has `languages`, `prefixed` and `fact`.
# shellcheck shell=bash
# shellcheck disable=SC2034,SC2086,SC2154 # examples/test sets out, archive, strict (several words) and failed

words_archive=target/staticlib/libtimed_network_words.a
words_header=include/timed_network_words.h

# The header by itself, and with the two others, in each language.
words_alone() {
    "$@" -Wall -Wextra -Wpedantic -Werror -fsyntax-only $words_header
}
printf '#include "%s"\n' timed_network_words.h timed_network.h timed_network_text.h timed_network_words.h >"$out/three.c"
three() {
    "$@" -Wall -Wextra -Wpedantic -Werror -fsyntax-only -Iinclude "$out/three.c"
}
while read -r -a compiler; do
    fact "the words' header is not for ${compiler[*]}" words_alone "${compiler[@]}"
    fact "the three headers are not for ${compiler[*]}" three "${compiler[@]}"
done < <(languages)
fact "a name of the words' header has no prefix" prefixed $words_header
for kind in type function macro; do
    fact "the words' header has no name of a $kind" grep -q "^$kind " "$out/names"
done
sed 's/timed_network_words_numbers/words_numbers/' $words_header >"$out/changed/other.h"
fact "a type of the words' header without the prefix is seen as one with it" eval "! prefixed '$out/changed/other.h'"

# What the header declares is what the archive exports, each a function, and what the wrapper in Rust declares.
cc -E -P $words_header | grep -o -E '\btimed_network_words_[a-z_]+ *\(' | tr -d ' (' | sort >"$out/words_declared"
nm -g --defined-only $words_archive | awk 'NF == 3 { print $2, $3 }' | sort -k 2 >"$out/words_exported"
fact "the words' header declares no function" test -s "$out/words_declared"
fact "the words' header and the archive differ" diff <(sed 's/^/T /' "$out/words_declared") "$out/words_exported"
sed -n '/^extern "C" {/,/^}/s/^    fn \([a-z_]*\).*/\1/p' rust/timed_network_words/src/exported.rs | sort >"$out/words_wrapped"
fact "the words' header and the wrapper in Rust differ" diff "$out/words_declared" "$out/words_wrapped"

# What the archive takes from outside, that it has no memory of its own, and how large it is.
nm -u $words_archive | awk 'NF == 2 { print $2 }' | sort -u >"$out/words_needed"
fact "the words' archive needs something else" diff <(printf 'memcpy\nmemset\n') "$out/words_needed"
readelf -SW $words_archive | sed -n 's/^ *\[ *[0-9]*\] //p' |
    awk '$(NF - 3) ~ /W/ && $(NF - 5) !~ /^0+$/ { print $1, $(NF - 5) }' >"$out/words_written"
fact "the words' archive has data that can be written" diff /dev/null "$out/words_written"
fact "no section of the words' archive was read" test "$(readelf -SW $words_archive | grep -c PROGBITS)" -gt 0
most=$(sed -n 's/.* no more than \([0-9,]*\) bytes.*/\1/p' docs/LINKING.md | tr -d ,)
fact "the words' archive is larger than docs/LINKING.md says" test "$(size -t $words_archive | awk 'END { print $1 }')" -le "${most:-0}"

# One number a text: the room of its crate, what the contract of its call says, what the header says, the wrapper, and docs/LINKING.md.
room_of() {
    case $1 in
    REASONS) sed -n 's/^pub const ROOM: usize = \([0-9]*\);/\1/p' crates/reason_words/src/lib.rt ;;
    REFUSAL) sed -n 's/^const REFUSAL: usize = \([0-9]*\);/\1/p' crates/timed_network_words/src/lib.rt ;;
    *) sed -n 's/^pub const ROOM: usize = \([0-9]*\);/\1/p' "crates/${1,,}_words/src/lib.rt" ;;
    esac
}
contract_of() {
    awk -v name="timed_network_words_${1,,}(" 'index($0, name) { inside = 1 } inside && /ensures/ { print; exit }' crates/timed_network_words/src/lib.rt |
        sed -n 's/.*(result\.size ≤ \([0-9]*\)).*/\1/p'
}
for name in VERDICT SCHEDULE CHART SPREAD REASONS RUN SIMULATION REFUSAL; do
    room=$(room_of $name)
    fact "$name has no room" test -n "$room"
    fact "$name: the contract has another number than the room $room" test "$(contract_of $name)" = "$room"
    fact "$name: the header has another number" grep -qx "#define TIMED_NETWORK_WORDS_${name}_ENOUGH $room" $words_header
    fact "$name: the wrapper has another number" test "$(sed -n -E "s/^pub const ${name}_ENOUGH: usize = ([0-9_]+);/\1/p" rust/timed_network_words/src/lib.rs | tr -d _)" = "$room"
    fact "$name: docs/LINKING.md has another number" grep -q "^| \`timed_network_words_${name,,}\` |.*| $(sed -E 's/([0-9])([0-9]{3})$/\1,\2/' <<<"$room") |\$" docs/LINKING.md
done

# Both archives in one program, in C and in C++, and the example in Rust: the verdict in words is the verified program's.
cc -std=c99 $strict -o "$out/verdict_c" examples/c/verdict.c $words_archive "$archive"
g++ -std=c++98 $strict -o "$out/verdict_cxx" -x c++ examples/c/verdict.c -x none "$archive" $words_archive
cp "$out/cargo/release/verdict" "$out/verdict_rust"
fact "the verdict's program cannot be built" bash tools/build verdict_printer >"$out/built"
verdicts=0
for table in corpus/probe_and_hub.bin corpus/spread_*.bin corpus/check4_*.bin corpus/check8_*.bin corpus/check11_*.bin; do
    for spread in 0 5; do
        target/bin/verdict_printer $spread <"$table" >"$out/expected"
        for example in verdict_c verdict_cxx verdict_rust; do
            verdicts=$((verdicts + 1))
            "$out/$example" "$table" $spread >"$out/found" 2>/dev/null || [ $? = 1 ]
            if ! cmp -s "$out/expected" "$out/found"; then
                echo "$example, $table at spread $spread: another verdict in words"
                failed=$((failed + 1))
            fi
        done
    done
done
fact "only $verdicts verdicts in words were held" test $verdicts -ge 60
