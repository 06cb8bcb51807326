#!/usr/bin/env bash
# Runs the programs over the whole corpus: what they print of each table is compared with the stored answer, and of
# an accepted one with the stored schedule; the largest spread of it is tried against the verdicts at that spread and at the next. The listing
# of each program, and of damaged ones, is compared with that of `listing.awk`. Then an output that cannot be written. Any failing check fails
# the whole.
set -euo pipefail

root="$(cd "$(dirname "$0")/.." && pwd)"
programs="$root/target/bin"
corpus="$root/corpus"
work="$(mktemp -d)"
trap 'rm -rf -- "$work"' EXIT
cd "$root"
bash "$root/tools/build" schedule_printer chart_printer verdict_printer spread_printer reason_printer plan_table translate_table program_listing trial_run uppaal_printer >"$work/built" || { cat "$work/built"; exit 1; }
cd "$work"

passed=0 failed=0

# One check: what it says, then a test.
check() {
    local said=$1
    shift
    if "$@"; then
        passed=$((passed + 1))
    else
        failed=$((failed + 1))
        printf 'FAILED: %s\n' "$said"
    fi
}

# The first line of a verdict at a spread: the table, the spread.
verdict_at() {
    "$programs/verdict_printer" "$2" <"$1" | head -n 1
}

# What the reason printer wrote, as the corpus has it: the passage, then each edge with its reason.
shortened() {
    sed -n -e 's/^passage //p' -e 's/^edge \([0-9]*\): taken, ticks .*/|\1 taken/p' -e 's/^edge \([0-9]*\): data bound \([0-9]\) fails: v.*/|\1 data \2/p' \
        -e 's/^edge \([0-9]*\): no window of at least one tick: .*/|\1 window/p' -e 's/^edge \([0-9]*\): window shorter than its budget of .*/|\1 window/p' \
        -e 's/^edge \([0-9]*\): ready later, at tick .*/|\1 later/p' -e 's/^edge \([0-9]*\): ready together with edge .*/|\1 higher/p' \
        -e 's/^refused .*/&/p' | tr -d '\n'
}

# The schedule of an accepted table, or the refusal's line, and nothing else.
while IFS=$'\t' read -r name answer; do
    "$programs/schedule_printer" <"$corpus/$name.bin" >out 2>err
    if [[ $answer == accepted ]]; then
        cp "$corpus/$name.schedule" expected
    else
        printf '%s\n' "$answer" >expected
    fi
    check "$name: the schedule printed" cmp -s expected out
    check "$name: nothing on standard error" test ! -s err
    "$programs/chart_printer" <"$corpus/$name.bin" >out 2>err
    if [[ -e $corpus/$name.chart ]]; then
        check "$name: the chart printed" cmp -s "$corpus/$name.chart" out
    elif [[ $answer != accepted ]]; then
        check "$name: the chart refused" cmp -s expected out
    fi
    check "$name: nothing on standard error" test ! -s err
    "$programs/uppaal_printer" <"$corpus/$name.bin" >out 2>err
    if [[ -e $corpus/$name.xta ]]; then
        check "$name: the text for UPPAAL printed" cmp -s "$corpus/$name.xta" out
    elif [[ $answer != accepted ]]; then
        check "$name: the text for UPPAAL refused" cmp -s expected out
    fi
    check "$name: nothing on standard error" test ! -s err
    "$programs/verdict_printer" <"$corpus/$name.bin" >out 2>err
    check "$name: the verdict printed" test "$(head -n 1 out)" = "$answer"
    check "$name: nothing on standard error" test ! -s err
    cp out expected
    "$programs/verdict_printer" 0 <"$corpus/$name.bin" >out 2>err
    check "$name: the verdict at spread 0" cmp -s expected out
    "$programs/translate_table" <"$corpus/$name.bin" >out 2>err
    if [[ $answer == accepted ]]; then
        check "$name: a program and nothing else" test -s out -a ! -s err
    else
        check "$name: its program refused, and none written" test "$(head -n 1 err)-$(wc -c <out)" = "$answer-0"
    fi
    if [[ $answer == accepted ]]; then
        while read -r component tick reasons; do
            "$programs/reason_printer" "$component" "$tick" <"$corpus/$name.bin" >out 2>err
            check "$name: the reasons at $component $tick" test "$(shortened <out)" = "$reasons"
            check "$name: nothing on standard error" test ! -s err
        done <"$corpus/$name.why"
    else
        "$programs/reason_printer" 0 0 <"$corpus/$name.bin" >out 2>err
        check "$name: the reasons refused" test "$(head -n 1 out)" = "$answer"
    fi
    "$programs/trial_run" "$corpus/$name.bin" /dev/null >out 2>err
    if [[ $answer == accepted ]]; then
        check "$name: no choice, and the run is used up" test "$(head -n 1 out)" = 'choices used up'
    else
        check "$name: its run refused" test "$(head -n 1 out)" = "$answer"
    fi
    check "$name: nothing on standard error" test ! -s err
    "$programs/spread_printer" <"$corpus/$name.bin" >out 2>err
    check "$name: nothing on standard error" test ! -s err
    if [[ $answer == accepted ]]; then
        largest="$(sed -n -E 's/^accepted up to a spread of ([0-9]+) ticks?$/\1/p' out)"
        check "$name: the largest spread printed" test "$(wc -l <out)-${largest:+number}" = 1-number
        check "$name: accepted at the largest spread" test "$(verdict_at "$corpus/$name.bin" "${largest:-0}")" = accepted
        check "$name: refused at the next one" test "$(verdict_at "$corpus/$name.bin" "$((${largest:-0} + 1))")" != accepted
    else
        check "$name: the spread refused" test "$(head -n 1 out)" = "$answer"
    fi
done <"$corpus/answers.tsv"

# The listing of the bytes in the file `program`, against the second source.
listed() {
    "$programs/program_listing" <program >out 2>err
    od -An -v -tu1 program | awk -f "$root/command/listing.awk" >expected
    check "$1: the listing printed" cmp -s expected out
    check "$1: nothing on standard error" test ! -s err
    cat out >>listings
}

# Each program; cut in its header, its counts, its starts and its statements; and with one byte changed: the stated length, the
# nodes, a node's length, its locations, a start, an op.
: >listings
while IFS=$'\t' read -r name answer; do
    [[ $answer == accepted ]] || continue
    "$programs/translate_table" <"$corpus/$name.bin" >whole
    cp whole program
    listed "$name"
    for cut in 0 5 7 11 13 21 46; do
        head -c "$cut" whole >program
        listed "$name cut to $cut bytes"
    done
    for place in 2 3 7 8 13 20 28; do
        { head -c "$place" whole; printf '\222'; tail -c "+$((place + 2))" whole; } >program
        listed "$name with byte $place changed"
    done
done <"$corpus/answers.tsv"
for line in 'the header lies outside' 'the length is not that' ': its part lies' 'the starts of its blocks' 'the rest of the block' \
    'no statement: the block' 'bytes behind the last' ' no statement$'; do
    check "a listing says: $line" grep -q -- "$line" listings
done

# Numbers of more than two digits are among them.
check 'the corpus has ticks of five digits and more' grep -q -E ' [0-9]{5,} ' "$corpus"/*.schedule

# An output that cannot be written is told.
full() {
    local program=$1 said=$2
    "$programs/$program" "${@:3}" <"$corpus/probe_and_hub.bin" >/dev/full 2>err || true
    check "$program: an output that cannot be written is told" grep -q -F -- "$said" err
}
full schedule_printer 'The schedule could not be written.'
full chart_printer 'The chart could not be written.'
full verdict_printer 'The verdict could not be written.'
full spread_printer 'The spread could not be written.'
full translate_table 'The program could not be written.'
full reason_printer 'The reasons could not be written.' 0 0
full program_listing 'The listing could not be written.'
"$programs/trial_run" "$corpus/probe_and_hub.bin" /dev/null >/dev/full 2>err || true
check 'trial_run: an output that cannot be written is told' grep -q -F 'The run could not be written.' err
"$programs/plan_table" 3 40 5 500 >/dev/full 2>err || true
check 'plan_table: an output that cannot be written is told' grep -q -F 'The table could not be written.' err

# What trial_run says of words that are no spread and no offsets.
tried_run() {
    "$programs/trial_run" "$corpus/probe_and_hub.bin" "$@" >out 2>err
}
for words in '' '/dev/null 0' '/dev/null 0 0 0'; do
    # shellcheck disable=SC2086 # several words
    tried_run $words
    check "trial_run, '$words': usage" grep -q '^usage: trial_run ' err
done
for word in x -1 1x 4294967296 ''; do
    tried_run /dev/null "$word" 0
    check "trial_run, spread '$word'" grep -q '^The spread is a number ' err
    tried_run /dev/null 0 "$word"
    check "trial_run, offsets '$word'" grep -q '^The offsets are at most ' err
    tried_run /dev/null 0 "0,$word"
    check "trial_run, offsets '0,$word'" grep -q '^The offsets are at most ' err
    check "trial_run, offsets '0,$word': nothing is run" test ! -s out
done
for word in - 0 0,0 0,0,7; do
    tried_run /dev/null 0 "$word"
    check "trial_run, offsets '$word'" test "$(head -n 1 out)" = 'choices used up'
done

# Plans: each of the vectors that lends enough, as bytes or as a refusal in words.
while IFS=$'\t' read -r name request answer; do
    read -r word probes slot guard period lent <<<"$request"
    [[ $word == plan && -z $lent ]] || continue
    "$programs/plan_table" "$probes" "$slot" "$guard" "$period" >out 2>err
    if [[ $answer == refused* ]]; then
        check "plan_table, $name: refused" test "$(head -n 1 err)" = "$answer"
        check "plan_table, $name: no bytes" test ! -s out
    else
        check "plan_table, $name" test "$(od -An -v -tx1 out | tr -d ' \n')" = "$answer"
        check "plan_table, $name: nothing is said" test ! -s err
    fi
done <"$root/vectors/plan.tsv"
for words in '' '1 1 1' '1 1 1 4 5'; do
    # shellcheck disable=SC2086 # several words
    "$programs/plan_table" $words >out 2>err
    check "plan_table, '$words': usage" grep -q '^usage: plan_table ' err
done
for word in x -1 1x 4294967296 99999999999999999999 ''; do
    "$programs/verdict_printer" "$word" <"$corpus/probe_and_hub.bin" >out 2>err
    check "verdict_printer, spread '$word': usage" grep -q '^usage: verdict_printer ' err
    check "verdict_printer, spread '$word': nothing else" test ! -s out
    "$programs/plan_table" "$word" 1 1 4 >out 2>err
    check "plan_table, probes '$word': 18" test "$(head -n 1 err)" = 'refused 18 255'
done

printf '%d passed, %d failed\n' "$passed" "$failed"
[[ $failed -eq 0 ]]
