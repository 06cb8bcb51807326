# `vanillatarn period`, and --horizon of `run` and `choices`: in words and as JSON, the vectors, the corpus, refusals. Part of test.sh.
# shellcheck shell=bash
# shellcheck disable=SC2034,SC2154 # test.sh sets root, work and corpus, and looks at what and status; prints and bytes_of are those of test_site.sh, shorten_run is that of test_finishes.sh

## What comes again

call period cellar.bin
says 0
prints none 'up to its horizon of 20 no state of all nodes comes again: a run cannot go further' \
    'all nodes enter together at ticks 0, 10' 'component 1: variable v0 never has a value again that it had at one of them'
call period cellar.txt
says 0
starts none
call period --json cellar.bin
says 0
prints '{"file":"cellar.bin","horizon":20,"from":null,"to":null,"refused":null}'
call plan --probes 2 --slot 3 --guard 1 --period 20 -o plan.bin
says 0
call period plan.bin
says 0
prints '0 20' 'from tick 0 on everything comes again every 20 ticks: a run can go to any horizon'
call period - <plan.bin
says 0
starts '0 20'
call period --json plan.bin
says 0
prints '{"file":"plan.bin","horizon":40,"from":0,"to":20,"refused":null}'
call period short.bin
says 1
check 'the refusal is told on standard error' test "$(head -n 1 err)" = 'refused 2 255'
call period --json short.bin
says 1
prints '{"file":"short.bin","horizon":null,"from":null,"to":null,"refused":{"number":2,"component":null}}'
call period nowhere
says 2
call period
says 2
call period --quiet cellar.bin
says 2

# One component with a clock that nothing resets, and two that meet at tick 0 alone below H.
bytes_of 0100180100003c0011010002000100000500000001000000 table
call period table
says 0
check 'the clock is named' grep -q '^component 0: clock x1 never has a value again' out
bytes_of 0100290200000c00110100010001000004000000010000000011010001000100000600000001000000 table
call period table
says 0
check 'they meet at the start alone' test "$(tail -n 1 out)" = 'all nodes enter together at tick 0 alone'

## The vectors; an empty table is wrong use

# The observations of a run as the vectors have them, without what is not printed: node, tick and finish tick.
as_printed() {
    local parts part finish
    IFS='|' read -r -a parts <<<"$1"
    printf '%s' "${parts[0]}"
    for part in "${parts[@]:1}"; do
        finish=-
        [[ ${part:64:8} == ffffffff ]] || finish=$((16#${part:64:8}))
        printf '|%s %s %s' "$((16#${part:0:2}))" "$((16#${part:8:8}))" "$finish"
    done
}
held=0
while IFS=$'\t' read -r name request answer; do
    read -r -a words <<<"$request"
    [[ ${words[1]} != - && ${words[0]} != lent ]] || continue
    bytes_of "${words[1]}" table
    if [[ ${words[0]} == period ]]; then
        call period table
    else
        bytes_of "${words[2]}" choices
        call run --horizon "${words[3]}" table choices
    fi
    if [[ $answer == refused* ]]; then
        says 1
        check "$name: it is refused as stored" test "$(head -n 1 err)" = "$answer"
    elif [[ ${words[0]} == period ]]; then
        says 0
        check "$name: the pair is the stored one" test "$(head -n 1 out)" = "$answer"
    else
        says "$((${answer%% *} > 1))"
        check "$name: the run is the stored one" test "$(shorten_run)" = "$(as_printed "$answer")"
    fi
    held=$((held + 1))
done <"$root/vectors/periods.tsv"
check 'many vectors were held' test "$held" -ge 110

## The corpus: the pair, then runs, each with its horizon

held=0
for file in "$corpus"/*.period; do
    name="$(basename "$file" .period)"
    call period "$corpus/$name.bin"
    says 0
    check "$name: the pair is the stored one" test "$(head -n 1 out)" = "$(head -n 1 "$file")"
    while read -r horizon choices answer; do
        bytes_of "$choices" choices
        call run --horizon "$horizon" "$corpus/$name.bin" choices
        says "$((${answer%% *} > 1))"
        check "$name: the run to $horizon is the stored one" test "$(shorten_run)" = "$answer"
        held=$((held + 1))
    done < <(tail -n +2 "$file")
done
check 'there are such runs' test "$held" -gt 6

## Runs to a horizon and choices for them

# To the table's own horizon it is the run without one.
call run cellar.bin early.bin
cp out without
call run --horizon 20 cellar.bin early.bin
says 0
gives without
call run --close 0 cellar.bin late.bin
cp out without
call run --horizon 20 --close 0 cellar.bin late.bin
gives without
call run --horizon 20 --json cellar.bin early.bin
says 0
check 'the horizon is told' grep -q '^{"horizon":20,"refused":null,"end":"horizon reached",' out

# Far beyond: a plan of 20 ticks for 15,000 periods, more than 60,000 ticks, 1,024 passages and 1,000,000 choices.
for manner in early late; do
    call choices "--$manner" --horizon 300000 plan.bin -o far.bin
    says 0
    check 'there are more than a million choices' test "$(wc -c <far.bin)" -gt 1000000
    call run --horizon 300000 plan.bin far.bin
    says 0
    starts 'horizon reached'
    check 'the tick is the horizon' grep -q '^tick 300000, ' out
done
call run plan.bin far.bin
says 1
check 'without a horizon they are too many' test "$(head -n 1 err)" = 'refused 14 255'
call choices --horizon 20 cellar.bin
says 0
check 'to its own horizon they are the same' cmp -s out early.bin

# Refused, and wrong use.
for words in '0 cellar.bin' '21 cellar.bin' '4294967295 cellar.bin' '0 plan.bin'; do
    # shellcheck disable=SC2086 # several words
    call run --horizon $words early.bin
    says 1
    complains 'refused 29 255'
    check 'it is told what to ask' grep -q "whether everything comes again: vanillatarn period ${words#* }" err
    # shellcheck disable=SC2086 # several words
    call choices --horizon $words
    says 1
    complains 'refused 29 255'
    check 'it is told what to ask' grep -q "whether everything comes again: vanillatarn period ${words#* }" err
done
call run --horizon 0 --json cellar.bin early.bin
says 1
check 'the refusal is in the object' grep -q '"refused":{"number":29,"component":null}' out
call run --horizon 21 incident.bin early.bin
says 1
complains 'refused 16 0'
misuses <<'TEXT'
run --horizon 4294967296 plan.bin early.bin|--horizon '4294967296' is above 4294967295
run --horizon x plan.bin early.bin|--horizon 'x' is not a number
run --horizon 20 --horizon 20 plan.bin early.bin|--horizon is given twice
run --horizon 20 --spread 1 plan.bin early.bin|--horizon and --spread exclude each other
run --horizon 20 --offsets 1 plan.bin early.bin|--horizon and --offsets exclude each other
choices --horizon 20 --offsets 1 plan.bin|--horizon and --offsets exclude each other
run plan.bin early.bin --horizon|--horizon lacks its number
schedule --horizon 20 plan.bin|'schedule' has no option --horizon
TEXT
