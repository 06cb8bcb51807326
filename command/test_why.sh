# `vanillatarn why`: the passage at a tick and the reason of each edge, in words, as JSON and by the line of a text. Part of test.sh.
# shellcheck shell=bash
# shellcheck disable=SC2034,SC2154 # test.sh sets root, work and corpus, and looks at what and status

# The last lines of standard output are these, and standard error is empty.
ends_with() {
    printf '%s\n' "$@" >expected
    check "the last lines are: $*" cmp -s expected <(tail -n "$#" out)
    check 'standard error is empty' test ! -s err
}

# The passage: its number, then its line in the schedule.
is_in_passage() {
    printf '%s\n' "passage ${1%% *}" 'c e l entry ready end msg' "${1#* }" >expected
    check "the passage is: $1" cmp -s expected <(head -n 3 out)
}

## In words: the worked table, its schedule's line and the one edge from each location

while IFS='|' read -r question passage edge; do
    # shellcheck disable=SC2086 # two words
    call why cellar.bin $question
    says 0
    is_in_passage "$passage"
    ends_with "$edge"
    number=${passage%% *}
    check 'the line is that of the schedule' test "${passage#* }" = "$(sed -n "$((number + 2))p" "$corpus/probe_and_hub.schedule")"
done <<'TEXT'
0 0|0 0 0 0 0 3 5 0|edge 0: taken, ticks 3 to 5
0 4|0 0 0 0 0 3 5 0|edge 0: taken, ticks 3 to 5
0 5|2 0 1 1 5 8 10 -|edge 1: taken, ticks 8 to 10
1 5|1 1 0 0 0 2 6 0|edge 0: taken, ticks 2 to 6
1 6|3 1 1 1 6 9 10 -|edge 1: taken, ticks 9 to 10
01 0019|7 1 1 1 16 19 20 -|edge 1: taken, ticks 19 to 20
TEXT

# All five reasons, and from standard input.
five=('edge 0: data bound 1 fails: v0 is 0, allowed 1 to 9'
    'edge 1: no window of at least one tick: ready at tick 20 by clock bound 0, over from tick 21 on by the invariant'
    'edge 2: taken, ticks 4 to 20' 'edge 3: ready later, at tick 5' 'edge 4: ready together with edge 2, numbered higher')
call why "$corpus/accepted_five_reasons.bin" 0 0
says 0
ends_with "${five[@]}"
call why - 0 0 <"$corpus/accepted_five_reasons.bin"
says 0
ends_with "${five[@]}"
call why "$corpus/accepted_five_reasons.bin" 0 41
says 0
is_in_passage '2 0 2 0 40 44 60 -'
ends_with 'edge 0: data bound 1 fails: v0 is 0, allowed 1 to 9' \
    'edge 1: no window of at least one tick: ready at tick 60 by clock bound 0, over from tick 61 on by the invariant' 'edge 2: taken, ticks 44 to 60' 'edge 3: ready later, at tick 45' \
    'edge 4: ready together with edge 2, numbered higher'
call why "$corpus/accepted_higher_number_32_edges.bin" 0 24
says 0
check '32 edges are told' test "$(grep -c '^edge ' out)" -eq 32
check '31 are numbered higher' test "$(grep -c 'ready together with edge 0, numbered higher$' out)" -eq 31

# Budgets: a window of two ticks for three, of ten for eleven, none for one, of six for six, of one for one; x1 is never reset.
cat >valve.txt <<'TEXT'
horizon 40
channels 0
component
  clocks 2
  variables 0
  initial 0
  location x0 <= 10
  internal 0 -> 0
    budget 3
    when x0 from 3 to 5
    reset x0
  internal 0 -> 0
    budget 11
    reset x0
  internal 0 -> 0
    budget 1
    when x0 from 10
    reset x0
  internal 0 -> 0
    budget 6
    when x0 from 4
    reset x0
  internal 0 -> 0
    budget 1
    when x0 from 9
    reset x0
  internal 0 -> 0
    budget 60000
    when x0 from 1
    when x1 from 2 to 12
    reset x0
TEXT
"$root/vanillatarn" table valve.txt -o valve.bin
call why valve.bin 0 0
says 0
is_in_passage '0 0 3 0 0 4 10 -'
ends_with 'edge 0: window shorter than its budget of 3: ready at tick 3 by clock bound 0, end at tick 5 by clock bound 0' \
    'edge 1: window shorter than its budget of 11: ready at tick 0, end at tick 10 by the invariant' \
    'edge 2: no window of at least one tick: ready at tick 10 by clock bound 0, over from tick 11 on by the invariant' \
    'edge 3: taken, ticks 4 to 10' 'edge 4: ready later, at tick 9' \
    'edge 5: window shorter than its budget of 60000: ready at tick 2 by clock bound 1, end at tick 10 by the invariant'
call why valve.bin 0 11
says 0
is_in_passage '1 0 3 0 10 14 20 -'
ends_with 'edge 0: window shorter than its budget of 3: ready at tick 13 by clock bound 0, end at tick 15 by clock bound 0' \
    'edge 1: window shorter than its budget of 11: ready at tick 10, end at tick 20 by the invariant' \
    'edge 2: no window of at least one tick: ready at tick 20 by clock bound 0, over from tick 21 on by the invariant' \
    'edge 3: taken, ticks 14 to 20' 'edge 4: ready later, at tick 19' \
    'edge 5: window shorter than its budget of 60000: ready at tick 11 by clock bound 0, end at tick 12 by clock bound 1'
call why "$corpus/accepted_budget_first_edge_too_short.bin" 0 29
says 0
is_in_passage '2 0 1 0 20 26 30 -'
ends_with 'edge 0: window shorter than its budget of 6: ready at tick 25 by clock bound 0, end at tick 30 by the invariant' \
    'edge 1: taken, ticks 26 to 30'

# The answers beside the tables of the corpus: the words of the reasons for those of the file.
shorten() {
    sed -n -e 's/^passage //p' -e 's/^edge \([0-9]*\): taken, .*/|\1 taken/p' -e 's/^edge \([0-9]*\): data bound \([0-9]\) fails: .*/|\1 data \2/p' \
        -e 's/^edge \([0-9]*\): no window of .*/|\1 window/p' -e 's/^edge \([0-9]*\): window shorter than .*/|\1 window/p' \
        -e 's/^edge \([0-9]*\): ready later, .*/|\1 later/p' -e 's/^edge \([0-9]*\): ready together .*/|\1 higher/p' | tr -d '\n'
}
for name in probe_and_hub accepted_five_reasons accepted_counter_chooses_edge accepted_edges_tie accepted_two_bands \
    accepted_budget_first_edge_too_short accepted_budget_ready_at_once_too_short accepted_budgets_of_probe_and_hub; do
    while read -r component tick answer; do
        call why "$corpus/$name.bin" "$component" "$tick"
        if [[ $answer == refused* ]]; then
            says 1
            complains "$answer"
        else
            says 0
            check "$name: the answer is the stored one" test "$(shorten <out)" = "$answer"
        fi
    done <"$corpus/$name.why"
done

## In a text: the line of each edge

grep -v '^ *#' "$corpus/probe_and_hub.txt" | sed '/./,$!d' >plain.txt
call why plain.txt 1 6
says 0
is_in_passage '3 1 1 1 6 9 10 -'
ends_with 'edge 1: taken, ticks 9 to 10' 'Edge 1 is line 26 of plain.txt: internal 1 -> 0'
call why - 0 0 <plain.txt
says 0
ends_with 'edge 0: taken, ticks 3 to 5' 'Edge 0 is line 10 of standard input: send 0 -> 1 on 0'
cp "$corpus/accepted_five_reasons.txt" 'five reasons.txt'
call why 'five reasons.txt' 0 0
says 0
lines=()
for edge in 0 1 2 3 4; do
    line="$(grep -n "^  internal .*# $edge:" 'five reasons.txt' | cut -d : -f 1)"
    lines+=("Edge $edge is line $line of five reasons.txt: internal 0 -> 0")
done
ends_with "${five[@]}" "${lines[@]}"

## As JSON

call why --json cellar.bin 0 5
says 0
printf '%s\n' '{"file":"cellar.bin","component":0,"tick":5,"passage":2,"entry":5,"ready":8,"end":10,"edges":[{"edge":1,"reason":"taken","bound":null,"ready":8,"end":10}],"refused":null}' >expected
gives expected
call why plain.txt 1 6 --json
says 0
printf '%s\n' '{"file":"plain.txt","component":1,"tick":6,"passage":3,"entry":6,"ready":9,"end":10,"edges":[{"edge":1,"reason":"taken","bound":null,"ready":9,"end":10,"line":26}],"refused":null}' >expected
gives expected
call why --json "$corpus/accepted_five_reasons.bin" 0 20
says 0
{
    printf '{"file":"%s","component":0,"tick":20,"passage":1,"entry":20,"ready":24,"end":40,"edges":[' "$corpus/accepted_five_reasons.bin"
    printf '{"edge":0,"reason":"data bound","bound":1,"ready":null,"end":null},{"edge":1,"reason":"no window","bound":null,"ready":null,"end":null},'
    printf '{"edge":2,"reason":"taken","bound":null,"ready":24,"end":40},{"edge":3,"reason":"ready later","bound":null,"ready":25,"end":null},'
    printf '{"edge":4,"reason":"higher number","bound":null,"ready":24,"end":null}],"refused":null}\n'
} >expected
gives expected
call why valve.txt 0 11 --json
says 0
{
    printf '{"file":"valve.txt","component":0,"tick":11,"passage":1,"entry":10,"ready":14,"end":20,"edges":['
    printf '{"edge":0,"reason":"no window","bound":null,"ready":13,"end":15,"line":8},{"edge":1,"reason":"no window","bound":null,"ready":10,"end":20,"line":12},'
    printf '{"edge":2,"reason":"no window","bound":null,"ready":null,"end":null,"line":15},{"edge":3,"reason":"taken","bound":null,"ready":14,"end":20,"line":19},'
    printf '{"edge":4,"reason":"ready later","bound":null,"ready":19,"end":null,"line":23},{"edge":5,"reason":"no window","bound":null,"ready":11,"end":12,"line":27}'
    printf '],"refused":null}\n'
} >expected
gives expected
call why --json cellar.bin 0 20
says 1
printf '%s\n' '{"file":"cellar.bin","component":0,"tick":20,"passage":null,"edges":[],"refused":{"number":21,"component":null}}' >expected
gives expected
call why --json incident.bin 9 99
says 1
printf '%s\n' '{"file":"incident.bin","component":9,"tick":99,"passage":null,"edges":[],"refused":{"number":16,"component":0}}' >expected
gives expected
call why --json cellar.bin 18446744073709551616 0
says 1
printf '%s\n' '{"file":"cellar.bin","component":4294967295,"tick":0,"passage":null,"edges":[],"refused":{"number":21,"component":null}}' >expected
gives expected

## Refusals

for words in '2 0' '0 20' '256 0' '0 65539' '0 4294967296' '99999999999999999999 0' '4294967295 4294967295'; do
    # shellcheck disable=SC2086 # two words
    call why cellar.bin $words
    says 1
    complains 'refused 21 255'
    check 'the question is told' grep -q -x 'The answer is no: Is the component there and the tick below the horizon?' err
    check 'nothing is said of the table' test "$(grep -c 'vanillatarn verdict' err)" -eq 0
done
call why incident.bin 9 99
says 1
complains 'refused 16 0'
check 'more about the table is named' grep -q -F 'vanillatarn: the table is refused; more about it: vanillatarn verdict incident.bin' err
call why program.bin 0 0
says 2
complains 'program.bin: this is a program, not a table'
call why fault.txt 0 0
says 1
complains 'fault.txt: line 2: '
call why empty 0 0
says 2
complains 'empty: is empty'
call why absent 0 0
says 2
complains 'absent: no such file'
unwritable 'why cellar.bin 0 0' 'why --json cellar.bin 0 20'

## Wrong use

misuses <<'TEXT'
why cellar.bin 0|TICK is missing (see: vanillatarn why --help)
why cellar.bin 0 tick|TICK 'tick' is not a number
why cellar.bin x 0|COMPONENT 'x' is not a number
why cellar.bin 0 1x|TICK '1x' is not a number
why cellar.bin 0 0.5|TICK '0.5' is not a number
why cellar.bin 0 -1|unknown option -1
why cellar.bin 0 0 --quiet|'why' has no option --quiet
why cellar.bin 0 0 -o file|'why' has no option -o
translate cellar.bin --json|'translate' has no option --json
TEXT
