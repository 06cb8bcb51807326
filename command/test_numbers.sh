# `vanillatarn plan` and `vanillatarn edge`, which are asked with numbers. Part of test.sh.
# shellcheck shell=bash
# shellcheck disable=SC2034,SC2154 # test.sh sets root, work and corpus, and looks at what and status

## Plans

call plan --probes 3 --slot 40 --guard 5 --period 500 -o plan.bin
says 0
gives empty
check 'the plan is that of the corpus' cmp -s plan.bin "$corpus/accepted_plan_three_probes.bin"
call plan --period 0500 --guard 5 --slot 40 --probes 3
says 0
gives plan.bin
call verdict plan.bin
says 0
starts accepted

for words in '--probes 8 --slot 1 --guard 1 --period 100' '--probes 1 --slot 1 --guard 1 --period 3' '--probes 1 --slot 1 --guard 0 --period 100' \
    '--probes 4294967297 --slot 1 --guard 1 --period 100' '--probes 18446744073709551617 --slot 1 --guard 1 --period 100'; do
    printf kept >kept
    # shellcheck disable=SC2086 # several words
    call plan $words -o kept
    says 1
    complains 'refused 18 255'
    check 'the question is told' grep -q 'The answer is no: Are the numbers in range and probes x (slot + 2 x guard) below the period?' err
    check 'the file is as it was' test "$(cat kept)" = kept
done

## Edges

# Which edge: its words, then the two lines. The hub's clock and variable, and those that it does not have.
while IFS='|' read -r words taken looked; do
    # shellcheck disable=SC2086 # several words
    call edge cellar.bin $words
    says 0
    printf '%s\n' "$taken" "$looked" >expected
    gives expected
done <<'TEXT'
--component 0 --location 0|edge 0, from 3 to 5 ticks after the entry|looked at 2 edges
--component 1 --location 0|edge 0, from 2 to 6 ticks after the entry|looked at 3 edges
--component 1 --location 0 --clocks 2|edge 0, from 0 to 4 ticks after the entry|looked at 1 edge
--clocks 9,0,0,4294967295 --component 1 --location 1|edge 1, from 0 to 1 ticks after the entry|looked at 2 edges
--component 1 --variables -32768,32767 --location 2 --clocks 9|edge 2, from 0 to 1 ticks after the entry|looked at 3 edges
TEXT
call edge "$corpus/accepted_edge_ready_at_once_last_of_32.bin" --component 0 --location 0
says 0
starts 'edge 31, from 0 to 40 ticks after the entry'
check 'all edges are looked at' grep -q -x 'looked at 32 edges' out
call edge "$corpus/accepted_ready_at_once_without_window.bin" --component 0 --location 0
starts 'edge 2, from 0 to 1 ticks after the entry'
check 'an edge without a window does not stop it' grep -q -x 'looked at 3 edges' out
call edge - --component 1 --location 0 --clocks 6 <cellar.bin
says 1
starts 'no edge is a candidate'
check 'all edges are looked at' grep -q -x 'looked at 3 edges' out
call edge cellar.bin --component 2 --location 0
says 1
starts 'there is no component 2'
# A table that 8 refuses is answered, one that 2 refuses is not.
sed 's/x0 from 3/x0 from 5/' cellar.txt >shut.txt
call table shut.txt -o shut.bin
call verdict shut.bin
starts 'refused 8 0'
call edge shut.bin --component 0 --location 0
says 1
starts 'no edge is a candidate'
head -c 102 cellar.bin >cut.bin
call edge cut.bin --component 0 --location 0
says 1
complains 'refused 2 255'

## Wrong use

misuses <<'TEXT'
plan --probes 1 --slot 1 --guard 1|--period is missing
plan --probes|--probes lacks its number
plan --probes x --slot 1 --guard 1 --period 4|--probes 'x' is not a number
plan --probes 1 --probes 2|--probes is given twice
plan 1 1 1 4|one word too many: 1
verdict --probes 1 cellar.bin|'verdict' has no option --probes
verdict --component 0 cellar.bin|'verdict' has no option --component
edge cellar.bin --location 0|--component is missing
edge cellar.bin --component 0|--location is missing
edge cellar.bin --component 0 --location|--location lacks its number
edge cellar.bin --component 256 --location 0|--component: '256' is not a number from 0 to 255
edge cellar.bin --component 01 --location 0|--component: '01' is not a number from 0 to 255
edge cellar.bin --component 0,1 --location 0|--component: '0,1' is not one number
edge cellar.bin --component 0 --location x|--location: 'x' is not a number from 0 to 255
edge cellar.bin --component 0 --location 0 --clocks 4294967296|--clocks: '4294967296' is not a number from 0 to 4294967295
edge cellar.bin --component 0 --location 0 --clocks -1|--clocks: '-1' is not a number from 0 to 4294967295
edge cellar.bin --component 0 --location 0 --clocks 1,2,3,4,5|--clocks: there are at most four
edge cellar.bin --component 0 --location 0 --clocks 1,|--clocks: a number is missing behind the last comma
edge cellar.bin --component 0 --location 0 --clocks 1,,2|--clocks: '' is not a number
edge cellar.bin --component 0 --location 0 --variables 32768|--variables: '32768' is not a number from -32768 to 32767
edge cellar.bin --component 0 --location 0 -o file|'edge' has no option -o
TEXT
