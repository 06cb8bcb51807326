# `vanillatarn where`: the passages of the pairs of a log, in words and as JSON, and the line of a bad pair. Part of test.sh.
# shellcheck shell=bash
# shellcheck disable=SC2034,SC2154 # test.sh sets root, work and corpus, and looks at what and status

# Standard output is these lines, and standard error is empty.
prints() {
    printf '%s\n' "$@" >expected
    gives expected
}

# What was printed, as the vectors write it.
answered() {
    local bytes
    bytes="$(sed -n -e 's/^[0-9]* [0-9]* \([0-9]*\) before$/\1 0/p' -e 's/^[0-9]* [0-9]* \([0-9]*\) window$/\1 1/p' out |
        while read -r passage window; do printf '%04x%02x' "$passage" "$window"; done)"
    printf '%s|%s' "$(sed -n 's/^passages read: //p' out)" "${bytes:--}"
}

## In words

printf '%s\n' '# component tick' '0 0' '1 2' '' '0 3  # the probe may send' '0 5' $'1\t6' '0,8' '01 0019' >pairs
call where cellar.bin pairs
says 0
prints '0 0 0 before' '1 2 1 window' '0 3 0 window' '0 5 2 before' '1 6 3 before' '0 8 2 window' '1 19 7 window' 'passages read: 8'
cp out told
call where cellar.txt pairs
says 0
gives told
call where cellar.bin - <pairs
says 0
gives told
call where - pairs <cellar.bin
says 0
gives told
printf '%s\r\n' '0 5' '1 6' >'pairs with returns'
call where cellar.bin 'pairs with returns'
says 0
prints '0 5 2 before' '1 6 3 before' 'passages read: 4'
call where cellar.bin empty
says 0
prints 'passages read: 0'

# Each tick of both components: the passages are those of `why`.
for ((tick = 0; tick < 20; tick++)); do
    printf '%s\n' "0 $tick" "1 $tick"
done >all
call where cellar.bin all
says 0
check 'an answer a pair' test "$(wc -l <out)" -eq 41
cp out told
for pair in '0 4' '0 5' '1 5' '1 6' '0 19' '1 19'; do
    # shellcheck disable=SC2086 # two words
    call why cellar.bin $pair
    check "the passage of $pair" test "passage $(sed -n "s/^$pair \([0-9]*\) .*/\1/p" told)" = "$(head -n 1 out)"
done

# A log with more columns.
printf '%s\n' '08:00 3 tank 0 cold' '08:02 5 tank 1 warm' >log
call where --component 4 --tick 2 cellar.bin log
says 0
prints '0 3 0 window' '1 5 1 window' 'passages read: 3'
call where cellar.bin log --tick 02 --component 4
says 0
printf '%s\n' 'tank,0,2,cold' '# the hub' 'tank,1,6,warm' >commas
call where --component 2 --tick 3 cellar.bin commas
says 0
prints '0 2 0 before' '1 6 3 before' 'passages read: 4'

# The vectors: each that says nothing of what is lent and has a short table.
held=0
while IFS=$'\t' read -r name request answer; do
    read -r -a words <<<"$request"
    [[ ${words[0]} == where && ${words[1]} != - && ${#words[1]} -lt 400 ]] || continue
    # shellcheck disable=SC2001,SC2059 # bytes
    printf "$(sed 's/../\\x&/g' <<<"${words[1]}")" >table
    tr ',:' '\n ' <<<"${words[2]#-}" >pairs
    call where table pairs
    if [[ $answer == refused* ]]; then
        says 1
        complains "$answer"
    else
        says 0
        check "$name: the answers are the stored ones" test "$(answered)" = "$answer"
    fi
    held=$((held + 1))
done <"$root/vectors/positions.tsv"
check 'many vectors were held' test "$held" -ge 80

# The lists of the corpus.
held=0
for file in "$corpus"/*.where; do
    while read -r pairs answer; do
        tr ',:' '\n ' <<<"${pairs#-}" >pairs
        call where "${file%.where}.txt" pairs
        if [[ $answer == refused* ]]; then
            says 1
            complains "$answer"
        else
            says 0
            check "$pairs: the answers are the stored ones" test "$(answered)" = "$answer"
        fi
        held=$((held + 1))
    done <"$file"
done
check 'the lists of three tables were held' test "$held" -eq 30

## As JSON

printf '%s\n' '0 5' '1 6' >pairs
call where --json cellar.bin pairs
says 0
prints '{"component":0,"tick":5,"passage":2,"window":false}' '{"component":1,"tick":6,"passage":3,"window":false}' '{"read":4}'
call where --json cellar.bin empty
says 0
prints '{"read":0}'
printf '%s\n' '0 5' '# a gap' '1 2' >pairs
call where --json cellar.bin pairs
says 1
prints '{"line":3,"refused":{"number":24,"component":null}}'
call where --json incident.bin pairs
says 1
prints '{"line":null,"refused":{"number":16,"component":0}}'

## Refusals: the line at fault

while IFS='|' read -r text number words; do
    # shellcheck disable=SC2059 # line feeds
    printf "$text" >pairs
    call where cellar.bin pairs
    says 1
    complains "refused $number 255"
    complains "vanillatarn: pairs: $words"
    check 'nothing is said of the table' test "$(grep -c 'vanillatarn verdict' err)" -eq 0
done <<'TEXT'
0 5\n# more\n\n1 2\n|24|line 4: tick 2 comes after tick 5
0 5\n0 5\n0 4\n9 9\n|24|line 3: tick 4 comes after tick 5
2 0\n|21|line 1: there is no component 2, the last one is 1
0 5\n9 2\n|21|line 2: there is no component 9, the last one is 1
0 20\n0 1\n|21|line 1: tick 20 is not below the horizon, 20
0 99999999999999999999\n|21|line 1: tick 4294967295 is not below the horizon, 20
TEXT
check 'the question is told' grep -q -x 'The answer is no: Is the component there and the tick below the horizon?' err
printf '0 5\n0 4\n' >pairs
call where cellar.bin pairs
check 'the question is told' grep -q -x 'The answer is no: Is no tick below that of the pair before it?' err
call where cellar.bin - <pairs
says 1
complains 'vanillatarn: standard input: line 2: tick 4 comes after tick 5'
call where incident.bin pairs
says 1
complains 'refused 16 0'
check 'more about the table is named' grep -q -F 'vanillatarn: the table is refused; more about it: vanillatarn verdict incident.bin' err
call where program.bin pairs
says 2
complains 'program.bin: this is a program, not a table'
call where fault.txt pairs
says 1
complains 'fault.txt: line 2: '
call where cellar.bin log
says 1
complains "log: line 1: '08:00' in column 1 is not a number"
call where --component 4 --tick 6 cellar.bin log
says 1
complains 'log: line 1: there is no column 6'
for file in absent folder; do
    call where cellar.bin "$file"
    says 2
    complains "$file: "
    call where "$file" pairs
    says 2
    complains "$file: "
done
printf '0 5\n0 4\n' >unsorted
printf '0 5\n' >pairs
unwritable 'where cellar.bin pairs' 'where --json cellar.bin pairs' 'where --json cellar.bin unsorted'

## Wrong use

misuses <<'TEXT'
where cellar.bin|PAIRS is missing (see: vanillatarn where --help)
where cellar.bin pairs pairs|one word too many: pairs
where - -|only one of the files can be standard input
where --component 0 cellar.bin pairs|columns are counted from 1
where --tick x cellar.bin pairs|--tick 'x' is not a number
where --component 2 cellar.bin pairs|--component and --tick name the same column
where --component 2 --component 3 cellar.bin pairs|--component is given twice
where cellar.bin pairs --tick|--tick lacks its number
where cellar.bin pairs --location 0|'where' has no option --location
where cellar.bin pairs --quiet|'where' has no option --quiet
edge cellar.bin --component 0 --location 0 --tick 1|'edge' has no option --tick
TEXT
