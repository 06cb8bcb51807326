# `vanillatarn simulate`: counts of late runs in words and as JSON, sweeps, the choices of a run, progress. Part of test.sh.
# shellcheck shell=bash
# shellcheck disable=SC2034,SC2154 # test.sh sets root, work and corpus, and looks at what and status

# Standard output is these lines, and standard error is empty.
prints() {
    printf '%s\n' "$@" >expected
    gives expected
}

## In words

call simulate --work 0..2 --runs 100 cellar.bin
says 0
prints 'runs 100' 'late 37, 37.0 %' 'node 0: 0, 0.0 %' 'node 1: 37, 37.0 %' 'first late run: 0, node 1' 'generator 3108015255'
cp out counted
call simulate cellar.bin --runs 100 --work 0..2 --seed 2463534242
says 0
gives counted
call simulate --work 00..02 --runs 0100 - <cellar.bin
says 0
gives counted
call simulate --work 0..2 --runs 100 cellar.txt
says 0
gives counted
call simulate --work 0..1 --runs 100 cellar.bin
says 0
prints 'runs 100' 'late 0, 0.0 %' 'node 0: 0, 0.0 %' 'node 1: 0, 0.0 %' 'first late run: none' 'generator 3198213412'
call simulate --work 3 --runs 1 cellar.bin
says 0
prints 'runs 1' 'late 1, 100.0 %' 'node 0: 1, 100.0 %' 'node 1: 0, 0.0 %' 'first late run: 0, node 0' 'generator 723471715'
call simulate --work 0..2 --runs 50 --seed 123456789 cellar.bin
says 0
check 'another seed, another answer' test "$(sed -n 2p out)" = 'late 21, 42.0 %'
call simulate --work 0..60000 --runs 20 cellar.bin
says 0
check 'the longest work' test "$(sed -n 2p out)" = 'late 20, 100.0 %'

# Runs in pieces: those of 10,000 at once, and those that go on from the generator of others.
call simulate --work 0..3 --runs 10000 cellar.bin
says 0
prints 'runs 10000' 'late 7871, 78.7 %' 'node 0: 5027, 50.3 %' 'node 1: 2844, 28.4 %' 'first late run: 0, node 0' 'generator 684102503'
call simulate --work 0..3 --runs 150 cellar.bin
says 0
first=$(sed -n 's/^late \([0-9]*\), .*/\1/p' out) generator=$(sed -n 's/^generator //p' out)
call simulate --work 0..3 --runs 50 --seed "$generator" cellar.bin
says 0
rest=$(sed -n 's/^late \([0-9]*\), .*/\1/p' out) generator=$(sed -n 's/^generator //p' out)
call simulate --work 0..3 --runs 200 cellar.bin
says 0
check 'the sums are those of all runs' test "$(sed -n 's/^late \([0-9]*\), .*/\1/p' out)" -eq "$((first + rest))"
check 'the generator is that of all runs' test "$(sed -n 's/^generator //p' out)" = "$generator"

# The vectors: the counts and the generator of each that is not refused and has a short table.
held=0
while IFS=$'\t' read -r name request answer; do
    read -r -a words <<<"$request"
    [[ $answer != refused* && ${#words[1]} -lt 300 && ${words[4]} -le 200 ]] || continue
    # shellcheck disable=SC2001,SC2059 # bytes
    printf "$(sed 's/../\\x&/g' <<<"${words[1]}")" >table
    call simulate --work "${words[2]}..${words[3]}" --runs "${words[4]}" ${words[5]+--seed "${words[5]}"} table
    says 0
    told="$(sed -n -e 's/^late \([0-9]*\), .*/\1/p' -e 's/^node [0-7]: \([0-9]*\), .*/\1/p' out | tr '\n' ' ')"
    check "$name: the counts are the stored ones" test "${told% }|state $(sed -n 's/^generator //p' out)" = "$answer"
    held=$((held + 1))
done <"$root/vectors/simulations.tsv"
check 'many vectors were held' test "$held" -ge 60

## Sweeps

call simulate --work 0..4 --runs 1000 --sweep cellar.bin
says 0
prints 'work   late    share' '0..0      0    0.0 %' '0..1      0    0.0 %' '0..2    372   37.2 %  ###############' \
    '0..3    800   80.0 %  ################################' '0..4    904   90.4 %  #####################################' 'no late run up to 0..1'
call simulate --work 2..3 --runs 10 --sweep cellar.bin
says 0
check 'the last line tells that none is in time' test "$(tail -n 1 out)" = 'late runs at the least work time'
call simulate --work 0..60000 --runs 1 --sweep cellar.bin
says 0
check '41 work times, a heading and the last line' test "$(wc -l <out)" -eq 43
check 'the greatest is among them' grep -q '^0\.\.60000 ' out

## As JSON

call simulate --json --work 0..2 --runs 100 cellar.bin
says 0
prints '{"lo":0,"hi":2,"runs":100,"seed":2463534242,"late":37,"nodes":[0,37],"first_late":{"run":0,"node":1},"generator":3108015255,"refused":null}'
call simulate --json --sweep --work 0..1 --runs 3 --seed 1 cellar.bin
says 0
check 'an object a line' test "$(wc -l <out)" -eq 2
check 'no run was late' test "$(grep -c '"runs":3,"seed":1,"late":0,"nodes":\[0,0\],"first_late":null,' out)" -eq 2
call simulate --json --work 0..2 --runs 0 cellar.bin
says 1
prints '{"lo":0,"hi":2,"runs":0,"seed":2463534242,"late":null,"nodes":[],"first_late":null,"generator":null,"refused":{"number":23,"component":null}}'
call simulate --json --sweep --work 0..2 --runs 5 --seed 0 incident.bin
says 1
prints '{"lo":0,"hi":2,"runs":5,"seed":0,"late":null,"nodes":[],"first_late":null,"generator":null,"refused":{"number":16,"component":0}}'

## The choices of a run

call simulate --work 0..2 --runs 100 --show 0 cellar.bin -o shown.bin
says 0
gives empty
call run cellar.bin shown.bin
says 1
starts 'late: node 1'
check 'it is late at tick 11, and no choice is left' test "$(sed -n 2p out)" = "tick 11, choices used $(wc -c <shown.bin), observations 4"
call simulate --work 0..2 --runs 100 --show 0 cellar.txt
says 0
gives shown.bin
call simulate --work 0..1 --runs 100 --show 99 cellar.bin -o shown.bin
says 0
call run cellar.bin shown.bin
says 0
starts 'horizon reached'
# As many of the first 20 runs are late as are counted.
call simulate --work 0..2 --runs 20 cellar.bin
counted=$(sed -n 's/^late \([0-9]*\), .*/\1/p' out) late=0
for ((number = 0; number < 20; number++)); do
    call simulate --work 0..2 --runs 20 --show "$number" cellar.bin -o shown.bin
    says 0
    call run cellar.bin shown.bin
    late=$((late + status))
done
check 'as many are late as are counted' test "$late" -eq "$counted"
call simulate --work 0..2 --runs 100 --show 100 cellar.bin
says 2
complains 'there is no run 100: the runs are 0 to 99'
cp kept old
for words in '--work 0..2 --runs 100 --show 100 cellar.bin' '--work 3..2 --runs 100 --show 0 cellar.bin' '--work 0..2 --runs 1 --show 0 incident.bin'; do
    # shellcheck disable=SC2086 # several words
    call simulate $words -o old
    check 'the file of -o is as it was' cmp -s kept old
done
call simulate --work 0..2 --runs 1 --show 0 cellar.bin -o cellar.bin
says 2
complains '-o names the input cellar.bin'

## Refusals

while IFS='|' read -r words answer; do
    # shellcheck disable=SC2086 # several words
    call simulate $words cellar.bin
    says 1
    complains "refused $answer 255"
    check 'nothing is said of the table' test "$(grep -c 'vanillatarn verdict' err)" -eq 0
done <<'TEXT'
--work 0..2 --runs 1 --seed 0|22
--work 0..2 --runs 0 --seed 0|22
--work 3..2 --runs 1|23
--work 0..60001 --runs 1|23
--work 60001 --runs 1|23
--work 0..4294967295 --runs 1|23
--work 0..2 --runs 0|23
--work 0..2 --runs 10001|23
--work 0..2 --runs 4294967295 --sweep|23
--work 3..2 --runs 1 --sweep|23
--work 0..60001 --runs 10000 --sweep|23
TEXT
check 'the question is told' grep -q -x 'The answer is no: Is lo at most hi, hi at most 60,000, and are the runs 1 to 10,000?' err
call simulate --work 0..2 --runs 1 --seed 0 cellar.bin
check 'the question is told' grep -q -x 'The answer is no: Is the seed at least 1?' err
call simulate --work 3..2 --runs 0 --seed 0 incident.bin
says 1
complains 'refused 16 0'
check 'the component is named' grep -q -x 'Component 0 is concerned.' err
check 'more about the table is named' grep -q -F 'vanillatarn: the table is refused; more about it: vanillatarn verdict incident.bin' err
call simulate --work 0..2 --runs 1 program.bin
says 2
complains 'program.bin: this is a program, not a table'
call simulate --work 0..2 --runs 1 fault.txt
says 1
complains 'fault.txt: line 2: '
call simulate --work 0..2 --runs 1 empty
says 2
complains 'empty: is empty'
call simulate --work 0..2 --runs 1 absent
says 2
complains 'absent: no such file'
unwritable 'simulate --work 0..2 --runs 1 cellar.bin' 'simulate --work 0..2 --runs 1 --sweep cellar.bin' 'simulate --json --work 3..2 --runs 1 cellar.bin' \
    'simulate --work 0..2 --runs 1 --show 0 cellar.bin'

## On a terminal: how far a long simulation is, and no bytes

if command -v script >/dev/null; then
    what='simulate, on a terminal' status=0
    script -qec "$root/vanillatarn simulate --work 0 --runs 10000 $corpus/accepted_1024_passages.bin" /dev/null </dev/null >out 2>err || status=$?
    says 0
    check 'it is told how many runs are done' grep -q -a -E '[0-9]+ of 10000 runs' out
    check 'the answer stands on lines of its own' grep -q -a -E '^late 0, 0\.0 %' out
    what='simulate --show, on a terminal' status=0
    script -qec "$root/vanillatarn simulate --work 0..1 --runs 1 --show 0 cellar.bin" /dev/null </dev/null >out 2>err || status=$?
    says 2
    check 'the terminal gets no bytes' grep -q 'is a terminal: add -o FILE' out
fi
call simulate --work 0..3 --runs 10000 cellar.bin
check 'nothing is told where there is none' test ! -s err

## Wrong use

misuses <<'TEXT'
simulate cellar.bin --runs 1|--work is missing (see: vanillatarn simulate --help)
simulate cellar.bin --work 0..2|--runs is missing
simulate --work 0..2 --runs 1|TABLE is missing
simulate --work 0..2 --runs 1 cellar.bin cellar.bin|one word too many: cellar.bin
simulate --work 0-2 --runs 1 cellar.bin|--work '0-2' is neither LO..HI nor a number
simulate --work 0..2..3 --runs 1 cellar.bin|--work '0..2..3' is neither LO..HI nor a number
simulate --work ..2 --runs 1 cellar.bin|--work '..2' is neither LO..HI nor a number
simulate --work 0..2 --runs x cellar.bin|--runs 'x' is not a number
simulate --work 0..2 --runs 4294967296 cellar.bin|--runs '4294967296' is above 4294967295
simulate --work 0..2 --runs 1 --seed 4294967296 cellar.bin|--seed '4294967296' is above 4294967295
simulate --work 0..99999999999 --runs 1 cellar.bin|--work '99999999999' is above 4294967295
simulate --work 0..2 --work 0..2 --runs 1 cellar.bin|--work is given twice
simulate --work 0..2 --runs 1 --runs 2 cellar.bin|--runs is given twice
simulate --work 0..2 --runs 1 --seed 1 --seed 2 cellar.bin|--seed is given twice
simulate cellar.bin --work|--work lacks its number
simulate --work 0..2 --runs 1 --show x cellar.bin|--show 'x' is not a number
simulate --work 0..2 --runs 1 --show 0 --sweep cellar.bin|--show and --sweep exclude each other
simulate --work 0..2 --runs 1 --show 0 --json cellar.bin|--show and --json exclude each other
simulate --work 0..2 --runs 1 cellar.bin -o file|-o is for --show alone
simulate --work 0..2 --runs 1 --quiet cellar.bin|'simulate' has no option --quiet
run cellar.bin early.bin --work 0..2|'run' has no option --work
schedule cellar.bin --sweep|'schedule' has no option --sweep
TEXT
