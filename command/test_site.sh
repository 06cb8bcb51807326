# `vanillatarn airtime` and `vanillatarn site`: in words and as JSON, the vectors, refusals. Part of test.sh.
# shellcheck shell=bash
# shellcheck disable=SC2034,SC2154 # test.sh sets root, work and corpus, and looks at what and status

# Standard output is these lines, and standard error is empty.
prints() {
    printf '%s\n' "$@" >expected
    gives expected
}

# The bytes of a hexadecimal word, - for none: the file.
bytes_of() {
    # shellcheck disable=SC2001,SC2059 # bytes
    if [[ $1 == - ]]; then : >"$2"; else printf "$(sed 's/../\\x&/g' <<<"$1")" >"$2"; fi
}

## The airtime of a table

call airtime cellar.bin
says 0
prints 'airtime 6' 'horizon 20' 'share 30.0 %'
call airtime cellar.txt
says 0
prints 'airtime 6' 'horizon 20' 'share 30.0 %'
call airtime - <cellar.bin
says 0
prints 'airtime 6' 'horizon 20' 'share 30.0 %'
call airtime --json cellar.bin
says 0
prints '{"file":"cellar.bin","horizon":20,"airtime":6,"refused":null}'
head -c 50 cellar.bin >short.bin
call airtime --json short.bin
says 1
prints '{"file":"short.bin","horizon":null,"airtime":null,"refused":{"number":2,"component":null}}'
call airtime short.bin
says 1
check 'the refusal is told on standard error' test "$(head -n 1 err)" = 'refused 2 255'
call airtime nowhere
says 2

# The vectors; an empty table is wrong use.
held=0
while IFS=$'\t' read -r name request answer; do
    read -r -a words <<<"$request"
    [[ ${words[0]} == air && ${words[1]} != - ]] || continue
    bytes_of "${words[1]}" table
    call airtime table
    if [[ $answer == refused* ]]; then
        says 1
        check "$name: it is refused as stored" test "$(head -n 1 err)" = "$answer"
    else
        says 0
        check "$name: the airtime is the stored one" test "$(head -n 1 out)" = "airtime $answer"
    fi
    held=$((held + 1))
done <"$root/vectors/sites.tsv"
check 'many vectors were held' test "$held" -ge 24

## Sites

# Another horizon in the worked table.
{ head -c 6 cellar.bin; printf '\x0a'; tail -c +8 cellar.bin; } >shorter.bin
call site 18 cellar.bin cellar.txt cellar.bin
says 0
prints 'place 0: cellar.bin: airtime 6, in use 6, left 12' 'place 1: cellar.txt: airtime 6, in use 12, left 6' \
    'place 2: cellar.bin: airtime 6, in use 18, left 0' 'in use 18 of 18, left 0'
call site 017 cellar.bin cellar.bin - <cellar.bin
says 1
prints 'place 0: cellar.bin: airtime 6, in use 6, left 11' 'place 1: cellar.bin: airtime 6, in use 12, left 5' \
    'place 2: -: refused 28 255' 'The answer is no: Is the airtime in use with this network at most the limit?' 'its airtime is 6, left 5' \
    'in use 12 of 17, left 5'
call site 100 cellar.bin shorter.bin cellar.bin
says 1
prints 'place 0: cellar.bin: airtime 6, in use 6, left 94' 'place 1: shorter.bin: refused 27 255' \
    'The answer is no: Is the horizon that of the networks present?' 'its horizon is 10, that of the networks present 20' \
    'place 2: cellar.bin: airtime 6, in use 12, left 88' 'in use 12 of 100, left 88'
call site 100 shorter.bin
says 0
prints 'place 0: shorter.bin: airtime 3, in use 3, left 97' 'in use 3 of 100, left 97'
call site 4294967295 cellar.bin cellar.bin cellar.bin cellar.bin cellar.bin
says 1
check 'the fifth is refused with 26' grep -q '^place 4: cellar.bin: refused 26 255$' out
check 'four are in' test "$(tail -n 1 out)" = 'in use 24 of 4294967295, left 4294967271'
call site 100 short.bin cellar.bin
says 1
prints 'place 0: short.bin: refused 2 255' 'The answer is no: Is the stated length the length handed in, from 7 to 8,192?' \
    'more about it: vanillatarn verdict short.bin' 'place 1: cellar.bin: airtime 6, in use 6, left 94' 'in use 6 of 100, left 94'
call site --json 7 cellar.bin cellar.bin
says 1
prints '{"place":0,"file":"cellar.bin","horizon":20,"airtime":6,"limit":7,"in_use":6,"left":1,"refused":null}' \
    '{"place":1,"file":"cellar.bin","horizon":20,"airtime":6,"limit":7,"in_use":6,"left":1,"refused":{"number":28,"component":null}}'

# Wrong use: nothing is put in.
call site 7
says 2
call site x cellar.bin
says 2
check 'the limit is named' grep -q "LIMIT 'x' is not a number" err
call site 4294967296 cellar.bin
says 2
call site 7 - - <cellar.bin
says 2
call site 7 cellar.bin nowhere
says 2
check 'nothing is printed' test ! -s out
call site --quiet 7 cellar.bin
says 2
