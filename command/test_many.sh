# Many files a call, objects for scripts, and lists of names. Part of test.sh. What is told of several files is held to what is told of each.
# shellcheck shell=bash
# shellcheck disable=SC2034,SC2154 # test.sh sets root, work and corpus, and looks at what and status

cp "$corpus/accepted_period_no_counter.txt" turning.txt 2>/dev/null || cp cellar.txt turning.txt
printf 'horizon 20\nchannels 1\nno such line\n' >slip.txt
several=(cellar.bin incident.bin turning.txt slip.txt nothing.bin)

# A command with several files: the words before and behind the files.
many() {
    local -a before=() behind=()
    local file worst=0 word seen=''
    for word in "$@"; do
        if [[ $word == @ ]]; then
            seen=yes
        elif [[ -z $seen ]]; then
            before+=("$word")
        else
            behind+=("$word")
        fi
    done
    : >expected
    : >expected_json
    for file in "${several[@]}"; do
        call "${before[@]}" "$file" "${behind[@]}"
        worst=$((status > worst ? status : worst))
        if [[ -s out ]]; then
            { printf '%s:\n' "$file" && cat out; } >>expected
        fi
        call "${before[@]}" --json "$file" "${behind[@]}"
        cat out >>expected_json
        check 'an object a file' test "$(wc -l <out)" -eq 1
        check 'the file is named first' grep -q -F "{\"file\":\"$file\"," out
        check 'an answer, a refusal or an error' grep -q -E '"refused":(null|\{"number":[0-9]+,"component":(null|[0-9]+)\})|"error":"|"damaged":' out
    done
    call "${before[@]}" "${several[@]}" "${behind[@]}"
    says "$worst"
    check 'each file has its answer under its name' cmp -s expected out
    call "${before[@]}" --json "${several[@]}" "${behind[@]}"
    says "$worst"
    check 'an object a line' cmp -s expected_json out
    printf '%s\n' "${several[@]}" >names
    call "${before[@]}" --json --files-from names "${behind[@]}"
    says "$worst"
    check 'names by a list' cmp -s expected_json out
    printf '%s\0' "${several[@]}" >zeros
    what="vanillatarn ${before[*]} --files-from - -0" status=0
    "$root/vanillatarn" "${before[@]}" --json --files-from - -0 "${behind[@]}" <zeros >out 2>err || status=$?
    says "$worst"
    check 'names with zeros behind them' cmp -s expected_json out
}
many schedule @
many spread @
many chart @
many period @
many airtime @
many why @ 0 3
many edge @ --component 0 --location 0

## Of a text that has a fault the line is a number

call schedule --json slip.txt
says 1
check 'the line is a number' grep -q -F '"line":3}' out

## What an object says is what the words say

call spread --json cellar.bin
starts '{"file":"cellar.bin","spread":0,"refused":null}'
call schedule cellar.bin
tail -n +2 out | sed -e 's/-/null/g' -e 's/^\([^ ]*\) \([^ ]*\) \([^ ]*\) \([^ ]*\) \([^ ]*\) \([^ ]*\) \([^ ]*\)$/{"component":\1,"edge":\2,"location":\3,"entry":\4,"ready":\5,"end":\6,"message":\7}/' |
    paste -s -d , - | sed 's/.*/{"file":"cellar.bin","passages":[&],"refused":null}/' >expected
call schedule --json cellar.bin
gives expected
call chart cellar.bin
sed 's/^C[0-9]: \(.*\)$/"\1"/' out | paste -s -d , - | sed 's/.*/{"file":"cellar.bin","rows":[&],"refused":null}/' >expected
call chart --json cellar.bin
gives expected
call edge --json incident.bin --component 0 --location 9
says 1
starts '{"file":"incident.bin","component":0,"location":9,"edge":null,"ready":null,"end":null,"looked":2,"refused":null}'

## Programs

several=(program.bin cellar.bin nothing.bin)
many list @
call list --json program.bin
check 'its lines' grep -q -F '"lines":["version ' out
check 'it is not damaged' grep -q -F '"damaged":false}' out
head -c 60 program.bin >damaged
call list --json damaged
says 1
check 'it is damaged' grep -q -F '"damaged":true}' out

## Wrong use, and lists that name nothing

: >none
call verdict --files-from none
says 0
gives empty
call schedule --files-from names -
says 2
call spread --files-from nothing
says 2
complains 'nothing: no such file'
call chart --json --svg picture cellar.bin
says 2
complains '--json and --svg exclude each other'
call chart --svg picture cellar.bin cellar.txt
says 2
complains 'one word too many: cellar.txt'

## Runs without a list of choices first, and choices as text

for maker in --early --late '--seed 7' '--seed 4294967295'; do
    # shellcheck disable=SC2086 # two words
    call choices $maker cellar.bin -o made.choices
    says 0
    call run cellar.bin made.choices
    says 0
    starts 'horizon reached'
    cp out expected
    # shellcheck disable=SC2086 # two words
    call run $maker cellar.bin
    says 0
    gives expected
    # shellcheck disable=SC2086 # two words
    call run --json $maker cellar.bin
    says 0
done
call run --seed 7 cellar.bin
cp out drawn
call run --seed 8 cellar.bin
check 'another seed draws another order' test "$(cmp -s drawn out && echo same)" != same
call run --early incident.bin
says 1
check 'the refusal is told' grep -q -F 'refused 16 0' err
call run --early --spread 2 --offsets 2,0 wide.bin
says 0
call choices --early cellar.bin -o made.choices
od -An -v -t u1 -w1 made.choices | tr -d ' ' | sed 's/^255$/tick/' >made.txt
call run cellar.bin made.choices
cp out expected
call run cellar.bin made.txt
says 0
gives expected
{ echo '# as above, on one line' && tr '\n' ' ' <made.txt; } >line.txt
call run cellar.bin line.txt
says 0
gives expected
printf '0 0 tick\n1 tock\n' >wrong.txt
call run cellar.bin wrong.txt
says 1
complains "wrong.txt: line 2: 'tock' is no choice: tick, or 0 to 255"
printf '0 256\n' >wrong.txt
call run cellar.bin wrong.txt
says 1
complains "wrong.txt: line 1: '256' is no choice"
call run --early cellar.bin made.txt
says 2
complains '--early makes the choices: give it or CHOICES'
call run --early --seed 3 cellar.bin
says 2
complains '--early and --seed exclude each other'
call run --seed 0 cellar.bin
says 2
complains '--seed is at least 1'
call run --late
says 2
complains 'TABLE is missing'
