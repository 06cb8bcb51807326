# Nodes that wake apart: `vanillatarn spread`, `verdict --spread`, `run` and `choices` with offsets. Part of test.sh.
# shellcheck shell=bash
# shellcheck disable=SC2034,SC2154 # test.sh sets root, work and corpus, and looks at what and status

# Bytes of hexadecimal digits; - for none.
bytes_of() {
    # shellcheck disable=SC2001 # two digits at a time
    [[ $1 == - ]] || printf '%b' "$(sed 's/../\\x&/g' <<<"$1")"
}

cp "$root/examples/tables/wide.txt" wide.txt
call table wide.txt -o wide.bin
says 0
"$root/vanillatarn" plan --probes 6 --slot 40 --guard 5 --period 500 -o plan.bin

## The largest spread

# A table, and the largest spread by its windows: in the widened one the hub listens from 3 ticks before the send to 3 ticks after it, a
# plan's hub as many ticks as its guard says.
for pair in cellar.bin:0 cellar.txt:0 wide.bin:2 wide.txt:2 plan.bin:4; do
    call spread "${pair%:*}"
    says 0
    printf 'accepted up to a spread of %s ticks\n' "${pair#*:}" >expected
    gives expected
    call verdict --spread "${pair#*:}" "${pair%:*}"
    says 0
    starts accepted
    call verdict --spread "$((${pair#*:} + 1))" "${pair%:*}"
    says 1
    starts 'refused 16 0'
done
call spread - <wide.bin
says 0
starts 'accepted up to a spread of 2 ticks'
cp wide.txt 'a wide table.txt'
call spread 'a wide table.txt'
says 0
mkdir -p 'another folder'
what='vanillatarn spread, from another folder' status=0
(cd 'another folder' && "$root/vanillatarn" spread '../a wide table.txt') >out 2>err || status=$?
says 0
starts 'accepted up to a spread of 2 ticks'
call spread incident.bin
says 1
complains 'refused 16 0'
complains 'The answer is no: '
complains 'the table is refused; more about it: vanillatarn verdict incident.bin'
call spread - <incident.bin
says 1
complains 'refused 16 0'
check 'no file is named' test -z "$(grep verdict err || true)"
call spread fault.txt
says 1
complains "fault.txt: line 2: 'channel' begins no line"

## The verdict at a spread

# Each check of the vectors, whose answers come from two other implementations.
tried=0
while IFS=$'\t' read -r name request answer; do
    read -r word hex spread <<<"$request"
    [[ $word == check && $hex != - ]] || continue
    bytes_of "$hex" >vector.bin
    call verdict --spread "$spread" vector.bin
    what="vanillatarn verdict --spread $spread, $name"
    starts "$answer"
    says "$([[ $answer == accepted ]] && echo 0 || echo 1)"
    call verdict --quiet --spread "$spread" vector.bin
    says "$([[ $answer == accepted ]] && echo 0 || echo 1)"
    gives empty
    tried=$((tried + 1))
done <"$root/vectors/apart.tsv"
check 'there are such vectors' test "$tried" -gt 50

# Each table of the corpus that has answers at spreads, and the largest of those at which it is accepted with a refusal at the next.
for file in "$corpus"/*.spread; do
    before=''
    while read -r spread answer; do
        call verdict --spread "$spread" "${file%.spread}.bin"
        starts "$answer"
        says "$([[ $answer == accepted ]] && echo 0 || echo 1)"
        if [[ $answer != accepted && $before == "$((spread - 1))" ]]; then
            call spread "${file%.spread}.txt"
            starts "accepted up to a spread of $before tick$([[ $before == 1 ]] || echo s)"
        fi
        [[ $answer != accepted ]] || before=$spread
    done <"$file"
done

# At 0 it is the verdict of before, byte for byte, for every table of the corpus.
tables=("$corpus"/{check10,check11,check12,check15,check16,check17,accepted}_*.bin)
for form in '' --json; do
    # shellcheck disable=SC2086 # a word or none
    call verdict $form "${tables[@]}"
    cp out expected
    # shellcheck disable=SC2086 # a word or none
    call verdict --spread 0 $form "${tables[@]}"
    what="vanillatarn verdict --spread 0 $form, with tables of the corpus"
    says 1
    gives expected
done

# In words: by how many ticks. Of several files each is named.
cat >expected <<'TEXT'
refused 16 0
The answer is no: Does the one receive window that meets the send start earlier than it?
Component 0 is concerned.
The nodes may wake up to 1 tick apart.
The send window of component 0, edge 0, channel 0, ticks 3 to 5.
Receive windows of other components on its channel within 1 tick of it:
  component 1, edge 0, a receive window, ticks 2 to 6: starts 1 tick too late, ends 1 tick too soon
Remedy: component 1, edge 0, must listen earlier: from more than 1 tick before tick 3 until more than 1 tick after tick 5.
TEXT
call verdict --spread 1 cellar.bin
says 1
gives expected
call verdict wide.bin --spread 2
says 0
printf 'accepted\nThe nodes may wake up to 2 ticks apart.\n' >expected
gives expected
call verdict --spread 2 wide.txt cellar.bin - <plan.bin
says 1
check 'each is judged at the spread' test "$(grep -c -E '^(wide.txt: accepted|cellar.bin: refused 16 0|-: accepted)$' out)" -eq 3

# A spread above 1,000 is 19, after 3 and before 4, however large it is; zeros in front are none of the number.
head -c 102 cellar.bin >cut.bin
{ head -c 10 cellar.bin; printf '\077'; tail -c +12 cellar.bin; } >bent.bin
call verdict bent.bin
starts 'refused 5 0'
for spread in 1001 4294967295 4294967296 18446744073709551616 99999999999999999999999999 0001001; do
    call verdict --spread "$spread" wide.bin
    says 1
    starts 'refused 19 255'
    check 'the question is told' grep -q -x 'The answer is no: Is the spread at most 1,000 ticks?' out
    call verdict --spread "$spread" bent.bin
    starts 'refused 19 255'
    call verdict --spread "$spread" cut.bin
    starts 'refused 2 255'
    call run --spread "$spread" wide.bin early.bin
    says 1
    complains 'refused 19 255'
    check 'the table is not blamed' test -z "$(grep verdict err || true)"
done
call verdict --spread 1000 wide.bin
says 1
check 'the largest spread is tried' test "$(head -n 1 out)" != 'refused 19 255'
call verdict --spread 0002 wide.bin
says 0
call verdict --json --spread 1001 wide.bin
says 1
printf '{"file":"wide.bin","spread":1001,"accepted":false,"number":19,"component":null,"place":null,"windows":[]}\n' >expected
gives expected
call verdict --json --spread 1 cellar.bin
says 1
printf '{"file":"cellar.bin","spread":1,"accepted":false,"number":16,"component":0,"place":null,"windows":[%s,%s]}\n' \
    '{"component":0,"edge":0,"location":0,"entry":0,"ready":3,"end":5,"message":0}' \
    '{"component":1,"edge":0,"location":0,"entry":0,"ready":2,"end":6,"message":0}' >expected
gives expected
call verdict --spread 2 --json wide.txt
says 0
printf '{"file":"wide.txt","spread":2,"accepted":true,"number":0,"component":null,"place":null,"windows":[]}\n' >expected
gives expected

## Runs

# The columns of an observation's 36 bytes, or of the first 32, which the vectors older than wish 9 have: those have no finish tick.
columns() {
    local place number finish=${1:64:8}
    printf '%d %d %d %d' "0x${1:0:2}" "0x${1:2:2}" "0x${1:4:2}" "0x${1:8:8}"
    for place in 16 24 32 40; do
        printf ' %d' "0x${1:place:8}"
    done
    for place in 48 52 56 60; do
        number=$((16#${1:place:4}))
        printf ' %d' "$((number > 32767 ? number - 65536 : number))"
    done
    case $finish in
        '') ;;
        ffffffff) printf ' -' ;;
        *) printf ' %d' "0x$finish" ;;
    esac
    echo
}

# What a run printed without its columns' blanks; where the stored answer in $1 has no finish ticks, without their column.
without_blanks() {
    if [[ $1 =~ \|[0-9a-f]{72}$ ]]; then
        sed -E 's/^ +//; s/ +/ /g' out
    else
        sed -E -e 's/^ +//; s/ +/ /g' -e '/^node edge/,$ s/ [^ ]*$//' out
    fi
}

# The line with the offsets of so many nodes; nothing where all of them are 0.
offset_line() {
    local nodes=$1 node offsets=() line='' told=''
    IFS=, read -r -a offsets <<<"$2"
    for ((node = 0; node < nodes; node++)); do
        line+="${line:+, }${offsets[node]:-0}"
        [[ ${offsets[node]:-0} == 0 ]] || told=yes
    done
    [[ -z $told ]] || echo "offsets: $line (a node's tick is by its own clock, which starts at its offset)"
}

# What a run prints without its columns' blanks: its answer as the vectors have it, its choices in hexadecimal, the line with its offsets.
told_of() {
    local answer=$1 choices=$2 line=$3 end node tick used observation observations=()
    IFS='|' read -r -a observations <<<"$answer"
    read -r end node tick used <<<"${observations[0]}"
    observations=("${observations[@]:1}")
    case $end in
        0) echo 'horizon reached' ;;
        1) echo 'choices used up' ;;
        2) echo "late: node $node" ;;
        3) echo "choice not allowed: number $used, byte $((16#${choices:2*used:2}))" ;;
    esac
    echo "tick $tick, choices used $used, observations ${#observations[@]}"
    [[ -z $line ]] || echo "$line"
    echo "node edge location tick x0 x1 x2 x3 v0 v1 v2 v3$([[ ! $answer =~ \|[0-9a-f]{72}$ ]] || echo ' finished')"
    for observation in "${observations[@]}"; do
        columns "$observation"
    done
}

# Each run of the vectors of nodes that wake apart and of finish ticks.
tried=0 finishes=0
while IFS=$'\t' read -r name request answer; do
    read -r word hex choices spread offsets <<<"$request"
    [[ $word == run && $hex != - ]] || continue
    bytes_of "$hex" >vector.bin
    bytes_of "$choices" >vector.choices
    words=()
    [[ -z $spread ]] || words+=(--spread "$spread")
    [[ -z $offsets ]] || words+=(--offsets "$offsets")
    [[ ! $answer =~ \|[0-9a-f]{72}$ ]] || finishes=$((finishes + 1))
    call run "${words[@]}" vector.bin vector.choices
    what="vanillatarn run ${words[*]}, $name"
    if [[ $answer == refused* ]]; then
        says 1
        complains "$answer"
    else
        says "$([[ $answer == [01]' '* ]] && echo 0 || echo 1)"
        told_of "$answer" "$choices" "$(offset_line "$((16#${hex:6:2}))" "$offsets")" >expected
        without_blanks "$answer" >found
        check 'what is printed is the stored answer' cmp -s expected found
    fi
    tried=$((tried + 1))
done < <(cat "$root/vectors/apart.tsv" "$root/vectors/finishes.tsv")
check 'there are such vectors' test "$tried" -gt 120
check 'there are those with finish ticks' test "$finishes" -gt 70

# Without a spread and offsets, with a spread of 0, and with offsets of 0 it is the run of before.
for words in '--spread 0' '--offsets 0' '--offsets 0,0 --spread 0' '--offsets 0,0,0,0,0,0,0,0' '--spread 0000 --offsets 00,0'; do
    # shellcheck disable=SC2086 # several words
    call run $words cellar.bin early.bin
    says 0
    gives "$root/crates/trial_run/stdout"
done

# Choices for nodes that wake apart take the run to the horizon; an offset left out is 0.
for words in '2,0' '0,2' '1' '2,2' '0,0' '2,1,900'; do
    for manner in --early --late; do
        call choices "$manner" --offsets "$words" wide.txt -o apart.choices
        says 0
        gives empty
        call run --spread 2 --offsets "$words" wide.bin apart.choices
        says 0
        starts 'horizon reached'
        sed -n -E '/^node edge/,$ s/ +[^ ]*$//p' out >"seen$manner"
    done
    check 'what is observed does not hang on the choices, but for the finish ticks' cmp -s <(sort seen--early) <(sort seen--late)
done
call choices wide.bin
cp out expected
call choices --offsets 0,0 wide.bin
gives expected

# An offset above the spread is 20, and the message names the option.
printf 'kept' >kept
for words in '--offsets 0,1' '--offsets 4294967296' '--spread 0 --offsets 1' '--spread 1 --offsets 0,2' '--spread 2 --offsets 3,0' \
    '--spread 2 --offsets 99999999999999999999,0'; do
    # shellcheck disable=SC2086 # several words
    call run $words wide.bin early.bin
    says 1
    complains 'refused 20 255'
    complains 'The answer is no: Is no offset above the spread?'
    complains '--spread'
    check 'the table is not blamed' test -z "$(grep verdict err || true)"
done
call run --offsets 0,1 wide.bin early.bin
complains 'without --spread all nodes wake at tick 0'
call run --spread 1 --offsets 0,2 wide.bin early.bin
complains 'an offset is above --spread 1'

# A table that is refused at the spread: the message names the verdict at it.
call run --spread 1 --offsets 0,1 cellar.bin early.bin
says 1
complains 'refused 16 0'
complains 'more about it: vanillatarn verdict --spread 1 cellar.bin'
cp kept old
call choices --offsets 0,1 cellar.bin -o old
says 1
complains 'refused 16 0'
complains 'more about it: vanillatarn verdict --spread 1 cellar.bin'
check 'the file of -o is as it was' cmp -s kept old
call choices --offsets 1001,0 wide.bin -o old
says 1
complains 'refused 19 255'
check 'the file of -o is as it was' cmp -s kept old

## Files, wrong use, and outputs that cannot be written

for pair in "${bad_files[@]}"; do
    call spread "${pair%%:*}"
    says 2
    complains "${pair%%:*}: ${pair#*:}"
done
call spread long
says 2
complains 'long: longer than 8192 bytes, the most that a table has'
call spread program.bin
says 2
complains 'program.bin: this is a program, not a table'
for spread in 2 1001; do
    call verdict --spread "$spread" program.bin
    says 2
    complains 'program.bin: this is a program, not a table'
    call run --spread "$spread" program.bin early.bin
    says 2
    complains 'program.bin: this is a program, not a table'
done
call run --spread 2 --offsets 2,0 wide.bin cellar.txt
says 2
complains 'cellar.txt: this is a text, not a list of choices'
misuses <<'TEXT'
spread|TABLE is missing (see: vanillatarn spread --help)
spread cellar.bin -0|-0 is for --files-from alone
spread --spread 1 cellar.bin|'spread' has no option --spread
translate --json cellar.bin|'translate' has no option --json
schedule --spread 1 cellar.bin|'schedule' has no option --spread
translate --spread 1 cellar.bin|'translate' has no option --spread
chart --spread 1 cellar.bin|'chart' has no option --spread
choices --spread 1 cellar.bin|'choices' has no option --spread
verdict --offsets 0 cellar.bin|'verdict' has no option --offsets
verdict cellar.bin --spread|--spread lacks its number
verdict --spread x cellar.bin|--spread 'x' is not a number
verdict --spread -1 cellar.bin|--spread '-1' is not a number
verdict --spread 1.5 cellar.bin|--spread '1.5' is not a number
verdict --spread 0x10 cellar.bin|--spread '0x10' is not a number
verdict --spread 1,000 cellar.bin|--spread '1,000' is not a number
verdict --spread 1 --spread 1 cellar.bin|--spread is given twice
run cellar.bin early.bin --offsets|--offsets lacks its numbers
run --offsets x cellar.bin early.bin|--offsets 'x' are not numbers with commas between them
run --offsets - cellar.bin early.bin|--offsets '-' are not numbers with commas between them
run --offsets 1, cellar.bin early.bin|--offsets '1,' are not numbers with commas between them
run --offsets ,1 cellar.bin early.bin|--offsets ',1' are not numbers with commas between them
run --offsets 1,,2 cellar.bin early.bin|--offsets '1,,2' are not numbers with commas between them
run --offsets 1,-2 cellar.bin early.bin|--offsets '1,-2' are not numbers with commas between them
run --offsets 0,0,0,0,0,0,0,0,0 cellar.bin early.bin|--offsets: there are at most eight nodes
run --offsets 1 --offsets 2 cellar.bin early.bin|--offsets is given twice
choices --offsets 1;2 cellar.bin|--offsets '1;2' are not numbers with commas between them
TEXT
for word in '' ' 1' '1 ' $'1\n2'; do
    call verdict --spread "$word" cellar.bin
    says 2
    complains 'is not a number'
    call run --offsets "$word" cellar.bin early.bin
    says 2
    complains 'are not numbers with commas between them'
done
call choices --offsets 2,0 wide.bin -o apart.choices
unwritable 'spread cellar.bin' 'spread wide.txt' 'verdict --spread 2 wide.bin' 'verdict --spread 1 cellar.bin' 'verdict --json --spread 1 cellar.bin' \
    'run --spread 2 --offsets 2,0 wide.bin apart.choices' 'choices --offsets 2,0 wide.bin' 'spread --help'
for words in 'spread incident.bin' 'run --offsets 0,1 wide.bin apart.choices' 'verdict --spread x cellar.bin'; do
    what="vanillatarn $words, standard error full" status=0
    # shellcheck disable=SC2086 # several words
    "$root/vanillatarn" $words >out 2>/dev/full || status=$?
    says 3
done
