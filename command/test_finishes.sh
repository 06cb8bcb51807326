# The finish ticks of `vanillatarn run`: the column, --close and --json. Part of test.sh.
# shellcheck shell=bash
# shellcheck disable=SC2034,SC2154 # test.sh sets root, work and corpus, and looks at what and status; bytes_of is that of test_spread.sh

# What a run printed, as the corpus has it: `end node tick used`, then node, tick and finish tick of each observation.
shorten_run() {
    sed -n -E -e '1s/^horizon reached$/0 255/p' -e '1s/^choices used up$/1 255/p' -e '1s/^late: node ([0-9]+)$/2 \1/p' \
        -e '1s/^choice not allowed: .*$/3 255/p' -e '2s/^tick ([0-9]+), choices used ([0-9]+), .*$/ \1 \2/p' out | tr -d '\n'
    sed -e '1,/^node edge/d' out | awk '{ printf "|%s %s %s", $1, $4, $NF }'
}

## The column: each run beside a table of the corpus

tried=0
for file in "$corpus"/*.runs; do
    name="$(basename "$file" .runs)"
    while read -r spread offsets choices answer; do
        bytes_of "$choices" >run.choices
        words=(--spread "$spread")
        [[ $offsets == - ]] || words+=(--offsets "$offsets")
        call run "${words[@]}" "$corpus/$name.bin" run.choices
        says 0
        check "$name: the answer is the stored one" test "$(shorten_run)" = "$answer"
        tried=$((tried + 1))
    done <"$file"
done
check 'there are such runs' test "$tried" -gt 10

## --close: works of the windows 2 to 6, finished at 5, and 8 to 10, finished at 9

window="$corpus/accepted_finish_in_window.bin"
bytes_of "$(sed -n '3s/^0 - \([0-9a-f]*\) .*/\1/p' "$corpus/accepted_finish_in_window.runs")" >run.choices
call run "$window" run.choices
says 0
cp out all
# The head, these lines of the observations, and the last line.
close_gives() {
    {
        head -n 3 all
        for line in $1; do sed -n "$((3 + line))p" all; done
        echo "$2"
    } >expected
    gives expected
}
while IFS='|' read -r close lines last; do
    call run --close "$close" "$window" run.choices
    says 0
    close_gives "$lines" "$last"
done <<'TEXT'
0||0 of 2 works finished at the end of their windows
1|2 3|2 of 2 works finished 1 tick or less before the end of their windows
002|2 3|2 of 2 works finished 2 ticks or less before the end of their windows
4294967296|2 3|2 of 2 works finished 4294967295 ticks or less before the end of their windows
TEXT
# All works at the end of their windows, and none.
"$root/vanillatarn" choices --late "$window" -o run.choices
call run "$window" run.choices
cp out all
call run "$window" run.choices --close 0
says 0
close_gives '2 3 4 5 6 7 8' '7 of 7 works finished at the end of their windows'
call run --close 0 cellar.bin early.bin
says 0
check 'none is close' test "$(tail -n 1 out)" = '0 of 6 works finished at the end of their windows'
call run --close 2 cellar.bin early.bin
says 0
check 'all are but the hub'\''s messages' test "$(tail -n 1 out)" = '4 of 6 works finished 2 ticks or less before the end of their windows'
# Late, and not allowed: the status is that of the run.
call run --close 9 cellar.bin ticks
says 1
starts 'late: node 1'
check 'no work was finished' test "$(tail -n 1 out)" = '0 of 0 works finished 9 ticks or less before the end of their windows'
call run --close 9 cellar.bin seven
says 1
starts 'choice not allowed: number 0, byte 7'
# With offsets the window is that of the node's own clock.
call choices --late --offsets 3,0 "$corpus/accepted_finish_of_message.bin" -o run.choices
call run --spread 3 --offsets 3,0 --close 0 "$corpus/accepted_finish_of_message.bin" run.choices
says 0
check 'the message is at the end of its send' test "$(awk '$1 == 0 && $4 == 28 { print $NF }' out)" = 14
check 'and before the end of its receive' test "$(awk '$1 == 1 && $4 == 28' out | wc -l)" = 0
call run --spread 3 --offsets 3,0 --close 1 "$corpus/accepted_finish_of_message.bin" run.choices
check 'by a tick' test "$(awk '$1 == 1 && $4 == 28 { print $NF }' out)" = 17

## --json

# An observation: node, edge, location, tick, clock, value, finish tick, window.
object_of() {
    printf '{"node":%s,"edge":%s,"location":%s,"tick":%s,"clocks":[%s,0,0,0],"values":[%s,0,0,0],"finished":%s,"window":%s}' "$@"
}
window_of() {
    printf '{"ready":%s,"end":%s}' "$@"
}
bytes_of "$(sed -n '3s/^0 - \([0-9a-f]*\) .*/\1/p' "$corpus/accepted_finish_in_window.runs")" >run.choices
first="$(object_of 0 0 0 2 2 0 null null)"
second="$(object_of 0 1 1 8 8 6 5 "$(window_of 2 6)")"
third="$(object_of 0 0 0 12 2 6 9 "$(window_of 8 10)")"
ran='"refused":null,"end":"choices used up","node":null,"tick":12,"used":40,"size":3'
call run --json "$window" run.choices
says 0
printf '{"spread":0,"offsets":[],%s,"observations":[%s,%s,%s]}\n' "$ran" "$first" "$second" "$third" >expected
gives expected
call run "$window" run.choices --json --close 1
says 0
printf '{"spread":0,"offsets":[],"close":1,%s,"observations":[%s,%s]}\n' "$ran" "$second" "$third" >expected
gives expected
call run --json cellar.bin ticks
says 1
printf '{"spread":0,"offsets":[],"refused":null,"end":"late","node":1,"tick":3,"used":3,"size":0,"observations":[]}\n' >expected
gives expected
call run --json --spread 2 --offsets 1,0 wide.bin empty
says 0
printf '{"spread":2,"offsets":[1,0],"refused":null,"end":"choices used up","node":null,"tick":0,"used":0,"size":0,"observations":[]}\n' >expected
gives expected
# Refused: the table, and more choices than there may be.
refusal='"end":null,"node":null,"tick":null,"used":null,"size":0,"observations":[]}'
call run --json incident.txt early.bin
says 1
printf '{"spread":0,"offsets":[],"refused":{"number":16,"component":0},%s\n' "$refusal" >expected
gives expected
call run --json cellar.bin many
says 1
printf '{"spread":0,"offsets":[],"refused":{"number":14,"component":null},%s\n' "$refusal" >expected
gives expected
call run --json program.bin early.bin
says 2
complains 'program.bin: this is a program, not a table'
if command -v python3 >/dev/null && python3 -c '' 2>/dev/null; then
    call run --json cellar.bin early.bin
    says 0
    check 'it is JSON, with the columns of the words' python3 -c '
import json
run = json.load(open("out"))
words = [line.split() for line in open("'"$root"'/crates/trial_run/stdout").read().splitlines()[3:]]
for shown, line in zip(run["observations"], words, strict=True):
    finished = "-" if shown["finished"] is None else shown["finished"]
    numbers = [shown["node"], shown["edge"], shown["location"], shown["tick"], *shown["clocks"], *shown["values"], finished]
    assert [str(number) for number in numbers] == line
    assert shown["window"] is None or shown["window"]["ready"] <= shown["finished"] <= shown["window"]["end"]
'
fi
unwritable 'run --json cellar.bin early.bin' 'run --close 0 cellar.bin early.bin'

## Wrong use

misuses <<'TEXT'
run --close cellar.bin early.bin|--close 'cellar.bin' is not a number
run cellar.bin early.bin --close|--close lacks its number
run --close x cellar.bin early.bin|--close 'x' is not a number
run --close -1 cellar.bin early.bin|--close '-1' is not a number
run --close 1 --close 2 cellar.bin early.bin|--close is given twice
run --quiet cellar.bin early.bin|'run' has no option --quiet
schedule --close 1 cellar.bin|'schedule' has no option --close
TEXT
