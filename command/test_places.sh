# `vanillatarn verdict` on tables that 4 to 9 refuse: where the check stopped, in words and as JSON, and in a text the line. Part of test.sh.
# shellcheck shell=bash
# shellcheck disable=SC2034,SC2154 # test.sh sets root, work and corpus, and looks at what and status

question() {
    case $1 in
        4) echo 'Does each part fit its component and end exactly there?' ;;
        5) echo 'Is every number in its range and every mask bit a clock?' ;;
        6) echo 'Does no receive edge list a channel twice?' ;;
        7) echo 'Are there at most 1,024 passages up to the horizon?' ;;
        8) echo "Is there an edge with a window of a tick's length, no shorter than its budget?" ;;
        9) echo 'Does each update of the edge taken stay in range?' ;;
    esac
}

# The words that are expected: number, component, and the lines behind them.
expect() {
    printf 'refused %s %s\nThe answer is no: %s\nComponent %s is concerned.\n' "$1" "$2" "$(question "$1")" "$2"
    printf '%s\n' "${@:3}"
}

# A verdict with these words: the file, then number, component and lines.
refuses() {
    call verdict "$1"
    says 1
    expect "${@:2}" >expected
    gives expected
}

# The same as JSON: the file, number, component, and the place.
refuses_json() {
    call verdict --json "$1"
    says 1
    printf '{"file":"%s","accepted":false,"number":%s,"component":%s,"place":%s,"windows":[]}\n' "$@" >expected
    gives expected
}

## In bytes: the worked table with one byte changed, worked out by hand from docs/FORMATS.md

# The place of the byte and the byte; number and component; the words.
while IFS='|' read -r changed refusal words; do
    read -r place byte <<<"$changed"
    read -r number component <<<"$refusal"
    { head -c "$place" cellar.bin; printf '%b' "\\x$byte"; tail -c "+$((place + 2))" cellar.bin; } >changed.bin
    refuses changed.bin "$number" "$component" "$words"
done <<'TEXT'
9 00|5 0|Component 0, its first 7 bytes (byte 9): count of locations is 0, allowed are 1 to 16.
9 11|5 0|Component 0, its first 7 bytes (byte 9): count of locations is 17, allowed are 1 to 16.
10 02|5 0|Component 0, its first 7 bytes (byte 10): initial location is 2, allowed are 0 to 1.
11 00|5 0|Component 0, its first 7 bytes (byte 11): count of clocks is 0, allowed are 1 to 4.
11 05|5 0|Component 0, its first 7 bytes (byte 11): count of clocks is 5, allowed are 1 to 4.
12 05|5 0|Component 0, its first 7 bytes (byte 12): count of variables is 5, allowed are 0 to 4.
13 00|5 0|Component 0, its first 7 bytes (byte 13): count of edges is 0, allowed are 1 to 32.
13 21|5 0|Component 0, its first 7 bytes (byte 13): count of edges is 33, allowed are 1 to 32.
13 01|4 0|Component 0, its end (byte 33): bytes left over: 12.
13 03|4 0|Component 0, edge 2 (byte 45): bytes needed: 7, there: 0.
8 00|4 0|Component 0, its first 7 bytes (byte 7): bytes needed: 7, there: 0.
7 01|4 0|Component 0, its length (byte 7): it is 294, allowed are 0 to 96.
8 25|4 0|Component 0, edge 1, its clock bound 0 (byte 40): bytes needed: 5, there: 4.
8 27|4 0|Component 0, its end (byte 45): bytes left over: 1.
14 01|5 0|Component 0, location 0 (byte 14): clock is 1, allowed are 0 to 0.
18 eb|5 0|Component 0, location 1 (byte 18): bound is 60170, allowed are 0 to 60000.
20 03|5 0|Component 0, edge 0 (byte 20): kind is 3, allowed are 0 to 2.
21 02|5 0|Component 0, edge 0 (byte 21): source is 2, allowed are 0 to 1.
35 02|5 0|Component 0, edge 1 (byte 35): destination is 2, allowed are 0 to 1.
36 02|5 0|Component 0, edge 1 (byte 36): reset mask is 2, allowed are 0 to 1.
24 05|5 0|Component 0, edge 0 (byte 24): count of clock bounds is 5, allowed are 0 to 4.
25 05|5 0|Component 0, edge 0 (byte 25): count of data bounds is 5, allowed are 0 to 4.
26 00|5 0|Component 0, edge 0 (byte 26): count of items is 0, allowed are 1 to 1.
27 01|5 0|Component 0, edge 0, its clock bound 0 (byte 27): clock is 1, allowed are 0 to 0.
28 eb|5 0|Component 0, edge 0, its clock bound 0 (byte 28): low is 60163, allowed are 0 to 60000.
31 fe|5 0|Component 0, edge 0, its clock bound 0 (byte 30): high is 65534, allowed are 0 to 60000, or 65535 for none.
32 01|5 0|Component 0, edge 0, its item 0 (byte 32): channel is 1, allowed are 0 to 0.
25 01|5 0|Component 0, edge 0, its data bound 0 (byte 32): variable is 0, none is allowed.
66 01|5 1|Component 1, edge 0 (byte 66): count of data bounds is 1, allowed are 0 to 0.
67 02|6 1|Component 1, edge 0, its pair 1 (byte 75): channel 0 is listed before.
67 09|5 1|Component 1, edge 0 (byte 67): count of items is 9, allowed are 1 to 8.
74 03|5 1|Component 1, edge 0, its pair 0 (byte 74): location is 3, allowed are 0 to 2.
73 01|5 1|Component 1, edge 0, its pair 0 (byte 73): channel is 1, allowed are 0 to 0.
87 01|5 1|Component 1, edge 1, its update 0 (byte 87): variable is 1, allowed are 0 to 0.
88 02|5 1|Component 1, edge 1, its update 0 (byte 88): set or add is 2, allowed are 0 to 1.
46 39|4 1|Component 1, edge 2, its clock bound 0 (byte 98): bytes needed: 5, there: 4.
3 01|4 0|Component 0, behind it (byte 45): bytes left over: 58.
3 03|4 2|Component 2, its length (byte 103): bytes needed: 2, there: 0.
81 05|5 1|Component 1, edge 1 (byte 81): count of items is 5, allowed are 0 to 4.
97 01|4 1|Component 1, edge 2, its update 0 (byte 103): bytes needed: 4, there: 0.
TEXT

# Version 3: the valve of docs/FORMATS.md, one node with one edge and its budget, as hexadecimal digits; number and component; the words.
while IFS='|' read -r digits refusal words; do
    read -r number component <<<"$refusal"
    printf '%b' "$(sed -e 's/ //g' -e 's/../\\x&/g' <<<"$digits")" >valve.bin
    refuses valve.bin "$number" "$component" "$words"
done <<'TEXT'
03001a0100001e 00130100010001 00000a 00000001000000 ea61|5 0|Component 0, edge 0, its budget (byte 24): it is 60001, allowed are 0 to 60000.
03001a0100001e 00130100010001 00000a 00000001000000 ffff|5 0|Component 0, edge 0, its budget (byte 24): it is 65535, allowed are 0 to 60000.
0300190100001e 00120100010001 00000a 00000001000000 00|4 0|Component 0, edge 0, its budget (byte 24): bytes needed: 2, there: 1.
0300180100001e 00110100010001 00000a 00000001000000|4 0|Component 0, edge 0, its budget (byte 24): bytes needed: 2, there: 0.
03001b0100001e 00140100010001 00000a 00000001000000 000300|4 0|Component 0, its end (byte 26): bytes left over: 1.
03001a0100001e 00130100010001 00000a 03000001000000 ea61|5 0|Component 0, edge 0 (byte 17): kind is 3, allowed are 0 to 2.
03001a0100001e 00130100010001 00000a 00000001010000 ea61|5 0|Component 0, edge 0, its budget (byte 24): it is 60001, allowed are 0 to 60000.
03001a0100001e 00130100010001 00000a 00000001010000 0003|4 0|Component 0, edge 0, its clock bound 0 (byte 26): bytes needed: 5, there: 0.
0300230100001e 001c0100010002 00000a 00000001000000 0003 00000001000000 ea61|5 0|Component 0, edge 1, its budget (byte 33): it is 60001, allowed are 0 to 60000.
TEXT

# A spread is told before the place; one that is too large hides it.
{ head -c 31 cellar.bin; printf '\376'; tail -c +33 cellar.bin; } >changed.bin
high='Component 0, edge 0, its clock bound 0 (byte 30): high is 65534, allowed are 0 to 60000, or 65535 for none.'
call verdict --spread 3 changed.bin
says 1
expect 5 0 'The nodes may wake up to 3 ticks apart.' "$high" >expected
gives expected
call verdict --spread 1001 changed.bin
says 1
starts 'refused 19 255'
check 'no place is told' test "$(grep -c 'byte' out)" -eq 0
call verdict --spread 1001 --json changed.bin
says 1
printf '{"file":"changed.bin","spread":1001,"accepted":false,"number":19,"component":null,"place":null,"windows":[]}\n' >expected
gives expected

## As JSON

numbers='"width":2,"value":65534,"least":0,"limit":60001,"unbounded":true'
refuses_json changed.bin 5 0 "{\"part\":\"clock bound\",\"edge\":0,\"index\":0,\"byte\":30,\"start\":27,\"offset\":3,$numbers,\"line\":null}"
{ head -c 13 cellar.bin; printf '\001'; tail -c +15 cellar.bin; } >changed.bin
numbers='"width":0,"value":12,"least":0,"limit":1,"unbounded":false'
refuses_json changed.bin 4 0 "{\"part\":\"component's end\",\"edge\":null,\"index\":null,\"byte\":33,\"start\":33,\"offset\":0,$numbers,\"line\":null}"

numbers='"width":2,"value":60001,"least":0,"limit":60001,"unbounded":false'
refuses_json valve.bin 5 0 "{\"part\":\"budget\",\"edge\":1,\"index\":null,\"byte\":33,\"start\":33,\"offset\":0,$numbers,\"line\":null}"

## In a text: the line

# The worked table without its comments, its first line the horizon.
grep -v '^ *#' "$corpus/probe_and_hub.txt" | sed '/./,$!d' >plain.txt
check 'the plain text has 32 lines' test "$(wc -l <plain.txt)" -eq 32
check 'it is the worked table' cmp -s <("$root/vanillatarn" table plain.txt) cellar.bin

# A text with one line changed: what is done to it; number and component; the words, with the line told.
while IFS='|' read -r change refusal words line; do
    read -r number component <<<"$refusal"
    sed "$change" plain.txt >changed.txt
    refuses changed.txt "$number" "$component" "$words" "$line"
done <<'TEXT'
9s/10/60001/|5 0|Component 0, location 1 (byte 18): bound is 60001, allowed are 0 to 60000.|This is line 9 of changed.txt: location x0 <= 60001
5s/1/5/|5 0|Component 0, its first 7 bytes (byte 11): count of clocks is 5, allowed are 1 to 4.|This is line 5 of changed.txt: clocks 5
7s/0/2/|5 0|Component 0, its first 7 bytes (byte 10): initial location is 2, allowed are 0 to 1.|This is line 7 of changed.txt: initial 2
10s/on 0/on 1/|5 0|Component 0, edge 0, its item 0 (byte 32): channel is 1, allowed are 0 to 0.|This is line 10 of changed.txt: send 0 -> 1 on 1
14s/x0/x0 x1/|5 0|Component 0, edge 1 (byte 36): reset mask is 3, allowed are 0 to 1.|This is line 14 of changed.txt: reset x0 x1
13s/$/ to 60001 # h/|5 0|Component 0, edge 1, its clock bound 0 (byte 43): high is 60001, allowed are 0 to 60000, or 65535 for none.|This is line 13 of changed.txt: when x0 from 8 to 60001
25s/$/\n    on 0 -> 2/|6 1|Component 1, edge 0, its pair 1 (byte 75): channel 0 is listed before.|This is line 26 of changed.txt: on 0 -> 2
29s/v0/v1/|5 1|Component 1, edge 1, its update 0 (byte 87): variable is 1, allowed are 0 to 0.|This is line 29 of changed.txt: add v1 1
12s/$/\n    items 1/|4 0|Component 0, edge 1, its update 0 (byte 45): bytes needed: 4, there: 0.|The bytes are missing behind line 14 of changed.txt: when x0 from 8
4s/$/\n  edges 1/|4 0|Component 0, its end (byte 33): bytes left over: 12.|This is line 13 of changed.txt: internal 1 -> 0
4s/$/\n  edges 3/|4 0|Component 0, edge 2 (byte 45): bytes needed: 7, there: 0.|The bytes are missing behind line 14 of changed.txt: when x0 from 8
4s/$/\n  length 0/|4 0|Component 0, its first 7 bytes (byte 7): bytes needed: 7, there: 0.|This is line 5 of changed.txt: length 0
4s/$/\n  length 294/|4 0|Component 0, its length (byte 7): it is 294, allowed are 0 to 96.|This is line 5 of changed.txt: length 294
2s/$/\ncomponents 1/|4 0|Component 0, behind it (byte 45): bytes left over: 58.|This is line 17 of changed.txt: component
2s/$/\ncomponents 3/|4 2|Component 2, its length (byte 103): bytes needed: 2, there: 0.|The bytes are missing behind line 32 of changed.txt: when x0 from 9
14s/$/\n  bytes 0a/|4 0|Component 0, its end (byte 45): bytes left over: 1.|This is line 15 of changed.txt: bytes 0a
10s/$/\n    items 2/|5 0|Component 0, edge 0 (byte 26): count of items is 2, allowed are 1 to 1.|This is line 11 of changed.txt: items 2
20,22d|5 1|Component 1, its first 7 bytes (byte 47): count of locations is 0, allowed are 1 to 16.|This is line 16 of changed.txt: component
TEXT

# As JSON, from standard input, behind a name, in a name with blanks, and beside other files.
sed '9s/10/60001/' plain.txt >'a bad cellar.txt'
words='Component 0, location 1 (byte 18): bound is 60001, allowed are 0 to 60000.'
refuses 'a bad cellar.txt' 5 0 "$words" 'This is line 9 of a bad cellar.txt: location x0 <= 60001'
object='{"part":"location","edge":null,"index":1,"byte":18,"start":17,"offset":1,"width":2,"value":60001,"least":0,"limit":60001,"unbounded":false,"line":9}'
refuses_json 'a bad cellar.txt' 5 0 "$object"
call verdict - <'a bad cellar.txt'
says 1
expect 5 0 "$words" 'This is line 9 of standard input: location x0 <= 60001' >expected
gives expected
call verdict cellar.bin 'a bad cellar.txt' changed.bin
says 1
{
    echo 'cellar.bin: accepted'
    printf 'a bad cellar.txt: '
    expect 5 0 "$words" 'This is line 9 of a bad cellar.txt: location x0 <= 60001'
    printf 'changed.bin: '
    expect 4 0 'Component 0, its end (byte 33): bytes left over: 12.'
} >expected
gives expected
call verdict --spread 2 'a bad cellar.txt'
says 1
expect 5 0 'The nodes may wake up to 2 ticks apart.' "$words" 'This is line 9 of a bad cellar.txt: location x0 <= 60001' >expected
gives expected
call verdict --quiet 'a bad cellar.txt'
says 1
gives empty

## 7: the 1,025th passage; the loop takes one tick a turn

cat >fast.txt <<'TEXT'
horizon 2000
channels 0
component
  clocks 1
  variables 0
  initial 0
  location x0 <= 1
  internal 0 -> 0
    reset x0
TEXT
"$root/vanillatarn" table fast.txt -o fast.bin
words='Component 0, passage 1024: it would enter location 0 at tick 1024.'
refuses fast.bin 7 0 "$words"
refuses fast.txt 7 0 "$words" 'The location is line 7 of fast.txt: location x0 <= 1'
entry='{"passage":1024,"location":0,"tick":1024,"clocks":[0,0,0,0],"values":[0,0,0,0],'
refuses_json fast.bin 7 0 "$entry\"line\":null}"
refuses_json fast.txt 7 0 "$entry\"line\":7}"

## 8: no edge, and three edges that cannot be taken; the clock is 5 when location 1 is entered

cat >stuck.txt <<'TEXT'
horizon 20
channels 0
component
  clocks 2
  variables 1
  initial 0
  location x0 <= 5
  location x0 <= 9
  internal 0 -> 1
    when x0 from 3
    reset x1
    set v0 -7
TEXT
words='Component 0, passage 1: it enters location 1 at tick 5, which no edge leaves.'
refuses stuck.txt 8 0 "$words" 'The location is line 8 of stuck.txt: location x0 <= 9'
entry='{"passage":1,"location":1,"tick":5,"clocks":[5,0,0,0],"values":[-7,0,0,0],'
refuses_json stuck.txt 8 0 "$entry\"leaving\":0,\"blocked\":0,\"windowless\":0,\"line\":8}"
cat >>stuck.txt <<'TEXT'
  internal 1 -> 0
    data v0 from 1 to 2
  internal 1 -> 0
    when x0 from 9
  internal 1 -> 0
    when x0 from 20
TEXT
reasons='Edges that leave it: 3; with a data bound that fails: 1; of the others without a window of one tick'\''s length, or of their budget: 2.'
words="Component 0, passage 1: it enters location 1 at tick 5. $reasons"
refuses stuck.txt 8 0 "$words" 'The location is line 8 of stuck.txt: location x0 <= 9'
refuses_json stuck.txt 8 0 "$entry\"leaving\":3,\"blocked\":1,\"windowless\":2,\"line\":8}"
"$root/vanillatarn" table stuck.txt -o stuck.bin
refuses stuck.bin 8 0 "$words"
call verdict --spread 4 stuck.bin
says 1
expect 8 0 'The nodes may wake up to 4 ticks apart.' "$words" >expected
gives expected

# With budgets: the first edge has three ticks from 7 to 10 and needs four, the second has none from 10 to 10, of the third the data bound fails.
cat >valve.txt <<'TEXT'
horizon 30
channels 0
component
  clocks 1
  variables 1
  initial 0
  location x0 <= 10
  internal 0 -> 0
    budget 4
    when x0 from 7
    reset x0
  internal 0 -> 0
    when x0 from 10
  internal 0 -> 0
    budget 60000
    data v0 from 1 to 2
TEXT
reasons='Edges that leave it: 3; with a data bound that fails: 1; of the others without a window of one tick'\''s length, or of their budget: 2.'
words="Component 0, passage 0: it enters location 0 at tick 0. $reasons"
refuses valve.txt 8 0 "$words" 'The location is line 7 of valve.txt: location x0 <= 10'
entry='{"passage":0,"location":0,"tick":0,"clocks":[0,0,0,0],"values":[0,0,0,0],'
refuses_json valve.txt 8 0 "$entry\"leaving\":3,\"blocked\":1,\"windowless\":2,\"line\":7}"
sed '9s/4/3/' valve.txt >fits.txt
call verdict fits.txt
says 0
starts accepted
sed '9s/4/60001/' valve.txt >changed.txt
words='Component 0, edge 0, its budget (byte 24): it is 60001, allowed are 0 to 60000.'
refuses changed.txt 5 0 "$words" 'This is line 9 of changed.txt: budget 60001'

## 9: 20,000 twice are too many

cat >counter.txt <<'TEXT'
horizon 20
channels 1
component
  clocks 1
  variables 0
  initial 0
  location x0 <= 60000
  internal 0 -> 0
component
  clocks 1
  variables 2
  initial 0
  location x0 <= 4
  location x0 <= 5  # entered at 4
  internal 0 -> 1
  internal 1 -> 0
    when x0 from 3
    reset x0
    set v1 1
    add v0 20000
TEXT
words='Component 1, passage 4: it enters location 1 at tick 9 and takes edge 1, whose update 1 leaves -32768 to 32767.'
refuses counter.txt 9 1 "$words" 'The location is line 14 of counter.txt: location x0 <= 5' 'The update is line 20 of counter.txt: add v0 20000'
entry='{"passage":4,"location":1,"tick":9,"clocks":[4,0,0,0],"values":[20000,1,0,0],"edge":1,"update":1,'
refuses_json counter.txt 9 1 "$entry\"line\":14,\"update_line\":20}"
"$root/vanillatarn" table counter.txt -o counter.bin
refuses counter.bin 9 1 "$words"
refuses_json counter.bin 9 1 "$entry\"line\":null,\"update_line\":null}"

## The corpus: bytes and text are told the same, and the line told is one of the text

stopped=()
while IFS=$'\t' read -r name answer; do
    [[ $answer != 'refused '[4-9]' '* ]] || stopped+=("$name")
done <"$corpus/answers.tsv"
check 'the corpus has such tables' test "${#stopped[@]}" -gt 100
for name in "${stopped[@]}"; do
    call verdict "$corpus/$name.txt"
    "$root/target/bin/verdict_printer" <"$corpus/$name.bin" >expected
    count=$(wc -l <expected)
    check 'the words are those of the program' cmp -s expected <(head -n "$count" out)
    tail -n "+$((count + 1))" out >lines
    wanted=1
    [[ $(head -c 9 out) != 'refused 9' ]] || wanted=2
    check "lines told: $wanted" test "$(wc -l <lines)" -eq "$wanted"
    while read -r told; do
        number="${told#* line }" said="${told##*.txt: }"
        found="$(sed -n "${number%% *}p" "$corpus/$name.txt" | sed 's/#.*//' | xargs)"
        check "the text has it: $told" test "$found" = "$said"
    done <lines
done
