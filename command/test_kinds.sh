# Texts in the place of tables, and files of another kind. Part of test.sh.
# shellcheck shell=bash
# shellcheck disable=SC2034,SC2154 # test.sh sets root, work and corpus, and looks at what and status

## A text wherever a table is read: the answer is that of its table

printf 'kept' >kept
cp kept old
call translate cellar.bin -o program.bin
call part program.bin 1 -o part1.bin
call choices cellar.bin -o early.bin
for words in 'verdict cellar' 'schedule cellar' 'chart cellar' 'translate cellar' 'choices cellar' 'choices --late cellar' 'text cellar' \
    'verdict incident'; do
    # shellcheck disable=SC2086 # several words
    call $words.bin
    cp out expected
    expected=$status
    # shellcheck disable=SC2086 # several words
    call $words.txt
    says "$expected"
    gives expected
done
call run cellar.bin early.bin
cp out expected
call run cellar.txt early.bin
says 0
gives expected
call schedule - <cellar.txt
says 0
gives "$corpus/probe_and_hub.schedule"
cp cellar.txt 'a cellar, with a blank.txt'
call schedule 'a cellar, with a blank.txt'
says 0
gives "$corpus/probe_and_hub.schedule"
for words in 'schedule incident.txt' 'translate incident.txt -o old' 'run incident.txt early.bin'; do
    # shellcheck disable=SC2086 # several words
    call $words
    says 1
    complains 'refused 16 0'
    complains 'vanillatarn verdict incident.txt'
done
call translate cellar.txt -o cellar.txt
says 2
complains '-o names the input cellar.txt'

# Each text of the corpus has the answer of its table, also one whose table is empty or damaged.
while IFS=$'\t' read -r name answer; do
    [[ $(wc -c <"$corpus/$name.bin") -le 8192 ]] || continue
    call verdict "$corpus/$name.txt"
    starts "$answer"
    says "$([[ $answer == accepted ]] && echo 0 || echo 1)"
done < <(grep -E '^(check[1-4]_|accepted_two)' "$corpus/answers.tsv")

## Faults of a text name its line, and nothing is written

printf '\n# caf\351\n' >latin.txt
printf 'horizon 20\nchannels 1\nbytes 00 times 9000\n' >huge.txt
head -c 10000001 /dev/zero | tr '\0' '\n' >blank.txt
for words in verdict schedule chart 'translate -o old' 'choices -o old' text; do
    # shellcheck disable=SC2086 # several words
    call $words fault.txt
    says 1
    complains "fault.txt: line 2: 'channel' begins no line"
    check 'the file of -o is as it was' cmp -s kept old
done
call run fault.txt early.bin
says 1
complains "fault.txt: line 2: 'channel' begins no line"
call verdict latin.txt
says 1
complains 'latin.txt: line 2: a byte that is not UTF-8 text'
call verdict huge.txt
says 2
complains 'huge.txt: longer than 8192 bytes, the most that a table has'
call verdict blank.txt
says 2
complains 'blank.txt: longer than 10000000 bytes, the most that a text has'
call verdict - <fault.txt
says 1
complains '-: line 2: '

## A file of another kind is named

misuses <<'TEXT'
verdict program.bin|program.bin: this is a program, not a table
schedule program.bin|program.bin: this is a program, not a table
chart program.bin|program.bin: this is a program, not a table
translate program.bin -o old|program.bin: this is a program, not a table
choices program.bin -o old|program.bin: this is a program, not a table
run program.bin early.bin|program.bin: this is a program, not a table
text program.bin|program.bin: this is a program, not a table
verdict part1.bin|part1.bin: this is a node's part, not a table
text part1.bin|part1.bin: this is a node's part, not a table
list cellar.bin|cellar.bin: this is a table, not a program
list cellar.txt|cellar.txt: this is a text, not a program
list part1.bin|part1.bin: this is a node's part, not a program
part cellar.bin 0|cellar.bin: this is a table, not a program
part cellar.txt 0|cellar.txt: this is a text, not a program
part part1.bin 0|part1.bin: this is a node's part, not a program
table cellar.bin|cellar.bin: this is a table, not a text
table program.bin|program.bin: this is a program, not a text
run cellar.bin cellar.txt|cellar.txt: this is a text, not a list of choices
run cellar.bin cellar.bin|cellar.bin: this is a table, not a list of choices
run cellar.bin program.bin|program.bin: this is a program, not a list of choices
TEXT
check 'the file of -o is as it was' cmp -s kept old

# What is none of them is refused as a table, as before.
for first in 0 4 177 377; do
    { printf '%b' "\\0$first"; tail -c +2 cellar.bin; } >other.bin
    call verdict other.bin
    says 1
    starts 'refused 1 255'
done
head -c 20 cellar.bin >short.bin
call verdict short.bin
says 1
starts 'refused 2 255'

unwritable 'verdict cellar.txt' 'translate cellar.txt' 'run cellar.txt early.bin'
