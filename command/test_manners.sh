# Options in both forms and short ones, commands that can be pasted, control characters, signals, the width of the help. Part of test.sh.
# shellcheck shell=bash
# shellcheck disable=SC2034,SC2154 # test.sh sets root, work and corpus, and looks at what and status

## Options

call verdict --spread 1 cellar.bin
cp out expected
call verdict --spread=1 cellar.bin
says 1
gives expected
call run --offsets=2,0 --spread=2 wide.bin apart.choices
says 0
call verdict -q incident.bin
says 1
gives empty
call translate cellar.bin -o program.bin
call --version
cp out expected
call -V
says 0
gives expected
call edge cellar.bin --component 0 --location 9
says 1
starts 'component 0 has no location 9, its last one is 1'

## Names in what is told: a command that is proposed can be pasted, and a terminal gets no control characters

escape=$'\e'
for name in 'a bad cellar.bin' "it's bad.bin" "red${escape}[31m.bin" --bad; do
    cp incident.bin "./$name"
    for command in schedule translate airtime; do
        call "$command" -- "$name"
        says 1
        check 'no control character is told' test -z "$(tr -d '\n -~' <err)"
        sed -n 's/^vanillatarn: the table is refused; more about it: vanillatarn //p' err >proposed
        eval "\"$root/vanillatarn\" $(<proposed)" >out 2>err || status=$?
        starts 'refused 16 0'
    done
done
call verdict "red${escape}[31m"
says 2
complains 'red\x1b[31m: no such file'
printf '0 5\n0 \e[31mred\n' >log
call where cellar.bin log
says 1
complains "log: line 2: '\\x1b[31mred' in column 2 is not a number"
printf 'horizon 20\nchannel\e[31m 1\n' >red.txt
call verdict red.txt
says 1
complains 'channel\x1b[31m'
check 'no control character is told' test -z "$(tr -d '\n -~' <err)"

## Signals end the command, and what it has started

# A printer that does not end, beside a command that is installed.
mkdir -p hanging/bin hanging/libexec/vanillatarn/programs
cp "$root/rust/target/release/vanillatarn" hanging/bin
: >hanging/libexec/vanillatarn/INSTALLED
# shellcheck disable=SC2016 # meant for the file
printf '#!/usr/bin/env bash\necho "$$" >worker\nexec sleep 60\n' >hanging/libexec/vanillatarn/programs/schedule_printer
chmod +x hanging/libexec/vanillatarn/programs/schedule_printer
for pair in TERM:143 INT:130 HUP:129 KILL:137; do
    what="${pair%:*} while a program is at work" status=0
    rm -f worker
    env --default-signal=INT,TERM,HUP hanging/bin/vanillatarn schedule cellar.bin >out 2>err &
    for ((tries = 0; tries < 100; tries++)); do
        [[ ! -s worker ]] || break
        sleep 0.1
    done
    kill "-${pair%:*}" "$!"
    wait "$!" 2>/dev/null || status=$?
    says "${pair#*:}"
    check 'the program has ended' has_ended "$(<worker)"
    check 'nothing is written' test ! -s out -a ! -s err
done
for pair in TERM:143 INT:130; do
    what="${pair%:*} while runs are simulated" status=0
    env --default-signal=INT,TERM "$root/vanillatarn" simulate --sweep --work 0..60000 --runs 10000 "$corpus/accepted_1024_passages.bin" >out 2>err &
    sleep 0.5
    kill "-${pair%:*}" "$!"
    wait "$!" 2>/dev/null || status=$?
    says "${pair#*:}"
    check 'nothing is written' test ! -s out
done

## The help fits a terminal

for file in "$root"/rust/vanillatarn/src/help/*.txt; do
    what="the help of $(basename "$file" .txt)"
    check 'no line has more than 80 columns' test -z "$(grep -E '^.{81}' "$file")"
done
