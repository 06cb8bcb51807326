#!/usr/bin/env bash
# Tries each command of `vanillatarn` with good files, with refused ones and with each error. Any failing check fails the whole.
set -euo pipefail

root="$(cd "$(dirname "$0")/.." && pwd)"
work="$(mktemp -d)"
trap 'rm -rf -- "$work"' EXIT
cd "$work"

passed=0 failed=0 status=0 what=''

# Runs the command; status, standard output and standard error are looked at by the checks that follow.
call() {
    what="vanillatarn $*"
    status=0
    "$root/vanillatarn" "$@" >out 2>err || status=$?
}

# One check: what it says, then a test.
check() {
    local said=$1
    shift
    if "$@"; then
        passed=$((passed + 1))
    else
        failed=$((failed + 1))
        printf 'FAILED: %s: %s (status %s)\n' "$what" "$said" "$status"
        sed 's/^/    /' err
    fi
}

says() {
    check "status is $1" test "$status" -eq "$1"
}

# Standard output is this file, and standard error is empty.
gives() {
    check "standard output is that of $1" cmp -s "$1" out
    check 'standard error is empty' test ! -s err
}

# Standard error has this text, and standard output is empty.
complains() {
    check "standard error has: $1" grep -q -F -- "$1" err
    check 'standard output is empty' test ! -s out
}

starts() {
    check "the first line is: $1" test "$(head -n 1 out)" = "$1"
}

corpus="$root/corpus"
cp "$corpus/probe_and_hub.txt" cellar.txt
sed 's/x0 from 2/x0 from 3/' cellar.txt >incident.txt
printf 'horizon 20\nchannel 1\n' >fault.txt
: >empty
mkdir folder
head -c 8193 /dev/zero >long
head -c 65536 /dev/zero >longer

## What is needed is built first, so that the calls below say nothing of it

"$root/vanillatarn" table cellar.txt -o cellar.bin
"$root/vanillatarn" verdict cellar.bin >out
"$root/vanillatarn" verdict --json cellar.bin >out
"$root/vanillatarn" spread cellar.bin >out
"$root/vanillatarn" schedule cellar.bin >out
"$root/vanillatarn" chart cellar.bin >out
"$root/vanillatarn" plan --probes 1 --slot 1 --guard 1 --period 4 -o plan.bin
"$root/vanillatarn" edge cellar.bin --component 0 --location 0 >out
"$root/vanillatarn" why cellar.bin 0 0 >out
"$root/vanillatarn" where cellar.bin /dev/null >out
"$root/vanillatarn" simulate --work 0..1 --runs 1 cellar.bin >out
"$root/vanillatarn" uppaal cellar.bin >out
"$root/vanillatarn" airtime cellar.bin >out
"$root/vanillatarn" period cellar.bin >out
"$root/vanillatarn" chart cellar.bin --svg out
"$root/vanillatarn" translate cellar.bin -o program.bin
"$root/vanillatarn" list program.bin >out
"$root/vanillatarn" part program.bin 0 -o part0.bin
"$root/vanillatarn" choices cellar.bin -o early.bin
"$root/vanillatarn" run cellar.bin early.bin >out
"$root/vanillatarn" run --json cellar.bin early.bin >out
"$root/vanillatarn" run --horizon 20 cellar.bin early.bin >out
bash "$root/tools/archive"
bash "$root/tools/archive" node
rm cellar.bin plan.bin program.bin part0.bin early.bin

## Help

call --help
says 0
starts 'usage: vanillatarn COMMAND ...'
cp out help
call -h
gives help
for command in verdict spread schedule chart plan edge why where translate list part run choices period simulate uppaal airtime site text table install man completion; do
    call --help
    check "the help names $command" grep -q "^  $command " out
    call "$command" --help
    says 0
    check 'it shows its use' grep -q "^usage: vanillatarn $command " out
    check 'it tells the status' grep -q '^Exit status: 0 ' out
done

## Each command with good files

call table cellar.txt -o cellar.bin
says 0
gives empty
check 'the bytes are those of the corpus' cmp -s cellar.bin "$corpus/probe_and_hub.bin"
call verdict cellar.bin
says 0
starts accepted
call schedule cellar.bin
says 0
gives "$corpus/probe_and_hub.schedule"
call chart cellar.bin
says 0
gives "$root/crates/chart_printer/stdout"
for name in priority one_tick_cells empty_cells; do
    call chart "$corpus/accepted_chart_$name.bin"
    says 0
    gives "$corpus/accepted_chart_$name.chart"
done
call translate -o program.bin cellar.bin
says 0
check 'the program is the stored one' cmp -s program.bin "$root/crates/translate_table/stdout"
call translate cellar.bin
gives program.bin
call list program.bin
says 0
gives "$root/crates/program_listing/stdout"
for node in 0 1; do
    call part program.bin "$node" -o "part$node.bin"
    says 0
done
head -c 6 program.bin | cat - part0.bin part1.bin >joined
check 'header and parts are the program' cmp -s joined program.bin
call choices cellar.bin -o early.bin
says 0
call choices --early cellar.bin
gives early.bin
call run cellar.bin early.bin
says 0
gives "$root/crates/trial_run/stdout"
call choices cellar.bin --late -o late.bin
says 0
check 'late is not early' test "$(cmp -s early.bin late.bin || echo other)" = other
call run cellar.bin late.bin
says 0
starts 'horizon reached'
check 'all is observed' grep -q 'observations 8$' out
call text cellar.bin
says 0
cp out again.txt
call table again.txt
gives cellar.bin

# Every corpus table with its stored answer.
while IFS=$'\t' read -r name answer; do
    [[ -s $corpus/$name.bin && $(wc -c <"$corpus/$name.bin") -le 8192 ]] || continue
    call verdict "$corpus/$name.bin"
    starts "$answer"
    says "$([[ $answer == accepted ]] && echo 0 || echo 1)"
done < <(grep -E 'accepted_|check1[0-2]_' "$corpus/answers.tsv" | head -n 30)

## Standard input and output

call verdict - <cellar.bin
says 0
call run cellar.bin - <early.bin
says 0
call run - early.bin <cellar.bin
says 0
call run - - <cellar.bin
says 2
complains 'only one of the files'
call translate cellar.bin -o -
gives program.bin
cp program.bin replaced.bin
call translate cellar.bin -o replaced.bin
says 0
check 'a file can be replaced' cmp -s replaced.bin program.bin
ln -s cellar.bin link.bin
for words in 'translate cellar.bin -o cellar.bin' 'translate ./cellar.bin -o link.bin' 'choices cellar.bin -o cellar.bin' \
    'part program.bin 0 -o program.bin' 'table cellar.txt -o ./cellar.txt'; do
    # shellcheck disable=SC2086 # several words
    call $words
    says 2
    complains '-o names the input'
done
ln cellar.bin same.bin
for file in cellar.bin link.bin same.bin; do
    call translate - -o "$file" <cellar.bin
    says 2
    complains "-o names the input $file"
done
check 'the input is as it was' cmp -s cellar.bin "$corpus/probe_and_hub.bin"
call translate - -o /dev/null <cellar.bin
says 0
if command -v script >/dev/null; then
    for words in 'translate cellar.bin' 'part program.bin 0' 'choices cellar.bin' 'table cellar.txt'; do
        what="$words, on a terminal" status=0
        script -qec "$root/vanillatarn $words" /dev/null </dev/null >out 2>err || status=$?
        says 2
        check 'the terminal gets no bytes' grep -q 'is a terminal: add -o FILE' out
    done
fi

## Refused tables

call table incident.txt -o incident.bin
says 0
call verdict incident.bin
says 1
gives "$root/crates/verdict_printer/stdout"
printf 'kept' >kept
cp kept old
for words in 'schedule incident.bin' 'chart incident.bin' 'translate incident.bin -o old' 'choices incident.bin -o old' 'run incident.bin early.bin'; do
    # shellcheck disable=SC2086 # several words
    call $words
    says 1
    complains 'refused 16 0'
    complains 'vanillatarn verdict incident.bin'
    check 'the file of -o is as it was' cmp -s kept old
done

call translate - <incident.bin
says 1
complains 'refused 16 0'
check 'no file is named' test -z "$(grep verdict err || true)"

## Ends of runs

call run cellar.bin empty
says 0
starts 'choices used up'
printf '\377\377\377' >ticks
call run cellar.bin ticks
says 1
starts 'late: node 1'
printf '\007' >seven
call run cellar.bin seven
says 1
starts 'choice not allowed: number 0, byte 7'
head -c 1000001 /dev/zero >many
call run cellar.bin many
says 1
complains 'refused 14 255'
check 'the table is not blamed' test -z "$(grep verdict err || true)"

## Damaged programs and texts

{ head -c 202 program.bin; printf '\023\000\000\000'; tail -c 40 program.bin; } >unknown
{ head -c 14 program.bin; printf '\000\000'; tail -c 230 program.bin; } >no_block
{ head -c 14 program.bin; printf '\000\377'; tail -c 230 program.bin; } >far_block
printf '\001\000' >no_header
printf '\001\000\014\001\000\024\000\006\002\002\000\000' >no_starts
printf '\001\000\015\001\000\024\000\007\000\000\000\000\001' >rest
head -c 245 program.bin >shortened
for file in unknown no_block far_block no_header no_starts rest shortened; do
    call list "$file"
    says 1
    check 'it is said' grep -q "$file: the program is damaged" err
    check 'it is listed all the same' test -s out
done
call part program.bin 2
says 1
complains 'program.bin: the program has no part for node 2'
for node in x 256 1000 ''; do
    call part program.bin "$node"
    says 2
    complains 'is not the number of a node'
done
head -c 20 cellar.bin >short.bin
call text short.bin
says 1
complains 'short.bin: '
call table fault.txt -o old
says 1
complains "fault.txt: line 2: 'channel' begins no line"
check 'the file of -o is as it was' cmp -s kept old

## Files

# A word for word call with one file in the place of the good one.
each_reader() {
    local file=$1 command
    for command in verdict schedule chart translate choices text; do
        call "$command" "$file"
        says 2
        complains "$file: $2"
    done
    call run "$file" early.bin
    says 2
    complains "$file: $2"
}

bad_files=('absent:no such file' 'folder:is a folder' 'empty:is empty')
if ((EUID != 0)); then
    printf 'x' >closed
    chmod a-r closed
    bad_files+=('closed:cannot be read')
fi
for pair in "${bad_files[@]}"; do
    file=${pair%%:*} problem=${pair#*:}
    each_reader "$file" "$problem"
    for words in "list $file" "part $file 0" "table $file"; do
        # shellcheck disable=SC2086 # several words
        call $words
        says 2
        complains "$file: $problem"
    done
done
each_reader long 'longer than 8192 bytes, the most that a table has'
call list longer
says 2
complains 'longer: longer than 65535 bytes, the most that a program can state'
call run cellar.bin absent
says 2
complains 'absent: no such file'
for file in folder/absent/file folder /proc/absent; do
    call translate cellar.bin -o "$file"
    says 2
    complains "$file: cannot be written"
done

## The environment fails: 3, never "no"

# The command with standard output on a full device, or closed.
call_to() {
    local to=$1
    shift
    what="vanillatarn $* $to" status=0
    : >out
    if [[ $to == full ]]; then
        "$root/vanillatarn" "$@" >/dev/full 2>err || status=$?
    else
        "$root/vanillatarn" "$@" >&- 2>err || status=$?
    fi
}

# Calls, a word each, with such a standard output.
unwritable() {
    local to words
    for to in full closed; do
        for words in "$@"; do
            # shellcheck disable=SC2086 # several words
            call_to "$to" $words
            says 3
            complains 'standard output cannot be written'
        done
    done
}

unwritable 'verdict cellar.bin' 'verdict incident.bin' 'schedule cellar.bin' 'chart cellar.bin' 'translate cellar.bin' 'list program.bin' \
    'edge cellar.bin --component 0 --location 0' 'edge cellar.bin --component 2 --location 0' \
    'part program.bin 0' 'choices cellar.bin' 'run cellar.bin early.bin' 'run cellar.bin ticks' 'text cellar.bin' 'table cellar.txt' \
    --help 'run --help'
call translate cellar.bin -o /dev/full
says 3
complains '/dev/full: could not be written to its end'

# Standard error on a full device, or closed: what is to be told there is an output too.
for words in 'schedule incident.bin' 'run cellar.bin many' 'list unknown' 'part program.bin 2' 'table fault.txt' 'verdict absent' brew; do
    # shellcheck disable=SC2086 # several words
    for to in full closed; do
        what="vanillatarn $words, standard error $to" status=0
        if [[ $to == full ]]; then
            "$root/vanillatarn" $words >out 2>/dev/full || status=$?
        else
            "$root/vanillatarn" $words >out 2>&- || status=$?
        fi
        says 3
    done
done
what='vanillatarn verdict cellar.bin, which has nothing to tell' status=0
"$root/vanillatarn" verdict cellar.bin >out 2>&- || status=$?
says 0
starts accepted

# No folder for scratch files is needed.
for folder in "$work/absent" /proc; do
    what="no scratch folder in $folder" status=0
    TMPDIR=$folder "$root/vanillatarn" schedule cellar.bin >out 2>err || status=$?
    says 0
    gives "$corpus/probe_and_hub.schedule"
    TMPDIR=$folder "$root/vanillatarn" run cellar.bin early.bin >out 2>err || status=$?
    says 0
    gives "$root/crates/trial_run/stdout"
done

## Wrong use

# Calls with wrong words, each with what is said of it: a line a call.
misuses() {
    local words message
    while IFS='|' read -r words message; do
        # shellcheck disable=SC2086 # several words
        call $words
        says 2
        complains "$message"
    done
}

misuses <<'TEXT'
|a command is missing (see: vanillatarn --help)
brew|unknown command 'brew'
verdict|TABLE is missing (see: vanillatarn verdict --help)
run cellar.bin|CHOICES is missing
part program.bin|NODE is missing
text cellar.bin cellar.bin|one word too many: cellar.bin
shedule cellar.bin|unknown command 'shedule': did you mean 'schedule'?
verdict --sprad 1 cellar.bin|unknown option --sprad: did you mean '--spread'?
verdict --json=yes cellar.bin|--json takes no word
choices --early --late cellar.bin|--early and --late exclude each other
verdict --loud cellar.bin|unknown option --loud
translate cellar.bin -o|-o lacks its file
schedule cellar.bin -o file|'schedule' has no option -o
chart cellar.bin -o file|'chart' has no option -o
translate --late cellar.bin|'translate' has no option --late
TEXT

for part in build kinds numbers part why where spread finishes simulate uppaal site period verdict places svg install words manners pages many; do
    # shellcheck source=/dev/null # build first: others use its root
    source "$root/command/test_$part.sh"
done
echo "the command: $passed checks passed, $failed failed"
((failed == 0))
