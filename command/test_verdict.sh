# `vanillatarn verdict` with many files, --json and --quiet. Part of test.sh.
# shellcheck shell=bash
# shellcheck disable=SC2034,SC2154 # test.sh sets root, work and corpus, and looks at what and status

printer="$root/target/bin/verdict_printer"

# Every table of the corpus that is neither empty nor too long, in a list.
tables=()
while IFS=$'\t' read -r name _; do
    [[ ! -s $corpus/$name.bin || $(wc -c <"$corpus/$name.bin") -gt 8192 ]] || tables+=("$corpus/$name.bin")
done <"$corpus/answers.tsv"

## In words: what the verified program writes, byte for byte

what='all tables one by one' status=0
for file in "${tables[@]}"; do
    "$root/vanillatarn" verdict "$file" || true
done >out 2>err
for file in "${tables[@]}"; do
    "$printer" <"$file"
done >expected
gives expected

# All of them in one call, each behind its name.
for file in "${tables[@]}"; do
    printf '%s: ' "$file"
    "$printer" <"$file"
done >expected
call verdict "${tables[@]}"
what='vanillatarn verdict, with the whole corpus'
says 1
gives expected

## As JSON: an object a line, with the stored answer

call verdict --json "${tables[@]}"
what='vanillatarn verdict --json, with the whole corpus'
says 1
check 'standard error is empty' test ! -s err
check 'a line a table' test "$(wc -l <out)" -eq "${#tables[@]}"
cp out objects
for file in "${tables[@]}"; do
    name="$(basename "$file" .bin)"
    answer="$(awk -F '\t' -v name="$name" '$1 == name { print $2 }' "$corpus/answers.tsv")"
    read -r _ number component <<<"$answer"
    [[ ${component-} != 255 ]] || component=null
    if [[ $answer == accepted ]]; then
        printf '{"file":"%s","accepted":true,"number":0,"component":null,\n' "$file"
    else
        printf '{"file":"%s","accepted":false,"number":%s,"component":%s,\n' "$file" "$number" "$component"
    fi
done >expected
sed 's/"place":.*//' objects >found
check 'each has the stored answer' cmp -s expected found

# After 4 to 9 there is a place, else none.
grep -E '"number":[4-9],' objects >stopped
check 'there are such tables' test "$(wc -l <stopped)" -gt 100
check 'each has a place' test "$(grep -c '"place":{.*,"line":null[,}]' stopped)" -eq "$(wc -l <stopped)"
check 'no other has one' test "$(grep -c '"place":null,' objects)" -eq "$((${#tables[@]} - $(wc -l <stopped)))"

# The byte at fault is that of which the verified program tells.
sed -n -E 's/.*"byte":([0-9]+),.*"value":([0-9]+),.*/\1 \2/p' objects >found
for file in "${tables[@]}"; do
    "$printer" <"$file"
done | sed -n -E 's/.*\(byte ([0-9]+)\): .*(is|there:|over:|channel) ([0-9]+).*/\1 \3/p' >expected
check 'bytes and values are those of the words' cmp -s expected found

# The windows are those of which the verified program tells: component, edge, first and last tick, in its order.
grep -o '{"component":[0-9]*,"edge":[0-9]*,"location":[0-9]*,"entry":[0-9]*,"ready":[0-9]*,"end":[0-9]*' objects |
    sed -E 's/.*"component":([0-9]+),"edge":([0-9]+),.*"ready":([0-9]+),"end":([0-9]+)/component \1, edge \2, ticks \3 to \4/' >found
for file in "${tables[@]}"; do
    "$printer" <"$file"
done | sed -n -E 's/.*(component [0-9]+, edge [0-9]+),.*(ticks [0-9]+ to [0-9]+).*/\1, \2/p' >expected
check 'the windows are those of the words' cmp -s expected found
check 'there are windows' test "$(wc -l <found)" -gt 20
if command -v python3 >/dev/null && python3 -c '' 2>/dev/null; then
    check 'each line is JSON' python3 -c 'import json, sys; [json.loads(line) for line in open("objects")]'
fi
call verdict --json cellar.bin
says 0
printf '{"file":"cellar.bin","accepted":true,"number":0,"component":null,"place":null,"windows":[]}\n' >expected
gives expected
call verdict incident.txt --json
says 1
printf '{"file":"incident.txt","accepted":false,"number":16,"component":0,"place":null,"windows":[%s,%s]}\n' \
    '{"component":0,"edge":0,"location":0,"entry":0,"ready":3,"end":5,"message":0}' \
    '{"component":1,"edge":0,"location":0,"entry":0,"ready":3,"end":6,"message":null}' >expected
gives expected

## --quiet: the status alone

for words in 'cellar.bin:0' 'cellar.txt cellar.bin:0' 'incident.bin:1' 'cellar.bin incident.txt cellar.bin:1'; do
    # shellcheck disable=SC2086 # several words
    call verdict --quiet ${words%:*}
    says "${words#*:}"
    gives empty
done

## The worst status at the end; the files behind a wrong one are judged too

call verdict cellar.bin cellar.txt
says 0
call verdict cellar.bin incident.bin cellar.bin
says 1
check 'all are judged' test "$(grep -c '^[a-z]*.bin: ' out)" -eq 3
for form in words --json --quiet; do
    options=()
    [[ $form == words ]] || options=("$form")
    call verdict "${options[@]}" cellar.bin absent folder empty long program.bin fault.txt incident.bin cellar.txt
    says 2
    for message in 'absent: no such file' 'folder: is a folder' 'empty: is empty' \
        'long: longer than 8192 bytes, the most that a table has' 'program.bin: this is a program, not a table' "fault.txt: line 2: 'channel' begins no line of this text form"; do
        check "standard error has: $message" grep -q -F -x "vanillatarn: $message" err
    done
done
call verdict cellar.bin fault.txt
says 1
call verdict --json absent 'a "folder"'
says 2
printf '{"file":"absent","error":"no such file"}\n{"file":"a \\"folder\\"","error":"no such file"}\n' >expected
check 'they have objects' cmp -s expected out
mkdir -p 'a "folder"'
cp cellar.bin 'a "folder"/a cellar.bin'
call verdict --json 'a "folder"/a cellar.bin'
says 0
printf '{"file":"a \\"folder\\"/a cellar.bin","accepted":true,"number":0,"component":null,"place":null,"windows":[]}\n' >expected
gives expected
cp cellar.bin ./--json
call verdict --quiet -- --json
says 0
gives empty

## Standard input

call verdict incident.bin - <cellar.txt
says 1
check 'it is judged' grep -q -x -- '-: accepted' out
call verdict - - <cellar.bin
says 2
complains 'only one of the files can be standard input'
call verdict - </dev/null
says 2
complains '-: is empty'

## Wrong use, and outputs that cannot be written

call verdict --json --quiet cellar.bin
says 2
complains '--json and --quiet exclude each other'
call translate --json cellar.bin
says 2
complains "'translate' has no option --json"
unwritable 'verdict cellar.bin incident.bin' 'verdict --json cellar.bin' 'verdict --json absent'
call_to full verdict --quiet incident.bin
says 1
for to in /dev/full -; do
    what="verdict --json absent, standard error $to" status=0
    if [[ $to == - ]]; then
        "$root/vanillatarn" verdict --json absent >out 2>&- || status=$?
    else
        "$root/vanillatarn" verdict --json absent >out 2>"$to" || status=$?
    fi
    says 3
done
what='vanillatarn verdict, with a reader that has gone'
status="$("$root/vanillatarn" verdict "${tables[@]}" 2>err | true; echo "${PIPESTATUS[0]}")"
says 3
check 'it is told nothing' test ! -s err

# A program that is not the verified one, beside a command that is installed.
mkdir -p liars/bin liars/libexec/vanillatarn/programs
cp "$root/rust/target/release/vanillatarn" liars/bin
: >liars/libexec/vanillatarn/INSTALLED
for said in 'echo refused 9 9' 'echo perhaps' 'echo accepted; echo more >&2' 'exit 4' 'kill -9 $$'; do
    printf '#!/usr/bin/env bash\n%s\n' "$said" >liars/libexec/vanillatarn/programs/verdict_printer
    chmod +x liars/libexec/vanillatarn/programs/verdict_printer
    what="a printer that does: $said" status=0
    liars/bin/vanillatarn verdict cellar.bin >out 2>err || status=$?
    says 3
    complains 'vanillatarn: verdict_printer failed: '
done
