# `vanillatarn uppaal`: the text, the queries beside it, refusals. Part of test.sh.
# shellcheck shell=bash
# shellcheck disable=SC2034,SC2154 # test.sh sets root, work and corpus, and looks at what and status

stored="$root/corpus/probe_and_hub"

call uppaal cellar.bin
says 0
gives "$stored.xta"
call uppaal cellar.txt
says 0
gives "$stored.xta"
call uppaal - <cellar.bin
says 0
gives "$stored.xta"
call uppaal cellar.bin -o -
says 0
gives "$stored.xta"
check 'no queries without a file' test ! -e -.q -a ! -e .q

# With a file the queries stand beside it, whatever its ending.
call uppaal cellar.bin -o cellar.xta
says 0
gives empty
check 'the text is the stored one' cmp -s cellar.xta "$stored.xta"
check 'the queries are the stored ones' cmp -s cellar.q "$stored.q"
rm cellar.xta cellar.q
call uppaal - -o 'a network' <cellar.txt
says 0
gives empty
check 'the text is the stored one' cmp -s 'a network' "$stored.xta"
check 'the queries are the stored ones' cmp -s 'a network.q' "$stored.q"
call uppaal -o cellar.xta -- cellar.bin
says 0
check 'the queries are the stored ones' cmp -s cellar.q "$stored.q"

# The text of a table in version 3 without budgets is that of the first version.
call uppaal "$corpus/accepted_version_3_no_budgets.bin"
says 0
cp out third
"$root/vanillatarn" text "$corpus/accepted_version_3_no_budgets.bin" | sed -e 's/^version 3$/version 1/' -e '/^bands /d' -e 's/ budget 0//' >first.txt
call uppaal first.txt
check 'a text of version 1 was made' test "$status" = 0
check 'the texts are equal' cmp -s out third

# Refusals: nothing is written.
printf 'kept' >kept
cp kept old.xta
cp kept old.q
call uppaal "$corpus/accepted_budgets_of_probe_and_hub.bin" -o old.xta
says 1
complains 'refused 25 255'
complains 'The answer is no: Are all budgets 0?'
check 'it does not say that the table is refused' test "$(grep -c 'the table is refused' err)" = 0
call uppaal "$corpus/check16_starts_together.bin" -o old.xta
says 1
complains 'refused 16 0'
complains 'the table is refused; more about it: vanillatarn verdict'
call uppaal fault.txt -o old.xta
says 1
complains 'fault.txt: line 2: '
call uppaal program.bin -o old.xta
says 2
complains 'program.bin: this is a program, not a table'
check 'the text is as it was' cmp -s kept old.xta
check 'the queries are as they were' cmp -s kept old.q

# The queries do not replace the table.
cp cellar.bin table.q
call uppaal table.q -o table.xta
says 2
complains 'the queries would stand in the input table.q'
check 'the table is as it was' cmp -s cellar.bin table.q
check 'nothing was written' test ! -e table.xta

while IFS='|' read -r words message; do
    # shellcheck disable=SC2086 # several words
    call $words
    says 2
    complains "$message"
done <<'TEXT'
uppaal|TABLE is missing
uppaal cellar.bin cellar.bin|one word too many: cellar.bin
uppaal cellar.bin -o|-o lacks its file
uppaal cellar.bin -o cellar.bin|-o names the input cellar.bin
uppaal cellar.bin --json|'uppaal' has no option --json
uppaal absent|absent: no such file
uppaal cellar.bin -o folder|folder: cannot be written
TEXT
for to in full closed; do
    call_to "$to" uppaal cellar.bin
    says 3
    complains 'standard output cannot be written'
done
call uppaal cellar.bin -o /dev/full
says 3
complains '/dev/full: could not be written to its end'
