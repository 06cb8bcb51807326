# `vanillatarn chart --svg`. Part of test.sh; what is drawn is held to stored drawings and schedules in rust/schedule_svg/tests.
# shellcheck shell=bash
# shellcheck disable=SC2034,SC2154 # test.sh sets root, work and corpus, and looks at what and status

stored="$root/rust/schedule_svg/tests/stored"

call chart cellar.bin --svg cellar.svg
says 0
gives empty
check 'the drawing is the stored one' cmp -s cellar.svg "$stored/probe_and_hub.svg"
call chart --svg - cellar.txt
says 0
gives "$stored/probe_and_hub.svg"
call chart - --svg 'a drawing.svg' <cellar.bin
says 0
check 'the drawing is the stored one' cmp -s 'a drawing.svg' "$stored/probe_and_hub.svg"
call chart "$stored/four_pairs.txt" --svg - --from 10 --to 30
says 0
gives "$stored/four_pairs_10_to_30.svg"
call chart cellar.bin --svg - --from 007
says 0
check 'it begins there' grep -q 'Schedule, ticks 7 to 20, horizon 20' out
if command -v xmllint >/dev/null; then
    check 'it is XML' xmllint --noout cellar.svg
fi

# A refused table: what met is drawn, and the refusal told; where nothing met the file stays.
call chart "$corpus/check16_starts_together.bin" --svg met.svg
says 1
complains 'refused 16 0'
check 'the drawing is the stored one' cmp -s met.svg "$stored/check16_starts_together.svg"
call chart incident.txt --svg met.svg
says 1
check 'the drawing is that of the tutorial' cmp -s met.svg "$stored/check16_starts_together.svg"
printf 'kept' >kept
cp kept old
call chart "$corpus/check8_no_edge.bin" --svg old
says 1
complains 'refused 8 0'
check 'the file is as it was' cmp -s kept old
call chart program.bin --svg old
says 2
complains 'program.bin: this is a program, not a table'
call chart fault.txt --svg old
says 1
complains 'fault.txt: line 2: '
check 'the file is as it was' cmp -s kept old

while IFS='|' read -r words message; do
    # shellcheck disable=SC2086 # several words
    call $words
    says 2
    complains "$message"
done <<'TEXT'
chart cellar.bin --svg|--svg lacks its word
chart cellar.bin --from 3|--from is for --svg alone
chart cellar.bin --svg x.svg --from 9 --to 3|--from is behind --to
chart cellar.bin --svg x.svg --from|--from lacks its word
chart cellar.bin --svg x.svg --to three|'three' is not a tick
chart cellar.bin --svg x.svg --to -3|'-3' is not a tick
chart cellar.bin --svg cellar.bin|--svg names the input cellar.bin
schedule cellar.bin --svg x.svg|'schedule' has no option --svg
chart absent --svg x.svg|absent: no such file
chart cellar.bin --svg folder|folder: cannot be written
TEXT
check 'nothing was drawn' test ! -e x.svg
for to in full closed; do
    call_to "$to" chart cellar.bin --svg -
    says 3
    complains 'standard output cannot be written'
done
call chart cellar.bin --svg /dev/full
says 3
complains '/dev/full: could not be written to its end'
