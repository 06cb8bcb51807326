# The manual page and the completions: made of the help texts and the options, installed, and used as a shell does. Part of test.sh.
# shellcheck shell=bash
# shellcheck disable=SC2034,SC2154 # test.sh sets root, work and corpus, and looks at what and status

## The manual page: every line of every help text, in their order, and nothing else between the headings

call man
says 0
cp out page
check 'standard error is empty' test ! -s err
grep '^\\&' page | sed -e 's/^\\&//' -e 's/\\-/-/g' -e "s/\\\\(aq/'/g" -e 's/\\(ga/`/g' -e 's/\\(ha/^/g' -e 's/\\(ti/~/g' -e 's/\\e/\\/g' >lines
commands=$(sed -n 's/^    command!("\([a-z]*\)".*/\1/p' "$root/rust/vanillatarn/src/options.rs")
{
    cat "$root/rust/vanillatarn/src/help/general.txt"
    for name in $commands; do
        cat "$root/rust/vanillatarn/src/help/$name.txt"
    done
} >expected
check 'the page is the help texts' cmp -s expected lines
check 'each command has its heading' test "$(grep -c '^\.SH ' page)" -eq $(($(wc -w <<<"$commands") + 2))
call man -o page.1
says 0
check 'it goes to a file' cmp -s page page.1

## Completion

call completion fish
says 2
complains 'SHELL is bash or zsh'
call completion zsh
says 0
starts '#compdef vanillatarn'
call completion bash
says 0
cp out completion
check 'bash reads it' bash -n completion

# What bash offers for the last of these words.
offered() {
    what="completion of: $*"
    bash -c 'source "$0"; COMP_WORDS=("$@"); COMP_CWORD=$(($# - 1)); _vanillatarn; printf "%s\n" "${COMPREPLY[@]}"' completion "$@" >out 2>err
    status=$?
}
offers() {
    check "it is: $*" test "$(sort out | tr '\n' ' ')" = "$* "
    check 'standard error is empty' test ! -s err
}

mkdir -p complete/folder
: >complete/cellar.txt
: >complete/cellar.bin
cd complete
ln -s ../completion completion
offered vanillatarn sch
offers schedule
offered vanillatarn s
offers schedule simulate site spread
offered vanillatarn help per
offers period
offered vanillatarn verdict --
offers --files-from --help --json --quiet --spread
offered vanillatarn verdict cellar.t
offers cellar.txt
offered vanillatarn verdict --spread ''
offers ''
offered vanillatarn verdict --spread 3 cellar.txt cellar.b
offers cellar.bin
offered vanillatarn why cellar.txt cel
offers ''
offered vanillatarn translate cellar.txt -o cellar.b
offers cellar.bin
offered vanillatarn site cel
offers ''
offered vanillatarn site 40 cellar.txt cellar.b
offers cellar.bin
offered vanillatarn install f
offers folder
offered vanillatarn completion z
offers zsh
cd ..
