# What is told while something is built: what was proved or compiled, of how much in all, how long the rest may take, and at least every eight
# seconds a sign of life.
# shellcheck shell=bash
# shellcheck disable=SC2154 # root is that of vanillatarn, or of tools/archive, as say is; will_need that of build.sh

# Each crate, package and archive that has to be there, and those that are: crate:NAME, package:NAME, archive:CRATE, archive:node. Behind each the seconds that it
# takes.
declare -gA units=() finished=()

# When the first tool began, what was said last, and whether it was said that something is built.
began='' told=0 announced=''

# How many seconds of proofs a second by the clock is, in hundredths, as measured on two cores.
measured_pace=165

# The seconds that it takes to prove each crate (command/seconds.txt), read once; 10 for one that is not listed there.
declare -gA seconds=()
read_seconds() {
    local name number
    ((${#seconds[@]} == 0)) || return 0
    seconds[-]=10
    while read -r name number; do
        [[ $name == '#'* || -z $name ]] || seconds[$name]=$number
    done <"$root/command/seconds.txt"
}

# Counts what these words, as those of `will_need`, and those of `will_need` itself are made of, once each, where they are not current.
count_units() {
    local item
    read_seconds
    for item in "${will_need[@]}" "$@"; do
        case $item in
            program:*) count_crates "${item#program:}" ;;
            library:*) count_library "${item#library:}" ;;
            node:) count_node ;;
            linked:*) count_linked "${item#linked:}" ;;
            early:) is_current early "$early" || count_package vanillatarn ;;
        esac
    done
    will_need=()
}

# A program.
count_crates() {
    local name
    ! is_current "$1" "$programs/$1" || return 0
    while IFS= read -r name; do
        units[crate:$name]=${seconds[$name]-${seconds[-]}}
    done < <(crates_of "$1")
}

# A library, by its crate.
count_library() {
    local archive="$root/target/staticlib/lib$1.a"
    ! is_current "${archive##*/}" "$archive" || return 0
    count_crates "$1"
    units[archive:$1]=${seconds[$1]-${seconds[-]}}
}

# The library of one node.
count_node() {
    ! node_is_current || return 0
    count_crates timed_node
    units[archive:node]=${seconds[timed_node]-${seconds[-]}}
}

# A package of rust/.
count_package() {
    local name
    while IFS= read -r name; do
        units[package:$name]=3
    done < <(packages_of "$1")
}

# A tool in Rust that has the library in it, and its package.
count_linked() {
    ! is_current "${1%:*}" "$tools/${1%:*}" || return 0
    count_library timed_network
    count_package "${1#*:}"
}

# How long the rest may take, in words: by what was measured, and by the pace of what has been made here.
time_left() {
    local unit left=0 made=0 took=$((SECONDS - began)) pace=$measured_pace
    for unit in "${!units[@]}"; do
        if [[ -v finished[$unit] ]]; then made=$((made + finished[$unit])); else left=$((left + units[$unit])); fi
    done
    ((made < 60 || took < 30)) || pace=$(((100 * made / took + measured_pace) / 2))
    left=$((100 * left / (pace > 0 ? pace : 1)))
    if ((left >= 90)); then
        printf 'about %s min left' $(((left + 30) / 60))
    else
        printf 'about %s s left' $(((left + 9) / 10 * 10))
    fi
}

# Says once that a build has begun. Where all is found unchanged it is never said.
announce() {
    [[ -z $announced ]] || return 0
    announced=yes
    say "building what is needed, once ($(time_left)); it can be stopped, and goes on where it was" || true
}

# Tells that a unit was made, and in how many seconds; of one that was found unchanged nothing is said, and it took none.
tell_unit() {
    local unit=$1 took=$2 words=$3
    [[ -z $words ]] || announce
    finished[$unit]=$took
    units[$unit]=${units[$unit]-0}
    [[ -n $words ]] || return 0
    say "[${#finished[@]} of ${#units[@]}] $words" || true
    told=$SECONDS
}

# Tells that a library was made, by its crate.
tell_archive() {
    local words='the library'
    [[ $1 != timed_network_words ]] || words='the library of the words'
    tell_unit "crate:$1" 0 ''
    tell_unit "archive:$1" "${units[archive:$1]-0}" "$words"
}

# Tells of a line that a tool wrote, if it is about something that was made.
tell_line() {
    if [[ $1 =~ ^rt:\ ([a-z0-9_]+)\ proved\ \(([0-9]+)\ s\)$ ]]; then
        tell_unit "crate:${BASH_REMATCH[1]}" "${units[crate:${BASH_REMATCH[1]}]-0}" "${BASH_REMATCH[1]}"
    elif [[ $1 =~ ^rt:\ ([a-z0-9_]+)\ proved\ \(unchanged ]]; then
        [[ -v finished[crate:${BASH_REMATCH[1]}] ]] || tell_unit "crate:${BASH_REMATCH[1]}" 0 ''
    elif [[ $1 == 'rt: target/staticlib/libtimed_node.a has '* ]]; then
        tell_unit crate:timed_node 0 ''
        tell_unit archive:node "${units[archive:node]-0}" 'the library of one node'
    elif [[ $1 =~ ^rt:\ target/staticlib/lib([a-z0-9_]+)\.a\ has\  ]]; then
        tell_archive "${BASH_REMATCH[1]}"
    elif [[ $1 =~ ^\ *Compiling\ ([a-z0-9_]+)\  ]]; then
        tell_unit "package:${BASH_REMATCH[1]}" "${units[package:${BASH_REMATCH[1]}]-0}" "compiling ${BASH_REMATCH[1]}"
    fi
}

# Counts the packages that a tool in Rust is made of as made: of those that were compiled before nothing is said.
tell_packages() {
    local name
    while IFS= read -r name; do
        [[ -v finished[package:$name] ]] || tell_unit "package:$name" 0 ''
    done < <(packages_of "$1")
}

# Reads what a tool writes, keeps it and tells how far it is.
show_progress() {
    local line='' part='' status
    began=${began:-$SECONDS} told=$SECONDS
    while :; do
        status=0
        IFS= read -r -t 1 part || status=$?
        line+=$part
        ((status == 0 || status > 128)) || break
        if ((status == 0)); then
            printf '%s\n' "$line" >>"$scratch/log"
            tell_line "$line"
            line=''
        fi
        ((SECONDS - began < 3)) || announce
        if ((SECONDS - told >= 8)); then
            say "[${#finished[@]} of ${#units[@]}] at work for $((SECONDS - began)) s, $(time_left)" || true
            told=$SECONDS
        fi
    done
    [[ -z $line ]] || printf '%s\n' "$line" >>"$scratch/log"
}
