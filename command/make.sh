# How what a command of `vanillatarn` needs is built, and what it is made of. Read by command/build.sh where something has to be built.
# shellcheck shell=bash
# shellcheck disable=SC2154 # root, scratch, broken and stop are those of vanillatarn, or of tools/archive; tool and library those of build.sh

# shellcheck source=command/progress.sh
source "$root/command/progress.sh"

## The sources

# Crates of crates.txt and those that they are made of, a line each, in the order of that file, which is the one in which they are proved fastest.
crates_of() {
    local -A needs=() seen=()
    local name rest more=() queue=("$@") listed=()
    [[ -r $root/crates.txt ]] || return 0
    while IFS=: read -r name rest; do
        name=${name%% *}
        needs[${name:-#}]=$rest
        listed+=("${name:-#}")
    done <"$root/crates.txt"
    while ((${#queue[@]} > 0)); do
        name=${queue[0]}
        queue=("${queue[@]:1}")
        [[ -v needs[$name] && -z ${seen[$name]-} ]] || continue
        seen[$name]=yes
        read -r -a more <<<"${needs[$name]}"
        queue+=("${more[@]}")
    done
    for name in "${listed[@]}"; do
        [[ -z ${seen[$name]-} ]] || echo "$name"
    done
}

# A package of rust/ and those that it is made of, a line each. What its tests alone use is none of them.
packages_of() {
    local -A seen=()
    local name line section queue=("$1")
    while ((${#queue[@]} > 0)); do
        name=${queue[0]}
        queue=("${queue[@]:1}")
        [[ -z ${seen[$name]-} ]] || continue
        seen[$name]=yes
        echo "$name"
        section=''
        while IFS= read -r line; do
            [[ $line != '['* ]] || section=$line
            if [[ $section == '[dependencies]' && $line =~ path\ =\ \"\.\./([a-z_]+)\" ]]; then
                queue+=("${BASH_REMATCH[1]}")
            fi
        done <"$root/rust/$name/Cargo.toml" || exit
    done
}

# A folder, and everything in those of its parts that there are, as a stamp lists it: the folder, the parts.
listed() {
    local folder=$1 part there=()
    for part in "${@:2}"; do
        [[ ! -e $root/$folder/$part ]] || there+=("$folder/$part")
    done
    echo "$folder"
    ((${#there[@]} == 0)) || (cd "$root" && find "${there[@]}") || exit
}

# The sources of a crate. Code and definitions alone decide what a program does and what is proved of it: a proof, a must-fail edit or the
# data of a test that is changed leaves both as they were, and `rt ci` and the tests try it. Folders are listed for what is added to
# them, or taken away; `out`, where rt keeps its work, is made before, since it would make the crate's folder newer than the build.
crate_sources() {
    local name names
    names="$(crates_of "$1")" || exit
    printf '%s\n' crates crates.txt
    for name in $names; do
        [[ ! -d $root/crates/$name || -d $root/crates/$name/out ]] || mkdir "$root/crates/$name/out" || exit
        listed "crates/$name" src specs
    done
}

# The sources of a package. The command's has the version in it.
package_sources() {
    local name names
    names="$(packages_of "$1")" || exit
    printf '%s\n' rust/Cargo.toml rust/Cargo.lock VERSION
    for name in $names; do
        listed "rust/$name" src Cargo.toml build.rs
    done
}

# The sources of a package that has the library in it; the library is one of them, so that no tool that was built by hand with an earlier one
# is taken for current.
linked_sources() {
    echo target/staticlib/libtimed_network.a
    crate_sources timed_network
    package_sources "$1"
}

# The sources of the library of one node.
node_sources() {
    crate_sources timed_node
    listed node/proved .
}

## The stamps

# Notes the sources before a build, so that what is changed while it goes on is newer: the name of the stamp, the function that lists them
# with its words. Where they cannot be listed to the end there is no stamp.
note_sources() {
    make_scratch
    ("${@:2}") | sort -u >"$scratch/$1.stamp" || stop "$broken" "the sources of $1 cannot be listed in $scratch"
}

# Makes a stamp of them after the build, as old as the note. It appears as a whole or not at all.
put_stamp() {
    local stamp="$root/target/command/$1"
    { mkdir -p "${stamp%/*}" && cp -p "$scratch/$1.stamp" "$stamp.new" && mv "$stamp.new" "$stamp"; } 2>/dev/null ||
        stop "$broken" "${stamp%/*} cannot be written"
}

# Whether a file was built by hand, without the command, and is newer than all of its sources, which are noted: then it is taken as it is, and
# its own age counts. The file, the name of its stamp; beside the stamp stands how old the file was when the command left it.
is_made_by_hand() {
    local built=$1 name=$2 file left="$root/target/command/$2.left"
    [[ -e $built && (! -e $left || $built -nt $left) ]] || return 1
    while IFS= read -r file; do
        [[ $built -nt $root/$file ]] || return 1
    done <"$scratch/$name.stamp"
    touch -r "$built" "$scratch/$name.stamp"
}

## The tools

# The process group of the tool that is at work.
group=''

# Ends the tool with all that it has in the background, and the command with it.
end_build() {
    trap '' INT TERM HUP
    [[ -z $group ]] || kill -TERM -- "-$group" 2>/dev/null || true
    exit "$1"
}

# Runs a tool in the root, in a process group of its own: what is built, the tool with its words. Its progress is told; after a failure all
# that it said. A signal to this process alone ends it too. Standard input is not the tool's.
build() {
    local name=$1 status=0
    shift
    rm -f -- "$scratch/said"
    { : >"$scratch/log" && mkfifo "$scratch/said"; } 2>/dev/null || stop "$broken" "the scratch folder $scratch cannot be written"
    trap 'end_build 130' INT
    trap 'end_build 143' TERM
    trap 'end_build 129' HUP
    set -m
    (cd "$root" && exec "$@") </dev/null >"$scratch/said" 2>&1 &
    group=$!
    set +m
    show_progress <"$scratch/said"
    wait "$group" || status=$?
    group=''
    trap - INT TERM HUP
    if ((status != 0)); then
        cat "$scratch/log" >&2 || true
        stop "$broken" "$name could not be built: $*"
    fi
}

# Makes a file with a tool: the file, the function that lists its sources with its word, the tool with its words. What has to be there before
# is made by the function in `before`, if there is one. Its stamp has its name, or that in `named`.
make_current() {
    local built=$1 sources=("$2" "$3") name=${named:-${1##*/}}
    shift 3
    local needed=$1
    [[ $needed != bash ]] || needed=rt
    command -v "$needed" >/dev/null || stop "$broken" "${built##*/} has to be built, and '$needed' is not installed"
    note_sources "$name" "${sources[@]}"
    if ! is_made_by_hand "$built" "$name"; then
        [[ -z ${before-} ]] || "$before"
        build "${built##*/}" "$@"
        [[ -e $built ]] || stop "$broken" "${built##*/} was not built by: $* (remove target/ to build all from nothing)"
    fi
    put_stamp "$name"
    touch -r "$built" "$root/target/command/$name.left"
}

make_program() {
    local names
    names="$(crates_of "$1")" || exit
    count_units "program:$1"
    # shellcheck disable=SC2086 # a list of names
    make_current "$tool" crate_sources "$1" bash tools/build $names
}

# The crates below a library's, a line each.
below_library() {
    crates_of "$1" | grep -v -x "$1"
}

make_library() {
    local names
    names="$(crates_of "$1")" || exit
    count_units "library:$1"
    # shellcheck disable=SC2086 # a list of names
    make_current "$library" crate_sources "$1" bash tools/build $names
}

# The crates below the library of one node are proved first.
prove_below_node() {
    local names
    names="$(below_library timed_node)" || exit
    # shellcheck disable=SC2086 # a list of names
    build libtimed_node.a bash tools/build $names
}

# Its archive, its module and the objects are made together; the last of them stands for all.
make_node() {
    local before=prove_below_node named=node
    command -v rt >/dev/null || stop "$broken" "libtimed_node.a has to be built, and 'rt' is not installed"
    count_units node:
    rm -rf -- "$root/target/node"
    make_current "${node_objects[-1]}" node_sources '' bash node/proved/all
    tell_unit archive:node 0 ''
}

# A tool in Rust that has the library in it: its package.
make_linked() {
    local library
    count_units "linked:${tool##*/}:$1"
    need_library timed_network
    make_current "$tool" linked_sources "$1" \
        cargo build --manifest-path rust/Cargo.toml --target-dir rust/target --release --offline --package "$1"
    tell_packages "$1"
}

# The command without the library.
make_early() {
    local named=early
    count_units early:
    make_current "$tool" package_sources vanillatarn \
        cargo build --manifest-path rust/Cargo.toml --target-dir rust/target/early --release --offline --package vanillatarn --no-default-features
    tell_packages vanillatarn
}

# Proves several programs and the libraries' crates in one call, so that each is found proved when it is its turn.
prove_together() {
    local names=() item
    for item in "$@"; do
        case $item in
            program:*) names+=("${item#program:}") ;;
            library:*) mapfile -t -O "${#names[@]}" names < <(below_library "${item#library:}") ;;
            node:) names+=(node_events) ;;
        esac
    done
    mapfile -t names < <(crates_of "${names[@]}")
    count_units "$@"
    build 'what is needed' bash tools/build "${names[@]}"
}
