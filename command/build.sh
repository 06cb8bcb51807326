# What a command of `vanillatarn` needs, built where it is absent or older than its sources (command/make.sh).
# shellcheck shell=bash
# shellcheck disable=SC2034,SC2154 # root, scratch, broken and stop are those of vanillatarn, or of tools/archive; binary is read by vanillatarn

# Where the verified programs and the tools in Rust stand, and the one that the command becomes.
programs="$root/target/bin" tools="$root/rust/target/release"
binary="$tools/vanillatarn"

# The same without the library in it, for the first answers.
early="$root/rust/target/early/release/vanillatarn"

# Makes the folder for what is neither read nor written by the caller.
make_scratch() {
    [[ -z $scratch ]] || return 0
    scratch="$(mktemp -d 2>/dev/null)" || stop "$broken" "no scratch folder can be made in ${TMPDIR:-/tmp}"
    trap 'rm -rf -- "$scratch"' EXIT
}

# Whether files are there and current: the name of their stamp, the files. A stamp lists their sources, files and folders, a line each, and is
# as old as the beginning of the build that it is about: every source has to be older. No other program is started for it, since this is
# most of what a call does before its answer.
is_current() {
    local stamp="$root/target/command/$1" file sources=()
    for file in "${@:2}"; do
        [[ -e $file ]] || return 1
    done
    [[ -s $stamp ]] || return 1
    mapfile -t sources <"$stamp"
    for file in "${sources[@]}"; do
        [[ $stamp -nt $root/$file ]] || return 1
    done
}

# Makes what is not current: the function of command/make.sh that does, its words. That file is read once, since it counts what is made.
makes=''
make_anew() {
    if [[ -z $makes ]]; then
        makes=yes
        # shellcheck source=command/make.sh
        source "$root/command/make.sh"
    fi
    "$@"
}

# All that the command will need, so that what is built is counted as one. Each word is one of: program:NAME, a verified program;
# library:CRATE, a verified library; node:, that of one node for its own processor; linked:NAME:PACKAGE, a tool in Rust that has the library in it;
# early:, the command without it.
will_need=()

# A verified program.
need_program() {
    tool="$programs/$1"
    is_current "$1" "$tool" || make_anew make_program "$1"
}

# A verified library, by its crate: timed_network, or timed_network_words.
need_library() {
    library="$root/target/staticlib/lib$1.a"
    is_current "${library##*/}" "$library" || make_anew make_library "$1"
}

# The verified library of one node for its own processor: the archive for this machine, the module, and an object for each small processor.
node_library="$root/target/staticlib/libtimed_node.a"
node_objects=("$root"/target/node/{cortex-m0,cortex-m3,cortex-m33,rv32}.o)
node_is_current() {
    is_current node "$node_library" "$root/target/node/timed_node.ll" "${node_objects[@]}"
}
need_node() {
    node_is_current || make_anew make_node
}

# A Rust tool that has the library in it, and its package.
need_linked() {
    tool="$tools/$1"
    is_current "$1" "$tool" || make_anew make_linked "$2"
}

# The command without the library.
need_early() {
    tool=$early
    is_current early "$tool" || make_anew make_early
}
