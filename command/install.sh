#!/usr/bin/env bash
# `vanillatarn install PREFIX`: the command and the library in a folder of their own. The binary has read the words and becomes this script.
set -Eeuo pipefail

root="$(cd "$(dirname "$0")/.." && pwd)"
prefix=${1:?} scratch=''
readonly root wrong=2 broken=3
# shellcheck source=command/build.sh
source "$root/command/build.sh"
# shellcheck source=command/version.sh
source "$root/command/version.sh"

say() {
    printf 'vanillatarn: %s\n' "$*" >&2 2>/dev/null
}

stop() {
    local status=$1
    shift
    say "$@" || exit "$broken"
    exit "$status"
}
trap 'stop "$broken" "failed unexpectedly (line $LINENO)"' ERR

# The programs whose words the command tells.
all_programs=(schedule_printer chart_printer verdict_printer spread_printer reason_printer program_listing trial_run)
# The libraries, by their crates.
all_libraries=(timed_network timed_network_words)
user_docs=("$root"/docs/{TUTORIAL,FORMATS,REFUSALS,TABLE-TEXT,LINKING,NODE}.md "$root"/{CHANGELOG.md,LICENSE})

# Builds all of them. What is missing is proved in one go, two crates at a time.
need_all() {
    local name wanted=()
    for name in "${all_programs[@]}"; do
        is_current "$name" "$programs/$name" || wanted+=("program:$name")
    done
    for name in "${all_libraries[@]}"; do
        library="$root/target/staticlib/lib$name.a"
        is_current "${library##*/}" "$library" || wanted+=("library:$name")
    done
    node_is_current || wanted+=(node:)
    will_need=("linked:${binary##*/}:vanillatarn")
    ((${#wanted[@]} == 0)) || make_anew prove_together "${wanted[@]}"
    for name in "${all_programs[@]}"; do
        need_program "$name"
    done
    for name in "${all_libraries[@]}"; do
        need_library "$name"
    done
    need_node
    need_linked "${binary##*/}" vanillatarn
}

# Copies files to a folder under the prefix: the folder, the files.
put() {
    local folder="$prefix/$1"
    shift
    { mkdir -p -- "$folder" && cp -f -- "$@" "$folder"; } 2>/dev/null || stop "$broken" "$folder cannot be written"
}

# What the command needs, put beside the earlier one, which it then replaces.
put_command() {
    local home=libexec/vanillatarn
    rm -rf -- "$prefix/$home.new"
    put "$home.new/programs" "${all_programs[@]/#/$programs/}"
    {
        origin_text >"$prefix/$home.new/INSTALLED" &&
            rm -rf -- "${prefix:?}/$home" && mv -- "$prefix/$home.new" "$prefix/$home"
    } 2>/dev/null || stop "$broken" "$prefix/$home cannot be written"
    put bin "$binary"
}

# The file of a library for pkg-config: its name, its description. It finds the folder by its own place, so that the folder can be moved.
package_text() {
    cat <<TEXT
prefix=\${pcfiledir}/../..
Name: $1
Description: $2
Version: $(<"$root/VERSION")
Cflags: -I\${prefix}/include
Libs: -L\${prefix}/lib -l$1
TEXT
}

# A library with that file: its name, its description.
put_library() {
    put lib "$root/target/staticlib/lib$1.a"
    package_text "$@" >"$scratch/$1.pc" || stop "$broken" "the scratch folder $scratch cannot be written"
    put lib/pkgconfig "$scratch/$1.pc"
}

{ mkdir -p -- "$prefix" && prefix="$(cd -- "$prefix" && pwd)"; } 2>/dev/null ||
    stop "$wrong" "$prefix: is no folder and cannot be made one"
[[ -w $prefix ]] || stop "$wrong" "$prefix: cannot be written"
make_scratch
need_all
put_command
put_library timed_network 'Verified checks, schedules and programs of timed networks of radio nodes'
put_library timed_network_words 'Verdicts, schedules and runs of timed networks of radio nodes in words'
put lib "$node_library"
put lib/timed_node "${node_objects[@]}"
put share/vanillatarn/node "$root"/node/*.[ch]
put include "$root"/include/*.h
# The manual page and the completions, as the binary itself tells them.
{ "$binary" man -o "$scratch/vanillatarn.1" && "$binary" completion bash -o "$scratch/vanillatarn" && "$binary" completion zsh -o "$scratch/_vanillatarn"; } ||
    stop "$broken" 'the manual page and the completions cannot be made'
put share/man/man1 "$scratch/vanillatarn.1"
put share/bash-completion/completions "$scratch/vanillatarn"
put share/zsh/site-functions "$scratch/_vanillatarn"
put share/vanillatarn "$root"/examples/tables/*.txt
put share/doc/vanillatarn "${user_docs[@]}"
printf 'installed in %s\n' "$prefix" 2>/dev/null || stop "$broken" 'standard output cannot be written'
