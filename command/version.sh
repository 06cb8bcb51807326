# What `vanillatarn --version` says: the version, the commit, and which rt there is. An installed command says of which commit and by which
# rt it was made: the lines of `origin_text`, which command/install.sh puts beside it.
# shellcheck shell=bash
# shellcheck disable=SC2154 # root is set by vanillatarn or by command/install.sh

# The commit that the tree stands at, or why there is none to tell.
commit_words() {
    local commit
    if ! command -v git >/dev/null; then
        echo 'unknown (git is not installed)'
    elif [[ ! -e $root/.git ]]; then
        echo 'unknown (no git repository)'
    elif ! commit="$(git -C "$root" rev-parse --short=12 HEAD 2>/dev/null)"; then
        echo 'unknown (git could not tell)'
    elif git -C "$root" diff --quiet HEAD -- 2>/dev/null; then
        echo "$commit"
    else
        echo "$commit, with changes"
    fi
}

# What rt says of itself, its first line.
rt_words() {
    local said
    if ! command -v rt >/dev/null; then
        echo 'not installed'
    elif said="$(rt version 2>/dev/null)" && [[ -n $said ]]; then
        echo "${said%%$'\n'*}"
    else
        echo 'unknown (rt version failed)'
    fi
}

# The lines of the commit and of rt.
origin_text() {
    printf 'commit: %s\nrt: %s\n' "$(commit_words)" "$(rt_words)"
}

version_text() {
    printf 'vanillatarn %s\n' "$(<"$root/VERSION")"
    origin_text
}
