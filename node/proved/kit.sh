# The kit of `rt`, and its own clang.
# shellcheck shell=bash
# shellcheck disable=SC2034 # read by those that read this file
kit="$(cd "$(dirname "$(readlink -f "$(command -v rt)")")/.." && pwd -P)"
clang="$kit/toolchain/bin/clang"
