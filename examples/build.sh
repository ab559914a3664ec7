# Makes the library, and says how a C program is built over it and run: check.sh here, tests/header.sh and tests/stack.sh source it,
# from the repository's folder.
# shellcheck shell=sh

rust/library.sh

work=$(mktemp -d)
trap 'rm -rf "$work"' EXIT

# Builds a program, and calls COMMAND with the words that run it. `machine` says for which processor.
over_library() { # FILE.c COMMAND..
    source=$1
    shift
    # shellcheck disable=SC2034
    machine=$(uname -m)
    cc -std=c99 -pedantic -Wall -Wextra -Werror -Iinclude "$source" target/host/libtulfasheq.a -o "$work/program"
    "$@" "$work/program"
}
