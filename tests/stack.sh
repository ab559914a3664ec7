#!/bin/sh
# The stack that calls use, from C: stack.c runs each on a thread with little of it, in both profiles, and prints a table: a row for
# each call, with the bytes that were used. A function of the header that has no row in it where it is refused, or none where it is
# not, fails too.
set -eu
cd "$(dirname "$0")/.."
# shellcheck source=examples/build.sh
. examples/build.sh

names=$(sed -n 's/^uint64_t \(tulfasheq_[a-z0-9_]*\)(.*/\1/p' include/tulfasheq.h)

tells() { # COMMAND..
    status=0
    "$@" >"$work/out" || status=$?
    echo "tests/stack.c, $machine:"
    cat "$work/out"
    if [ "$status" -ne 0 ]; then
        echo "tests/stack.sh: ended with $status"
        exit 1
    fi
    for name in ${names:-tulfasheq_}; do
        rows=$(grep "^$name .* [0-9][0-9]*\$" "$work/out" || true)
        for run in refused answered; do
            case $run in
            refused) printf '%s\n' "$rows" | grep -q ' refused' ;;
            answered) printf '%s\n' "$rows" | grep "^$name " | grep -q -v ' refused' ;;
            esac || {
                echo "tests/stack.sh: $name was not run, $run"
                exit 1
            }
        done
    done
}

over_library tests/stack.c tells
