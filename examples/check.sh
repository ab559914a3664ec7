#!/bin/sh
# Builds the C programs of this folder over the library, runs each, with promoters.fa to read, and compares what it prints with the
# .out beside it.
set -eu
cd "$(dirname "$0")/.."
# shellcheck source=examples/build.sh
. examples/build.sh

prints() { # NAME COMMAND..
    name=$1
    shift
    "$@" <examples/promoters.fa >"$work/out"
    diff "examples/$name.out" "$work/out"
    echo "examples/$name.c, $machine: as examples/$name.out says"
}

for program in legs mixed fasta; do
    over_library "examples/$program.c" prints "$program"
done
