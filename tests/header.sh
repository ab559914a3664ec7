#!/bin/sh
# The header, from C: its functions are declared as the proved source has them; header.c, header_search.c and header_fasta.c compare
# each of its numbers, and what each function answers and leaves. A name that is in no CHECK of theirs is not tested, and fails too.
# And the archive needs no name from outside but memcpy and memset.
set -eu
cd "$(dirname "$0")/.."
# shellcheck source=examples/build.sh
. examples/build.sh

# ---- its names: all but that of the file and those of the three enums, which have no number

names=$(grep -o -i -w 'tulfasheq_[a-z0-9_]*' include/tulfasheq.h | sort -u |
    grep -v -x -e TULFASHEQ_H -e tulfasheq_profile -e tulfasheq_answer -e tulfasheq_stop)
untested=
for name in $names; do
    grep -q -w -e "CHECK($name" tests/header.c tests/header_search.c tests/header_fasta.c || untested="$untested $name"
done
if [ -n "$untested" ]; then
    echo "tests/header.sh: in no CHECK:$untested"
    exit 1
fi

# ---- what the archive asks of a program that links it: two names of the C library, and no other

if command -v nm >/dev/null 2>&1; then
    asked=$(nm -u target/host/libtulfasheq.a | awk '$1 == "U" { print $2 }' | sort -u | tr '\n' ' ')
    if [ "$asked" != "memcpy memset " ]; then
        echo "tests/header.sh: the archive needs from outside: ${asked% }; it may need memcpy and memset alone"
        exit 1
    fi
fi

# ---- its functions, a line for each: an array of the source is a pointer and a length here

in_lines() {
    tr -d '\n' | tr ';' '\n' | sed -e 's/  */ /g' -e 's/,)/)/'
}

sed -n '/^uint64_t tulfasheq_/,/;$/p' include/tulfasheq.h | in_lines >"$work/declared"
sed -n '/^pub extern "C" fn /,/^)/p' crates/exports/src/lib.rt | sed \
    -e 's/^pub extern "C" fn /uint64_t /' \
    -e 's/\([a-z_]*\): &\[u\([0-9]*\)\],/const uint\2_t *\1, size_t \1_len,/' \
    -e 's/\([a-z_]*\): &mut \[u\([0-9]*\)\],/uint\2_t *\1, size_t \1_len,/' \
    -e 's/\([a-z_]*\): &mut u\([0-9]*\),/uint\2_t *\1,/' \
    -e 's/\([a-z_]*\): u\([0-9]*\),/uint\2_t \1,/' \
    -e 's/^) -> u64/);/' | in_lines >"$work/source"
if [ ! -s "$work/source" ] || ! diff "$work/source" "$work/declared"; then
    echo "tests/header.sh: the functions are not declared as crates/exports has them"
    exit 1
fi
echo "include/tulfasheq.h: $(grep -c . "$work/declared") functions as in crates/exports, $(echo "$names" | grep -c .) names tested"

# ---- its numbers, and what its functions do

holds() { # NAME COMMAND..
    name=$1
    shift
    "$@" >"$work/out" || {
        cat "$work/out"
        exit 1
    }
    echo "tests/$name.c, $machine: $(tail -n 1 "$work/out")"
}

for program in header header_search header_fasta; do
    over_library "tests/$program.c" holds "$program"
done
