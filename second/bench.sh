#!/bin/sh
# Measures the proved library beside Rust programs on the same inputs (src/bin/bench; docs/BENCHMARKS.md says how it is
# meant). Not a part of the gate. It takes a minute, and more where the library is still to be proved. A measure's name
# (checks, legs, walk, searches, mixed, recovery, reading) after the command takes that one alone.
set -eu
cd "$(dirname "$0")/.."

rust/library.sh >/dev/null
cargo build --profile bench-honest --offline --quiet --manifest-path second/Cargo.toml --features library --bin bench
memory=$(awk '/^MemTotal/ { printf "%.0f", $2 / 1048576 }' /proc/meminfo)
echo "$(nproc) cores, $memory GiB, $(uname -m)"
echo
exec second/target/bench-honest/bench "$@"
