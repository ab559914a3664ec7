#!/bin/sh
# Compares the proved library, the printing program and the program that cuts FASTA to lines with the second program. The programs
# are run on hundreds of inputs (src/bin/compare). The library is called through its exports, linked as any program would link
# them (../rust): nearly two million calls (src/requests, tests/library*.rs); before that, the limits in ../rust are held to the
# header's.
set -eu
cd "$(dirname "$0")/.."

cargo build --release --offline --quiet --manifest-path second/Cargo.toml --bin compare
motifs=$(./run --words motifs)
lines=$(./run --words lines)

# The words of the two commands are one to a line.
(
    IFS='
'
    set -f
    # shellcheck disable=SC2086
    second/target/release/compare $motifs -- $lines
)

echo "== the exports, linked"
rust/library.sh
cargo test --release --offline --quiet --manifest-path rust/Cargo.toml
cargo test --release --offline --quiet --manifest-path second/Cargo.toml --features library --test 'library*' -- --nocapture
