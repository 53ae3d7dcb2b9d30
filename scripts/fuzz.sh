#!/bin/sh
# Feeds fresh cases through the proved program `vectors` and the second implementation, and stops at the first
# difference with the case in hex.   fuzz.sh [SEED [COUNT]]
set -eu
cd "$(dirname "$0")/.."
seed=${1:-1} count=${2:-1000000} chunk=100000

scripts/setup.sh run
vectors=$(scripts/x86.sh program vectors)
cargo build --release --offline --quiet --manifest-path tests/second/Cargo.toml --target-dir target/second
work=$(mktemp -d)
trap 'rm -rf "$work"' EXIT
done=0
while [ "$done" -lt "$count" ]; do
    n=$((count - done))
    [ "$n" -le "$chunk" ] || n=$chunk
    target/second/release/second fuzz "$seed" "$n" >"$work/cases"
    scripts/x86.sh run "$vectors" <"$work/cases" >"$work/answers"
    target/second/release/second compare "$work/cases" "$work/answers"
    done=$((done + n)) seed=$((seed + 1))
    echo "fuzz: $done of $count cases agree"
done
