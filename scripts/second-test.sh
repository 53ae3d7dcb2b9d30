#!/bin/sh
# Tests the second implementation, and holds the stored cases and answers to what it makes now.
set -eu
cd "$(dirname "$0")/.."
second="--release --offline --quiet --manifest-path tests/second/Cargo.toml --target-dir target/second"

# shellcheck disable=SC2086
cargo test $second
# shellcheck disable=SC2086
cargo build $second
made=$(mktemp -d)
trap 'rm -rf "$made"' EXIT
target/second/release/second cases 1 >"$made/stdin"
target/second/release/second answers <"$made/stdin" >"$made/stdout"
for file in stdin stdout; do
    cmp "$made/$file" "crates/vectors/$file" || {
        echo "second: crates/vectors/$file isn't what the second implementation makes" >&2
        exit 1
    }
done
echo "second: the stored cases and answers are those that it makes"
