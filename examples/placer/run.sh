#!/bin/sh
# Runs the placer in C and the one in Rust on the block. Both make the same moves, and have to come to the same slacks.
# `make placer` runs it, from the root of the repository, once it has built both.
set -e
out=$(mktemp -d)
trap 'rm -rf "$out"' EXIT
target/placer/placer_c examples/placer/block >"$out/c"
target/placer/release/placer examples/placer/block >"$out/rust"
grep -v 'moves per second' "$out/c" >"$out/c-slacks"
grep -v 'moves per second' "$out/rust" >"$out/rust-slacks"
if ! diff "$out/c-slacks" "$out/rust-slacks"; then
    echo "the placers in C and in Rust differ" >&2
    exit 1
fi
cat "$out/c-slacks"
echo "in C:    $(grep 'moves per second' "$out/c")"
echo "in Rust: $(grep 'moves per second' "$out/rust")"
