#!/bin/sh
# Prints how long the load of a large false-set file takes here and in plain C, and the ratio, which should be at most 3.
# Of five turns each the fastest counts, since a shared machine is not always as fast. `make bench` runs it, from the root
# of the repository, once it has built bench_graph.
set -e
program=${1:-target/bin/bench_graph}
out=$(mktemp -d)
trap 'rm -rf "$out"' EXIT
${CC:-gcc} -O3 -o "$out/pairs" bench/pairs.c
for turn in 1 2 3 4 5; do
    "$out/pairs" >>"$out/plain"
    "$program" time >>"$out/here"
done
plain=$(sort -n "$out/plain" | head -n 1)
here=$(sort -n "$out/here" | head -n 1)
echo "false-set file of 60,000 bytes: $here ns, in C $plain ns, ratio $(awk "BEGIN { printf \"%.2f\", $here / $plain }")"
