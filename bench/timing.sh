#!/bin/sh
# Prints for each block how long a full timing takes here and in plain C, how long that is for each crossing of an arc by
# a line, and the ratio, which should be at most 1.5. Both have to come to the same lines and slacks. Of five turns each
# the fastest counts, since a shared machine is not always as fast. `make bench` runs it, from the root of the
# repository, once it has built bench_timing.
set -e
program=${1:-target/bin/bench_timing}
out=$(mktemp -d)
trap 'rm -rf "$out"' EXIT
${CC:-gcc} -O3 -Wall -Wextra -o "$out/timing" bench/timing.c bench/blocks.c bench/passes.c
for turn in 1 2 3 4 5; do
    "$out/timing" >>"$out/plain"
    "$program" time >>"$out/here"
done
# of the lines that say the same behind the nanoseconds, the fastest
fastest() {
    awk -F ' ns, ' '
        !($2 in best) { names[++count] = $2; best[$2] = $1 }
        $1 < best[$2] { best[$2] = $1 }
        END { for (i = 1; i <= count; i++) printf "%d\t%s\n", best[names[i]], names[i] }' "$1"
}
fastest "$out/plain" >"$out/plain.best"
fastest "$out/here" >"$out/here.best"
if [ "$(cut -f2 "$out/plain.best")" != "$(cut -f2 "$out/here.best")" ]; then
    echo "the two differ: here $(cut -f2 "$out/here.best"); in C $(cut -f2 "$out/plain.best")" >&2
    exit 1
fi
paste "$out/here.best" "$out/plain.best" | awk -F '\t' '{
    match($2, /[0-9]+ crossings/)
    crossings = substr($2, RSTART, RLENGTH) + 0
    printf "timing of %s\n", $2
    printf "  here %d ns, %.1f a crossing; in C %d ns, %.1f a crossing; ratio %.2f (goal: at most 1.50)\n", $1, $1 / crossings, $3, $3 / crossings, $1 / $3
}'
