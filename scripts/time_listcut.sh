#!/usr/bin/env bash
# Measures `listcut` on rows of 8 items, a tenth of them null: on a quarter of the rows, on half and on all of them.
# Usage, at the top of the repository, after `scripts/prove` has left the programs in out/bin:
#     bash scripts/time_listcut.sh [ROWS]        ROWS is 1000000 by default
set -eu
rows=${1:-1000000}
program=out/bin/listcut
work=$(mktemp -d)
trap 'rm -rf "$work"' EXIT

make_rows() {
    awk -v n="$1" 'BEGIN {
        srand(1)
        for (i = 0; i < n; i++) {
            line = ""
            for (j = 0; j < 8; j++)
                line = line (j ? "," : "") (rand() < 0.1 ? "null" : sprintf("%.0f", (rand() - 0.5) * 2 ^ 40))
            print "[" line "]"
        }
    }'
}

for count in $((rows / 4)) $((rows / 2)) "$rows"; do
    make_rows "$count" > "$work/input"
    bytes=$(wc -c < "$work/input")
    /usr/bin/time -o "$work/figures" -f '%e %M' "$program" 0 "$count" < "$work/input" > "$work/output"
    cmp "$work/input" "$work/output"
    read -r seconds memory < "$work/figures"
    awk -v n="$count" -v b="$bytes" -v s="$seconds" -v m="$memory" 'BEGIN {
        printf "%d rows, %.1f MB: %.2f s, %.0f ns per byte, peak memory %.1f times the input\n", n, b / 1e6, s, s / b * 1e9, m * 1024 / b
    }'
done
