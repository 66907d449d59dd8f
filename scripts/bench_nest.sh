#!/usr/bin/env bash
# Measures the time and the peak memory of `nest` on records of five columns: `from-json`, `rows` beside a plain Rust program that writes
# the same text, `concat`, `equal` beside `cmp`, and `take`.
# Usage, at the top of the repository, after `scripts/prove` has left the programs in out/bin; rustc builds the
# plain program:
#     bash scripts/bench_nest.sh [ROWS [COPIES]]
# ROWS is 1000000 by default. The files that `equal` compares hold the rows COPIES times, 8 by default.
set -eu
rows=${1:-1000000}
copies=${2:-8}
program=out/bin/nest
work=$(mktemp -d)
trap 'rm -rf "$work"' EXIT
type='struct<id: int64, name: string, ok: bool, tags: list<item: string>, at: int64>'

# NAME BYTES COMMAND..: runs the command, whose output goes to $work/out, and prints its time for so many bytes and its peak memory
timed() {
    local name=$1 bytes=$2 seconds user system memory
    shift 2
    /usr/bin/time -o "$work/figures" -f '%e %U %S %M' "$@" >"$work/out"
    read -r seconds user system memory <"$work/figures"
    awk -v n="$name" -v b="$bytes" -v s="$seconds" -v u="$user" -v y="$system" -v m="$memory" 'BEGIN {
        printf "%-24s %6.2f s (%.2f user, %.2f system) for %.1f MB, peak memory %.0f MB\n", n, s, u, y, b / 1e6, m / 1024
    }'
}

size() {
    stat -c %s "$1"
}

rustc -O -o "$work/plain" scripts/plain_rows.rs
"$work/plain" "$rows" >"$work/text" 2>"$work/seconds"
printf '%-24s %6.2f s for %.1f MB\n' 'plain program, writing' "$(cat "$work/seconds")" "$(awk -v b="$(size "$work/text")" 'BEGIN { print b / 1e6 }')"
timed 'nest from-json' "$(size "$work/text")" "$program" from-json "$type" "$work/text" "$work/file"
timed 'nest rows' "$(size "$work/text")" "$program" rows "$work/file"
cmp "$work/text" "$work/out"
timed 'nest rows, ten of them' "$(size "$work/file")" "$program" head "$work/file"
files=$(for ((i = 0; i < copies; i++)); do echo "$work/file"; done)
timed 'nest concat' "$(($(size "$work/file") * copies))" "$program" concat $files -o "$work/one"
cp "$work/one" "$work/other"
timed 'cmp' "$(size "$work/one")" cmp "$work/one" "$work/other"
timed 'nest equal, same bytes' "$(size "$work/one")" "$program" equal "$work/one" "$work/other"
"$program" convert "$work/one" "$work/one.arrows"
timed 'nest equal, a stream' "$(size "$work/one")" "$program" equal "$work/one" "$work/one.arrows"
timed 'nest take, three' "$(size "$work/one")" "$program" take "$work/one" $((rows * copies - 1)) 3 $((rows * copies / 2))
timed 'nest rows of all' "$(size "$work/one")" "$program" rows "$work/one"
