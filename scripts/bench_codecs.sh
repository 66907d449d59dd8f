#!/usr/bin/env bash
# Measures LZ4 encoding and decoding, and Zstandard decoding, beside `lz4 -1`, `lz4 -d` and `zstd -d` on one processor: text, numbers of
# 64 bits, and bytes that are compressed already, 100 MB of each.
# Usage, at the top of the repository, after `scripts/bench bench_codecs`:
#     bash scripts/bench_codecs.sh [MB]
set -eu
mb=${1:-100}
program=$PWD/out/benches/crates/bench_codecs/out/bench_codecs
work=$(mktemp -d)
trap 'rm -rf "$work"' EXIT

python3 - "$work" "$mb" <<'PYTHON'
import random, struct, sys, zlib
folder, size = sys.argv[1], int(sys.argv[2]) * 1_000_000
random.seed(1)
words = ["".join(random.choice("etaoinshrdlu") for _ in range(random.randint(2, 9))) for _ in range(5_000)]
with open(f"{folder}/text", "wb") as out:
    while out.tell() < size:
        out.write((" ".join(random.choices(words, range(5_000, 0, -1), k=2_000)) + "\n").encode())
with open(f"{folder}/numbers", "wb") as out:
    at = 0
    while out.tell() < size:
        steps = [random.randint(0, 1_000) for _ in range(10_000)]
        out.write(b"".join(struct.pack("<q", at := at + it) for it in steps))
with open(f"{folder}/compressed", "wb") as out, open(f"{folder}/text", "rb") as text:
    while out.tell() < size:
        block = text.read(1_000_000)
        text.seek(0 if len(block) < 1_000_000 else text.tell())
        out.write(zlib.compress(block, 6))
PYTHON

# NAME COMMAND..: runs the command three times and prints the least processor time, with that of the system for memory and files
timed() {
    local name=$1
    shift
    for _ in 1 2 3; do
        /usr/bin/time -a -o "$work/figures" -f '%U %S' "$@" >/dev/null 2>&1
    done
    awk -v n="$name" -v mb="$mb" '{ spent = $1 + $2 } NR == 1 || spent < least { least = spent } END { printf "  %s: %.0f ns each\n", n, least * 1e6 / mb }' "$work/figures"
    rm "$work/figures"
}

for kind in text numbers compressed; do
    lz4 -q -1 "$work/$kind" "$work/$kind.lz4"
    zstd -q -3 "$work/$kind" -o "$work/$kind.zst"
    # what our decoder refuses ends its line with the error
    (cd "$work" && taskset -c 0 "$program" "$kind" "$kind.lz4" "$kind.zst" run) || true
    timed "lz4 -1, $(stat -c %s "$work/$kind.lz4") bytes" taskset -c 0 lz4 -q -1 -f "$work/$kind" "$work/out"
    timed "lz4 -d" taskset -c 0 lz4 -q -d -f "$work/$kind.lz4" "$work/out"
    timed "zstd -d" taskset -c 0 zstd -q -d -f "$work/$kind.zst" -o "$work/out"
done
