#!/usr/bin/env bash
# Tests `listcut` from a shell: its output, its error message and its exit status.
# Usage, at the top of the repository, after `scripts/prove` has left the programs in out/bin:
#     bash scripts/try_listcut.sh [PROGRAM]  prints a line for each run that differs, and fails then
set -u
program=${1:-out/bin/listcut}
rows='[1,2]\nnull\n[]\n[3,null]\n'
failed=0

# INPUT STATUS OUTPUT ERROR ARGUMENT..
expect() {
    local input=$1 status=$2 output=$3 error=$4
    shift 4
    local message wrote got
    wrote=$(mktemp)
    message=$(printf "$input" | "$program" "$@" 2>&1 >"$wrote")
    got=$?
    if [ "$got" != "$status" ] || [ "$message" != "$error" ] || ! printf "$output" | cmp -s - "$wrote"; then
        echo "listcut $*: status $got, message '$message'"
        failed=1
    fi
    rm -f "$wrote"
}

expect "$rows" 0 'null\n[]\n' '' 1 2
expect '' 0 '' '' 0 0
expect '[-9223372036854775808]\n' 0 '[-9223372036854775808]\n' '' 0 1
expect "$rows" 0 '[3,null]\n[1,2]\n' '' take 3 0
expect "$rows" 0 '' '' take
expect "$rows" 1 '' 'listcut: range' take 4
expect "$rows" 2 '' 'listcut: arguments' take x
expect "$rows" 2 '' 'listcut: arguments' 1
expect "$rows" 2 '' 'listcut: arguments' 1 x
expect "$rows" 1 '' 'listcut: range' 3 2
expect '[1, 2]\n' 1 '' 'listcut: line 1' 0 1
expect '[9223372036854775808]\n' 1 '' 'listcut: line 1' 0 1
expect '[-0]\n' 1 '' 'listcut: line 1' 0 1
expect '[1]\n[2' 1 '' 'listcut: line 2' 0 1

message=$("$program" 0 0 2>&1 <&-)
[ "$? $message" = '1 listcut: input' ] || { echo "listcut with a closed input: $message"; failed=1; }
message=$(printf "$rows" | "$program" 0 4 2>&1 >/dev/full)
[ "$? $message" = '1 listcut: output' ] || { echo "listcut to a full disk: $message"; failed=1; }

# The commands that the pages show.
python3 scripts/check_quotes.py --run "$program" . || failed=1
exit $failed
