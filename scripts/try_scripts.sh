#!/usr/bin/env bash
# Tests `scripts/vendor` on an empty repository, and `scripts/prove` and `scripts/install` on a small one, where another program stands for
# `rt`: nothing is proved. With --build `rt try` builds and runs a program over the crates that were copied, which takes minutes.
# Usage, at the top of the repository:
#     bash scripts/try_scripts.sh [--build]        prints a line for each difference, and fails if there is one
set -u
room=$(mktemp -d)
trap 'rm -rf "$room"' EXIT
failed=0

# MESSAGE: notes a failure
differs() {
    echo "$1"
    failed=1
}

# STATUS MESSAGE COMMAND ..: the message is the last line on standard error
expect() {
    local status=$1 message=$2
    shift 2
    local got said
    "$@" >"$room/wrote" 2>"$room/said"
    got=$?
    said=$(tail -n 1 "$room/said")
    [ "$got" = "$status" ] && [ "$said" = "$message" ] || differs "$*: status $got, said '$said'"
}

# vendor, by the commands that README shows: every crate that a line names is there, equal to the one here, and uses others of the lines or
# libraries of the kit.
other=$room/other
commands=$(sed -n '/^## In your own repository/,/^## /s/^    //p' README.md | sed "s|\.\./app|$other|g")
bash -e -c "$(grep -v 'rt try' <<<"$commands")" || differs 'README: the commands for another repository fail'
libraries=$(dirname "$(rt doc)")/rlibs
grep -q '^tiekvorn:' "$other/crates.txt" || differs 'vendor: no line for tiekvorn'
while IFS=: read -r name uses; do
    [ -d "$other/crates/$name/src" ] || differs "vendor: $name is missing"
    for it in $uses; do
        grep -q "^$it:" "$other/crates.txt" || [ -d "$libraries/$it.rlib" ] || differs "vendor: $name uses $it, which is missing"
    done
done <"$other/crates.txt"
for crate in "$other"/crates/*; do
    name=$(basename "$crate")
    grep -q "^$name:" "$other/crates.txt" || differs "vendor: no line for $name"
    for part in src specs proofs; do
        [ "$name" = app ] || [ ! -e "crates/$name/$part" ] || diff -r "crates/$name/$part" "$crate/$part" >&2 || differs "vendor: $name/$part"
    done
    [ ! -e "$crate/out" ] || differs "vendor: $name/out was copied"
done
for file in LICENSE-MIT LICENSE-APACHE; do
    cmp -s "$file" "$other/crates/tiekvorn/$file" || differs "vendor: $file"
done

# Crates that exist are overwritten only with --force, which keeps out/.
mkdir "$other/crates/tiekvorn/out"
echo mine >"$other/crates/tiekvorn/src/lib.rt"
echo mine >"$other/crates/tiekvorn/src/more.rt"
rm -r "$other"/crates/nest_*
expect 1 "vendor: $other/crates already has $(sed -n '/^app:/d; /^nest_/d; s/:.*//p' "$other/crates.txt" | paste -sd , | sed 's/,/, /g'); --force overwrites" \
    scripts/vendor "$other"
[ "$(cat "$other/crates/tiekvorn/src/lib.rt")" = mine ] && [ ! -e "$other/crates/nest_memory" ] || differs 'vendor: crates were overwritten'
expect 0 '' scripts/vendor --force "$other"
diff -r crates/tiekvorn/src "$other/crates/tiekvorn/src" >&2 || differs 'vendor --force: tiekvorn/src'
[ -d "$other/crates/nest_memory/src" ] && [ -d "$other/crates/tiekvorn/out" ] || differs 'vendor --force: crates are missing'
expect 2 'vendor: error: the following arguments are required: DIR' scripts/vendor
expect 2 'vendor: error: unrecognized arguments: b' scripts/vendor a b
expect 2 "vendor: error: $room/none is not a folder" scripts/vendor "$room/none"
expect 0 '' scripts/vendor --help

if [ "${1:-}" = --build ]; then
    rmdir "$other/crates/tiekvorn/out"
    bash -c "$(grep 'rt try' <<<"$commands")" >"$room/wrote" 2>"$room/said" </dev/null || differs "rt try of app: $(tail -n 1 "$room/said")"
    cmp -s "$room/wrote" crates/tour/stdout || differs 'rt try of app: other output'
fi

# A repository with two programs, and an `rt` that makes what `rt ci` makes if all is proved, then says and returns what VERDICT has. Of some
# crates, `rt ci NAME`, it makes nothing.
small=$room/small
mkdir -p "$small/crates/nest/src" "$small/crates/listcut/src" "$small/crates/nest/out" "$room/bin"
cp -r scripts "$small"
touch "$small/crates.txt" "$small/HANDLES" "$small/crates/nest/src/main.rt" "$small/crates/listcut/src/main.rt" "$small/crates/nest/out/kept"
cat >"$room/bin/rt" <<'END'
#!/usr/bin/env bash
[ "$*" = ci ] || exit 0
[ ! -e crates/nest/out ] || exit 3
for it in nest listcut; do
    mkdir "crates/$it/out"
    printf '#!/bin/sh\necho %s %s\n' "$it" "$(cat "crates/$it/src/main.rt")" >"crates/$it/out/$it"
    echo other >"crates/$it/out/$it.by-rattle"
done
[ -z "${CHANGES:-}" ] || echo "$CHANGES" >"$SMALL/crates/nest/src/main.rt"
printf 'a line\n%s\n' "${VERDICT#* }"
exit "${VERDICT%% *}"
END
chmod +x "$room/bin/rt"
export PATH=$room/bin:$PATH SMALL=$small VERDICT='0 3 passed, 0 failed'

# prove: the last line and the status of `rt ci`; programs only if all passed
expect 0 '' "$small/scripts/prove"
[ "$(tail -n 1 "$room/wrote")" = '3 passed, 0 failed' ] || differs "prove: the last line is '$(tail -n 1 "$room/wrote")'"
[ "$("$small/out/bin/nest") $("$small/out/bin/listcut")" = 'nest listcut' ] || differs 'prove: the programs are missing'
VERDICT='1 2 passed, 1 failed'
expect 1 '' "$small/scripts/prove"
[ "$(tail -n 1 "$room/wrote")" = '2 passed, 1 failed' ] || differs "prove: the last line is '$(tail -n 1 "$room/wrote")'"
[ -z "$(ls -A "$small/out")" ] || differs 'prove: programs are left after a run that failed'

# install: nothing after a proof that failed; without another proof while the crates are the same
expect 1 'install: scripts/prove failed, so nothing was installed' "$small/scripts/install" "$room/to"
[ -z "$(ls -A "$room/to/bin")" ] || differs 'install: a program after a proof that failed'
VERDICT='0 3 passed, 0 failed'
expect 0 '' "$small/scripts/install" "$room/to"
grep -q '^3 passed' "$room/wrote" || differs 'install: no proof'
[ "$("$room/to/bin/nest")" = nest ] && [ "$("$room/to/bin/listcut")" = listcut ] || differs 'install: the programs are missing'
VERDICT='1 2 passed, 1 failed'
expect 0 '' env -C "$room" "$small/scripts/install" to
[ "$(cat "$room/wrote")" = "$(printf '%s\n' "$room/to/bin/nest" "$room/to/bin/listcut")" ] || differs 'install: another proof'
[ "$(ls "$room/to/bin" | paste -sd ' ')" = 'listcut nest' ] || differs 'install: other files'
echo new >"$small/crates/nest/src/main.rt"
expect 1 'install: scripts/prove failed, so nothing was installed' "$small/scripts/install" "$room/to"
VERDICT='0 3 passed, 0 failed'
expect 0 '' "$small/scripts/install" "$room/to"
[ "$("$room/to/bin/nest")" = 'nest new' ] || differs 'install: programs of other crates'
echo newer >"$small/crates/nest/src/main.rt"
CHANGES=newest expect 1 'install: out/bin has no programs of the present crates/; if crates/ changed during the proof, run this again' \
    "$small/scripts/install" "$room/to"
[ "$("$room/to/bin/nest")" = 'nest new' ] || differs 'install: programs of other crates'
mkdir -p "$room/taken/bin/nest"
expect 1 "install: mv: cannot overwrite directory '$room/taken/bin/nest' with non-directory" env LC_ALL=C "$small/scripts/install" "$room/taken"
[ "$(ls -A "$room/taken/bin")" = nest ] || differs 'install: a file is left after an error'
expect 1 "install: mkdir: cannot create directory '$room/bin/rt': Not a directory" env LC_ALL=C "$small/scripts/install" "$room/bin/rt"
expect 2 'install: invalid arguments; try --help' "$small/scripts/install"
expect 2 'install: invalid arguments; try --help' "$small/scripts/install" ''
expect 2 'install: invalid arguments; try --help' "$small/scripts/install" a b
expect 2 'install: there is no option --unproved; try --help' "$small/scripts/install" --unproved
expect 0 '' "$small/scripts/install" --help
[ "$(head -n 1 "$room/wrote")" = 'Usage: scripts/install PREFIX' ] || differs 'install --help'
exit $failed
