#!/usr/bin/env bash
# Runs the built program and compares its output, its error message and its exit status.
# Usage, at the top of the repository, after `scripts/prove` has left the programs in out/bin:
#     bash scripts/try_nest.sh [PROGRAM]     prints a line for each difference, and fails if there is one
set -u
program=${1:-out/bin/nest}
room=$(mktemp -d)
trap 'rm -rf "$room"' EXIT
failed=0

# Streams and files of another implementation: an int32 column `a` and a string column `b` in record batches of 2, 0 and 1 rows; a
# compressed one; three rows without a column; boolean columns `a` and `b`. They are copied, since some commands write beside their input.
data=$(dirname "$0")/../tests/data
cp "$data/cli/stream.arrows" "$room/stream"
cp "$data/cli/file.arrow" "$room/file"
cp "$data/cli/compressed.arrows" "$room/packed"
cp "$data/streams/valid/no_columns.arrows" "$room/bare"
cp "$data/flat/valid/boolean.arrows" "$room/truths"
head -c 500 "$room/file" >"$room/cut"
printf 'a,b\n1,2\n' >"$room/csv"
# The stream without its record batch of 0 rows, without its last record batch, and with another integer in its last row.
{ head -c 424 "$room/stream"; tail -c +633 "$room/stream"; } >"$room/parts"
{ head -c 632 "$room/stream"; tail -c 8 "$room/stream"; } >"$room/shorter"
{ head -c 840 "$room/stream"; printf '\4'; tail -c +842 "$room/stream"; } >"$room/unlike"

# The messages of the crates of the IPC formats.
text='not an Arrow IPC file or stream: it looks like CSV or text'
negative='metadata length of a message is negative'
truncated='column "a": compressed buffer is truncated'
magic='file does not begin and end with ARROW1'

# expect STATUS OUTPUT MESSAGE ARGUMENT ..
expect() {
    local status=$1 output=$2 message=$3
    shift 3
    local said got
    said=$("$program" "$@" 2>&1 >"$room/wrote" <"$room/stream")
    got=$?
    if [ "$got" != "$status" ] || [ "$said" != "$message" ] || ! printf "$output" | cmp -s - "$room/wrote"; then
        echo "nest $*: status $got, said '$said', wrote '$(cat "$room/wrote")'"
        failed=1
    fi
}

all='{"a":1,"b":"a"}\n{"a":null,"b":"b"}\n{"a":3,"b":null}\n'
for file in "$room/stream" "$room/file" -; do
    expect 0 'a: int32\nb: string\n' '' schema "$file"
    expect 0 "$all" '' rows "$file"
    expect 0 '{"a":null,"b":"b"}\n{"a":3,"b":null}\n' '' rows "$file" --start 1 --count 5
    expect 0 '{"a":null,"b":"b"}\n' '' rows "$file" --start 1 --count 1
    expect 0 '' '' rows "$file" --start 3 --count 1
    expect 0 '{"a":null,"b":"b"}\n{"a":3,"b":null}\n' '' rows "$file" --start 1
    expect 0 '{"a":1,"b":"a"}\n' '' rows --count=1 "$file"
    expect 0 "$all" '' head "$file"
    expect 0 '{"a":1,"b":"a"}\n{"a":null,"b":"b"}\n' '' head "$file" 2
    expect 0 "$all" '' tail "$file"
    expect 0 '{"a":null,"b":"b"}\n{"a":3,"b":null}\n' '' tail "$file" 2
    expect 0 '{"b":null}\n' '' tail --columns b "$file" 1
    expect 0 '' '' tail "$file" 0
    expect 0 "$all" '' tail "$file" 18446744073709551615
    expect 0 '3\n' '' count "$file"
    expect 0 '3\n' '' count "$file" --columns b
    expect 0 '{"a":null,"b":"b"}\n{"a":3,"b":null}\n' '' slice "$file" 1 5
    expect 0 '{"a":null,"b":"b"}\n{"a":3,"b":null}\n' '' cut -- "$file" 1 5
    expect 2 '' "nest: $file: position 0: the column is not boolean" where "$file" b
    expect 2 '' "nest: $file: position 0: there is no column of this name" where "$file" c
    expect 2 '' "nest: $file: position 7: the column cannot be compared with this literal" where "$file" 'a=1 or b < 2'
    expect 0 '{"a":3,"b":null}\n' '' where "$file" 'a > 1.5'
    expect 0 '{"a":1,"b":"a"}\n{"a":3,"b":null}\n' '' where "$file" "b = 'a' or not a is null"
    expect 0 '{"a":3,"b":null}\n{"a":1,"b":"a"}\n{"a":3,"b":null}\n' '' take "$file" 2 0 2
    expect 2 '' "nest: $file: a row index is out of range" take "$file" 0 3
    expect 0 '' '' convert "$file" "$room/as.arrows"
    expect 0 "$all" '' rows "$room/as.arrows"
    expect 0 '' '' convert "$room/as.arrows" "$room/as"
    expect 0 "$all" '' rows "$room/as"
    case $(head -c 4 "$room/as.arrows" | od -An -tx1)$(head -c 6 "$room/as") in
    ' ff ff ff ffARROW1') ;;
    *) echo 'nest convert: another format'; failed=1 ;;
    esac
done
expect 0 '' '' convert "$room/as" "$room/as"
expect 0 "$all" '' rows "$room/as"
expect 0 '{"a":true,"b":false}\n{"a":true,"b":true}\n{"a":true,"b":false}\n{"a":true,"b":true}\n{"a":true,"b":true}\n' '' where "$room/truths" a
expect 2 '' "nest: $room/packed: record batch 0: $truncated" convert "$room/packed" "$room/as"
expect 0 "$all" '' rows "$room/as"
expect 2 '' "nest: $room/none/as: output cannot be written: no such directory" convert "$room/file" "$room/none/as"
expect 2 '' "nest: $room/packed: record batch 0: $truncated" rows "$room/packed"
expect 0 '' '' rows "$room/packed" --start 0 --count 0
expect 2 '' "nest: $room/csv: $text" rows "$room/csv"
expect 2 '' "nest: $room/cut: $magic" schema "$room/cut"
# Columns of types that are not supported: marked in a schema, and named in errors. The files of pyarrow are streams and files.
formats=$data/pyarrow/samples/formats
hint='(read other columns with --columns)'
for end in arrow arrows; do
    expect 0 'list: list_view (not supported)\nlarge: large_list_view (not supported)\n' '' schema "$formats/list_views.$end"
    expect 0 'run: run_end_encoded (not supported)\nother: int8\n' '' schema "$formats/run_ends.$end"
    expect 0 'id: int64\ns.v.item: list_view (not supported)\n' '' schema "$formats/list_views_inside.$end"
    expect 0 'id: int64\n' '' schema --columns id "$formats/list_views_inside.$end"
    inside=$formats/list_views_inside.$end
    expect 2 '' "nest: $inside: column \"s.v.item\": list_view is not supported $hint" rows "$inside"
    expect 2 '' "nest: $inside: column \"s.v.item\": list_view is not supported $hint" schema --columns s "$inside"
    expect 2 '' "nest: $inside: column \"s.v.item\": list_view is not supported $hint" convert "$inside" "$room/as"
    expect 0 '{"id":1}\n{"id":2}\n' '' rows --columns id "$inside"
    # A pipe is not opened a second time, which would wait for another writer.
    rm -f "$room/pipe" && mkfifo "$room/pipe" && cat "$inside" >"$room/pipe" &
    while [ ! -p "$room/pipe" ]; do sleep 0.1; done
    expect 0 'id: int64\ns.v.item: list_view (not supported)\n' '' schema "$room/pipe"
    rm -f "$room/pipe"
    [ "$("$program" schema - <"$inside")" = "$("$program" schema "$inside")" ] || { echo 'nest schema: standard input'; failed=1; }
    expect 2 '' "nest: $formats/run_ends.$end: column \"run\": run_end_encoded is not supported $hint" head "$formats/run_ends.$end"
done
# Files of other formats: by their first bytes.
: >"$room/empty"
printf 'PAR1\25\4\25\20' >"$room/parquet"
printf 'FEA1\0\0\0\0' >"$room/feather"
printf '\37\213\10\10' >"$room/gzip"
expect 2 '' "nest: $room/empty: not an Arrow IPC file or stream: the file is empty" schema "$room/empty"
expect 2 '' "nest: $room/parquet: not an Arrow IPC file or stream: it looks like Parquet" schema "$room/parquet"
expect 2 '' "nest: $room/feather: not an Arrow IPC file or stream: it looks like Feather version 1" rows "$room/feather"
expect 2 '' "nest: $room/gzip: not an Arrow IPC file or stream" rows "$room/gzip"
expect 2 '' "nest: $room/bare: record batch 0: the record batch has no columns of the schema" rows "$room/bare"
expect 0 '' '' schema "$room/bare"
expect 2 '' "nest: $room/none: no such file" rows "$room/none"
expect 2 '' "nest: $room: is a directory" rows "$room"
expect 2 '' "nest: $room: is a directory" equal "$room/file" "$room"
expect 2 '' "nest: $room: is a directory" from-json 'struct<a: int32>' "$room" "$room/as"
expect 2 '' "nest: $room: output cannot be written: is a directory" convert "$room/file" "$room"
expect 2 '' "nest: $room/file/as: output cannot be written" convert "$room/file" "$room/file/as"
# The second record batch is truncated, or the metadata length of the third is negative: earlier rows are printed. Inputs that cannot seek.
two='{"a":1,"b":"a"}\n{"a":null,"b":"b"}\n'
head -c 500 "$room/stream" >"$room/early"
{ head -c 632 "$room/stream"; printf '\0'; tail -c +634 "$room/stream"; } >"$room/negative"
expect 0 "$two" '' rows "$room/early" --start 0 --count 2
expect 0 '' '' cut "$room/early" 0 0
expect 2 "$two" "nest: $room/negative: record batch 2: $negative" rows "$room/negative"
expect 0 "$two" '' rows "$room/negative" --start 0 --count 2
expect 0 '{"a":1,"b":"a"}\n' '' take "$room/negative" 0
expect 2 '' "nest: $room/negative: record batch 2: $negative" take "$room/negative" 0 2
# What metadata says: no body and no column is read. Values in the order of the lines.
# informs FILE FORMAT VERSION COMPRESSION COLUMNS BATCHES ROWS DICTIONARIES DELTAS
informs() {
    local file=$1
    shift
    local names=('format' 'version' 'compression' 'columns' 'record batches' 'rows' 'dictionary batches' 'delta dictionaries') lines=
    for name in "${names[@]}"; do
        lines+="$name: $1\n"
        shift
    done
    expect 0 "$lines" '' info "$file"
}
informs "$room/file" file V5 none 2 3 3 0 0
informs "$room/stream" stream V5 none 2 3 3 0 0
informs - stream V5 none 2 3 3 0 0
informs "$room/packed" stream V5 lz4 2 1 3 0 0
informs "$room/bare" stream V5 none 0 1 3 0 0
informs "$room/truths" stream V5 none 2 1 11 0 0
for codec in lz4 zstd; do
    informs "$data/pyarrow/samples/compressed/${codec}_deltas.arrow" file V5 "$codec" 1 2 2 2 1
    informs "$data/pyarrow/samples/compressed/${codec}_deltas.arrows" stream V5 "$codec" 1 2 2 2 1
done
informs "$formats/version_4.arrow" file V4 none 4 1 20 0 0
informs "$formats/list_views.arrow" file V5 none 2 1 3 0 0
informs "$formats/run_ends.arrows" stream V5 none 2 1 3 0 0
expect 2 '' "nest: $room/negative: record batch 2: $negative" info "$room/negative"
expect 2 '' "nest: $room/csv: $text" info "$room/csv"
expect 2 '' "nest: $room/cut: $magic" info "$room/cut"
expect 2 '' "nest: $room/none: no such file" info "$room/none"
for input in stream file; do
    [ "$(cat "$room/$input" | "$program" info - | tail -n +2)" = "$("$program" info "$room/file" | tail -n +2)" ] || { echo 'nest info: a pipe'; failed=1; }
done
# The last rows of a file whose first record batch is truncated, and its number of rows; errors; a pipe.
expect 2 '' "nest: $room/negative: record batch 2: $negative" tail "$room/negative" 1
expect 2 '' "nest: $room/negative: record batch 2: $negative" count "$room/negative"
expect 2 '' "nest: $room/packed: record batch 0: $truncated" tail "$room/packed"
expect 2 '' "nest: $room/bare: record batch 0: the record batch has no columns of the schema" tail "$room/bare"
expect 0 '3\n' '' count "$room/bare"
expect 2 '' "nest: $room/csv: $text" count "$room/csv"
expect 2 '' "nest: $room/cut: $magic" tail "$room/cut"
expect 2 '' "nest: $room/none: no such file" count "$room/none"
expect 2 '' "nest: $room: is a directory" tail "$room"
for input in stream file; do
    [ "$(cat "$room/$input" | "$program" tail - 1)" = '{"a":3,"b":null}' ] || { echo 'nest tail: a pipe'; failed=1; }
    [ "$(cat "$room/$input" | "$program" count /dev/stdin)" = 3 ] || { echo 'nest count: a pipe'; failed=1; }
done
for command in tail count info; do
    said=$("$program" "$command" "$room/file" 2>&1 >/dev/full)
    [ "$? $said" = "2 nest: $room/file: output cannot be written" ] || { echo "nest $command to a full device: $said"; failed=1; }
done
[ "$("$program" rows - <"$room/file")" = "$("$program" rows "$room/file")" ] || { echo 'nest rows: a file as standard input'; failed=1; }
for input in stream file; do
    [ "$(cat "$room/$input" | "$program" cut /dev/stdin 1 1)" = '{"a":null,"b":"b"}' ] || { echo 'nest cut: a pipe'; failed=1; }
    [ "$(cat "$room/$input" | "$program" take - 1)" = '{"a":null,"b":"b"}' ] || { echo 'nest take: a pipe'; failed=1; }
    [ "$(cat "$room/$input" | "$program" convert - - | "$program" rows -)" = "$("$program" rows "$room/file")" ] || { echo 'nest convert: a pipe'; failed=1; }
    cat "$room/$input" | "$program" equal /dev/stdin "$room/file" || { echo 'nest equal: a pipe'; failed=1; }
done
# Equal rows in other record batches and formats; another schema, another row, missing rows; tables without a column.
"$program" convert "$room/stream" "$room/other.arrows"
for other in "$room/stream" "$room/file" "$room/other.arrows" -; do
    expect 0 '' '' equal "$room/stream" "$other"
    expect 0 '' '' equal "$other" "$room/file"
done
expect 1 'schema\n' '' equal "$room/file" "$room/truths"
expect 1 'schema\n' '' equal "$room/bare" "$room/truths"
expect 0 '' '' equal "$room/bare" "$room/bare"
expect 0 '' '' equal "$room/file" "$room/parts"
expect 1 'row 2\n' '' equal "$room/file" "$room/shorter"
expect 1 'row 2\n' '' equal "$room/shorter" "$room/parts"
expect 1 'row 2\n' '' equal "$room/parts" "$room/unlike"
# An error is reported with its record batch if no row before it differs, else the difference is printed.
expect 2 '' "nest: $room/packed: record batch 0: $truncated" equal "$room/packed" "$room/file"
expect 2 '' "nest: $room/packed: record batch 0: $truncated" equal "$room/file" "$room/packed"
expect 2 '' "nest: $room/csv: $text" equal "$room/packed" "$room/csv"
expect 2 '' "nest: $room/negative: record batch 2: $negative" equal "$room/file" "$room/negative"
[ "$(cat "$room/stream" | "$program" equal /dev/stdin "$room/unlike")" = 'row 2' ] || { echo 'nest equal: a pipe'; failed=1; }
expect 2 '' "nest: $room/csv: $text" equal "$room/file" "$room/csv"
expect 2 '' "nest: $room/none: no such file" equal "$room/file" "$room/none"
# Projected columns, in the order of the schema, of streams and files, with the option anywhere; an unknown name, with similar names of what
# can be read twice.
for file in "$room/stream" "$room/file" -; do
    expect 0 'b: string\n' '' schema "$file" --columns b
    expect 0 'a: int32\nb: string\n' '' schema --columns b,a "$file"
    expect 0 '{"b":"a"}\n{"b":"b"}\n{"b":null}\n' '' rows --columns b "$file"
    expect 0 '{"a":3}\n' '' take "$file" --columns a 2
    similar=' (similar: "a", "b")'
    [ "$file" = - ] && similar=
    for command in schema rows head tail count; do
        expect 2 '' "nest: $file: there is no column \"c\"$similar" "$command" "$file" --columns b,c,d
        expect 2 '' "nest: $file: there is no column \"column\"" "$command" "$file" --columns column
    done
    expect 2 '' "nest: $file: there is no column \"c\"$similar" take "$file" 0 --columns c
    expect 2 '' "nest: $file: there is no column \"\"$similar" convert "$file" "$room/c" --columns b,
    expect 2 '' "nest: $file: there is no column \"c\"$similar" concat "$file" -o "$room/c" --columns c
    expect 2 '' "nest: $file: position 0: there is no column of this name" where "$file" a --columns b
    expect 0 '' '' convert "$file" "$room/b" --columns b
    expect 0 '{"b":"a"}\n{"b":"b"}\n{"b":null}\n' '' rows "$room/b"
done
[ "$(cat "$room/stream" | "$program" rows /dev/stdin --columns c 2>&1)" = 'nest: /dev/stdin: there is no column "c"' ] || { echo 'nest --columns: a pipe'; failed=1; }
expect 2 '' "nest: $formats/list_views_inside.arrow: there is no column \"idd\"" rows "$formats/list_views_inside.arrow" --columns idd
expect 0 '' '' equal "$room/parts" "$room/unlike" --columns b
expect 1 'row 2\n' '' equal "$room/parts" "$room/unlike" --columns a
expect 2 '' "nest: $room/bare: there is no column \"b\"" equal "$room/parts" "$room/bare" --columns b
expect 2 '' "nest: $room/bare: there is no column \"b\"" equal "$room/bare" "$room/parts" --columns b
expect 2 '' "nest: $room/bare: there is no column \"b\"" concat "$room/parts" "$room/bare" -o "$room/c" --columns b
# Quoted names, and the names on the lines of a file.
printf 'b\n' >"$room/names"
printf 'b\r\na' >"$room/both_names"
printf '\377\n' >"$room/latin"
: >"$room/no_names"
for file in "$room/stream" "$room/file" -; do
    expect 0 '{"b":"a"}\n{"b":"b"}\n{"b":null}\n' '' rows "$file" --columns '"b"'
    expect 0 'a: int32\nb: string\n' '' schema "$file" --columns 'b,"a"'
    expect 0 'b: string\n' '' schema "$file" --columns-file "$room/names"
    expect 0 '{"a":1,"b":"a"}\n' '' head "$file" 1 --columns-file "$room/both_names"
    expect 2 '' "nest: $file: there is no column \"a,b\"" count "$file" --columns '"a,b",c'
    expect 2 '' "nest: $room/latin: the column names are not UTF-8" rows "$file" --columns-file "$room/latin"
    expect 2 '' "nest: $room/absent: no such file" rows "$file" --columns-file "$room/absent"
    expect 2 '' "nest: $room: is a directory" convert "$file" "$room/none" --columns-file "$room"
done
# Concatenations as a file, as a stream and on standard output; different schemas; an output that is an input.
expect 0 '' '' concat "$room/file" "$room/parts" -o "$room/both"
expect 0 "$all$all" '' rows "$room/both"
expect 0 '' '' concat -o "$room/both.arrows" "$room/both" -
expect 0 "$all$all$all" '' rows "$room/both.arrows"
expect 0 '' '' concat "$room/shorter" -o "$room/one"
expect 0 '' '' equal "$room/one" "$room/shorter"
expect 0 '' '' concat "$room/parts" "$room/unlike" --columns b -o "$room/b"
expect 0 'b: string\n' '' schema "$room/b"
expect 0 '' '' concat "$room/one" "$room/one" -o "$room/one"
expect 2 '' "nest: $room/truths: the schema differs from that of $room/file" concat "$room/file" "$room/parts" "$room/truths" -o "$room/none"
expect 2 '' "nest: $room/packed: record batch 0: $truncated" concat "$room/file" "$room/packed" -o "$room/none"
expect 2 '' "nest: $room/negative: record batch 2: $negative" concat "$room/file" "$room/negative" -o "$room/none"
expect 2 '' "nest: $room/csv: $text" concat "$room/csv" "$room/file" -o "$room/none"
expect 2 '' "nest: $room/absent: no such file" concat "$room/file" "$room/absent" -o "$room/none"
[ ! -e "$room/none" ] || { echo 'nest concat: an output after an error'; failed=1; }
# To standard output, to a full one, and to an existing file, which is unchanged after an error.
[ "$("$program" concat "$room/file" "$room/parts" -o - | "$program" rows -)" = "$(printf "$all$all")" ] || { echo 'nest concat: a pipe'; failed=1; }
said=$("$program" concat "$room/file" "$room/parts" -o - 2>&1 >/dev/full)
[ "$? $said" = '2 nest: -: output cannot be written' ] || { echo "nest concat to a full device: $said"; failed=1; }
expect 0 '' '' concat "$room/file" -o "$room/kept"
expect 2 '' "nest: $room/packed: record batch 0: $truncated" concat "$room/parts" "$room/packed" -o "$room/kept"
expect 0 "$all" '' rows "$room/kept"
expect 0 '' '' concat "$room/parts" "$room/file" "$room/parts" -o "$room/kept"
expect 0 "$all$all$all" '' rows "$room/kept"
# Selected rows as a stream, as a file and on standard output are those that are printed; projected columns; an output that is the input;
# each error, which leaves no output; rows without a column.
# selected COMMAND ARGUMENT ..
selected() {
    local want
    want=$("$program" "$@" <"$room/stream")
    for out in "$room/selected.arrows" "$room/selected"; do
        expect 0 '' '' "$@" -o "$out"
        [ "$("$program" rows "$out")" = "$want" ] || { echo "nest $* -o $out: other rows"; failed=1; }
    done
    case $(head -c 4 "$room/selected.arrows" | od -An -tx1)$(head -c 6 "$room/selected") in
    ' ff ff ff ffARROW1') ;;
    *) echo "nest $*: another format"; failed=1 ;;
    esac
    [ "$("$program" "$@" -o - <"$room/stream" | "$program" rows -)" = "$want" ] || { echo "nest $* -o -: other rows"; failed=1; }
}
for file in "$room/stream" "$room/file" -; do
    for words in '0 0' '0 1' '1 1' '1 2' '0 3' '1 9' '2 1' '3 1' '9 18446744073709551615'; do
        selected slice "$file" $words
    done
    for words in '0' '2 0 2' '1 1 1' '0 1 2'; do
        selected take "$file" $words
    done
    selected cut "$file" 1 2 --columns b
    selected take --columns a "$file" 2
    expect 2 '' "nest: $file: a row index is out of range" take "$file" 0 3 -o "$room/none"
    expect 2 '' "nest: $file: position 0: the column is not boolean" where "$file" b -o "$room/none"
    expect 2 '' "nest: $file: position 0: there is no column of this name" where "$file" c -o "$room/none"
    expect 2 '' "nest: $file: position 0: there is no column of this name" where "$file" a --columns b -o "$room/none"
done
selected where "$room/truths" a
selected where "$room/truths" b
selected where "$room/truths" a --columns a
"$program" convert "$room/file" "$room/same"
expect 0 '' '' cut -o "$room/same" "$room/same" 1 2
expect 0 '{"a":null,"b":"b"}\n{"a":3,"b":null}\n' '' rows "$room/same"
expect 0 '' '' cut "$room/file" 0 3 -o "$room/same"
expect 0 '' '' equal "$room/file" "$room/same"
expect 0 '' '' cut "$room/bare" 1 9 -o "$room/two"
expect 0 '' '' take "$room/bare" 0 2 -o "$room/other"
expect 0 '' '' equal "$room/two" "$room/other"
expect 1 'row 2\n' '' equal "$room/two" "$room/bare"
expect 2 '' "nest: $room/bare: a row index is out of range" take "$room/bare" 3 -o "$room/none"
expect 2 '' "nest: $room/bare: position 0: there is no column of this name" where "$room/bare" a -o "$room/none"
expect 2 '' "nest: $room/packed: record batch 0: $truncated" cut "$room/packed" 0 1 -o "$room/none"
expect 2 '' "nest: $room/csv: $text" take "$room/csv" 0 -o "$room/none"
expect 2 '' "nest: $room/absent: no such file" where "$room/absent" a -o "$room/none"
expect 2 '' "nest: $room/no/out: output cannot be written: no such directory" cut "$room/file" 0 1 -o "$room/no/out"
[ ! -e "$room/none" ] || { echo 'nest: an output after an error'; failed=1; }
# New files: an error leaves none; a slice before an invalid record batch is written. An existing output is unchanged after an error, may be the
# input, and may be a device.
: >"$room/none.json"
expect 0 '' '' convert "$room/file" /dev/null
expect 2 '' 'nest: /dev/full: output cannot be written' convert "$room/file" /dev/full
[ -c /dev/null ] && [ -c /dev/full ] || { echo 'nest convert: a device is gone'; failed=1; }
for out in "$room/new.arrows" "$room/new"; do
    for file in "$room/stream" "$room/file" "$room/truths" "$room/bare" -; do
        rm -f "$out"
        expect 0 '' '' convert "$file" "$out"
        expect 0 '' '' equal "$file" "$out"
        cp "$out" "$room/first"
        expect 0 '' '' convert "$file" "$out"
        cmp -s "$out" "$room/first" || { echo "nest convert $file $out: other bytes"; failed=1; }
    done
    for words in '0 0' '1 1' '1 2' '0 9'; do
        rm -f "$out"
        expect 0 '' '' cut "$room/file" $words -o "$out"
        cp "$out" "$room/first"
        expect 0 '' '' cut "$room/file" $words -o "$out"
        cmp -s "$out" "$room/first" || { echo "nest cut $words -o $out: other bytes"; failed=1; }
    done
    rm -f "$out"
    expect 2 '' "nest: $room/negative: record batch 2: $negative" convert "$room/negative" "$out"
    expect 2 '' "nest: $room/negative: record batch 2: $negative" cut "$room/negative" 1 2 -o "$out"
    expect 2 '' "nest: $room/csv: $text" convert "$room/csv" "$out"
    expect 2 '' "nest: $room/absent: no such file" convert "$room/absent" "$out"
    expect 2 '' "nest: $room/truths: position 0: there is no column of this name" where "$room/truths" c -o "$out"
    [ ! -e "$out" ] || { echo 'nest: a new output after an error'; failed=1; }
    expect 0 '' '' cut "$room/negative" 1 1 -o "$out"
    expect 0 '{"a":null,"b":"b"}\n' '' rows "$out"
    expect 2 '' "nest: $room/negative: record batch 2: $negative" convert "$room/negative" "$out"
    expect 0 '{"a":null,"b":"b"}\n' '' rows "$out"
    rm -f "$out"
    expect 0 '' '' convert "$room/file" "$out"
    expect 0 '' '' cut "$out" 1 1 -o "$out"
    expect 0 '{"a":null,"b":"b"}\n' '' rows "$out"
    # Through a link, with the permissions of the file; if OUT.part exists, nothing is written.
    chmod 604 "$out"
    ln -sf "$out" "$room/link.arrows"
    expect 0 '' '' convert "$room/stream" "$room/link.arrows"
    expect 0 "$all" '' rows "$out"
    [ "$(stat -c %a "$out")" = 604 ] && [ -L "$room/link.arrows" ] || { echo "nest convert: another file than $out"; failed=1; }
    echo mine >"$out.part"
    expect 2 '' "nest: $out: output cannot be written: OUT.part exists" cut "$room/file" 0 1 -o "$out"
    expect 0 "$all" '' rows "$out"
    [ "$(cat "$out.part")" = mine ] || { echo 'nest cut: another file was written'; failed=1; }
    rm "$out.part"
    expect 0 '' '' from-json 'struct<a: int32>' "$room/none.json" "$out"
    expect 0 '' '' rows "$out"
    [ ! -e "$out.part" ] || { echo "nest: $out.part is left"; failed=1; }
done
# If the output cannot be replaced, say it is a running program, it is kept as OUT.part.
cp "$(command -v sleep)" "$room/busy"
"$room/busy" 600 &
busy=$!
for _ in {1..500}; do [ "/proc/$busy/exe" -ef "$room/busy" ] && break || sleep 0.01; done
beside() {
    expect 2 '' "nest: $room/busy: output cannot be replaced; it is complete in $room/busy.part" "$@"
    expect 0 "$all" '' rows "$room/busy.part"
    cmp -s "$room/busy" "$(command -v sleep)" || { echo "nest $*: a program was written over"; failed=1; }
    rm -f "$room/busy.part"
}
beside convert "$room/file" "$room/busy"
beside cut "$room/file" 0 9 -o "$room/busy"
beside take "$room/file" 0 1 2 -o "$room/busy"
beside concat "$room/file" -o "$room/busy"
"$program" rows "$room/file" >"$room/rows.json"
beside from-json 'struct<a: int32, b: string>' "$room/rows.json" "$room/busy"
kill $busy
[ "$("$program" convert "$room/stream" - | "$program" rows -)" = "$("$program" rows "$room/stream")" ] || { echo 'nest convert: standard output'; failed=1; }
# Arguments that are refused: the message names the argument, and a near name where there is one.
# refuses MESSAGE ARGUMENT ..
refuses() {
    local message=$1
    shift
    local said got
    said=$("$program" "$@" 2>&1 >"$room/wrote" <"$room/stream")
    got=$?
    if [ "$got" != 2 ] || [ -s "$room/wrote" ] || ! grep -qF -- "$message" <<<"$said"; then
        echo "nest $*: status $got, said '$said', wrote '$(cat "$room/wrote")'"
        failed=1
    fi
}
value="a value is required for '"
required='the following required arguments were not provided:'
refuses "$value--output <OUT>'" cut "$room/file" 0 1 -o
refuses "'--output <OUT>' cannot be used multiple times" take "$room/file" 0 -o "$room/none" -o "$room/none"
refuses "$value--columns <NAMES>'" rows "$room/file" --columns
refuses "'--columns <NAMES>' cannot be used multiple times" rows "$room/file" --columns a --columns b
refuses "$required" cut "$room/file" 1 -o "$room/none"
refuses '<COUNT>' cut "$room/file" 1
refuses '<START>' slice "$room/file"
refuses "$required" concat "$room/file"
refuses '<FILE>' concat -o "$room/none"
refuses '<FILE>' rows
refuses '<OUT>' convert "$room/file"
refuses '<OTHER>' equal "$room/file"
refuses '<EXPRESSION>' where "$room/file"
refuses "invalid value for '<EXPRESSION>': position 3: a literal is expected" where "$room/file" 'a ='
refuses "invalid value for '<EXPRESSION>': position 2: the end of the condition is expected" where "$room/file" 'a b' -o "$room/none"
refuses 'Usage: nest where [OPTIONS] <FILE> <EXPRESSION>' where "$room/file" 'a ='
refuses "invalid value for '--columns <NAMES>': position 0: the quoted column name is not closed" rows "$room/file" --columns '"a'
refuses "invalid value for '--columns <NAMES>': position 3: a comma is expected" count "$room/file" --columns '"a" ,b'
refuses 'Usage: nest count [OPTIONS] <FILE>' count "$room/file" --columns '"a" ,b'
refuses "the argument '--columns <NAMES>' cannot be used with '--columns-file <LIST>'" rows "$room/file" --columns a --columns-file "$room/names"
refuses '<INDEX>' take "$room/file"
refuses "unexpected argument '--columns'" info "$room/file" --columns a
refuses '<OUT>' from-json 'struct<a: int32>' "$room/lines"
refuses "unexpected argument 'b'" where "$room/truths" a b -o "$room/none"
refuses "unexpected argument '-o'" convert "$room/file" "$room/as" -o "$room/none"
refuses "unexpected argument '-o'" rows "$room/file" -o "$room/none"
refuses "unexpected argument '--columns'" --columns a rows "$room/file"
refuses "a similar argument exists: '--columns'" rows "$room/file" --column a
refuses "unexpected argument '1'" rows "$room/file" 1
refuses "unexpected argument '0'" schema "$room/file" 0
refuses "unexpected argument '-'" convert "$room/file" - -
refuses "unrecognized subcommand 'show'" show "$room/file"
refuses "a similar subcommand exists: 'schema'" schem "$room/file"
refuses "invalid value 'x' for '--start <START>'" rows "$room/file" --start x
refuses "invalid value '18446744073709551616' for '<INDEX>" take "$room/file" 18446744073709551616
refuses 'Usage: nest <COMMAND>'
[ ! -e "$room/none" ] || { echo 'nest: an output after invalid arguments'; failed=1; }
expect 2 '' 'nest: an argument is not UTF-8' rows $'\377'

# Help and the version, on standard output; a reader that ends is no error.
# shows TEXT ARGUMENT ..
shows() {
    local text=$1
    shift
    "$program" "$@" >"$room/wrote" 2>"$room/said" && [ ! -s "$room/said" ] && grep -qF -- "$text" "$room/wrote" ||
        { echo "nest $*: wrote '$(cat "$room/wrote")', said '$(cat "$room/said")'"; failed=1; }
}
shows 'Usage: nest <COMMAND>' --help
shows 'Usage: nest <COMMAND>' help
for command in schema rows head tail count slice take where equal concat convert from-json; do
    shows "Usage: nest $command" help "$command"
    shows "Example: nest $command" "$command" --help
done
shows '[alias: cut]' --help
version=$(sed -n 's/^## \([0-9.]*\).*/\1/p' CHANGELOG.md | head -1)
expect 0 "nest $version\n" '' --version
yes '{"a":1,"b":"a"}' | head -n 200000 >"$room/many"
"$program" from-json 'struct<a: int32, b: string>' "$room/many" "$room/large"
# quiet ARGUMENT ..
quiet() {
    local said
    said=$({ "$program" "$@" 2>&3 | head -c 20 >/dev/null; echo "${PIPESTATUS[0]}" >"$room/status"; } 3>&1)
    [ "$(cat "$room/status") $said" = '0 ' ] || { echo "nest $* | head: status $(cat "$room/status"), said '$said'"; failed=1; }
}
quiet rows "$room/large"
quiet convert "$room/large" -
quiet slice "$room/large" 1 1000000 -o -
quiet concat "$room/large" "$room/large" -o -
quiet from-json 'struct<a: int32, b: string>' "$room/many" -
quiet take "$room/large" $(seq 20000)

# Lines of JSON: fields in any order and missing ones, in either format, from standard input; the first invalid line, and invalid types.
rows='struct<a: int32, b: string, c: list<item: int8>>'
printf '{"b":"x","a":1}\n{"c":[1,null]}\n' >"$room/lines"
laid='{"a":1,"b":"x","c":null}\n{"a":null,"b":null,"c":[1,null]}\n'
for out in "$room/made" "$room/made.arrows"; do
    expect 0 '' '' from-json "$rows" "$room/lines" "$out"
    expect 0 "$laid" '' rows "$out"
    expect 0 'a: int32\nb: string\nc: list<item: int8>\n' '' schema "$out"
done
"$program" rows "$room/made" | "$program" from-json "$rows" - - | cmp -s - "$room/made" || { echo 'nest from-json: its own lines'; failed=1; }
printf '{"a":1}\n{"a":2147483648}\n' >"$room/past"
expect 2 '' "nest: $room/past: line 2: field \"a\": number out of range" from-json "$rows" "$room/past" "$room/as"
printf '{"a":1}\n\n' >"$room/past"
expect 2 '' "nest: $room/past: line 2: invalid JSON" from-json "$rows" "$room/past" "$room/as"
printf '{"d":1}' >"$room/past"
expect 2 '' "nest: $room/past: line 1: field \"d\": unknown field" from-json "$rows" "$room/past" "$room/as"
expect 0 "$laid" '' rows "$room/made"
# Nulls and missing members of fields that are not nullable.
required='struct<a: int32 not null, c: list<item: int8 not null>>'
printf '{"a":1}\n{"a":2,"c":[1,null]}\n' >"$room/past"
expect 2 '' "nest: $room/past: line 2: field \"c.item\": null in a field that is not nullable" from-json "$required" "$room/past" "$room/as"
printf '{"c":[]}\n' >"$room/past"
expect 2 '' "nest: $room/past: line 1: field \"a\": null in a field that is not nullable" from-json "$required" "$room/past" "$room/as"
printf '{"c":[1],"a":1}\n{"a":2,"c":null}\n' >"$room/past"
expect 0 '' '' from-json "$required" "$room/past" "$room/whole"
expect 0 '{"a":1,"c":[1]}\n{"a":2,"c":null}\n' '' rows "$room/whole"
expect 2 '' "nest: struct<a: map<string, int8>>: cannot be read from JSON: map type" from-json 'struct<a: map<string, int8>>' "$room/lines" "$room/as"
# Dates and timestamps in conditions, as rows print them; a string that is no date.
printf '{"day":"2024-02-29","at":"2024-02-29T12:34:56.500Z"}\n{"day":"1969-12-31","at":null}\n{"day":null,"at":"1970-01-01T00:00:00.000Z"}\n' >"$room/days.json"
expect 0 '' '' from-json 'struct<day: date32[day], at: timestamp[ms, tz=UTC]>' "$room/days.json" "$room/days"
expect 0 '{"day":"2024-02-29","at":"2024-02-29T12:34:56.500Z"}\n' '' where "$room/days" "day >= '2024-02-29' and at < '2024-02-29T12:34:57Z'"
expect 2 '' "nest: $room/days: position 0: the string is not a value of the column's type" where "$room/days" "day = '2023-02-29'"
# Floats: the shortest decimals, and the names of the others; one past the largest. The second half is above a tie that its nearest double is.
printf '{"h":1.5}\n{"h":2049.0000000000000001}\n{"h":"Infinity"}\n' >"$room/halves.json"
expect 0 '' '' from-json 'struct<h: halffloat>' "$room/halves.json" "$room/halves"
expect 0 '{"h":1.5}\n{"h":2050.0}\n{"h":"Infinity"}\n' '' rows "$room/halves"
printf '{"h":65520}\n' >"$room/past"
expect 2 '' "nest: $room/past: line 1: field \"h\": number out of range" from-json 'struct<h: halffloat>' "$room/past" "$room/as"
printf '{"x":0.1,"y":[1.5,null]}\n{"x":1e23,"y":[16777217]}\n{"x":"NaN","y":["-Infinity"]}\n{"x":-0.0,"y":null}\n' >"$room/floats.json"
expect 0 '' '' from-json 'struct<x: double, y: list<item: float>>' "$room/floats.json" "$room/floats"
expect 0 '{"x":0.1,"y":[1.5,null]}\n{"x":1e23,"y":[16777216.0]}\n{"x":"NaN","y":["-Infinity"]}\n{"x":-0.0,"y":null}\n' '' rows "$room/floats"
expect 0 'x: double\ny: list<item: float>\n' '' schema "$room/floats"
expect 0 '' '' equal "$room/floats" "$room/floats"
expect 0 '{"x":0.1,"y":[1.5,null]}\n{"x":1e23,"y":[16777216.0]}\n' '' where "$room/floats" 'x > 0.05'
expect 0 '{"x":0.1,"y":[1.5,null]}\n' '' where "$room/floats" 'x = 0.1'
expect 0 '{"x":"NaN","y":["-Infinity"]}\n{"x":-0.0,"y":null}\n' '' where "$room/floats" 'not (x = 0.1 or x > 1)'
expect 0 '{"x":-0.0,"y":null}\n' '' where "$room/floats" 'x = 0'
printf '{"x":1e309}\n' >"$room/past"
expect 2 '' "nest: $room/past: line 1: field \"x\": number out of range" from-json 'struct<x: double>' "$room/past" "$room/as"
expect 2 '' "nest: $room/none: no such file" from-json "$rows" "$room/none" "$room/as"
expect 2 '' "nest: $room/none/as: output cannot be written: no such directory" from-json "$rows" "$room/lines" "$room/none/as"
expect 2 '' 'nest: int8: the type of a row is a struct' from-json int8 "$room/lines" "$room/as"
expect 2 '' "nest: struct: invalid data type at byte 0" from-json struct "$room/lines" "$room/as"

[ "$("$program" convert "$room/stream" - | "$program" rows -)" = "$("$program" rows "$room/stream")" ] || { echo 'nest convert | nest rows'; failed=1; }
said=$("$program" rows - 2>&1 <&-)
[ "$? $said" = '2 nest: -: input cannot be read' ] || { echo "nest with no input: $said"; failed=1; }
said=$("$program" rows "$room/file" 2>&1 >/dev/full)
[ "$? $said" = "2 nest: $room/file: record batch 0: output cannot be written" ] || { echo "nest to a full device: $said"; failed=1; }

# The commands that the pages show, in a folder with the files that they name.
pages=$room/pages
mkdir "$pages"
cp "$room/file" "$pages/table.arrow"
cp "$room/parts" "$pages/parts.arrows"
cp "$room/shorter" "$pages/shorter.arrows"
cp "$room/negative" "$pages/invalid.arrows"
cp "$room/packed" "$pages/packed.arrows"
cp "$room/lines" "$pages/rows.json"
printf '{"x":0.1}\n{"x":1e23}\n{"x":"NaN"}\n' >"$pages/floats.json"
printf '{"a":1}\n{"a":2147483648}\n' >"$pages/invalid.json"
python3 scripts/check_quotes.py --run "$program" "$pages" || failed=1
exit $failed
