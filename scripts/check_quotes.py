#!/usr/bin/env python3
"""Checks that the code and the output that docs/GUIDE.md, docs/CLI.md and README.md quote are in the repository, word for word.

    scripts/check_quotes.py [--write]               checks the quotes; --write replaces those that differ
    scripts/check_quotes.py --run PROGRAM FOLDER    runs the commands that the pages show, in FOLDER, which has the files that they name

The line before a quote is a comment that names its source:

    <!-- crates/x/src/y.rt: a b -->    the items `a` and `b` of that file, with their comments
    <!-- crates/x/src/y.rt -->         of a Rust block: the whole file; of any other: consecutive lines of it

A Rust block without such a line is an error. A console block needs none: each of its commands has to call a program of PROGRAMS, whose
script runs it by --run, and to write exactly what the block shows. A line of an indented block that begins with `nest` has to end in the
text that the help has of a command. Run it at the top of the repository."""
import difflib
import os
import re
import shlex
import subprocess
import sys

PAGES = ["docs/GUIDE.md", "docs/CLI.md", "README.md"]
# The programs that the pages call, and the script that runs these calls.
PROGRAMS = {"nest": "scripts/try_nest.sh", "listcut": "scripts/try_listcut.sh"}
# The file with what `nest --help` says of each command.
HELP = "crates/cli_args/src/command_line.rt"
BLOCK = re.compile(r"(?P<before>[^\n]*)\n```(?P<language>\w+)\n(?P<text>.*?)```", re.S)
NOTE = re.compile(r"<!-- (?P<file>[^ :]+)(?::(?P<items>[^>]*))? -->$")
COMMAND = re.compile(r"^\$ (.*)\n((?:(?!\$ ).*\n)*)", re.M)
HEAD = r"^(?:pub )?(?:fn|type|struct|enum|trait|const|abbrev pub) {}\b"


def read(path):
    with open(path, encoding="utf-8") as file:
        return file.read()


def item(lines, name):
    """Returns the lines of the item with this name, from its comments to its end."""
    found = [n for n, line in enumerate(lines) if re.match(HEAD.format(re.escape(name)), line)]
    if len(found) != 1:
        raise LookupError(f"{len(found)} items named {name}")
    first = found[0]
    while first > 0 and re.match(r"///|#\[|-- ", lines[first - 1]):
        first -= 1
    last = found[0]
    if lines[last].startswith("abbrev"):
        while last + 1 < len(lines) and lines[last + 1].strip():
            last += 1
    else:
        while not (lines[last] == "}" or lines[last].endswith(";") and last == found[0]):
            last += 1
    return "\n".join(lines[first : last + 1])


def expected(note, language, text):
    """Returns the text that a block with this note must have."""
    source = read(note["file"])
    if note["items"]:
        lines = source.split("\n")
        return "\n\n".join(item(lines, name) for name in note["items"].split()) + "\n"
    if language == "rust":
        return source
    if f"\n{text}" in f"\n{source}":
        return text
    raise LookupError("has no such consecutive lines")


def called(command):
    """Returns the program of PROGRAMS that a command calls, first or after a pipe, or None."""
    words = shlex.split(command)
    heads = words[:1] + [word for before, word in zip(words, words[1:]) if before == "|"]
    return next((it for it in heads if it in PROGRAMS), None)


def console_errors(text):
    """Returns an error message for each command of a console block that no script runs."""
    return [f"no script runs this: {command}" for command, _ in COMMAND.findall(text) if not called(command)]


def usage_errors(page):
    """Returns an error message for each line of an indented block that begins with `nest` and ends in no text of a command."""
    abouts = re.findall(r'let about = "(.*)";|\.about\("(.*)"\)', read(HELP))
    texts = {it for pair in abouts for it in pair}
    lines = re.findall(r"^    nest .*?\S  +(\S.*)$", read(page), re.M)
    return [f"{page}: not in the help of nest: {it}" for it in lines if it not in texts]


def difference(page, block):
    """Returns the lines of a diff or of an error message, and the text that the block must have."""
    note, language, text = NOTE.match(block["before"]), block["language"], block["text"]
    if language == "console":
        return (console_errors(text), text)
    if not note:
        return (["no source is named before this block"] if language == "rust" else [], text)
    try:
        wanted = expected(note, language, text)
    except (OSError, LookupError) as error:
        return ([f"{note['file']}: {error}"], text)
    names = (page, note["file"])
    return (list(difflib.unified_diff(text.split("\n"), wanted.split("\n"), *names, lineterm="")), wanted)


def check(page, write):
    """Returns the number of blocks of a page that differ, and prints them. With `write`, replaces them."""
    source, count = read(page), 0

    def replacement(block):
        nonlocal count
        wrong, wanted = difference(page, block)
        replaced = write and wanted != block["text"]
        if wrong and not replaced:
            count += 1
            line = source.count("\n", 0, block.start()) + 2
            print(f"{page}:{line}", *wrong, sep="\n")
        return f"{block['before']}\n```{block['language']}\n{wanted if replaced else block['text']}```"

    text = BLOCK.sub(replacement, source)
    for line in usage_errors(page):
        count += 1
        print(line)
    if text != source:
        with open(page, "w", encoding="utf-8") as file:
            file.write(text)
    return count


def written(program, command, folder):
    """Runs a command in a folder, with this program by its name, and returns what it writes to standard output and standard error."""
    paths = f"{os.path.dirname(os.path.abspath(program))}{os.pathsep}{os.environ['PATH']}"
    how = {"stdin": subprocess.DEVNULL, "stdout": subprocess.PIPE, "stderr": subprocess.STDOUT, "errors": "replace"}
    return subprocess.run(["bash", "-c", command], cwd=folder, env=os.environ | {"PATH": paths}, **how).stdout


def run_commands(program, folder):
    """Runs the commands of the pages that call a program, page by page. Prints those that write something else, and returns their number."""
    name, count, wrong = os.path.basename(program), 0, []
    for page in PAGES:
        blocks = [it["text"] for it in BLOCK.finditer(read(page)) if it["language"] == "console"]
        for command, output in (it for text in blocks for it in COMMAND.findall(text) if called(it[0]) == name):
            count += 1
            wrote = written(program, command, folder)
            if wrote != output:
                lines = difflib.unified_diff(output.split("\n"), wrote.split("\n"), page, program, lineterm="")
                wrong.append("\n".join([f"{page}: {command}", *lines]))
    if not count:
        wrong.append(f"no page has a command that calls {name}")
    if wrong:
        print(*wrong, sep="\n")
    return len(wrong)


def main():
    if sys.argv[1:2] == ["--run"] and len(sys.argv) == 4:
        sys.exit(1 if run_commands(*sys.argv[2:]) else 0)
    count = sum(check(page, "--write" in sys.argv[1:]) for page in PAGES)
    print(f"{count} quotes differ")
    sys.exit(1 if count else 0)


main()
