#!/usr/bin/env python3
"""Builds the tests of a crate as `rt try --test` does, and leaves their program: `scripts/test` runs the tests.

    scripts/rt_try.py PROGRAM [FLAG ..]        in the crate's folder; the flags are those of `rt try --test`

`rt try` builds one program, copies it for each test, and runs the tests one after the other. Of a large program the copy takes longer than
most tests. Here the linker that `rt try` starts leaves the program as PROGRAM and then fails, so `rt try` ends before the first test.
A line is printed for each word of the command that runs the test whose name comes after it, as `rt try` would. By a kit whose `rt try` works
otherwise, nothing is printed and the status is 1.
"""
import contextlib
import functools
import os
import shlex
import shutil
import stat
import subprocess
import sys
import tempfile
import types

sys.dont_write_bytecode = True
from rt_ci import load

LINKER = "bin/ld.lld"
LOADER = "lib/ld-linux-x86-64.so.2"
# Links, leaves the file after -o as PROGRAM, and fails.
LINKS_AND_FAILS = """#!/bin/sh
{linker} "$@" || exit
for it; do
    [ "$before" != -o ] || mv "$it" {program}
    before=$it
done
exit 1
"""


def lay_toolchain(given, laid, program):
    """Makes a folder that stands for the toolchain, with another linker."""
    for folder in os.listdir(given):
        os.mkdir(f"{laid}/{folder}")
        for name in os.listdir(f"{given}/{folder}"):
            os.symlink(f"{given}/{folder}/{name}", f"{laid}/{folder}/{name}")
    os.remove(f"{laid}/{LINKER}")
    with open(f"{laid}/{LINKER}", "w", encoding="utf-8") as file:
        file.write(LINKS_AND_FAILS.format(linker=shlex.quote(f"{given}/{LINKER}"), program=shlex.quote(program)))
    os.chmod(f"{laid}/{LINKER}", stat.S_IRWXU)


def start_with(toolchain, words, **how):
    """`Popen`, of the command that builds the program with this toolchain.

    The other command that `rt try` starts is a check that looks for reserved names alone, and takes a fifth of the processor time.
    """
    if "--toolchain" not in words:
        return subprocess.Popen(["true"], **how)
    at = words.index("--toolchain") + 1
    return subprocess.Popen([*words[:at], toolchain, *words[at + 1 :]], **how)


def main():
    program, *flags = sys.argv[1:]
    program = os.path.abspath(program)
    rt = load(os.path.realpath(shutil.which("rt")))
    given = f"{rt.KIT}/toolchain"
    # what `rt try` prints comes on standard error
    printed = os.fdopen(os.dup(1), "w", encoding="utf-8")
    os.dup2(2, 1)
    with tempfile.TemporaryDirectory(prefix="toolchain-") as toolchain:
        lay_toolchain(given, toolchain, program)
        popen = functools.partial(start_with, toolchain)
        rt.rtlib.subprocess = types.SimpleNamespace(**{**vars(subprocess), "Popen": popen})
        with contextlib.suppress(SystemExit):
            rt.main(["try", "--test", *flags])
    if not os.path.isfile(program):
        return 1
    print(f"{given}/{LOADER}", "--inhibit-cache", "--library-path", f"{given}/lib", program, sep="\n", file=printed)
    return 0


if __name__ == "__main__":
    sys.exit(main())
