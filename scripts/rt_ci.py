#!/usr/bin/env python3
"""`rt ci` with more work side by side: the same checks and the same verdict.

    scripts/rt_ci.py [--anew] [--chain] [NAME ..]
    scripts/rt_ci.py --keeps

Before it starts a check, this kit's `rt` reserves the memory that it expects the check to take, 1.5 to 13 GB. Checks take 0.4 of that at
most, so processors are idle, and the largest crate, which all others wait for, is proved on one of four. The estimate decides nothing else.
--chain is for crates that wait for each other: the one that is checked gets all processors, where `rt` keeps half of them for its tests.
Some kits keep no proofs: their `rt ci` takes no NAME and no --anew, and proves everything from nothing. There the order and the jobs of the
checks are decided here (`in_lanes`). --keeps only tells, by the status 0, that the kit keeps proofs.
"""
import collections
import contextlib
import glob
import importlib.machinery
import importlib.util
import os
import re
import shutil
import subprocess
import sys
import threading
from concurrent.futures import FIRST_COMPLETED, Future, wait

SHARE = 0.4
# what each further job of a check takes of the memory of the first
SHARE_OF_A_JOB = 0.3
# how many checks run beside those that have a processor each, and how often their priorities are set
MORE_CHECKS, SECONDS_BETWEEN_LOOKS = 2, 10
# a must-fail edit takes about as long as the proof of so many lines
LINES_OF_AN_EDIT = 500


def load(path):
    """The program `rt` as a module."""
    loader = importlib.machinery.SourceFileLoader("rt", path)
    made = importlib.util.module_from_spec(importlib.util.spec_from_loader("rt", loader))
    loader.exec_module(made)
    return made


def keeps_proofs(rt):
    return "--anew" in (rt.__doc__ or "")


def lines_of(key, lines):
    name, part = key
    return LINES_OF_AN_EDIT * len(glob.glob(f"crates/{name}/must-fail/*.edit")) if part == "edits" else lines


def lines_behind(tasks):
    """The lines of each task and of the longest chain of tasks that wait for it. A task comes after those that it waits for."""
    behind = dict.fromkeys(tasks, 0)
    for key in reversed([*tasks]):
        behind[key] += lines_of(key, tasks[key][1])
        for it in tasks[key][0]:
            behind[it] = max(behind[it], behind[key])
    return behind


# the processor time in seconds of the checks of each crate that have ended since it was last asked for
SPENT = collections.Counter()


def wait_and_count(process, flags):
    """`Popen._try_wait`, which counts the processor time of a check that has ended."""
    try:
        pid, status, used = os.wait4(process.pid, flags)
    except ChildProcessError:
        return process.pid, 0
    if pid and "--crate-name" in process.args:
        SPENT[process.args[process.args.index("--crate-name") + 1]] += used.ru_utime + used.ru_stime
    return pid, status


def start(call, given, jobs):
    """Runs a task in a thread of its own."""
    ended = Future()

    def run():
        try:
            ended.set_result(call(given, jobs))
        except BaseException as why:
            ended.set_exception(why)

    threading.Thread(target=run, daemon=True).start()
    return ended


def group_of(rt):
    """The process group of all checks, if this kit has one."""
    found = re.search(r"setpgid\(0, (\d+)\)", " ".join(rt.rtlib.guarded()))
    return found and int(found[1])


def set_niceness(crate, niceness, group):
    """Sets the niceness of the checks of a crate that run. A user who may not lower it leaves it as it is."""
    for pid in filter(str.isdigit, os.listdir("/proc")):
        with contextlib.suppress(OSError, ValueError):
            with open(f"/proc/{pid}/cmdline", encoding="utf-8") as file:
                words = file.read().split("\0")
            if words[words.index("--crate-name") + 1] == crate and os.getpgid(int(pid)) == group:
                for thread in os.listdir(f"/proc/{pid}/task"):
                    os.setpriority(os.PRIO_PROCESS, int(thread), niceness)


def in_lanes(rt, tasks):
    """Runs tasks side by side, each once those that it waits for have ended, and returns what each gave.

    `rt` gives a check one job while others are ready. Here the one that the longest chain waits for has as many jobs as there are
    processors, and the others run on what it leaves idle, with fewer jobs and at a lower priority.
    """
    processors, memory, behind, group = rt.processors(), 0.85 * rt.free(), lines_behind(tasks), group_of(rt)
    left, running, given = sorted(tasks, key=lambda it: -behind[it]), {}, {}
    subprocess.Popen._try_wait = wait_and_count
    while left or running:
        for key in [it for it in left if all(below in given for below in tasks[it][0])]:
            _, lines, needs, call = tasks[key]
            ahead = sum(behind[it] > behind[key] for it, _ in running.values())
            room = memory - sum(it for _, it in running.values())
            wanted = max(1, processors >> ahead) if key[1] == "proof" else 1
            jobs = max(1, min(wanted, 1 + int((room / needs - 1) / SHARE_OF_A_JOB)))
            needs *= 1 + SHARE_OF_A_JOB * (jobs - 1)
            if not lines or not running or len(running) < processors + MORE_CHECKS and needs <= room:
                left.remove(key)
                running[start(call, given, jobs)] = key, needs
        for ahead, (key, _) in enumerate(sorted(running.values(), key=lambda it: -behind[it[0]])):
            set_niceness(key[0], min(5 * ahead, 15), group)
        for it in wait(running, timeout=SECONDS_BETWEEN_LOOKS, return_when=FIRST_COMPLETED).done:
            key, _ = running.pop(it)
            given[key] = it.result()
            if key[0] in SPENT:
                print(f"rt: {key[0]}: {SPENT.pop(key[0]) / 60:.1f} busy minutes for the {key[1]}", flush=True)
    return given


def main():
    sys.dont_write_bytecode = True
    path = os.path.realpath(shutil.which("rt") or "")
    given = sys.argv[1:]
    words = ["ci", *(it for it in given if it != "--chain")]
    try:
        rt = load(path)
        estimate, processors, run = rt.need, rt.processors, rt.main
    except (AttributeError, OSError, SyntaxError, ImportError):
        return 1 if given == ["--keeps"] else os.execvp("rt", ["rt", *words])
    if given == ["--keeps"]:
        return 0 if keeps_proofs(rt) else 1
    rt.need = lambda crate: SHARE * estimate(crate)
    if not keeps_proofs(rt):
        words = [it for it in words if it != "--anew"]
        rt.in_lanes = lambda tasks: in_lanes(rt, tasks)
    elif "--chain" in given:
        rt.processors = lambda: 2 * processors()
    status = run(words)
    sys.stdout.flush()
    return status


if __name__ == "__main__":
    sys.exit(main())
