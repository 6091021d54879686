#!/usr/bin/env python3
"""Prints where the processor time of a command of the toolchain goes, by crate and kind of work.

    gate.py COMMAND..        for example: gate.py rt ci --anew

It looks at /proc several times a second for the command's processes, and sums up the processor time of
each. A crate's kinds of work are: its proof; the proof of its tests; the proof over which its must-fail
edits are tried; the edits; builds; and runs of tests and programs. A process that lives shorter than one
look is missed, and the last line says how much was seen. It ends with the command's status.
"""
import collections
import os
import resource
import subprocess
import sys
import time

KINDS = ("proof", "tests", "base", "edits", "build", "run", "other")
LOOK = 0.25
TICKS = os.sysconf("SC_CLK_TCK")
Process = collections.namedtuple("Process", "name parent seconds start")


def contents(path):
    """The bytes of a file of /proc, or none if the process is gone."""
    try:
        with open(path, "rb") as file:
            return file.read()
    except OSError:
        return b""


def processes():
    """All processes there are, by number."""
    found = {}
    for number in filter(str.isdigit, os.listdir("/proc")):
        front, _, back = contents(f"/proc/{number}/stat").decode(errors="replace").rpartition(")")
        words = back.split()
        if len(words) > 20:
            seconds = (int(words[11]) + int(words[12])) / TICKS
            found[int(number)] = Process(front.partition("(")[2], int(words[1]), seconds, words[19])
    return found


def below(top, found):
    """The processes that a process started, directly or not."""
    children = collections.defaultdict(list)
    for number, process in found.items():
        children[process.parent].append(number)
    inside, waiting = [], list(children[top])
    while waiting:
        number = waiting.pop()
        inside.append(number)
        waiting += children[number]
    return inside


def kind_of(process, words, folder):
    """The crate and the kind of work of a process, as its words and its folder tell them."""
    def after(flag):
        return words[words.index(flag) + 1] if flag in words[:-1] else ""

    crate, kept = after("--crate-name"), os.path.basename(after("--incremental"))
    room = os.path.basename(folder)
    if process.name == "rattle" and crate:
        if "--crate-checked" in words:
            return crate, "build"
        if room.startswith("rt-edit-"):
            return crate, "base" if kept == "seed" else "edits"
        return crate, "tests" if "--test" in words else "proof"
    if "/rt-run-" in folder + " ".join(words[:1]):
        program = next((os.path.basename(word) for word in words if "/rt-run-" in word), "")
        return program.removesuffix("_tests"), "run"
    if process.name.startswith(("clang", "ld", "llc", "opt", "llvm")):
        return room if "/crates/" in folder else "", "build"
    return "", "other"


def watch(command):
    """Runs a command. Its status, and the processor seconds of each crate and kind."""
    started = subprocess.Popen(command)
    kinds, seconds = {}, {}
    while started.poll() is None:
        found = processes()
        for number in below(started.pid, found):
            process = found[number]
            key = number, process.start, process.name
            if key not in kinds:
                line = contents(f"/proc/{number}/cmdline").decode(errors="replace")
                words = line.split("\0")[:-1]
                try:
                    folder = os.readlink(f"/proc/{number}/cwd")
                except OSError:
                    folder = ""
                kinds[key] = kind_of(process, words, folder)
                if kinds[key][0] == "" and process.parent in found:
                    parent = (process.parent, found[process.parent].start, found[process.parent].name)
                    kinds[key] = kinds.get(parent, ("", ""))[0], kinds[key][1]
            seconds[key] = max(seconds.get(key, 0), process.seconds)
        time.sleep(LOOK)
    sums = collections.Counter()
    for key, spent in seconds.items():
        sums[kinds[key]] += spent
    return started.returncode, sums


def print_table(sums):
    """The minutes of each crate, the dearest first, and of all."""
    crates = sorted({crate for crate, _ in sums}, key=lambda crate: -sum(sums[crate, kind] for kind in KINDS))
    print(f"\n{'processor minutes':<20}" + "".join(f"{kind:>8}" for kind in (*KINDS, "all")))
    for crate in (*crates, None):
        row = [sum(spent for (name, what), spent in sums.items() if what == kind and crate in (None, name))
               for kind in KINDS]
        name = "all" if crate is None else crate or "(no crate)"
        print(f"{name:<20}" + "".join(f"{spent / 60:>8.1f}" for spent in (*row, sum(row))))


def main():
    if len(sys.argv) < 2:
        sys.exit(__doc__)
    begun = time.monotonic()
    status, sums = watch(sys.argv[1:])
    used = resource.getrusage(resource.RUSAGE_CHILDREN)
    print_table(sums)
    seen, spent = sum(sums.values()), used.ru_utime + used.ru_stime
    wall = time.monotonic() - begun
    print(f"seen {seen / 60:.1f} of {spent / 60:.1f} processor minutes, in {wall / 60:.1f} minutes")
    return status if status >= 0 else 128 - status


if __name__ == "__main__":
    sys.exit(main())
