#!/usr/bin/env python3
"""Proves and builds a program and the crates below it, as many side by side as there are processors.

    tools/proof/build.py NAME

`rt all check` in the program's folder proves it and the crates that it stands on, each as soon as those below it stand; what
earlier runs kept is used. Says on standard error which crate of how many is proved and how long it took so far; exits 1 where
one is not proved.
"""
import os
import pathlib
import re
import subprocess
import sys
import time

TOP = pathlib.Path(__file__).resolve().parent.parent.parent
# What one crate's proof may take.
BYTES_EACH = 3 << 30


def below(program):
    """The program and all crates below it."""
    named = {}
    for line in (TOP / "crates.txt").read_text().splitlines():
        if ":" in line and not line.startswith("#"):
            name, others = line.split(":", 1)
            named[name.split()[0]] = others.split()
    found, left = set(), [program]
    while left:
        name = left.pop()
        if name not in found:
            found.add(name)
            left += [other for other in named[name] if other in named]
    return found


def lanes():
    """As many crates at once as there are processors and memory for. One that waits for those below it takes a place and no
    processor, so there are some more."""
    found = re.search(r"MemAvailable:\s+(\d+)", pathlib.Path("/proc/meminfo").read_text())
    by_memory = int(found[1]) * 1024 // BYTES_EACH if found else 1
    processors = len(os.sched_getaffinity(0))
    return max(1, min(processors + processors // 2, by_memory))


def say(text):
    print(f"rsearch: {text}", file=sys.stderr, flush=True)


def proved(folder, names):
    """Proves the crates, and says of each that it stands. Gives whether all are proved."""
    begun, done, printed = time.monotonic(), set(), []
    words = ["rt", "all", "check", "--jobs", str(lanes())]
    how = {"cwd": folder, "stdin": subprocess.DEVNULL, "stdout": subprocess.PIPE, "stderr": subprocess.STDOUT}
    with subprocess.Popen(words, text=True, errors="replace", **how) as ran:
        for line in ran.stdout:
            printed.append(line)
            name = line[3:].strip() if line.startswith("== ") else ""
            if name in names - done:
                done.add(name)
                minutes, rest = divmod(int(time.monotonic() - begun), 60)
                say(f"{len(done)} of {len(names)}: {name} ({minutes} min {rest} s so far)")
    if ran.returncode:
        sys.stderr.writelines(printed)
    return ran.returncode == 0


def main():
    program = sys.argv[1]
    folder, names = TOP / "crates" / program, below(program)
    say(f"proving {len(names)} crates, {lanes()} at once; only what changed since the last time is proved anew")
    if not proved(folder, names):
        say("not all of it was proved")
        return 1
    built = subprocess.run(["rt", "run", "--", "script"], cwd=folder, stdin=subprocess.DEVNULL, capture_output=True, text=True, errors="replace")
    if built.returncode:
        sys.stderr.write(built.stdout + built.stderr)
        say(f"{program} was not built")
    return 1 if built.returncode else 0


if __name__ == "__main__":
    sys.exit(main())
