#!/usr/bin/env python3
"""Runs the gate and tells what it cost: processor minutes of each crate's proof, tests and wrong bodies, and of the whole.

    tools/proof/gate_minutes.py [--anew] [LOG]     at the top of the repository; what `rt ci` prints goes to LOG (/tmp/gate.log);
                                             with --anew from nothing, else over what earlier gates kept; a kit
                                             whose `rt ci` knows no --anew keeps nothing

For so many processors alone: `RT_JOBS=2 taskset -c 0,1 tools/proof/gate_minutes.py`. Run nothing else beside it. A process is looked at
twice a second, so the crates together lack a little of the whole, which is the system's own count.

Processor minutes depend on the machine, and on a virtual one on its neighbours. So a loop of a fixed length is timed every half
minute, and its seconds are told with the share of time that the host gave to others: where the loop took twice as long in one of
two runs, so did their proofs.
"""
import collections
import os
import pathlib
import re
import resource
import subprocess
import sys
import time

TICKS = os.sysconf("SC_CLK_TCK")
# A loop of so many rounds is timed, so many seconds after the last time.
ROUNDS = 300_000
PAUSE = 30
KINDS = ("proof", "tests", "wrong bodies")


def looked_at(process):
    """The crate of a prover's process, what it is for, and its seconds so far; or None."""
    try:
        words = (process / "cmdline").read_bytes().decode(errors="replace").split("\0")
        if not words[0].endswith("/rattle") or "--crate-name" not in words:
            return None
        spent = (process / "stat").read_text().rsplit(")", 1)[1].split()
        folder = os.readlink(process / "cwd")
    except (OSError, IndexError):
        return None
    kind = "wrong bodies" if "rt-edit-" in folder else "tests" if "--test" in words else "proof"
    return words[words.index("--crate-name") + 1], kind, (int(spent[11]) + int(spent[12])) / TICKS


def loop_seconds():
    """How long the loop takes on this machine now, in processor time."""
    begun, total = time.process_time(), 0
    for number in range(ROUNDS):
        total += number
    return time.process_time() - begun


def host_times():
    """The processors' time since the machine's start: what the host gave to others, and all."""
    spent = [int(word) for word in pathlib.Path("/proc/stat").read_text().split("\n")[0].split()[1:9]]
    return spent[7], sum(spent)


def main():
    logs = [word for word in sys.argv[1:] if word != "--anew"]
    anew = ["--anew"] if "--anew" in sys.argv[1:] else []
    log = pathlib.Path(logs[0] if logs else "/tmp/gate.log")
    begun, seen, loops, before = time.monotonic(), {}, [], host_times()
    with log.open("w") as out:
        gate = subprocess.Popen(["rt", "ci", *anew], stdin=subprocess.DEVNULL, stdout=out, stderr=subprocess.STDOUT)
        while gate.poll() is None:
            for process in pathlib.Path("/proc").iterdir():
                found = looked_at(process) if process.name.isdigit() else None
                if found:
                    seen[process.name, *found[:2]] = found[2]
            if len(loops) * PAUSE <= time.monotonic() - begun:
                loops.append(loop_seconds())
            time.sleep(0.5)
    whole = resource.getrusage(resource.RUSAGE_CHILDREN)
    minutes = collections.defaultdict(float)
    for (_, crate, kind), seconds in seen.items():
        minutes[crate, kind] += seconds / 60
    crates = sorted({crate for crate, _ in minutes}, key=lambda crate: -sum(minutes[crate, kind] for kind in KINDS))
    print("| Crate | " + " | ".join(kind.capitalize() for kind in KINDS) + " |\n|---|---|---|---|")
    for crate in crates:
        print(f"| {crate} | " + " | ".join(f"{minutes[crate, kind]:.1f}" if minutes[crate, kind] else "" for kind in KINDS) + " |")
    print(f"| all | " + " | ".join(f"{sum(minutes[crate, kind] for crate in crates):.1f}" for kind in KINDS) + " |")
    spent = (whole.ru_utime + whole.ru_stime) / 60
    print(f"\n{spent:.1f} processor minutes in {(time.monotonic() - begun) / 60:.1f} minutes on {len(os.sched_getaffinity(0))} processors")
    stolen, passed = (now - was for now, was in zip(host_times(), before))
    loops.sort()
    print(f"a loop of {ROUNDS:,} rounds took {loops[0]:.3f} to {loops[-1]:.3f} seconds, mostly {loops[len(loops) // 2]:.3f}; the host kept {100 * stolen / max(passed, 1):.0f} % of the time")
    last = [line for line in log.read_text().splitlines() if re.fullmatch(r"\d+ passed, \d+ failed", line)]
    print(last[-1] if last else f"the gate did not end as it should: see {log}")
    return gate.returncode


if __name__ == "__main__":
    sys.exit(main())
