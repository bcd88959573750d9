#!/usr/bin/env python3
"""Tells what took the time of a crate's last check: the modules of its functions with their seconds, longest first.

    tools/proof/slow_proofs.py NAME [SECONDS]     modules that took so long or more (1)

The check writes a module's file when it has checked it, so a module took the time since the file before. That holds for a check
from nothing with one job (`rm -r crates/NAME/out; cd crates/NAME; rt check --jobs 1`) that begins with nothing that another
checkout kept. Where a `Proof` is slow, the check tried tactics that do not prove its goals before the one that does: an answer
that names the right one spares that (CONTRIBUTING.md). Where an `Lts` is slow, the function holds many values to be dropped
across calls that may fail.
"""
import collections
import pathlib
import sys

# A longer gap before one of the first files is one between two checks.
GAP = 30


def modules(crate):
    """The seconds of each module."""
    written = sorted(
        (path.stat().st_mtime, path.name.removesuffix(".oantt").removesuffix(".decls"))
        for path in pathlib.Path("crates", crate, "out", "incremental").rglob("*.oantt")
        if path.name.startswith((f"Rattle-{crate}-", f"Rattle-{crate}."))
    )
    seconds = collections.Counter()
    for number, ((before, _), (behind, name)) in enumerate(zip(written, written[1:])):
        if number > 4 or behind - before < GAP:
            seconds[name.removeprefix(f"Rattle-{crate}-")] += behind - before
    return seconds


def main():
    seconds, least = modules(sys.argv[1]), float(sys.argv[2]) if len(sys.argv) > 2 else 1
    kinds = collections.Counter()
    for name, spent in seconds.items():
        kinds[name.rsplit(".", 1)[-1].split("-")[0]] += spent
    print(f"{sum(seconds.values()):.0f} seconds: " + ", ".join(f"{kind} {spent:.0f}" for kind, spent in kinds.most_common(6)))
    for name, spent in seconds.most_common():
        if spent >= least:
            print(f"{spent:7.1f}  {name}")


if __name__ == "__main__":
    main()
