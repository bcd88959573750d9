#!/usr/bin/env python3
"""Tries whether the worked change of CONTRIBUTING.md, docs/add_touch.patch, still applies; it changes nothing.

    tools/proof/try_patch.py    at the top of the repository; exits 1 and says what does not fit where it does not apply

Where it does not: `git apply --3way` it, mend what is in conflict, and write the patch anew, its text up to the first `diff --git`
and then `git diff HEAD`; then take the change back (`git checkout HEAD .`).
"""
import subprocess
import sys

PATCH = "docs/add_touch.patch"


def main():
    tried = subprocess.run(["git", "apply", "--check", PATCH], capture_output=True, text=True)
    if tried.returncode:
        print(f"{PATCH}: it does not apply: {'; '.join(tried.stderr.splitlines()[:3])}")
    return 1 if tried.returncode else 0


sys.exit(main())
