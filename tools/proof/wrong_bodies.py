#!/usr/bin/env python3
"""Lists the wrong bodies, by the edits' own first lines. Run at the top of the repository.

    tools/proof/wrong_bodies.py [NAME ..]    those of these crates, or of all
    tools/proof/wrong_bodies.py --check      says which edit lacks these lines, and exits 1 where one does

A wrong body is one changed line that compiles and that the check has to refuse. An edit begins with `wrong: WHAT` and
`refused: CALL, CLAUSE`. Those with a dot are tried by the gate, from `crates/NAME/must-fail/`; the others stand in
`crates/NAME/wrong/`, and `tools/proof/try_wrong.py NAME` tries them when the contracts of a crate change.
"""
import pathlib
import sys


def crates():
    lines = pathlib.Path("crates.txt").read_text().splitlines()
    return [line.split(":")[0].split()[0] for line in lines if ":" in line and not line.startswith("#")]


def told(edit):
    """What the edit does wrong and what refuses it, by its first two lines."""
    lines = edit.read_text().split("\n")
    if len(lines) > 2 and lines[0].startswith("wrong: ") and lines[1].startswith("refused: "):
        return lines[0].removeprefix("wrong: "), lines[1].removeprefix("refused: ")
    return None


def rows_of(crate, faults):
    """A row for each edit of the crate, those of the gate first; an edit that lacks its lines is a fault."""
    edits = [(edit, "•") for edit in pathlib.Path("crates", crate, "must-fail").glob("*.edit")]
    edits += [(edit, "") for edit in pathlib.Path("crates", crate, "wrong").glob("*.edit")]
    rows = []
    for edit, mark in sorted(edits, key=lambda pair: (not pair[1], pair[0].stem)):
        says = told(edit)
        if says is None:
            faults.append(f"{edit}: it does not begin with the lines `wrong:` and `refused:`")
        else:
            rows.append((mark, f"| `{crate}` | {mark} | `{edit.stem}` | {says[0]} | {says[1]} |"))
    return rows


def main():
    faults = []
    named = [word for word in sys.argv[1:] if not word.startswith("-")]
    rows = [row for crate in named or crates() for row in rows_of(crate, faults)]
    if "--check" not in sys.argv[1:]:
        tried = sum(bool(mark) for mark, _ in rows)
        print("| Crate | Gate | Edit | What it does wrong | Refused by |", "|---|---|---|---|---|", *(row for _, row in rows), sep="\n")
        print(f"\n{tried} are in the gate, {len(rows) - tried} are not.")
    for fault in faults:
        print(fault)
    return 1 if faults else 0


if __name__ == "__main__":
    sys.exit(main())
