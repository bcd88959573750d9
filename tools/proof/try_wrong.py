#!/usr/bin/env python3
"""Tries the wrong bodies that are not in the gate, those of crates/NAME/wrong: the prover must refuse each.

    tools/proof/try_wrong.py [-j CHECKS] [--gate] [NAME ..]    of these crates, or of all; so many checks at once (the processors);
                                                         with --gate those of crates/NAME/must-fail too

Each is tried over the libraries that `rt ci` left in crates/*/out/rlib of this checkout, and over what one check of the crate
as it stands proved, so that a try checks what the edit changed. Edits of the bodies of different functions are tried by one
check: what a check says of a function rests on its body and on contracts, which these edits leave as they are. A function that
calls one that is not proved there, or is proved all the same, tells nothing: its edit is tried again, and in the end by itself.
Prints each that is not refused by a contract, a line for each crate, and a last line with the counts; fails where one is not
refused.
"""
import argparse
import collections
import concurrent.futures
import dataclasses
import os
import pathlib
import re
import shutil
import subprocess
import sys
import tempfile

KIT = pathlib.Path(shutil.which("rt") or "rt").resolve().parents[1]
PARTS = ("src", "specs", "proofs")
# What a proof file says where the edit took a name away that it cites: then no contract was tried.
NAME_GONE = re.compile(r"(note: )?(\./)?proofs/.*(has no field|is not in scope|has no `|was not admitted)")
SAID = re.compile(r"(?:note: )?(?:\./)?(\S+?):(\d+):\d+:")
FUNCTION = re.compile(r"( *)(?:pub(?:\([a-z]+\))? )?(?:const |unsafe )*fn (\w+)")
OWNER = re.compile(r"(?:pub(?:\([a-z]+\))? )?(?:impl|trait) (?:(\w+) for )?([\w:]+)(?:: .*)? ?\{")


def crates():
    """The crates in the order of crates.txt, each with what it stands on, ours and the kit's."""
    stands = {}
    for line in pathlib.Path("crates.txt").read_text().splitlines():
        name, colon, below = line.split("#")[0].partition(":")
        if colon:
            stands[name.split()[0]] = below.split()
    return stands


def library(name):
    return pathlib.Path("crates", name, "out", "rlib", f"{name}.rlib").resolve()


def all_below(name, stands):
    found = []
    for one in stands.get(name, []):
        if one in stands:
            found += [it for it in [*all_below(one, stands), one] if it not in found]
    return found


def check_words(name, stands):
    """The words of a check of the crate, in a folder that holds its parts."""
    root = "src/lib.rt" if pathlib.Path("crates", name, "src/lib.rt").is_file() else "src/main.rt"
    externs = {one: library(one) if one in stands else KIT / "rlibs" / f"{one}.rlib" for one in ["std", *stands[name]]}
    folders = [KIT / "rlibs", *(library(one).parent for one in all_below(name, stands))]
    return [
        str(KIT / "bin" / "rattle"), "check", "--crate-name", name, root,
        *(word for one, path in externs.items() for word in ("--extern", f"{one}={path}")),
        *(word for folder in folders for word in ("-L", f"dependency={folder}")),
        "--antt-project", str(KIT / "rattle/logic/antt-project.json"), "--logic-built", str(KIT / "logic_built"),
        "--links", f"{name}=", "--jobs", "1",
    ]


@dataclasses.dataclass(frozen=True)
class Function:
    """A function of a file: the name that a check gives it, its first line, and the first and last of its body, from 1."""

    path: str
    label: str
    first: int
    body: int
    last: int


def functions(crate, path, text):
    """The functions of a file whose names a check gives are known."""
    module = [part for part in path.removeprefix("src/").removesuffix(".rt").split("/") if part not in ("lib", "main")]
    lines, owner, found = text.split("\n"), [], []
    for at, line in enumerate(lines):
        if line == "}":
            owner = []
        elif re.match(r"(pub(\([a-z]+\))? )?(impl|trait)\b", line):
            plain, whole = line.replace("->", ""), None
            while plain != whole:
                plain, whole = re.sub(r"<[^<>]*>", "", plain), plain
            is_of = OWNER.fullmatch(plain)
            owner = [is_of[2].split("::")[-1] + (is_of[1] or "")] if is_of else None
        head = FUNCTION.match(line)
        if not head or owner is None:
            continue
        indent = head[1]
        end = next((it for it in range(at, len(lines)) if lines[it] == indent + "}"), None)
        opens = (it for it in range(at, end or at) if it == at and line.endswith("{") or lines[it] == indent + "{" or re.match(rf"{indent}\).*\{{$", lines[it]))
        start = next(opens, None)
        if start is not None:
            found.append(Function(path, "::".join([crate, *module, *owner, head[2]]), at + 1, start + 2, end))
    return found


@dataclasses.dataclass(frozen=True)
class Edit:
    """An edit: its name, what it replaces by what in which file, and the functions whose bodies it changes: none where it changes
    more, as a contract or a type."""

    name: str
    pairs: tuple
    changes: tuple

    def put_in(self, texts, folder):
        """Puts it into these texts, by their paths, and says why not."""
        new = dict(texts)
        for path, old, text in self.pairs:
            was = new.get(path) or (folder / path).read_text()
            if was.count(old) != 1:
                return f"its old text is in {path} {was.count(old)} times"
            new[path] = was.replace(old, text)
        texts.update(new)
        return None if self.pairs else "it changes nothing"


def read(file, crate, folder):
    pairs, path, old = [], None, None
    for line in file.read_text().splitlines():
        if line.startswith("file: "):
            path = line[6:].strip()
        elif line.startswith("old: "):
            old = line[5:]
        elif line.startswith("new:") and path and old is not None:
            pairs.append((path, old, line[4:].removeprefix(" ")))
            old = None
    changes = []
    for path, old, _ in pairs:
        text = (folder / path).read_text()
        line = text.partition(old)[0].count("\n") + 1
        changes += [it for it in functions(crate, path, text) if path.startswith("src/") and it.body <= line <= it.last] or [None]
    return Edit(file.stem, tuple(pairs), () if None in changes else tuple(changes))


def checked(words, folder, texts, kept):
    """What a check says of a copy of the crate with these texts, over what was kept."""
    with tempfile.TemporaryDirectory(prefix="try-wrong-") as room:
        for part in PARTS:
            if (folder / part).is_dir():
                shutil.copytree(folder / part, f"{room}/{part}")
        for path, text in texts.items():
            pathlib.Path(room, path).write_text(text)
        ran = subprocess.run([*words, "--incremental", kept], cwd=room, stdin=subprocess.DEVNULL, capture_output=True, text=True, errors="replace")
        return ran.returncode, (ran.stdout + ran.stderr).rstrip().split("\n")


def outcome(status, lines):
    """What a try of one edit came to, and the line that says so."""
    if status == 0:
        return "NOT REFUSED", ""
    if status == 1 and any(line.startswith("logic=not-proved") for line in lines):
        told = [line for line in lines if SAID.match(line) and (": error" in line or line.startswith("note: "))]
        first = next((line for line in told if not NAME_GONE.match(line)), "")
        return ("refused", first) if first or not told else ("by a name", told[0])
    if status == 3:
        return "at a limit", next((line for line in lines if "ran out of" in line or "limit" in line), "")
    return "NOT TRIED", next((line for line in lines if "error" in line), lines[-1])


def refused_in(lines, edit):
    """Whether a check of several edits refuses this one: a function that it changes is not proved, whatever it calls, and what is
    said of that function's goals is more than that a name is gone."""
    for it in edit.changes:
        said = [line for line in lines if line.startswith(f"fn {it.label}: ")]
        proofs = f"proofs/{'/'.join(it.label.split('::')[1:])}/"
        if len(said) == 1 and not said[0].endswith(": proved") and "it calls" not in said[0]:
            for line in lines:
                at = SAID.match(line)
                is_here = at and (at[1] == it.path and it.first <= int(at[2]) <= it.last or at[1].startswith(proofs))
                if is_here and (": error" in line or line.startswith("note: ")) and not NAME_GONE.match(line):
                    return True
    return False


def in_batches(edits):
    """The edits, in as few batches as hold no two of the same function."""
    batches = []
    for edit in edits:
        fits = (it for it in batches if not {change for one in it for change in one.changes} & {*edit.changes})
        batch = next(fits, None)
        if batch is None:
            batches.append([edit])
        else:
            batch.append(edit)
    return batches


def linked(folder, to):
    def copy(one, other):
        os.link(one, other) if one.endswith(".oantt") else shutil.copy2(one, other)

    shutil.copytree(folder, to, copy_function=copy)


def try_crate(name, stands, files, pool):
    """Tries a crate's edits, and prints what is not refused by a contract. Gives the counts."""
    folder, words = pathlib.Path("crates", name).resolve(), check_words(name, stands)
    with tempfile.TemporaryDirectory(prefix="try-wrong-") as room:
        status, lines = pool.submit(checked, words, folder, {}, f"{room}/seed").result()
        if status != 0:
            print(f"{name}: is not proved as it stands: {lines[-1]}", flush=True)
            return collections.Counter({"NOT TRIED": len(files)})

        def over_seed(edits, texts):
            over = f"{room}/{edits[0].name}"
            linked(f"{room}/seed", over)
            result = checked(words, folder, texts, over)
            shutil.rmtree(over)
            return result

        def by_itself(edit):
            texts = {}
            why = edit.put_in(texts, folder)
            return ("NOT TRIED", why) if why else outcome(*over_seed([edit], texts))

        def together(edits):
            """Those that a check of all of them refuses."""
            texts = {}
            fit = [edit for edit in edits if not edit.put_in(texts, folder)]
            lines = over_seed(edits, texts)[1] if len(fit) > 1 else []
            return [edit for edit in fit if refused_in(lines, edit)]

        edits = [read(file, name, folder) for file in files]
        left, alone, counts = [it for it in edits if it.changes], [it for it in edits if not it.changes], collections.Counter()
        while left:
            tries = [(batch, pool.submit(together, batch)) for batch in in_batches(left)]
            left = []
            for batch, tried in tries:
                refused = tried.result()
                counts["refused"] += len(refused)
                (left if refused else alone).extend(it for it in batch if it not in refused)
        for edit, tried in [(edit, pool.submit(by_itself, edit)) for edit in alone]:
            kind, why = tried.result()
            counts[kind] += 1
            if kind != "refused":
                print(f"{name}/{edit.name}: {kind}: {why[:200]}", flush=True)
    print(f"{name}: " + ", ".join(f"{count} {kind}" for kind, count in counts.items()) + f"; {len(alone)} by themselves", flush=True)
    return counts


def main():
    words = argparse.ArgumentParser(description=__doc__.split("\n")[0])
    words.add_argument("-j", type=int, default=len(os.sched_getaffinity(0)))
    words.add_argument("--gate", action="store_true")
    words.add_argument("names", nargs="*")
    asked = words.parse_args()
    os.chdir(pathlib.Path(__file__).resolve().parents[2])
    stands = crates()
    folders = ["wrong", "must-fail"] if asked.gate else ["wrong"]
    files = {}
    for name in asked.names or stands:
        found = [edit for folder in folders for edit in sorted(pathlib.Path("crates", name, folder).glob("*.edit"))]
        missing = [one for one in all_below(name, stands) if not library(one).exists()]
        if found and missing:
            sys.exit(f"{name} stands on libraries that are not there ({', '.join(missing)}): run `rt ci` first")
        if found:
            files[name] = [edit.resolve() for edit in found]
    total = collections.Counter()
    # Each crate waits for its own checks in a thread of its own; the pool bounds how many checks run.
    with concurrent.futures.ThreadPoolExecutor(asked.j) as pool, concurrent.futures.ThreadPoolExecutor(asked.j) as waiting:
        for counts in waiting.map(lambda name: try_crate(name, stands, files[name], pool), files):
            total += counts
    wanted = sum(len(found) for found in files.values())
    print(f"wrong bodies: {wanted} tried, " + ", ".join(f"{count} {kind}" for kind, count in total.items()))
    return 0 if total["refused"] + total["by a name"] + total["at a limit"] == wanted else 1


if __name__ == "__main__":
    sys.exit(main())
