#!/usr/bin/env python3
"""The house rules that the prover does not know. Run at the top of the repository; exits 1 where one is broken.

Of each crate of crates.txt: it stands behind those that it names, and has a README, a `//!` head in its root file, and a
row of docs/ARCHITECTURE.md with the same first sentence. Of each clause that a README or docs/PROMISES.md names: that the
named source has it. Of docs/DEFINITIONS.md: that it says to believe just the definitions that the program's clause
reaches. Of docs/DECISIONS.md: that its table of what calls itself has just what does. Of each wrong body: that it says
what it does and what refuses it. Of the gate: that it keeps within its budget of wrong bodies and proved tests, since
each costs it 10 to 40 seconds. Of the sources: the lengths of files and functions. Of the pages: that each path
and link in them leads to something, that README, COMMANDS and CHANGELOG name each command, and that they stay short (check_pages.py).
Prints the figures, then each fault.
"""
import pathlib
import re
import subprocess
import sys

sys.dont_write_bytecode = True
from check_pages import check_pages

# What the gate may cost, in what it is made of.
MOST_EDITS = 16
MOST_EDITS_EACH = 2
MOST_TESTS = 60

MOST_LINES = 800
MOST_FUNCTION_LINES = 40
HANDLES = "Handles allowed: Threads, Wait, Net.\n"

# Clauses are named behind their calls, as "`crate::Type::call`: `clause`, `clause`"; several calls may share them. In a
# crate's README the crate is left out.
NAMED = re.compile(r"((?:`[A-Za-z_:]+`, )*`[A-Za-z_:]+`): ((?:`[a-z_]+`, )*`[a-z_]+`)")
QUOTED = re.compile(r"`([A-Za-z_:]+)`")


def crates():
    names = []
    for line in pathlib.Path("crates.txt").read_text().splitlines():
        if ":" in line and not line.startswith("#"):
            names.append(line.split(":")[0].split()[0])
    return names


def root_of(crate):
    for name in ("lib.rt", "main.rt"):
        path = pathlib.Path("crates", crate, "src", name)
        if path.is_file():
            return path
    return None


def first_sentence(lines):
    """The text up to the first full stop that ends a word."""
    text = " ".join(line.strip() for line in lines)
    found = re.match(r"(.+?\.)(\s|$)", text)
    return found[1] if found else text


def head_sentence(root):
    head = []
    for line in root.read_text().splitlines():
        if not line.startswith("//!"):
            break
        head.append(line[3:])
    return first_sentence(head) if head else None


def readme_sentence(readme):
    body = [line for line in readme.read_text().splitlines() if line.strip() and not line.startswith("#")]
    return first_sentence(body[:3]) if body else None


def clauses_of(crate, path):
    """The named clauses of the function that the path ends in, or None where the crate has no such function."""
    call = path.split("::")[-1]
    found = None
    for source in pathlib.Path("crates", crate, "src").rglob("*.rt"):
        text = source.read_text()
        for match in re.finditer(rf"\bfn {call}\b(.*?)(?=\n\s*\{{\n|\n\s*\{{\}}|\}};\n(?:\n|\}}))", text, re.S):
            found = (found or set()) | set(re.findall(r"\bensures\*? ([a-z_]+) \{", match[1]))
            found |= set(re.findall(r"\brequires ([a-z_]+) \{", match[1]))
            if re.search(r"\bensures\*? \{", match[1]):
                found.add("ensures")
            if re.search(r"\brequires \{", match[1]):
                found.add("requires")
    return found


def check_named_clauses(path, crate_of, faults):
    """Each call that the page names has the clauses that it names of it. `crate_of` gives a call's crate and the rest."""
    for number, line in enumerate(path.read_text().splitlines(), 1):
        for match in NAMED.finditer(line):
            for call in QUOTED.findall(match[1]):
                crate, name = crate_of(call)
                clauses = clauses_of(crate, name)
                if clauses is None:
                    faults.append(f"{path}:{number}: there is no call `{call}` in `{crate}`")
                    continue
                for clause in QUOTED.findall(match[2]):
                    if clause not in clauses:
                        faults.append(f"{path}:{number}: `{call}` has no clause `{clause}`")


def check_crate(crate, architecture, faults):
    folder = pathlib.Path("crates", crate)
    root = root_of(crate)
    readme = folder / "README.md"
    if root is None:
        faults.append(f"{crate}: no root file")
        return
    head = head_sentence(root)
    if head is None:
        faults.append(f"{root}: no //! head")
    if not readme.is_file():
        faults.append(f"{crate}: no README.md")
    else:
        if head != readme_sentence(readme):
            faults.append(f"{readme}: its first sentence is not that of {root}")
        check_named_clauses(readme, lambda call: (crate, call), faults)
    if not any(f"`{crate}`" in row and head and head in row for row in architecture.splitlines()):
        faults.append(f"docs/ARCHITECTURE.md: no row of `{crate}` with its first sentence")


# The definitions that the clauses of the program's `run` and `serve` cite.
CITED = {
    "ft_server": ("Ends", "FaultText", "Forms", "Limits", "Load", "Session", "Status"),
    "worker_pool": ("Jobs", "Visits", "Works"),
}
USED = re.compile(r"^use Rattle\.(\w+)\.specs\.(\w+)", re.M)
LISTED = re.compile(r"`(?:crates/(\w+)/specs/)?(\w+)\.antt`")


def reached():
    """The files of definitions that the program's clauses reach, through whatever they use."""
    left = [pathlib.Path("crates", crate, "specs", f"{name}.antt") for crate, names in CITED.items() for name in names]
    found = set()
    while left:
        path = left.pop()
        if path in found or not path.is_file():
            continue
        found.add(path)
        left += [pathlib.Path("crates", crate, "specs", f"{name}.antt") for crate, name in USED.findall(path.read_text())]
    return found


def check_definitions(faults):
    text = pathlib.Path("docs/DEFINITIONS.md").read_text().split("## In between")[0]
    listed = set()
    crate = None
    for named, file in LISTED.findall(text):
        crate = named or crate
        listed.add(pathlib.Path("crates", crate, "specs", f"{file}.antt"))
    for path in sorted(reached() - listed):
        faults.append(f"docs/DEFINITIONS.md: {path} is reached, and not listed")
    for path in sorted(listed - reached()):
        faults.append(f"docs/DEFINITIONS.md: {path} is listed, and not reached")


def tracked():
    listed = subprocess.run(["git", "ls-files", "-co", "--exclude-standard"], capture_output=True, text=True, check=True)
    return [pathlib.Path(name) for name in listed.stdout.splitlines() if pathlib.Path(name).is_file()]


def check_order(faults):
    """Each crate stands in crates.txt behind those that it names."""
    lines = [line for line in pathlib.Path("crates.txt").read_text().splitlines() if ":" in line and not line.startswith("#")]
    ours, seen = {line.split(":")[0].split()[0] for line in lines}, set()
    for line in lines:
        name, others = line.split(":", 1)
        for other in others.split():
            if other in ours - seen:
                faults.append(f"crates.txt: {name.split()[0]} stands before {other}, which it names")
        seen.add(name.split()[0])


def check_budget(sources, faults):
    """What the gate is made of, and that it is no more than it may be."""
    edits = {crate: len(list(pathlib.Path("crates", crate).glob("must-fail/*.edit"))) for crate in crates()}
    tests = sum(path.read_text().count("#[test]") for path in sources)
    for crate, count in edits.items():
        if count > MOST_EDITS_EACH:
            faults.append(f"{crate}: {count} wrong bodies in the gate, where {MOST_EDITS_EACH} are the most")
    if sum(edits.values()) > MOST_EDITS:
        faults.append(f"{sum(edits.values())} wrong bodies in the gate, where {MOST_EDITS} are the most")
    if tests > MOST_TESTS:
        faults.append(f"{tests} proved tests, where {MOST_TESTS} are the most")
    return sum(edits.values()), tests


STARTS = re.compile(r"^(\s*)(?:pub(?:\([a-z]+\))? )?(?:final |const )*fn (\w+)")


def functions(lines):
    """Each function of a source that rt fmt laid out: its name, its first line, and where its body begins and ends."""
    for at, line in enumerate(lines):
        found = STARTS.match(line)
        if not found:
            continue
        margin, opened = found[1], at
        # A method of a trait may end with its last clause.
        while opened < len(lines) and not re.match(
            rf"{margin}(?:\S.*)?[{{;]$|{margin}.*\{{\}}$|{margin}    (?:ensures|requires)\b.*;$", lines[opened]
        ):
            opened += 1
        if opened < len(lines) and lines[opened].endswith("{"):
            ends = (end for end in range(opened, len(lines)) if lines[end] == margin + "}")
            yield found[2], at, opened + 1, next(ends, opened + 1)


# A cycle of functions has a name, `#[cycle(NAME)]`, without which the check refuses it. A proof has a folder `+NAME` where it
# shows what gets smaller from call to call; a call of oneself on a part of a value needs none, and is told by its form.
CYCLE = re.compile(r"#\[cycle\((\w+)\)\]")
OWNER = re.compile(r"(\s*)(?:pub(?:\([a-z]+\))? )?(impl|trait|mod)\b(.*)")
TYPE = re.compile(r"^(?:pub(?:\([a-z]+\))? )?(struct|enum|type) (\w+)(.*?)(?:^\}|;$|\{\}$)", re.M | re.S)
TOLD = re.compile(r"//.*|\"(?:[^\"\\]|\\.)*\"")
ROW = re.compile(r"`(\w+::[\w-]+)`")


def without_text(line):
    """The line without its comment and its strings."""
    return TOLD.sub("", line)


def types_of(sources):
    """The types of a crate that contain themselves, by one another too."""
    parts, aliases = {}, set()
    for path in sources:
        code = "\n".join(map(without_text, path.read_text().split("\n")))
        for kind, name, body in TYPE.findall(code):
            parts.setdefault(name, set()).update(re.findall(r"\w+", body))
            aliases |= {name} if kind == "type" else set()
    found = set()
    for name in parts.keys() - aliases:
        left, seen = [name], set()
        while left:
            inner = (parts[left.pop()] & parts.keys()) - seen
            seen |= inner
            left += inner
        if name in seen:
            found.add(name)
    return found


def owner_of(lines, at):
    """The head of the block whose method a function is, without its type parameters; None for a free function."""
    margin = len(lines[at]) - len(lines[at].lstrip())
    for line in reversed(lines[:at]):
        found = OWNER.match(line)
        if found and len(found[1]) < margin:
            head = re.sub(r"<[^<>]*>", "", found[3].replace("->", ""))
            return None if found[2] == "mod" else re.sub(r"<[^<>]*>", "", head)
    return None


def calls_itself(name, owner, body, types):
    """Whether a function calls itself by its name. Of a type that contains itself, a method may go down by any value."""
    if owner is None:
        ways = [r"(?<![\w.:])"]
    else:
        kind = (re.findall(r"\w+", owner.split(" for ")[-1]) or ["Self"])[0]
        ways = [r"(?<![\w.])self\.", r"\bSelf::"] + ([r"\."] if kind in types else [])
        # In a trait's impl `Type::name(..)` is the type's own method.
        ways += [] if " for " in owner else [rf"\b{kind}::"]
    return any(re.search(rf"{way}{name}(?:::<.*?>)?\(", body) for way in ways)


def functions_of(sources, types):
    """The functions of a crate that call themselves; a cycle of several goes by its name."""
    found = set()
    for path in sources:
        lines = path.read_text().split("\n")
        for name, at, begins, ends in functions(lines):
            first = at
            while lines[first - 1].strip().startswith(("#[", "//")):
                first -= 1
            cycle = CYCLE.search("\n".join(lines[first:at]))
            body = "\n".join(map(without_text, lines[begins:ends]))
            if cycle or calls_itself(name, owner_of(lines, at), body, types):
                found.add(cycle[1] if cycle else name)
    return found


def check_calls(faults):
    """The table of what calls itself names just the functions that do, and the types whose drops do."""
    page = pathlib.Path("docs/DECISIONS.md")
    table = page.read_text().split("| Calls itself |")[-1].split("\n\n")[0]
    told = [name for line in table.splitlines() if line.startswith("| `") for name in ROW.findall(line.split("|")[1])]
    found = set()
    for crate in crates():
        sources = sorted(pathlib.Path("crates", crate, "src").rglob("*.rt"))
        types = types_of(sources)
        folders = {path.name[1:] for path in pathlib.Path("crates", crate, "proofs").rglob("+*")}
        found |= {f"{crate}::{name}" for name in types | folders | functions_of(sources, types)}
    faults += [f"{page}: `{name}` calls itself, and has no row" for name in sorted(found - set(told))]
    faults += [f"{page}: there is a row for `{name}`, which does not call itself" for name in sorted(set(told) - found)]
    faults += [f"{page}: `{name}` has two rows" for name in sorted(set(told)) if told.count(name) > 1]


def check_lengths(sources, faults):
    longest = ("", 0)
    for path in sources:
        text = path.read_text()
        lines = text.count("\n")
        if lines > MOST_LINES:
            faults.append(f"{path}: {lines} lines, where {MOST_LINES} are the most")
        if path.suffix != ".rt":
            continue
        for name, _, begins, ends in functions(text.split("\n")):
            length = ends - begins
            longest = max(longest, (f"{path}: {name}", length), key=lambda pair: pair[1])
            if length > MOST_FUNCTION_LINES:
                faults.append(f"{path}: the body of {name} has {length} lines, where {MOST_FUNCTION_LINES} are the most")
    return longest


def main():
    faults = []
    if not pathlib.Path("HANDLES").is_file() or pathlib.Path("HANDLES").read_text() != HANDLES:
        faults.append("HANDLES is not the one line that it has to be")
    architecture = pathlib.Path("docs/ARCHITECTURE.md").read_text()
    for crate in crates():
        check_crate(crate, architecture, faults)
    check_order(faults)
    check_named_clauses(pathlib.Path("docs/PROMISES.md"), lambda call: call.split("::", 1), faults)
    check_definitions(faults)
    check_calls(faults)
    check_pages(faults)
    told = subprocess.run([sys.executable, "tools/proof/wrong_bodies.py", "--check"], capture_output=True, text=True)
    faults += told.stdout.splitlines()
    sources = [path for path in tracked() if path.suffix in (".rt", ".antt", ".py", ".sh")]
    edits, tests = check_budget([path for path in sources if path.suffix == ".rt"], faults)
    longest = check_lengths(sources, faults)
    print(f"house: {len(crates())} crates, {edits} wrong bodies in the gate, {tests} proved tests, "
          f"longest function {longest[1]} lines ({longest[0]})")
    for fault in faults:
        print(fault)
    print(f"house: {len(faults)} faults")
    return 1 if faults else 0


sys.exit(main())
