"""The rules of check_house for pages: what they name is there, they name each command, they stay short, and what is made by tools is as made."""
import pathlib
import re
import subprocess
import sys

# The most words of a page, bars of tables left out: what is asked of it, and 15 % more.
MOST_WORDS = {"DECISIONS.md": 3_450, "MEASURED.md": 1_380, "TESTING.md": 1_035, "COLLECTION.md": 1_000, "TURNS.md": 1_000}
# What tools make of other files, each checked by the tool itself.
SHOWN = (("tools/clients/typed_to_resp.py", "--check"), ("tools/bench/plot_performance.py", "--check"), ("tools/compare/count_rows.py", "--check"),
         ("tools/proof/try_patch.py",))

LINK = re.compile(r"\[[^\]]*\]\(([^)\s]+)\)")
PATH = re.compile(r"(?<![\w./-])((?:tools|docs|crates|examples|\.ci)/[\w./-]*\w)")
COMMAND = re.compile(r'\(b"([A-Z._]+)", Form::')


def pages():
    found = [*pathlib.Path(".").glob("*.md"), *pathlib.Path("docs").glob("*.md"), *pathlib.Path("crates").glob("*/README.md")]
    return sorted(found)


def anchors(page):
    """The anchors of a page's headings, as they are made of their words."""
    found, fenced = set(), False
    for line in page.read_text().splitlines():
        fenced ^= line.startswith("```")
        if line.startswith("#") and not fenced:
            words = re.sub(r"[`*]|\[|\]\([^)]*\)", "", line.lstrip("#").strip().lower())
            found.add(re.sub(r"[^\w\- ]", "", words).replace(" ", "-"))
    return found


def check_links(page, text, faults):
    """Each link of a page leads to a file that is there, and to a heading in it."""
    for number, line in enumerate(text.splitlines(), 1):
        for target in LINK.findall(line):
            if re.match(r"\w+:", target):
                continue
            name, _, anchor = target.partition("#")
            file = page.parent / name if name else page
            if not file.exists():
                faults.append(f"{page}:{number}: there is no {target}")
            elif anchor and anchor not in anchors(file):
                faults.append(f"{page}:{number}: {file} has no heading #{anchor}")


def check_paths(page, text, faults):
    """Each path that a page names is there. Capitals and dots stand for any name, and out/ is made by the kit."""
    for number, line in enumerate(text.splitlines(), 1):
        for path in PATH.findall(LINK.sub("", line)):
            if "NAME" in path or ".." in path or "/out" in path:
                continue
            if not pathlib.Path(path).exists():
                faults.append(f"{page}:{number}: there is no {path}")


def check_commands(faults):
    """README, COMMANDS and CHANGELOG name each command of the table."""
    names = COMMAND.findall(pathlib.Path("crates/cmd_parse/src/table.rt").read_text())
    if not names:
        faults.append("crates/cmd_parse/src/table.rt: no command is found in it")
    for page in ("README.md", "docs/COMMANDS.md", "CHANGELOG.md"):
        text = pathlib.Path(page).read_text()
        missing = [name for name in names if not re.search(rf"(?<![\w.]){re.escape(name)}(?![\w])", text)]
        faults += [f"{page}: it does not name the command {name}" for name in missing]


def check_sizes(faults):
    for name, most in MOST_WORDS.items():
        page = pathlib.Path("docs", name)
        words = len(re.findall(r"[^\s|]+", page.read_text())) if page.is_file() else 0
        if words > most:
            faults.append(f"{page}: {words} words, where {most} are the most")


def check_pages(faults):
    for page in pages():
        text = page.read_text()
        check_links(page, text, faults)
        check_paths(page, text, faults)
    check_commands(faults)
    check_sizes(faults)
    for tool in SHOWN:
        told = subprocess.run([sys.executable, *tool], capture_output=True, text=True)
        faults += told.stdout.splitlines() + told.stderr.splitlines()[-1:]
