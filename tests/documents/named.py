#!/usr/bin/env python3
"""Holds the documents to the project: each file, theorem, function, crate and command that one names is there.

Of every page but the notes on landings, the changelog and what was brought over, which tell what was: a path in
backquotes is a file or folder; a name (a theorem with hyphens, a function, a crate, a definition) stands in the
sources; `crr COMMAND` is a command. Every link leads somewhere, every crate is on the map, and prose is at most 100 columns wide.
"""

import re
import subprocess
import sys
from pathlib import Path

ROOT = Path(__file__).resolve().parents[2]
SOURCES = (".rt", ".antt", ".py", ".rs", ".h", ".c", ".hpp", ".v", ".edit", ".txt", ".toml", ".sh", ".mjs")
PATH = re.compile(r"[\w.*-]+(/[\w.*-]+)+/?|[\w-]+\.(?:antt|rt|py|rs|c|h|md|csv|bin|edit|so|a|v|txt|html)")
NAME = re.compile(r"[A-Za-z][\w]*(?:[-_][\w]+)+|[a-z]+[A-Z]\w*|[A-Z][a-z]+[A-Z]\w*")
PLACEHOLDER = re.compile(r"\b(?:NN|CRATE|LABEL|NAME|YYYY|DIR|FOLDER|OUT)\b|\bX_|HEhh|\bmine\b")
WIDTH = 100


def files():
    told = subprocess.run(["git", "ls-files", "-co", "--exclude-standard"], cwd=ROOT, capture_output=True, text=True, check=True)
    return [name for name in told.stdout.splitlines() if (ROOT / name).is_file()]


def pages(names):
    return [name for name in names if name.endswith(".md")]


def words(names):
    """Every name and every file's name that stands in a source, whatever it names there."""
    found = set()
    for name in names:
        path = ROOT / name
        if path.suffix in SOURCES or not path.suffix and path.stat().st_size < 200_000:
            text = path.read_text(encoding="utf-8", errors="ignore")
            for pattern in (r"[^\W\d][\w·]*(?:-\w+)*", r"[^\W\d]\w*", r"[\w-]+\.[a-z]+\b"):
                found.update(re.findall(pattern, text))
        found.update((path.stem, path.name, *path.parts))
    return found


def there(path, page, names):
    """Whether a path is that of a file or a folder, from the root, the crates, the page or anywhere below."""
    path = path.rstrip("/")
    if "*" in path or path.startswith(("target/", "OUT/", "prices/")) or "YYYY" in path:
        return True
    for start in (ROOT, ROOT / "crates", page.parent, ROOT / "python/src/crr"):
        if (start / path).exists():
            return True
    return any(name.endswith("/" + path) or f"/{path}/" in f"/{name}" for name in names)


def spans(text):
    """The backquoted spans of a page's prose and tables, code blocks left out."""
    text = re.sub(r"^```.*?^```$", "", text, flags=re.S | re.M)
    return re.findall(r"(?<!`)`([^`\n]+)`(?!`)", text)


def commands():
    told = subprocess.run([sys.executable, "-c", "import sys; sys.path.insert(0, sys.argv[1]); from crr.cli import main; "
                           "sys.exit(main(['--help']))", str(ROOT / "python/src")], capture_output=True, text=True)
    return set(re.findall(r"^ {4,8}([a-z][a-z-]+)\b", told.stdout, re.M)) | {"help", "completion", "version"}


def named(page, names, known, listed):
    """What a page names and the project does not have."""
    for span in spans(page.read_text(encoding="utf-8")):
        if PLACEHOLDER.search(span):
            continue
        command = re.fullmatch(r"(?:\./)?crr ([a-z][a-z-]*)\b.*", span)
        if command and command.group(1) not in listed:
            yield f"`{span}` is no command"
        elif command:
            continue
        elif PATH.fullmatch(span) and not re.fullmatch(r"[\d./]+", span):
            if not there(span, page, names) and ("/" in span or span not in known):
                yield f"`{span}` is not there"
        elif NAME.fullmatch(span) and span not in known:
            yield f"`{span}` stands in no source"


def bare(page, names):
    """Files of crates that a page names without backquotes."""
    for path in re.findall(r"(?<![\w/`])\w+/(?:specs|proofs|src)/[\w/]+\.(?:antt|rt)\b", page.read_text(encoding="utf-8")):
        if f"crates/{path}" not in names:
            yield f"{path} is not there"


def links(page):
    for target in re.findall(r"\]\(([^)#\s]+?)(?:#[^)]*)?\)", page.read_text(encoding="utf-8")):
        if "://" not in target and not (page.parent / target).exists():
            yield f"the link to {target} leads nowhere"


def wide(page):
    fenced = False
    for number, line in enumerate(page.read_text(encoding="utf-8").splitlines(), 1):
        if line.lstrip().startswith("```"):
            fenced = not fenced
        prose = not fenced and not line.startswith("    ") and not line.lstrip().startswith("|") and not re.match(r"^\[.*\]: |^!\[", line)
        if prose and len(line) > WIDTH and " " in line.strip()[:WIDTH]:
            yield f"line {number} has {len(line)} columns"


def main():
    names = files()
    known, listed = words(names), commands()
    problems = []
    crates = re.findall(r"^(\w+)[\w ]*:", (ROOT / "crates.txt").read_text(), re.M)
    plan = (ROOT / "docs" / "MAP.md").read_text(encoding="utf-8")
    for crate in crates:
        if not re.search(rf"`{crate}`", plan) and not (crate.startswith("c_") and "`c_*`" in plan):
            problems.append(f"docs/MAP.md: the crate {crate} is not on the map")
    for name in pages(names):
        page = ROOT / name
        told = name.startswith("docs/landings/") or name in ("CHANGELOG.md", "docs/PORT.md", "docs/DESIGN-PASS.md")
        found = [*links(page), *wide(page), *([] if told else [*named(page, names, known, listed), *bare(page, names)])]
        problems += [f"{name}: {problem}" for problem in found]
    for problem in problems:
        print(f"documents: {problem}", file=sys.stderr)
    print(f"documents: {len(pages(names))} pages, {len(problems)} problems")
    return 1 if problems else 0


sys.exit(main())
