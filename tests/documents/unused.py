"""Finds what nothing uses: a lemma or definition of specs and proofs, a function or constant of the code.

Used is what is told: an entry (crates.txt), a program's `main`, what README.md, docs/BELIEVE.md,
docs/DEMANDS.md or docs/PROVED.md names in backquotes, and a statement of a crate's files of theorems; and
what the text of something used names, as its file's imports have it. A function that is used uses its
contract and its proof. Fields are left out: the prover reads them unnamed.

spare.txt beside this has the laws that no text names since the prover finds by itself what they were cited for, by
them or without them, and definitions in whose place others are used. One that is named again, or gone, is to leave
the list.

Usage: unused.py [--write]   --write puts the laws and definitions that nothing uses into spare.txt
"""

import re
import sys
from collections import defaultdict
from pathlib import Path
from typing import DefaultDict, Dict, Iterator, List, NamedTuple, Set, Tuple

ROOT = Path(__file__).resolve().parents[2]
SPARE = Path(__file__).resolve().parent / "spare.txt"
TELLING = ("README.md", "docs/BELIEVE.md", "docs/DEMANDS.md", "docs/PROVED.md")
IMPORT = re.compile(r"(?:ghost )?use Rattle\.(\w+)\.(specs|proofs)\.([\w.-]+?)"
                    r"(?:\.\{([^}]*)\}| as ([\w-]+));?")
TOKEN = re.compile(r"[^\s(){}.;,@\"«»]+")
MARKS = r"(?:unfoldable |abbrev |axiom |pub )*"
NAME = r"[^\s(){}.;,]+"
HEADED = re.compile(rf"{MARKS}(?:(?:record|data|ruleset) ({NAME})|({NAME})(?: \{{[^}}]*\}})? :(?: |$))")
# The two files of a function's proof: what they hand to the prover is pub.
ANSWERS = ("/Answers.antt", "/Invariants.antt")
CODE = re.compile(r"(?:pub |extern \"C\" )*(fn|const|struct|enum|type|impl) (\w+)")

Lines = List[Tuple[int, str]]


class Named(NamedTuple):
    """A name and the file that declares it."""

    file: str
    name: str


class Declared(NamedTuple):
    line: int
    words: Set[str]
    is_public: bool = False


Table = Dict[Named, Declared]
Scope = DefaultDict[str, Set[Named]]


def parts(name: str) -> List[str]:
    """A name, and the parts of an operator's."""
    return [name, *(part for part in name.split("◌") if part)] if "◌" in name else [name]


def bare(text: str, comment: str) -> Lines:
    """The lines that are not empty, numbered, without comments."""
    said = re.compile(rf"(?:^|\s){comment}(?:\s.*|$)")
    found = ((number, said.sub("", line).rstrip()) for number, line in enumerate(text.splitlines(), 1))
    return [(number, line) for number, line in found if line]


def indent(line: str) -> int:
    return len(line) - len(line.lstrip())


def items(lines: Lines) -> Iterator[Lines]:
    """The items of a block: a line at its indent with those further in."""
    item: Lines = []
    for number, line in lines:
        if item and indent(line) <= indent(item[0][1]):
            yield item
            item = []
        item.append((number, line))
    if item:
        yield item


def words_of(lines: Lines) -> Set[str]:
    return {word for _, line in lines for word in TOKEN.findall(line)}


def declare(lines: Lines, file: str, around: Set[str], table: Table) -> None:
    """The declarations of a block: a signature and its clauses, with the words of the sections around it."""
    last = None
    for item in items(lines):
        number, line = item[0][0], item[0][1].strip()
        headed = HEADED.match(line)
        if line.startswith("module "):
            head = next(at for at, (_, text) in enumerate(item, 1) if text.endswith("where"))
            declare(item[head:], file, around | words_of(item[:head]), table)
        elif headed:
            last = Named(file, headed[1] or headed[2])
            before = table.get(last, Declared(number, set(), "pub" in line.split()))
            table[last] = Declared(before.line, before.words | around | words_of(item), before.is_public)
        elif last and not line.startswith(("use ", "pub mod ", "infix")):
            table[last].words.update(words_of(item))


def functions(lines: Lines, file: str, table: Table) -> None:
    """The items of a file of code; an impl's are named as they are called.

    A trait's impl is part of its type, since an operator is called by no name.
    """
    last = None
    in_trait = False
    for number, line in lines:
        found = CODE.match(line.strip())
        of_trait = re.match(r"impl(?:<[^>]*>)? .+ for (\w+)", line)
        if of_trait or in_trait and not line.startswith("}"):
            last = Named(file, of_trait[1]) if of_trait else last
            last = last if last in table else None
            in_trait = True
        elif line.startswith("}") and in_trait:
            in_trait = False
        elif found and found[1] != "impl" and indent(line) <= 4:
            last = Named(file, found[2])
            table.setdefault(last, Declared(number, set()))
        elif found and found[1] == "impl" or re.match(r"(?:pub |ghost )*(?:use|mod) ", line):
            last = None
        if last:
            table[last].words.update(words_of([(number, line)]) | set(re.findall(r"\w+", line)))


def scope_of(text: str, file: str, table: Table) -> Scope:
    """What each word of a file can mean: its own declarations and its imports."""
    scope: Scope = defaultdict(set)
    for crate, kind, module, names, alias in IMPORT.findall(text):
        source = f"{crate}/{kind}/{module.replace('.', '/')}.antt"
        for name in names.split(","):
            name, _, other = name.strip().partition(" as ")
            for part in parts(other or name):
                scope[part].add(Named(source, name))
        if alias:
            for named in table:
                if named.file == source:
                    scope[named.name].add(named)
    return scope


def all_declared(root: Path) -> Tuple[Table, Dict[str, Scope]]:
    table: Table = {}
    texts: Dict[str, str] = {}
    for path in sorted((root / "crates").glob("*/*/**/*")):
        file = str(path.relative_to(root / "crates"))
        if file.split("/")[1] == "out":  # what rt makes
            continue
        if path.suffix in (".antt", ".rt"):
            texts[file] = path.read_text(encoding="utf-8")
        if path.suffix == ".antt":
            declare(bare(texts[file], "--"), file, set(), table)
        elif path.suffix == ".rt":
            functions(bare(texts[file], "//"), file, table)
    scopes = {file: scope_of(text, file, table) for file, text in texts.items()}
    for named in table:
        for part in parts(named.name) if named.file.endswith(".antt") else [named.name]:
            scopes[named.file][part].add(named)
    return table, scopes


def crates_named(root: Path) -> Tuple[Dict[str, Set[str]], Set[Tuple[str, str]]]:
    """The crates that each crate names, and the entries with their crate."""
    named: Dict[str, Set[str]] = {}
    entries: Set[Tuple[str, str]] = set()
    for line in (root / "crates.txt").read_text(encoding="utf-8").splitlines():
        crate, _, rest = line.partition(":")
        below, _, told = rest.partition("# entry ")
        crate = crate.split(" ")[0]  # behind the name, what kind of crate it is
        named[crate] = {crate, *below.split("#")[0].split()}
        entries.update((crate, name) for name in told.split())
    return named, entries


def is_told(named: Named, entries: Set[Tuple[str, str]]) -> bool:
    """Whether it is an entry, a program or a theorem."""
    return ((named.file.split("/")[0], named.name) in entries
            or named.file.endswith("/main.rt") and named.name == "main"
            or re.match(r"\w+/proofs/Theorem\w*\.antt", named.file) is not None)


def passed_on(root: Path) -> Iterator[Named]:
    """The theorems that a file of theorems passes on from where they are proved."""
    for path in (root / "crates").glob("*/proofs/Theorem*.antt"):
        for line in re.findall(r"^pub (use .*)$", path.read_text(encoding="utf-8"), flags=re.MULTILINE):
            for crate, kind, module, names, _ in IMPORT.findall(line):
                for name in names.split(","):
                    yield Named(f"{crate}/{kind}/{module.replace('.', '/')}.antt", name.strip())


def used(root: Path, table: Table, scopes: Dict[str, Scope]) -> Set[Named]:
    """What is told, and all that the text of something used names."""
    below, entries = crates_named(root)
    coded: DefaultDict[Tuple[str, str], Set[Named]] = defaultdict(set)
    proved: DefaultDict[Tuple[str, str], Set[Named]] = defaultdict(set)
    for named in table:
        crate, folder = named.file.split("/")[0], named.file.split("/")[-2].lstrip("+")
        if named.file.endswith(".rt"):
            coded[crate, named.name].add(named)
        elif named.file.endswith(ANSWERS) and table[named].is_public:
            proved[crate, folder].add(named)
    pages = "\n".join((root / page).read_text(encoding="utf-8") for page in TELLING)
    told = {word for span in re.findall(r"`([^`\n]+)`", pages) for word in TOKEN.findall(span)}
    left = [named for named in table if named.name in told or is_told(named, entries)]
    left.extend(passed_on(root))
    found: Set[Named] = set()
    while left:
        named = left.pop()
        if named in found or named not in table:
            continue
        found.add(named)
        for word in table[named].words:
            left.extend(scopes[named.file].get(word, ()))
        if named.file.endswith(".rt"):
            crate = named.file.split("/")[0]
            left.extend(proved[crate, named.name])
            for word in table[named].words:
                for other in below[crate]:
                    left.extend(coded.get((other, word), ()))
    return found


def unused(root: Path) -> Tuple[Table, List[Named]]:
    """All that is declared, and of that what nothing uses."""
    table, scopes = all_declared(root)
    return table, sorted(set(table) - used(root, table, scopes))


def is_law(named: Named) -> bool:
    """Whether it stands among a crate's laws or definitions, and not in a function's own proof."""
    return re.fullmatch(r"\w+/(?:proofs|specs)/\w+\.antt", named.file) is not None


def main() -> int:
    table, dead = unused(ROOT)
    if "--write" in sys.argv[1:]:
        SPARE.write_text("".join(f"{named.file} {named.name}\n" for named in dead if is_law(named)), encoding="utf-8")
    listed = [line.split(" ") for line in SPARE.read_text(encoding="utf-8").splitlines()]
    spare = {Named(file, name) for file, name in listed}
    wrong = [named for named in dead if named not in spare]
    for named in wrong:
        print(f"unused: crates/{named.file}:{table[named].line}: nothing uses {named.name}", file=sys.stderr)
    for named in sorted(spare - set(dead)):
        print(f"unused: {SPARE.relative_to(ROOT)}: crates/{named.file}: {named.name} is used, or gone", file=sys.stderr)
    wrong.extend(spare - set(dead))
    print(f"unused: {len(table)} lemmas, definitions and functions, {len(spare)} spare ones, {len(wrong)} problems")
    return 1 if wrong else 0


if __name__ == "__main__":
    sys.exit(main())
