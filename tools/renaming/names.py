"""The tables of names.txt, and what a folder of crates defines and imports."""

import re

SUFFIXES = (".rt", ".antt", ".edit", ".md", ".txt", ".py", ".rs", ".h", ".hpp", ".c", ".sh", ".toml", ".v")
IMPORT = re.compile(
    r"^(?:ghost )?use Rattle·(\w+?)(?:·(?:specs|proofs))?\.(specs|proofs)\.([^\s{};]+?)"
    r"(?:\.\{([^}]*)\}| as (\S+?))?;?$", re.M)
DECLARED = re.compile(
    r"^(\s*)((?:(?:abbrev|unfoldable|pub)\s+)*)(record\s+|data\s+|ruleset\s+)?([^\s(){}:.;,\"]+)")


class Names:
    """What gets which name, a table of names.txt to each."""

    def __init__(self, path):
        tables = {}
        for line in path.read_text(encoding="utf-8").split("\n"):
            if line.startswith("["):
                rows = tables.setdefault(line.strip("[]"), [])
            elif line.strip() and not line.startswith("#"):
                rows.append(line)
        words = {table: [row.split() for row in rows] for table, rows in tables.items()}
        parts = {table: [row.replace("\\n", "\n").split(" | ") for row in rows] for table, rows in tables.items()}
        self.crates = dict(words["crates"])
        self.moved = {row[0].rstrip(":"): row[1:] for row in words["moved"]}
        self.modules = words["modules"]
        self.functions = words["functions"]
        self.words = dict(words["words"])
        self.files = dict(words["files"])
        self.specs = [(*row.split(" : ", 1)[0].split(), row.split(" : ", 1)[1]) for row in tables["specs"]]
        self.pages = parts["pages"]
        self.phrases = [(row[0].split(), *row[1:]) for row in parts["phrases"]]
        self.sections = [(row[0], row[1].split()) for row in parts["sections"]]
        longest = sorted(self.words, key=len, reverse=True)
        self.any_word = re.compile(rf"(?<![\w-])(?:{'|'.join(map(re.escape, longest))})(?![\w-])")

    def in_words(self, text):
        return self.any_word.sub(lambda found: self.words[found[0]], text)

    def homes(self, crate):
        """The crates that may have now what a crate had."""
        return list(dict.fromkeys([crate, *self.moved.get(crate, ())]))


def is_text(path):
    if path.suffix:
        return path.suffix in SUFFIXES
    try:
        path.read_text(encoding="utf-8")
        return True
    except UnicodeDecodeError:
        return False


def crates_in(house):
    return sorted(path.name for path in house.iterdir() if (path / "src").is_dir())


def imports(text):
    """(crate, kind, module, the names listed, the name that it gets) of each import from a crate."""
    return IMPORT.findall(text)


def declared(text):
    """(name, line) of each definition or law of a file; fields of records are none."""
    record = None
    for line in text.split("\n"):
        found = DECLARED.match(line)
        if not found:
            continue
        indent, marks, kind, name = len(found[1]), found[2], found[3] or "", found[4]
        if record is not None and indent > record:
            continue
        record = indent if kind.strip() == "record" else None
        if marks:
            yield name, line


def definitions(house):
    """What each file of specs and proofs defines: {(crate, kind, module): {name: [line]}}."""
    index = {}
    for crate in crates_in(house):
        for kind in ("specs", "proofs"):
            for path in sorted((house / crate / kind).rglob("*.antt")):
                module = ".".join(path.relative_to(house / crate / kind).with_suffix("").parts)
                there = index.setdefault((crate, kind, module), {})
                for name, line in declared(path.read_text(encoding="utf-8")):
                    there.setdefault(name, []).append(line)
    return index
