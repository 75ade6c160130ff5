#!/usr/bin/env python3
"""Respells the repository's own definitions and lemmas: snake case, a type in camel case, a dash only behind the name of a definition.

usage: tools/port/respell.py [--list]      at the top of the repository, once, right behind the kit's port.py

A name turns where a .antt file of specs/ or proofs/ declares it (not in the proof of one function, whose names the kit makes), in the
.antt files, the clauses of the .rt files, the lines of must-fail edits, and the code spans of the documents. Names of the library,
of Rust code, of C, strings and prose stay. Where two names would fall together, or one would hide a word of its file, the later gets an
ending: _lem for a law, _of for a function (_for behind _of). --list prints the table and writes nothing.
"""
import collections
import os
import re
import sys

WORD = re.compile(r"[^\s(){}\[\].;,@\"«»`]+")
QUIET = re.compile(r'"(?:[^"\\\n]|\\.)*"|(?<![^\s(){}.;,@"«»])--[^\n]*')
SPAN = re.compile(r"`[^`\n]+`")
CLAUSE = re.compile(r"(?:requires|ensures)\s*\*?\s*(?:\w+\s*)?\{|ghost\s*(?:\w+\s*(?::\s*|=\s*))?\{|decreases\s*\{")
USE = re.compile(r"ghost\s+use\b[^;]*;")
DECLARED = re.compile(r"^ *((?:(?:pub|unfoldable|abbrev|record|data|inductive|opaque|ghost) )*)([^\s(){}\[\].;,@\"«»`:]+) ([^\n]*)$")
LIBRARY = {"length", "take", "drop", "map", "sum", "get_or", "filter", "foldr", "replicate", "reverse", "all", "any"}


def files(kinds, under="crates"):
    for folder, dirs, names in os.walk(under):
        dirs[:] = sorted(d for d in dirs if d not in ("out", ".git", "target", "node_modules"))
        for name in sorted(names):
            if name.endswith(kinds):
                yield os.path.join(folder, name)


def read(path):
    with open(path, encoding="utf-8") as f:
        return f.read()


def own_file(path):
    """A file of definitions or lemmas, not the proof of one function."""
    parts = path.split(os.sep)
    return path.endswith(".antt") and len(parts) == 4 and parts[2] in ("specs", "proofs")


def declared(text):
    """Each name that a file declares, with what stands behind it on its line."""
    for line in text.split("\n"):
        if line.lstrip().startswith(("--", "use ", "pub use ", "unfolding", "mod ", "pub mod", "module", "where", "let ", "in ")):
            continue
        m = DECLARED.match(line)
        if m and ("record" in m.group(1) or "data" in m.group(1) or re.match(r"(?:[({][^)}]*[)}] )*: ", m.group(3)) or re.search(r" : ", " " + m.group(3).split(" = ")[0])):
            yield m.group(2), m.group(1), m.group(3)


def library_names(text):
    for m in re.finditer(r"(?:^|\n)\s*(?:pub |ghost )*use ([\w.·]+)\.\{([^}]*)\}", text):
        head = m.group(1)
        own = head.startswith("Rattle.") and os.path.isdir(os.path.join("crates", head.split(".")[1]))
        for item in m.group(2).split(","):
            words = item.split()
            if words and not own:
                yield words[0]
                yield words[-1]


def snake(word):
    word = re.sub(r"(?<=[a-z0-9])(?=[A-Z][a-z])", "_", word)
    out = re.sub(r"[A-Z][a-z]", lambda m: m.group(0).lower() if m.start() and word[m.start() - 1] == "_" else m.group(0), word)
    return re.sub(r"(?<=[a-z0-9])([A-Z])(?=$|_|[0-9])", lambda m: "_" + m.group(1).lower(), out)


def spelled(name, functions):
    """The new spelling: the longest front that names a definition keeps the dash behind it."""
    name = name.replace("′", "'")
    parts = name.split("-")
    cut = 0
    for i in range(len(parts) - 1, 0, -1):
        if "-".join(parts[:i]) in functions or re.match(r"^[^a-z]+$", parts[0]) and i == 1:
            cut = i
            break
    if any(p == "" for p in parts):
        return name
    head = "_".join(parts[:cut])
    tail = "_".join(parts[cut:])
    whole = head + "-" + tail if cut else tail
    return whole if whole[:1].isupper() and "-" not in whole else "-".join(snake(p) if not p[:1].isupper() else p for p in whole.split("-"))


def tokens(text):
    return set(WORD.findall(text))


def table():
    names, kinds, functions, library, uses = [], {}, set(LIBRARY), set(), {}
    for path in files((".antt", ".rt")):
        text = read(path)
        library.update(library_names(text))
        uses[path] = tokens(QUIET.sub(" ", text) if path.endswith(".antt") else text)
        if own_file(path):
            for name, keyword, rest in declared(text):
                if name not in kinds:
                    names.append(name)
                    kinds[name] = "type" if "record" in keyword or "data" in keyword or re.search(r"(:|→) Type \d*\s*$", rest.rstrip()) else "name"
                if path.split(os.sep)[2] == "specs" and "-" not in name:
                    functions.add(name)
    where = collections.defaultdict(set)
    for path, words in uses.items():
        for w in words:
            where[w].add(path)
    rows, taken = {}, {}
    for name in names:
        if name in library or not re.search(r"[A-Za-z]", name):
            continue
        new = spelled(name, functions)
        if kinds[name] == "type" and new[:1].islower() and "-" not in new:
            new = "".join(p[:1].upper() + p[1:] for p in new.split("_"))
        if new == name:
            continue
        ending = "_lem" if "-" in name else "_of"
        first = new
        while new in taken or new in library or where[new] and where[new] & where[name] or (new in kinds and where[new]):
            new = (new[:-3] + "_for" if ending == "_of" and new.endswith("_of") else new + ending) if new == first else new + "'"
        taken[new] = name
        rows[name] = new
    return rows


def turned(text, rows):
    return WORD.sub(lambda m: rows.get(m.group(0), m.group(0)), text)


def spans(text, rows):
    return SPAN.sub(lambda m: turned(m.group(0), rows), text)


def antt(text, rows):
    out, at = [], 0
    for m in QUIET.finditer(text):
        out += [turned(text[at : m.start()], rows), spans(m.group(0), rows) if m.group(0).startswith("--") else m.group(0)]
        at = m.end()
    return "".join(out) + turned(text[at:], rows)


def closing(text, at):
    depth = 0
    while at < len(text):
        depth += {"{": 1, "}": -1}.get(text[at], 0)
        at += 1
        if not depth:
            return at
    return at


def rust(text, rows):
    out, at = [], 0
    while True:
        a, b = CLAUSE.search(text, at), USE.search(text, at)
        m = min((x for x in (a, b) if x), key=lambda x: x.start(), default=None)
        if not m:
            break
        end = m.end() if m is b else closing(text, m.end() - 1)
        out += [spans(text[at : m.start()], rows), turned(text[m.start() : end], rows)]
        at = end
    return "".join(out) + spans(text[at:], rows)


def edit(text, rows):
    lines = []
    for line in text.split("\n"):
        head = re.match(r"(old|new): ", line)
        if head:
            line = "".join(p if p.startswith('"') else turned(p, rows) for p in re.split(r'("(?:[^"\\]|\\.)*")', line))
        lines.append(spans(line, rows) if line.startswith("#") else line)
    return "\n".join(lines)


MOVED = {"tariff": "Contracts", "migration_rules": "Contracts"}


def move():
    """A file of specs/ beside which the kit makes a module of its name in small letters gets another name."""
    for crate, name in MOVED.items():
        os.rename(f"crates/{crate}/specs/{name}.antt", f"crates/{crate}/specs/ContractRules.antt")
        path = re.compile(rf"\b{crate}([./])specs\1{name}\b")
        for p in [*files((".antt", ".rt", ".edit")), *files((".md",), ".")]:
            if "/landings/" in p or p.endswith("CHANGELOG.md"):
                continue
            text = read(p)
            new = path.sub(rf"{crate}\1specs\1ContractRules", text)
            if p == f"crates/{crate}/specs/Lib.antt":
                new = new.replace(f"mod {name}\n", "mod ContractRules\n")
            if p.startswith(f"crates/{crate}/") and p.endswith(".edit"):
                new = new.replace(f"specs/{name}.antt", "specs/ContractRules.antt")
            if new != text:
                with open(p, "w", encoding="utf-8") as f:
                    f.write(new)


def main(argv):
    rows = table()
    if "--list" in argv:
        for old, new in sorted(rows.items()):
            print(f"{old}\t{new}")
        return
    work = [(p, antt) for p in files(".antt")] + [(p, rust) for p in files(".rt")] + [(p, edit) for p in files(".edit")]
    work += [(p, spans) for p in files(".md", ".") if "/landings/" not in p and not p.endswith("CHANGELOG.md")]
    for path, turn in work:
        text = read(path)
        new = turn(text, rows)
        if new != text:
            with open(path, "w", encoding="utf-8") as f:
                f.write(new)
    move()


main(sys.argv[1:])
