#!/usr/bin/env python3
"""Prints the places of docs/DESIGN-PASS.md's points 1 to 7 in the .rt files of crates/*/src, and counts them.

    python3 tools/design/places.py            this tree
    python3 tools/design/places.py COMMIT     that commit's
    python3 tools/design/places.py --counts [COMMIT]

A place is a line that a pattern below finds, or a group of functions for twins, facts and parameters.
"""
import difflib
import pathlib
import re
import subprocess
import sys

ROOT = pathlib.Path(__file__).resolve().parents[2]


def sources(commit):
    """The files as (name, text)."""
    if commit is None:
        for path in sorted(ROOT.glob("crates/*/src/**/*.rt")):
            yield str(path.relative_to(ROOT)), path.read_text()
        return
    names = subprocess.run(["git", "ls-tree", "-r", "--name-only", commit, "crates"], cwd=ROOT, check=True, capture_output=True, text=True).stdout
    for name in names.split():
        if "/src/" in name and name.endswith(".rt"):
            yield name, subprocess.run(["git", "show", f"{commit}:{name}"], cwd=ROOT, check=True, capture_output=True, text=True).stdout


def code(text):
    """The text without comments, as long as it was."""
    return re.sub(r"//[^\n]*", lambda m: " " * len(m.group()), text)


class Function:
    """A function: its name, parameters, clauses and body."""

    def __init__(self, name, file, line, parameters, clauses, body):
        self.name, self.file, self.line = name, file, line
        self.parameters, self.clauses, self.body = parameters, clauses, body

    def place(self):
        return f"{self.file}:{self.line} {self.name}"


def closing(text, at):
    """Where the bracket that opens at `at` closes."""
    pairs = {"(": ")", "{": "}", "[": "]"}
    depth, opening = 0, text[at]
    for k in range(at, len(text)):
        if text[k] == opening:
            depth += 1
        elif text[k] == pairs[opening]:
            depth -= 1
            if depth == 0:
                return k
    return len(text) - 1


def functions(name, text):
    text = code(text)
    for m in re.finditer(r"\bfn (\w+)(<[^(]*>)?\(", text):
        end = closing(text, m.end() - 1)
        parameters = [p.strip() for p in re.split(r",(?![^<(\[]*[>)\]])", text[m.end():end]) if p.strip()]
        clauses, at = [], end
        while True:
            c = re.compile(r"\s*(?:->[^{\n]*?)?\s*\b(requires|ensures)\b[^{]*\{").search(text, at)
            if not c or "{" in text[at:c.start()] or "}" in text[at:c.start()]:
                break
            close = closing(text, c.end() - 1)
            clauses.append((c.group(1), text[c.end():close]))
            at = close + 1
        body = text.find("{", at)
        if body < 0:
            continue
        yield Function(m.group(1), name, text.count("\n", 0, m.start()) + 1, parameters, clauses, text[body:closing(text, body) + 1])


def lines(files, pattern, flags=re.M):
    found = []
    for name, text in files:
        bare = code(text)
        for m in re.finditer(pattern, bare, flags):
            row = bare.count("\n", 0, m.start()) + 1
            found.append(f"{name}:{row} {' '.join(m.group().split())[:90]}")
    return found


WORDS = r"\b(?!let\b|mut\b|while\b|for\b|in\b|if\b|else\b|return\b|match\b|as\b|self\b)[A-Za-z_]\w*\b"


def shape(body):
    """A body with names, types and numbers left out, word by word."""
    body = re.sub(r"\b\d+\w*\b", "0", re.sub(WORDS, "N", body))
    return re.findall(r"\w+|[^\w\s]", body)


def twins(all_functions):
    """Functions whose bodies are one text, or nine tenths of one, when names, types and numbers are left out."""
    shapes = [(f, shape(f.body)) for f in all_functions]
    shapes = [(f, s) for f, s in shapes if len(s) >= 9]
    group = list(range(len(shapes)))
    for i, (_, a) in enumerate(shapes):
        for j in range(i + 1, len(shapes)):
            b = shapes[j][1]
            if group[j] != j or not 0.8 <= len(a) / len(b) <= 1.25:
                continue
            if a == b or len(a) >= 40 and difflib.SequenceMatcher(None, a, b, autojunk=False).ratio() >= 0.9:
                group[j] = group[i]
    found = {}
    for k, (f, _) in enumerate(shapes):
        found.setdefault(group[k], []).append(f.place())
    return [" = ".join(g) for g in found.values() if len(g) > 1]


def facts(all_functions):
    """A fact that stands in the `requires` of three functions or more, names of parameters left out."""
    seen = {}
    for f in all_functions:
        names = [re.split(r"[:\s]", p.lstrip("&").replace("mut ", ""))[0] for p in f.parameters]
        for kind, clause in f.clauses:
            if kind != "requires":
                continue
            for fact in re.split(r"×", clause):
                fact = fact.strip()
                while fact.startswith("(") and closing(fact, 0) == len(fact) - 1:
                    fact = fact[1:-1].strip()
                for n in names:
                    fact = re.sub(rf"\b{re.escape(n)}\b", "_", fact)
                fact = re.sub(r"\.(now|old)\b", "", " ".join(fact.split()))
                if len(fact) > 12 and not fact.startswith("length") and "≤ length" not in fact[:14]:
                    seen.setdefault(fact, {})[f.place()] = None
    return [f"{fact}: {len(at)}: {', '.join(at)}" for fact, at in sorted(seen.items(), key=lambda x: -len(x[1])) if len(at) >= 3]


GROUPS = [("nodes", "constraints", "factors"), ("nodes", "constraints", "factors", "prices"), ("constraints", "factors", "excesses"), ("book", "form", "count"),
          ("file", "form"), ("customers", "rates", "olds", "news"), ("hub", "weights"), ("from", "upto"), ("limits", "factors"), ("keys", "count"),
          ("terms", "limits", "factors", "book"), ("cents", "priced"), ("numbers", "flows"), ("year", "month", "day")]


def travelling(all_functions):
    """Parameters that travel together through three functions or more that are not for C."""
    found = []
    for group in GROUPS:
        at = [f.place() for f in all_functions if "crates/c_" not in f.file
              and set(group) <= {re.split(r"[:\s]", p)[0] for p in f.parameters}]
        if len(at) >= 3:
            found.append(f"({', '.join(group)}): {len(at)}: {', '.join(at)}")
    return found


def counted(all_functions):
    """A buffer with a length beside it, as two parameters."""
    found = []
    for f in all_functions:
        names = {re.split(r"[:\s]", p)[0]: p for p in f.parameters}
        if "crates/c_" not in f.file and "count" in names and "usize" in names["count"] and any("&" in p and "[" in p for p in f.parameters):
            found.append(f.place())
    return found


def places(files):
    files = list(files)
    all_functions = [f for name, text in files for f in functions(name, text)]
    return {
        "1 enums of the shape of Result or Option": lines(files, r"enum \w+ \{[^}]*?(?:\{[^}]*\}[^}]*)*?\bRefused\(|enum Checked\b", re.M | re.S),
        "1 refusals handed on by hand": lines(files, r"Refused\(refusal\)(?: = [^{]*\{\s*return| => \w+::Refused\(refusal\))|Err\((\w+)\) => (?:return )?Err\(\1\)", re.S),
        "1 numbers for kinds": lines(files, r"fn (?:from_number|number|kind_bit|period_bit)\("),
        "2 twins": twins(all_functions),
        "3 while loops": lines(files, r"^\s*(?:'\w+: )?while .*$"),
        "4 written by hand": lines(files, r"fn (?:same|exceeds|is_zero|plus|minus|negated|cell|below|less|lesser|greater|larger|copy|copy_book|same_flow|wide)\("),
        "5 facts in three contracts or more": facts(all_functions),
        "5 parameters that travel together": travelling(all_functions),
        "6 a buffer with a count beside it": counted(all_functions),
        "7 tables of functions, switches on a step": lines(files, r"\bdyn\b|\bfn\s*\(|\bstep_kind\b"),
    }


def main():
    arguments = [a for a in sys.argv[1:] if a != "--counts"]
    for point, found in places(sources(arguments[0] if arguments else None)).items():
        print(f"{point}: {len(found)}")
        if "--counts" not in sys.argv:
            for place in found:
                print(f"    {place}")


if __name__ == "__main__":
    main()
