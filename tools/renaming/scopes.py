"""Definitions of specs, renamed where they stand and where they are imported from there."""

import re

from .names import imports

WORD = re.compile(r"[^\s(){}\[\].;,:\"`⌜⌝]+")  # a name of antt
COMMENT = re.compile(r"(?:^|(?<=\s))--(?=\s|$)")


def renamed_definitions(index, names):
    """(crate, module, old): new, of the definitions whose declaration the table has."""
    found = {}
    for old, new, declaration in names.specs:
        place, _, part = declaration[1:].partition(" ") if declaration.startswith("@") else ("", "", declaration)
        for (crate, kind, module), lines in index.items():
            if kind == "specs" and place in ("", crate) and any(part in line for line in lines.get(old, ())):
                found[crate, module, old] = new
    return found


def scope_of(text, own, module, renamed):
    """What is renamed in a file: the names that it defines or imports, and those behind another module's name."""
    plain = {old: new for (crate, place, old), new in renamed.items() if (crate, place) == (own, module)}
    behind = {}
    for crate, kind, place, listed, alias in imports(text):
        for (other, there, old), new in renamed.items():
            if (crate, kind, place) == (other, "specs", there):
                if alias:
                    behind[alias, old] = new
                elif old in [one.strip() for one in listed.split(",")]:
                    plain[old] = new
    return plain, behind


def import_line(line, renamed):
    """An import with the new names of what it lists."""
    for crate, kind, place, listed, _ in imports(line):
        if kind == "specs" and listed:
            names = [one.strip().split(" ", 1) for one in listed.split(",")]
            new = [" ".join([renamed.get((crate, place, name), name), *alias]) for name, *alias in names]
            line = line.replace("{" + listed + "}", "{" + ", ".join(new) + "}")
    return line


def in_code(code, plain, behind):
    """Names in a line of antt. A field (`x .name`, `name = ..` of a record, `pub name :`) is none of them."""
    if not any(word in code for word in plain) and not any(word in code for _, word in behind):
        return code

    def new_name(found):
        word, before, after = found[0], code[: found.start()], code[found.end() :]
        if before.endswith("."):
            alias = re.search(r"([^\s(){}.;,]+)\.$", before)
            return behind.get((alias[1], word), word) if alias else word
        alone = not before.strip() and code.rstrip().endswith(";")
        field = after.startswith(" = ") and (alone or re.search(r"[{;]\s*$", before))
        declared = re.fullmatch(r"\s+pub ", before) and after.startswith(" :")
        return word if field or declared else plain.get(word, word)
    return WORD.sub(new_name, code)


def in_prose(prose, plain):
    """Names in a comment: those in backquotes, and those that are no word of English."""
    if not any(word in prose for word in plain):
        return prose

    def new_name(found):
        return plain.get(found[0], found[0]) if re.search(r"[a-z][A-Z]", found[0]) else found[0]
    prose = re.sub(r"`([^`\s]+)`", lambda found: f"`{plain.get(found[1], found[1])}`", prose)
    return WORD.sub(new_name, prose)


def antt_names(text, plain, behind, renamed):
    lines = []
    for line in text.split("\n"):
        found = COMMENT.search(line)
        code, prose = (line[: found.start()], line[found.start() :]) if found else (line, "")
        code = import_line(code, renamed) if code.startswith("use ") else in_code(code, plain, behind)
        lines.append(code + in_prose(prose, plain))
    return "\n".join(lines)


def rt_names(text, plain, behind, renamed):
    """In code names of definitions stand between the corners of contracts alone. A contract may take several lines."""
    lines = []
    for line in text.split("\n"):
        if line.startswith("ghost use "):
            line = import_line(line, renamed)
        elif line.lstrip().startswith("//"):
            line = in_prose(line, plain)
        lines.append(line)
    return re.sub(r"⌜[^⌝]*⌝", lambda found: in_code(found[0], plain, behind), "\n".join(lines))


def target_of(path, text):
    """The file that an edit changes."""
    named = re.search(r"^file: (\S+)$", text, re.M)
    target = path.parents[1] / named[1] if named else path
    return target if target.is_file() else path


def edit_names(text, plain, behind, renamed):
    """An edit has the names of the file that it changes."""
    lines = []
    for line in text.split("\n"):
        if line.startswith(("old: ", "new: ")):
            whole = "use Rattle·" in line
            line = line[:5] + (import_line(line[5:], renamed) if whole else in_code(line[5:], plain, behind))
        lines.append(line)
    return "\n".join(lines)


def definition_names(path, text, own, renamed):
    """A file's text, or an edit's, with the new names of definitions."""
    if not any(old in text for _, _, old in renamed):
        return text
    place = target_of(path, text) if path.suffix == ".edit" else path
    module = place.stem if place.parent.name == "specs" else ""
    scope = scope_of(place.read_text(encoding="utf-8"), own, module, renamed)
    made = {".edit": edit_names, ".rt": rt_names, ".antt": antt_names}[path.suffix]
    return made(text, *scope, renamed)
