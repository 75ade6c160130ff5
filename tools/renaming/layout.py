"""Lines that longer names made too wide, and the list of crates by its sections."""

import re

from .moves import tell

PROSE, CODE, HEADER = 100, 165, 88  # the widths of pages, of code and specs, of the header's comments


def narrowed(text):
    """Lines of specs that became too wide, broken before their last arrow outside parentheses."""
    lines = []
    for line in text.split("\n"):
        starts = [line[: found.start()] for found in re.finditer(" → ", line)]
        starts = [start for start in starts if len(start) <= CODE and start.count("(") == start.count(")")]
        if len(line) > CODE and starts and not line.startswith("use "):
            indent = re.match(r" *", line)[0] + "    "
            lines += [starts[-1], indent + line[len(starts[-1]) + 1 :]]
        else:
            lines.append(line)
    return "\n".join(lines)


def wrapped(lines, start, indent, width):
    words = " ".join([lines[0][len(start) :], *(line[len(indent) :] for line in lines[1:])]).split()
    made, line = [], start + words[0]
    for word in words[1:]:
        if len(line) + 1 + len(word) > width:
            made.append(line)
            line = indent + word
        else:
            line += " " + word
    return [*made, line]


def filled(text):
    """A page's prose that became too wide, filled anew from the wide line to its paragraph's end."""
    lines, fenced, at = text.split("\n"), False, 0
    while at < len(lines):
        line = lines[at]
        fenced ^= line.lstrip().startswith("```")
        prose = not fenced and not line.lstrip().startswith(("|", "#", "[", "!"))
        if prose and len(line) > PROSE and " " in line.strip()[:PROSE]:
            end = at + 1
            while end < len(lines) and re.match(r"\s*(?![-*|#>`]|\d+\. )\S", lines[end]):
                end += 1
            start = re.match(r"\s*(?:[-*] |\d+\. +)?", line)[0]
            indent = re.match(r"\s*", lines[at + 1])[0] if end > at + 1 else " " * len(start)
            lines[at:end] = wrapped(lines[at:end], start, indent, PROSE)
        at += 1
    return "\n".join(lines)


def filled_comments(text):
    """The same in a header's comments."""
    lines, at = text.split("\n"), 0
    while at < len(lines):
        if len(lines[at]) > HEADER and lines[at].startswith(" * "):
            end = at + 1
            while end < len(lines) and re.match(r" \* [^\s@-]", lines[end]):
                end += 1
            lines[at:end] = wrapped(lines[at:end], " * ", " * ", HEADER)
        at += 1
    return "\n".join(lines)


def aligned(text, names):
    """The lines behind a header's declaration whose name becomes longer, moved with its parenthesis."""
    lines, depth, shift = text.split("\n"), 0, 0
    for at, line in enumerate(lines):
        if line.startswith((" *", "/*")):
            continue
        if depth:
            lines[at] = " " * shift + line
        else:
            head = line[: line.rfind("(") + 1]
            shift = len(names.in_words(head)) - len(head)
        depth = max(0, depth + line.count("(") - line.count(")"))
    return "\n".join(lines)


def sections_of(crates, names):
    """(title, crates) of each section, in the list's order; those of the C interface by name."""
    found = [(title, [crate for crate in crates if any(re.fullmatch(pattern, crate) for pattern in patterns)])
             for title, patterns in names.sections]
    found = [(title, sorted(there) if title.startswith("c_") else there) for title, there in found]
    return [*found, ("others", [crate for crate in crates if not any(crate in there for _, there in found)])]


def crate_list(text, names):
    """crates.txt: each crate under the section of its subject; its words from the last crate to the first."""
    head, *rows = [line for line in text.split("\n") if line.strip() and not re.match(r"# (?!NAME:)", line)]
    listed = {}
    for row in rows:
        words, mark, entries = row.partition("   #")
        crate, *below = [names.crates.get(word, word) for word in re.split(r":? +|:$", words) if word]
        listed[crate] = below, mark + names.in_words(entries)
    sections = sections_of(listed, names)
    place = {crate: at for at, crate in enumerate(crate for _, crates in sections for crate in crates)}
    made = [head]
    for title, crates in sections:
        made += ["", f"# {title}"] if crates else []
        for crate in crates:
            below, entries = listed[crate]
            below = sorted(below, key=lambda word: -place.get(word, -1))
            made.append(f"{crate}:{''.join(' ' + word for word in below)}{entries}")
            for word in below:
                if place.get(word, -1) > place[crate]:
                    tell(f"crates.txt: {crate} stands above {word}, which it names")
    return "\n".join(made) + "\n"
