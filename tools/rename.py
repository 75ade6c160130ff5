#!/usr/bin/env python3
"""Changes names, and nothing else, by renaming/names.txt: in a tree of this project, or in a folder of crates.

Crates, modules, functions, definitions and words get their new names: folders and files, paths, imports, crates.txt
with its sections, must-fail edits, documents, tests, bindings. A definition is renamed where it stands and where it is
imported from there, and nowhere else. What is imported from crates that the folder does not have is looked up in a
tree, since definitions moved with their crates. The notes on landings and the changelog tell what was: of them links
alone follow. A second run changes nothing. It reads and writes the spelling of the kits before rattle-kit-13.

Usage: rename.py FOLDER [--tree TREE]   TREE: where imports are looked up; by default FOLDER if it is a tree,
                                        else the tree that this script stands in
"""

import re
import sys
from pathlib import Path

from renaming.layout import aligned, crate_list, filled, filled_comments, narrowed
from renaming.moves import Tree, by_the_tree, moved_paths, tell
from renaming.names import Names, crates_in, definitions, is_text
from renaming.scopes import definition_names, renamed_definitions

HISTORY = ("docs/landings/", "CHANGELOG.md")
NOT_OURS = (".git/", "target/", "dist/", "tools/rename.py", "tools/renaming/")
# What rt makes of a function's name.
KEBAB = r"(?<![\w-])((?:Need-|After-)?){}(\d*(?:-(?:requires|spec|ensures)(?:-\d+)?)?)(?![\w-])"


class Folder:
    """What is renamed."""

    def __init__(self, root):
        self.root = root
        self.house = root / "crates" if (root / "crates").is_dir() else root
        self.is_tree = self.house != root
        self.crates = []  # under their new names

    def files(self):
        for path in sorted(self.root.rglob("*")):
            name = path.relative_to(self.root).as_posix()
            if path.is_file() and not name.startswith(NOT_OURS) and "/target/" not in name and is_text(path):
                yield name, path

    def crate_of(self, path):
        """The crate that a file stands in, and nothing for others."""
        inside = self.house in path.parents and path.parent != self.house
        return path.relative_to(self.house).parts[0] if inside else ""


# ---- files and folders

def move(old, new):
    if old.exists() and not new.exists():
        old.rename(new)


def move_files(folder, names):
    house = folder.house
    for old, new in names.crates.items():
        move(house / old, house / new)
    for crate, kind, old, new in names.modules:
        move(house / crate / kind / f"{old}.antt", house / crate / kind / f"{new}.antt")
    for crate, old, new in names.functions:
        for path in sorted((house / crate).glob(f"proofs/**/{old}")):
            move(path, path.with_name(new))
    for old, new in names.words.items():
        for place in (f"must-fail/{old}.edit", f"proofs/{old}", f"proofs/*/{old}"):
            for path in sorted(house.glob(f"*/{place}")):
                move(path, path.with_name(path.name.replace(old, new)))
    for old, new in names.files.items():
        move(folder.root / old, folder.root / new)


# ---- the names of a text

def crate_names(name, text, folder, names, own):
    """The names of crates: in paths of imports, of code and of files; in prose those that can be nothing else."""
    local = {path.stem for path in (folder.house / own / "src").glob("*.rt")} if own else set()
    for old, new in names.crates.items():
        if old not in text:
            continue
        text = re.sub(rf"(?<=Rattle·){old}(?=[.·])", new, text)
        text = re.sub(rf"(?<![\w/-]){old}(?=/(?:specs|proofs|src|must-fail)\b)|(?<=crates/){old}(?![\w-])", new, text)
        if old not in local and not name.endswith((".rs", ".py")):
            text = re.sub(rf"(?<![\w:]){old}(?=::)", new, text)
        if "_" in old and (own or name.endswith(".md")):
            text = re.sub(rf"(?<![\w-]){old}(?![\w-])", new, text)
        elif name.endswith("DEMANDS.md"):
            text = text.replace(f"({old})", f"({new})")
        elif name.endswith("MAP.md"):
            text = text.replace(f"`{old}`", f"`{new}`")
    return text


def module_names(name, text, names, own):
    for crate, kind, old, new in names.modules:
        if old not in text:
            continue
        path = rf"(?<=Rattle·){crate}(·{kind})?\.{kind}\.{old}(?=[.\s]|$)"
        text = re.sub(path, rf"{crate}\1.{kind}.{new}", text, flags=re.M)
        text = text.replace(f"{crate}/{kind}/{old}.antt", f"{crate}/{kind}/{new}.antt")
        if own == crate and name.endswith(f"{kind}/Lib.antt"):
            text = re.sub(rf"^pub mod {old}$", f"pub mod {new}", text, flags=re.M)
        if own == crate and name.endswith((".edit", ".antt", ".rt")):
            text = re.sub(rf"(?<![\w/]){kind}/{old}\.antt", f"{kind}/{new}.antt", text)
    return text


def function_names(name, text, names, own, calls):
    """A function of a crate: there by its name, elsewhere by its path, in proofs by what rt makes of its name."""
    for crate, old, new in names.functions:
        if old not in text and old.replace("_", "-") not in text:
            continue
        text = re.sub(rf"\b{crate}::{old}(?!\w)", f"{crate}::{new}", text)
        if own != crate and (own, crate, new) not in calls:
            continue
        if name.endswith(".antt"):
            text = re.sub(rf"(?<=proofs\.){old}(?=\.)", new, text)
            text = re.sub(KEBAB.format(old.replace("_", "-")), rf"\g<1>{new.replace('_', '-')}\2", text)
            text = text.replace(f"`{old}`", f"`{new}`")
        elif own == crate and name.endswith((".rt", ".edit")):
            text = re.sub(rf"(?<![\w.:]){old}(?=\()|`{old}`", lambda found: found[0].replace(old, new), text)
    return text


def word_names(name, text, names, own):
    if any(word in text for word in names.words):
        text = names.in_words(text)
    for places, old, new in names.phrases:
        if old in text and any(name.startswith(place) or own == place for place in places):
            phrase = re.compile(rf"(?<![\w-]){re.escape(old)}(?![\w-])")
            lines = text.split("\n")
            text = "\n".join(line if of_a_paper(name, line) else phrase.sub(lambda _: new, line) for line in lines)
    return text


def of_a_paper(name, line):
    """Whether a line has the paper's own words: an edit's head, a heading, a term in quotes."""
    heads = ("# ",) if name.endswith(".edit") else ("#", "**Paper") if name.endswith(".md") else ()
    return line.startswith(heads) or '"settled form"' in line


def under(text, heading, old, new):
    """A page's name in backquotes, under the headings that have these words."""
    parts = re.split(r"(?m)(?=^#+ )", text)
    return "".join(part.replace(f"`{old}`", f"`{new}`") if heading in part.split("\n")[0] else part for part in parts)


def links(text, names):
    """Of a page that tells what was the links alone."""
    for old, new in names.crates.items():
        text = re.sub(rf"(\]\([^)]*crates/){old}(?=/)", rf"\g<1>{new}", text)
    return text


def new_text(name, path, text, folder, names, calls):
    """All names but those of definitions, which are looked up when every other name is the new one."""
    own = folder.crate_of(path)
    if name.startswith(HISTORY):
        return links(text, names)
    if name == "crates.txt":
        return crate_list(text, names)
    new = aligned(text, names) if name.endswith(".h") else text
    new = crate_names(name, new, folder, names, own)
    new = module_names(name, new, names, own)
    new = function_names(name, new, names, own, calls) if own or name.endswith(".md") else new
    new = word_names(name, new, names, own)
    for place, *row in names.pages:
        new = under(new, *row) if name == place else new
    if folder.is_tree and not own:
        new = moved_paths(new, names, folder.root)
    if new != text and name.endswith((".md", ".h")):
        new = filled(new) if name.endswith(".md") else filled_comments(new)
    return new


# ---- all of it

def calls_in(folder, names):
    """(crate, other crate, function) for each renamed function that code calls by its path, under either name."""
    found = set()
    for crate in folder.crates:
        code = "\n".join(path.read_text(encoding="utf-8") for path in (folder.house / crate / "src").rglob("*.rt"))
        for other, old, new in names.functions:
            if re.search(rf"\b{other}::(?:{old}|{new})\b", code):
                found.add((crate, other, new))
    return found


def left_over(folder, names):
    """Crates that were taken apart and that pages still name: which part is meant is for a reader to say."""
    gone = [crate for crate in names.moved if "_" in crate and crate not in folder.crates]
    for name, path in folder.files():
        if name.endswith(".md") and not name.startswith(HISTORY):
            for number, line in enumerate(path.read_text(encoding="utf-8").split("\n"), 1):
                for crate in gone:
                    if re.search(rf"(?<![\w-]){crate}(?![\w-])", line):
                        tell(f"{name}:{number} names {crate}")


def write(path, made):
    """Whether a file's text is another one now."""
    old = path.read_text(encoding="utf-8")
    new = made(old)
    if new != old:
        path.write_text(new, encoding="utf-8")
    return new != old


def rename(folder, names, tree):
    """How many files changed."""
    move_files(folder, names)
    folder.crates = crates_in(folder.house)
    calls, changed = calls_in(folder, names), set()
    for name, path in folder.files():
        changed |= {path} if write(path, lambda text: new_text(name, path, text, folder, names, calls)) else set()
    renamed = renamed_definitions(definitions(folder.house), names)
    code = [path for _, path in folder.files() if folder.crate_of(path) and path.suffix in (".antt", ".rt", ".edit")]
    code.sort(key=lambda path: path.suffix != ".edit")
    for path in code:
        own = folder.crate_of(path)
        changed |= {path} if write(path, lambda text: definition_names(path, text, own, renamed)) else set()
        if path.parent.name == "specs":
            changed |= {path} if write(path, narrowed) else set()
    now = Tree(tree)
    for path in code:
        changed |= {path} if write(path, lambda text: by_the_tree(path, text, folder.crates, names, now)) else set()
    return len(changed)


def main(words):
    if len(words) not in (1, 3) or words[1:2] not in ([], ["--tree"]) or not Path(words[0]).is_dir():
        print(__doc__.split("\n\n")[-1], file=sys.stderr)
        return 2
    here = Path(__file__).resolve().parents[1]
    names = Names(here / "tools" / "renaming" / "names.txt")
    folder = Folder(Path(words[0]).resolve())
    tree = Path(words[2]).resolve() if len(words) == 3 else folder.root if folder.is_tree else here
    changed = rename(folder, names, tree)
    if folder.is_tree:
        left_over(folder, names)
    print(f"rename: {changed} files changed in {folder.root}")
    return 0


if __name__ == "__main__":
    sys.exit(main(sys.argv[1:]))
