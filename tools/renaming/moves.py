"""What moved to another crate: imports, calls and paths by what a tree has now."""

import re
import sys

from .names import crates_in, definitions, imports
from .scopes import antt_names, edit_names, rt_names, target_of


def tell(text):
    print(f"rename: {text}", file=sys.stderr)


class Tree:
    """What the crates of a tree define, by file."""

    def __init__(self, root):
        house = root / "crates" if (root / "crates").is_dir() else root
        self.crates, self.index, self.items, self.types = crates_in(house), definitions(house), {}, {}
        for crate in self.crates:
            for path in sorted((house / crate / "src").rglob("*.rt")):
                code = path.read_text(encoding="utf-8")
                room = "" if path.stem in ("lib", "main") else f"{path.stem}."
                public = re.findall(r"^\s*pub (?:extern \"C\" )?(?:fn|struct|enum|const|type) (\w+)", code, re.M)
                self.items.setdefault(crate, set()).update(public)
                types = re.findall(r"^(?:pub )?(?:struct|enum) (\w+)", code, re.M)
                self.types.update({(crate, item): room + item for item in types})

    def home(self, near, kind, module, name, names):
        """Where a definition or law is now: (crate, kind, module, name). The nearest place first; further off it
        must be the only one."""
        also = [new for old, new, _ in names.specs if old == name]
        other = "specs" if kind == "proofs" else "proofs"
        rings = (near, (kind,), (module,)), (near, (kind,), ()), (near, (other,), ()), (self.crates, (kind, other), ())
        for homes, kinds, modules in rings:
            for one in (name, *also):
                found = [(*place, one) for place, there in self.index.items() if one in there
                         and place[0] in homes and place[1] in kinds and (not modules or place[2] in modules)]
                if len(found) == 1:
                    return found[0]
        return None

    def now(self, line, found, names, renames):
        """The lines of an import by what the tree has; what it has in no one place is told and stays."""
        crate, kind, module, _, alias = found
        near = [home for home in names.homes(crate) if home in self.crates]
        if not module.startswith("declared.") and not alias:
            return self.listed_now(line, found, near, names, renames)
        item = next((part for part in module.split(".") if part[:1].isupper()), "")
        whole = alias and item == module
        homes = [home for home in near if ((home, kind, module) in self.index if whole else (home, item) in self.types)]
        if len(homes) != 1:
            tell(f"in no one place: {line}")
            return [line]
        path = f"declared.{self.types.get((homes[0], item))}"
        path = module if whole else re.sub(rf"^declared\.(?:\w+\.)?{item}", path, module)
        return [line.replace(f"Rattle·{crate}.{kind}.{module}", f"Rattle·{homes[0]}.{kind}.{path}")]

    def listed_now(self, line, found, near, names, renames):
        crate, kind, module, listed, _ = found
        start, stop = re.match(r"(?:ghost )?use ", line)[0], ";" if line.rstrip().endswith(";") else ""
        groups = {}
        for one in (part.strip() for part in listed.split(",")):
            name, _, other = one.partition(" as ")
            home = self.home(near, kind, module, name, names)
            if not home:
                tell(f"in no one place: {name} of {crate}.{kind}.{module}")
                home = crate, kind, module, name
            if home[3] != name and not other:
                renames[name] = home[3]
            groups.setdefault(".".join(home[:3]), []).append(f"{home[3]} as {other}" if other else home[3])
        return [f"{start}Rattle·{place}.{{{', '.join(group)}}}{stop}" for place, group in groups.items()]


def moved_imports(text, crates, names, tree):
    """Imports from crates that are not in the folder, and the names that change with them."""
    lines, renames = [], {}
    for line in text.split("\n"):
        found = imports(line)
        from_afar = found and found[0][0] not in crates and (found[0][0] in names.moved or found[0][0] in tree.crates)
        lines.extend(tree.now(line, found[0], names, renames) if from_afar else [line])
    return "\n".join(lines), renames


def moved_calls(text, crates, names, tree):
    """Functions, types and constants of code, by the crate that has them now."""
    def now(found):
        crate, item = found[1], found[2]
        if crate in crates or crate not in names.moved and crate not in tree.crates:
            return found[0]
        homes = [home for home in names.homes(crate) if item in tree.items.get(home, ())]
        if len(homes) != 1:
            tell(f"in no one place: {crate}::{item}")
        return f"{homes[0]}::{item}" if len(homes) == 1 else found[0]
    return re.sub(r"(?<![\w:])([a-z_]+)::(\w+)", now, text)


def by_the_tree(path, text, crates, names, tree):
    """A file's text, or an edit's, by what the tree has now. Edits go first: they follow their file as it was."""
    if path.suffix == ".edit":
        old = target_of(path, text).read_text(encoding="utf-8")
        text = edit_names(text, moved_imports(old, crates, names, tree)[1], {}, {})
    else:
        text, renames = moved_imports(text, crates, names, tree)
        made = antt_names if path.suffix == ".antt" else rt_names
        text = made(text, renames, {}, {}) if renames else text
    return text if path.suffix == ".antt" else moved_calls(text, crates, names, tree)


def moved_paths(text, names, root):
    """Paths of files of crates that were taken apart."""
    def now(found):
        crate, file = found[2], found[3]
        homes = [home for home in names.moved.get(crate, ()) if (root / "crates" / home / file).is_file()]
        return f"{found[1]}{homes[0]}/{file}" if len(homes) == 1 else found[0]
    return re.sub(r"(?<![\w/])(crates/|)([a-z_]+)/((?:specs|proofs|src)/[\w/]+\.(?:antt|rt))", now, text)
