"""The documents: every command of the tutorial's chapters and of the README's first section is run, and what
it prints is compared with the page."""

import os
import re
import shutil
import subprocess
import unittest

from support import ROOT, FolderTest


def commands(text):
    """(command, expected output) of each `$` line of the console blocks."""
    out = []
    for block in re.findall(r"^```console\n(.*?)^```$", text, re.S | re.M):
        for part in re.split(r"^\$ ", block, flags=re.M)[1:]:
            command, _, expected = part.partition("\n")
            out.append((command, expected))
    return out


CHAPTERS = sorted((ROOT / "docs" / "tutorial").glob("*.md"))


class Walked(FolderTest):
    """A folder in which a page's commands are run."""

    def setUp(self):
        super().setUp()
        for name in ("crr", "python"):
            os.symlink(ROOT / name, self.folder / name)
        # The example's script finds the package two folders above itself.
        shutil.copytree(ROOT / "examples", self.folder / "examples")

    def walk(self, text, at_least):
        steps = commands(text)
        self.assertGreaterEqual(len(steps), at_least)
        for command, expected in steps:
            done = subprocess.run(
                ["bash", "-c", command], cwd=self.folder, stdout=subprocess.PIPE, stderr=subprocess.STDOUT
            )
            self.assertEqual(done.stdout.decode(), expected, f"after $ {command}")


class Documents(Walked):
    def test_every_chapter_is_listed(self):
        listed = re.findall(r"\]\(tutorial/([\w-]+\.md)\)", (ROOT / "docs" / "TUTORIAL.md").read_text())
        self.assertEqual(sorted(listed), sorted(page.name for page in CHAPTERS))

    def test_chapters_make_nothing_by_hand(self):
        """What they are on stands in examples/: nobody has to copy, cut or edit files to follow them."""
        for page in CHAPTERS:
            for command, _ in commands(page.read_text()):
                words = set(re.findall(r"[\w.-]+", command))
                self.assertFalse(words & {"sed", "awk", "mkdir", "cp", "grep", "printf"}, command)

    def test_examples_differ_where_they_say(self):
        """Cases made from the IEEE 14-bus one have its files but those that they change."""
        changed = {
            "broken": {"book.csv"},
            "cleared": {"book.csv"},
            "copy": {"book.csv"},
            "derated": {"book.csv", "constraints.csv"},
            "lses": set(),
            "network": {"branches.csv"},
            "overbooked": {"book.csv"},
            "terms": {"book.csv"},
        }
        for name, files in changed.items():
            for path in sorted((ROOT / "examples" / name).glob("*.csv")):
                base = ROOT / "examples" / "ieee14" / path.name
                if base.exists():
                    self.assertEqual(path.read_bytes() != base.read_bytes(), path.name in files, path)

    def test_networks(self):
        os.symlink(ROOT / "tests", self.folder / "tests")
        self.walk((ROOT / "docs" / "NETWORKS.md").read_text(), 1)

    def test_readme(self):
        text = (ROOT / "README.md").read_text()
        files = re.findall(r"`(\w+\.csv)`[^\n]*\n\n```csv\n(.*?)```", text, re.S)
        self.assertEqual(
            [name for name, _ in files], ["constraints.csv", "factors.csv", "book.csv", "prices.csv"]
        )
        (self.folder / "first").mkdir()
        for name, content in files:
            (self.folder / "first" / name).write_text(content)
        self.walk(text, 3)

    def test_readme_quotes_demand_3(self):
        quoted = re.search(r"^```antt\n(.*?)^```$", (ROOT / "README.md").read_text(), re.S | re.M)
        contract = (ROOT / "crates/test_rules/specs/TestBook.antt").read_text()
        self.assertIn(" ".join(quoted.group(1).split()), " ".join(contract.split()))

    def test_links(self):
        for page in [ROOT / "README.md", ROOT / "CHANGELOG.md", *(ROOT / "docs").rglob("*.md")]:
            text = page.read_text()
            inline, named = r"\]\(([^)#]+?)(?:#[^)]*)?\)", r"^\[[^\]]+\]: (\S+?)(?:#\S*)?$"
            for target in re.findall(inline, text) + re.findall(named, text, re.M):
                if "://" not in target:
                    self.assertTrue((page.parent / target).exists(), f"{page}: {target}")


class Chapters(Walked):
    """Each chapter of the tutorial is walked by a test of its own."""


def _walks(page):
    return lambda self: self.walk(page.read_text(), 3)


for _page in CHAPTERS:
    setattr(Chapters, f"test_{_page.stem.replace('-', '_')}", _walks(_page))


if __name__ == "__main__":
    unittest.main()
