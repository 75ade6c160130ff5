"""The notebook: its cells are run in their order, and print what it has beside them; its plots show the
library's figures."""

import io
import json
import os
import sys
import unittest
from contextlib import redirect_stdout
from unittest import mock

from support import IEEE14, ROOT, command

try:
    import matplotlib

    matplotlib.use("Agg")  # to memory: no window is opened
    import matplotlib.pyplot as plt
    import pandas  # noqa: F401: the cells need it
except ImportError as missing:
    raise unittest.SkipTest(f"{missing.name} is not installed") from None

NOTEBOOK = ROOT / "docs" / "first-task.ipynb"


class Notebook(unittest.TestCase):
    def setUp(self):
        self.cells = json.loads(NOTEBOOK.read_text())["cells"]
        self.addCleanup(os.chdir, os.getcwd())
        self.addCleanup(plt.close, "all")
        os.chdir(NOTEBOOK.parent)

    def run_cells(self):
        """The names that the cells leave behind."""
        names = {}
        for number, cell in enumerate(self.cells):
            if cell["cell_type"] == "code":
                printed = io.StringIO()
                with redirect_stdout(printed), mock.patch("sys.path", [*sys.path]):
                    exec(compile("".join(cell["source"]), f"cell {number}", "exec"), names)
                stored = "".join(text for output in cell["outputs"] for text in output["text"])
                self.assertEqual(printed.getvalue(), stored, f"cell {number}")
        return names

    def test_it_runs(self):
        names = self.run_cells()
        self.assertEqual(len(plt.get_fignums()), 2)
        loading, payments = (plt.figure(number).axes[0] for number in plt.get_fignums())
        bars = {label.get_text(): bar for label, bar in zip(loading.get_yticklabels(), loading.patches)}
        self.assertGreater(bars["7-8 reverse"].get_width(), 1)
        self.assertLess(bars["7-9"].get_width(), 1)
        drawn = sum(bar.get_height() for bar in payments.patches)
        self.assertAlmostEqual(drawn, float(names["settled"].sum) / 100, places=2)
        self.assertIn("sum 11034.22,", command("settle", IEEE14)[2])
        self.assertEqual(names["settled"].sum, 1103422)

    def test_it_is_a_notebook(self):
        notebook = json.loads(NOTEBOOK.read_text())
        self.assertEqual((notebook["nbformat"], len(self.cells) > 8), (4, True))
        self.assertEqual(len({cell["id"] for cell in self.cells}), len(self.cells))
        try:
            import nbformat
        except ImportError:
            return
        nbformat.validate(nbformat.read(str(NOTEBOOK), as_version=4))


if __name__ == "__main__":
    unittest.main()
