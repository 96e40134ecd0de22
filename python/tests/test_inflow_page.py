"""The page docs/use/INFLOWS.md: its blocks are run one after the other, and what they print is compared."""
import os
import re
import unittest

from inflow_support import Folder, needs_matplotlib, needs_numpy, needs_pandas, needs_scipy
from inflow_page import BLOCK, PAGE, run_blocks


class Page(Folder):
    @needs_numpy
    @needs_scipy
    @needs_pandas
    @needs_matplotlib
    def test_the_page(self):
        self.addCleanup(os.chdir, os.getcwd())
        os.chdir(self.folder)
        page = PAGE.read_text(encoding="utf-8")
        self.assertEqual(run_blocks(page), page)

    def test_each_block_is_run_and_what_it_prints_is_shown(self):
        page = PAGE.read_text(encoding="utf-8")
        blocks = [it.groups() for it in BLOCK.finditer(page)]
        self.assertEqual(page.count("```"), 2 * len(blocks))
        for (kind, block), (following, _) in zip(blocks, blocks[1:]):
            self.assertEqual(following == "text", kind == "python" and re.search(r"\bprint\(", block) is not None, block)


if __name__ == "__main__":
    unittest.main()
